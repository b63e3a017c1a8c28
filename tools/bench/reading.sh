#!/bin/sh
# Instructions and time that a program takes to read and answer a text of 65,535 bytes, and one of half its size.
set -eu
program=$1
out=$(mktemp -d)
trap 'rm -rf "$out"' EXIT

# A whole schedule of so many bytes: reuses with the longest numbers of the form, and a few steps to fill up.
text() { # BYTES
    awk -v bytes="$1" 'BEGIN {
        long = "u 65535 65535 65535 65535 65535 65535\n"
        for (digits = 1; digits <= 4; digits++) {
            left = bytes - length("3\n8\n32\n8\n\n") - digits
            many = int((left - 4) / length(long))
            left -= many * length(long)
            steps = ""
            for (k = 0; left > 0; k++) {
                size = left <= 8 ? left : (left < 12 ? left - 4 : 8)
                steps = steps "s " substr("65535", 1, size - 3) "\n"
                left -= size
            }
            if (length(many + k "") == digits) break
        }
        printf "3\n8\n32\n8\n%d\n", many + k
        for (j = 0; j < many; j++) printf "%s", long
        printf "%s", steps
    }'
}

for bytes in 65535 32767; do
    text "$bytes" >"$out/text"
    valgrind --tool=callgrind --callgrind-out-file="$out/counts" "$program" <"$out/text" 2>"$out/said" >/dev/null
    count=$(awk '/Collected/ { print $4 }' "$out/said")
    start=$(date +%s%N)
    for _ in 1 2 3 4 5 6 7 8 9 10; do "$program" <"$out/text" >/dev/null; done
    stop=$(date +%s%N)
    said=$("$program" <"$out/text" | tail -1)
    echo "$(wc -c <"$out/text") bytes ($said): $count instructions, $(((stop - start) / 10000)) us a run with its start"
done
