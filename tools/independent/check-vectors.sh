#!/usr/bin/env bash
# Holds the independent implementation against schedules with known output.
# Usage: check-vectors.sh FOLDER [WORD..]   FOLDER has NAME.in and NAME.out; WORD is deferred (default) or inplace.
set -euo pipefail

if [ $# -lt 1 ] || [ ! -d "$1" ]; then
    echo "usage: $0 FOLDER [deferred|inplace ..]" >&2
    exit 2
fi
folder=$1
shift
words=("$@")
[ ${#words[@]} -gt 0 ] || words=(deferred inplace)

here=$(cd "$(dirname "$0")" && pwd)
cargo build --quiet --release --offline --manifest-path "$here/Cargo.toml"
program=$here/target/release/independent

right=0
wrong=0
for input in "$folder"/*.in; do
    expected=${input%.in}.out
    for word in "${words[@]}"; do
        if "$program" "$word" < "$input" | cmp --silent - "$expected"; then
            right=$((right + 1))
        else
            wrong=$((wrong + 1))
            echo "differs: $word $input"
        fi
    done
done
echo "$right right, $wrong wrong"
[ "$wrong" -eq 0 ] && [ "$right" -gt 0 ]
