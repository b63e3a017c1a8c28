#!/bin/sh
# Builds the proved board as a static library, and the driver with the independent one at -O3; then prints steps per
# second of both, instructions per call of both under callgrind, and the cost of reading a text and one of half its size.
# Run it on a quiet machine: the instructions do not depend on the load, the times do.
set -eu
cd "$(dirname "$0")/../.."
kit=$(dirname "$(rt doc)")
out=$(mktemp -d)
trap 'rm -rf "$out"' EXIT

date -u
uptime
rt version
(cd crates/benchboard && rt lib) >"$out/staticlib.log" 2>&1 || { cat "$out/staticlib.log"; exit 1; }
RUSTFLAGS="-L $PWD/crates/benchboard/out -L $kit/c" \
    cargo build --release --offline --quiet --manifest-path tools/bench/Cargo.toml
bench=tools/bench/target/release/bench

"$bench" time
valgrind --tool=callgrind --combine-dumps=yes --callgrind-out-file="$out/counts" "$bench" count >/dev/null 2>&1
"$bench" report "$out/counts"

(cd crates/formcheck && rt run </dev/null) >"$out/formcheck.log" 2>&1 || { tail -5 "$out/formcheck.log"; exit 1; }
tools/bench/reading.sh crates/formcheck/out/formcheck
