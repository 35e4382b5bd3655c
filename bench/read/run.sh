#!/bin/sh
# The time in which a model of 256 parameters with 4,095 values each, 11 MB, is read: its lines
# sorted and its parameters read, with the start of the program; and how many parameters were read.
# Works on a copy of the repository.
# Usage: bench/read/run.sh [PARAMETERS]
set -e
params=${1:-256}
here=$(cd "$(dirname "$0")" && pwd)
work=$(mktemp -d)
trap 'rm -rf "$work"' EXIT
mkdir -p "$work/crates/bench_read/src"
for crate in value_text cov_model model_lex model_parse; do
    tar -C "$here/../../crates" --exclude=out -cf - "$crate" | tar -C "$work/crates" -xf -
    grep "^$crate:" "$here/../../crates.txt" >> "$work/crates.txt"
done
echo 'bench_read: value_text cov_model model_lex model_parse' >> "$work/crates.txt"
cp "$here/rattle/main.txt" "$work/crates/bench_read/src/main.rt"
awk -v params="$params" 'BEGIN {
    for (p = 0; p < params; p++) {
        printf "Param%d: value0", p
        for (v = 1; v < 4095; v++) printf ", value%d", v
        print ""
    }
}' > "$work/model.txt"
(cd "$work/crates/bench_read" && rt run -- "$work/model.txt") > "$work/log" 2>&1 || { cat "$work/log"; exit 1; }
for run in 1 2 3; do
    /usr/bin/time -f '%U s of the processor, %S s of the system, %e s by the clock' "$work/crates/bench_read/out/bench_read" "$work/model.txt"
done
