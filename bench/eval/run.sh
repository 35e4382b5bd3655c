#!/bin/sh
# Evaluations a second of a constraint of four terms: on numbers, on texts and on patterns, by the
# proved code and by the same in plain Rust (`rustc -O`). Works on a copy of the repository.
# Usage: bench/eval/run.sh [COUNT]
set -e
count=${1:-3000000}
here=$(cd "$(dirname "$0")" && pwd)
work=$(mktemp -d)
trap 'rm -rf "$work"' EXIT
mkdir -p "$work/crates/bench_eval/src" "$work/crates/bench_eval/proofs/all_of" "$work/crates/bench_eval/proofs/model_of"
cp -r "$here/../../crates/value_text" "$here/../../crates/cov_model" "$work/crates/"
grep -E '^(value_text|cov_model):' "$here/../../crates.txt" > "$work/crates.txt"
echo 'bench_eval: value_text cov_model' >> "$work/crates.txt"
cp "$here/rattle/main.txt" "$work/crates/bench_eval/src/main.rt"
for name in all_of model_of; do cp "$here/rattle/proofs/$name.txt" "$work/crates/bench_eval/proofs/$name/Answers.antt"; done
(cd "$work/crates/bench_eval" && rt run -- 1 1) > "$work/log" 2>&1 || { cat "$work/log"; exit 1; }
rustc -O "$here/plain.rs" -o "$work/plain" 2>/dev/null
rule=0
for name in numbers texts patterns; do
    rule=$((rule + 1))
    start=$(date +%s%N)
    "$work/crates/bench_eval/out/bench_eval" $rule "$count" >/dev/null
    end=$(date +%s%N)
    echo "$name: proved $((count * 1000000000 / (end - start))) a second, plain Rust: $("$work/plain" $rule "$count")"
done
