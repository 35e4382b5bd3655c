#!/bin/sh
# How the cost of growth rises with the rows: two parameters of n values, n doubled from line to line,
# where the rows are the n * n pairs, and all values of 8 to 12 parameters of 3 values (/o:max). Rows,
# seconds of the processor, peak memory, and the seconds for a million rows, which stay about the
# same where the cost rises as the rows do.
# Usage: bench/growth/run.sh [PICT]     the built program; crates/pict/out/pict where none is given
set -e
here=$(cd "$(dirname "$0")" && pwd)
pict=${1:-$here/../../crates/pict/out/pict}
work=$(mktemp -d)
trap 'rm -rf "$work"' EXIT

# One line for a model: its shape and the order.
measure() {
    awk -v shape="$1" -f "$here/../tables/model.awk" > "$work/model.txt"
    /usr/bin/time -f '%U %M' -o "$work/time" "$pict" "$work/model.txt" "/o:$2" > "$work/rows"
    rows=$(($(wc -l < "$work/rows") - 1))
    awk -v shape="$1" -v order="$2" -v rows=$rows '{
        printf "%-8s /o:%-4s %9d rows %8.2f s %9d kB %6.2f s a million rows\n", shape, order, rows, $1, $2, $1 / rows * 1000000
    }' "$work/time"
}

for n in 100 200 400 800 1600; do measure "$n^2" 2; done
for n in 8 9 10 11 12; do measure "3^$n" max; done
