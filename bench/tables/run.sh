#!/bin/sh
# The tables of models of different sizes: rows, seconds of the processor and peak memory of `pict`, and
# the rows and seconds of python3-allpairspy, where it is installed and the case is one of pairs
# without constraints.
# Usage: bench/tables/run.sh [PICT]     the built program; crates/pict/out/pict where none is given
set -e
here=$(cd "$(dirname "$0")" && pwd)
pict=${1:-$here/../../crates/pict/out/pict}
work=$(mktemp -d)
trap 'rm -rf "$work"' EXIT
others=no
/usr/bin/python3 -c 'import allpairspy' 2>/dev/null && others=yes

# The rows and seconds of python3-allpairspy on parameters of these numbers of values.
all_pairs() {
    timeout 60 /usr/bin/python3 - "$1" <<'PY' || echo "more than 60 s"
import sys, time
from allpairspy import AllPairs
shape = [part.split("^") for part in sys.argv[1].split()]
values = [list(range(int(size))) for size, count in shape for _ in range(int(count))]
start = time.process_time()
rows = sum(1 for _ in AllPairs(values))
print(f"{rows} rows, {time.process_time() - start:.2f} s")
PY
}

# One line for a model: its name, its shape, the order, and the number of constraints.
measure() {
    awk -v shape="$2" -v rules="$4" -f "$here/model.awk" > "$work/model.txt"
    if /usr/bin/time -f '%U s, %M kB' -o "$work/time" "$pict" "$work/model.txt" "/o:$3" > "$work/rows" 2> "$work/told"; then
        told="$(($(wc -l < "$work/rows") - 1)) rows, $(cat "$work/time")"
    else
        told=$(cat "$work/told")
    fi
    other=-
    if [ $others = yes ] && [ "$3" = 2 ] && [ "$4" = 0 ]; then other=$(all_pairs "$2"); fi
    printf '%-42s %-36s %s\n' "$1" "$told" "$other"
}

printf '%-42s %-36s %s\n' model pict allpairspy
measure '3^13' '3^13' 2 0
measure '4^15 3^17 2^29' '4^15 3^17 2^29' 2 0
measure '10^20' '10^20' 2 0
measure '2^100' '2^100' 2 0
measure '2^30, order 4' '2^30' 4 0
measure '5^40, order 3' '5^40' 3 0
measure '10^256' '10^256' 2 0
measure '60 parameters, 30 constraints' '2^60' 2 30
