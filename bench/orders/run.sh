#!/bin/sh
# How long `pictseq` takes for 8, 16, 32 and 64 events without precedences, at the lengths 2 and 3: orders,
# seconds of the processor and peak memory.
# Usage: bench/orders/run.sh [PICTSEQ]     the built program; crates/pictseq/out/pictseq where none is given
set -e
here=$(cd "$(dirname "$0")" && pwd)
pictseq=${1:-$here/../../crates/pictseq/out/pictseq}
work=$(mktemp -d)
trap 'rm -rf "$work"' EXIT
printf '%-10s %-8s %-10s %s\n' events length orders time
for events in 8 16 32 64; do
    awk -v count="$events" 'BEGIN { for (i = 1; i <= count; i++) print "event_" i }' > "$work/events.txt"
    for length in 2 3; do
        /usr/bin/time -f '%U s, %M kB' -o "$work/time" "$pictseq" "$work/events.txt" "/t:$length" > "$work/orders"
        printf '%-10s %-8s %-10s %s\n' "$events" "$length" "$(wc -l < "$work/orders")" "$(cat "$work/time")"
    done
done
