#!/bin/sh
# Runs a command once for each row of a table, with the cells as its words, and counts the rows on which it fails.
# A table without rows is a failure too.
# Usage: each_row.sh TABLE COMMAND [WORD..]        as in: pict build.txt > jobs.txt; each_row.sh jobs.txt ./run_job
if [ $# -lt 2 ]; then sed -n '4s/^# //p' "$0" >&2; exit 2; fi
table=$1; shift
[ -n "$(tail -n +2 "$table")" ] || { echo "no rows in $table" >&2; exit 1; }
failed=0
row=1
while IFS= read -r line; do
    row=$((row + 1))
    # the cells become words: split at tabs alone, and nothing in them is expanded
    old=$IFS; IFS=$(printf '\t'); set -f
    if ! "$@" $line < /dev/null; then
        echo "failed: line $row of $table: $line" >&2
        failed=$((failed + 1))
    fi
    set +f; IFS=$old
done << ROWS
$(tail -n +2 "$table")
ROWS
echo "$failed rows failed" >&2
[ "$failed" -eq 0 ]
