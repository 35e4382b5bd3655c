#!/usr/bin/env python3
"""The table of another generator as a row file: allpairspy (Debian's python3-allpairspy) on the parameter lines of a
model file without constraints, aliases and weights.

    python3 examples/use/allpairs_rows.py model.txt > rows.txt
    pict model.txt /measure:rows.txt
    pict model.txt /proof:proof.txt > table.txt; pictcheck model.txt rows.txt proof.txt

Neither trusts the generator: the first counts what the rows cover, the second accepts them only if they cover all of
it, or the proof shows that no row can.
"""
import sys

from allpairspy import AllPairs

with open(sys.argv[1], encoding="utf-8") as model:
    lines = [line.split(":", 1) for line in model if ":" in line and not line.startswith("#")]
names = [name.strip() for name, _ in lines]
values = [[value.strip() for value in text.split(",")] for _, text in lines]

print("\t".join(names))
for row in AllPairs(values):
    print("\t".join(row))
