#!/usr/bin/env python3
"""How long `jeldroft lint` takes on drawn models, as lines of a Markdown table.

Usage: bench/lint/run.py [OPTION..]

    --jeldroft FILE   the built program; crates/jeldroft/out/jeldroft where none is given
    --sizes P,V,C ..  numbers of parameters, of values of each, and of constraints; 200,5,200 and smaller ones
    --number N        the number of the random choices, 1
    --repeats N       how often each command is run, 3; the least time counts

Each constraint forbids one value of a parameter where another has one of its values; in some models a value is in no test,
a comparison is always true, or constraints contradict each other. The status is 1 where a run ends with another status
than 0 and 1, or takes a second or more without `--all`.
"""
import argparse
import os
import random
import resource
import subprocess
import sys
import tempfile
import time

HERE = os.path.dirname(os.path.abspath(__file__))
SIZES = ["20,5,20", "100,5,100", "200,5,200", "200,2,400"]


def model(params, values, constraints, choices, odd):
    """The text of a model; an odd one has some of everything that is reported."""
    lines = [f"P{p}: " + ", ".join(f"v{v}" for v in range(values)) for p in range(params)]
    for _ in range(constraints):
        p, q = choices.sample(range(params), 2)
        lines.append(f'IF [P{p}] = "v{choices.randrange(values)}" THEN [P{q}] <> "v{choices.randrange(values)}";')
    if odd:
        for p in range(0, params, max(1, params // 10)):
            q = (p + 1) % params
            lines.append(f'IF [P{p}] = "v0" THEN [P{q}] = "w";')
            lines.append(f'IF [P{p}] = "v0" THEN [P{q}] >= "a";')
    return "\n".join(lines) + "\n"


def seconds(words):
    """The time of a run and its status."""
    before = resource.getrusage(resource.RUSAGE_CHILDREN)
    start = time.monotonic()
    status = subprocess.run(words, stdout=subprocess.DEVNULL).returncode
    wall = time.monotonic() - start
    after = resource.getrusage(resource.RUSAGE_CHILDREN)
    return min(wall, after.ru_utime + after.ru_stime - before.ru_utime - before.ru_stime), status


def main():
    parser = argparse.ArgumentParser(add_help=True)
    parser.add_argument("--jeldroft", default=os.path.join(HERE, "..", "..", "crates", "jeldroft", "out", "jeldroft"))
    parser.add_argument("--sizes", nargs="+", default=SIZES)
    parser.add_argument("--number", type=int, default=1)
    parser.add_argument("--repeats", type=int, default=3)
    args = parser.parse_args()
    failed = False
    print("| Parameters, values, constraints | | Seconds | With `--all` |\n|---|---|---|---|")
    for size in args.sizes:
        params, values, constraints = map(int, size.split(","))
        for odd in (False, True):
            text = model(params, values, constraints, random.Random(args.number), odd)
            with tempfile.TemporaryDirectory() as folder:
                name = os.path.join(folder, "model.txt")
                with open(name, "w", encoding="utf-8") as file:
                    file.write(text)
                times = []
                for words in ([], ["--all"]):
                    runs = [seconds([args.jeldroft, "lint", *words, name]) for _ in range(args.repeats)]
                    failed |= any(status > 1 for _, status in runs)
                    times.append(min(taken for taken, _ in runs))
            failed |= times[0] >= 1
            print(f"| {params}, {values}, {constraints} | {'with findings' if odd else ''} | {times[0]:.2f} | {times[1]:.2f} |")
    return 1 if failed else 0


if __name__ == "__main__":
    sys.exit(main())
