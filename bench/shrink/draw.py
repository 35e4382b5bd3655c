#!/usr/bin/env python3
"""Draws a model for which suites are made shorter, on standard output.

Usage: bench/shrink/draw.py NAME [NUMBER]
       bench/shrink/draw.py --list          the names, each with its strength and its sizes

A size is that of the parameters, as VALUES^COUNT. Of the benchmark set of Cohen, Dwyer and Shi (2008) the sizes are those
that the literature names; which combinations are forbidden is drawn by bench/full_search/draw.py, with the number, 1
where none is given.
"""
import importlib.util
import os
import random
import sys

HERE = os.path.dirname(os.path.abspath(__file__))
sys.dont_write_bytecode = True
spec = importlib.util.spec_from_file_location("benchmark", os.path.join(HERE, "..", "full_search", "draw.py"))
benchmark = importlib.util.module_from_spec(spec)
spec.loader.exec_module(benchmark)

# Without constraints: the strength and the sizes.
PLAIN = {
    "3^13": (2, "3^13"),
    "4^15-3^17-2^29": (2, "4^15 3^17 2^29"),
    "4^1-3^39-2^35": (2, "4^1 3^39 2^35"),
    "10^20": (2, "10^20"),
    "2^100": (2, "2^100"),
    "5^10-4^10-3^10-2^10": (2, "5^10 4^10 3^10 2^10"),
    "10^256": (2, "10^256"),
    "3^20-by-3": (3, "3^20"),
    "5^40-by-3": (3, "5^40"),
    "10^10-by-3": (3, "10^10"),
    "2^30-by-4": (4, "2^30"),
}
# Sizes of the benchmark set, each with its strength.
DRAWN = {
    **{name: (2, name) for name in ("spin_s", "spin_v", "gcc", "apache", "bugzilla", "s1", "s2", "s3", "s7", "s8", "s16", "s18", "s27")},
    "spin_s-by-3": (3, "spin_s"),
    "bugzilla-by-3": (3, "bugzilla"),
}
# Mixed strength, and values that are invalid.
OWN = {"mixed": 2, "invalid": 2}
NAMES = [*PLAIN, *DRAWN, *OWN]


def strength_of(name):
    if name in OWN:
        return OWN[name]
    return (PLAIN.get(name) or DRAWN[name])[0]


def lines_of(counts):
    return [f"P{p}: " + ", ".join(f"v{p}_{v}" for v in range(count)) for p, count in enumerate(counts)]


def forbidden(chance, counts, arity):
    """A constraint that forbids a combination other than that of the first values."""
    members = sorted(chance.sample(range(len(counts)), arity))
    while True:
        values = [chance.randrange(counts[p]) for p in members]
        if any(values):
            break
    terms = [f'[P{p}] = "v{p}_{v}"' for p, v in zip(members, values)]
    last, value = members[-1], values[-1]
    return f'IF {" AND ".join(terms[:-1])} THEN [P{last}] <> "v{last}_{value}";'


def mixed(chance):
    """4^10 3^20 2^10: pairs, a relation by three and one by four, and a sub-model by three."""
    counts = list(benchmark.counted("4^10 3^20 2^10"))
    chance.shuffle(counts)
    lines = lines_of(counts)
    members = chance.sample(range(len(counts)), 20)
    lines += ["", f"@ 3 {{ {', '.join(f'P{p}' for p in sorted(members[:8]))} }}"]
    lines += [f"@ 4 {{ {', '.join(f'P{p}' for p in sorted(members[8:13]))} }}"]
    lines += [f"{{ {', '.join(f'P{p}' for p in sorted(members[13:17]))} }} @ 3", ""]
    return lines + [forbidden(chance, counts, arity) for arity in [2] * 10 + [3] * 3]


def invalid(chance):
    """4^40: every fourth parameter has two invalid values besides; two constraints."""
    counts = [4] * 40
    lines = lines_of(counts)
    for p in range(0, 40, 4):
        lines[p] += f", ~n{p}_0, ~n{p}_1"
    return lines + [""] + [forbidden(chance, counts, 2) for _ in range(2)]


def model_of(name, number):
    if name in PLAIN:
        return "\n".join(lines_of(list(benchmark.counted(PLAIN[name][1])))) + "\n"
    if name in DRAWN:
        return benchmark.model_of(DRAWN[name][1], "first", number)
    chance = random.Random(f"{name} {number}")
    return "\n".join({"mixed": mixed, "invalid": invalid}[name](chance)) + "\n"


def main():
    words = sys.argv[1:]
    if words == ["--list"]:
        for name in NAMES:
            sizes = PLAIN[name][1] if name in PLAIN else " | ".join(benchmark.SIZES[DRAWN[name][1]]) if name in DRAWN else ""
            print(f"{name:<22} {strength_of(name)}  {sizes}".rstrip())
    elif len(words) in (1, 2) and words[0] in NAMES:
        print(model_of(words[0], words[1] if len(words) == 2 else "1"), end="")
    else:
        sys.exit(__doc__)


if __name__ == "__main__":
    main()
