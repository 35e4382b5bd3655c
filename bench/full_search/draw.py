#!/usr/bin/env python3
"""Draws a model of the size of one of the benchmark set of Cohen, Dwyer and Shi (2008), on standard output.

Usage: bench/full_search/draw.py NAME KIND NUMBER
       bench/full_search/draw.py --list          the names with their sizes

A size is that of the parameters, as VALUES^COUNT, and that of the forbidden combinations, as PARAMETERS^COUNT. Sizes are
those that the literature names; which parameters a combination has, and which values, is drawn here, by the number.

KIND:
    first    at least one test is valid: that with the first value of each parameter
    free     values are drawn freely, so that there may be no valid test at all
    third    as first, with all combinations in a third of the parameters
    twice    as first, with twice as many combinations
"""
import random
import sys

SIZES = {
    "spin_s": ("2^13 4^5", "2^13"),
    "spin_v": ("2^42 3^2 4^11", "2^47 3^2"),
    "gcc": ("2^189 3^10", "2^37 3^3"),
    "apache": ("2^158 3^8 4^4 5^1 6^1", "2^3 3^1 4^2 5^1"),
    "bugzilla": ("2^49 3^1 4^2", "2^4 3^1"),
    "s1": ("2^86 3^3 4^1 5^5 6^2", "2^20 3^3 4^1"),
    "s2": ("2^86 3^3 4^3 5^1 6^1", "2^19 3^3"),
    "s3": ("2^27 4^2", "2^9 3^1"),
    "s4": ("2^51 3^4 4^2 5^1", "2^15 3^2"),
    "s5": ("2^155 3^7 4^3 5^5 6^4", "2^32 3^6 4^1"),
    "s6": ("2^73 4^3 6^1", "2^26 3^4"),
    "s7": ("2^29 3^1", "2^13 3^2"),
    "s8": ("2^109 3^2 4^2 5^3 6^3", "2^32 3^4 4^1"),
    "s9": ("2^57 3^1 4^1 5^1 6^1", "2^30 3^7"),
    "s10": ("2^130 3^6 4^5 5^2 6^4", "2^40 3^7"),
    "s11": ("2^84 3^4 4^2 5^2 6^4", "2^28 3^4"),
    "s12": ("2^136 3^4 4^3 5^1 6^3", "2^23 3^4"),
    "s13": ("2^124 3^4 4^1 5^2 6^2", "2^22 3^4"),
    "s14": ("2^81 3^5 4^3 6^3", "2^13 3^2"),
    "s15": ("2^50 3^4 4^1 5^2 6^1", "2^20 3^2"),
    "s16": ("2^81 3^3 4^2 6^1", "2^30 3^4"),
    "s17": ("2^128 3^3 4^2 5^1 6^3", "2^25 3^4"),
    "s18": ("2^127 3^2 4^4 5^6 6^2", "2^23 3^4 4^1"),
    "s19": ("2^172 3^9 4^9 5^3 6^4", "2^38 3^5"),
    "s20": ("2^138 3^4 4^5 5^4 6^7", "2^42 3^6"),
    "s21": ("2^76 3^3 4^2 5^1 6^3", "2^40 3^6"),
    "s22": ("2^72 3^4 4^1 6^2", "2^20 3^2"),
    "s23": ("2^25 3^1 6^1", "2^13 3^2"),
    "s24": ("2^110 3^2 5^3 6^4", "2^25 3^4"),
    "s25": ("2^118 3^6 4^2 5^2 6^6", "2^23 3^3 4^1"),
    "s26": ("2^87 3^1 4^3 5^4", "2^28 3^4"),
    "s27": ("2^55 3^2 4^2 5^1 6^2", "2^17 3^3"),
    "s28": ("2^167 3^16 4^2 5^3 6^6", "2^31 3^6"),
    "s29": ("2^134 3^7 5^3", "2^19 3^3"),
    "s30": ("2^73 3^3 4^3", "2^31 3^4"),
}
KINDS = ("first", "free", "third", "twice")


def counted(size):
    """The numbers that a size tells, each as often as it says."""
    for part in size.split():
        number, count = part.split("^")
        yield from [int(number)] * int(count)


def param_count(name):
    return len(list(counted(SIZES[name][0])))


def forbidden(chance, counts, among, arity, kind):
    """A combination of so many of these parameters, as pairs of a parameter and a value."""
    members = sorted(chance.sample(among, arity))
    while True:
        values = [chance.randrange(counts[p]) for p in members]
        if kind == "free" or any(values):
            return list(zip(members, values))


def model_of(name, kind, number):
    chance = random.Random(f"{name} {kind} {number}")
    params, combinations = SIZES[name]
    counts = list(counted(params))
    chance.shuffle(counts)
    among = list(range(len(counts)))
    if kind == "third":
        among = sorted(chance.sample(among, len(counts) // 3))
    lines = [f"Option {p}: " + ", ".join(f"value {v}" for v in range(count)) for p, count in enumerate(counts)]
    for arity in list(counted(combinations)) * (2 if kind == "twice" else 1):
        pairs = forbidden(chance, counts, among, arity, kind)
        terms = [f'[Option {p}] = "value {v}"' for p, v in pairs[:-1]]
        last, value = pairs[-1]
        lines.append(f'IF {" AND ".join(terms)} THEN [Option {last}] <> "value {value}";')
    return "\n".join(lines) + "\n"


def main():
    words = sys.argv[1:]
    if words == ["--list"]:
        for name, (params, combinations) in SIZES.items():
            print(f"{name:<10} {params:<28} {combinations}")
    elif len(words) == 3 and words[0] in SIZES and words[1] in KINDS:
        print(model_of(*words), end="")
    else:
        sys.exit(__doc__)


if __name__ == "__main__":
    main()
