#!/usr/bin/env python3
"""What a run takes under `/budget:max`, on drawn models (draw.py) and on made ones, as Markdown tables.

Usage: bench/full_search/run.py [OPTION..]

    --pict FILE      the built program; crates/pict/out/pict where none is given
    --check FILE     the built checker; crates/pictcheck/out/pictcheck where none is given
    --other FILE     another program that takes the same words: its rows, time, memory and proof beside
    --order N        the order, 2
    --draws N        how many models of each kind, 25
    --kinds KIND..   those of draw.py, and made (`/make:1` and so on); those of draw.py where none is given
    --budget N       the budget of the runs beside, 1000000
    --repeats N      how often each command is run, 3; they take turns, and the least time counts
    --limit N        the seconds after which a run is ended, 60
    --worst N        how many models are listed with their ratios, the greatest first, 5
    --draw NAME KIND NUMBER     this model alone

A command is `pict MODEL /o:N /budget:max /proof:PROOF`, and `pictcheck` is asked of what it gives. Beside it, without
proofs, `/budget:max` and `/budget:N`. Times are those of the processor, in the program and in the system; memory is the
greatest that was resident. Sizes whose parameters have more than 2^20 sets at the order are left out. The status is 1
where a run doesn't end with 0, isn't accepted, or gives other rows.
"""
import argparse
import math
import os
import statistics
import subprocess
import sys
import tempfile
import threading

sys.dont_write_bytecode = True
import draw

HERE = os.path.dirname(os.path.abspath(__file__))
CRATES = os.path.join(HERE, "..", "..", "crates")
MOST_SETS = 2 ** 20


class Run:
    """One command: its status, what it printed, its least time in seconds, its memory in kB, and its proof's bytes."""

    def __init__(self, words, proof=None):
        self.words, self.proof = words, proof
        self.status = self.printed = self.told = None
        self.seconds, self.memory, self.bytes = math.inf, 0, 0

    def go(self, folder, limit):
        with open(os.path.join(folder, "printed"), "wb") as printed, open(os.path.join(folder, "told"), "wb") as told:
            process = subprocess.Popen(self.words, cwd=folder, stdout=printed, stderr=told)
            ender = threading.Timer(limit, process.kill)
            ender.start()
            _, status, used = os.wait4(process.pid, 0)
            process.returncode = os.waitstatus_to_exitcode(status)
            ender.cancel()
        self.status = process.returncode
        self.seconds = min(self.seconds, used.ru_utime + used.ru_stime)

    # One run that also keeps what it gave. `time` tells the memory, since what a child of this script tells counts the
    # memory of the script too.
    def begin(self, folder, limit):
        words = self.words
        self.words = ["/usr/bin/time", "-q", "-f", "%M", "-o", os.path.join(folder, "memory")] + words
        self.go(folder, limit)
        self.words, self.seconds = words, math.inf
        with open(os.path.join(folder, "memory"), encoding="utf-8") as file:
            self.memory = int((file.read().split() or ["0"])[-1])
        with open(os.path.join(folder, "printed"), "rb") as file:
            self.printed = file.read()
        with open(os.path.join(folder, "told"), encoding="utf-8") as file:
            self.told = file.read().strip()
        if self.proof and os.path.exists(os.path.join(folder, self.proof)):
            self.bytes = os.path.getsize(os.path.join(folder, self.proof))


class Case:
    """A model with the runs on it."""

    def __init__(self, options, folder, name, kind, number):
        self.kind = kind
        if kind == "made":
            self.drawn = f"pict model.txt /make:{number} /o:1"
            subprocess.run([options.pict, "model", f"/make:{number}", "/o:1"], cwd=folder, check=True, stdout=subprocess.DEVNULL)
        else:
            self.drawn = f"bench/full_search/draw.py {name} {kind} {number}"
            with open(os.path.join(folder, "model"), "w", encoding="utf-8") as file:
                file.write(draw.model_of(name, kind, str(number)))
        words = ["model", f"/o:{options.order}"]
        self.full = Run([options.pict] + words + ["/budget:max", "/proof:proof"], "proof")
        self.bare = Run([options.pict] + words + ["/budget:max"])
        self.within = Run([options.pict] + words + [f"/budget:{options.budget}"])
        self.other = options.other and Run([options.other] + words + ["/budget:max", "/proof:other"], "other")
        runs = [run for run in (self.full, self.bare, self.within, self.other) if run]
        for run in runs:
            run.begin(folder, options.limit)
        for _ in range(options.repeats):
            for run in runs:
                if run.seconds == math.inf or run.seconds < 5:
                    run.go(folder, options.limit)
        with open(os.path.join(folder, "rows"), "wb") as file:
            file.write(self.full.printed)
        self.check = Run([options.check, "model", "rows", "proof", f"/o:{options.order}"])
        self.check.go(folder, options.limit)

    def is_good(self):
        return self.full.status == 0 and self.check.status == 0 and not any(
            run and run.status == 0 and run.printed != self.full.printed for run in (self.bare, self.within, self.other))

    def ends_within(self):
        return self.full.status == 0 and self.within.status == 0

    def beside_other(self):
        return self.full.seconds / self.other.seconds

    def beside_within(self):
        return self.bare.seconds / self.within.seconds


def params_of(name):
    return sum(1 for _ in draw.counted(draw.SIZES[name][0]))


# Each kind begins at another size, so that few draws have many sizes.
def models(options):
    if options.draw:
        yield tuple(options.draw)
        return
    names = [name for name in draw.SIZES if math.comb(params_of(name), options.order) <= MOST_SETS]
    for place, kind in enumerate(options.kinds):
        for number in range(1, options.draws + 1):
            yield names[(place * 9 + number - 1) % len(names)], kind, number


def spread(numbers, form):
    """The median and the greatest."""
    return f"{form(statistics.median(numbers))}, {form(max(numbers))}" if numbers else "-"


def seconds(number):
    return f"{number:.3f}"


def ratio(number):
    return f"{number:.2f}"


def megabytes(runs):
    return f"{max(run.memory for run in runs) / 1024:.1f}"


def table(head, lines):
    print("| " + " | ".join(head) + " |")
    print("|" + "---|" * len(head))
    for line in lines:
        print("| " + " | ".join(str(cell) for cell in line) + " |")
    print()


def groups(cases):
    kinds = list(dict.fromkeys(case.kind for case in cases))
    for kind in kinds:
        yield kind, [case for case in cases if case.kind == kind]
    if len(kinds) > 1:
        yield "all", cases


def put_full(cases):
    head = ["Kind", "Models", "Status 0", "Accepted", "Seconds: median, greatest", "Memory, MB", "Proof bytes", "Check, seconds"]
    table(head, [[
        kind, len(group), sum(case.full.status == 0 for case in group), sum(case.check.status == 0 for case in group),
        spread([case.full.seconds for case in group], seconds), megabytes([case.full for case in group]),
        sum(case.full.bytes for case in group), spread([case.check.seconds for case in group], seconds),
    ] for kind, group in groups(cases)])


def put_other(cases):
    head = ["Kind", "Same rows", "Its seconds: median, greatest", "Ratio: median, greatest", "Its memory, MB",
            "Ratio: median, greatest", "Its proof bytes", "Ratio: of the sums, greatest"]
    lines = []
    for kind, group in groups(cases):
        both = [case for case in group if case.full.status == 0 and case.other.status == 0]
        of_other = sum(case.other.bytes for case in both)
        lines.append([
            kind, f"{sum(case.full.printed == case.other.printed for case in both)} of {len(group)}",
            spread([case.other.seconds for case in both], seconds), spread([case.beside_other() for case in both], ratio),
            megabytes([case.other for case in both]), spread([case.full.memory / case.other.memory for case in both], ratio),
            of_other, f"{sum(case.full.bytes for case in both) / of_other:.3f}, {max(case.full.bytes / case.other.bytes for case in both):.3f}",
        ])
    table(head, lines)


def put_within(cases):
    head = ["Kind", "Status 0", "Status 2", "Same rows", "Its seconds: median, greatest", "Seconds of `/budget:max`: median, greatest",
            "Ratio: median, greatest"]
    lines = []
    for kind, group in groups(cases):
        both = [case for case in group if case.ends_within()]
        lines.append([
            kind, len(both), sum(case.within.status == 2 for case in group), sum(case.bare.printed == case.within.printed for case in both),
            spread([case.within.seconds for case in both], seconds), spread([case.bare.seconds for case in both], seconds),
            spread([case.beside_within() for case in both], ratio),
        ])
    table(head, lines)


def put_worst(cases, number, ratio_of, one, beside):
    for case in sorted(cases, key=ratio_of, reverse=True)[:number]:
        print(f"- {ratio_of(case):.2f}: {one(case).seconds:.4f} s, beside {beside(case).seconds:.4f} s: `{case.drawn}`")
    print()


def main():
    parser = argparse.ArgumentParser(usage=__doc__)
    parser.add_argument("--pict", default=os.path.join(CRATES, "pict", "out", "pict"))
    parser.add_argument("--check", default=os.path.join(CRATES, "pictcheck", "out", "pictcheck"))
    parser.add_argument("--other")
    parser.add_argument("--kinds", nargs="+", choices=draw.KINDS + ("made",), default=draw.KINDS)
    parser.add_argument("--draw", nargs=3)
    for name, most in (("order", 2), ("draws", 25), ("budget", 1000000), ("repeats", 3), ("limit", 60), ("worst", 5)):
        parser.add_argument("--" + name, type=int, default=most)
    options = parser.parse_args()
    for program in ("pict", "check", "other"):
        if getattr(options, program):
            setattr(options, program, os.path.abspath(getattr(options, program)))
    cases = []
    for name, kind, number in models(options):
        with tempfile.TemporaryDirectory() as folder:
            cases.append(Case(options, folder, name, kind, number))
    print(f"Order {options.order}, `/budget:max`, with a proof:\n")
    put_full(cases)
    if options.other:
        print("Beside the other program:\n")
        put_other(cases)
        put_worst([case for case in cases if case.other.status == 0], options.worst, Case.beside_other, lambda case: case.full, lambda case: case.other)
    print(f"Without a proof, where `/budget:{options.budget}` ends with 0, beside it:\n")
    put_within(cases)
    put_worst([case for case in cases if case.ends_within()], options.worst, Case.beside_within, lambda case: case.bare, lambda case: case.within)
    bad = [case for case in cases if not case.is_good()]
    for case in bad:
        print(f"- status {case.full.status} {case.full.told}, of the check {case.check.status}: `{case.drawn}`")
    return 1 if bad else 0


if __name__ == "__main__":
    sys.exit(main())
