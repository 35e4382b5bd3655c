#!/usr/bin/env python3
"""How much shorter suites get, and what that takes, on the models of draw.py, as a Markdown page.

Usage: bench/shrink/run.py [OPTION..]

    --jeldroft FILE  the built program; crates/jeldroft/out/jeldroft where none is given
    --pict FILE      the program whose tables are made shorter; crates/pict/out/pict
    --check FILE     the checker; crates/pictcheck/out/pictcheck
    --plain FILE     a plain program beside it, run as `FILE MODEL TABLE OUT /o:N /rounds:N /r:N`
    --rounds N       how many moves are tried for each number of rows, 10000
    --random N       the number of the random words, 0
    --number N       the number of the drawn constraints, 1
    --models NAME..  those of draw.py; all where none is given
    --spread         also with `--spread`, and what the tables then cover by one parameter more
    --repeats N      how often each command is run, 3; they take turns, and the least time counts
    --limit N        the seconds after which a run is ended, 600

Of each model `pict MODEL /o:N /budget:max /proof:PROOF` makes the table, and `pictcheck` is asked whether it accepts what
is left of it with the same proof. Times are those of the processor, in the program and in the system; memory is the
greatest that was resident. The status is 1 where a run doesn't end with 0, isn't accepted, has more rows than were given,
or has another number of rows with `--spread` than without. `> bench/shrink/results.md` keeps the page.
"""
import argparse
import datetime
import math
import os
import statistics
import subprocess
import sys
import tempfile
import threading

sys.dont_write_bytecode = True
import draw

HERE = os.path.dirname(os.path.abspath(__file__))
CRATES = os.path.join(HERE, "..", "..", "crates")


class Run:
    """One command that makes a table: its status, its least time in seconds, its memory in kB, and its rows."""

    def __init__(self, words, folder, table):
        self.words, self.folder, self.table = words, folder, table
        self.status, self.seconds, self.memory, self.told = None, math.inf, 0, ""

    def path(self, name):
        return os.path.join(self.folder, name)

    def start(self, words, limit):
        """The seconds of a run, with its status and what it told."""
        with open(self.path("printed"), "wb") as printed, open(self.path("told"), "wb") as told:
            process = subprocess.Popen(words, cwd=self.folder, stdout=printed, stderr=told)
            ender = threading.Timer(limit, process.kill)
            ender.start()
            _, status, used = os.wait4(process.pid, 0)
            process.returncode = self.status = os.waitstatus_to_exitcode(status)
            ender.cancel()
        with open(self.path("told"), encoding="utf-8", errors="replace") as file:
            self.told = file.read().strip()
        return used.ru_utime + used.ru_stime

    def go(self, limit):
        if self.status in (None, 0):
            self.seconds = min(self.seconds, self.start(self.words, limit))

    # `time` tells the memory, since what a child of this script tells counts the memory of the script too.
    def begin(self, limit):
        self.start(["/usr/bin/time", "-q", "-f", "%M", "-o", self.path("memory")] + self.words, limit)
        with open(self.path("memory"), encoding="utf-8") as file:
            self.memory = int((file.read().split() or ["0"])[-1])

    def rows(self):
        """The rows of the table, without its header."""
        if self.status != 0 or not os.path.exists(self.path(self.table)):
            return None
        with open(self.path(self.table), "rb") as file:
            return sum(1 for _ in file) - 1


class Case:
    """A model with the runs on it."""

    def __init__(self, options, folder, name):
        self.name, self.folder, self.options = name, folder, options
        self.strength = draw.strength_of(name)
        with open(os.path.join(folder, "model"), "w", encoding="utf-8") as file:
            file.write(draw.model_of(name, str(options.number)))
        given = Run([options.pict, "model", f"/o:{self.strength}", "/budget:max", "/proof:proof"], folder, "given")
        given.start(given.words, options.limit)
        os.rename(given.path("printed"), given.path("given"))
        self.status, self.given = given.status, given.rows()
        self.own = self.plain = self.spread = None
        if self.status != 0:
            return
        words = [options.jeldroft, "shrink", "model", "given", "-t", str(self.strength), "--rounds", str(options.rounds),
                 "--random", str(options.random)]
        self.own = Run(words + ["-o", "own"], folder, "own")
        self.spread = options.spread and Run(words + ["--spread", "-o", "spread"], folder, "spread")
        self.plain = options.plain and Run([options.plain, "model", "given", "plain", f"/o:{self.strength}",
                                            f"/rounds:{options.rounds}", f"/r:{options.random}"], folder, "plain")
        for run in self.runs():
            run.begin(options.limit)
        for _ in range(options.repeats):
            for run in self.runs():
                run.go(options.limit)
        self.counts = {run: run.rows() for run in self.runs()}
        self.accepted = {run: self.is_accepted(run) for run in self.runs()}
        self.covered = [self.higher(run) for run in (self.own, self.spread)] if self.spread else []

    def runs(self):
        return [run for run in (self.own, self.plain, self.spread) if run]

    def is_accepted(self, run):
        if run.status != 0:
            return False
        words = [self.options.check, "model", run.table, "proof", f"/o:{self.strength}"]
        return subprocess.run(words, cwd=self.folder, stdout=subprocess.DEVNULL, stderr=subprocess.DEVNULL).returncode == 0

    def higher(self, run):
        """How many combinations of one parameter more the rows have, whatever the constraints."""
        if run.status != 0:
            return None
        words = [self.options.jeldroft, "measure", "model", run.table, "-t", str(self.strength + 1)]
        told = subprocess.run(words, cwd=self.folder, capture_output=True, text=True).stdout
        return next((int(line.split(":")[1]) for line in told.splitlines() if line.startswith("combinations of values covered:")), None)

    def is_good(self):
        return (self.status == 0 and all(self.accepted.values()) and self.counts[self.own] <= self.given
                and not (self.spread and self.counts[self.spread] != self.counts[self.own]))

    def fewer(self, run):
        """The rows that left, of 100."""
        return 100 * (1 - self.counts[run] / self.given)


def seconds(number):
    return f"{number:.2f}"


def megabytes(run):
    return f"{run.memory / 1024:.1f}"


def yes(flag):
    return "yes" if flag else "NO"


def told(number):
    return "-" if number is None else number


def put_table(head, lines):
    print("| " + " | ".join(head) + " |")
    print("|" + "---|" * len(head))
    for line in lines:
        print("| " + " | ".join(str(cell) for cell in line) + " |")
    print()


def cells(case, run):
    if run.status != 0:
        return [f"status {run.status}", "", "", ""]
    return [case.counts[run], seconds(run.seconds), megabytes(run), yes(case.accepted[run])]


def put_rows(cases, options):
    head = ["Model", "Strength", "Given", "Rows", "Seconds", "MB", "Accepted"]
    if options.plain:
        head += ["Plain: rows", "Seconds", "MB", "Accepted", "Time, ratio", "Memory, ratio"]
    lines = []
    for case in cases:
        line = [case.name, case.strength, case.given] + cells(case, case.own)
        if options.plain:
            line += cells(case, case.plain)
            line += [ratio(case.own.seconds, case.plain.seconds), ratio(case.own.memory, case.plain.memory)]
        lines.append(line)
    put_table(head, lines)


def ratio(one, other):
    return f"{one / other:.2f}" if other and math.isfinite(one) and math.isfinite(other) else "-"


def put_spread(cases):
    head = ["Model", "Rows", "Seconds", "MB", "Accepted", "Covered by one parameter more", "Without `--spread`"]
    put_table(head, [[case.name] + cells(case, case.spread) + [told(case.covered[1]), told(case.covered[0])] for case in cases])


def put_sums(cases, options):
    own = [case.fewer(case.own) for case in cases]
    print(f"- Rows that left, of 100: mean {statistics.mean(own):.1f}, median {statistics.median(own):.1f}, least {min(own):.1f}, most {max(own):.1f}.")
    if options.plain:
        plain = [case.fewer(case.plain) for case in cases]
        print(f"- Of the plain program: mean {statistics.mean(plain):.1f}, median {statistics.median(plain):.1f}.")
        behind = [case.name for case in cases
                  if case.counts[case.own] > case.counts[case.plain] + max(1, case.counts[case.plain] // 100)]
        print(f"- More than one row of 100 above the plain program, and more than one: {', '.join(behind) or 'none'}.")
        long = [case for case in cases if case.plain.seconds >= 0.05]
        if long:
            print(f"- Time beside it, where it takes 0.05 s: median {statistics.median(c.own.seconds / c.plain.seconds for c in long):.2f}, "
                  f"greatest {max(c.own.seconds / c.plain.seconds for c in long):.2f}.")
        print(f"- Memory beside it: greatest {max(c.own.memory / c.plain.memory for c in cases):.2f}.")


def main():
    parser = argparse.ArgumentParser(usage=__doc__)
    parser.add_argument("--jeldroft", default=os.path.join(CRATES, "jeldroft", "out", "jeldroft"))
    parser.add_argument("--pict", default=os.path.join(CRATES, "pict", "out", "pict"))
    parser.add_argument("--check", default=os.path.join(CRATES, "pictcheck", "out", "pictcheck"))
    parser.add_argument("--plain")
    parser.add_argument("--models", nargs="+", choices=draw.NAMES, default=draw.NAMES)
    parser.add_argument("--spread", action="store_true")
    for name, most in (("rounds", 10000), ("random", 0), ("number", 1), ("repeats", 3), ("limit", 600)):
        parser.add_argument("--" + name, type=int, default=most)
    options = parser.parse_args()
    for program in ("jeldroft", "pict", "check", "plain"):
        if getattr(options, program):
            setattr(options, program, os.path.abspath(getattr(options, program)))
    cases = []
    for name in options.models:
        with tempfile.TemporaryDirectory() as folder:
            cases.append(Case(options, folder, name))
    bad = [case for case in cases if case.status != 0 or not case.is_good()]
    done = [case for case in cases if case.status == 0 and all(run.status == 0 for run in case.runs())]
    print("# Shorter suites, on drawn models\n")
    print(f"Measured on {datetime.date.today()} on a machine with {os.cpu_count()} processors, `--rounds {options.rounds} --random {options.random}`; "
          "in seconds of the processor.\n")
    put_rows([case for case in cases if case.status == 0], options)
    if options.spread:
        print("With `--spread`:\n")
        put_spread([case for case in cases if case.status == 0])
    if done:
        put_sums(done, options)
    for case in bad:
        words = "; ".join(run.told for run in case.runs() if run.told)
        print(f"- not as it should be: {case.name}, status of `pict` {case.status} {words}")
    return 1 if bad else 0


if __name__ == "__main__":
    sys.exit(main())
