#!/usr/bin/env python3
"""How coverage rises test by test: measures growing parts of a grown suite, and of as many random rows.

    python3 examples/use/coverage.py examples/mixed.txt > coverage.svg

It runs pict on the first 1, 2, 4, .. rows of each suite (/measure) and draws the covered part of the tuples that can
be covered. Random rows are drawn from the values of the grown suite, invalid ones aside, whether constraints allow
them or not: those that aren't valid cover nothing.
"""
import random
import re
import subprocess
import sys
import tempfile


def measured(model, header, rows):
    """The part of the servable tuples that these rows cover, in percent."""
    with tempfile.NamedTemporaryFile("w", suffix=".txt", encoding="utf-8") as suite:
        suite.write("\n".join([header] + rows) + "\n")
        suite.flush()
        run = subprocess.run(["pict", model, "/measure:" + suite.name], capture_output=True, text=True, check=True)
    covered, servable = re.search(r"Covered tuples: (\d+) of (\d+)", run.stdout).groups()
    return 100 * int(covered) / int(servable)


def curve(model, header, rows):
    points = [(0, 0.0)]
    count = 1
    while count < len(rows):
        points.append((count, measured(model, header, rows[:count])))
        count = max(count + 1, count * 5 // 4)
    points.append((len(rows), measured(model, header, rows)))
    return points


def line(points, colour, most):
    path = " ".join(f"{60 + 520 * x / most:.1f},{340 - 3 * y:.1f}" for x, y in points)
    return f'<polyline points="{path}" fill="none" stroke="{colour}" stroke-width="2"/>'


def drawn(grown, chosen, most):
    texts = [f'<text x="52" y="{344 - 3 * y}" text-anchor="end">{y} %</text>' for y in range(0, 101, 25)]
    texts += [f'<text x="{60 + 520 * part / 4:.0f}" y="360" text-anchor="middle">{most * part // 4}</text>' for part in range(5)]
    rules = [f'<line x1="60" x2="580" y1="{340 - 3 * y}" y2="{340 - 3 * y}" stroke="#ddd"/>' for y in range(0, 101, 25)]
    return "\n".join([
        '<svg xmlns="http://www.w3.org/2000/svg" width="620" height="400" font-family="sans-serif" font-size="12">',
        '<rect width="620" height="400" fill="white"/>',
        *rules, *texts, line(grown, "#06c", most), line(chosen, "#c60", most),
        '<text x="320" y="385" text-anchor="middle">tests</text>',
        '<text x="470" y="30" fill="#06c">grown suite</text>', '<text x="470" y="48" fill="#c60">random rows</text>',
        "</svg>"])


def main():
    model = sys.argv[1]
    run = subprocess.run(["pict", model], capture_output=True, text=True, check=True)
    header, *rows = run.stdout.splitlines()
    columns = list(zip(*(row.split("\t") for row in rows)))
    plain = [[value for value in dict.fromkeys(column) if not value.startswith("~")] for column in columns]
    dice = random.Random(1)
    chosen = ["\t".join(dice.choice(values) for values in plain) for _ in rows]
    print(drawn(curve(model, header, rows), curve(model, header, chosen), len(rows)))


if __name__ == "__main__":
    main()
