#!/usr/bin/env python3
"""compare/year.py WHOLE ONES > docs/year.svg

Draws what compare/year.sh printed of two years: each delivery inserted by one call, and one vector at a time.
"""
import sys

from plot import draw, even, panel


def months(path):
    """The columns of the table in a file, by their heads."""
    lines = [line.strip(" |\n").split("|") for line in open(path) if line.startswith("| ")]
    heads, *rows = [[cell.strip() for cell in line] for line in lines if line[0].strip() != "afresh"]
    return {head: [float(row[i]) for row in rows] for i, head in enumerate(heads) if head != "same bytes"}


def up(value, step):
    """The next multiple of a step."""
    return step * (int(value // step) + 1)


def main():
    whole, ones = map(months, sys.argv[1:])
    beams = ["beam 16", "beam 64", "beam 256"]
    points = lambda name, values: (name, list(enumerate(values)))
    both = lambda head: [points("one call a delivery", whole[head]), points("one vector a call", ones[head])]
    recall = lambda year: [points(beam, year[beam]) for beam in beams]
    tenths, numbers = (lambda v: f"{v:.1f}"), (lambda v: f"{v:,.0f}")
    year, unreached = even(0, 12, 3, numbers), up(max(whole["unreached"] + ones["unreached"]), 1000)
    parts = panel(0, 0, "recall at 10, one call a delivery", year, even(0, 1, 0.2, tenths), recall(whole))
    parts += panel(1, 0, "recall at 10, one vector a call", year, even(0, 1, 0.2, tenths), recall(ones))
    parts += panel(0, 1, "live slots that are not reached", year, even(0, unreached, 1000, numbers), both("unreached"))
    parts += panel(1, 1, "mean row length (degree 32)", year, even(0, 32, 8, numbers), both("mean row"))
    draw(2, 2, "a year by month", "by month; 0 is the index before the year", parts)


main()
