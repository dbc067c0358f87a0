#!/usr/bin/env python3
"""compare/peers.py OWN YEAR > docs/peers.svg

Draws what compare/peers.sh printed of its parts own and year: recall against the time of a search, one point for each beam.
"""
import math
import sys

from plot import draw, even, panel


def tables(path):
    """The tables of a file: what the first head says, and for each line its name with its points."""
    found = []
    for line in open(path):
        cells = [cell.strip() for cell in line.strip("| \n").split("|")]
        if cells[-1] == "beam 256":
            found.append((cells[0], []))
        elif ": " in cells[-1] and line.startswith("| "):
            found[-1][1].append((cells[0], [tuple(map(float, cell.split(": "))) for cell in cells if ": " in cell]))
    return found


def main():
    (small, first), (large, second) = tables(sys.argv[1])
    ((_, year),) = tables(sys.argv[2])
    shown = [("own indexes, " + small, first), ("own indexes, " + large, second)]
    shown += [("after the year", year[:4]), ("beside indexes made afresh", [year[i] for i in (0, 4, 2, 5)])]
    times = [time for _, lines in shown for _, points in lines for time, _ in points]
    least, most = math.log(min(times) * 0.9), math.log(max(times) * 1.1)
    marks = [mark * 10**power for power in range(5) for mark in (1, 2, 5)]
    across = (lambda time: (math.log(time) - least) / (most - least)), [(m, f"{m:,}") for m in marks if least <= math.log(m) <= most]
    parts = []
    for i, (title, lines) in enumerate(shown):
        lowest = min(recall for _, points in lines for _, recall in points)
        step = 0.1 if lowest < 0.8 else 0.02
        up = even(step * math.floor(lowest / step), 1, step, lambda v: f"{v:.2f}")
        parts += panel(i % 2, i // 2, title, across, up, lines, inside=True)
    draw(2, 2, "recall at 10 against the time of a search", "recall at 10 against microseconds of CPU time for one search; a line has beams 10, 16, 32, 64, 128 and 256", parts)


main()
