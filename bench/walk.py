#!/usr/bin/env python3
"""Measures walks of a group's members: as the rows that the group lends, and as a view with look-ups.

The program of the crate group_walk makes so many entities that all move, groups them, and walks them so often.
What making them takes is measured alone and taken off. Times are for one member, the least of some runs.
"""

import argparse
import subprocess
import time
from pathlib import Path

PROGRAM = Path(__file__).resolve().parent.parent / "crates/group_walk/out/group_walk"


def seconds(program, way, count, times):
    """How long a run takes, and the sum that it prints."""
    begun = time.perf_counter()
    ended = subprocess.run([program, way, str(count), str(times)], stdout=subprocess.PIPE, check=True)
    return time.perf_counter() - begun, int(ended.stdout)


def measure(program, way, count, times, runs):
    """Nanoseconds for each member, and the sum."""
    none = min(seconds(program, way, count, 0)[0] for _ in range(runs))
    walked = [seconds(program, way, count, times) for _ in range(runs)]
    least = min(taken for taken, _ in walked)
    return (least - none) / (count * times) * 1e9, walked[0][1]


def main():
    parser = argparse.ArgumentParser(description=__doc__.splitlines()[0])
    parser.add_argument("--program", default=str(PROGRAM))
    parser.add_argument("--count", type=int, default=100_000, help="members")
    parser.add_argument("--runs", type=int, default=5)
    options = parser.parse_args()
    rows, sum_of_rows = measure(options.program, "rows", options.count, 1000, options.runs)
    view, sum_of_view = measure(options.program, "view", options.count, 20, options.runs)
    if sum_of_rows * 20 != sum_of_view * 1000:
        raise SystemExit("the two walks read different rows")
    print("%d members: %.2f ns each by rows, %.2f ns by view and look-up, %.0f times as long"
          % (options.count, rows, view, view / rows))


main()
