#!/usr/bin/env python3
"""Measures how the systems of documents are read and printed, alone or beside a second program.

One document has 64 systems of 64 statements each, of some 60 bytes a line; the other has as many statements of
4,096 bytes, the longest that a line may be. Both programs run by turns.
"""

import argparse
import filecmp
import os
import shlex
import sys
import tempfile
from typing import Callable, TextIO

from bench import PROGRAM, Draws, measure, print_summaries

SYSTEMS = 64
STATEMENTS = 64
LONGEST_LINE = 4096

COMPONENTS = ["position int int", "velocity int int", "health int", "target entity"]


def draw_short(draws: Draws) -> str:
    """A statement as games have them."""
    test = f"= % tick {draws.between(2, 99)} {draws.between(0, 1)}"
    grown = f"+ position.0 * velocity.{draws.below(2)} {draws.between(-9, 9)}"
    return f"do when {test} set position.{draws.below(2)} {grown}"


def draw_long(draws: Draws) -> str:
    """A statement of 4,096 bytes: sums within sums of the own fields and of long numbers."""
    front = "do set position.0 "
    return front + draw_sum(draws, LONGEST_LINE - len(front))


def draw_sum(draws: Draws, length: int) -> str:
    """An expression of just so many bytes."""
    if length <= 19:
        return str(draws.between(10 ** (length - 1), 10**length - 1)) if length > 1 else "7"
    if length <= 22:
        return "+ 1 " + draw_sum(draws, length - 4)
    left = (length - 3) // 2
    return f"+ {draw_sum(draws, left)} {draw_sum(draws, length - 3 - left)}"


def write_document(out: TextIO, draw: Callable[[Draws], str]) -> None:
    """Writes a document of systems alone."""
    draws = Draws(7)
    out.write("world 1\n")
    for component in COMPONENTS:
        out.write(f"component {component}\n")
    for number in range(SYSTEMS):
        out.write(f"system s{number}\nread velocity target\nwrite position\nlook health\n")
        for _ in range(STATEMENTS):
            out.write(draw(draws) + "\n")
        out.write("end\n")
    out.write("tick 0\n")
    for component in COMPONENTS:
        out.write(f"pool {component.split()[0]}\n")
    out.write("end\n")


def parse_options() -> argparse.Namespace:
    """Reads the script's words."""
    parser = argparse.ArgumentParser(description=__doc__, formatter_class=argparse.RawDescriptionHelpFormatter)
    parser.add_argument("--runs", type=int, default=101, help="runs of each program (101)")
    parser.add_argument("--beside", metavar="CMD", type=shlex.split, help="a second program, without its words")
    return parser.parse_args()


def run_document(name: str, draw: Callable[[Draws], str], options: argparse.Namespace, folder: str) -> bool:
    """Measures one document, and tells whether the outputs are equal."""
    programs = [[PROGRAM]] + ([options.beside] if options.beside else [])
    path = os.path.join(folder, "input")
    with open(path, "w", encoding="ascii", newline="\n") as out:
        write_document(out, draw)
    outputs = [os.path.join(folder, f"output-{number}") for number in range(len(programs))]
    size = os.path.getsize(path)
    print(f"{name}: {SYSTEMS} systems of {STATEMENTS} statements, {size} bytes, {options.runs} runs each", flush=True)
    summaries = measure([program + ["snapshot"] for program in programs], path, outputs, options.runs)
    print_summaries(summaries, size)
    equal = all(filecmp.cmp(path, output, shallow=False) for output in outputs)
    print("outputs: as the input" if equal else "outputs: DIFFERENT")
    return equal


def main() -> int:
    """Measures both documents. The status is 1 where one isn't printed as it was."""
    options = parse_options()
    if not os.path.exists(PROGRAM):
        sys.exit(f"{PROGRAM} isn't built: run bin/prove")
    with tempfile.TemporaryDirectory() as folder:
        equal = [run_document(name, draw, options, folder) for name, draw in [("short", draw_short), ("long", draw_long)]]
    return 0 if all(equal) else 1


if __name__ == "__main__":
    sys.exit(main())
