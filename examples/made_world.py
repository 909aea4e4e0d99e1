#!/usr/bin/env python3
"""Prints the document of a made world, the one that `world gen NUMBER COUNT TICKS` runs:

    examples/made_world.py 7 20000 | bin/world run --ticks 50 --workers 1

It is written after `docs/FORMATS.md`. The components, groups and systems are those of `arena.world`, which
is the made world of number 1 with 2 entities.
"""

import sys
from pathlib import Path

ARENA = Path(__file__).resolve().parent / "arena.world"
COMPONENTS = ["position", "velocity", "health", "team", "target", "damage", "timer", "frozen", "marked"]
MODULUS = 65_537
USAGE = "usage: examples/made_world.py NUMBER COUNT (a number below 2^32, and 0 to 1000000 entities)"


def draws_of(number):
    """The numbers that a number draws, without an end."""
    drawn = number % MODULUS
    while True:
        drawn = (75 * drawn + 74) % MODULUS
        yield drawn


def rows_of(draws, count):
    """The rows of the next of so many entities: for each component that it has the values of its fields."""
    d1, d2, d3, d4, d5, d6, d7, d8, d9, d10 = (next(draws) for _ in range(10))
    rows = {
        "position": f" {d1 % 1000} {d2 % 1000}",
        "velocity": f" {d3 % 11 - 5} {d4 % 11 - 5}",
        "health": f" {d5 % 100 + 1}",
        "team": f" {d6 % 4}",
        "target": f" {d7 % count}:0",
        "damage": f" {d8 % 5}",
        "timer": f" {d9 % 50}",
        "marked": " 0",
    }
    return rows | {"frozen": ""} if d10 % 8 == 0 else rows


def document(number, count):
    """The text of the made world of a number with so many entities."""
    draws = draws_of(number)
    entities = [rows_of(draws, count) for _ in range(count)]
    lines = ARENA.read_text(encoding="ascii").split("\ntick ")[0].splitlines()
    lines += ["tick 0"] + ["live 0"] * count
    for component in COMPONENTS:
        lines.append(f"pool {component}")
        lines += [f"row {index}:0{rows[component]}" for index, rows in enumerate(entities) if component in rows]
    return "\n".join([*lines, "end", ""])


def main():
    """Prints the document of the numbers that the words are."""
    try:
        number, count = map(int, sys.argv[1:])
    except ValueError:
        sys.exit(USAGE)
    if not (0 <= number < 2**32 and 0 <= count <= 1_000_000):
        sys.exit(USAGE)
    sys.stdout.write(document(number, count))


if __name__ == "__main__":
    main()
