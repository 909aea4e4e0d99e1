#!/usr/bin/env python3
"""Runs random documents with systems with 1, 2, 4 and 16 workers: every number must print the same.

Each document has five components, up to two groups, up to eight systems of random statements that the language
admits, and up to 40 entities. It is the same for the same seed on each machine. With `--beside` a second program
runs each document too, and must end as the first one does. Prints the seeds of those that differ; the status is 1
then.
"""

import argparse
import random
import shlex
import subprocess
import sys
from pathlib import Path
from typing import NamedTuple

PROGRAM = Path(__file__).resolve().parent.parent / "crates/world/out/world"
WORKERS = [1, 2, 4, 16]
SECONDS = 120

INT, ENTITY = "int", "entity"
COMPONENTS = {
    "place": [INT, INT],
    "aim": [ENTITY, INT],
    "size": [INT],
    "home": [ENTITY],
    "mark": [],
}
NAMES = list(COMPONENTS)
GROUPS = [
    [],
    ["group own place aim"],
    ["group own place get size not mark", "group own place aim get size not mark"],
    ["group own size home"],
]
OPERATORS = ["+", "-", "*", "/", "%", "min", "max", "<", "="]
EDGES = [-(2**63), 2**63 - 1, -1, 0, 1]
MOST_COMMANDS = 8  # statements of a system that give orders
DEPTH = 4  # how deep an expression nests


class Lists(NamedTuple):
    """What a system names."""

    read: list[str]
    write: list[str]
    look: list[str]
    without: list[str]

    def fields(self, pools, kind):
        """The fields of a kind in some pools."""
        return [f"{pool}.{at}" for pool in pools for at, other in enumerate(COMPONENTS[pool]) if other == kind]


def draw_lists(draws):
    """Random lists of which the first or the second isn't empty."""
    read, write, without = [], [], []
    while not (read or write):
        for lists in (read, write, without):
            lists.clear()
        for name in NAMES:
            share = draws.random()
            if share < 0.75:
                (read if share < 0.3 else write if share < 0.65 else without).append(name)
    look = [name for name in NAMES if name not in write and draws.random() < 0.5]
    return Lists(read, write, look, without)


def draw_number(draws):
    """A number, at times one at an edge."""
    if draws.random() < 0.1:
        return str(draws.choice(EDGES))
    return str(draws.randint(-9, 9) if draws.random() < 0.8 else draws.randint(-(2**63), 2**63 - 1))


def draw_value(draws, lists, kind, depth=DEPTH):
    """The words of an expression of this kind."""
    own = lists.fields(lists.read + lists.write, kind)
    looked = lists.fields(lists.look, kind)
    ways = [[draw_number(draws)], ["tick"]] if kind == INT else [["self"], ["null"]]
    if own:
        ways += [[draws.choice(own)]] * 3
    if depth == 0 or draws.random() < 0.4:
        return draws.choice(ways)

    def more(other):
        return draw_value(draws, lists, other, depth - 1)

    deep = [lambda: ["?", *more(INT), *more(kind), *more(kind)]]
    if kind == INT:
        deep += [lambda: [draws.choice(OPERATORS), *more(INT), *more(INT)]] * 4
        deep += [lambda: ["same", *more(ENTITY), *more(ENTITY)]]
        if lists.look:
            deep += [lambda: ["has", *more(ENTITY), draws.choice(lists.look)]]
    if looked:
        deep += [lambda: ["at", *more(ENTITY), draws.choice(looked), *more(kind)]]
    return draws.choice(deep)()


def draw_row(draws, lists, pool):
    """The words of the values of a component's fields."""
    return [word for kind in COMPONENTS[pool] for word in draw_value(draws, lists, kind, 2)]


def draw_order(draws, lists):
    """The words of a statement that gives an order."""
    pool = draws.choice(NAMES)
    entity = draw_value(draws, lists, ENTITY, 2)
    word = draws.choice(["kill", "give", "take", "send", "add", "spawn", "bear"])
    if word == "give":
        return [word, *entity, pool, *draw_row(draws, lists, pool)]
    if word == "take":
        return [word, *entity, pool]
    if word == "bear":
        return [word, pool, *draw_row(draws, lists, pool)]
    if word in ("send", "add"):
        kind = INT if word == "add" else draws.choice([INT, ENTITY])
        return [word, *entity, draws.choice(lists.fields(NAMES, kind)), *draw_value(draws, lists, kind, 2)]
    return [word, *entity] if word == "kill" else [word]


def draw_statement(draws, lists, may_order):
    """A statement's words, and whether it gives an order; none where it can neither set nor order."""
    written = [field for kind in (INT, ENTITY) for field in lists.fields(lists.write, kind)]
    orders = may_order and (not written or draws.random() < 0.4)
    if not orders and not written:
        return None, False
    if orders:
        words = draw_order(draws, lists)
    else:
        field = draws.choice(written)
        pool, at = field.split(".")
        words = ["set", field, *draw_value(draws, lists, COMPONENTS[pool][int(at)])]
    if draws.random() < 0.35:
        words = ["when", *draw_value(draws, lists, INT, 3), *words]
    return words, orders


def system_lines(draws, number):
    """The lines of a system."""
    lists = draw_lists(draws)
    lines = [f"system s{number}"]
    for word, names in zip(["read", "write", "look", "not"], lists):
        if names:
            lines.append(" ".join([word, *names]))
    commands = 0
    for _ in range(draws.randint(1, 6)):
        words, orders = draw_statement(draws, lists, commands < MOST_COMMANDS)
        if words is not None:
            commands += orders
            lines.append(" ".join(["do", *words]))
    return [*lines, "end"]


def draw_field(draws, kind, live):
    """A field of a row: a number, or an identifier that lives, once did, never did, or is null."""
    if kind == INT:
        return draw_number(draws)
    share = draws.random()
    if share < 0.15:
        return "null"
    if share < 0.8 and live:
        return draws.choice(live)
    return f"{draws.randint(0, 50)}:{draws.randint(0, 4)}"


def draw_document(seed):
    """The text of the document of a seed."""
    draws = random.Random(seed)
    lines = ["world 1", *(" ".join(["component", name, *kinds]) for name, kinds in COMPONENTS.items())]
    lines += draws.choice(GROUPS)
    for number in range(draws.randint(1, 8)):
        lines += system_lines(draws, number)
    lines.append(f"tick {draws.choice([0, 1, 7, 1000])}")
    slots = [(draws.random() < 0.85, draws.choice([0, 0, 1, 3])) for _ in range(draws.randint(2, 40))]
    lines += [f"{'live' if is_live else 'free'} {version}" for is_live, version in slots]
    free = [index for index, (is_live, _) in enumerate(slots) if not is_live]
    draws.shuffle(free)
    lines += [f"next {index}" for index in free]
    live = [f"{index}:{version}" for index, (is_live, version) in enumerate(slots) if is_live]
    for name, kinds in COMPONENTS.items():
        lines.append(f"pool {name}")
        for entity in live:
            if draws.random() < 0.7:
                lines.append(" ".join(["row", entity, *(draw_field(draws, kind, live) for kind in kinds)]))
    return "\n".join([*lines, "end", ""]).encode()


def ending_of(program, ticks, workers, text):
    """How a program ends on a document: its status, its output and its standard error."""
    words = ["run", "--ticks", str(ticks), "--workers", str(workers)]
    ended = subprocess.run([*program, *words], input=text, capture_output=True, timeout=SECONDS)
    return ended.returncode, ended.stdout, ended.stderr


def differs(seed, programs):
    """Whether the document of a seed isn't answered with status 0, or not the same by all workers and programs."""
    text = draw_document(seed)
    ticks = random.Random(-1 - seed).choice([1, 1, 2, 3, 5, 17])
    first = ending_of(programs[0], ticks, 1, text)
    others = [ending_of(programs[0], ticks, workers, text) for workers in WORKERS[1:]]
    others += [ending_of(program, ticks, 1, text) for program in programs[1:]]
    return first[0] != 0 or any(other != first for other in others)


def main():
    """Tries so many seeds from the first one on."""
    parser = argparse.ArgumentParser(description=__doc__, formatter_class=argparse.RawDescriptionHelpFormatter)
    parser.add_argument("--first", type=int, default=0, help="the first seed")
    parser.add_argument("--count", type=int, default=2000, help="how many seeds")
    parser.add_argument("--beside", metavar="COMMAND", help="a second program")
    parser.add_argument("--print", action="store_true", help="print the document of the first seed")
    options = parser.parse_args()
    if options.print:
        sys.stdout.buffer.write(draw_document(options.first))
        return 0
    programs = [[str(PROGRAM)]] + ([shlex.split(options.beside)] if options.beside else [])
    bad = [seed for seed in range(options.first, options.first + options.count) if differs(seed, programs)]
    for seed in bad:
        print(f"the document of seed {seed} differs")
    return int(bool(bad))


if __name__ == "__main__":
    sys.exit(main())
