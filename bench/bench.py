#!/usr/bin/env python3
"""Measures the built program: seconds, input per second and peak memory, alone or beside a second program.

Both programs get the same words and the same input, which is made by the script and is the same at
each run of it. They run by turns, so that a change in the machine's load meets both.
"""

import argparse
import array
import filecmp
import io
import os
import random
import shlex
import statistics
import struct
import sys
import tempfile
import time
from typing import Callable, Iterable, NamedTuple, Optional, TextIO

PROGRAM = os.path.join(os.path.dirname(os.path.dirname(os.path.realpath(__file__))), "crates/world/out/world")
MOST_INPUT = 64 * 1024 * 1024  # bytes that the program reads
COUNT = "COUNT"


# The inputs


class Component(NamedTuple):
    """A component of the plain document: how many of 100 live entities have it, and its fields.

    A field is the least and the greatest value of an `int`, or ENTITY.
    """

    name: str
    share: int
    fields: list[Optional[tuple[int, int]]]


ENTITY = None

COMPONENTS = [
    Component("position", 70, [(0, 999), (0, 999)]),
    Component("velocity", 50, [(-5, 5), (-5, 5)]),
    Component("health", 50, [(0, 100)]),
    Component("target", 40, [ENTITY]),
    Component("flag", 20, []),
    Component("stats", 10, [(0, 9), (-5000, 5000), (-(2**40), 2**40), (-(2**63), 2**63 - 1)]),
]


class Draws:
    """Random numbers that are the same on each machine."""

    def __init__(self, seed: int):
        self.unit = random.Random(seed).random

    def below(self, limit: int) -> int:
        """A number from 0 up to `limit`, which isn't reached."""
        return int(self.unit() * limit)

    def between(self, low: int, high: int) -> int:
        """A number from `low` to `high`, both included."""
        return low + self.below(high - low + 1)


def write_plain_document(out: TextIO, entities: int) -> None:
    """Writes a document without groups and systems. One slot in 20 is free, one in 10 has a raised version."""
    draws = Draws(entities)
    versions = array.array("H", (draws.below(4095) if draws.below(10) == 0 else 0 for _ in range(entities)))
    live = bytearray(draws.below(20) != 0 for _ in range(entities))

    out.write("world 1\n")
    for component in COMPONENTS:
        kinds = ["entity" if field is ENTITY else "int" for field in component.fields]
        out.write(" ".join(["component", component.name, *kinds]) + "\n")
    out.write("tick 12345\n")
    for index in range(entities):
        out.write(f"{'live' if live[index] else 'free'} {versions[index]}\n")
    free = [index for index in range(entities) if not live[index]]
    for index in sorted(free, key=lambda _: draws.unit()):
        out.write(f"next {index}\n")
    for component in COMPONENTS:
        write_pool(out, component, versions, live, draws)
    out.write("end\n")


def write_pool(out: TextIO, component: Component, versions: array.array, live: bytearray, draws: Draws) -> None:
    """Writes a component's pool line and its rows."""
    out.write(f"pool {component.name}\n")
    for index in range(len(live)):
        if live[index] and draws.below(100) < component.share:
            values = [draw_value(field, versions, draws) for field in component.fields]
            out.write(" ".join([f"row {index}:{versions[index]}", *values]) + "\n")


def draw_value(field: Optional[tuple[int, int]], versions: array.array, draws: Draws) -> str:
    """A value of the field's kind. One in 16 identifiers is null; the others name a slot, live or free."""
    if field is not ENTITY:
        return str(draws.between(*field))
    if draws.below(16) == 0:
        return "null"
    index = draws.below(len(versions))
    return f"{index}:{versions[index]}"


def write_packed_document(out: TextIO, entities: int) -> None:
    """Writes the binary snapshot of the plain document."""
    text = io.StringIO()
    write_plain_document(text, entities)
    out.buffer.write(packed(text.getvalue()))


def packed(text: str) -> bytearray:
    """The binary snapshot of a canonical text, field by field as docs/FORMATS.md has them."""
    lines = text.splitlines()
    tick = next(place for place, line in enumerate(lines) if line.startswith("tick "))
    header, body = lines[1:tick], [line.split(" ") for line in lines[tick + 1 : -1]]
    kinds = iter([line.split(" ")[2:] for line in header if line.startswith("component ")])
    counts = iter(count_rows(body))
    slots = sum(line[0] in ("live", "free") for line in body)

    fields = bytearray(b"WORLDSNP" + struct.pack("<II", 1, len(header)))
    for line in header:
        fields += struct.pack("<H", len(line)) + line.encode("ascii")
    fields += struct.pack("<QI", int(lines[tick].split(" ")[1]), slots)
    for word, *words in body:
        if word == "row":
            index = int(words[0].split(":")[0])
            fields += struct.pack("<I", index) + b"".join(map(packed_value, kinds_now, words[1:]))
        elif word == "pool":
            kinds_now = next(kinds)
            fields += struct.pack("<I", next(counts))
        elif word == "next":
            fields += struct.pack("<I", int(words[0]))
        else:
            fields += struct.pack("<BI", word == "live", int(words[0]))
    return fields


def count_rows(body: list[list[str]]) -> list[int]:
    """How many row lines stand behind each pool line."""
    counts: list[int] = []
    for line in body:
        if line[0] == "pool":
            counts.append(0)
        elif line[0] == "row":
            counts[-1] += 1
    return counts


def packed_value(kind: str, value: str) -> bytes:
    """A value of this kind, in 8 bytes."""
    if kind == "int":
        return struct.pack("<q", int(value))
    if value == "null":
        return b"\xff" * 8
    return struct.pack("<II", *map(int, value.split(":")))


# The components of the script's document, each with its number of fields, all `int`.
SCRIPT_COMPONENTS = [("position", 2), ("velocity", 2), ("health", 1), ("frozen", 0), ("team", 1), ("tag", 0)]
FEWEST_LIVE = 1000  # entities below which each command makes one


class LiveEntities:
    """The identifiers that are live between two commands, as the program gives them out."""

    def __init__(self) -> None:
        self.live: list[tuple[int, int]] = []
        self.versions: list[int] = []
        self.free: list[int] = []

    def create(self) -> None:
        """The index released last with its next version, or a new one with version 0."""
        if self.free:
            index = self.free.pop()
        else:
            index = len(self.versions)
            self.versions.append(0)
        self.live.append((index, self.versions[index]))

    def destroy(self, place: int) -> None:
        """The last of the list takes the place of the one that goes."""
        index, version = self.live[place]
        self.live[place] = self.live[-1]
        self.live.pop()
        self.versions[index] = (version + 1) % 4095
        self.free.append(index)


def write_script(out: TextIO, commands: int, groups: str = "") -> None:
    """Writes a document of components alone, and of lines of groups, and behind it a script of so many commands."""
    draws = Draws(commands)
    entities = LiveEntities()
    out.write("world 1\n")
    for name, fields in SCRIPT_COMPONENTS:
        out.write(" ".join(["component", name] + ["int"] * fields) + "\n")
    out.write(groups + "tick 0\n")
    for name, _ in SCRIPT_COMPONENTS:
        out.write(f"pool {name}\n")
    out.write("end\nscript\n")
    for _ in range(commands):
        out.write(draw_command(entities, draws) + "\n")
    out.write("end\n")


def draw_command(entities: LiveEntities, draws: Draws) -> str:
    """A command: of 100 there are 18 `create`, 38 `emplace`, 19 `get`, 12 `remove`, 10 `destroy` and 3 `valid`.

    Each but `create` is on a live entity, so the refusals are `present` and `absent`.
    """
    kind = draws.below(100)
    if len(entities.live) < FEWEST_LIVE or kind < 18:
        entities.create()
        return "create"
    place = draws.below(len(entities.live))
    entity = "%d:%d" % entities.live[place]
    name, fields = SCRIPT_COMPONENTS[draws.below(len(SCRIPT_COMPONENTS))]
    if kind < 56:
        return " ".join(["emplace", entity, name] + [str(draws.between(-1000, 999)) for _ in range(fields)])
    if kind < 75:
        return f"get {entity} {name}"
    if kind < 87:
        return f"remove {entity} {name}"
    if kind < 97:
        entities.destroy(place)
        return f"destroy {entity}"
    return f"valid {entity}"


# Two groups of which the second is inner to the first, and one that is apart from both.
SCRIPT_GROUPS = """\
group own position velocity not frozen
group own position velocity get health not frozen
group own team get tag
"""


def write_grouped_script(out: TextIO, commands: int) -> None:
    """Writes the same script behind a document that has groups too."""
    write_script(out, commands, SCRIPT_GROUPS)


def write_patches(out: TextIO, commands: int) -> None:
    """Writes a document with a tenth as many entities, each with a row, and a script that patches fields of these rows."""
    draws = Draws(commands)
    entities = max(commands // 10, 1)
    out.write("world 1\ncomponent position int int\ntick 0\n" + "live 0\n" * entities + "pool position\n")
    out.writelines(f"row {index}:0 0 0\n" for index in range(entities))
    out.write("end\nscript\n")
    for _ in range(commands):
        entity, field = draws.below(entities), draws.below(2)
        out.write(f"patch {entity}:0 position.{field} {draws.between(-1000, 999)}\n")
    out.write("end\n")


SORTS = 10


def write_sorts(out: TextIO, keys: Iterable[int]) -> None:
    """Writes a document with a row for each key, and a script that sorts the pool by them, again and again."""
    keys = list(keys)
    out.write("world 1\ncomponent key int\ntick 0\n" + "live 0\n" * len(keys) + "pool key\n")
    out.writelines(f"row {index}:0 {key}\n" for index, key in enumerate(keys))
    out.write("end\nscript\n" + "sort pool key.0\n" * SORTS + "end\n")


def write_equal_sorts(out: TextIO, rows: int) -> None:
    """Keys that are all equal."""
    write_sorts(out, [7] * rows)


def write_ascending_sorts(out: TextIO, rows: int) -> None:
    """Keys that ascend with the indices."""
    write_sorts(out, range(rows))


# The components of the example `arena.world`.
ARENA = [
    Component("position", 100, [(0, 999), (0, 999)]),
    Component("velocity", 80, [(-5, 5), (-5, 5)]),
    Component("health", 60, [(50, 100)]),
    Component("team", 100, [(0, 3)]),
    Component("target", 30, [ENTITY]),
    Component("damage", 30, [(1, 5)]),
    Component("timer", 50, [(0, 99)]),
    Component("frozen", 10, []),
    Component("marked", 40, [(0, 0)]),
]


def arena_header() -> str:
    """The lines of the example before its tick: its components, groups and twelve systems."""
    path = os.path.join(os.path.dirname(os.path.dirname(os.path.realpath(__file__))), "examples/arena.world")
    with open(path, encoding="ascii") as example:
        return example.read().split("\ntick ")[0] + "\n"


def write_arena(out: TextIO, entities: int) -> None:
    """Writes the example's header and so many entities, all live and of version 0."""
    draws = Draws(entities)
    versions = array.array("H", [0]) * entities
    live = bytearray(b"\1") * entities
    out.write(arena_header() + "tick 0\n" + "live 0\n" * entities)
    for component in ARENA:
        write_pool(out, component, versions, live, draws)
    out.write("end\n")


def write_graph(out: TextIO, systems: int) -> None:
    """Writes a document without entities: 64 components, and systems that name 16 of them, of which each writes two."""
    draws = Draws(systems)
    out.write("world 1\n" + "".join(f"component c{number} int\n" for number in range(64)))
    for system in range(systems):
        named = sorted(range(64), key=lambda _: draws.unit())[:16]
        lists = [("read", named[:10]), ("write", named[10:12]), ("look", named[12:])]
        out.write(f"system s{system}\n")
        for word, components in lists:
            out.write(" ".join([word, *(f"c{number}" for number in sorted(components))]) + "\n")
        out.write("end\n")
    out.write("tick 0\n" + "".join(f"pool c{number}\n" for number in range(64)) + "end\n")


def write_chain(out: TextIO, systems: int) -> None:
    """Writes a document without entities: systems that write the same 16 components, so that all conflict."""
    names = [f"c{number}" for number in range(16)]
    out.write("world 1\n" + "".join(f"component {name} int\n" for name in names))
    for system in range(systems):
        out.write(f"system s{system}\nwrite {' '.join(names)}\nend\n")
    out.write("tick 0\n" + "".join(f"pool {name}\n" for name in names) + "end\n")


def write_nothing(out: TextIO, entities: int) -> None:
    """Writes nothing: the program makes so many entities itself."""


class Workload(NamedTuple):
    """What is measured: the program's words, what its input counts, how many of it, and what writes so many.

    The word COUNT stands for how many of it.
    """

    name: str
    words: list[str]
    counted: str
    count: int
    write_input: Callable[[TextIO, int], None]


WORKLOADS = [
    Workload("snapshot", ["snapshot"], "entities", 1_000_000, write_plain_document),
    Workload("apply", ["apply"], "commands", 1_000_000, write_script),
    Workload("apply-groups", ["apply"], "commands", 1_000_000, write_grouped_script),
    Workload("apply-patch", ["apply"], "commands", 1_000_000, write_patches),
    Workload("sort-equal", ["apply"], "keys", 100_000, write_equal_sorts),
    Workload("sort-ascending", ["apply"], "keys", 100_000, write_ascending_sorts),
    Workload("run", ["run", "--ticks", "50", "--workers", "1"], "entities", 100_000, write_arena),
    Workload("graph", ["graph"], "systems", 64, write_graph),
    Workload("chain", ["graph"], "systems", 64, write_chain),
    Workload("pack", ["pack"], "entities", 400_000, write_plain_document),
    Workload("unpack", ["unpack"], "entities", 400_000, write_packed_document),
    Workload("gen", ["gen", "7", COUNT, "100"], "entities", 100_000, write_nothing),
]


# The runs


class Run(NamedTuple):
    """What one run took."""

    seconds: float
    peak_bytes: int


def run_once(command: list[str], input_path: str, output_path: str) -> Run:
    """Runs the command from file to file, and ends the script where its status isn't 0."""
    with open(input_path, "rb") as source, open(output_path, "wb") as sink:
        streams = [(os.POSIX_SPAWN_DUP2, source.fileno(), 0), (os.POSIX_SPAWN_DUP2, sink.fileno(), 1)]
        start = time.perf_counter()
        pid = os.posix_spawnp(command[0], command, os.environ, file_actions=streams)
        _, status, usage = os.wait4(pid, 0)
        seconds = time.perf_counter() - start
    if status != 0:
        sys.exit(f"{shlex.join(command)}: status {os.waitstatus_to_exitcode(status)}")
    return Run(seconds, usage.ru_maxrss * 1024)


class Summary(NamedTuple):
    """What the runs of one program took."""

    median: float
    least: float
    peak_bytes: int


def summarize(runs: list[Run]) -> Summary:
    """The median and the least time, and the greatest peak."""
    seconds = [run.seconds for run in runs]
    return Summary(statistics.median(seconds), min(seconds), max(run.peak_bytes for run in runs))


def measure(commands: list[list[str]], input_path: str, outputs: list[str], rounds: int) -> list[Summary]:
    """Runs the commands by turns, and keeps the last output of each."""
    runs: list[list[Run]] = [[] for _ in commands]
    for _ in range(rounds):
        for command, output_path, done in zip(commands, outputs, runs):
            done.append(run_once(command, input_path, output_path))
    return [summarize(done) for done in runs]


# The report


def print_summaries(summaries: list[Summary], input_bytes: int) -> None:
    """Prints a line for each program, and the ratios of the first to the second where there are two."""
    print(f"{'':8} {'median s':>10} {'least s':>10} {'MB/s':>8} {'peak MB':>9}")
    for name, summary in zip(["world", "beside"], summaries):
        speed = input_bytes / summary.median / 1e6
        print(f"{name:8} {summary.median:10.3f} {summary.least:10.3f} {speed:8.1f} {summary.peak_bytes / 1e6:9.1f}")
    if len(summaries) == 2:
        ours, other = summaries
        print(f"{'ratio':8} {ours.median / other.median:10.2f} {ours.least / other.least:10.2f} {'':8} "
              f"{ours.peak_bytes / other.peak_bytes:9.2f}")


def write_input(workload: Workload, count: int, path: str) -> int:
    """Writes the workload's input, and returns its size in bytes."""
    with open(path, "w", encoding="ascii", newline="\n") as out:
        workload.write_input(out, count)
    size = os.path.getsize(path)
    if size > MOST_INPUT:
        sys.exit(f"the input has {size} bytes, and the program reads {MOST_INPUT}: take fewer {workload.counted}")
    return size


def parse_options() -> argparse.Namespace:
    """Reads the script's words."""
    parser = argparse.ArgumentParser(description=__doc__, formatter_class=argparse.RawDescriptionHelpFormatter)
    names = [workload.name for workload in WORKLOADS]
    parser.add_argument("--workload", choices=names, help="one workload, and not one after another")
    parser.add_argument("--count", type=int, help="entities or commands of the input, and not the workload's own number")
    parser.add_argument("--runs", type=int, default=5, help="runs of each program (5)")
    parser.add_argument("--beside", metavar="CMD", type=shlex.split, help="a second program, without its words")
    parser.add_argument("--keep", metavar="FOLDER", help="keep the inputs in this folder, which is there")
    return parser.parse_args()


def run_workload(workload: Workload, options: argparse.Namespace, folder: str) -> bool:
    """Measures one workload and prints what was found, and tells whether the outputs are equal."""
    programs = [[PROGRAM]] + ([options.beside] if options.beside else [])
    count = options.count or workload.count
    input_path = os.path.join(options.keep or folder, f"{workload.name}-{count}")
    outputs = [os.path.join(folder, f"output-{number}") for number in range(len(programs))]
    size = write_input(workload, count, input_path)
    print(f"{workload.name}: {count} {workload.counted}, {size} bytes, {options.runs} runs each", flush=True)
    words = [str(count) if word is COUNT else word for word in workload.words]
    summaries = measure([program + words for program in programs], input_path, outputs, options.runs)
    print_summaries(summaries, size)
    if len(outputs) < 2:
        return True
    equal = filecmp.cmp(*outputs, shallow=False)
    print("outputs: equal" if equal else "outputs: DIFFERENT")
    return equal


def main() -> int:
    """Measures the workloads. The status is 1 where outputs differ."""
    options = parse_options()
    if not os.path.exists(PROGRAM):
        sys.exit(f"{PROGRAM} isn't built: run bin/prove")
    chosen = [workload for workload in WORKLOADS if options.workload in (None, workload.name)]
    with tempfile.TemporaryDirectory() as folder:
        equal = [run_workload(workload, options, folder) for workload in chosen]
    return 0 if all(equal) else 1


if __name__ == "__main__":
    sys.exit(main())
