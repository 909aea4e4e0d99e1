#!/usr/bin/env python3
"""Holds the members of 32 groups to a plain filter of the rows, after every hundredth of random commands.

A document of 24 components declares 20 groups, nested in several ways; the script adds 12 more. Its commands
make and destroy entities, add, replace and remove rows, clear pools and sort groups and pools. After every
hundredth command it asks each group for its members. The script keeps the rows beside, as one set of indices
for each component, and each group is filtered from these sets anew. The status is 1 where a reply differs.
"""

import argparse
import random
import subprocess
import sys
from pathlib import Path

PROGRAM = Path(__file__).resolve().parent.parent / "crates/world/out/world"
ENTITIES = 60  # live at most
POOLS = 24
DECLARED = 20  # groups of the document; the others come with the script
EVERY = 100  # commands between two looks at the members


def groups():
    """32 groups, each a list of owned, observed and excluded pools. Any two are apart or nested."""
    made = []
    for first in range(0, 20, 5):
        # Five pools: two outer groups that are apart, one inner to both, and four nested in one another.
        a, b, c, x, y = range(first, first + 5)
        far = 20 + first // 5
        made += [
            ([a], [x], []),
            ([b], [y], []),
            ([a, b], [x, y], []),
            ([a, b], [x, y], [far]),
            ([a, b, c], [x, y], [far]),
            ([c], [], []),
            ([c, a, b], [x, y], [far, 20 + (first // 5 + 1) % 4]),
            ([far], [x], [y]),
        ]
    return made


def group_line(group):
    own, get, without = (["c%d" % pool for pool in pools] for pools in group)
    words = ["group own", *own]
    words += ["get", *get] if get else []
    words += ["not", *without] if without else []
    return " ".join(words)


class World:
    """The rows of each component as a set of indices, and the slots."""

    def __init__(self):
        self.rows = [0] * POOLS
        self.versions = []
        self.free = []
        self.live = []

    def create(self):
        if self.free:
            index = self.free.pop()
        else:
            index = len(self.versions)
            self.versions.append(0)
        self.live.append(index)

    def destroy(self, at):
        index = self.live[at]
        self.live[at] = self.live[-1]
        self.live.pop()
        for pool in range(POOLS):
            self.rows[pool] &= ~(1 << index)
        self.versions[index] = (self.versions[index] + 1) % 4095
        self.free.append(index)

    def name(self, index):
        return "%d:%d" % (index, self.versions[index])

    def members(self, group):
        """The reply that lists a group's members."""
        own, get, without = group
        found = -1
        for pool in own + get:
            found &= self.rows[pool]
        for pool in without:
            found &= ~self.rows[pool]
        words = ["members"]
        while found:
            least = found & -found
            words.append(self.name(least.bit_length() - 1))
            found ^= least
        return " ".join(words)


def command(draws, world, standing):
    """One command, which the world has carried out."""
    kind = draws.randrange(1000)
    if len(world.live) < 10 or (kind < 40 and len(world.live) < ENTITIES):
        world.create()
        return "create"
    at = draws.randrange(len(world.live))
    index = world.live[at]
    entity, pool = world.name(index), draws.randrange(POOLS)
    bit, component = 1 << index, "c%d" % pool
    if kind < 65:
        world.destroy(at)
        return "destroy " + entity
    if kind < 560:
        world.rows[pool] |= bit
        word = "emplace" if kind < 400 else "emplace_or_replace"
        return "%s %s %s %d" % (word, entity, component, draws.randrange(9))
    if kind < 985:
        world.rows[pool] &= ~bit
        return "%s %s %s" % ("remove" if kind < 800 else "erase", entity, component)
    if kind < 988:
        world.rows[pool] = 0
        return "clear " + component
    if kind < 994:
        return "sort pool %s.0" % component
    group = draws.randrange(standing)
    return "sort group %d %s.0" % (group, component)


def write(path, count, seed):
    """Writes the document and the script, and gives the replies that must come, by place among the replies."""
    draws = random.Random(seed)
    world, all_groups, standing, wanted, line = World(), groups(), DECLARED, {}, 0
    with open(path, "w", encoding="ascii") as out:
        out.write("world 1\n" + "".join("component c%d int\n" % pool for pool in range(POOLS)))
        out.writelines(group_line(group) + "\n" for group in all_groups[:DECLARED])
        out.write("tick 0\n" + "".join("pool c%d\n" % pool for pool in range(POOLS)) + "end\nscript\n")
        for number in range(1, count + 1):
            if number % (count // 16) == 0 and standing < len(all_groups):
                out.write(group_line(all_groups[standing]) + "\n")
                wanted[line] = "group %d" % standing
                standing += 1
            else:
                out.write(command(draws, world, standing) + "\n")
            line += 1
            if number % EVERY == 0:
                for group in range(standing):
                    out.write("members %d\n" % group)
                    wanted[line] = world.members(all_groups[group])
                    line += 1
        out.write("end\n")
    return wanted, standing


def main():
    parser = argparse.ArgumentParser(description=__doc__.splitlines()[0])
    parser.add_argument("--program", default=str(PROGRAM))
    parser.add_argument("--count", type=int, default=2_000_000, help="commands")
    parser.add_argument("--seed", type=int, default=1)
    parser.add_argument("--input", default="/tmp/random-groups.script", help="where the input is written")
    options = parser.parse_args()
    wanted, standing = write(options.input, options.count, options.seed)
    with open(options.input, "rb") as given:
        ended = subprocess.run([*options.program.split(), "apply"], stdin=given, stdout=subprocess.PIPE, check=False)
    if ended.returncode != 0:
        sys.exit("the program ended with %d" % ended.returncode)
    replies = ended.stdout.decode("ascii").split("\n")
    wrong = [line for line, reply in wanted.items() if replies[line] != reply]
    listed = sum(reply.count(" ") for reply in wanted.values() if reply.startswith("members"))
    print("%d commands, %d groups at the end, %d replies held to the filter, %d members listed, %d wrong"
          % (options.count, standing, len(wanted), listed, len(wrong)))
    for line in wrong[:5]:
        print("reply %d: %r, and must be %r" % (line + 1, replies[line][:100], wanted[line][:100]))
    sys.exit(1 if wrong else 0)


main()
