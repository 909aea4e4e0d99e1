#!/usr/bin/env python3
"""Prints settlement.world, the same bytes at each run: examples/settlement.py >examples/settlement.world

A walled settlement is raided: villagers work and sleep in houses, guards hunt raiders, raiders hunt
villagers and guards, sheep graze, trees stand. Those that fell earlier left free slots, and some of
their slots have newer owners.
"""

import random

VILLAGERS, GUARDS, RAIDERS, HOUSES, TREES, SHEEP, FALLEN = 120, 24, 36, 40, 90, 45, 25
SETTLERS, BAND = 1, 2
SIDE = 400  # the settlement's walls are a square round the origin; raiders come from the north

COMPONENTS = {
    "position": "int int",
    "velocity": "int int",
    "health": "int int",  # now, at most
    "team": "int",
    "home": "entity",
    "target": "entity",
    "damage": "int",
    "stock": "int int int",  # food, wood, stone
    "wood": "int",
    "asleep": "",
}

uniform = random.Random(1066).random


def below(limit):
    """A number from 0 up to `limit`, which isn't reached."""
    return int(uniform() * limit)


def between(low, high):
    """A number from `low` to `high`, both included."""
    return low + below(high - low + 1)


def somewhere(side):
    """A place in the square of this side round the origin."""
    return f"{between(-side // 2, side // 2)} {between(-side // 2, side // 2)}"


def make_slots():
    """The kinds of the slots in a mixed order, and their versions."""
    kinds = (["house"] * HOUSES + ["tree"] * TREES + ["villager"] * VILLAGERS + ["guard"] * GUARDS
             + ["sheep"] * SHEEP + ["raider"] * RAIDERS + ["fallen"] * FALLEN)
    settled = HOUSES + TREES  # what stood first keeps the first slots
    later = sorted(kinds[settled:], key=lambda _: uniform())
    versions = [0] * settled + [between(1, 4) if below(5) == 0 else 0 for _ in later]
    kinds = kinds[:settled] + later
    return kinds, [version + (kind == "fallen") for kind, version in zip(kinds, versions)]


def describe(kind, pick):
    """An entity of this kind: its components' values. `pick` gives the identifier of some entity of a kind."""
    if kind == "house":
        return {"position": somewhere(SIDE), "health": f"{between(150, 300)} 300", "team": SETTLERS,
                "stock": f"{between(0, 80)} {between(0, 60)} {between(0, 40)}"}
    if kind == "tree":
        return {"position": somewhere(3 * SIDE), "wood": between(5, 60)}
    if kind == "sheep":
        return {"position": somewhere(SIDE), "velocity": f"{between(-1, 1)} {between(-1, 1)}",
                "health": f"{between(4, 12)} 12"}
    if kind == "villager":
        villager = {"position": somewhere(SIDE), "health": f"{between(20, 40)} 40", "team": SETTLERS,
                    "home": pick("house")}
        if below(3) == 0:
            return villager | {"asleep": ""}
        return villager | {"velocity": f"{between(-2, 2)} {between(-2, 2)}",
                           "target": pick(("tree", "sheep", "house")[below(3)])}
    if kind == "guard":
        return {"position": somewhere(SIDE), "velocity": f"{between(-3, 3)} {between(0, 3)}",
                "health": f"{between(30, 80)} 80", "team": SETTLERS, "home": pick("house"),
                "target": pick("raider") if below(4) else "null", "damage": between(6, 11)}
    return {"position": f"{between(-SIDE, SIDE)} {between(SIDE // 2, SIDE)}",
            "velocity": f"{between(-2, 2)} {between(-4, -1)}", "health": f"{between(15, 70)} 70", "team": BAND,
            "target": pick(("villager", "guard")[below(2)]), "damage": between(4, 14)}


def main():
    """Prints the document."""
    kinds, versions = make_slots()
    names = [f"{index}:{version}" for index, version in enumerate(versions)]
    of_kind = {kind: [index for index, other in enumerate(kinds) if other == kind] for kind in kinds}

    def pick(kind):
        return names[of_kind[kind][below(len(of_kind[kind]))]]

    entities = [{} if kind == "fallen" else describe(kind, pick) for kind in kinds]
    print("world 1")
    for component, fields in COMPONENTS.items():
        print(f"component {component} {fields}".rstrip())
    print("tick 86400")
    for kind, version in zip(kinds, versions):
        print("free" if kind == "fallen" else "live", version)
    for index in sorted(of_kind["fallen"], key=lambda _: uniform()):
        print("next", index)
    for component in COMPONENTS:
        print("pool", component)
        for name, entity in zip(names, entities):
            if component in entity:
                print(f"row {name} {entity[component]}".rstrip())
    print("end")


if __name__ == "__main__":
    main()
