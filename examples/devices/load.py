#!/usr/bin/env python3
"""Loads the network of an office building into a server that listens.

    examples/devices/load.py PORT

To load again makes nothing twice.
"""
import sys
from pathlib import Path

sys.dont_write_bytecode = True
sys.path.insert(0, str(Path(__file__).resolve().parents[1]))

import loading

FLOORS = 6
SWITCHES = 4  # on each floor
KINDS = ["phone", "camera", "printer", "sensor", "phone", "sensor", "display", "sensor"]
VERSIONS = [30, 31, 31, 32, 32, 32]


def switches():
    """Each switch with its floor; what stands at the top is on floor 0."""
    yield from ([f"core-{number}", 0] for number in (1, 2))
    for floor in range(1, FLOORS + 1):
        yield [f"floor-{floor}", floor]
        yield from ([f"access-{floor}{number}", floor] for number in range(1, SWITCHES + 1))


def uplinks():
    """Which switch feeds which. Every second access switch also hangs on the floor above."""
    for floor in range(1, FLOORS + 1):
        yield from ([f"core-{number}", f"floor-{floor}", 40] for number in (1, 2) if number == 1 or floor != FLOORS)
        for number in range(1, SWITCHES + 1):
            yield [f"floor-{floor}", f"access-{floor}{number}", 10]
            if number % 2 == 0 and floor < FLOORS:
                yield [f"floor-{floor + 1}", f"access-{floor}{number}", 10]


def devices():
    """Each device with its kind, version and switch; an eighth of them with a second switch."""
    for place in range(FLOORS * SWITCHES * len(KINDS)):
        switch, number = divmod(place, len(KINDS))
        floor, side = divmod(switch, SWITCHES)
        name = f"{KINDS[number]}-{floor + 1}{side + 1}{number + 1}"
        homes = [f"access-{floor + 1}{side + 1}"]
        if number == 1:
            homes.append(f"access-{floor + 1}{(side + 1) % SWITCHES + 1}")
        yield name, KINDS[number], VERSIONS[place * 5 % len(VERSIONS)], homes


def load(graph):
    graph.query(
        "UNWIND $rows AS row MERGE (s:Switch {name: row[0]}) SET s.floor = row[1]",
        rows=list(switches()),
    )
    graph.query("MATCH (s:Switch {floor: 0}) SET s:Core")
    link = "MERGE (a)-[l:FEEDS]->(b) SET l.gbit = row[2]"
    graph.query(
        f"UNWIND $rows AS row MATCH (a:Switch {{name: row[0]}}), (b:Switch {{name: row[1]}}) {link}",
        rows=list(uplinks()),
    )
    graph.query(
        "UNWIND $rows AS row MERGE (d:Device {name: row[0]}) SET d.kind = row[1], d.version = row[2]",
        rows=[[name, kind, version] for name, kind, version, _ in devices()],
    )
    graph.query(
        f"UNWIND $rows AS row MATCH (a:Switch {{name: row[0]}}), (b:Device {{name: row[1]}}) {link}",
        rows=[[home, name, 1] for name, _, _, homes in devices() for home in homes],
    )


if __name__ == "__main__":
    loading.main(load, "devices-writes", __doc__)
