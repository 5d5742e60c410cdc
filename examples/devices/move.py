#!/usr/bin/env python3
"""Moves a device from one switch to another, in a server that load.py has loaded.

    examples/devices/move.py PORT DEVICE FROM TO

All of it takes effect or nothing: where the other switch has no port left, the device stays where it was.
"""
import sys
from pathlib import Path

sys.dont_write_bytecode = True
sys.path.insert(0, str(Path(__file__).resolve().parents[1]))

import loading
from loading import graphd

PORTS = 10  # devices that a switch may feed
UNPLUG = "MATCH (:Switch {name: $switch})-[l:FEEDS]->(:Device {name: $device}) WITH l, l.gbit AS gbit DELETE l RETURN gbit"
PLUG = "MATCH (s:Switch {name: $switch}), (d:Device {name: $device}) MERGE (s)-[l:FEEDS]->(d) SET l.gbit = $gbit RETURN l"
FED = "MATCH (:Switch {name: $switch})-[:FEEDS]->(d:Device) RETURN count(d) AS devices"


class Stays(Exception):
    """Why a device isn't moved."""


def move(graph, device, old, new):
    """Moves the device. Raises Stays, and changes nothing, where it can't be."""
    with graph.transaction():
        gone = graph.query(UNPLUG, switch=old, device=device)
        if not gone.rows:
            raise Stays(f"{device} doesn't hang on {old}")
        if not graph.query(PLUG, switch=new, device=device, gbit=gone.value()).rows:
            raise Stays(f"there is no switch {new}")
        if graph.query(FED, switch=new).value() > PORTS:
            raise Stays(f"{new} has no port left")


def main():
    if len(sys.argv) != 5:
        sys.exit(__doc__)
    port, *names = sys.argv[1:]
    try:
        with graphd.connect(port if ":" in port else int(port), "devices-writes", wait=loading.WAIT) as graph:
            move(graph, *names)
    except (graphd.GraphdError, ValueError, Stays) as fault:
        sys.exit(f"move.py: {fault}")
    print(f"{names[0]} hangs on {names[2]}")


if __name__ == "__main__":
    main()
