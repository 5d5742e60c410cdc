#!/usr/bin/env python3
"""Loads what bicycles are made of, and what is in stock, into a server that listens.

    examples/parts/load.py PORT

To load again makes nothing twice.
"""
import sys
from pathlib import Path

sys.dont_write_bytecode = True
sys.path.insert(0, str(Path(__file__).resolve().parents[1]))

import loading

MODELS = ["city", "tour", "race", "cargo", "child", "fold"]
SUPPLIERS = ["Arendt", "Bjelke", "Cordes", "Dahl", "Ekholm"]

# what is bought, with its cost in cents: for all models, or one for each of them
BOUGHT = {
    "bolt-m5": 12, "bolt-m6": 15, "nut-m6": 9, "washer": 3, "bearing": 240, "cable": 110, "cable-end": 4,
    "brake-pad": 180, "chain-link": 11, "spoke": 35, "nipple": 6, "valve": 45, "grip": 320, "lamp": 1450,
    "reflector": 90, "pedal": 980, "bell": 410, "tape": 150,
}
BOUGHT_FOR_EACH = {"rim": 2600, "tyre": 1900, "tube-steel": 1200, "saddle-shell": 800, "handlebar": 1500, "cassette": 2900}

# what each model's assemblies need, with quantities; a word with * is one for each model
ASSEMBLIES = {
    "wheel*": {"rim*": 1, "tyre*": 1, "hub": 1, "spoke": 32, "nipple": 32, "valve": 1, "reflector": 2},
    "brake*": {"brake-pad": 2, "cable": 1, "cable-end": 2, "bolt-m5": 3},
    "drive*": {"chain": 1, "crank": 1, "cassette*": 1, "bearing": 2},
    "seat*": {"saddle-shell*": 1, "bolt-m6": 2, "nut-m6": 2},
    "steering*": {"handlebar*": 1, "grip": 2, "bell": 1, "bearing": 2, "bolt-m5": 4, "brake-lever": 2},
    "frame*": {"tube-steel*": 8, "bolt-m6": 4, "washer": 4, "dropout": 2},
    "light*": {"lamp": 2, "cable": 2, "bolt-m5": 2},
}
SHARED = {
    "hub": {"bearing": 2, "nut-m6": 2, "washer": 2},
    "chain": {"chain-link": 112},
    "crank": {"pedal": 2, "bolt-m6": 2, "arm": 2},
    "arm": {"bolt-m5": 5},
    "brake-lever": {"cable-end": 1, "bolt-m5": 1, "tape": 1},
    "dropout": {"bolt-m5": 2, "nut-m6": 1},
}
PRODUCT = {"wheel*": 2, "brake*": 2, "drive*": 1, "seat*": 1, "steering*": 1, "frame*": 1, "light*": 1, "bolt-m6": 6}
# where a model needs another quantity, or none
OTHERWISE = {
    "cargo": {"wheel*": 3, "brake*": 3, "seat*": 2}, "race": {"light*": 0, "bolt-m6": 4}, "child": {"light*": 0, "brake*": 1},
}


def named(word, model):
    return word.replace("*", f"-{model}")


def bought():
    """Each part that is bought: its number, cost, supplier and stock."""
    parts = list(BOUGHT.items())
    for word, cost in BOUGHT_FOR_EACH.items():
        parts += ((f"{word}-{model}", cost + cost * place // 8) for place, model in enumerate(MODELS))
    for place, (number, cost) in enumerate(parts):
        yield [number, cost, SUPPLIERS[place % len(SUPPLIERS)], 40 * (1 + place * 7 % 12)]


def made():
    """Each part that is made of others: its number and what it needs."""
    for model in MODELS:
        for word, needs in ASSEMBLIES.items():
            yield named(word, model), {named(part, model): quantity for part, quantity in needs.items()}
        needs = {**PRODUCT, **OTHERWISE.get(model, {})}
        yield f"bike-{model}", {named(part, model): quantity for part, quantity in needs.items() if quantity}
    yield from SHARED.items()


def load(graph):
    graph.query(
        "UNWIND $rows AS row MERGE (p:Part {number: row[0]}) SET p:Bought, p.cost = row[1], p.supplier = row[2], p.stock = row[3]",
        rows=list(bought()),
    )
    graph.query("UNWIND $numbers AS number MERGE (:Part {number: number})", numbers=[number for number, _ in made()])
    graph.query("MATCH (p:Part) WHERE p.number STARTS WITH 'bike-' SET p:Product")
    rows = [[number, part, quantity] for number, needs in made() for part, quantity in needs.items()]
    graph.query(
        "UNWIND $rows AS row MATCH (a:Part {number: row[0]}), (b:Part {number: row[1]})"
        " MERGE (a)-[r:NEEDS]->(b) SET r.quantity = row[2]",
        rows=rows,
    )


if __name__ == "__main__":
    loading.main(load, "parts-writes", __doc__)
