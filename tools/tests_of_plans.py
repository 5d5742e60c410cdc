"""Tests of what is told of a query before it runs: where each walk begins, by which index, and what is charged."""
import contextlib
import random
import unittest

import client_path  # (finds the package graphd)
import evaluator
import graphd
from evaluator_patterns import Search
from evaluator_values import equal
from graphd import explained, reader
from tests_of_clients import CONFIG, command, configuration, folder, shell

GRAPH = """UNWIND range(0, 11) AS i CREATE (:A {k: i % 3, j: i % 2})-[:K {w: i % 2}]->(:B:A {k: i % 4})
 WITH count(*) AS c MATCH (a:A), (b:B) WHERE a.k = 1 AND b.k = 1 AND id(a) < 9 CREATE (a)-[:L]->(b)-[:K]->(a)"""
PAIRS = [("A", "k"), ("A", "j"), ("B", "k"), ("B", "j"), ("C", "k")]
CONSTANTS = ["1", "0", "'t'", "TRUE", "null", "$one"]
OTHERS = ["-1", "(1)", "1 + 0", "[1][0]"]  # which fix no key


class Planned(Search):
    """A search whose walks begin where it is told that they begin."""

    starts = {}  # by the place of the path's first node
    values = {}  # of what WHERE fixes, by the place of a node and the key

    def anchor(self, path, match, bound):
        nodes = path.elements[::2]
        start = self.starts[nodes[0].place]
        node = nodes[start.place]
        if start.by == "bound":
            value = match.row[node.variable.name]
            return start.place, [] if value is None else [value.id]
        wanted = self.values[node.place, start.key] if start.in_where else self.wanted.get(node.place, {}).get(start.key)
        return start.place, [id for id, record in self.graph.nodes.items() if self.serves(start, record, wanted)]

    def serves(self, start, record, wanted):
        if start.label is not None and start.label not in record.labels:
            return False
        return start.by != "index" or equal(record.properties.get(start.key), wanted) is True


@contextlib.contextmanager
def planned(text, indexes, params):
    """The evaluator with the walks of the text as they are told."""
    clauses = reader.read(text)[1]
    asks = evaluator.Evaluator(None, params)
    Planned.starts, Planned.values = {}, {}
    for clause, plan in zip(clauses, explained(text, indexes)):
        for walk in plan.walks:
            Planned.starts[walk.path.elements[0].place] = walk.start
        if clause.kind == "MATCH":
            note_values(clause, asks)
    evaluator.Search = Planned
    try:
        yield
    finally:
        evaluator.Search = Search


def note_values(clause, asks):
    """Notes the value of the first `n.k = c` of each n and k of a WHERE."""
    left = [clause.where] if clause.where else []
    while left:
        expr = left.pop()
        if expr.kind == "operation":
            left += expr.parts
        elif expr.kind == "comparison" and expr.parts[0].kind == "property" and expr.parts[0].parts[0].kind == "variable":
            name, key = expr.parts[0].parts[0].value, expr.parts[0].value
            for path in clause.paths:
                for node in path.elements[::2]:
                    if node.variable and node.variable.name == name:
                        Planned.values[node.place, key] = asks.value(expr.parts[1], {})


class Maker:
    """Makes queries that find, of one or two paths, some behind others."""

    def __init__(self, seed):
        self.chance = random.Random(seed)

    def node(self, names):
        name = self.chance.choice(["", *names])
        labels = "".join(self.chance.choice(["", "", ":A", ":B", ":C"]) for _ in range(2))
        entry = f" {{{self.chance.choice('kj')}: {self.chance.choice(CONSTANTS[:4] + OTHERS)}}}" if self.chance.random() < 0.3 else ""
        return f"({name}{labels}{entry})"

    def path(self, names):
        told = self.node(names)
        for _ in range(self.chance.randrange(3)):
            rel = self.chance.choice(["-->", "<--", "--", "-[:K]->", "<-[:L|K]-", "-[:K {w: 1}]-", "-[:K*0..2]->"])
            told += rel + self.node(names)
        return told

    def where(self, names):
        if not names or self.chance.random() < 0.3:
            return ""
        items = []
        for _ in range(self.chance.randrange(1, 4)):
            name, key, value = self.chance.choice(names), self.chance.choice("kj"), self.chance.choice(CONSTANTS + OTHERS[:2])
            forms = [f"{name}.{key} = {value}"] * 6 + [f"{value} = {name}.{key}", f"({name}.{key} = {value})", f"{name}['{key}'] = {value}"]
            items.append(self.chance.choice(forms))
        return " WHERE " + self.chance.choice([" AND ", " AND ", " AND ", " OR "]).join(items)

    def match(self, names):
        paths = ", ".join(self.path(names) for _ in range(self.chance.randrange(1, 3)))
        here = [name for name in names if f"({name}:" in paths or f"({name})" in paths or f"({name} " in paths]
        return f"MATCH {paths}{self.where(here)}", here

    def query(self):
        first, here = self.match(["a", "b"])
        if self.chance.random() < 0.5 and here:
            second, _ = self.match([here[0], "c"])
            return f"{first} WITH {here[0]} LIMIT 3 OPTIONAL {second} RETURN count(*)"
        return f"{first} RETURN count(*)"


class Plans(unittest.TestCase):
    def starts(self, text, *indexes):
        return [[(start.place, start.by, start.label, start.key, start.in_where) for start in (walk.start for walk in plan.walks)] for plan in explained(text, indexes)]

    def test_where_walks_begin(self):
        self.assertEqual(self.starts("MATCH (a)-->(b:B)<--(c:A) RETURN a"), [[(1, "label", "B", None, False)], []])
        self.assertEqual(self.starts("MATCH (a)-->(b) RETURN a"), [[(0, "all", None, None, False)], []])
        self.assertEqual(self.starts("MATCH (a:A), (b:B)--(a) RETURN a")[0], [(0, "label", "A", None, False), (1, "bound", None, None, False)])
        self.assertEqual(self.starts("MATCH (a:A)--(b:B {k: 1}) RETURN a", ("B", "k"))[0], [(1, "index", "B", "k", False)])
        self.assertEqual(self.starts("MATCH (a:A)--(b:B) WHERE b.k = 1 RETURN a", ("B", "k"))[0], [(1, "index", "B", "k", True)])
        # of a node's labels the first that has an index, of its keys those of the pattern first
        text = "MATCH (n:A:B {j: 1}) WHERE n.k = 1 RETURN n"
        self.assertEqual(self.starts(text, ("A", "k"), ("B", "j"))[0], [(0, "index", "A", "k", True)])
        self.assertEqual(self.starts(text, ("A", "k"), ("A", "j"))[0], [(0, "index", "A", "j", False)])

    def test_which_conditions_fix_a_key(self):
        for where, is_fixed in [
            ("n.k = 1", True), ("n.k = $x AND n.j > 1", True), ("n.j = 2 AND n.k = 1", True), ("n.k = null", True),
            ("n.j > 1 AND n.k = 1", False), ("1 = n.k", False), ("(n.k = 1)", False), ("n.k = -1", False), ("n['k'] = 1", False),
            ("n.k = 1 = true", False), ("n.k = 1 OR n.j = 1", False), ("(n.j = 1 AND n.k = 1)", False), ("NOT n.k = 1", False),
        ]:
            found = self.starts(f"MATCH (n:A) WHERE {where} RETURN n", ("A", "k"))[0][0][1]
            self.assertEqual(found, "index" if is_fixed else "label", where)
        self.assertEqual(self.starts("MATCH (m) WITH m MATCH (m:A)--(n) WHERE m.k = 1 RETURN n", ("A", "k"))[2][0][1], "bound")

    def test_an_index_that_would_serve(self):
        self.assertEqual(explained("MATCH (n:A) WHERE n.k = 1 RETURN n")[0].walks[0].start.wanted, ("A", "k"))
        self.assertIsNone(explained("MATCH (n:A) WHERE n.k > 1 RETURN n")[0].walks[0].start.wanted)

    def test_steps_are_those_told(self):
        """Over random queries and indexes: whoever walks as is told takes the steps that the server takes, and finds as much."""
        kinds = set()
        with folder() as made, graphd.start(command(configuration(made, 1, 1000, 100_000)), "t0") as server:
            tenant = evaluator.Tenant(100_000, 1000)
            server.query(GRAPH)
            tenant.answer(GRAPH, {})
            maker, there = Maker(7), []
            for turn in range(400):
                if turn % 20 == 0:
                    there = change_indexes(server, there, maker.chance)
                text = maker.query()
                with planned(text, there, {"one": 1}):
                    wanted = tenant.answer(text, {"one": 1})
                kinds.update(walk.start.by + str(walk.start.in_where) for plan in explained(text, there) for walk in plan.walks)
                self.assertEqual(answer(server, text), (wanted["code"], wanted.get("rows"), wanted.get("steps")), (text, there))
        self.assertEqual(kinds, {"boundFalse", "indexFalse", "indexTrue", "labelFalse", "allFalse"})

    def test_the_shell_explains(self):
        text = ":index Person name\n:explain MATCH (p:Person)-[:KNOWS]->(q) WHERE p.name = 'Bo' RETURN q\n:explain MATCH (p) RETURN q\nRETURN 1 AS x;\n:explain\n"
        status, told, fault = shell(CONFIG, "a1", "--format", "table", text=text)
        self.assertIn("\n1 MATCH\n  (p:Person): a step for each node that the index :Person(name) finds, since WHERE fixes name\n", told)
        self.assertIn("\n  then -[:KNOWS]->(q): a step for each relationship that leaves the node before, of any type\n", told)
        self.assertTrue(told.endswith("1 RETURN\n  a step for each row before it\n"), told)
        self.assertEqual(status, 1)
        self.assertIn("refused: UndefinedVariable (9) at line 1, column 18\n", fault)


def change_indexes(server, there, chance):
    for pair in there:
        server.drop_index(*pair)
    found = chance.sample(PAIRS, chance.randrange(len(PAIRS)))
    for pair in found:
        server.create_index(*pair)
    return found


def answer(server, text):
    try:
        told = server.query(text, one=1)
        return 0, [list(row) for row in told.rows], told.steps
    except graphd.Refused as fault:
        return fault.code, None, None
