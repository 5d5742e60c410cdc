"""Answers queries over a graph plainly from the rules of docs/LANGUAGE.md, apart from graphd's own code.

`Tenant.answer` gives the reply to a query as a dict; what is refused changes nothing. There are no indexes.
"""
from __future__ import annotations

import client_path  # (finds the package graphd)
from evaluator_expressions import DELETED_ENTITY, Evaluator, record
from evaluator_patterns import Graph, Search, direction_of
from evaluator_values import (
    DEEPEST, GREATEST, HEAVIEST, TYPE_FAULT, VALUE_TOO_LARGE, Fault, Node, Path, Rel, checked, code, depth, in_bytes,
    is_element, kind, order, sort_key, storable, want, weight,
)
from graphd import reader
from graphd.lexemes import Unreadable

NOT_STORABLE, MERGE_NULL, NODE_STILL_CONNECTED = 20, 21, 22
NEGATIVE_COUNT, STEP_QUOTA, ELEMENT_QUOTA, IDS_EXHAUSTED = 24, 25, 26, 27


class Tenant:
    def __init__(self, max_steps, max_elements):
        self.max_steps, self.max_elements = max_steps, max_elements
        self.graph = Graph()

    def answer(self, text, params, may_write=True):
        try:
            tokens, clauses = reader.read(text)
            faults = reader.static_faults(clauses)
            if faults:
                raise Fault(min(faults)[1])
            if reader.updates(clauses) and not may_write:
                raise Fault(reader.READ_ONLY)
            if any(token.kind == "parameter" and token.value not in params for token in tokens):
                raise Fault(reader.MISSING_PARAMETER)
            run = Run(self.graph.copy(), params, self.max_steps, self.max_elements)
            told = run.query(clauses)
        except (Fault, Unreadable) as refused:
            return {"code": refused.args[0]}
        self.graph = run.graph
        return told


class Columns:
    """What a projection gives for a row, and the row that it comes from, where it comes from one."""

    def __init__(self, values, row):
        self.values, self.row = values, row


class Run:
    """One query: its graph, and its steps so far."""

    def __init__(self, graph, params, max_steps, max_elements):
        self.graph, self.max_steps, self.max_elements = graph, max_steps, max_elements
        self.evaluator = Evaluator(graph, params)
        self.params = params
        self.steps = 0

    def query(self, clauses):
        rows, scope = [{}], set()
        for clause in clauses:
            if clause.kind == "RETURN":
                columns, found = self.projected(clause, rows, scope)
                return self.told(columns, [[self.spelt(value) for value in row.values] for row in found])
            rows, scope = CLAUSES[clause.kind](self, clause, rows, scope)
        return self.told([], [])

    def told(self, columns, rows):
        return {"code": 0, "columns": columns, "rows": rows, "steps": self.steps}

    def spend(self, steps):
        if self.steps + steps > self.max_steps:
            raise Fault(STEP_QUOTA)
        self.steps += steps

    def value(self, expr, row):
        return self.evaluator.value(expr, row)

    # patterns

    def test_nodes(self, paths, scope, row, kinds):
        """Tests the nodes of the pattern that the row binds."""
        for path in paths:
            for node in path.elements[::2]:
                if node.variable and node.variable.name in scope:
                    value = want(row[node.variable.name], *kinds)
                    if value is not None:
                        record(self.graph, value)

    def wanted(self, paths, row):
        """The values of the properties of all pattern elements, by their place."""
        found = {}
        for path in paths:
            for element in path.elements:
                if element.properties:
                    keys = [key.name for key in element.properties.keys]
                    found[element.place] = dict(zip(keys, self.evaluator.values(element.properties.values, row)))
        return found

    def match(self, clause, rows, scope):
        searches = []
        for row in rows:
            self.test_nodes(clause.paths, scope, row, ["node", "null"])
            searches.append(Search(self.graph, scope, self.wanted(clause.paths, row)))
        found = []
        for search, row in zip(searches, rows):
            found.append(search.matches(clause.paths, row))
            self.spend(search.cost)
        names = names_of(clause.paths)
        nothing = dict.fromkeys(names - scope)
        kept = []
        for row, matches in zip(rows, found):
            passed = [match for match in matches if self.evaluator.is_true(clause.where, match)]
            kept += passed or ([{**row, **nothing}] if clause.is_optional else [])
        return kept, scope | names

    # rows

    def unwind(self, clause, rows, scope):
        lists = [want(self.value(clause.expr, row), "list", "null") or [] for row in rows]
        self.spend(sum(map(len, lists)))
        name = clause.variable.name
        return [{**row, name: item} for row, items in zip(rows, lists) for item in items], scope | {name}

    def count(self, expr):
        if expr is None:
            return None
        count = want(self.value(expr, {}), "integer")
        if count < 0:
            raise Fault(NEGATIVE_COUNT)
        return count

    def with_(self, clause, rows, scope):
        columns, found = self.projected(clause, rows, scope)
        return [dict(zip(columns, row.values)) for row in found], set(columns)

    def projected(self, clause, rows, scope):
        """The columns, and the rows of a projection."""
        self.spend(len(rows))
        skip, limit = self.count(clause.skip) or 0, self.count(clause.limit)
        items = [(name, reader.Expr("variable", 0, name)) for name in in_bytes(scope)] if clause.star is not None else []
        items += [(item.column, item.expr) for item in clause.items]
        columns, exprs = [name for name, _ in items], [expr for _, expr in items]
        if any(map(reader.is_aggregate, exprs)):
            found = self.grouped(exprs, rows)
        else:
            found = [Columns(self.evaluator.values(exprs, row), row) for row in rows]
        if clause.is_distinct:
            found = distinct(found)
        found = self.ordered(clause.sorts, columns, exprs, found)
        found = found[skip : None if limit is None else skip + limit]
        return columns, [row for row in found if self.evaluator.is_true(clause.where, sight(columns, row))]

    def ordered(self, sorts, columns, exprs, found):
        trees = [expr.tree() for expr in exprs]
        keys = {}
        for row in found:
            seen = sight(columns, row)
            keys[row] = [
                row.values[trees.index(sort.expr.tree())] if sort.expr.tree() in trees else self.value(sort.expr, seen)
                for sort in sorts
            ]
        for place, sort in reversed(list(enumerate(sorts))):
            found = sorted(found, key=lambda row: sort_key(keys[row][place]), reverse=sort.is_descending)
        return found

    def grouped(self, exprs, rows):
        groups = {}
        if all(map(reader.is_aggregate, exprs)):
            groups[code([])] = [Aggregate(expr) for expr in exprs]
        for row in rows:
            group = self.group(exprs, groups, row)
            for expr, state in zip(exprs, group):
                if isinstance(state, Aggregate):
                    state.fold(None if expr.value[1] else self.value(expr.parts[0], row))
                else:
                    # what the group was found by has no fault where it is evaluated before
                    self.value(expr, row)
        return [Columns([it.total() if isinstance(it, Aggregate) else it for it in group], None) for group in groups.values()]

    def group(self, exprs, groups, row):
        """The group of a row; where an item of its key has a fault, one of its own."""
        try:
            keys = [self.value(expr, row) for expr in exprs if not reader.is_aggregate(expr)]
        except Fault:
            return [Aggregate(expr) if reader.is_aggregate(expr) else None for expr in exprs]
        if code(keys) not in groups:
            left = iter(keys)
            groups[code(keys)] = [Aggregate(expr) if reader.is_aggregate(expr) else next(left) for expr in exprs]
        return groups[code(keys)]

    # making

    def new_nodes(self, paths, scope):
        """The places of the nodes that are made: those of names that aren't there yet, at their first place."""
        known, places = set(scope), set()
        for path in paths:
            for node in path.elements[::2]:
                if not node.variable or node.variable.name not in known:
                    places.add(node.place)
                if node.variable:
                    known.add(node.variable.name)
        return places

    def stored(self, element, row, wanted):
        """The properties of an element to be made."""
        properties = {}
        if wanted is not None:
            properties = wanted.get(element.place, {})
        elif element.properties and element.properties.parameter is not None:
            properties = want(self.params[element.properties.parameter], "map")
        elif element.properties:
            keys = [key.name for key in element.properties.keys]
            properties = dict(zip(keys, self.evaluator.values(element.properties.values, row)))
        return kept(properties)

    def test_room(self, next_id):
        if self.graph.elements() >= self.max_elements:
            raise Fault(ELEMENT_QUOTA)
        if next_id >= GREATEST:
            raise Fault(IDS_EXHAUSTED)

    def make(self, paths, places, row, wanted=None):
        """The row with what is made of the paths; expressions see the row as it was."""
        made = dict(row)
        for path in paths:
            ids = {}
            for node in path.elements[::2]:
                ids[node.place] = self.make_node(node, row, wanted) if node.place in places else made[node.variable.name]
                if node.variable:
                    made[node.variable.name] = ids[node.place]
            for left, rel, right in zip(path.elements[::2], path.elements[1::2], path.elements[2::2]):
                ids[rel.place] = self.make_rel(rel, ids[left.place], ids[right.place], row, wanted)
                if rel.variable:
                    made[rel.variable.name] = ids[rel.place]
            if path.variable:
                made[path.variable.name] = Path(tuple(ids[element.place].id for element in path.elements))
        return made

    def make_node(self, node, row, wanted):
        properties = self.stored(node, row, wanted)
        self.test_room(self.graph.next_node)
        return self.graph.add_node([label.name for label in node.labels], properties)

    def make_rel(self, rel, left, right, row, wanted):
        properties = self.stored(rel, row, wanted)
        self.test_room(self.graph.next_rel)
        start, end = (right, left) if direction_of(rel) < 0 else (left, right)
        return self.graph.add_rel(rel.types[0].name, start.id, end.id, properties)

    def create(self, clause, rows, scope):
        places = self.new_nodes(clause.paths, scope)
        self.spend(len(rows) * made_of(clause.paths, places))
        found = []
        for row in rows:
            self.test_nodes(clause.paths, scope, row, ["node"])
            found.append(self.make(clause.paths, places, row))
        return found, scope | names_of(clause.paths)

    def merge(self, clause, rows, scope):
        places = self.new_nodes(clause.paths, scope)
        found = []
        for row in rows:
            found += self.merged(clause, places, row, scope)
        return found, scope | names_of(clause.paths)

    def merged(self, clause, places, row, scope):
        self.test_nodes(clause.paths, scope, row, ["node"])
        wanted = self.wanted(clause.paths, row)
        if any(value is None for properties in wanted.values() for value in properties.values()):
            raise Fault(MERGE_NULL)
        search = Search(self.graph, scope, wanted)
        found = search.matches(clause.paths, row)
        self.spend(search.cost)
        items = clause.items["MATCH"]
        if not found:
            self.spend(made_of(clause.paths, places))
            found = [self.make(clause.paths, places, row, wanted)]
            items = clause.items["CREATE"]
        for match in found:
            self.spend(len(items))
            for item in items:
                self.change(item, match, self.set_item)
        return found

    # changing

    def change(self, item, row, change):
        target = row[item.target.name]
        if target is not None:
            want(target, "node", "relationship")
            change(item, target, record(self.graph, target), row)

    def changes(self, clause, rows, scope):
        self.spend(len(rows) * len(clause.items))
        for row in rows:
            for item in clause.items:
                self.change(item, row, self.set_item if clause.kind == "SET" else self.remove_item)
        return rows, scope

    def set_item(self, item, target, found, row):
        if item.kind == "labels":
            want(target, "node")
            found.labels.update(label.name for label in item.labels)
            return
        value = self.value(item.expr, row)
        entries = {item.key: value} if item.kind == "key" else want(value, "map")
        stored = kept(entries)
        for key in list(found.properties) if item.kind == "=" else entries:
            found.properties.pop(key, None)
        found.properties.update(stored)

    def remove_item(self, item, target, found, _):
        if item.kind == "key":
            found.properties.pop(item.key, None)
            return
        want(target, "node")
        found.labels.difference_update(label.name for label in item.labels)

    def delete(self, clause, rows, scope):
        gone = {value for row in rows for expr in clause.exprs for value in elements_of(self.value(expr, row))}
        nodes = {id for which, id in gone if which == "node"} & self.graph.nodes.keys()
        rels = {id for which, id in gone if which == "relationship"} & self.graph.rels.keys()
        touching = {id for id, rel in self.graph.rels.items() if rel.start in nodes or rel.end in nodes}
        if clause.detaches:
            rels |= touching
        self.spend(len(nodes) + len(rels))
        if touching - rels:
            raise Fault(NODE_STILL_CONNECTED)
        for id in rels:
            del self.graph.rels[id]
        for id in nodes:
            del self.graph.nodes[id]
        return rows, scope

    # output

    def spelt(self, value):
        if kind(value) == "list":
            return [self.spelt(item) for item in value]
        if kind(value) == "map":
            return {key: self.spelt(value[key]) for key in in_bytes(value)}
        if kind(value) == "path":
            return {"$path": [self.spelt((Rel if at % 2 else Node)(id)) for at, id in enumerate(value.ids)]}
        if not is_element(value):
            return value
        found = record(self.graph, value)
        properties = self.spelt(found.properties)
        if kind(value) == "node":
            return {"$node": value.id, "labels": in_bytes(found.labels), "properties": properties}
        ends = {"end": found.end, "properties": properties, "start": found.start}
        return {"$rel": value.id, **ends, "type": found.type}


CLAUSES = {
    "MATCH": Run.match, "UNWIND": Run.unwind, "WITH": Run.with_, "CREATE": Run.create, "MERGE": Run.merge,
    "SET": Run.changes, "REMOVE": Run.changes, "DELETE": Run.delete,
}


class Aggregate:
    """An aggregate of a group, which takes a value a row."""

    def __init__(self, expr):
        self.name, self.is_star, self.is_distinct = expr.value
        self.count = self.sum = 0
        self.values, self.weight = [], 1
        self.best = None
        self.seen = set()

    def fold(self, value):
        if not self.is_star and value is None or self.is_distinct and code(value) in self.seen:
            return
        if self.is_distinct:
            self.seen.add(code(value))
        self.count += 1
        if self.name == "sum":
            self.sum = checked(self.sum + want(value, "integer"))
        elif self.name == "collect":
            self.collect(value)
        elif self.name in ("min", "max"):
            sign = 0 if self.count == 1 else order(value, self.best)
            if self.count == 1 or (sign < 0 if self.name == "min" else sign > 0):
                self.best = value

    def collect(self, value):
        self.values.append(value)
        self.weight += weight(value)
        if self.weight > HEAVIEST or depth(value) >= DEEPEST:
            raise Fault(VALUE_TOO_LARGE)

    def total(self):
        return {"count": self.count, "sum": self.sum, "collect": self.values}.get(self.name, self.best)


def names_of(paths):
    elements = [element for path in paths for element in (path, *path.elements)]
    return {element.variable.name for element in elements if element.variable}


def made_of(paths, places):
    """How many elements are made a row."""
    return len(places) + sum(len(path.elements) // 2 for path in paths)


def distinct(rows):
    """The first of equivalent rows."""
    found = {}
    for row in rows:
        found.setdefault(code(row.values), Columns(row.values, None))
    return list(found.values())


def sight(columns, row):
    """What sorts and conditions of a projection see."""
    return {**(row.row or {}), **dict(zip(columns, row.values))}


def kept(properties):
    """What is stored of these properties."""
    if not all(value is None or storable(value) for value in properties.values()):
        raise Fault(NOT_STORABLE)
    return {key: value for key, value in properties.items() if value is not None}


def elements_of(value):
    """The nodes and relationships that DELETE takes for a value, each with its kind."""
    if value is None:
        return []
    want(value, "node", "relationship", "path")
    if kind(value) == "path":
        return [("relationship" if at % 2 else "node", id) for at, id in enumerate(value.ids)]
    return [(kind(value), value.id)]
