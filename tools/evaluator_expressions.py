"""Evaluates expressions at a row over a graph, plainly from the rules of docs/LANGUAGE.md."""
from evaluator_values import (
    GREATEST, HEAVIEST, LEAST, TYPE_FAULT, VALUE_TOO_LARGE, Fault, Node, Rel, all_of, any_of, arithmetic, checked,
    compared, equal, in_bytes, is_element, kind, made, negated, want,
)

DELETED_ENTITY = 23
LONGEST_RANGE = HEAVIEST - 1


def record(graph, element):
    """What the graph has of an element."""
    found = (graph.nodes if kind(element) == "node" else graph.rels).get(element.id)
    if found is None:
        raise Fault(DELETED_ENTITY)
    return found


def property_of(graph, value, key):
    if value is None:
        return None
    want(value, "node", "relationship", "map")
    return (value if kind(value) == "map" else record(graph, value).properties).get(key)


class Evaluator:
    def __init__(self, graph, params):
        self.graph, self.params = graph, params

    def value(self, expr, row):
        return getattr(self, expr.kind)(expr, row)

    def values(self, exprs, row):
        return [self.value(expr, row) for expr in exprs]

    # each kind of expression

    def integer(self, expr, _):
        return expr.value

    string = integer

    def constant(self, expr, _):
        return {"TRUE": True, "FALSE": False, "NULL": None}[expr.value]

    def variable(self, expr, row):
        return row[expr.value]

    def parameter(self, expr, _):
        return self.params[expr.value]

    def parentheses(self, expr, row):
        return self.value(expr.parts[0], row)

    def list(self, expr, row):
        return made(self.values(expr.parts, row))

    def map(self, expr, row):
        return made(dict(zip(expr.value, self.values(expr.parts, row))))

    def operation(self, expr, row):
        left, right = self.values(expr.parts, row)
        if expr.value not in ("AND", "OR", "XOR"):
            return arithmetic(expr.value, left, right)
        truths = [want(value, "boolean", "null") for value in (left, right)]
        if expr.value == "XOR":
            return None if None in truths else truths[0] != truths[1]
        return all_of(truths) if expr.value == "AND" else any_of(truths)

    def prefix(self, expr, row):
        value = self.value(expr.parts[0], row)
        if expr.value == "NOT":
            return negated(want(value, "boolean", "null"))
        if want(value, "integer", "null") is None:
            return None
        return checked(-value) if expr.value == "-" else value

    def comparison(self, expr, row):
        values = self.values(expr.parts, row)
        return all_of(compared(*it) for it in zip(expr.value, values, values[1:]))

    def test(self, expr, row):
        values = self.values(expr.parts, row)
        if expr.value[0] == "IS":
            return (values[0] is None) == (expr.value == ("IS", "NULL"))
        value, other = values
        if expr.value == ("IN",):
            return None if want(other, "list", "null") is None else any_of(equal(value, item) for item in other)
        if kind(value) != "string" or kind(other) != "string":
            return None
        tests = {"STARTS": value.startswith, "ENDS": value.endswith, "CONTAINS": value.__contains__}
        return tests[expr.value[0]](other)

    def property(self, expr, row):
        return property_of(self.graph, self.value(expr.parts[0], row), expr.value)

    def index(self, expr, row):
        value, at = self.values(expr.parts, row)
        if value is None or at is None:
            return None
        if kind(value) == "list" and kind(at) == "integer":
            return value[at] if -len(value) <= at < len(value) else None
        want(value, "node", "relationship", "map")
        return property_of(self.graph, value, want(at, "string"))

    def labels(self, expr, row):
        value = want(self.value(expr.parts[0], row), "node", "null")
        return None if value is None else record(self.graph, value).labels.issuperset(expr.value)

    def case(self, expr, row):
        parts = list(expr.parts)
        has_subject = "subject" in expr.value
        subject = self.value(parts.pop(0), row) if has_subject else None
        otherwise = parts.pop() if "else" in expr.value else None
        for when, then in zip(parts[::2], parts[1::2]):
            met = self.value(when, row)
            met = equal(subject, met) if has_subject else want(met, "boolean", "null")
            if met:
                return self.value(then, row)
        return self.value(otherwise, row) if otherwise else None

    def call(self, expr, row):
        name = expr.value[0]
        if name == "coalesce":
            return next((value for value in (self.value(part, row) for part in expr.parts) if value is not None), None)
        values = self.values(expr.parts, row)
        for value in filter(is_element, values):
            record(self.graph, value)
        return None if None in values else made(FUNCTIONS[name](self.graph, *values))

    # conditions

    def is_true(self, where, row):
        """Whether the row passes: each conjunct is tested only where those before it are true."""
        if where is None:
            return True
        if where.kind == "operation" and where.value == "AND":
            return self.is_true(where.parts[0], row) and self.meets(where.parts[1], row)
        return self.meets(where, row)

    def meets(self, condition, row):
        return want(self.value(condition, row), "boolean", "null") is True


# Functions, of values that aren't null


def entries(graph, value):
    want(value, "node", "relationship", "map")
    return value if kind(value) == "map" else record(graph, value).properties


def size(_, value):
    return len(want(value, "list", "string"))


def range_of(_, start, end, step=1):
    for value in (start, end, step):
        want(value, "integer")
    if step == 0:
        raise Fault(TYPE_FAULT)
    items = range(start, end + (1 if step > 0 else -1), step)
    # the length of a range of Python's is limited
    if (end - start) // step >= LONGEST_RANGE:
        raise Fault(VALUE_TOO_LARGE)
    return list(items)


def to_string(_, value):
    if kind(value) == "boolean":
        return "true" if value else "false"
    return str(want(value, "integer", "string"))


def to_integer(_, value):
    if kind(value) == "integer":
        return value
    digits = want(value, "string")[1:] if value[:1] in ("+", "-") else value
    if not digits or not set(digits) <= set("0123456789"):
        return None
    number = -int(digits) if value[0] == "-" else int(digits)
    return number if LEAST <= number <= GREATEST else None


def end_of(value, at):
    return value[at] if want(value, "list") else None


FUNCTIONS = {
    "id": lambda _, value: want(value, "node", "relationship").id,
    "labels": lambda graph, value: in_bytes(record(graph, want(value, "node")).labels),
    "type": lambda graph, value: record(graph, want(value, "relationship")).type,
    "startnode": lambda graph, value: Node(record(graph, want(value, "relationship")).start),
    "endnode": lambda graph, value: Node(record(graph, want(value, "relationship")).end),
    "keys": lambda graph, value: in_bytes(entries(graph, value)),
    "properties": lambda graph, value: dict(entries(graph, value)),
    "size": size,
    "length": lambda _, value: len(want(value, "path").ids) // 2,
    "nodes": lambda _, value: [Node(id) for id in want(value, "path").ids[::2]],
    "relationships": lambda _, value: [Rel(id) for id in want(value, "path").ids[1::2]],
    "head": lambda _, value: end_of(value, 0),
    "last": lambda _, value: end_of(value, -1),
    "range": range_of,
    "tostring": to_string,
    "tointeger": to_integer,
    "abs": lambda _, value: checked(abs(want(value, "integer"))),
}
