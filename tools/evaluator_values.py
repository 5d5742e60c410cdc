"""Values: equality, order, arithmetic and limits, computed plainly from the rules of docs/LANGUAGE.md.

null, booleans, integers, strings, lists and maps are Python's None, bool, int, str, list and dict.
"""
from functools import cmp_to_key
from typing import NamedTuple

TYPE_FAULT, OVERFLOW, DIVISION_BY_ZERO, VALUE_TOO_LARGE = 16, 17, 18, 19
LEAST, GREATEST = -(2**63), 2**63 - 1
HEAVIEST, DEEPEST = 1_048_576, 64


class Fault(Exception):
    """A refusal of a request: its argument is the number."""


class Node(NamedTuple):
    id: int


class Rel(NamedTuple):
    id: int


class Path(NamedTuple):
    """The ids of nodes and relationships in turn."""

    ids: tuple


# ascending, in the order of all values
KINDS = ["map", "node", "relationship", "list", "path", "string", "boolean", "integer", "null"]
TYPES = {dict: "map", Node: "node", Rel: "relationship", list: "list", Path: "path", str: "string", bool: "boolean"}
TYPES.update({int: "integer", type(None): "null"})


def kind(value):
    return TYPES[type(value)]


def want(value, *kinds):
    """The value, where it is of one of these kinds."""
    if kind(value) not in kinds:
        raise Fault(TYPE_FAULT)
    return value


def is_element(value):
    return kind(value) in ("node", "relationship")


# Logic, with None for null


def all_of(truths):
    truths = list(truths)
    return False if False in truths else None if None in truths else True


def any_of(truths):
    truths = list(truths)
    return True if True in truths else None if None in truths else False


def negated(truth):
    return None if truth is None else not truth


def equal(left, right):
    if left is None or right is None:
        return None
    if kind(left) != kind(right):
        return False
    if kind(left) == "list":
        return len(left) == len(right) and all_of(map(equal, left, right))
    if kind(left) == "map":
        return left.keys() == right.keys() and all_of(equal(left[key], right[key]) for key in left)
    return left == right


def compared(operator, left, right):
    if operator == "=":
        return equal(left, right)
    if operator == "<>":
        return negated(equal(left, right))
    if kind(left) != kind(right) or left is None:
        return None
    want(left, "integer", "string", "boolean")
    sign = order(left, right)
    return {"<": sign < 0, "<=": sign <= 0, ">": sign > 0, ">=": sign >= 0}[operator]


# Order


def in_bytes(texts):
    return sorted(texts, key=encoded)


def encoded(text):
    return text.encode("utf-8", "surrogatepass")


def sign_of(left, right):
    return (left > right) - (left < right)


def order(left, right):
    """Below, at or above 0, as the left value comes before, with or after the right one."""
    if kind(left) != kind(right):
        return sign_of(KINDS.index(kind(left)), KINDS.index(kind(right)))
    if kind(left) == "null":
        return 0
    if kind(left) == "list":
        return order_of_lists(left, right)
    if kind(left) == "map":
        keys = in_bytes(left), in_bytes(right)
        return order_of_lists(*keys) or order_of_lists([left[key] for key in keys[0]], [right[key] for key in keys[1]])
    if kind(left) == "string":
        return sign_of(encoded(left), encoded(right))
    return sign_of(left, right)


def order_of_lists(left, right):
    for one, other in zip(left, right):
        if order(one, other):
            return order(one, other)
    return sign_of(len(left), len(right))


sort_key = cmp_to_key(order)


def code(value):
    """What is the same for equivalent values alone, and can be a key of a dict."""
    if kind(value) == "list":
        return "list", tuple(map(code, value))
    if kind(value) == "map":
        return "map", tuple((key, code(value[key])) for key in in_bytes(value))
    return kind(value), value


# Limits


def weight(value):
    if kind(value) == "string":
        return 1 + len(encoded(value))
    if kind(value) == "list":
        return 1 + sum(map(weight, value))
    if kind(value) == "map":
        return 1 + sum(len(encoded(key)) + weight(item) for key, item in value.items())
    return 1 + len(value.ids) if kind(value) == "path" else 1


def depth(value):
    if kind(value) in ("list", "map"):
        items = value if kind(value) == "list" else value.values()
        return 1 + max(map(depth, items), default=0)
    return 1


def made(value):
    """The value, where it may be made."""
    if weight(value) > HEAVIEST or depth(value) > DEEPEST:
        raise Fault(VALUE_TOO_LARGE)
    return value


def storable(value):
    plain = ("boolean", "integer", "string")
    return kind(value) in plain or kind(value) == "list" and all(kind(item) in plain for item in value)


# Arithmetic


def checked(number):
    if not LEAST <= number <= GREATEST:
        raise Fault(OVERFLOW)
    return number


def arithmetic(operator, left, right):
    if left is None or right is None:
        return None
    kinds = kind(left), kind(right)
    if kinds == ("integer", "integer"):
        return integers(operator, left, right)
    if operator == "+" and (kinds == ("string", "string") or kinds == ("list", "list")):
        return made(left + right)
    if operator == "+" and kinds[0] == "list":
        return made([*left, right])
    if operator == "+" and kinds[1] == "list":
        return made([left, *right])
    raise Fault(TYPE_FAULT)


def integers(operator, left, right):
    if operator in "+-*":
        return checked({"+": left + right, "-": left - right, "*": left * right}[operator])
    if right == 0:
        raise Fault(DIVISION_BY_ZERO)
    quotient = abs(left) // abs(right)
    quotient = quotient if (left < 0) == (right < 0) else -quotient
    return checked(quotient) if operator == "/" else left - quotient * right
