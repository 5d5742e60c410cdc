"""Values and answers as a terminal shows them: no control character of a name or a text gets through."""
import json
import re
import shutil
import unicodedata

import client_path  # (finds the package graphd)
from graphd import Node, Path, Relationship

SHORT = 12  # columns of a terminal that a shortened value may always take
NAME = re.compile(r"[^\W\d]\w*\Z")


def safe(text):
    """The text with control characters, line ends and what turns the direction of writing escaped."""
    return "".join(
        character if character == " " or unicodedata.category(character)[0] not in "CZ" else _escaped(character)
        for character in text
    )


def _escaped(character):
    return json.dumps(character)[1:-1] if ord(character) < 128 else f"\\u{{{ord(character):x}}}"


def name(text):
    """A label, type or key as a query would write it."""
    return text if NAME.match(text) else "`" + safe(text).replace("`", "``") + "`"


def _text(value):
    return safe(json.dumps(value, ensure_ascii=False))


def _entries(entries):
    return ", ".join(f"{name(key)}: {shown(value)}" for key, value in entries.items())


def _properties(entries):
    return f" {{{_entries(entries)}}}" if entries else ""


def _node(node):
    labels = "".join(f":{name(label)}" for label in node.labels)
    return f"({node.id}{labels}{_properties(node.properties)})"


def _relationship(relationship):
    return f"[{relationship.id}:{name(relationship.type)}{_properties(relationship.properties)}]"


def _path(path):
    told = _node(path.nodes[0])
    for link, after in zip(path.relationships, path.nodes[1:]):
        left, right = ("-", "->") if link.end == after.id else ("<-", "-")
        told += left + _relationship(link) + right + _node(after)
    return told


def shown(value):
    """A value as a query or a pattern would write it."""
    if isinstance(value, Node):
        return _node(value)
    if isinstance(value, Relationship):
        return f"({value.start})-{_relationship(value)}->({value.end})"
    if isinstance(value, Path):
        return _path(value)
    if isinstance(value, list):
        return "[" + ", ".join(shown(item) for item in value) + "]"
    if isinstance(value, dict):
        return "{" + _entries(value) + "}"
    if isinstance(value, str):
        return _text(value)
    return json.dumps(value)


def width(text):
    """How many columns of a terminal the text takes: wide letters two, marks none."""
    return sum(
        0 if unicodedata.combining(character) else 2 if unicodedata.east_asian_width(character) in "WF" else 1
        for character in text
    )


def terminal():
    """How many columns and lines the terminal has; one that doesn't know is taken as 80 by 24."""
    size = shutil.get_terminal_size()
    # (Python 3.8 gives 0 for what isn't known)
    return size.columns or 80, size.lines or 24


def shortened(text, room):
    """The text, cut with an ellipsis where it takes more room."""
    if width(text) <= room:
        return text
    kept, taken = [], 1
    for character in text:
        taken += width(character)
        if taken > room:
            break
        kept.append(character)
    return "".join(kept) + "…"


def _padded(text, room):
    return text + " " * (room - width(text))


def rooms(wanted, free):
    """How many columns of a terminal each column of a table gets: those that take less than their share leave the rest to the others."""
    given, left = [0] * len(wanted), free
    for count, place in zip(range(len(wanted), 0, -1), sorted(range(len(wanted)), key=wanted.__getitem__)):
        given[place] = min(wanted[place], max(SHORT, left // count))
        left -= given[place]
    return given


def lines(columns, rows, whole):
    """The lines of a table with aligned columns; values are cut where not all of them is wanted."""
    cells = [[safe(column) for column in columns], *([shown(value) for value in row] for row in rows)]
    wanted = [max(width(line[place]) for line in cells) for place in range(len(columns))]
    free = terminal()[0] - 3 * (len(columns) - 1)
    given = wanted if whole else rooms(wanted, free)
    cut = [[shortened(cell, room) for cell, room in zip(line, given)] for line in cells]
    told = [" | ".join(_padded(cell, room) for cell, room in zip(line, given)).rstrip() for line in cut]
    return [told[0], "-+-".join("-" * room for room in given), *told[1:]]


def upright(columns, rows, before=0):
    """The lines of a table with each value on a line of its own, of rows after `before` others."""
    names = [safe(column) for column in columns]
    room = max(map(width, names), default=0)
    told = []
    for number, row in enumerate(rows, before + 1):
        told.append(f"row {number}")
        told += (f"  {_padded(name, room)} | {shown(value)}" for name, value in zip(names, row))
    return told


def counted(count, word):
    return f"{count} {word}" if count == 1 else f"{count} {word}s"


def result(told, whole, is_upright=False, before=0):
    """The lines of what a query answers: its rows, if it has columns, which come after `before` others, and what they cost."""
    table = upright(told.columns, told.rows, before) if is_upright else lines(told.columns, told.rows, whole) if told.columns else []
    return [*table, f"{counted(len(told.rows), 'row')}, {counted(told.steps, 'step')}"]


def status(told):
    """The lines of what a tenant has and may have."""
    indexes = ", ".join(f":{name(label)}({name(key)})" for label, key in told.indexes)
    return [
        f"{counted(told.elements, 'element')} of at most {told.max_elements}",
        f"at most {counted(told.max_steps, 'step')} a request",
        f"next node id {told.next_node}, next relationship id {told.next_rel}",
        f"indexes: {indexes or 'none'}",
    ]
