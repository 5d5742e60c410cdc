"""Values of graphd in Python, and parameters.

None, bool, int (64 bits signed), str, list and dict with text keys go both ways; from graphd come also nodes, relationships and paths.
There are no floats.
"""
from __future__ import annotations

from dataclasses import dataclass, field
from typing import Any, Dict, Iterator, List, Optional, Tuple, Union

LEAST_INTEGER, GREATEST_INTEGER = -(2**63), 2**63 - 1
DEEPEST = 64  # levels of a parameter, itself among them


class Element:
    """What nodes and relationships share: their properties, which are also read by `element["key"]`."""

    id: int
    properties: Dict[str, Any]

    def __getitem__(self, key: str) -> Any:
        """The property of this key. Raises a KeyError where there is none."""
        return self.properties[key]

    def get(self, key: str, default: Any = None) -> Any:
        """The property of this key, or the default where there is none."""
        return self.properties.get(key, default)

    def __contains__(self, key: object) -> bool:
        return key in self.properties

    def __iter__(self) -> Iterator[str]:
        return iter(self.properties)


@dataclass(frozen=True)
class Node(Element):
    """A node as a reply spells it out: its id, its labels in byte order and its properties."""

    id: int
    labels: Tuple[str, ...]
    properties: Dict[str, Any] = field(hash=False)


@dataclass(frozen=True)
class Relationship(Element):
    """A relationship as a reply spells it out; `start` and `end` are the ids of its nodes."""

    id: int
    type: str
    start: int
    end: int
    properties: Dict[str, Any] = field(hash=False)


@dataclass(frozen=True)
class Path:
    """A path: one node more than relationships, each in its order."""

    nodes: Tuple[Node, ...]
    relationships: Tuple[Relationship, ...]


Value = Union[None, bool, int, str, List[Any], Dict[str, Any], Node, Relationship, Path]
Parameter = Union[None, bool, int, str, List[Any], Tuple[Any, ...], Dict[str, Any]]


def _is_number(value: Any) -> bool:
    return isinstance(value, int) and not isinstance(value, bool)


def _node(told: Dict[str, Any]) -> Optional[Node]:
    if told.keys() != {"$node", "labels", "properties"}:
        return None
    labels, properties = told["labels"], told["properties"]
    if not _is_number(told["$node"]) or not isinstance(properties, dict):
        return None
    if not isinstance(labels, list) or not all(isinstance(label, str) for label in labels):
        return None
    return Node(told["$node"], tuple(labels), _values(properties))


def _relationship(told: Dict[str, Any]) -> Optional[Relationship]:
    if told.keys() != {"$rel", "end", "properties", "start", "type"}:
        return None
    numbers = (told["$rel"], told["start"], told["end"])
    if not all(_is_number(number) for number in numbers):
        return None
    if not isinstance(told["type"], str) or not isinstance(told["properties"], dict):
        return None
    return Relationship(told["$rel"], told["type"], told["start"], told["end"], _values(told["properties"]))


def _path(told: Dict[str, Any]) -> Optional[Path]:
    elements = told["$path"] if told.keys() == {"$path"} else None
    if not isinstance(elements, list) or len(elements) % 2 == 0:
        return None
    if not all(isinstance(element, dict) for element in elements):
        return None
    nodes = [node for node in map(_node, elements[::2]) if node is not None]
    relationships = [link for link in map(_relationship, elements[1::2]) if link is not None]
    if len(nodes) + len(relationships) < len(elements):
        return None
    return Path(tuple(nodes), tuple(relationships))


def _values(told: Dict[str, Any]) -> Dict[str, Any]:
    return {key: value_of(item) for key, item in told.items()}


def value_of(told: Any) -> Any:
    """The value that a reply spells as this JSON value. A map is taken for an element only if it has exactly an element's shape; a map
    literal with that very shape can't be told from an element."""
    if isinstance(told, list):
        return [value_of(item) for item in told]
    if not isinstance(told, dict):
        return told
    if "$node" in told or "$rel" in told or "$path" in told:
        element = _node(told) or _relationship(told) or _path(told)
        if element is not None:
            return element
    return _values(told)


def spelt(value: Any) -> Any:
    """The JSON value by which a reply spells this value."""
    if isinstance(value, Node):
        return {"$node": value.id, "labels": list(value.labels), "properties": value.properties}
    if isinstance(value, Relationship):
        ends = {"end": value.end, "properties": value.properties, "start": value.start}
        return {"$rel": value.id, **ends, "type": value.type}
    if isinstance(value, Path):
        elements: List[Any] = [value.nodes[0]]
        for link, after in zip(value.relationships, value.nodes[1:]):
            elements += [link, after]
        return {"$path": [spelt(element) for element in elements]}
    if isinstance(value, (list, tuple)):
        return [spelt(item) for item in value]
    if isinstance(value, dict):
        return {key: spelt(item) for key, item in value.items()}
    return value


def _test_text(name: str, text: str) -> None:
    if any("\ud800" <= character <= "\udfff" for character in text):
        raise ValueError(f"{name}: half of a surrogate pair, which no text in UTF-8 has")


def check_parameter(name: str, value: Any, level: int = 1) -> None:
    """Raises a TypeError or a ValueError where the value can't be a parameter, with where in it the fault is."""
    if level > DEEPEST:
        raise ValueError(f"{name}: a parameter nests at most {DEEPEST} levels")
    if isinstance(value, str):
        _test_text(name, value)
    elif isinstance(value, bool) or value is None:
        return
    elif isinstance(value, int):
        if not LEAST_INTEGER <= value <= GREATEST_INTEGER:
            raise ValueError(f"{name}: {value} is no integer of 64 bits")
    elif isinstance(value, (list, tuple)):
        for place, item in enumerate(value):
            check_parameter(f"{name}[{place}]", item, level + 1)
    elif isinstance(value, dict):
        for key, item in value.items():
            if not isinstance(key, str):
                raise TypeError(f"{name}: the key {key!r} is no text")
            _test_text(f"{name}: a key", key)
            check_parameter(f"{name}.{key}", item, level + 1)
    elif isinstance(value, (Node, Relationship, Path)):
        raise TypeError(f"{name}: an element can't be a parameter; pass its id")
    elif isinstance(value, float):
        raise TypeError(f"{name}: graphd has no floats; pass whole numbers in a smaller unit, or a text")
    else:
        raise TypeError(f"{name}: graphd has no values of type {type(value).__name__}")
