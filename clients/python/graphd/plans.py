"""How a query is run, told from its text and its tenant's indexes alone: where each walk begins, what it tries, and what is charged for it.

The language fixes all of it, so what is told here is what the server does. `explained` gives it for each clause.
"""
from __future__ import annotations

from dataclasses import dataclass
from typing import Callable, Collection, Dict, Iterator, List, NamedTuple, Optional, Sequence, Set, Tuple

from . import reader
from .lexemes import Token

Pair = Tuple[str, str]  # the label and the key of an index
CONSTANTS = ("integer", "string", "parameter", "constant")
WAYS = {(False, True): "leaves", (True, False): "reaches"}


class Start(NamedTuple):
    """Where the walk of a path begins: `place` counts the path's nodes from 0. `by` tells which nodes are tried: "bound", the one that
    its variable holds; "index", those that the index of `label` and `key` finds; "label", those with `label`; "all", all there are.
    `in_where` is True where WHERE fixes the key, and False where the pattern does. `wanted` is the index that would be taken if it were
    there, where none is."""

    place: int
    by: str
    label: Optional[str] = None
    key: Optional[str] = None
    in_where: bool = False
    wanted: Optional[Pair] = None


class Walk(NamedTuple):
    """A path, where its walk begins, and the text of each of its elements."""

    path: reader.Path
    start: Start
    texts: List[str]

    def lines(self) -> List[str]:
        """What the walk tries, in its order."""
        at = 2 * self.start.place
        told = [f"{self.texts[at]}: {self._begins()}"]
        for place in range(at + 1, len(self.texts), 2):
            told.append(f"then {self.texts[place]}{self.texts[place + 1]}: {self._tries(place, True)}")
        for place in range(at - 1, 0, -2):
            told.append(f"then {self.texts[place - 1]}{self.texts[place]}: {self._tries(place, False)}")
        return told

    def _begins(self) -> str:
        start = self.start
        if start.by == "bound":
            return "bound before, so a step, and none where it is null"
        if start.by == "index":
            by = "WHERE" if start.in_where else "the pattern"
            return f"a step for each node that the index :{start.label}({start.key}) finds, since {by} fixes {start.key}"
        which = f"with the label {start.label}" if start.by == "label" else "there is"
        serves = f" (an index on :{start.wanted[0]}({start.wanted[1]}) would serve)" if start.wanted else ""
        return f"a step for each node {which}{serves}"

    def _tries(self, place: int, is_rightwards: bool) -> str:
        rel = self.path.elements[place]
        heads = rel.heads if is_rightwards else rel.heads[::-1]
        tried = f"a step for each relationship that {WAYS.get(heads, 'leaves or reaches')} the node before"
        if rel.types:
            tried += ", of any type"
        return tried + (f", and so on up to {rel.range[1]} away" if rel.range else "")


@dataclass(frozen=True)
class ClausePlan:
    """What a clause does: its kind, as "MATCH", the walks of its paths in their order, and what else it is charged for, as lines."""

    kind: str
    walks: List[Walk]
    charged: List[str]

    def lines(self) -> List[str]:
        """All that the clause is charged for, as lines."""
        return [self.kind, *(f"  {line}" for walk in self.walks for line in walk.lines()), *(f"  {line}" for line in self.charged)]


def explained(text: str, indexes: Collection[Pair] = ()) -> List[ClausePlan]:
    """What each clause of a query's text does where the tenant has these indexes, as `session.status().indexes` tells them. Raises
    Unreadable where the text can't be read; `fault_of` tells why."""
    tokens, clauses = reader.read(text)
    checker, found = reader.Checker(), []
    for clause in clauses:
        scope = set(checker.scope)
        walks = _walks(clause, scope, set(indexes), _Texts(text, tokens)) if clause.kind in ("MATCH", "MERGE") else []
        found.append(ClausePlan(_kind(clause), walks, CHARGED[clause.kind](clause, scope)))
        checker.clause(clause)
    return found


def told(text: str, indexes: Collection[Pair] = ()) -> List[str]:
    """The same as lines, with the clauses numbered."""
    found: List[str] = []
    for number, plan in enumerate(explained(text, indexes), 1):
        first, *more = plan.lines()
        found += [f"{number} {first}", *more]
    return found


def _kind(clause: reader.Clause) -> str:
    if clause.kind == "MATCH" and clause.is_optional:
        return "OPTIONAL MATCH"
    return "DETACH DELETE" if clause.kind == "DELETE" and clause.detaches else clause.kind


# Walks


class _Texts:
    """The texts of the elements of paths, as they are written."""

    def __init__(self, text: str, tokens: List[Token]) -> None:
        self.text, self.tokens = text, tokens
        self.at = {token.place: number for number, token in enumerate(tokens)}

    def of(self, path: reader.Path) -> List[str]:
        found = []
        for number, element in enumerate(path.elements):
            end = path.elements[number + 1].place if number % 2 else self._closed(element.place)
            found.append(" ".join(self.text[element.place : end].split()))
        return found

    def _closed(self, place: int) -> int:
        """The place behind the bracket that closes the one at this place."""
        depth = 0
        for token in self.tokens[self.at[place] :]:
            mark = token.value if token.kind == "symbol" else ""
            depth += (mark in ("(", "[", "{")) - (mark in (")", "]", "}"))
            if depth == 0:
                return token.end
        return len(self.text)


def _walks(clause: reader.Clause, scope: Set[str], indexes: Set[Pair], texts: _Texts) -> List[Walk]:
    fixed = _fixed_by_where(clause, scope) if clause.kind == "MATCH" else []
    bound, found = set(scope), []
    for path in clause.paths:
        found.append(Walk(path, _start(path.elements[::2], bound, fixed, indexes), texts.of(path)))
        bound |= _names([path])
    return found


def _names(paths: Sequence[reader.Path]) -> Set[str]:
    """The variables of the nodes of paths."""
    return {node.variable.name for path in paths for node in path.elements[::2] if node.variable}


def _start(nodes: Sequence[reader.Node], bound: Set[str], fixed: List[Pair], indexes: Set[Pair]) -> Start:
    for place, node in enumerate(nodes):
        if node.variable and node.variable.name in bound:
            return Start(place, "bound")
    pairs = [(place, pair, in_where) for place, node in enumerate(nodes) for pair, in_where in _pairs(node, fixed)]
    for place, (label, key), in_where in pairs:
        if (label, key) in indexes:
            return Start(place, "index", label, key, in_where)
    wanted = pairs[0][1] if pairs else None
    for place, node in enumerate(nodes):
        if node.labels:
            return Start(place, "label", node.labels[0].name, wanted=wanted)
    return Start(0, "all", wanted=wanted)


def _pairs(node: reader.Node, fixed: List[Pair]) -> Iterator[Tuple[Pair, bool]]:
    """The labels and keys by which an index would serve the node, the first choice first, and whether WHERE fixes the key."""
    name = node.variable.name if node.variable else None
    for label in node.labels:
        for key in node.properties.keys if node.properties else ():
            yield (label.name, key.name), False
        for variable, key_name in fixed:
            if variable == name:
                yield (label.name, key_name), True


def _fixed_by_where(clause: reader.Clause, scope: Set[str]) -> List[Pair]:
    """The variables and keys of the leading conjuncts n.k = c, where n is a node that the clause binds and c a constant or a parameter."""
    new, found = _names(clause.paths) - scope, []
    for conjunct in _conjuncts(clause.where):
        pair = _equation(conjunct)
        if pair is None or pair[0] not in new:
            break
        found.append(pair)
    return found


def _conjuncts(where: Optional[reader.Expr]) -> List[reader.Expr]:
    found: List[reader.Expr] = []
    while where is not None and where.kind == "operation" and where.value == "AND":
        where, last = where.parts
        found.insert(0, last)
    return found if where is None else [where, *found]


def _equation(expr: reader.Expr) -> Optional[Pair]:
    if expr.kind != "comparison" or expr.value != ("=",) or expr.parts[1].kind not in CONSTANTS:
        return None
    left = expr.parts[0]
    if left.kind != "property" or left.parts[0].kind != "variable":
        return None
    return left.parts[0].value, left.value


# What else a clause is charged for


def _of_match(clause: reader.Clause, scope: Set[str]) -> List[str]:
    return ["a step for each match" + (", before WHERE tests it" if clause.where else "")]


def _of_merge(clause: reader.Clause, scope: Set[str]) -> List[str]:
    told = ["a step for each match, for each row in turn", f"where a row has none: {_count(_made(clause, scope), 'step')} to make it"]
    for word, items in clause.items.items():
        if items:
            told.append(f"ON {word} SET: {_count(len(items), 'step')} for each match or row that it runs for")
    return told


def _of_create(clause: reader.Clause, scope: Set[str]) -> List[str]:
    return [f"{_count(_made(clause, scope), 'step')} a row, one for each element made"]


def _made(clause: reader.Clause, scope: Set[str]) -> int:
    """How many elements a row of CREATE or MERGE makes."""
    nodes = [node for path in clause.paths for node in path.elements[::2]]
    without = sum(node.variable is None for node in nodes)
    return without + len(_names(clause.paths) - scope) + sum(len(path.elements) // 2 for path in clause.paths)


def _count(number: int, word: str) -> str:
    return f"{number} {word}" if number == 1 else f"{number} {word}s"


def _of_items(clause: reader.Clause, scope: Set[str]) -> List[str]:
    return [f"{_count(len(clause.items), 'step')} a row, one for each item"]


def _told(line: str) -> Callable[[reader.Clause, Set[str]], List[str]]:
    return lambda clause, scope: [line]


CHARGED: Dict[str, Callable[[reader.Clause, Set[str]], List[str]]] = {
    "MATCH": _of_match,
    "MERGE": _of_merge,
    "CREATE": _of_create,
    "SET": _of_items,
    "REMOVE": _of_items,
    "UNWIND": _told("a step for each item"),
    "WITH": _told("a step for each row before it"),
    "RETURN": _told("a step for each row before it"),
    "DELETE": _told("a step for each element that goes"),
}
