"""A tenant's graph as statements, and what its elements are called.

A dump makes the nodes in the order of their ids and then the relationships in the order of theirs. Where ids are missing it makes
elements and deletes them again, also behind the last ones, so that on a tenant that has given no ids yet all elements get the ids that they
had, and the next ones those that they would have got. While it is restored each node has one label and one key more, by which the
relationships find their ends.
"""
import hashlib
import json
from typing import NamedTuple

import graphd
from graphd.lexemes import KEYWORDS, begins_word, goes_on_word
from graphd.values import spelt

STEPS = 1000  # what a statement takes at most, unless it is told otherwise
MOST_ROWS = 1_000  # elements of a statement
BYTES = 500_000  # of a statement's rows, about, so that a request holds them
LARGE = 900_000  # bytes of an element that is made property by property
PART = 60_000  # characters of a text, or items of a list, that are set at a time, of those that a request doesn't hold
PAGE = 40_000  # elements read at a time, where one reply doesn't hold all
MIXED = 10  # nodes of a run of one kind, at least, where labels are given at once
MOST_FILLED = 1_000_000  # missing ids of a dump that keeps ids: some seconds of a restore
KEEPS = "with their ids"


class Query(NamedTuple):
    """A query, and the value of each of its parameters in JSON."""

    text: str
    params: dict = {}


class Index(NamedTuple):
    """A request that makes an index or takes it back, by its word."""

    op: str
    label: str
    key: str


def name(text):
    """A label, type or key as a query has it."""
    plain = text and begins_word(text[0]) and all(map(goes_on_word, text)) and text.upper() not in KEYWORDS
    return text if plain else _quoted(text)


def read(session):
    """The nodes and the relationships of a tenant, each in the order of their ids, and its status."""
    before = session.status()
    nodes = _all(session, "(it)")
    links = _all(session, "()-[it]->()")
    if session.status() != before or len(nodes) + len(links) != before.elements:
        raise ValueError("the graph changed while it was read: dump it again")
    return nodes, links, before


def write(session, file):
    """Writes a dump, and gives the number of nodes and of relationships in it, and whether it keeps their ids."""
    nodes, links, status = read(session)
    dump = Dump(nodes, links, status)
    with open(file, "w", encoding="utf-8", newline="\n") as out:
        out.writelines(line + "\n" for line in dump.lines())
    return len(nodes), len(links), dump.keeps_ids


def keeps_ids(file):
    """Whether a dump says that it keeps ids."""
    with open(file, encoding="utf-8") as lines:
        return KEEPS in lines.readline()


def digest(nodes, links):
    """What tells two graphs apart: ids, labels, types, ends and properties with the kinds of their values."""
    told = hashlib.sha256()
    for element in (*nodes, *links):
        told.update(_sorted(spelt(element)).encode() + b"\n")
    return told.hexdigest()


def _all(session, pattern):
    """All elements of a pattern: in one reply where it holds them, else some at a time."""
    try:
        return [row[0] for row in session.query(f"MATCH {pattern} RETURN it ORDER BY id(it)").rows]
    except graphd.ReplyTooLong:
        return _parts(session, f"MATCH {pattern} WHERE id(it) >= $first RETURN it ORDER BY id(it) LIMIT $limit")


def _parts(session, text):
    found, size = [], PAGE
    while True:
        try:
            part = session.query(text, first=found[-1].id + 1 if found else 0, limit=size).rows
        except graphd.ReplyTooLong:
            if size == 1:
                raise
            size = max(1, size // 4)
            continue
        if not part:
            return found
        found += [row[0] for row in part]


class Dump:
    """The statements that make a graph anew, where each may take so many steps. Ids are kept where no more are missing than that."""

    def __init__(self, nodes, links, status, steps=STEPS, most_missing=MOST_FILLED):
        self.nodes, self.links, self.status = nodes, links, status
        self.rows, self.filled = min(MOST_ROWS, max(1, steps // 10)), max(1, min(steps * 3 // 10, (steps - 2) // 3))
        self.keeps_ids = status.next_node - len(nodes) + status.next_rel - len(links) <= most_missing
        # the ids that the next elements would get are those behind the last ones, unless ids are kept
        self.next_node = status.next_node if self.keeps_ids else 0
        self.next_rel = status.next_rel if self.keeps_ids else 0
        self.label = _unused("Restored", {label for node in nodes for label in node.labels})
        self.key = _unused("restored", {key for node in nodes for key in node.properties})
        # how many elements there may be at once: what is made and deleted again takes no more room than the tenant had
        self.most = max(status.elements, min(status.max_elements, status.elements + self.filled))
        self.made = 0
        # where nodes of many kinds come in turn, they are made without labels, which they get in the end
        self.is_mixed = sum(node.labels != before.labels for before, node in zip(nodes, nodes[1:])) > len(nodes) // MIXED
        self.marks = bool(links) or self.is_mixed or self.next_rel > 0 or any(_is_large(self._node_row(node, is_kept=True)) for node in nodes)

    def lines(self):
        """The statements as a file has them."""
        kept = f", {KEEPS}" if self.keeps_ids else ""
        yield f"// nodes: {len(self.nodes)}, relationships: {len(self.links)}{kept}; :restore this file on an empty tenant, or run it as any file of statements"
        used = set()
        for step in self.steps():
            if isinstance(step, Index):
                yield f"{COMMANDS[step.op]} {_quoted(step.label)} {_quoted(step.key)}"
                continue
            used.update(step.params)
            yield from (f":param {key} {value}" for key, value in step.params.items())
            yield step.text + ";"
        yield from (f":unparam {key}" for key in sorted(used))

    def steps(self):
        """The requests, in their order."""
        if self.marks:
            yield Index("create_index", self.label, self.key)
        first, last = self._nodes_in_turn()
        if not self.nodes and self.next_rel:
            yield from self._links_without_nodes()
        yield from self._made_nodes(first, 0)
        if not last:
            yield from self._behind_nodes()
        yield from self._runs(self.links, lambda link: link.type, self._link_row, self._link_text, self._link_filler, self._large_link)
        yield from self._behind_links()
        if last:
            yield from self._made_nodes(last, first[-1].id + 1)
            yield from self._behind_nodes()
        if self.marks:
            yield from self._unmarked()
            yield Index("drop_index", self.label, self.key)
        yield from (Index("create_index", label, key) for label, key in self.status.indexes)

    def _nodes_in_turn(self):
        """The nodes that are made before the relationships and those behind. A tenant that is full had its last node made behind its last
        relationship, if ids of relationships are missing at the end: else there would have been no room for these."""
        behind = self.links[-1].id + 1 if self.links else 0
        if len(self.nodes) < 2 or self.status.elements < self.most or self.next_rel <= behind:
            return self.nodes, []
        last = self.nodes[-1]
        is_alone = all(last.id not in (link.start, link.end) for link in self.links)
        return (self.nodes[:-1], [last]) if is_alone else (self.nodes, [])

    def _made_nodes(self, nodes, next_id):
        return self._runs(nodes, lambda node: () if self.is_mixed else node.labels, self._node_row, self._node_text, self._node_filler, self._large_node, next_id)

    def _behind_nodes(self):
        """The statements by which the ids behind the last node's are given."""
        last = self.nodes[-1].id + 1 if self.nodes else min(1, self.next_rel)
        return self._filled(self.next_node - last, FILLER)

    def _behind_links(self):
        """The statements by which the ids behind the last relationship's are given, where a node is there for them."""
        last = self.links[-1].id + 1 if self.links else 0
        if self.nodes and self.next_rel > last:
            yield from self._filled(self.next_rel - last, self._filler_at(self.nodes[0].id, self.links[-1].type if self.links else self.label))

    def _links_without_nodes(self):
        """The ids of relationships of a tenant that has no node any more: a node stands for their ends meanwhile."""
        yield Query(f"CREATE (a:{self.label} {{{self.key}: 0}})")
        self.made = 1
        yield from self._filled(self.next_rel, self._filler_at(0, self.label))
        self.made = 0
        yield Query(f"MATCH (a:{self.label} {{{self.key}: 0}}) DELETE a")

    def _unmarked(self):
        """The statements that take marks back, and give the labels that nodes were made without."""
        kinds = {}
        for node in self.nodes:
            kinds.setdefault(node.labels if self.is_mixed else (), []).append(node.id)
        for labels, ids in kinds.items():
            given = f"SET n{_named(labels)} " if labels else ""
            text = f"UNWIND $rows AS i MATCH (n:{self.label} {{{self.key}: i}}) {given}REMOVE n.{self.key} REMOVE n:{self.label}"
            for first in range(0, len(ids), self.rows):
                yield Query(text, {"rows": _json(ids[first : first + self.rows])})

    def _runs(self, elements, kind, row, text, filler, large, next_id=0):
        """The statements that make these elements, each of one kind that come one after the other, not too many and not too large together."""
        run = Run(None)
        for element in elements:
            missing = element.id - next_id if self.keeps_ids else 0
            last = row(element, is_kept=True)
            is_large = _is_large(last)
            rows = [row(element, is_kept=False)] * min(missing, self.rows) + [last] if missing else [last]
            if is_large or run.kind != kind(element) or not run.has_room(rows, min(self.rows, self.most - self.made)):
                yield from self._made(run, text)
                run = Run(kind(element))
            if missing and (is_large or not run.has_room(rows, min(self.rows, self.most - self.made))):
                yield from self._filled(missing, filler(element))
                rows = [last]
            if is_large:
                yield from large(element)
                self.made += 1
            else:
                run.take(rows)
            next_id = element.id + 1
        yield from self._made(run, text)

    def _made(self, run, text):
        """The statement of a run."""
        if run.rows:
            gone = " WITH x, row WHERE row.gone DELETE x" if run.kept < len(run.rows) else ""
            yield Query(text(run.kind) + gone, {"rows": f"[{','.join(run.rows)}]"})
        self.made += run.kept

    def _filled(self, missing, text):
        """The statements that make so many elements and delete them again."""
        while missing > 0:
            count = max(1, min(missing, self.filled, self.most - self.made))
            yield Query(text.format(count=count))
            missing -= count

    def _node_row(self, node, is_kept):
        return _json({"id": node.id, "p": node.properties} if is_kept else {"gone": True, "p": {}})

    def _node_text(self, labels):
        names = _named(labels) + (f":{self.label}" if self.marks else "")
        return f"UNWIND $rows AS row CREATE (x{names}) SET x = row.p" + (f" SET x.{self.key} = row.id" if self.marks else "")

    def _node_filler(self, node):
        return FILLER

    def _link_row(self, link, is_kept):
        return _json({"a": link.start, "b": link.end, **({"p": link.properties} if is_kept else {"gone": True, "p": {}})})

    def _link_text(self, kind):
        found = f"(a:{self.label} {{{self.key}: row.a}}), (b:{self.label} {{{self.key}: row.b}})"
        return f"UNWIND $rows AS row MATCH {found} CREATE (a)-[x:{name(kind)}]->(b) SET x = row.p"

    def _link_filler(self, link):
        return self._filler_at(link.start, link.type)

    def _filler_at(self, node, kind):
        """The text that makes relationships at a node and deletes them again."""
        found = f"(a:{self.label} {{{{{self.key}: {node}}}}})"
        kind = name(kind).replace("{", "{{").replace("}", "}}")
        return f"MATCH {found} UNWIND range(1, {{count}}) AS i CREATE (a)-[x:{kind}]->(a) DELETE x"

    # elements that no request holds

    def _large_node(self, node):
        yield Query(f"CREATE (x{_named(node.labels)}:{self.label} {{{self.key}: {node.id}}})")
        for key, value in node.properties.items():
            yield from self._property(node.id, name(key), value)

    def _large_link(self, link):
        """Its properties are made at its start, under names of their own, and taken over."""
        keys = {name(key): f"{self.key}{place}_" for place, key in enumerate(link.properties)}
        for key, value in zip(keys.values(), link.properties.values()):
            yield from self._property(link.start, key, value)
        found = f"MATCH (a:{self.label} {{{self.key}: {link.start}}}), (b:{self.label} {{{self.key}: {link.end}}})"
        taken = "".join(f" SET x.{key} = a.{at}" for key, at in keys.items())
        yield Query(f"{found} CREATE (a)-[x:{name(link.type)}]->(b){taken}" + "".join(f" REMOVE a.{at}" for at in keys.values()))

    def _property(self, node, key, value):
        """The statements that set a property of a node, part by part where no request holds it."""
        found = f"MATCH (n:{self.label} {{{self.key}: {node}}})"
        is_begun = False
        for part in _parts_of(value):
            if isinstance(value, list) and _is_large(_json(part)):
                yield from self._property(node, self.key + "_item", part[0])
                before = f"n.{key} + " if is_begun else ""
                yield Query(f"{found} SET n.{key} = {before}[n.{self.key}_item] REMOVE n.{self.key}_item")
            else:
                yield Query(f"{found} SET n.{key} = n.{key} + $part" if is_begun else f"{found} SET n.{key} = $part", {"part": _json(part)})
            is_begun = True


class Run:
    """Rows of elements of one kind, in JSON."""

    def __init__(self, kind):
        self.kind, self.rows, self.size, self.kept = kind, [], 0, 0

    def has_room(self, rows, most):
        """Whether these rows fit too, where there may be so many."""
        return len(self.rows) + len(rows) <= most and (not self.rows or self.size + _size(rows[-1]) <= BYTES)

    def take(self, rows):
        """Takes rows, of which the last is that of an element that stays."""
        self.rows += rows
        self.size += _size(rows[-1])
        self.kept += 1


FILLER = "UNWIND range(1, {count}) AS i CREATE (x) DELETE x"
COMMANDS = {"create_index": ":index", "drop_index": ":unindex"}


def _parts_of(value):
    """A text or a list in parts that a request holds, but for a part of one long text; any other value whole."""
    if isinstance(value, list):
        yield from _parts_of_list(value)
    elif isinstance(value, str):
        yield from (value[first : first + PART] for first in range(0, max(1, len(value)), PART))
    else:
        yield value


def _parts_of_list(items):
    part, size = [], 0
    for item in items:
        weight = _size(_json(item)) + 1
        if part and (size + weight > BYTES or len(part) == PART):
            yield part
            part, size = [], 0
        part.append(item)
        size += weight
    yield part


def _named(labels):
    return "".join(":" + name(it) for it in labels)


# (an encoder of its own is made for each value by json.dumps, where it isn't to write it in its usual way)
_json = json.JSONEncoder(ensure_ascii=False, separators=(",", ":")).encode
_sorted = json.JSONEncoder(sort_keys=True).encode


def _size(row):
    """Its bytes; what has no letters but those of ASCII needn't be written for that."""
    return len(row) if row.isascii() else len(row.encode())


def _is_large(row):
    return len(row) > LARGE // 4 and _size(row) > LARGE


def _quoted(text):
    return "`" + text.replace("`", "``") + "`"


def _unused(word, used):
    while any(it.startswith(word) for it in used):
        word += "_"
    return word


COUNTS = [
    ("label", "MATCH (n) UNWIND labels(n) AS name RETURN name, count(*) AS elements ORDER BY name"),
    ("node key", "MATCH (n) UNWIND keys(n) AS name RETURN name, count(*) AS elements ORDER BY name"),
    ("type", "MATCH ()-[r]->() RETURN type(r) AS name, count(*) AS elements ORDER BY name"),
    ("relationship key", "MATCH ()-[r]->() UNWIND keys(r) AS name RETURN name, count(*) AS elements ORDER BY name"),
]


def words(session):
    """The labels, types and keys there are that need no backquotes."""
    found = {row["name"] for _, text in COUNTS for row in session.query(text)}
    return sorted(it for it in found if name(it) == it)


def schema(session):
    """Lines that tell the labels, types and keys there are, and how many elements have each."""
    lines = [f"{what} {name(row['name'])}: {row['elements']}" for what, text in COUNTS for row in session.query(text)]
    lines += [f"index :{name(label)}({name(key)})" for label, key in session.status().indexes]
    return lines or ["nothing is there yet"]
