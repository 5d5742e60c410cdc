"""Reads the text of a query by the rules of openCypher 9 and of the language's own, apart from graphd's own reader.

`read` gives the tokens and clauses of a text, `static_faults` the faults of clauses that no graph is needed for.
"""
from __future__ import annotations

import sys
from typing import Any, Callable, Collection, Dict, List, NamedTuple, Optional, Set, Tuple, TypeVar

from .lexemes import Token, Unreadable, first_too_deep, folded, lexemes

# each of at most 64 levels of nesting takes a score of calls
CALLS = 5_000


def allow_calls() -> None:
    """Lets Python call as deep as reading may go."""
    sys.setrecursionlimit(max(sys.getrecursionlimit(), CALLS))


T = TypeVar("T")

TEXT_TOO_LONG, BAD_SYNTAX, TOO_DEEP = 5, 7, 8
READ_ONLY, MISSING_PARAMETER = 4, 15
UNDEFINED, ALREADY_BOUND, BAD_AGGREGATE = 9, 10, 11
BAD_PATTERN, UNKNOWN_FUNCTION, DUPLICATE_COLUMN = 12, 13, 14

LONGEST_TEXT = 65_536
GREATEST_BOUND = 32

AGGREGATES = {"count", "sum", "min", "max", "collect"}
OF_ONE = (
    "id labels type keys properties size length nodes relationships head last tostring tointeger abs"
    " startnode endnode".split()
)
# the least and the greatest number of arguments
ARGUMENTS: Dict[str, Tuple[int, Optional[int]]] = {
    **{name: (1, 1) for name in OF_ONE}, "coalesce": (1, None), "range": (2, 3)
}


TESTS_WITH_OPERAND: List[Tuple[str, ...]] = [("STARTS", "WITH"), ("ENDS", "WITH"), ("CONTAINS",), ("IN",)]
TESTS_ALONE: List[Tuple[str, ...]] = [("IS", "NULL"), ("IS", "NOT", "NULL")]

# Grammar


class Expr(NamedTuple):
    kind: str
    place: int
    value: Any = None
    parts: Tuple[Any, ...] = ()

    def tree(self) -> Tuple[Any, ...]:
        """The expression without its places, so that equal ones compare so: its parts in text order, each with the number of its own
        parts. (A sum of many terms is deeper than Python calls.)"""
        found: List[Any] = []
        left: List[Expr] = [self]
        while left:
            expr = left.pop()
            found.append((expr.kind, expr.value, len(expr.parts)))
            left += reversed(expr.parts)
        return tuple(found)


class Variable(NamedTuple):
    name: str
    place: int


class Node(NamedTuple):
    place: int
    variable: Optional[Variable]
    labels: List[Variable]
    properties: Optional[Properties]


class Rel(NamedTuple):
    place: int
    variable: Optional[Variable]
    types: List[Variable]
    # the lower and the upper bound, where a range is written
    range: Optional[Tuple[Optional[int], Optional[int]]]
    properties: Optional[Properties]
    # whether there is an arrow head on the left, and on the right
    heads: Tuple[bool, bool]


class Properties(NamedTuple):
    """Keys with their values, or a parameter, which has neither."""

    parameter: Optional[str]
    keys: List[Variable]
    values: List[Expr]


class Path(NamedTuple):
    variable: Optional[Variable]
    elements: List[Any]


class Item(NamedTuple):
    place: int
    column: str
    expr: Expr


class Sort(NamedTuple):
    expr: Expr
    is_descending: bool


class Change(NamedTuple):
    """An item of SET or REMOVE: of a key, of labels, of all properties (=) or of some (+=)."""

    target: Variable
    kind: str
    key: Optional[str]
    labels: List[Variable]
    expr: Optional[Expr]


class Clause(NamedTuple):
    kind: str
    parts: Dict[str, Any]

    def __getattr__(self, name: str) -> Any:
        return self.parts[name]


class Reader:
    """Reads tokens by the grammar, each method a line of it."""

    def __init__(self, text: str, tokens: List[Token]) -> None:
        self.text = text
        self.tokens = [*tokens, Token("end", None, len(text), len(text))]
        self.marks: List[Optional[str]] = [token.value if token.kind in ("symbol", "keyword") else None for token in self.tokens]
        self.at = 0

    def now(self) -> Token:
        return self.tokens[self.at]

    def sees(self, *marks: str) -> bool:
        """Whether the next tokens are these symbols and keywords."""
        return self.marks[self.at : self.at + len(marks)] == list(marks)

    def takes(self, *values: str) -> bool:
        if not self.sees(*values):
            return False
        self.at += len(values)
        return True

    def needs(self, *values: str) -> None:
        if not self.takes(*values):
            raise Unreadable(BAD_SYNTAX)

    def one_of(self, marks: Collection[str]) -> Optional[str]:
        """The next token where it is one of these symbols and keywords, which is then taken."""
        mark = self.marks[self.at]
        if mark not in marks:
            return None
        self.at += 1
        return mark

    def take(self, *kinds: str) -> Token:
        if self.now().kind not in kinds:
            raise Unreadable(BAD_SYNTAX)
        self.at += 1
        return self.tokens[self.at - 1]

    def listed(self, read: Callable[[], T]) -> List[T]:
        found = [read()]
        while self.takes(","):
            found.append(read())
        return found

    def sees_variable(self) -> bool:
        return self.now().kind in ("word", "quoted")

    def variable(self) -> Variable:
        token = self.take("word", "quoted")
        return Variable(token.value, token.place)

    def name(self) -> Variable:
        """The token of a name, and the name: keywords are names as they are written."""
        token = self.take("word", "quoted", "keyword")
        told = self.text[token.place : token.end] if token.kind == "keyword" else token.value
        return Variable(told, token.place)

    # clauses

    def query(self) -> List[Clause]:
        clauses: List[Clause] = []
        is_over = False
        while not is_over:
            clauses += self.clauses_of(self.reading)
            updates = self.clauses_of(self.updating)
            clauses += updates
            if self.takes("WITH"):
                clauses.append(self.projection("WITH"))
            elif self.takes("RETURN"):
                clauses.append(self.projection("RETURN"))
                is_over = True
            elif updates:
                is_over = True
            else:
                raise Unreadable(BAD_SYNTAX)
        self.takes(";")
        self.take("end")
        return clauses

    def clauses_of(self, read: Callable[[], Optional[Clause]]) -> List[Clause]:
        found: List[Clause] = []
        clause = read()
        while clause:
            found.append(clause)
            clause = read()
        return found

    def reading(self) -> Optional[Clause]:
        is_optional = self.takes("OPTIONAL", "MATCH")
        if is_optional or self.takes("MATCH"):
            paths = self.listed(self.path)
            return Clause("MATCH", {"is_optional": is_optional, "paths": paths, "where": self.after("WHERE")})
        if self.takes("UNWIND"):
            expr = self.expression()
            self.needs("AS")
            return Clause("UNWIND", {"expr": expr, "variable": self.variable()})
        return None

    def after(self, *words: str) -> Optional[Expr]:
        """The expression behind these words, where they stand here."""
        return self.expression() if self.takes(*words) else None

    def updating(self) -> Optional[Clause]:
        if self.takes("CREATE"):
            return Clause("CREATE", {"paths": self.listed(self.path)})
        if self.takes("MERGE"):
            return self.merge()
        if self.takes("SET"):
            return Clause("SET", {"items": self.listed(self.set_item)})
        if self.takes("REMOVE"):
            return Clause("REMOVE", {"items": self.listed(self.remove_item)})
        detaches = self.takes("DETACH", "DELETE")
        if detaches or self.takes("DELETE"):
            return Clause("DELETE", {"detaches": detaches, "exprs": self.listed(self.expression)})
        return None

    def merge(self) -> Clause:
        path = self.path()
        items: Dict[str, List[Change]] = {"CREATE": [], "MATCH": []}
        while self.takes("ON"):
            when = self.one_of(items)
            if not when:
                raise Unreadable(BAD_SYNTAX)
            self.needs("SET")
            items[when] += self.listed(self.set_item)
        return Clause("MERGE", {"paths": [path], "items": items})

    def set_item(self) -> Change:
        target = self.variable()
        if self.sees(":"):
            return Change(target, "labels", None, self.labels(), None)
        if self.takes("."):
            key = self.name().name
            self.needs("=")
            return Change(target, "key", key, [], self.expression())
        kind = self.one_of(["=", "+="])
        if not kind:
            raise Unreadable(BAD_SYNTAX)
        return Change(target, kind, None, [], self.expression())

    def remove_item(self) -> Change:
        target = self.variable()
        if self.takes("."):
            return Change(target, "key", self.name().name, [], None)
        labels = self.labels()
        if not labels:
            raise Unreadable(BAD_SYNTAX)
        return Change(target, "labels", None, labels, None)

    def projection(self, kind: str) -> Clause:
        is_distinct = self.takes("DISTINCT")
        star = self.now().place if self.sees("*") else None
        read = self.with_item if kind == "WITH" else self.return_item
        if star is None:
            items = self.listed(read)
        else:
            self.needs("*")
            items = self.listed(read) if self.takes(",") else []
        sorts = self.listed(self.sort) if self.takes("ORDER", "BY") else []
        skip, limit = self.after("SKIP"), self.after("LIMIT")
        where = self.after("WHERE") if kind == "WITH" else None
        return Clause(
            kind,
            {
                "is_distinct": is_distinct,
                "star": star,
                "items": items,
                "sorts": sorts,
                "skip": skip,
                "limit": limit,
                "where": where,
            },
        )

    def with_item(self) -> Item:
        expr = self.expression()
        if self.takes("AS"):
            return Item(expr.place, self.variable().name, expr)
        if expr.kind != "variable":
            raise Unreadable(BAD_SYNTAX)
        return Item(expr.place, expr.value, expr)

    def return_item(self) -> Item:
        place = self.now().place
        expr = self.expression()
        column = self.text[place : self.tokens[self.at - 1].end]
        if self.takes("AS"):
            column = self.variable().name
        return Item(place, column, expr)

    def sort(self) -> Sort:
        expr = self.expression()
        return Sort(expr, self.one_of(["ASC", "ASCENDING", "DESC", "DESCENDING"]) in ("DESC", "DESCENDING"))

    # patterns

    def path(self) -> Path:
        variable = None
        if self.sees_variable():
            variable = self.variable()
            self.needs("=")
        elements: List[Any] = [self.node()]
        while self.sees("<") or self.sees("-"):
            elements.append(self.relationship())
            elements.append(self.node())
        return Path(variable, elements)

    def node(self) -> Node:
        place = self.now().place
        self.needs("(")
        variable = self.variable() if self.sees_variable() else None
        node = Node(place, variable, self.labels(), self.properties())
        self.needs(")")
        return node

    def relationship(self) -> Rel:
        place = self.now().place
        left = self.takes("<")
        self.needs("-")
        inside: Tuple[Optional[Variable], List[Variable], Any, Optional[Properties]] = (None, [], None, None)
        if self.takes("["):
            variable = self.variable() if self.sees_variable() else None
            inside = variable, self.types(), self.range(), self.properties()
            self.needs("]")
        self.needs("-")
        return Rel(place, *inside, (left, self.takes(">")))

    def types(self) -> List[Variable]:
        found: List[Variable] = []
        if self.takes(":"):
            found.append(self.name())
            while self.takes("|"):
                self.takes(":")
                found.append(self.name())
        return found

    def range(self) -> Optional[Tuple[Optional[int], Optional[int]]]:
        if not self.takes("*"):
            return None
        lower = self.bound()
        if not self.takes(".."):
            return lower, lower
        return lower, self.bound()

    def bound(self) -> Optional[int]:
        return int(self.take("integer").value) if self.now().kind == "integer" else None

    def properties(self) -> Optional[Properties]:
        if self.now().kind == "parameter":
            return Properties(self.take("parameter").value, [], [])
        if self.sees("{"):
            return Properties(None, *self.entries())
        return None

    def labels(self) -> List[Variable]:
        found: List[Variable] = []
        while self.takes(":"):
            found.append(self.name())
        return found

    def entries(self) -> Tuple[List[Variable], List[Expr]]:
        """The keys and values of a map."""
        keys: List[Variable] = []
        values: List[Expr] = []
        self.needs("{")
        while not keys and not self.sees("}") or keys and self.takes(","):
            keys.append(self.name())
            self.needs(":")
            values.append(self.expression())
        self.needs("}")
        return keys, values

    # expressions, the loosest operators first

    def expression(self) -> Expr:
        return self.chain(["OR"], self.exclusive)

    def exclusive(self) -> Expr:
        return self.chain(["XOR"], self.conjunction)

    def conjunction(self) -> Expr:
        return self.chain(["AND"], self.negation)

    def chain(self, operators: List[str], read: Callable[[], Expr]) -> Expr:
        left = read()
        operator = self.one_of(operators)
        while operator:
            left = Expr("operation", left.place, operator, (left, read()))
            operator = self.one_of(operators)
        return left

    def prefixed(self, operators: List[str], read: Callable[[], Expr]) -> Expr:
        before = []
        token = self.now()
        while self.one_of(operators):
            before.append(token)
            token = self.now()
        expr = read()
        for token in reversed(before):
            expr = Expr("prefix", token.place, token.value, (expr,))
        return expr

    def negation(self) -> Expr:
        return self.prefixed(["NOT"], self.comparison)

    def comparison(self) -> Expr:
        operands, operators = [self.tested()], []
        operator = self.one_of(["=", "<>", "<", "<=", ">", ">="])
        while operator:
            operators.append(operator)
            operands.append(self.tested())
            operator = self.one_of(["=", "<>", "<", "<=", ">", ">="])
        if not operators:
            return operands[0]
        return Expr("comparison", operands[0].place, tuple(operators), tuple(operands))

    def tested(self) -> Expr:
        expr = self.sum()
        test = self.test()
        while test:
            kind, *operand = test
            expr = Expr("test", expr.place, kind, (expr, *operand))
            test = self.test()
        return expr

    def test(self) -> Tuple[Any, ...]:
        for words in TESTS_WITH_OPERAND:
            if self.takes(*words):
                return words, self.sum()
        for words in TESTS_ALONE:
            if self.takes(*words):
                return (words,)
        return ()

    def sum(self) -> Expr:
        return self.chain(["+", "-"], self.product)

    def product(self) -> Expr:
        return self.chain(["*", "/", "%"], self.signed)

    def signed(self) -> Expr:
        return self.prefixed(["+", "-"], self.looked_up)

    def looked_up(self) -> Expr:
        expr = self.atom()
        while self.sees(".") or self.sees("["):
            if self.takes("."):
                expr = Expr("property", expr.place, self.name().name, (expr,))
            else:
                self.needs("[")
                expr = Expr("index", expr.place, None, (expr, self.expression()))
                self.needs("]")
        labels = tuple(label.name for label in self.labels())
        return Expr("labels", expr.place, labels, (expr,)) if labels else expr

    def atom(self) -> Expr:
        token = self.now()
        if token.kind == "word" and self.tokens[self.at + 1][:2] == ("symbol", "("):
            return self.call()
        if token.kind in ("word", "quoted"):
            self.at += 1
            return Expr("variable", token.place, token.value)
        if token.kind in ("integer", "string", "parameter"):
            self.at += 1
            return Expr(token.kind, token.place, token.value)
        constant = self.one_of(["TRUE", "FALSE", "NULL"])
        if constant:
            return Expr("constant", token.place, constant)
        if self.sees("{"):
            keys, values = self.entries()
            return Expr("map", token.place, tuple(key.name for key in keys), tuple(values))
        if self.takes("["):
            items = [] if self.sees("]") else self.listed(self.expression)
            self.needs("]")
            return Expr("list", token.place, None, tuple(items))
        if self.takes("("):
            inner = self.expression()
            self.needs(")")
            return Expr("parentheses", token.place, None, (inner,))
        return self.case()

    def call(self) -> Expr:
        token = self.take("word")
        self.needs("(")
        is_star = self.takes("*")
        is_distinct = not is_star and self.takes("DISTINCT")
        arguments: List[Expr] = []
        if not is_star and (is_distinct or not self.sees(")")):
            arguments = self.listed(self.expression)
        self.needs(")")
        return Expr("call", token.place, (folded(token.value), is_star, is_distinct), tuple(arguments))

    def case(self) -> Expr:
        place = self.now().place
        self.needs("CASE")
        parts: List[Expr] = []
        shape: List[str] = []
        if not self.sees("WHEN"):
            shape.append("subject")
            parts.append(self.expression())
        self.needs("WHEN")
        parts.append(self.expression())
        self.needs("THEN")
        parts.append(self.expression())
        while self.takes("WHEN"):
            parts.append(self.expression())
            self.needs("THEN")
            parts.append(self.expression())
        if self.takes("ELSE"):
            shape.append("else")
            parts.append(self.expression())
        self.needs("END")
        return Expr("case", place, tuple(shape), tuple(parts))


# Scope


def fits_call(name: str, is_star: bool, is_distinct: bool, count: int) -> bool:
    if is_star:
        return name == "count"
    if name in AGGREGATES:
        return count == 1
    least, greatest = ARGUMENTS.get(name, (1, 0))
    return not is_distinct and count >= least and (greatest is None or count <= greatest)


def is_aggregate(expr: Expr) -> bool:
    return expr.kind == "call" and expr.value[0] in AGGREGATES


# place, number, and what is wrong where the number says too little
Fault = Tuple[int, int, str]


class Checker:
    """Gathers the faults of clauses, each as its place, its number and, where the number says too little, what is wrong."""

    def __init__(self) -> None:
        self.scope: Set[str] = set()
        self.faults: List[Fault] = []

    def fault(self, place: int, number: int, why: str = "") -> None:
        self.faults.append((place, number, why))

    def expression(self, expr: Expr, scope: Set[str], may_aggregate: bool = False) -> None:
        left = [expr]
        while left:
            part = left.pop()
            if part.kind == "variable" and part.value not in scope:
                self.fault(part.place, UNDEFINED)
            if is_aggregate(part) and not (may_aggregate and part is expr):
                self.fault(part.place, BAD_AGGREGATE)
            if part.kind == "call":
                name, is_star, is_distinct = part.value
                if not fits_call(name, is_star, is_distinct, len(part.parts)):
                    self.fault(part.place, UNKNOWN_FUNCTION)
            left += part.parts

    def clause(self, clause: Clause) -> None:
        if clause.kind in ("WITH", "RETURN"):
            self.projection(clause)
        elif clause.kind == "UNWIND":
            self.unwind(clause)
        elif clause.kind == "DELETE":
            for expr in clause.exprs:
                self.expression(expr, self.scope)
        elif clause.kind in ("SET", "REMOVE"):
            self.set_items(clause.items)
        else:
            self.pattern(clause)

    def unwind(self, clause: Clause) -> None:
        self.expression(clause.expr, self.scope)
        if clause.variable.name in self.scope:
            self.fault(clause.variable.place, ALREADY_BOUND)
        self.scope = self.scope | {clause.variable.name}

    def set_items(self, items: List[Change]) -> None:
        for item in items:
            if item.target.name not in self.scope:
                self.fault(item.target.place, UNDEFINED)
            if item.expr:
                self.expression(item.expr, self.scope)

    # patterns

    def pattern(self, clause: Clause) -> None:
        nodes: Set[str] = set()
        others: Set[str] = set()
        for path in clause.paths:
            if path.variable:
                self.bind_once(path.variable, nodes, others)
            for element in path.elements:
                if isinstance(element, Node):
                    self.node(element, clause.kind, len(path.elements) == 1, nodes, others)
                else:
                    self.relationship(element, clause.kind, nodes, others)
                self.properties(element, clause.kind)
        self.scope = self.scope | nodes | others
        if clause.kind == "MATCH" and clause.where:
            self.expression(clause.where, self.scope)
        if clause.kind == "MERGE":
            self.set_items(clause.items["CREATE"] + clause.items["MATCH"])

    def bind_once(self, variable: Variable, nodes: Set[str], others: Set[str]) -> None:
        """Binds the variable of a relationship or a path."""
        if variable.name in self.scope | nodes | others:
            self.fault(variable.place, ALREADY_BOUND)
        others.add(variable.name)

    def node(self, node: Node, kind: str, is_whole_path: bool, nodes: Set[str], others: Set[str]) -> None:
        if not node.variable:
            return
        name, place = node.variable
        is_made_here = is_whole_path or bool(node.labels) or node.properties is not None
        if name in others:
            self.fault(place, ALREADY_BOUND)
        if kind != "MATCH" and is_made_here and name in self.scope | nodes:
            self.fault(place, ALREADY_BOUND)
        nodes.add(name)

    def relationship(self, rel: Rel, kind: str, nodes: Set[str], others: Set[str]) -> None:
        if rel.variable:
            self.bind_once(rel.variable, nodes, others)
        if rel.range and (rel.range[1] is None or rel.range[1] > GREATEST_BOUND):
            self.fault(rel.place, BAD_PATTERN, f"a range has an upper bound, of at most {GREATEST_BOUND}: [*1..{GREATEST_BOUND}]")
        if kind != "MATCH" and (rel.range or len(rel.types) != 1):
            self.fault(rel.place, BAD_PATTERN, f"a relationship of {kind} has one type, and no range: -[:TYPE]->")
        if kind == "CREATE" and sum(rel.heads) != 1:
            self.fault(rel.place, BAD_PATTERN, "a relationship of CREATE has one direction: -[:TYPE]-> or <-[:TYPE]-")

    def properties(self, element: Any, kind: str) -> None:
        properties = element.properties
        if properties is None:
            return
        if properties.parameter is not None and kind != "CREATE":
            self.fault(element.place, BAD_PATTERN, f"a parameter for all properties stands in CREATE alone: {{key: ${properties.parameter}.key}}")
        seen: Set[str] = set()
        for key in properties.keys:
            if key.name in seen:
                self.fault(key.place, BAD_PATTERN, f"the key {key.name} stands here twice")
            seen.add(key.name)
        for value in properties.values:
            self.expression(value, self.scope)

    # projections

    def projection(self, clause: Clause) -> None:
        columns = self.columns(clause)
        narrows = clause.is_distinct or any(is_aggregate(item.expr) for item in clause.items)
        seen = columns if narrows else columns | self.scope
        trees = [item.expr.tree() for item in clause.items]
        for sort in clause.sorts:
            if sort.expr.tree() not in trees:
                self.expression(sort.expr, seen)
        for limit in (clause.skip, clause.limit):
            if limit:
                self.expression(limit, set())
        if clause.where:
            self.expression(clause.where, seen)
        self.scope = columns

    def columns(self, clause: Clause) -> Set[str]:
        columns: Set[str] = set()
        if clause.star is not None:
            columns |= self.scope
            if clause.kind == "RETURN" and not self.scope:
                self.fault(clause.star, UNDEFINED)
        for item in clause.items:
            self.expression(item.expr, self.scope, may_aggregate=True)
            if item.column in columns:
                self.fault(item.place, DUPLICATE_COLUMN)
            columns.add(item.column)
        return columns


def static_faults(clauses: List[Clause]) -> List[Fault]:
    checker = Checker()
    for clause in clauses:
        checker.clause(clause)
    return checker.faults


def updates(clauses: List[Clause]) -> bool:
    return any(clause.kind in ("CREATE", "MERGE", "SET", "REMOVE", "DELETE") for clause in clauses)


def tokens_of(text: str) -> List[Token]:
    """The tokens of the text. Raises Unreadable with the number of the refusal where it has none, or is too long or too deep."""
    if len(text.encode("utf-8", "surrogatepass")) > LONGEST_TEXT:
        raise Unreadable(TEXT_TOO_LONG)
    tokens = lexemes(text)
    deep = first_too_deep(tokens)
    if deep:
        raise Unreadable(TOO_DEEP, deep.place, "here the text nests more than 64 deep")
    return tokens


def read(text: str) -> Tuple[List[Token], List[Clause]]:
    """The tokens and clauses of the text. Raises Unreadable with the number of the refusal where it can't be read."""
    allow_calls()
    tokens = tokens_of(text)
    return tokens, Reader(text, tokens).query()
