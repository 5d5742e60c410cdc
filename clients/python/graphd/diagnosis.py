"""Where a refused query text is wrong and why, told by the reader of this client. The server answers a number alone.

`fault_of` gives the first fault of a text, with the number by which the server refuses it.
"""
from __future__ import annotations

import difflib
from typing import Collection, Dict, List, NamedTuple, Optional, Sequence, Tuple

from . import reader
from .lexemes import BAD_LEXEME, KEYWORDS, Token, Unreadable
from .reader import AGGREGATES, ARGUMENTS, BAD_SYNTAX, MISSING_PARAMETER, TEXT_TOO_LONG, UNDEFINED, UNKNOWN_FUNCTION

CLAUSES = ["OPTIONAL MATCH", "MATCH", "UNWIND", "CREATE", "MERGE", "SET", "REMOVE", "DETACH DELETE", "DELETE", "WITH", "RETURN"]
OPERATORS = ["OR", "XOR", "AND", "=", "<>", "<", "<=", ">", ">=", "+", "-", "*", "/", "%", ".", "["]
OPERATORS += ["STARTS WITH", "ENDS WITH", "CONTAINS", "IN", "IS NULL", "IS NOT NULL"]
AN_EXPRESSION, A_NAME = "an expression", "a name"
KINDS = {"word": A_NAME, "quoted": A_NAME, "keyword": A_NAME, "end": "the end", "integer": "a number", "parameter": "a parameter"}

LONGEST_WORD, MOST_WORDS = 40, 1000  # letters of words that are compared, and how many words

# what people who know Cypher write first, by the word that the reader stops at or before, and what to write instead
INSTEAD: Dict[str, str] = {
    "union": "there is no UNION: send two requests",
    "call": "there are no procedures and subqueries: for labels, MATCH (n) UNWIND labels(n) AS l RETURN DISTINCT l",
    "yield": "there are no procedures",
    "index": "an index is no query: in the shell :index LABEL KEY, in a client create_index(label, key)",
    "constraint": "there are no constraints: MERGE keeps one of a kind",
    "drop": "an index is dropped in the shell by :unindex LABEL KEY, in a client by drop_index(label, key)",
    "show": "indexes and counts are told in the shell by :status, in a client by status()",
    "begin": "a transaction is begun in the shell by :begin, in a client by transaction()",
    "commit": "a transaction is committed in the shell by :commit, in a client at the end of transaction()'s block",
    "rollback": "a transaction is rolled back in the shell by :rollback, in a client where an exception leaves transaction()'s block",
    "use": "a token names its tenant: there are no databases to choose from",
    "load": "there is no LOAD CSV: give rows as a parameter, UNWIND $rows AS row CREATE ..",
    "foreach": "there is no FOREACH: UNWIND list AS x CREATE ..",
    "explain": "there is no EXPLAIN: in the shell :explain QUERY, in a client explained(text, indexes)",
    "profile": "there is no PROFILE: each reply tells its steps, and in the shell :explain QUERY what they are for",
    "using": "there are no hints: an index is used wherever it serves",
    "nulls": "there is no NULLS LAST: null is the greatest value, last by ASC and first by DESC; ORDER BY x IS NULL, x DESC",
    "exists": "there is no EXISTS {..}: OPTIONAL MATCH and IS NOT NULL; for a property n.k IS NOT NULL",
    "shortestpath": "there is no shortestPath: MATCH p = (a)-[*1..6]-(b) .. ORDER BY length(p) LIMIT 1",
    "allshortestpaths": "there is no allShortestPaths: MATCH p = (a)-[*1..6]-(b) .. ORDER BY length(p)",
    "elementid": "there is no elementId: id(n) gives the id, a whole number",
    "timestamp": "the time comes as a parameter: an answer follows from the request and the graph alone",
    "datetime": "there are no dates and times: pass a number or a text such as '2024-05-31', which sorts as dates do",
    "date": "there are no dates and times: pass a number or a text such as '2024-05-31', which sorts as dates do",
    "rand": "chance comes as a parameter: an answer follows from the request and the graph alone",
    "randomuuid": "chance comes as a parameter: an answer follows from the request and the graph alone",
    "avg": "there are no fractions: WITH sum(x) AS s, count(x) AS c RETURN s / c",
    "tofloat": "there are no floats: whole numbers in a smaller unit",
    "reduce": "UNWIND the list and use sum or collect",
}
OF_TEXTS = "toupper tolower upper lower split substring replace trim ltrim rtrim left right reverse".split()
INSTEAD.update((name, "texts are computed in the client: store what you look for as a property of its own") for name in OF_TEXTS)


NO_PATTERN = "a pattern is no condition: one more path in MATCH, or OPTIONAL MATCH and IS NULL"
# forms of Cypher: a token, the one before it, what was wanted there (each may be blank, for any) and what wasn't, and what to write instead
SHAPES: List[Tuple[Tuple[str, ...], str, str, str, str]] = [
    (("=",), "=", "", "nothing", "equal is =, unequal <>"),
    (("integer",), ".", "", "nothing", "there are no fractions: whole numbers in a smaller unit"),
    (("|",), "", ")", "nothing", "a node has all of its labels and no choice: WHERE n:A OR n:B"),
    (("|", "WHERE"), "", "]", "nothing", "there are no list comprehensions: UNWIND list AS x WITH x WHERE .. RETURN collect(x)"),
    (("..",), "", "]", "nothing", "there are no slices: UNWIND range(1, 2) AS i RETURN collect(l[i])"),
    ((">",), "-", AN_EXPRESSION, "nothing", NO_PATTERN),
    ((":",), "[", "", "nothing", NO_PATTERN),
    (("MATCH", "OPTIONAL", "UNWIND"), "", "WITH", "MATCH", "WITH stands between a clause that changes and one that reads"),
]

# signs that the language lacks, with the character before each or a blank
SIGNS = {"!=": "unequal is <>", "=~": "there are no regular expressions: STARTS WITH, ENDS WITH, CONTAINS"}


class Place(NamedTuple):
    """A fault of a text: the refusal's number, the place of the fault as an offset in characters and as line and column, both counted
    from 1, how many characters it covers, and in words what is wrong."""

    code: int
    offset: int
    line: int
    column: int
    length: int
    why: str

    def __str__(self) -> str:
        return f"line {self.line}, column {self.column}: {self.why}"

    def shown(self, text: str) -> List[str]:
        """The line of the text with the fault, and a line with carets below it."""
        begin = self.offset - self.column + 1
        end = min((at for at in (text.find(mark, self.offset) for mark in "\r\n") if at >= 0), default=len(text))
        carets = max(1, min(self.length, end - self.offset))
        return [text[begin:end], " " * (self.column - 1) + "^" * carets]


class Watched(reader.Reader):
    """Reads, and notes what was looked for at the furthest token."""

    def __init__(self, text: str, tokens: List[Token]) -> None:
        super().__init__(text, tokens)
        self.furthest = -1
        self.wanted: List[str] = []
        self.inside: Optional[int] = None  # where an expression begins whose first token isn't found yet

    def note(self, what: str) -> None:
        if self.at == self.inside or self.at < self.furthest:
            return
        if self.at > self.furthest:
            self.furthest, self.wanted = self.at, []
        if what not in self.wanted:
            self.wanted.append(what)

    def sees(self, *marks: str) -> bool:
        found = super().sees(*marks)
        if not found:
            self.note(" ".join(marks))
        return found

    def sees_variable(self) -> bool:
        found = super().sees_variable()
        if not found:
            self.note(A_NAME)
        return found

    def one_of(self, marks: Collection[str]) -> Optional[str]:
        found = super().one_of(marks)
        for mark in marks if found is None else ():
            self.note(mark)
        return found

    def take(self, *kinds: str) -> Token:
        if self.now().kind not in kinds:
            self.note(KINDS.get(kinds[0], kinds[0]))
        return super().take(*kinds)

    def expression(self) -> reader.Expr:
        self.note(AN_EXPRESSION)
        return super().expression()

    def atom(self) -> reader.Expr:
        self.note(AN_EXPRESSION)
        before, self.inside = self.inside, self.at
        try:
            return super().atom()
        finally:
            self.inside = before


def _place(text: str, code: int, offset: int, length: int, why: str) -> Place:
    before = text[:offset].replace("\r\n", " \n").replace("\r", "\n")
    return Place(code, offset, before.count("\n") + 1, offset - before.rfind("\n"), max(1, length), why)


def fault_of(text: str, given: Sequence[str] = ()) -> Optional[Place]:
    """The first fault of a query's text, where it has one; `given` are the names of the parameters that are given. A text that is too
    long (5) has its fault at its beginning. A text without a fault may still be refused for what it computes."""
    try:
        tokens = reader.tokens_of(text)
    except Unreadable as fault:
        why = f"the text is above {reader.LONGEST_TEXT} bytes" if fault.number == TEXT_TOO_LONG else fault.why
        why = SIGNS.get(text[max(0, fault.place - 1) : fault.place + 2].strip(), why) if fault.number == BAD_LEXEME else why
        return _place(text, fault.number, fault.place, 1, why)
    reader.allow_calls()
    watched = Watched(text, tokens)
    try:
        clauses = watched.query()
    except Unreadable:
        return _of_grammar(text, watched)
    faults = reader.static_faults(clauses)
    if faults:
        return _of_scope(text, tokens, *min(faults))
    for token in tokens:
        if token.kind == "parameter" and token.value not in given:
            return _of_token(text, MISSING_PARAMETER, token, f"the parameter ${_cut(str(token.value))} has no value: give it with the request, in the shell by :param")
    return None


def _of_token(text: str, code: int, token: Token, why: str) -> Place:
    return _place(text, code, token.place, token.end - token.place, why)


# Grammar


def _of_grammar(text: str, watched: Watched) -> Place:
    at = max(watched.furthest, watched.at)
    token, wanted = watched.tokens[at], _grouped(watched.wanted)
    seen = text[token.place : token.end]
    met = "the text ends" if token.kind == "end" else f"{_cut(seen)} can't stand here"
    advice = _instead(watched.tokens, at) or _of_shape(watched, at) or _meant(seen, watched.wanted) or (f"wanted is {_listed(wanted)}" if wanted else "")
    return _of_token(text, BAD_SYNTAX, token, f"{met}: {advice}" if advice else met)


def _cut(seen: str) -> str:
    first = seen.splitlines()[0] if seen else seen
    return first if len(first) <= 40 and first == seen else first[:40] + ".."


def _grouped(wanted: List[str]) -> List[str]:
    """What was wanted, with a word for the clauses and one for the operators where many are."""
    found = [what for what in wanted if AN_EXPRESSION not in wanted or what not in ("NOT", "+", "-", A_NAME)]
    for group, name in ((OPERATORS, "an operator"), (CLAUSES, "a clause")):
        if sum(what in group for what in found) > 2:
            found = [what for what in found if what not in group] + [name]
    return found


def _listed(wanted: List[str]) -> str:
    words = [what if any(map(str.isalpha, what)) else f"'{what}'" for what in wanted]
    return words[0] if len(words) == 1 else f"{', '.join(words[:-1])} or {words[-1]}"


def _instead(tokens: List[Token], at: int) -> str:
    """What to write instead, where the token or the one before it is a word that Cypher knows elsewhere."""
    for token in tokens[at : at + 1] + tokens[max(0, at - 1) : at]:
        advice = INSTEAD.get(str(token.value).lower()) if token.kind == "word" else None
        if advice:
            return advice
    return ""


def _of_shape(watched: Watched, at: int) -> str:
    """What to write instead of a form that Cypher has elsewhere, told by the token, the one before it and what was wanted."""
    here, before = (_mark(watched.tokens[place]) if place >= 0 else "" for place in (at, at - 1))
    for marks, behind, wanted, unwanted, advice in SHAPES:
        if here in marks and behind in (before, "") and wanted in (*watched.wanted, "") and unwanted not in watched.wanted:
            return advice
    return ""


def _mark(token: Token) -> str:
    return str(token.value) if token.kind in ("symbol", "keyword") else token.kind


def _near(word: str, words: Collection[str]) -> str:
    """A question after the word that is most like this one, where one is. Long words, and all but the first thousand, aren't looked at,
    since to compare takes time of the product of their lengths."""
    short = [it for it in words if len(it) <= LONGEST_WORD and it != word][:MOST_WORDS]
    near = difflib.get_close_matches(word, short, 1, 0.7) if len(word) <= LONGEST_WORD else []
    return f"did you mean {near[0]}?" if near else ""


def _meant(seen: str, wanted: List[str]) -> str:
    words = sorted({word for what in wanted for word in what.split() if word in KEYWORDS})
    return _near(seen.upper(), words) if seen.isalpha() and seen.upper() not in words else ""


# Scope

ABOUT = {
    reader.ALREADY_BOUND: "there is a variable of this name already",
    reader.BAD_AGGREGATE: "an aggregate may only be a whole item of WITH or RETURN: name it by WITH, and compute with the name",
    reader.DUPLICATE_COLUMN: "there is a column of this name already: name one by AS",
}


def _of_scope(text: str, tokens: List[Token], place: int, code: int, why: str) -> Place:
    token = next(token for token in tokens if token.place <= place < token.end)
    if code == UNDEFINED:
        return _of_token(text, code, token, _undefined(tokens, token))
    if code == UNKNOWN_FUNCTION:
        return _of_token(text, code, token, _unknown_function(text[token.place : token.end]))
    return _of_token(text, code, token, why or ABOUT[code])


def _undefined(tokens: List[Token], token: Token) -> str:
    if token.value == "*":
        return "there is no variable that * could stand for"
    others = dict.fromkeys(other.value for other in tokens if other.kind in ("word", "quoted"))
    near = _near(str(token.value), others)
    return f"the variable {_cut(str(token.value))} isn't in scope here: {near or 'WITH passes on only what it names'}"


def _unknown_function(name: str) -> str:
    low = name.lower()
    if low in AGGREGATES:
        return f"{name} takes one argument" + (", or *" if low == "count" else "")
    if low in ARGUMENTS:
        return f"{name} takes {_count(*ARGUMENTS[low])}, without DISTINCT and *"
    advice = INSTEAD.get(low) or _near(low, [*ARGUMENTS, *AGGREGATES, *INSTEAD])
    return advice if advice.startswith("there ") else f"there is no function {_cut(name)}" + (f": {advice}" if advice else "")


def _count(least: int, greatest: Optional[int]) -> str:
    if greatest is None:
        return "one argument at least"
    return f"{least} to {greatest} arguments" if greatest > least else "one argument"


def names_of_parameters(text: str) -> Tuple[str, ...]:
    """The names of the parameters that a text names, each once; none where its lexemes can't be told."""
    try:
        tokens = reader.tokens_of(text)
    except Unreadable:
        return ()
    return tuple(dict.fromkeys(token.value for token in tokens if token.kind == "parameter"))
