"""The lexemes of a query text and how deep they nest, told from the language's rules alone, apart from graphd's own lexer."""
from __future__ import annotations

from typing import Any, Callable, Iterable, List, NamedTuple, Optional, Tuple

BAD_LEXEME = 6
GREATEST_INTEGER = 9_223_372_036_854_775_807
DEEPEST = 64

KEYWORDS = set(
    "AND AS ASC ASCENDING BY CASE CONTAINS CREATE DELETE DESC DESCENDING DETACH DISTINCT ELSE END ENDS"
    " FALSE IN IS LIMIT MATCH MERGE NOT NULL ON OPTIONAL OR ORDER REMOVE RETURN SET SKIP STARTS THEN"
    " TRUE UNWIND WHEN WHERE WITH XOR".split()
)
SYMBOLS = ["..", "<>", "<=", ">=", "+=", *"()[]{},.:;+-*/%=<>|"]
ESCAPES = {"\\": "\\", "'": "'", '"': '"', "b": "\b", "f": "\f", "n": "\n", "r": "\r", "t": "\t"}
SPACES = set("\t\n\v\f\r \x85\xa0\u1680\u2028\u2029\u202f\u205f\u3000") | {chr(i) for i in range(0x2000, 0x200B)}
DIGITS = set("0123456789")
# belong to words since Unicode 15.1, which Python's tables may be older than
JOINERS = set("\u200c\u200d\u30fb\uff65")
HEXADECIMAL = set("0123456789abcdefABCDEF")


class Unreadable(Exception):
    """A text that isn't read: the refusal's number, and for a fault of a lexeme the place where it is, and what is wrong there."""

    def __init__(self, number: int, place: int = 0, why: str = "") -> None:
        super().__init__(number)
        self.number, self.place, self.why = number, place, why


# Lexemes


class Token(NamedTuple):
    kind: str
    value: Any
    place: int
    end: int


def folded(word: str) -> str:
    """The word with its ASCII letters made small, and no others."""
    return "".join(letter.lower() if letter.isascii() else letter for letter in word)


def begins_word(letter: str) -> bool:
    return letter.isidentifier()


def goes_on_word(letter: str) -> bool:
    return letter in JOINERS or ("a" + letter).isidentifier()


def past(text: str, place: int, belongs: Callable[[str], bool]) -> int:
    """The first place from this one on whose character doesn't belong."""
    while place < len(text) and belongs(text[place]):
        place += 1
    return place


def past_comment(text: str, place: int) -> int:
    """The place after the comment that begins here, or this place if none does."""
    if text.startswith("//", place):
        return past(text, place, lambda letter: letter not in "\n\r")
    if text.startswith("/*", place):
        end = text.find("*/", place + 2)
        if end < 0:
            raise Unreadable(BAD_LEXEME, place, "this comment isn't closed: */ is missing")
        return end + 2
    return place


def past_space(text: str, place: int) -> int:
    before = -1
    while before != place:
        before = place
        place = past_comment(text, past(text, place, SPACES.__contains__))
    return place


def quoted_name(text: str, place: int) -> Tuple[str, int]:
    """The name that the backquotes at this place stand round, and the place after it."""
    name = ""
    at = place + 1
    while at < len(text):
        if text[at] != "`":
            name += text[at]
            at += 1
        elif text.startswith("``", at):
            name += "`"
            at += 2
        elif name:
            return name, at + 1
        else:
            raise Unreadable(BAD_LEXEME, place, "a name in backquotes has at least one character")
    raise Unreadable(BAD_LEXEME, place, "this name isn't closed: a backquote is missing")


def escaped(text: str, place: int) -> Tuple[str, int]:
    """The character that an escape stands for, and the place after it."""
    letter = text[place + 1 : place + 2]
    if letter in ESCAPES:
        return ESCAPES[letter], place + 2
    number = text[place + 2 : place + 6]
    if letter != "u" or len(number) < 4 or not HEXADECIMAL.issuperset(number):
        raise Unreadable(BAD_LEXEME, place, "no such escape: there are \\\\ \\' \\\" \\b \\f \\n \\r \\t and \\u with four hexadecimal digits")
    if 0xD800 <= int(number, 16) <= 0xDFFF:
        raise Unreadable(BAD_LEXEME, place, "half of a surrogate pair is no character")
    return chr(int(number, 16)), place + 6


def string(text: str, place: int) -> Tuple[str, int]:
    mark = text[place]
    told = ""
    at = place + 1
    while at < len(text):
        if text[at] == mark:
            return told, at + 1
        if text[at] == "\\":
            letter, at = escaped(text, at)
        else:
            letter, at = text[at], at + 1
        told += letter
    raise Unreadable(BAD_LEXEME, place, f"this text isn't closed: {mark} is missing")


def integer(text: str, place: int) -> Tuple[int, int]:
    end = past(text, place, DIGITS.__contains__)
    digits = text[place:end]
    if digits.startswith("0") and len(digits) > 1:
        raise Unreadable(BAD_LEXEME, place, "a number has no leading zero")
    # (the digits are counted first, since Python reads no number of thousands of them)
    if len(digits) > 19 or int(digits) > GREATEST_INTEGER:
        raise Unreadable(BAD_LEXEME, place, f"a number is at most {GREATEST_INTEGER}")
    if end < len(text) and begins_word(text[end]):
        raise Unreadable(BAD_LEXEME, end, "a letter right behind a number")
    return int(digits), end


def parameter(text: str, place: int) -> Tuple[str, int]:
    if place < len(text) and text[place] == "`":
        return quoted_name(text, place)
    if place < len(text) and text[place] in DIGITS:
        end = past(text, place, DIGITS.__contains__)
    elif place < len(text) and begins_word(text[place]):
        end = past(text, place, goes_on_word)
    else:
        raise Unreadable(BAD_LEXEME, place - 1, "a parameter has a name behind $")
    return text[place:end], end


def word(text: str, place: int) -> Token:
    end = past(text, place, goes_on_word)
    upper = folded(text[place:end]).upper() if text[place:end].isascii() else None
    if upper in KEYWORDS:
        return Token("keyword", upper, place, end)
    return Token("word", text[place:end], place, end)


READERS: List[Tuple[str, Iterable[str], Callable[[str, int], Tuple[Any, int]]]] = [
    ("quoted", {"`"}, quoted_name),
    ("string", {"'", '"'}, string),
    ("integer", DIGITS, integer),
]


def lexeme(text: str, place: int) -> Token:
    first = text[place]
    if begins_word(first):
        return word(text, place)
    for kind, marks, read in READERS:
        if first in marks:
            value, end = read(text, place)
            return Token(kind, value, place, end)
    if first == "$":
        value, end = parameter(text, place + 1)
        return Token("parameter", value, place, end)
    for symbol in SYMBOLS:
        if text.startswith(symbol, place):
            return Token("symbol", symbol, place, place + len(symbol))
    raise Unreadable(BAD_LEXEME, place, "no part of the language begins with this character")


def lexemes(text: str) -> List[Token]:
    found = []
    place = past_space(text, 0)
    while place < len(text):
        found.append(lexeme(text, place))
        place = past_space(text, found[-1].end)
    return found


# Nesting, told from the tokens alone

Mark = Optional[Tuple[str, Any]]


def opens(before: Mark, token: Mark, after: Mark) -> bool:
    if token == ("keyword", "CASE"):
        return before != ("symbol", ".") and after != ("symbol", ":")
    return token is not None and token[0] == "symbol" and token[1] in ("(", "[", "{")


def closes(before: Mark, token: Mark) -> bool:
    if token == ("keyword", "END"):
        return before not in [("symbol", mark) for mark in (".", ":", ",", "{", "|")]
    return token is not None and token[0] == "symbol" and token[1] in (")", "]", "}")


def first_too_deep(tokens: List[Token]) -> Optional[Token]:
    """The first token with which the text nests too deep."""
    marks: List[Mark] = [(token.kind, token.value) for token in tokens]
    depth, signs = 0, 0
    for token, before, mark, after in zip(tokens, [None, *marks], marks, [*marks[1:], None]):
        depth += opens(before, mark, after) - closes(before, mark)
        is_sign = mark in (("symbol", "+"), ("symbol", "-"), ("keyword", "NOT"))
        signs = signs + 1 if is_sign else 0
        if depth > DEEPEST or signs > DEEPEST:
            return token
    return None
