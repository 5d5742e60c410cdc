"""Statements of a text: what stands between semicolons that are no part of a string, a quoted name or a comment, and commands, which
begin with a colon where a statement may begin and end with their line."""
import re
from typing import NamedTuple

import client_path  # (finds the package graphd)
from graphd.lexemes import SPACES

_BLANK = "[" + "".join(map(re.escape, sorted(SPACES))) + "]+"
_PART = re.compile(rf"""(?P<blank>{_BLANK})|(?P<comment>//[^\r\n]*)|(?P<open>/\*|['"`])|(?P<end>;)|(?P<text>:|[^\s'"`;/:]+|.)""", re.DOTALL)
_LINE = re.compile(r"[^\r\n]*(?:\r\n|\r|\n)|[^\r\n]+")
# how each mark that opens something is closed
_CLOSING = {
    "'": re.compile(r"[^'\\]*(?:\\.[^'\\]*)*'", re.DOTALL),
    '"': re.compile(r'[^"\\]*(?:\\.[^"\\]*)*"', re.DOTALL),
    "`": re.compile(r"[^`]*`"),
    "/*": re.compile(r".*?\*/", re.DOTALL),
}
NAMES = {"'": "text", '"': "text", "`": "name in backquotes", "/*": "comment"}


class Statement(NamedTuple):
    """A query without its semicolon, or a command, and the line that it begins on, counted from 1."""

    text: str
    line: int

    def is_command(self):
        return self.text.startswith(":")


class Open(Exception):
    """Something that the text opens and doesn't close."""


class Splitter:
    """Takes a text line by line, each read once, and gives its statements as they end."""

    def __init__(self):
        self.line = 1
        self._kept = []  # the text of the statement that is open
        self._begun = None  # the line it begins on
        self._inside = None  # the mark that opened what isn't closed yet, and its line
        self._open = ""  # what was read of it

    def is_open(self):
        """Whether a statement has begun and not ended."""
        return self._begun is not None or self._inside is not None

    def mark(self):
        """The mark that opened the text, name or comment that isn't closed yet, or None."""
        return self._inside[0] if self._inside else None

    def drop(self):
        """Forgets the statement that is open."""
        self._kept, self._begun, self._inside, self._open = [], None, None, ""

    def feed(self, text):
        """The statements that end in these lines."""
        found = []
        for line in _LINE.findall(text):
            self._take(line, found)
            self.line += line.endswith(("\r", "\n"))
        return found

    def rest(self):
        """The statements behind the last semicolon, one or none. Raises Open where something isn't closed."""
        if self._inside:
            mark, line = self._inside
            raise Open(f"line {line}: the {NAMES[mark]} that {mark} opens here isn't closed; what stands behind it wasn't run")
        return self._ended()

    def _take(self, line, found):
        at = 0
        while at < len(line):
            at = self._close(line, at) if self._inside else self._step(line, at, found)

    def _close(self, line, at):
        """The place behind what is open, where it is closed in this line."""
        mark = self._inside[0]
        # (what an earlier line leaves over stands before this one, and only at its beginning)
        seen, begin = (self._open + line, 0) if self._open else (line, at)
        closed = _CLOSING[mark].match(seen, begin)
        if closed is None:
            self._keep(line[at:])
            self._open = _beginning(mark, seen[begin:])
            return len(line)
        end = closed.end() - len(self._open)
        self._keep(line[at:end])
        self._inside, self._open = None, ""
        return end

    def _step(self, line, at, found):
        part = _PART.match(line, at)
        kind = part.lastgroup
        if kind == "end":
            found += self._ended()
        elif kind == "text" and part[0] == ":" and self._begun is None:
            found.append(Statement(line[at:].strip(), self.line))
            return len(line)
        elif kind == "open":
            if part[0] != "/*":
                self._begun = self._begun or self.line
            self._inside = part[0], self.line
            self._keep(part[0])
        else:
            if kind == "text":
                self._begun = self._begun or self.line
            self._keep(part[0])
        return part.end()

    def _keep(self, part):
        """Keeps a part of the statement; comments and blanks before it are left out."""
        if self._begun is not None:
            self._kept.append(part)

    def _ended(self):
        text, line = "".join(self._kept).strip(), self._begun
        self.drop()
        return [Statement(text, line)] if text else []


def _beginning(mark, text):
    """What of an open text matters to how it goes on: an odd backslash at its end, or the star of a comment's end."""
    if mark == "/*":
        return "*" if text.endswith("*") else ""
    backslashes = len(text) - len(text.rstrip("\\"))
    return "\\" if mark != "`" and backslashes % 2 else ""


def statements(text):
    """The statements of a whole text. Raises Open where something isn't closed."""
    splitter = Splitter()
    return splitter.feed(text) + splitter.rest()
