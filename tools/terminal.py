"""Statements typed at a terminal, with a history and completion."""
import atexit
import os
import re
import sys
from pathlib import Path

import client_path  # (finds the package graphd)
import graphd
from graphd.lexemes import KEYWORDS, Unreadable, lexemes
from graphd.reader import AGGREGATES, ARGUMENTS
from shell import HELP, QUITS, Stopped
from statements import Splitter

HISTORY = Path.home() / ".graphsh_history"
COMMANDS = re.findall(r":[a-z]+", HELP)
FUNCTIONS = [
    "count", "sum", "min", "max", "collect", "id", "labels", "type", "keys", "properties", "size", "length", "nodes", "relationships",
    "head", "last", "toString", "toInteger", "abs", "startNode", "endNode", "coalesce", "range",
]
WORDS = ("help", "quit", "exit")  # commands without their colon
STILL_OPEN = "The statement that you type is still open: a semicolon ends it, :clear drops it."
ASIDE = (":help", ":clear", *QUITS[:3])
PROMPT, OPEN = "graphd> ", "graphd*> "  # the second where a transaction is open
STOPPED = "stopped waiting: the request goes on in the server, and may still take effect"


class Terminal:
    """What is typed, line by line, as statements for the shell."""

    def __init__(self, shell, owns_server):
        self.shell, self.owns_server = shell, owns_server
        self.splitter = Splitter()
        self.typed = []  # the lines of the statement that is open
        self.offered = []  # the completions of the word that is typed

    def talk(self):
        """Reads statements until the end of input or :quit."""
        self.keep_history()
        print("graphd shell; :help tells the commands, a query ends with a semicolon")
        while self.turn():
            pass

    def prompt(self):
        mark, prompt = self.splitter.mark(), PROMPT if self.shell.transaction is None else OPEN
        return f"{mark + '..' if mark else '...':>{len(prompt) - 2}}> " if self.splitter.is_open() else prompt

    def turn(self):
        """One line. False where the shell is to end."""
        try:
            line = input(self.prompt())
        except EOFError:
            print()
            return False
        except KeyboardInterrupt:
            print()
            self.drop()
            return True
        word = line.strip().rstrip(";").strip()
        if self.splitter.is_open() and word in ASIDE:
            return self.aside(word)
        if not self.splitter.is_open() and word in WORDS:
            line = f":{word}"
        if self.splitter.is_open() and word in (*COMMANDS, *WORDS):
            print(STILL_OPEN)
        self.typed.append(line)
        for statement in self.splitter.feed(line + "\n"):
            self.remember()
            if not self.run(statement):
                return False
        if not self.splitter.is_open():
            self.typed = []
        return True

    def aside(self, word):
        """A command in the middle of a statement."""
        if word in QUITS:
            return False
        if word == ":clear":
            self.drop()
        else:
            print(HELP, STILL_OPEN, sep="\n")
        return True

    def drop(self):
        self.splitter.drop()
        self.typed = []

    def run(self, statement):
        """Runs a statement. An interrupt, or a connection that is lost, ends it and not the shell."""
        before = self.shell.transaction
        try:
            return self.shell.statement(statement)
        except KeyboardInterrupt:
            print("stopped waiting" if before is not self.shell.transaction else f"\n{STOPPED}", file=sys.stderr)
        except Stopped as fault:
            print(fault, file=sys.stderr)
        except graphd.ConnectionLost as fault:
            if self.owns_server:
                raise
            self.shell.tell(fault)
        return True

    # history and completion

    def completed(self, word, number):
        """The completion of this number, or None; the names of the graph are asked for at the first."""
        if number == 0:
            before = "\n".join([*self.typed, self.readline.get_line_buffer()[: self.readline.get_begidx()]])
            self.offered = completions(word, before, self.shell.names())
        return self.offered[number] if number < len(self.offered) else None

    def remember(self):
        """Keeps what was typed as one entry."""
        text = "\n".join(self.typed).strip()
        self.typed = []
        if text and self.readline:
            self.readline.add_history(_joined(text))

    def keep_history(self):
        try:
            import readline
        except ImportError:
            self.readline = None
            return
        self.readline = readline
        try:
            readline.read_history_file(HISTORY)
        except OSError:
            pass
        readline.set_history_length(1000)
        readline.set_auto_history(False)
        readline.set_completer_delims(" \t\n()[]{},;=<>+-*/%|.'\"`")
        readline.set_completer(self.completed)
        readline.parse_and_bind("tab: complete")
        atexit.register(_write_history, readline)


def _joined(text):
    """The text on one line, where that means the same."""
    line = " ".join(part.strip() for part in text.split("\n"))
    try:
        same = [token[:2] for token in lexemes(line)] == [token[:2] for token in lexemes(text)]
    except Unreadable:
        same = "//" not in text and "\n" not in text
    return line if same else text


def completions(word, before, names):
    """What the word that is typed may become, behind the rest of its statement: a command where it begins one, else a name behind a colon
    or a point, else keywords in the case that is typed, functions, words of the statement and names."""
    if word.startswith(":") and not before.strip():
        return [command for command in dict.fromkeys(COMMANDS) if command.startswith(word)]
    head, colon, begun = word.rpartition(":")
    if not begun and not colon and not before.endswith("."):
        return []
    written = [] if colon else re.findall(r"[^\W\d]\w*", before)
    found = [*names, *written]
    if not colon and not before.endswith("."):
        keywords = [keyword.lower() if begun.islower() else keyword for keyword in sorted(KEYWORDS)]
        functions = [name + "(" for name in FUNCTIONS if name.lower() in AGGREGATES or name.lower() in ARGUMENTS]
        found = keywords + functions + found
    return [head + colon + it for it in dict.fromkeys(found) if it.lower().startswith(begun.lower()) and it != begun]


def _write_history(readline):
    try:
        # (texts may be secret)
        os.close(os.open(HISTORY, os.O_CREAT | os.O_WRONLY, 0o600))
        readline.write_history_file(HISTORY)
    except OSError:
        pass
