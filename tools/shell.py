"""A session with its commands and parameters, and how statements are run."""
import contextlib
import json
import re
import sys
import time
from dataclasses import dataclass
from pathlib import Path

import client_path  # (finds the package graphd)
import dumps
import graphd
import paging
import replies
import tables
from graphd import plans
from graphd.diagnosis import fault_of, names_of_parameters
from graphd.values import check_parameter
from statements import Open, Splitter

HELP = """\
:status                      what the tenant has and may have
:schema                      labels, types and keys, and how many have them
:explain QUERY               what each clause tries and is charged for, and which indexes serve; :explain alone takes the last query
:index LABEL KEY             keeps nodes findable by a property; :unindex LABEL KEY takes it back
:begin                       begins a transaction: what it changes is kept by :commit, taken back by :rollback or where the shell ends
:pages                       what is left of results that were kept; :pull NUMBER goes on with one, :drop NUMBER drops it
:param NAME VALUE            sets the parameter $NAME to a JSON value; :param alone lists all
:unparam NAME                takes a parameter back
:format NAME                 table, vertical, json or csv
:whole                       shows long values whole, or shortened again
:source FILE                 runs a file of statements (also :run FILE)
:dump FILE                   writes the tenant's graph as statements; :restore FILE runs them on an empty tenant
:clear                       drops the statement that is being typed
:help, :quit                 also without the colon
A query ends with a semicolon. Ctrl-C drops what is typed, or stops waiting for an answer."""
QUITS = (":quit", ":exit", ":q", "quit", "exit")
# an index's label and key, in backquotes or without, also as :status tells them
WORDS = re.compile(r"`((?:[^`]|``)+)`|([^\s`]+)")
PAIR = re.compile(r":?(`(?:[^`]|``)+`|[^`()\s]+)\((`(?:[^`]|``)+`|[^`()\s]+)\)\Z")


LOST = "the transaction has ended with its connection: graphd_listen rolls back what it changed"
LEFT = "the transaction that was open is rolled back"
# what a query in pages is refused by and one without them isn't, an older server's refusal among them
UNPAGED = (graphd.HeldRowsQuota, graphd.TransactionOpen, graphd.BadRequest)


class Stopped(Exception):
    """The run of a file ends here: what is told of it."""


class Interrupted(Stopped):
    """The person stopped it."""


@dataclass
class Kept:
    """A result of which rows are left: its query, its columns, the steps that it took, and how many rows were seen."""

    text: str
    result: graphd.Result
    steps: int
    seen: int = 0


class Shell:
    """What a person or a script asks a session by. `refused` counts what didn't succeed; `pages` has the results whose rows are held for
    it, by their numbers. With a `paging` queries are asked page by page."""

    def __init__(self, session, answers, fails_fast=False, paging=None):
        self.session, self.answers = session, answers
        self.paging, self.pages = paging, {}
        self.parameters = {}
        self.transaction = None  # the one that is open
        self.last = ""  # the last query
        self._names = None  # the graph's, once they are asked for
        self.refused = 0
        self.fails_fast = fails_fast

    def statement(self, statement, where=""):
        """Runs a query or a command. False where the shell is to end."""
        before = self.refused
        try:
            if statement.text in QUITS or statement.text.rstrip("; ") in QUITS:
                return False
            self._run(statement)
        except graphd.Refused as fault:
            self.refused += 1
            self.answers.refused(fault, where)
        except BrokenPipeError:
            raise
        except (TypeError, ValueError, OSError, graphd.NotGraphd, graphd.TimedOut) as fault:
            self.tell(fault, where)
        finally:
            self._forget_lost()
        if self.fails_fast and self.refused > before:
            raise Stopped(f"stopped at {where}" if where else "stopped")
        return True

    def tell(self, fault, where=""):
        """Tells of a fault that isn't the server's, and counts it."""
        self.refused += 1
        reason = f"{fault.filename}: {fault.strerror}" if isinstance(fault, OSError) and fault.filename else fault
        print(f"{where or 'graphsh'}: {tables.safe(str(reason))}", file=sys.stderr, flush=True)

    def _forget_lost(self):
        """Tells of a transaction whose connection was lost."""
        if self.transaction is not None and self.transaction.is_lost:
            self._take_back()
            print(LOST, file=sys.stderr, flush=True)

    def _take_back(self):
        with contextlib.suppress(graphd.GraphdError):
            self.transaction.rollback()
        self.transaction = None

    def leave(self):
        """Rolls back a transaction that is open, and tells of it. True where one was. Pages that are held are dropped."""
        is_open = self.transaction is not None
        if is_open:
            self._take_back()
            print(LEFT, file=sys.stderr, flush=True)
        with contextlib.suppress(graphd.GraphdError):
            for number in [*self.pages]:
                self._drop(number)
        return is_open

    def _run(self, statement):
        if statement.is_command():
            self.command(statement.text)
        else:
            self.query(statement.text)

    def query(self, text):
        self.last, self._names = text, None
        begin = time.perf_counter()
        given = {name: self.parameters[name] for name in names_of_parameters(text) if name in self.parameters}
        result = self._asked(text, given)
        seconds = time.perf_counter() - begin
        if result.page is None:
            self.answers.result(result, seconds)
        else:
            self._show(Kept(text, result, result.steps), seconds)

    # pages

    def _asked(self, text, given):
        """A query's result, or its first page where it comes page by page."""
        size = self._rows_of_pages()
        if size is None:
            return self.session.query(text, given)
        try:
            return self.session.query_page(text, size, given)
        except UNPAGED:
            if self.paging.rows is not None:
                raise
        # (it was undone; nobody asked for pages, and the tenant may have none)
        return self.session.query(text, given)

    def _rows_of_pages(self):
        """How many rows a page has, or None where a result comes as a whole: in a transaction too, which has no pages."""
        is_table = isinstance(self.answers, replies.Tables)
        if self.paging is None or self.transaction is not None or not is_table and self.paging.rows is None:
            return None
        return self.paging.size(is_table and self.answers.is_upright)

    def _show(self, kept, seconds):
        """Shows a page, and the next ones as long as they are wanted."""
        while True:
            number = kept.result.page
            if number is not None:
                self.pages[number] = kept
            self.answers.part(kept.result, kept.seen, kept.steps, seconds)
            kept.seen += len(kept.result.rows)
            if number is None:
                return
            choice = self.paging.choice() if self.paging else None
            if choice == paging.DROPS:
                self._drop(number)
                print(f"the rows after the first {kept.seen} are dropped", flush=True)
            elif choice == paging.KEEPS:
                print(f"the rest is page {number}: :pull {number} goes on", flush=True)
            if choice:
                return
            begin = time.perf_counter()
            self._pull(number, kept)
            seconds += time.perf_counter() - begin

    def _pull(self, number, kept):
        try:
            kept.result = self.session.pull(kept.result)
        except graphd.NoSuchPage:
            del self.pages[number]
            raise
        if kept.result.page is None:
            del self.pages[number]

    def _drop(self, number):
        try:
            self.session.drop_page(number)
        except graphd.NoSuchPage:
            pass  # (the server was restarted)
        del self.pages[number]

    def tell_pages(self):
        """Lists the results that have rows left. How many these are the server doesn't say."""
        lines = [f"page {number}: {tables.counted(kept.seen, 'row')} seen of {kept.text}" for number, kept in self.pages.items()]
        self.answers.told("pages", lines or ["no rows are held for this shell"])

    def of_page(self, word, rest, act):
        """Does something with the page of a number that is typed; without one, with the last that is held."""
        number = int(rest) if rest.isascii() and rest.isdigit() else next(reversed(self.pages), None) if not rest else None
        if number not in self.pages:
            raise ValueError(f"no such page: :pages lists them, and {word} NUMBER takes one")
        act(number)

    def pull(self, number):
        """Goes on with a page that was kept."""
        begin, kept = time.perf_counter(), self.pages[number]
        self._pull(number, kept)
        self._show(kept, time.perf_counter() - begin)

    def drop(self, number):
        self._drop(number)
        self.answers.done("dropped")

    def command(self, text):
        word, rest = re.fullmatch(r"(\S*)\s*(.*?)[;\s]*", text, re.DOTALL).groups()
        commands = {
            ":status": lambda: self.answers.status(self.session.status()),
            ":schema": lambda: self.answers.told("schema", dumps.schema(self.session)),
            ":explain": lambda: self.explain(rest),
            ":index": lambda: self.index(self.session.create_index, word, rest),
            ":unindex": lambda: self.index(self.session.drop_index, word, rest),
            ":begin": self.begin,
            ":commit": lambda: self.end("commit"),
            ":rollback": lambda: self.end("rollback"),
            ":pages": self.tell_pages,
            ":pull": lambda: self.of_page(word, rest, self.pull),
            ":drop": lambda: self.of_page(word, rest, self.drop),
            ":param": lambda: self.param(rest),
            ":params": lambda: self.param(""),
            ":unparam": lambda: self.parameters.pop(_parameter(rest), None),
            ":format": lambda: self.format(rest),
            ":whole": self.turn_whole,
            ":source": lambda: self.run_file(rest),
            ":run": lambda: self.run_file(rest),
            ":dump": lambda: self.dump(rest),
            ":restore": lambda: self.restore(rest),
            ":clear": lambda: None,
            ":help": lambda: print(HELP, flush=True),
        }
        if word not in commands:
            raise ValueError(f"no command {word}; :help tells them all")
        commands[word]()

    def explain(self, rest):
        text = rest or self.last
        if not text:
            raise ValueError("a query is wanted: :explain MATCH (n) RETURN n")
        fault = fault_of(text, names_of_parameters(text))
        if fault:
            raise graphd.REFUSALS[fault.code]().of_query(text, names_of_parameters(text))
        self.answers.told("plan", plans.told(text, self.session.status().indexes))

    def index(self, change, word, rest):
        pair = PAIR.match(rest)
        found = WORDS.findall(" ".join(pair.groups()) if pair else rest)
        names = [quoted.replace("``", "`") or plain for quoted, plain in found]
        if len(names) != 2:
            raise ValueError(f"an index has a label and a key: {word} LABEL KEY; names with blanks stand in backquotes")
        change(*names)
        self.answers.done()

    def begin(self):
        """Begins a transaction, for which the session holds a connection until it ends."""
        transaction = self.session.transaction()
        transaction.__enter__()
        self.transaction = transaction
        self.answers.done("a transaction is open")

    def end(self, how):
        """Ends the transaction that is open, also one of this token that the shell hasn't begun."""
        transaction, self.transaction = self.transaction, None
        if transaction is None:
            self.session.ask({"op": how})
        else:
            getattr(transaction, how)()
        self.answers.done({"commit": "committed", "rollback": "rolled back"}[how])

    def names(self):
        """The labels, types and keys that are words, as they were after the last query; none where they can't be had."""
        if self._names is None:
            try:
                self._names = dumps.words(self.session)
            except (graphd.GraphdError, OSError):
                self._names = []
        return self._names

    def param(self, rest):
        name, _, value = rest.partition(" ")
        if not name:
            for known, given in self.parameters.items():
                print(f"${tables.safe(known)} = {tables.shown(given)}")
        elif not value.strip():
            raise ValueError("a parameter has a name and a JSON value: :param NAME VALUE")
        else:
            self.set_parameter(_parameter(name), value)

    def set_parameter(self, name, value):
        """Sets a parameter to the value of a JSON text, where graphd has this value."""
        try:
            read = json.loads(value)
        except ValueError as fault:
            raise ValueError(f"${name}: no JSON value: {fault}; texts stand in double quotes") from None
        check_parameter(f"${name}", read)
        self.parameters[name] = read

    def format(self, name):
        if name not in replies.FORMATS:
            raise ValueError(f"a format is one of {', '.join(replies.FORMATS)}")
        self.answers = replies.FORMATS[name]()

    def turn_whole(self):
        self.answers.whole = not self.answers.whole
        print("long values are shown whole" if self.answers.whole else "long values are shortened")

    # files

    def run_file(self, path):
        """Runs a file of statements, or as far as one stops it."""
        if not path:
            raise ValueError("a file is wanted")
        file = Path(path).expanduser()
        with open(file, "rb") as lines:
            self.run_lines(lines, path)

    def run_lines(self, lines, name):
        """Runs the statements of lines of bytes, each as soon as it has ended. False where the shell is to end."""
        splitter, count = Splitter(), 0
        try:
            for line in _decoded(lines):
                for statement in splitter.feed(line):
                    count += 1
                    if not self._of_file(statement, name, count):
                        return False
            return all([self._of_file(statement, name, count + 1) for statement in splitter.rest()])
        except (Open, UnicodeError) as fault:
            self.tell(f"{name}: {fault}")
        except KeyboardInterrupt:
            raise Interrupted(f"stopped in {name} at statement {count}; what the server has begun goes on") from None
        return True

    def _of_file(self, statement, name, count):
        return self.statement(statement, f"{name}: statement {count}, line {statement.line}")

    def dump(self, path):
        if not path:
            raise ValueError("a file is wanted")
        nodes, relationships, keeps_ids = dumps.write(self.session, Path(path).expanduser())
        ids = "with their ids" if keeps_ids else f"without their ids, of which more than {dumps.MOST_FILLED} are missing"
        self.answers.done(f"{tables.counted(nodes, 'node')} and {tables.counted(relationships, 'relationship')} written, {ids}")

    def restore(self, path):
        """Runs a dump, quietly, on a tenant without elements."""
        if self.transaction is not None:
            raise ValueError("a dump isn't restored within a transaction, since it makes indexes")
        before = self.session.status()
        if before.elements:
            raise ValueError(f"the tenant has {tables.counted(before.elements, 'element')} already: a dump is restored on an empty one")
        is_fresh = before.next_node == before.next_rel == 0
        quiet = Shell(self.session, _Quiet(self.answers), fails_fast=True)
        try:
            quiet.run_file(path)
        except Stopped as fault:
            raise ValueError(f"{fault}; what was restored before is there") from None
        if quiet.refused:
            raise ValueError(f"{path} wasn't restored whole")
        ids = "with their ids" if is_fresh and dumps.keeps_ids(Path(path).expanduser()) else "under new ids"
        self.answers.done(f"{tables.counted(self.session.status().elements, 'element')} restored, {ids}")


class _Quiet:
    """Tells refusals alone."""

    whole = True

    def __init__(self, answers):
        self.refused = answers.refused

    def result(self, result, seconds):
        pass

    status = done = told = lambda self, *told: None


def _parameter(word):
    """The name of a parameter as it is typed, with $ or without, with backquotes or without."""
    name = word.strip()
    name = name[1:] if name.startswith("$") else name
    return name[1:-1].replace("``", "`") if len(name) > 2 and name[0] == name[-1] == "`" else name


def _decoded(lines):
    """The lines as texts, the first without a mark of the order of bytes."""
    for number, line in enumerate(lines, 1):
        try:
            text = line.decode("utf-8-sig" if number == 1 else "utf-8")
        except UnicodeDecodeError as fault:
            raise UnicodeError(f"line {number}: no text in UTF-8 (byte {fault.start + 1})") from None
        yield text
