"""Ways to tell what a server answers: tables for a person, JSON and CSV for a program."""
import csv
import json
import os
import shlex
import shutil
import subprocess
import sys

import client_path  # (finds the package graphd)
import remedies
import tables
from graphd import spelt


class Tables:
    """Answers as a person reads them."""

    def __init__(self, is_upright=False, pages=False):
        self.whole = False
        self.is_upright, self.pages = is_upright, pages

    def result(self, result, seconds):
        *table, cost = tables.result(result, self.whole, self.is_upright)
        self._print([*table, f"{cost}, {seconds * 1000:.1f} ms"])

    def part(self, result, before, steps, seconds):
        """Prints a page of rows, after `before` others; the last one with what all took."""
        *table, _ = tables.result(result, self.whole, self.is_upright, before)
        last = before + len(result.rows)
        cost = f"{tables.counted(last, 'row')}, {tables.counted(steps, 'step')}, {seconds * 1000:.1f} ms"
        print(*table, f"rows {before + 1} to {last}" if result.page is not None else cost, sep="\n", flush=True)

    def status(self, status):
        print(*tables.status(status), sep="\n", flush=True)

    def done(self, told="done"):
        print(told, flush=True)

    def told(self, what, lines):
        self._print([tables.safe(line) for line in lines])

    def refused(self, fault, where):
        print(*([where] if where else []), *remedies.lines(fault), sep="\n", file=sys.stderr, flush=True)

    def _print(self, lines):
        pager = _pager() if self.pages and len(lines) >= tables.terminal()[1] else None
        if pager is None:
            print(*lines, sep="\n", flush=True)
        else:
            _page(pager, "\n".join(lines) + "\n")


def _pager():
    """The command of the person's pager, or None."""
    words = shlex.split(os.environ.get("PAGER", "less -FRSX"))
    return words if words and shutil.which(words[0]) else None


def _page(pager, text):
    # (an interrupt while it shows is the pager's)
    shows = subprocess.Popen(pager, stdin=subprocess.PIPE)
    try:
        shows.stdin.write(text.encode())
        shows.stdin.close()
    except (OSError, KeyboardInterrupt):
        pass
    while shows.poll() is None:
        try:
            shows.wait()
        except KeyboardInterrupt:
            continue


class Lines:
    """Each reply as a line of JSON."""

    whole = True

    def result(self, result, seconds):
        rows = [[spelt(value) for value in row] for row in result.rows]
        self._line({"columns": result.columns, "rows": rows, "steps": result.steps})

    def part(self, result, before, steps, seconds):
        rows = [[spelt(value) for value in row] for row in result.rows]
        first = {} if before else {"columns": result.columns}
        self._line({**first, "page": result.page, "rows": rows, **({} if before else {"steps": steps})})

    def status(self, status):
        self._line(vars(status))

    def done(self, told="done"):
        self._line({})

    def told(self, what, lines):
        self._line({what: lines})

    def refused(self, fault, where):
        place = fault.place
        at = {"line": place.line, "column": place.column, "why": place.why} if place else {}
        self._line({"code": fault.code, "error": fault.name, **at, **({"where": where} if where else {})})

    def _line(self, told):
        print(json.dumps(told, ensure_ascii=False), flush=True)


class Csv:
    """The rows of each reply as CSV, with a line of columns first. Refusals are told on standard error."""

    whole = True

    def result(self, result, seconds):
        self.part(result, 0, result.steps, seconds)

    def part(self, result, before, steps, seconds):
        if result.columns:
            self._rows([*([] if before else [result.columns]), *([_cell(value) for value in row] for row in result.rows)])

    def status(self, status):
        self._rows([list(vars(status)), [_cell(value) for value in vars(status).values()]])

    def done(self, told="done"):
        pass

    def told(self, what, lines):
        self._rows([[what], *([line] for line in lines)])

    def refused(self, fault, where):
        print(*([where] if where else []), *remedies.lines(fault), sep="\n", file=sys.stderr, flush=True)

    def _rows(self, rows):
        csv.writer(sys.stdout, lineterminator="\n").writerows(rows)
        sys.stdout.flush()


def _cell(value):
    if value is None:
        return ""
    return value if isinstance(value, str) else json.dumps(spelt(value), ensure_ascii=False)


FORMATS = {"table": Tables, "vertical": lambda: Tables(is_upright=True), "json": Lines, "csv": Csv}
