"""Answers a tenant's requests plainly from the rules of docs/OPERATING.md, apart from graphd's own code: its tokens, transactions, pages,
indexes and status, and its queries by the evaluator.

`Requests.answer` gives the reply to a request as a dict. Queries are answered as they are where there is no index: once one is made
their steps may be fewer.
"""
from __future__ import annotations

import json
from typing import NamedTuple

from evaluator import IDS_EXHAUSTED
from evaluator_patterns import Graph
from evaluator_values import GREATEST, Fault

UNKNOWN_TOKEN, READ_ONLY, TEXT_TOO_LONG = 3, 4, 5
INDEX_EXISTS, NO_SUCH_INDEX, TOO_MANY_INDEXES, REPLY_TOO_LONG = 28, 29, 30, 31
TENANT_BUSY, NO_TRANSACTION, TRANSACTION_OPEN, NO_SUCH_PAGE, HELD_ROWS_QUOTA = 40, 41, 42, 43, 44
LONGEST_TEXT, MOST_INDEXES, LONGEST_REPLY = 65_536, 16, 16_777_216


class Transaction(NamedTuple):
    """The token that began it, and the graph at its begin, with its counters."""

    token: str
    graph: Graph


class Page(NamedTuple):
    """Rows that are held for a token, as they were printed, and how many of them a pull gives."""

    token: str
    size: int
    rows: list


class Requests:
    """A tenant, which of its tokens may write, and how many rows it may hold. `transaction` is the open one, or None; `pages` has what is
    held, by number."""

    def __init__(self, tenant, may_write, max_held=0):
        self.tenant, self.may_write, self.max_held = tenant, may_write, max_held
        self.indexes = []
        self.transaction = None
        self.pages, self.next_page = {}, 0

    def answer(self, request):
        token = request["token"]
        if token not in self.may_write:
            return {"code": UNKNOWN_TOKEN}
        if self.transaction and self.transaction.token != token:
            return {"code": TENANT_BUSY}
        try:
            return OPERATIONS[request["op"]](self, request)
        except Fault as refused:
            return {"code": refused.args[0]}

    def query(self, request):
        """Asks a query, which is undone where a test after its answer fails."""
        token, size = request["token"], request.get("page")
        if size is not None:
            self.test_no_transaction()
        before = self.tenant.graph
        told = self.tenant.answer(request["text"], request.get("params", {}), self.may_write[token])
        if told["code"]:
            return told
        try:
            if len(json.dumps(told, ensure_ascii=False, separators=(",", ":")).encode()) > LONGEST_REPLY:
                raise Fault(REPLY_TOO_LONG)
            return told if size is None else self.paged(told, token, size)
        except Fault:
            self.tenant.graph = before
            raise

    # pages

    def paged(self, told, token, size):
        """The reply with the first rows, once the others are held."""
        rows = told["rows"]
        page = self.hold(Page(token, size, rows[size:])) if rows[size:] else None
        return {"code": 0, "columns": told["columns"], "page": page, "rows": rows[:size], "steps": told["steps"]}

    def hold(self, page):
        """The number under which these rows are held from here on."""
        if sum(len(it.rows) for it in self.pages.values()) + len(page.rows) > self.max_held:
            raise Fault(HELD_ROWS_QUOTA)
        if self.next_page >= GREATEST:
            raise Fault(IDS_EXHAUSTED)
        number, self.next_page = self.next_page, self.next_page + 1
        self.pages[number] = page
        return number

    def taken(self, request):
        """The page that a request is about, which isn't held any more."""
        self.test_no_transaction()
        page = self.pages.get(request["page"])
        if page is None or page.token != request["token"]:
            raise Fault(NO_SUCH_PAGE)
        return self.pages.pop(request["page"])

    def pull(self, request):
        number, page = request["page"], self.taken(request)
        rows, left = page.rows[: page.size], page.rows[page.size :]
        if left:
            self.pages[number] = page._replace(rows=left)
        return {"code": 0, "page": number if left else None, "rows": rows}

    def drop_page(self, request):
        self.taken(request)
        return {"code": 0}

    def status(self, _):
        graph, quotas = self.tenant.graph, {"max_elements": self.tenant.max_elements, "max_steps": self.tenant.max_steps}
        counters = {"next_node": graph.next_node, "next_rel": graph.next_rel}
        indexes = sorted(self.indexes, key=lambda pair: [name.encode() for name in pair])
        return {"code": 0, "elements": graph.elements(), "indexes": indexes, **quotas, **counters}

    def index(self, request):
        """The index that a request is about, once all tests are passed that come before those of the index."""
        self.test_right(request)
        self.test_no_transaction()
        if any(len(request[key].encode()) > LONGEST_TEXT for key in ("label", "key")):
            raise Fault(TEXT_TOO_LONG)
        return [request["label"], request["key"]]

    def create_index(self, request):
        index = self.index(request)
        if index in self.indexes:
            raise Fault(INDEX_EXISTS)
        if len(self.indexes) == MOST_INDEXES:
            raise Fault(TOO_MANY_INDEXES)
        self.indexes.append(index)
        return {"code": 0}

    def drop_index(self, request):
        index = self.index(request)
        if index not in self.indexes:
            raise Fault(NO_SUCH_INDEX)
        self.indexes.remove(index)
        return {"code": 0}

    # transactions

    def begin(self, request):
        self.test_right(request)
        self.test_no_transaction()
        # (a query that is done leaves another graph, and this one as it is)
        self.transaction = Transaction(request["token"], self.tenant.graph)
        return {"code": 0}

    def commit(self, request):
        self.ended(request)
        return {"code": 0}

    def rollback(self, request):
        self.tenant.graph = self.ended(request).graph
        return {"code": 0}

    def ended(self, request):
        """The open transaction, which isn't open any more."""
        self.test_right(request)
        if not self.transaction:
            raise Fault(NO_TRANSACTION)
        found, self.transaction = self.transaction, None
        return found

    def test_right(self, request):
        if not self.may_write[request["token"]]:
            raise Fault(READ_ONLY)

    def test_no_transaction(self):
        if self.transaction:
            raise Fault(TRANSACTION_OPEN)


OPERATIONS = {
    "query": Requests.query, "status": Requests.status, "create_index": Requests.create_index, "drop_index": Requests.drop_index,
    "begin": Requests.begin, "commit": Requests.commit, "rollback": Requests.rollback,
    "pull": Requests.pull, "drop_page": Requests.drop_page,
}
