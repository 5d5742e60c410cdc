"""Sessions: what a client asks a server by."""
from __future__ import annotations

import contextlib
import ssl as tls
import threading
from typing import Any, Callable, Dict, List, Mapping, Optional, Sequence, Type, TypeVar, Union

from .answers import Result, Status
from .connections import Connection, ProgramConnection, address_of
from .pages import PAGE, Stream, checked_size, columns_of, may_be_held, number_of
from .refusals import GraphdError, NotSent, Refused
from .requests import body_of, checked_token, pulled_of, query_of, result_of, status_of, told_by
from .transactions import Gate, Held, Transaction, settle
from .values import Parameter

Self = TypeVar("Self", bound="Session")


class Requests:
    """The requests that a token may make. Each takes effect whole or not at all, and raises a Refused where the server refuses it, a
    ConnectionLost where no reply came."""

    def __init__(self, token: str, opened: Callable[[], Connection], timeout: Optional[float]) -> None:
        self.token = checked_token(token)
        self.timeout = timeout
        self._opened = opened
        self._gate = Gate()
        self._left: List[int] = []  # pages that are to be dropped
        self._asking = threading.local()

    def query(self, text: str, params: Optional[Mapping[str, Parameter]] = None, /, **named: Parameter) -> Result:
        """Asks a query, and gives its columns, rows and steps. Its parameters `$name` are given as a dict, by name, or both ways.

        Raises a TypeError or a ValueError, and sends nothing, where the text is none or a parameter is no value of graphd's.
        """
        return self._answered(*query_of(text, params, named))

    def _answered(self, request: Mapping[str, Any], given: Mapping[str, Any]) -> Result:
        """What a query's request is answered, which has these parameters."""
        try:
            told = self.ask(request)
        except Refused as fault:
            raise fault.of_query(request["text"], given) from None
        return result_of(told)

    def stream(self, text: str, params: Optional[Mapping[str, Parameter]] = None, /, *, page: int = PAGE, **named: Parameter) -> Stream:
        """The rows of a query one after the other, of which the server sends so many at a time, 1 to 10,000.

            for row in graph.stream("MATCH (n:Service) RETURN n", page=100):
                ..

        They are those of the graph as it is when the first is taken, whatever changes later. The server holds the others until they are
        taken, or the stream is left, by a `break` too; they count for the tenant's `max_held`. A parameter `$page` is passed in the dict.

        Raises what `query_page` raises, when the first row is taken."""
        return Stream(self, *query_of(text, params, named, checked_size(page)))

    def query_page(self, text: str, size: int, params: Optional[Mapping[str, Parameter]] = None, /, **named: Parameter) -> Result:
        """Asks a query, of whose rows at most so many come at a time, 1 to 10,000: the first ones. The result's `page` is the number under
        which the tenant holds the others for this token, for `pull` and `drop_page`, or None where none is left.

        Raises as `query` does, HeldRowsQuota where the tenant would hold more rows than its `max_held`, and TransactionOpen in a
        transaction, which has no pages."""
        return self._answered(*query_of(text, params, named, checked_size(size)))

    def pull(self, page: Union[int, Result]) -> Result:
        """The next rows of a page, named by its number or by the result before: then the columns have their names. The result's `page` is
        None where no more are left.

        Raises NoSuchPage where this token holds no such page, and TransactionOpen in a transaction. Where no reply came, whether rows are
        lost isn't known."""
        return self._pulled(number_of(page), columns_of(page))

    def _pulled(self, number: int, columns: List[str]) -> Result:
        return pulled_of(self.ask({"op": "pull", "page": number}), columns)

    def drop_page(self, page: Union[int, Result]) -> None:
        """Drops the rows that are held under a number, or after a result. Raises NoSuchPage where this token holds no such page, and
        TransactionOpen in a transaction."""
        self.ask({"op": "drop_page", "page": number_of(page)})

    def _drop_later(self, number: int) -> None:
        """Drops a page as soon as that can be done."""
        self._left.append(number)
        self._drop_left()

    def _drop_left(self) -> None:
        """Drops the pages that were left. Those that can't be dropped yet are tried again at the next request."""
        if self._is_over():
            self._left.clear()
        for number in [*self._left]:
            # (streams are left at any moment, in the middle of a request too)
            if self._gate.is_mine() or getattr(self._asking, "now", False):
                return
            try:
                told_by(self._asked(body_of({"op": "drop_page", "page": number}, self.token)))
            except GraphdError as fault:
                if may_be_held(fault):
                    return
            with contextlib.suppress(ValueError):
                self._left.remove(number)

    def _is_over(self) -> bool:
        """Whether the server has ended that held the pages."""
        return False

    def status(self) -> Status:
        """What the tenant has and may have. Costs no steps."""
        return status_of(self.ask({"op": "status"}))

    def create_index(self, label: str, key: str) -> None:
        """Keeps the nodes with the label findable by this property, at most 16 such pairs. Raises IndexExists where it is there,
        TransactionOpen in a transaction."""
        self.ask({"op": "create_index", "label": label, "key": key})

    def drop_index(self, label: str, key: str) -> None:
        """Takes an index back. Raises NoSuchIndex where it isn't there, TransactionOpen in a transaction."""
        self.ask({"op": "drop_index", "label": label, "key": key})

    def transaction(self) -> Transaction:
        """A transaction, for a `with` block: what this thread asks in it takes effect together at its end, or not at all where an
        exception leaves it.

            with graph.transaction():
                graph.query(..)
                graph.query(..)

        It goes over one connection. A refused query is undone alone, and the transaction goes on where its exception is caught. Until
        the end this session's other threads wait, at most `timeout` seconds (then NotSent), and the tenant's other tokens are refused
        (TenantBusy). All clients of one token are in its transaction: give each that has transactions a token of its own.

        To enter raises ReadOnly where the token may not write, TenantBusy or TransactionOpen where one is open, of another token or of
        this one. To leave raises as `Transaction.commit` does."""
        return Transaction(self)

    def ask(self, request: Mapping[str, Any]) -> Dict[str, Any]:
        """Sends a request, to which its token is added, and gives the reply's object."""
        return told_by(self.exchange(body_of(request, self.token)))

    def exchange(self, body: bytes) -> bytes:
        """The reply's body to a request's body, both as bytes. A request is sent again only where it wasn't sent whole."""
        held = self._gate.mine()
        if held is not None:
            return held.exchange(body, self.timeout)
        self._drop_left()
        return self._asked(body)

    def _asked(self, body: bytes) -> bytes:
        """The same, outside of this thread's transactions."""
        self._asking.now = True
        try:
            while True:
                with self._gate.passed(self.timeout) as is_sure:
                    if is_sure:
                        return self._exchange(body)
                self._settle()
        finally:
            self._asking.now = False

    def _settle(self) -> None:
        with self._gate.closed(self.timeout):
            settle(self)
        self._gate.open()

    def _exchange(self, body: bytes) -> bytes:
        """The same, where no transaction of this thread is open."""
        raise NotImplementedError

    def _take(self) -> Held:
        """A connection for a transaction, which `_give` takes back."""
        raise NotImplementedError

    def _give(self, held: Held) -> None:
        raise NotImplementedError


class Session(Requests):
    """A session of a tenant: what `connect` and `start` give.

    It holds one connection for the length of a `with` block, and outside of one takes one for each request. Threads may share it: over
    a connection that is held they take turns. `timeout` is how many seconds a reply may take, None for any time.
    """

    def __init__(self, token: str, opened: Callable[[], Connection], timeout: Optional[float] = None) -> None:
        super().__init__(token, opened, timeout)
        self._held: Optional[Held] = None
        self._blocks = 0  # the with blocks that are open, one in the other
        self._turn = threading.RLock()
        self._is_own = False  # the server ends with the connection

    def _is_over(self) -> bool:
        return self._is_own and self._held is None

    def __enter__(self: Self) -> Self:
        self._take()
        return self

    def __exit__(self, kind: Optional[Type[BaseException]], fault: Optional[BaseException], trace: object) -> None:
        self._drop_left()
        self._end_block()

    def _end_block(self) -> None:
        with self._turn:
            self._blocks -= 1
            if self._blocks <= 0:
                self._let_go()

    def close(self) -> None:
        """Lets the connection go, if one is open."""
        if self._held is not None:
            self._drop_left()
        self._let_go()

    def _let_go(self) -> None:
        with self._turn:
            held, self._held, self._blocks = self._held, None, 0
        if held is not None:
            held.connection.close()

    def _exchange(self, body: bytes) -> bytes:
        with self._turn:
            if self._held is not None:
                return self._held.exchange(body, self.timeout)
        connection = self._opened()
        try:
            return connection.exchange(body, self.timeout)
        finally:
            connection.close()

    def _take(self) -> Held:
        with self._turn:
            if self._held is None:
                self._held = Held(self._opened)
            self._blocks += 1
            return self._held

    def _give(self, held: Held) -> None:
        self._end_block()


class Pool(Requests):
    """Requests of one token, over at most `size` connections that any number of threads share. A request waits until one is free, for
    `timeout` seconds at most, and as long for its reply. What `pool` gives; a `with` block closes all connections at its end."""

    def __init__(self, token: str, opened: Callable[[], Connection], size: int, timeout: Optional[float] = None) -> None:
        super().__init__(token, opened, timeout)
        if size < 1:
            raise ValueError("a pool has one connection at least")
        self._free = threading.Semaphore(size)
        self._idle: List[Held] = []
        self._lock = threading.Lock()

    def __enter__(self) -> "Pool":
        return self

    def __exit__(self, kind: Optional[Type[BaseException]], fault: Optional[BaseException], trace: object) -> None:
        self.close()

    def close(self) -> None:
        """Lets all connections go that no request is using."""
        self._drop_left()
        with self._lock:
            idle, self._idle = self._idle, []
        for held in idle:
            held.connection.close()

    def _exchange(self, body: bytes) -> bytes:
        held = self._take()
        try:
            return held.exchange(body, self.timeout)
        finally:
            self._give(held)

    def _take(self) -> Held:
        if not self._free.acquire(timeout=self.timeout):
            raise NotSent(f"no connection of the pool was free within {self.timeout:g} seconds")
        try:
            with self._lock:
                kept = self._idle.pop() if self._idle else None
            return kept or Held(self._opened)
        except BaseException:
            self._free.release()
            raise

    def _give(self, held: Held) -> None:
        try:
            if held.connection.is_lost:
                held.connection.close()
                return
            with self._lock:
                self._idle.append(held)
        finally:
            self._free.release()


def connect(
    where: Union[int, str],
    token: str,
    host: str = "127.0.0.1",
    timeout: Optional[float] = 60.0,
    *,
    ssl: Union[bool, tls.SSLContext, None] = None,
    wait: float = 0.0,
) -> Session:
    """A session of a server that listens. Connects when it is first used.

    `where` is a port, or an address "graphd://host:port", or "graphds://host:port" for TLS. `timeout` is how many seconds connecting
    and each reply may take, None for any time. `ssl` is True for TLS with the system's certificates, or a context. `wait` is for how
    many seconds to try where no server listens yet. Raises a ValueError for an address or a port that is none.
    """
    address = address_of(where, host, ssl, wait)
    return Session(token, lambda: address.opened(timeout), timeout)


def pool(
    where: Union[int, str],
    token: str,
    host: str = "127.0.0.1",
    timeout: Optional[float] = 60.0,
    *,
    size: int = 8,
    ssl: Union[bool, tls.SSLContext, None] = None,
    wait: float = 0.0,
) -> Pool:
    """Like `connect`, with at most `size` connections that threads share. A server that takes one connection at a time (`graphd serve`)
    answers one request of a pool of one; with `graphd_listen` a pool may be as large as its number of clients."""
    address = address_of(where, host, ssl, wait)
    return Pool(token, lambda: address.opened(timeout), size, timeout)


def start(command: Sequence[str], token: str, timeout: Optional[float] = None) -> Session:
    """A session of a server that the client starts, as `["graphd", "run", "config.json"]`. It keeps its graphs as long as it runs, which
    is for the length of a `with` block."""
    session = Session(token, lambda: ProgramConnection(command), timeout)
    session._is_own = True
    return session
