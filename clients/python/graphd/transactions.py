"""Transactions: requests of which all take effect, or none."""
from __future__ import annotations

import contextlib
import threading
import time
from typing import TYPE_CHECKING, Callable, Iterator, Optional, Type

from .connections import Connection
from .refusals import ConnectionLost, GraphdError, NoTransaction, NotSent, OutOfMemory, Refused, TransactionOpen
from .requests import body_of, told_by

if TYPE_CHECKING:
    from .sessions import Requests

ENDED = "the connection ended, and with it the transaction: graphd_listen has rolled it back"
IN_DOUBT = "whether the server has ended the transaction before, whose connection was lost, isn't known yet"
PATIENCE = 5.0  # seconds in which a server that rolls back at the end of a connection has seen this end
PAUSE = 0.02  # seconds between two looks


class Held:
    """A connection that is kept for several requests. It is opened anew where the server closed it before a request was sent, except in
    a transaction, of which the server then keeps nothing."""

    def __init__(self, opened: Callable[[], Connection]) -> None:
        self._opened = opened
        self.connection = opened()
        self.is_in_transaction = False

    def exchange(self, body: bytes, timeout: Optional[float]) -> bytes:
        """The body of the reply to a request's body. `timeout` is in seconds, None for none."""
        try:
            return self.connection.exchange(body, timeout)
        except NotSent:
            if not self.connection.may_reopen:
                raise
            if self.is_in_transaction:
                raise NotSent(ENDED) from None
        self.connection.close()
        self.connection = self._opened()
        return self.connection.exchange(body, timeout)


class Gate:
    """Lets requests through, those of all threads at once, or those of one alone while its transaction is open."""

    def __init__(self) -> None:
        self._changed = threading.Condition()
        self._asking = 0  # requests that are under way
        self._owner: Optional[int] = None  # the thread that is alone
        self._held: Optional[Held] = None  # and its connection
        self.is_in_doubt = False  # whether a transaction may still be open whose connection was lost

    def mine(self) -> Optional[Held]:
        """The connection of this thread's transaction, if one is open."""
        return self._held if self.is_mine() else None

    def is_mine(self) -> bool:
        """Whether this thread is alone."""
        return self._owner == threading.get_ident()

    @contextlib.contextmanager
    def passed(self, timeout: Optional[float]) -> Iterator[bool]:
        """For the length of a request, which may be asked where it gives true: no transaction is in doubt. Raises NotSent where another
        thread is alone for longer than `timeout` seconds."""
        with self._changed:
            self._wait(lambda: self._owner is None, timeout)
            self._asking += 1
        try:
            yield not self.is_in_doubt
        finally:
            with self._changed:
                self._asking -= 1
                self._changed.notify_all()

    @contextlib.contextmanager
    def closed(self, timeout: Optional[float]) -> Iterator[None]:
        """Lets this thread alone through, once what others asked is answered. Raises NotSent where that takes longer than `timeout` seconds.
        It stays so behind the block, until `open`, where no exception leaves it."""
        with self._changed:
            self._wait(lambda: self._owner is None, timeout)
            self._owner = threading.get_ident()
        try:
            with self._changed:
                self._wait(lambda: self._asking == 0, timeout)
            yield
        except BaseException:
            self.open()
            raise

    def hold(self, held: Held) -> None:
        """Has this thread's requests go over a connection."""
        self._held = held

    def open(self) -> None:
        """Lets all threads through again."""
        with self._changed:
            self._owner = self._held = None
            self._changed.notify_all()

    def _wait(self, holds: Callable[[], bool], timeout: Optional[float]) -> None:
        if not self._changed.wait_for(holds, timeout):
            raise NotSent(f"another thread's request or transaction didn't end within {timeout:g} seconds")


class Transaction:
    """A transaction: what `transaction()` of a session or a pool gives, for one `with` block. `is_open` tells that it has begun and not
    ended."""

    def __init__(self, requests: "Requests") -> None:
        self.is_open = False
        self._requests = requests
        self._held: Optional[Held] = None

    @property
    def is_lost(self) -> bool:
        """Whether it is open no longer than until the server sees that its connection has ended."""
        return self._held is not None and self._held.connection.is_lost

    def __enter__(self) -> "Transaction":
        gate = self._requests._gate
        if gate.mine() is not None:
            raise TransactionOpen()
        with gate.closed(self._requests.timeout):
            settle(self._requests)
            held = self._held = self._requests._take()
            try:
                self._begin()
            except BaseException:
                self._give_back(held)
                raise
            held.is_in_transaction = self.is_open = True
            gate.hold(held)
        return self

    def __exit__(self, kind: Optional[Type[BaseException]], fault: Optional[BaseException], trace: object) -> None:
        if self.is_open and kind is None:
            self.commit()
        elif self.is_open:
            # (what left the block is told, and not what came of the rollback; the end of a connection rolls back too)
            with contextlib.suppress(GraphdError):
                self.rollback()

    def commit(self) -> None:
        """Has all that was changed take effect, before the end of the block.

        Raises NoTransaction where it has ended, a ConnectionLost where no reply came: whether the changes took effect isn't known then,
        but for NotSent. Where it is refused, it is rolled back."""
        self._end("commit")

    def rollback(self) -> None:
        """Undoes all that was changed, before the end of the block, and the ids that were given. Raises as `commit` does."""
        self._end("rollback")

    def _begin(self) -> None:
        try:
            self._ask("begin")
        except (Refused, NotSent):
            raise
        except BaseException:
            # (it may have begun in a server that goes on)
            with contextlib.suppress(GraphdError):
                self._ask("rollback")
            raise

    def _end(self, op: str) -> None:
        held = self._held
        if not self.is_open or held is None:
            raise NoTransaction()
        try:
            self._ask(op)
        except OutOfMemory:
            # (it is open yet)
            with contextlib.suppress(GraphdError):
                self._ask("rollback")
            raise
        finally:
            self.is_open = False
            self._give_back(held)
            self._requests._gate.open()
        self._requests._drop_left()

    def _give_back(self, held: Held) -> None:
        held.is_in_transaction = False
        if held.connection.is_lost:
            # (the server has yet to see its end, and what came over it)
            self._requests._gate.is_in_doubt = True
            held.connection.close()
        self._requests._give(held)

    def _ask(self, op: str) -> None:
        if self._held is not None:
            asked(self._requests, self._held, op)


def asked(requests: "Requests", held: Held, op: str) -> None:
    """Asks a request that has a token alone, over a connection. Raises a Refused where it is refused."""
    told_by(held.exchange(body_of({"op": op}, requests.token), requests.timeout))


def settle(requests: "Requests") -> None:
    """Waits until the server has ended a transaction whose connection was lost. What is asked before would be a part of it and be rolled
    back with it; a rollback might come before what was asked over that connection. Raises NotSent where it can't be had."""
    if not requests._gate.is_in_doubt:
        return
    held = requests._take()
    try:
        _settle(requests, held)
    except OutOfMemory:
        raise NotSent(IN_DOUBT) from None
    except NotSent:
        raise
    except ConnectionLost:
        raise NotSent(IN_DOUBT) from None
    except Refused:
        pass  # (no transaction of this token is open)
    finally:
        requests._give(held)
    requests._gate.is_in_doubt = False


def _settle(requests: "Requests", held: Held) -> None:
    until = time.monotonic() + PATIENCE
    while True:
        try:
            asked(requests, held, "begin")
            break
        except TransactionOpen:
            if time.monotonic() >= until:
                break  # (a server that doesn't roll back at the end of a connection, but serves one after the other)
        time.sleep(PAUSE)
    asked(requests, held, "rollback")
