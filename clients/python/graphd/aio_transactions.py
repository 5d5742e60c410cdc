"""Transactions for asyncio, as in `graphd.transactions`."""
from __future__ import annotations

import asyncio
import contextlib
from contextvars import ContextVar
from typing import TYPE_CHECKING, Awaitable, Callable, List, Optional, Tuple, Type

from .aio_waiting import within
from .refusals import ConnectionLost, GraphdError, NoTransaction, NotSent, OutOfMemory, Refused, TransactionOpen
from .requests import body_of, told_by
from .transactions import ENDED, IN_DOUBT, PATIENCE, PAUSE

if TYPE_CHECKING:
    from .aio import Connection, Requests

# the transactions in whose blocks a task runs, also one that was started there
_inside: "ContextVar[Tuple[Transaction, ...]]" = ContextVar("graphd transactions", default=())


class Held:
    """A connection that is kept for several requests. It is opened anew where the server closed it before a request was sent, except in
    a transaction, of which the server then keeps nothing."""

    def __init__(self, opened: "Callable[[], Awaitable[Connection]]", connection: "Connection") -> None:
        self._opened = opened
        self.connection = connection
        self.is_in_transaction = False

    async def exchange(self, body: bytes, timeout: Optional[float]) -> bytes:
        """The body of the reply to a request's body. `timeout` is in seconds, None for none."""
        try:
            return await self.connection.exchange(body, timeout)
        except NotSent:
            if not self.connection.may_reopen:
                raise
            if self.is_in_transaction:
                raise NotSent(ENDED) from None
        await self.connection.close()
        self.connection = await self._opened()
        return await self.connection.exchange(body, timeout)


class Gate:
    """Lets requests through, those of all tasks at once, or those of one transaction's block alone."""

    def __init__(self) -> None:
        self._asking = 0  # requests that are under way
        self._owner: Optional[object] = None  # the transaction that is alone
        self._waiting: "List[asyncio.Future[None]]" = []
        self.is_in_doubt = False  # whether a transaction may still be open whose connection was lost

    def mine(self) -> "Optional[Transaction]":
        """The transaction in whose block this task runs, open or ended."""
        return next((it for it in _inside.get() if it.gate is self), None)

    async def enter(self, timeout: Optional[float]) -> None:
        """Before a request. Raises NotSent where a transaction of others is open for longer than `timeout` seconds."""
        await self._until(lambda: self._owner is None, timeout)
        self._asking += 1

    def leave(self) -> None:
        """After a request."""
        self._asking -= 1
        self._wake()

    async def close(self, owner: object, timeout: Optional[float]) -> None:
        """Lets a transaction's requests alone through, once what others asked is answered. Raises NotSent where that takes longer than
        `timeout` seconds."""
        await self._until(lambda: self._owner is None, timeout)
        self._owner = owner
        try:
            await self._until(lambda: self._asking == 0, timeout)
        except BaseException:
            self.open()
            raise

    def open(self) -> None:
        """Lets all requests through again."""
        self._owner = None
        self._wake()

    def _wake(self) -> None:
        for waiter in self._waiting:
            if not waiter.done():
                waiter.set_result(None)

    async def _until(self, holds: Callable[[], bool], timeout: Optional[float]) -> None:
        loop = asyncio.get_running_loop()
        until = None if timeout is None else loop.time() + timeout
        while not holds():
            waiter = loop.create_future()
            self._waiting.append(waiter)
            try:
                await within(waiter, None if until is None else until - loop.time())
            except asyncio.TimeoutError:
                raise NotSent(f"another task's request or transaction didn't end within {timeout:g} seconds") from None
            finally:
                self._waiting.remove(waiter)


class Transaction:
    """A transaction: what `transaction()` of a session or a pool gives, for one `async with` block. `is_open` tells that it has begun
    and not ended."""

    def __init__(self, requests: "Requests", gate: Gate) -> None:
        self.is_open = False
        self.gate = gate
        self._requests = requests
        self._held: Optional[Held] = None
        self._turn: Optional[asyncio.Lock] = None  # of the tasks of the block, made in the loop that it is for

    @property
    def is_lost(self) -> bool:
        """Whether it is open no longer than until the server sees that its connection has ended."""
        return self._held is not None and self._held.connection.is_lost

    async def __aenter__(self) -> "Transaction":
        if self.gate.mine() is not None:
            raise TransactionOpen()
        await self.gate.close(self, self._requests.timeout)
        try:
            self._turn = asyncio.Lock()
            await settle(self._requests, self.gate)
            self._held = await self._requests._take()
            try:
                await self._begin()
            except BaseException:
                await self._give_back(self._held)
                raise
        except BaseException:
            self.gate.open()
            raise
        self._held.is_in_transaction = self.is_open = True
        _inside.set((*_inside.get(), self))
        return self

    async def __aexit__(self, kind: Optional[Type[BaseException]], fault: Optional[BaseException], trace: object) -> None:
        self._leave_block()
        if self.is_open and kind is None:
            await self.commit()
        elif self.is_open:
            # (what left the block is told, and not what came of the rollback; the end of a connection rolls back too)
            with contextlib.suppress(GraphdError):
                await self.rollback()

    async def commit(self) -> None:
        """Has all that was changed take effect, before the end of the block.

        Raises NoTransaction where it has ended, a ConnectionLost where no reply came: whether the changes took effect isn't known then,
        but for NotSent. Where it is refused, it is rolled back."""
        await self._end("commit")

    async def rollback(self) -> None:
        """Undoes all that was changed, before the end of the block, and the ids that were given. Raises as `commit` does."""
        await self._end("rollback")

    async def exchange(self, body: bytes, timeout: Optional[float]) -> bytes:
        """The reply's body to a request's body, asked in the block. The tasks of the block take turns. Raises NotSent where it has ended."""
        if self._turn is not None:
            async with self._turn:
                if self.is_open and self._held is not None:
                    return await self._held.exchange(body, timeout)
        raise NotSent("the transaction in whose block this task was started has ended")

    async def _begin(self) -> None:
        try:
            await self._ask("begin")
        except (Refused, NotSent):
            raise
        except BaseException:
            # (it may have begun in a server that goes on)
            with contextlib.suppress(GraphdError):
                await self._ask("rollback")
            raise

    async def _end(self, op: str) -> None:
        held, turn = self._held, self._turn
        if not self.is_open or held is None or turn is None:
            raise NoTransaction()
        self._leave_block()
        try:
            async with turn:
                if not self.is_open:
                    raise NoTransaction()
                await self._end_by(op)
        finally:
            if self.is_open:
                self.is_open = False
                await self._give_back(held)
                self.gate.open()
        await self._requests._drop_left()

    async def _end_by(self, op: str) -> None:
        try:
            await self._ask(op)
        except OutOfMemory:
            # (it is open yet)
            with contextlib.suppress(GraphdError):
                await self._ask("rollback")
            raise

    def _leave_block(self) -> None:
        _inside.set(tuple(it for it in _inside.get() if it is not self))

    async def _give_back(self, held: Held) -> None:
        held.is_in_transaction = False
        if held.connection.is_lost:
            # (the server has yet to see its end, and what came over it)
            self.gate.is_in_doubt = True
            await held.connection.close()
        await self._requests._give(held)

    async def _ask(self, op: str) -> None:
        if self._held is not None:
            await asked(self._requests, self._held, op)


async def asked(requests: "Requests", held: Held, op: str) -> None:
    """Asks a request that has a token alone, over a connection. Raises a Refused where it is refused."""
    told_by(await held.exchange(body_of({"op": op}, requests.token), requests.timeout))


async def settle(requests: "Requests", gate: Gate) -> None:
    """Waits until the server has ended a transaction whose connection was lost, as `graphd.transactions.settle` does."""
    if not gate.is_in_doubt:
        return
    held = await requests._take()
    try:
        await _settle(requests, held)
    except OutOfMemory:
        raise NotSent(IN_DOUBT) from None
    except NotSent:
        raise
    except ConnectionLost:
        raise NotSent(IN_DOUBT) from None
    except Refused:
        pass  # (no transaction of this token is open)
    finally:
        await requests._give(held)
    gate.is_in_doubt = False


async def _settle(requests: "Requests", held: Held) -> None:
    loop = asyncio.get_running_loop()
    until = loop.time() + PATIENCE
    while True:
        try:
            await asked(requests, held, "begin")
            break
        except TransactionOpen:
            if loop.time() >= until:
                break  # (a server that doesn't roll back at the end of a connection, but serves one after the other)
        await asyncio.sleep(PAUSE)
    await asked(requests, held, "rollback")
