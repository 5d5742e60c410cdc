"""The client for asyncio, by the same words.

    from graphd import aio

    async with aio.connect(7687, "a1") as graph:
        found = await graph.query("MATCH (n:Service) RETURN n.name AS name")
        print(found.data())

Tasks may share a session, in turns; a pool lets them ask at once. What is awaited may be cancelled: the request may then take effect all
the same, and the next one is answered by its own reply.
"""
from __future__ import annotations

import asyncio
import contextlib
import ssl as tls
from typing import Any, Awaitable, Callable, Dict, List, Mapping, Optional, Sequence, Set, Type, TypeVar, Union

from .aio_pages import Stream
from .aio_transactions import Gate, Held, Transaction, settle
from .aio_waiting import within
from .answers import Result, Status
from .connections import Address, ProgramConnection, address_of, framed, length_of, reason_of
from .pages import PAGE, checked_size, columns_of, may_be_held, number_of
from .refusals import ConnectionLost, GraphdError, NotSent, Refused, TimedOut
from .requests import body_of, checked_token, pulled_of, query_of, result_of, status_of, told_by
from .values import Parameter

Self = TypeVar("Self", bound="Requests")


class Connection:
    """One stream of requests and replies, as in `graphd`: `is_lost` tells that it can't be used again, and `may_reopen` that a request
    which wasn't sent may be sent over another one."""

    is_lost = False
    may_reopen = False

    async def exchange(self, body: bytes, timeout: Optional[float]) -> bytes:
        """The body of the reply to a request's body. `timeout` is in seconds, None for none."""
        raise NotImplementedError

    async def close(self) -> None:
        """Lets the connection go."""
        raise NotImplementedError


class StreamConnection(Connection):
    """A connection to a server that listens. Whatever ends an exchange early leaves it lost."""

    def __init__(self, reader: asyncio.StreamReader, writer: asyncio.StreamWriter) -> None:
        self._reader, self._writer = reader, writer

    async def exchange(self, body: bytes, timeout: Optional[float]) -> bytes:
        # (the end of a connection is seen in a turn of the loop, and told in the next)
        await asyncio.sleep(0)
        await asyncio.sleep(0)
        if self.is_lost or self._reader.at_eof() or self._writer.is_closing():
            self.is_lost = self.may_reopen = True
            raise NotSent("the server had closed the connection")
        self.is_lost = True
        try:
            reply = await within(self._exchange(framed(body)), timeout)
        except asyncio.TimeoutError:
            if self._writer.transport.get_write_buffer_size():
                raise NotSent("the server takes no request in time") from None
            raise TimedOut(f"no reply within {timeout:g} seconds") from None
        except asyncio.IncompleteReadError:
            raise ConnectionLost("the server closed the connection before its reply was whole") from None
        except OSError as fault:
            raise ConnectionLost(f"the connection ended before the reply came: {reason_of(fault)}") from None
        self.is_lost = False
        return reply

    async def _exchange(self, frame: bytes) -> bytes:
        self._writer.write(frame)
        await self._writer.drain()
        return await self._reader.readexactly(length_of(await self._reader.readexactly(4)))

    async def close(self) -> None:
        self.is_lost = True
        # (what wasn't sent is dropped: nobody waits for its reply)
        self._writer.transport.abort()


class OwnConnection(Connection):
    """A server of one's own, over its standard input and output. A reply that nobody waits for any more is dropped."""

    def __init__(self, command: Sequence[str]) -> None:
        self._program = ProgramConnection(command)

    async def exchange(self, body: bytes, timeout: Optional[float]) -> bytes:
        answer = asyncio.wrap_future(self._program.asked(body))
        try:
            return await within(asyncio.shield(answer), timeout)
        except asyncio.TimeoutError:
            raise TimedOut(f"no reply within {timeout:g} seconds") from None
        finally:
            self.is_lost = self._program.is_lost
            # (a fault that comes later is nobody's)
            answer.add_done_callback(lambda done: done.cancelled() or done.exception())

    async def close(self) -> None:
        await asyncio.get_running_loop().run_in_executor(None, self._program.close)


async def _opened(address: Address, timeout: Optional[float]) -> Connection:
    """A connection to an address. Raises NotSent where no server listens."""
    loop = asyncio.get_running_loop()
    until = loop.time() + address.wait
    while True:
        try:
            name = address.host if address.tls else None
            opening = asyncio.open_connection(address.host, address.port, ssl=address.tls, server_hostname=name)
            return StreamConnection(*await within(opening, timeout, lambda opened: opened[1].transport.abort()))
        except asyncio.TimeoutError:
            raise NotSent(f"no server answers on {address} within {timeout:g} seconds") from None
        except OSError as fault:
            if not isinstance(fault, ConnectionRefusedError) or loop.time() >= until:
                raise NotSent(f"no server answers on {address}: {reason_of(fault)}") from None
        await asyncio.sleep(0.05)


Opened = Callable[[], Awaitable[Connection]]


class Requests:
    """The requests that a token may make, each to be awaited. Each takes effect whole or not at all, and raises a Refused where the server
    refuses it, a ConnectionLost where no reply came."""

    def __init__(self, token: str, opened: Opened, timeout: Optional[float]) -> None:
        self.token = checked_token(token)
        self.timeout = timeout
        self._opened = opened
        self._gate = Gate()
        self._left: List[int] = []  # pages that are to be dropped
        self._drops: "Set[asyncio.Task[None]]" = set()  # what drops them

    async def query(self, text: str, params: Optional[Mapping[str, Parameter]] = None, /, **named: Parameter) -> Result:
        """Asks a query, and gives its columns, rows and steps. Its parameters `$name` are given as a dict, by name, or both ways.

        Raises a TypeError or a ValueError, and sends nothing, where the text is none or a parameter is no value of graphd's.
        """
        return await self._answered(*query_of(text, params, named))

    async def _answered(self, request: Mapping[str, Any], given: Mapping[str, Any]) -> Result:
        """What a query's request is answered, which has these parameters."""
        try:
            told = await self.ask(request)
        except Refused as fault:
            raise fault.of_query(request["text"], given) from None
        return result_of(told)

    def stream(self, text: str, params: Optional[Mapping[str, Parameter]] = None, /, *, page: int = PAGE, **named: Parameter) -> Stream:
        """The rows of a query one after the other, of which the server sends so many at a time, 1 to 10,000.

            async for row in graph.stream("MATCH (n:Service) RETURN n", page=100):
                ..

        They are those of the graph as it is when the first is taken, whatever changes later. The server holds the others until they are
        taken, or the stream is left, by a `break` too; they count for the tenant's `max_held`. A parameter `$page` is passed in the dict.

        Raises what `query_page` raises, when the first row is taken."""
        return Stream(self, *query_of(text, params, named, checked_size(page)))

    async def query_page(self, text: str, size: int, params: Optional[Mapping[str, Parameter]] = None, /, **named: Parameter) -> Result:
        """Asks a query, of whose rows at most so many come at a time, 1 to 10,000: the first ones. The result's `page` is the number under
        which the tenant holds the others for this token, for `pull` and `drop_page`, or None where none is left.

        Raises as `query` does, HeldRowsQuota where the tenant would hold more rows than its `max_held`, and TransactionOpen in a
        transaction, which has no pages."""
        return await self._answered(*query_of(text, params, named, checked_size(size)))

    async def pull(self, page: Union[int, Result]) -> Result:
        """The next rows of a page, named by its number or by the result before: then the columns have their names. The result's `page` is
        None where no more are left.

        Raises NoSuchPage where this token holds no such page, and TransactionOpen in a transaction. Where no reply came, whether rows are
        lost isn't known."""
        return await self._pulled(number_of(page), columns_of(page))

    async def _pulled(self, number: int, columns: List[str]) -> Result:
        return pulled_of(await self.ask({"op": "pull", "page": number}), columns)

    async def drop_page(self, page: Union[int, Result]) -> None:
        """Drops the rows that are held under a number, or after a result. Raises NoSuchPage where this token holds no such page, and
        TransactionOpen in a transaction."""
        await self.ask({"op": "drop_page", "page": number_of(page)})

    def _start_drops(self) -> None:
        """Drops the pages that were left, by a task."""
        task = asyncio.get_running_loop().create_task(self._drop_left())
        self._drops.add(task)
        task.add_done_callback(self._drops.discard)

    async def _drop_left(self) -> None:
        """Drops the pages that were left. Those that can't be dropped yet are tried again at the next request."""
        if self._is_over():
            self._left.clear()
        for number in [*self._left]:
            if self._gate.mine() is not None:
                return
            try:
                told_by(await self._asked(body_of({"op": "drop_page", "page": number}, self.token)))
            except GraphdError as fault:
                if may_be_held(fault):
                    return
            with contextlib.suppress(ValueError):
                self._left.remove(number)

    def _is_over(self) -> bool:
        """Whether the server has ended that held the pages."""
        return False

    async def _end_drops(self) -> None:
        """Drops the pages that were left, before the connections end."""
        if self._drops:
            await asyncio.wait(set(self._drops), timeout=self.timeout)
        await self._drop_left()

    async def status(self) -> Status:
        """What the tenant has and may have. Costs no steps."""
        return status_of(await self.ask({"op": "status"}))

    async def create_index(self, label: str, key: str) -> None:
        """Keeps the nodes with the label findable by this property, at most 16 such pairs. Raises IndexExists where it is there,
        TransactionOpen in a transaction."""
        await self.ask({"op": "create_index", "label": label, "key": key})

    async def drop_index(self, label: str, key: str) -> None:
        """Takes an index back. Raises NoSuchIndex where it isn't there, TransactionOpen in a transaction."""
        await self.ask({"op": "drop_index", "label": label, "key": key})

    def transaction(self) -> Transaction:
        """A transaction, for an `async with` block: what is asked in it takes effect together at its end, or not at all where an
        exception leaves it.

            async with graph.transaction():
                await graph.query(..)
                await graph.query(..)

        It goes over one connection, for this task and those that are started in the block. A refused query is undone alone, and the
        transaction goes on where its exception is caught. Until the end other tasks wait with what they ask of this session, at most
        `timeout` seconds (then NotSent), and the tenant's other tokens are refused (TenantBusy). All clients of one token are in its
        transaction: give each that has transactions a token of its own.

        To enter raises ReadOnly where the token may not write, TenantBusy or TransactionOpen where one is open, of another token or of
        this one. To leave raises as `Transaction.commit` does."""
        return Transaction(self, self._gate)

    async def ask(self, request: Mapping[str, Any]) -> Dict[str, Any]:
        """Sends a request, to which its token is added, and gives the reply's object."""
        return told_by(await self.exchange(body_of(request, self.token)))

    async def exchange(self, body: bytes) -> bytes:
        """The reply's body to a request's body, both as bytes. A request is sent again only where it wasn't sent."""
        transaction = self._gate.mine()
        if transaction is not None:
            return await transaction.exchange(body, self.timeout)
        await self._drop_left()
        return await self._asked(body)

    async def _asked(self, body: bytes) -> bytes:
        """The same, outside of a transaction's block."""
        while True:
            await self._gate.enter(self.timeout)
            try:
                if not self._gate.is_in_doubt:
                    return await self._exchange(body)
            finally:
                self._gate.leave()
            await self._settle()

    async def _settle(self) -> None:
        await self._gate.close(self, self.timeout)
        try:
            await settle(self, self._gate)
        finally:
            self._gate.open()

    async def _exchange(self, body: bytes) -> bytes:
        """The same, outside of transactions."""
        raise NotImplementedError

    async def _take(self) -> Held:
        """A connection for a transaction, which `_give` takes back."""
        raise NotImplementedError

    async def _give(self, held: Held) -> None:
        raise NotImplementedError

    async def close(self) -> None:
        """Lets all connections go."""
        raise NotImplementedError

    async def __aenter__(self: Self) -> Self:
        return self

    async def __aexit__(self, kind: Optional[Type[BaseException]], fault: Optional[BaseException], trace: object) -> None:
        await self.close()


class Session(Requests):
    """A session of a tenant: what `connect` and `start` give. It holds one connection for the length of an `async with` block, over which
    tasks take turns, and outside of one takes one for each request."""

    def __init__(self, token: str, opened: Opened, timeout: Optional[float] = None) -> None:
        super().__init__(token, opened, timeout)
        self._held: Optional[Held] = None
        self._blocks = 0
        self._lock: Optional[asyncio.Lock] = None  # made in the loop that it is for
        self._is_own = False  # the server ends with the connection

    def _is_over(self) -> bool:
        return self._is_own and self._held is None

    def _turn(self) -> asyncio.Lock:
        if self._lock is None:
            self._lock = asyncio.Lock()
        return self._lock

    async def __aenter__(self) -> "Session":
        await self._take()
        return self

    async def __aexit__(self, kind: Optional[Type[BaseException]], fault: Optional[BaseException], trace: object) -> None:
        await self._end_drops()
        await self._end_block()

    async def _end_block(self) -> None:
        self._blocks -= 1
        if self._blocks <= 0:
            await self._let_go()

    async def close(self) -> None:
        if self._held is not None:
            await self._end_drops()
        await self._let_go()

    async def _let_go(self) -> None:
        held, self._held, self._blocks, self._lock = self._held, None, 0, None
        if held is not None:
            await held.connection.close()

    async def _exchange(self, body: bytes) -> bytes:
        if self._held is None:
            connection = await self._opened()
            try:
                return await connection.exchange(body, self.timeout)
            finally:
                await connection.close()
        async with self._turn():
            if self._held is None:
                raise NotSent("the session was closed")
            return await self._held.exchange(body, self.timeout)

    async def _take(self) -> Held:
        async with self._turn():
            if self._held is None:
                self._held = Held(self._opened, await self._opened())
            self._blocks += 1
            return self._held

    async def _give(self, held: Held) -> None:
        await self._end_block()


class Pool(Requests):
    """Requests of one token, over at most `size` connections that any number of tasks share: what `pool` gives."""

    def __init__(self, token: str, opened: Opened, size: int, timeout: Optional[float] = None) -> None:
        super().__init__(token, opened, timeout)
        if size < 1:
            raise ValueError("a pool has one connection at least")
        self._size = size
        self._free: Optional[asyncio.Semaphore] = None  # made in the loop that it is for
        self._idle: List[Held] = []

    async def close(self) -> None:
        await self._end_drops()
        idle, self._idle = self._idle, []
        for held in idle:
            await held.connection.close()

    async def _exchange(self, body: bytes) -> bytes:
        held = await self._take()
        try:
            return await held.exchange(body, self.timeout)
        finally:
            await self._give(held)

    async def _take(self) -> Held:
        free = self._free = self._free or asyncio.Semaphore(self._size)
        try:
            await within(free.acquire(), self.timeout, lambda acquired: free.release())
        except asyncio.TimeoutError:
            raise NotSent(f"no connection of the pool was free within {self.timeout:g} seconds") from None
        try:
            return self._idle.pop() if self._idle else Held(self._opened, await self._opened())
        except BaseException:
            free.release()
            raise

    async def _give(self, held: Held) -> None:
        if held.connection.is_lost:
            with contextlib.suppress(OSError):
                await held.connection.close()
        else:
            self._idle.append(held)
        if self._free is not None:
            self._free.release()


def connect(
    where: Union[int, str],
    token: str,
    host: str = "127.0.0.1",
    timeout: Optional[float] = 60.0,
    *,
    ssl: Union[bool, tls.SSLContext, None] = None,
    wait: float = 0.0,
) -> Session:
    """A session of a server that listens, with the words of `graphd.connect`. Connects when it is first used."""
    address = address_of(where, host, ssl, wait)
    return Session(token, lambda: _opened(address, timeout), timeout)


def pool(
    where: Union[int, str],
    token: str,
    host: str = "127.0.0.1",
    timeout: Optional[float] = 60.0,
    *,
    size: int = 8,
    ssl: Union[bool, tls.SSLContext, None] = None,
    wait: float = 0.0,
) -> Pool:
    """Like `connect`, with at most `size` connections that tasks share."""
    address = address_of(where, host, ssl, wait)
    return Pool(token, lambda: _opened(address, timeout), size, timeout)


def start(command: Sequence[str], token: str, timeout: Optional[float] = None) -> Session:
    """A session of a server that the client starts, as `["graphd", "run", "config.json"]`. It keeps its graphs for the length of an
    `async with` block."""

    async def opened() -> Connection:
        return OwnConnection(command)

    session = Session(token, opened, timeout)
    session._is_own = True
    return session
