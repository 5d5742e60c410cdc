"""Connections to a server: over a socket, or to a program's standard input and output."""
from __future__ import annotations

import socket
import ssl
import struct
import subprocess
import threading
import time
from concurrent import futures
from queue import SimpleQueue
from typing import IO, List, Optional, Sequence, Tuple, Union, cast
from urllib.parse import urlsplit

from .refusals import ConnectionLost, NotGraphd, NotSent, TimedOut

PORT = 7687  # where an address tells none
MAX_BODY = 1_048_576  # bytes of a request's body
MAX_REPLY = 16_777_216 + 64  # bytes of a reply's body; a page's is a little longer


def framed(body: bytes) -> bytes:
    """The body behind its length in four bytes, the greatest first."""
    return struct.pack(">I", len(body)) + body


def length_of(header: bytes) -> int:
    """The length of a reply's body. Raises NotGraphd where no reply of graphd's is so long."""
    length = int.from_bytes(header, "big")
    if length > MAX_REPLY:
        raise NotGraphd(f"a reply of {length} bytes is none of graphd's")
    return length


class Connection:
    """One stream of requests and replies. `is_lost` tells that it can't be used again, and `may_reopen` that a request which wasn't sent
    may be sent over another one: the server closed this one, and serves the same graphs over all."""

    is_lost = False
    may_reopen = False

    def exchange(self, body: bytes, timeout: Optional[float]) -> bytes:
        """The body of the reply to a request's body. `timeout` is in seconds, None for none."""
        raise NotImplementedError

    def close(self) -> None:
        """Lets the connection go."""
        raise NotImplementedError


class Address:
    """Where a server listens: host, port, and how TLS is spoken, if it is. `wait` is for how many seconds to try while none listens."""

    def __init__(self, host: str, port: int, tls: Optional[ssl.SSLContext], wait: float) -> None:
        self.host, self.port, self.tls, self.wait = host, port, tls, wait

    def __str__(self) -> str:
        return f"[{self.host}]:{self.port}" if ":" in self.host else f"{self.host}:{self.port}"

    def opened(self, timeout: Optional[float]) -> "SocketConnection":
        """A connection. Raises NotSent where no server listens."""
        until = time.monotonic() + self.wait
        while True:
            try:
                return SocketConnection(self._socket(timeout))
            except OSError as fault:
                # a server that answers otherwise won't listen later either
                if not isinstance(fault, ConnectionRefusedError) or time.monotonic() >= until:
                    raise NotSent(f"no server answers on {self}: {reason_of(fault)}") from None
            time.sleep(0.05)

    def _socket(self, timeout: Optional[float]) -> socket.socket:
        plain = socket.create_connection((self.host, self.port), timeout)
        try:
            plain.setsockopt(socket.IPPROTO_TCP, socket.TCP_NODELAY, 1)
            return plain if self.tls is None else self.tls.wrap_socket(plain, server_hostname=self.host)
        except BaseException:
            plain.close()
            raise


def address_of(where: Union[int, str], host: str, tls: Union[bool, ssl.SSLContext, None], wait: float) -> Address:
    """The address of a port or of a text "graphd://host:port". Raises a ValueError where it is none."""
    port: Optional[int]
    if isinstance(where, str):
        told = urlsplit(where if "://" in where else f"graphd://{where}")
        if told.scheme not in ("graphd", "graphds") or not told.hostname or told.username or told.path.strip("/") or told.query:
            raise ValueError(f"{where}: an address is graphd://HOST:PORT, or graphds://HOST:PORT for TLS")
        host, port, tls = told.hostname, told.port or PORT, tls or told.scheme == "graphds"
    else:
        port = where
    if not 1 <= port <= 65535:
        raise ValueError(f"{port} is no port: ports are 1 to 65535")
    context = tls if isinstance(tls, ssl.SSLContext) else ssl.create_default_context() if tls else None
    return Address(host, port, context, wait)


def reason_of(fault: OSError) -> str:
    """What the system tells of a fault."""
    return fault.strerror or str(fault) or type(fault).__name__


class SocketConnection(Connection):
    """A connection to a server that listens. Whatever ends an exchange early, an interrupt too, leaves it lost, since the reply that is
    still under way would be taken for the next one's."""

    def __init__(self, opened: socket.socket) -> None:
        self._socket = opened

    def exchange(self, body: bytes, timeout: Optional[float]) -> bytes:
        until = None if timeout is None else time.monotonic() + timeout
        if self.is_lost or self._has_ended():
            self.is_lost = self.may_reopen = True
            raise NotSent("the server had closed the connection")
        self.is_lost = True
        self._send(framed(body), until)
        try:
            reply = self._take(length_of(self._take(4, until)), until)
        except socket.timeout:
            raise TimedOut(f"no reply within {timeout:g} seconds") from None
        except OSError as fault:
            raise ConnectionLost(f"the connection ended before the reply came: {reason_of(fault)}") from None
        self.is_lost = False
        return reply

    def _has_ended(self) -> bool:
        """Whether the server has ended the connection: then its end can be read before anything was asked."""
        self._socket.settimeout(0)
        try:
            self._socket.recv(1)
        except (BlockingIOError, ssl.SSLWantReadError):
            return False
        except OSError:
            pass
        return True

    def _send(self, frame: bytes, until: Optional[float]) -> None:
        try:
            self._limit(until)
            self._socket.sendall(frame)
        except socket.timeout:
            raise NotSent("the server takes no request in time") from None
        except OSError as fault:
            self.may_reopen = True
            raise NotSent(f"the connection ended before the request was sent: {reason_of(fault)}") from None

    def _take(self, count: int, until: Optional[float]) -> bytes:
        parts: List[bytes] = []
        while count:
            self._limit(until)
            part = self._socket.recv(min(count, 1 << 20))
            if not part:
                raise ConnectionLost("the server closed the connection before its reply was whole")
            parts.append(part)
            count -= len(part)
        return b"".join(parts)

    def _limit(self, until: Optional[float]) -> None:
        left = None if until is None else until - time.monotonic()
        if left is not None and left <= 0:
            raise socket.timeout()
        self._socket.settimeout(left)

    def close(self) -> None:
        self.is_lost = True
        self._socket.close()


Asked = Tuple[bytes, "futures.Future[bytes]"]


class ProgramConnection(Connection):
    """A server of one's own, over its standard input and output.

    A thread of its own sends each request and takes its reply. So whoever waits may be interrupted, or have waited long enough: the
    reply is dropped when it comes, and the next request is answered by its own. The program runs in a session of its own, so an
    interrupt typed at a terminal doesn't end it.
    """

    def __init__(self, command: Sequence[str]) -> None:
        pipe = subprocess.PIPE
        try:
            self._child = subprocess.Popen(command, stdin=pipe, stdout=pipe, stderr=pipe, start_new_session=True)
        except OSError as fault:
            raise NotSent(f"{command[0]} can't be started: {reason_of(fault)}") from None
        self._input, self._output = cast(IO[bytes], self._child.stdin), cast(IO[bytes], self._child.stdout)
        self._asked: "SimpleQueue[Optional[Asked]]" = SimpleQueue()
        self._last: "Optional[futures.Future[bytes]]" = None
        self._worker = threading.Thread(target=self._work, daemon=True)
        self._worker.start()

    def exchange(self, body: bytes, timeout: Optional[float]) -> bytes:
        try:
            return self.asked(body).result(timeout)
        except futures.TimeoutError:
            raise TimedOut(f"no reply within {timeout:g} seconds") from None

    def asked(self, body: bytes) -> "futures.Future[bytes]":
        """What will have the body of the reply to a request's body."""
        answer: "futures.Future[bytes]" = futures.Future()
        self._last = answer
        self._asked.put((framed(body), answer))
        return answer

    def _work(self) -> None:
        asked = self._asked.get()
        while asked is not None:
            frame, answer = asked
            try:
                answer.set_result(self._answered(frame))
            except Exception as fault:
                self.is_lost = True
                answer.set_exception(fault)
            asked = self._asked.get()

    def _answered(self, frame: bytes) -> bytes:
        if self.is_lost:
            raise NotSent("the server has ended, and its graphs with it")
        try:
            self._input.write(frame)
            self._input.flush()
        except OSError:
            raise ConnectionLost(self._last_words()) from None
        return self._take(length_of(self._take(4)))

    def _take(self, count: int) -> bytes:
        taken = self._output.read(count)
        if len(taken) < count:
            raise ConnectionLost(self._last_words())
        return taken

    def _last_words(self) -> str:
        """What the program told before it ended."""
        told = cast(IO[bytes], self._child.stderr).read().decode(errors="replace").strip()
        return told or f"graphd ended with status {self._child.wait()}"

    def close(self) -> None:
        """Lets the program end, with its graphs. One that is still at work is ended at once."""
        if self._last is not None and not self._last.done():
            self._child.kill()
        self._asked.put(None)
        self._worker.join()
        for stream in (self._input, self._output, cast(IO[bytes], self._child.stderr)):
            try:
                stream.close()
            except OSError:
                pass  # what it hadn't taken is of no use any more
        self._child.wait()
        self.is_lost = True
