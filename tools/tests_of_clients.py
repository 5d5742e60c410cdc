"""What the tests of the clients share: the programs that they run, servers for many clients, shells, and a terminal."""
import contextlib
import fcntl
import json
import os
import re
import select
import signal
import socket
import subprocess
import sys
import tempfile
import termios
import threading
import time
from pathlib import Path

import client_path  # (finds the package graphd)
import graphd
import graphd.aio_transactions
import graphd.transactions
from graphd_program import ROOT
from machine import SECONDS, Gate, comes, state_of

CONFIG = ROOT / "examples" / "first.json"
SHELL = [sys.executable, str(ROOT / "tools" / "graphsh")]
SLOW = "/*slow*/"  # a text with this waits at the gate of `slowed` and of a `Relay`
LATE = 1  # seconds that a client waits for a reply which doesn't come
# (how long a client waits for what a server on a busy machine has yet to see)
graphd.transactions.PATIENCE = graphd.aio_transactions.PATIENCE = SECONDS


class Given:
    program = listener = None


def command(config=CONFIG):
    return [str(Given.program), "run", str(config)]


def environment(**more):
    """An environment in which every tool takes the program that is tested, and no history is touched."""
    kept = {name: value for name, value in os.environ.items() if name not in ("GRAPHD_TOKEN", "PAGER", "COLUMNS")}
    return {**kept, "GRAPHD_PROGRAM": str(Given.program), "HOME": "/nonexistent", "TERM": "dumb", **more}


@contextlib.contextmanager
def folder():
    with tempfile.TemporaryDirectory(prefix="check-clients-") as made:
        yield Path(made)


def configuration(folder, tenants, elements=1000, steps=1000):
    """The file of a configuration of so many tenants, each with one token, t0, t1, .."""
    told = [
        {"name": f"T{n}", "max_steps": steps, "max_elements": elements, "tokens": [{"token": f"t{n}", "rights": "write"}]}
        for n in range(tenants)
    ]
    path = folder / "config.json"
    path.write_text(json.dumps({"cache": 4, "tenants": told}))
    return path


RELAY = '''#!{python} -B
"""Hands frames to graphd one by one, and those with {slow} once they are let go."""
import subprocess, sys
from pathlib import Path
sys.path.insert(0, {tools!r})
from machine import Gate
pipe = subprocess.PIPE
child = subprocess.Popen([{program!r}, *sys.argv[1:]], stdin=pipe, stdout=pipe)
while True:
    head = sys.stdin.buffer.read(4)
    body = sys.stdin.buffer.read(int.from_bytes(head, "big"))
    if not head:
        break
    if {slow!r}.encode() in body:
        Gate(Path({folder!r})).hold()
    child.stdin.write(head + body)
    child.stdin.flush()
    head = child.stdout.read(4)
    sys.stdout.buffer.write(head + child.stdout.read(int.from_bytes(head, "big")))
    sys.stdout.buffer.flush()
'''


def slowed(gate):
    """A program that answers as graphd does, and to some texts once they are let go."""
    folder = gate.file.parent
    path, tools = folder / "slowed", str(ROOT / "tools")
    path.write_text(RELAY.format(python=sys.executable, program=str(Given.program), slow=SLOW, tools=tools, folder=str(folder)))
    path.chmod(0o700)
    return path


class Server:
    def __init__(self, child, port):
        self.child, self.port = child, port

    def sockets(self):
        """How many connections it holds, and how many sockets it listens at."""
        found = 0
        for file in os.listdir(f"/proc/{self.child.pid}/fd"):
            with contextlib.suppress(OSError):
                found += os.readlink(f"/proc/{self.child.pid}/fd/{file}").startswith("socket:")
        return found


@contextlib.contextmanager
def reserved_port():
    """A port at which nobody listens, and that the system gives to nobody. A server that begins to listen there may have it."""
    with socket.socket() as it:
        it.setsockopt(socket.SOL_SOCKET, socket.SO_REUSEADDR, 1)
        it.bind(("127.0.0.1", 0))
        yield it.getsockname()[1]


@contextlib.contextmanager
def listening(config, *words):
    """A server for many clients, which ends well."""
    run = [str(Given.listener), str(config), "127.0.0.1:0", *words]
    pipe = subprocess.PIPE
    child = subprocess.Popen(run, stdin=pipe, stdout=pipe, stderr=pipe, text=True, env=environment())
    try:
        yield Server(child, int(child.stdout.readline().rsplit(":", 1)[1]))
    finally:
        # the end of its standard input stops it
        told = child.communicate(timeout=SECONDS)[1]
    assert (child.returncode, told) == (0, ""), f"the server ended with status {child.returncode}: {told}"


class Relay:
    """Hands the frames of all clients to a server one by one, those with SLOW once its gate lets them go, and speaks TLS to its own clients
    where it is given a context."""

    def __init__(self, server, gate=None, tls=None):
        self.server, self.gate, self.tls, self.turn = server, gate, tls, threading.Lock()
        self.listener = socket.create_server(("127.0.0.1", 0))
        self.port = self.listener.getsockname()[1]
        threading.Thread(target=self.accept, daemon=True).start()

    def __enter__(self):
        return self

    def __exit__(self, *fault):
        self.listener.close()

    def accept(self):
        with contextlib.suppress(OSError):
            while True:
                client = self.listener.accept()[0]
                threading.Thread(target=self.relay, args=(client,), daemon=True).start()

    def relay(self, client):
        with contextlib.suppress(OSError), client, socket.create_connection(("127.0.0.1", self.server.port)) as server:
            if self.tls:
                client = self.tls.wrap_socket(client, server_side=True)
            with client.makefile("rb") as asked, server.makefile("rb") as answered:
                while head := asked.read(4):
                    body = asked.read(int.from_bytes(head, "big"))
                    with self.turn:
                        if self.gate and SLOW.encode() in body:
                            self.gate.hold()
                        server.sendall(head + body)
                        head = answered.read(4)
                        reply = head + answered.read(int.from_bytes(head, "big"))
                    client.sendall(reply)


@contextlib.contextmanager
def late(config, folder):
    """A server that answers some texts once they are let go. Its gate is in the folder."""
    with listening(config) as server, Relay(server, Gate(folder)) as relay:
        yield relay


@contextlib.contextmanager
def interrupted(gate):
    """Interrupts what runs, as Ctrl-C does, while a text waits at the gate, and then lets that go."""

    def interrupt(*_):
        gate.let_go()
        raise KeyboardInterrupt

    def watch():
        if comes(lambda: gate.holds() or is_over.is_set()) and not is_over.is_set():
            signal.pthread_kill(threading.main_thread().ident, signal.SIGALRM)

    before, is_over, watcher = signal.signal(signal.SIGALRM, interrupt), threading.Event(), threading.Thread(target=watch)
    watcher.start()
    try:
        yield
    finally:
        is_over.set()
        watcher.join()
        signal.signal(signal.SIGALRM, before)


def shell(*words, text="", seconds=SECONDS, **variables):
    """The status of a shell, what it wrote, and what it told on standard error."""
    sent = text if isinstance(text, bytes) else text.encode()
    done = subprocess.run([*SHELL, *map(str, words)], input=sent, capture_output=True, timeout=seconds, env=environment(**variables))
    return done.returncode, done.stdout.decode(), done.stderr.decode()


class Terminal:
    """A shell in a terminal, to which keys are sent."""

    def __init__(self, *words, **variables):
        ours, theirs = os.openpty()
        self.keys, self.seen = ours, ""

        def controls():
            os.setsid()
            fcntl.ioctl(0, termios.TIOCSCTTY, 0)

        self.child = subprocess.Popen(
            [*SHELL, *map(str, words)], stdin=theirs, stdout=theirs, stderr=theirs, preexec_fn=controls, env=environment(**variables)
        )
        os.close(theirs)

    def __enter__(self):
        return self

    def __exit__(self, *fault):
        self.child.kill()
        self.child.wait()
        os.close(self.keys)

    def type(self, text):
        os.write(self.keys, text.encode())

    def wait_for(self, pattern):
        """What came up to the first match of the pattern, which is taken. Fails where it doesn't come."""
        until = time.monotonic() + SECONDS
        while True:
            found = re.search(pattern, self.seen)
            if found:
                told, self.seen = self.seen[: found.end()], self.seen[found.end() :]
                return told
            if time.monotonic() > until or not self._read():
                raise AssertionError(f"{pattern!r} didn't come; {self.seen[-500:]!r} did")

    def _read(self):
        if not select.select([self.keys], [], [], 0.2)[0]:
            return True
        try:
            self.seen += os.read(self.keys, 65536).decode(errors="replace")
        except OSError:
            return False
        return True

    def wait_for_rest(self):
        """Until the shell waits for a key: Python's readline misses an interrupt in the moment before. A shell that is about to run, or held up
        by a busy machine, doesn't sleep."""
        assert comes(lambda: state_of(self.child.pid) == "S"), "the shell doesn't wait for a key"

    def ended(self):
        """The status of the shell, once it has ended."""
        return self.child.wait(timeout=SECONDS)


PROMPT = r"graphd> $"


def elements(port, token="a1"):
    return graphd.connect(port, token).status().elements
