"""A graphd_listen with a journal, a client that asks it, and what both tests of journals share."""
import json
import resource
import signal
import socket
import struct
import subprocess
from pathlib import Path

from graphd_program import program
from journal_servers import ANSWERED, READY, lines_of
from machine import SECONDS

# (a client that a busy machine holds up isn't cut off; the longest that there is)
PATIENCE = "86400"


class Given:
    program = None


def tenant(name, max_steps=10_000_000, max_elements=1_000_000, max_held=0, rights=("write",)):
    """A tenant of a configuration, whose tokens are its name with the numbers from 1."""
    tokens = [{"token": f"{name}{number}", "rights": it} for number, it in enumerate(rights, 1)]
    return {"name": name, "max_steps": max_steps, "max_elements": max_elements, "max_held": max_held, "tokens": tokens}


def configuration(folder, *tenants):
    path = Path(folder) / "config.json"
    path.write_text(json.dumps({"cache": 64, "tenants": tenants or [tenant("a"), tenant("b")]}))
    return path


def limit(most_bytes):
    """Lets files of this process have so many bytes. A write past that fails, and doesn't end it."""
    signal.signal(signal.SIGXFSZ, signal.SIG_IGN)
    if most_bytes is not None:
        resource.setrlimit(resource.RLIMIT_FSIZE, (most_bytes, most_bytes))


class Running:
    """A graphd_listen with a journal, from its start until it is ready or has ended, and what it told until then."""

    def __init__(self, config, journal, most_bytes=None):
        command = [str(program(Given.program, name="graphd_listen")), str(config), "127.0.0.1:0", "--journal", str(journal), "--patience", PATIENCE]
        pipe = subprocess.PIPE
        self.child = subprocess.Popen(
            command, stdin=pipe, stdout=pipe, stderr=pipe, preexec_fn=lambda: limit(most_bytes), restore_signals=False
        )
        self.again, self.port, self.said = None, None, []
        for line in lines_of(self.child.stdout):
            self.said.append(line)
            if found := ANSWERED.fullmatch(line):
                self.again = int(found[1])
            if found := READY.fullmatch(line):
                self.port = int(found[1])
                return

    def ended(self):
        """Its status, and what it told."""
        told = self.child.communicate(timeout=SECONDS)[1].decode()
        return self.child.returncode, told

    def kill(self):
        self.child.kill()
        self.child.communicate()

    def __enter__(self):
        return self

    def __exit__(self, *_fault):
        self.kill()


class Client:
    """A connection that asks one request after the other."""

    def __init__(self, port, token):
        self.token = token
        self.socket = socket.create_connection(("127.0.0.1", port), timeout=SECONDS)

    def asks(self, op="query", **more):
        """The reply, or None where the connection ended before it was whole."""
        body = json.dumps({"op": op, "token": self.token, **more}).encode()
        try:
            self.socket.sendall(struct.pack(">I", len(body)) + body)
            head = self.taken(4)
            reply = head and self.taken(int.from_bytes(head, "big"))
        except OSError:
            return None
        return json.loads(reply) if reply else None

    def taken(self, count):
        found = b""
        while len(found) < count:
            more = self.socket.recv(count - len(found))
            if not more:
                return None
            found += more
        return found

    def numbers(self):
        """The numbers of all nodes, in order."""
        reply = self.asks(text="MATCH (n:N) RETURN n.i AS i ORDER BY i")
        return [row[0] for row in reply["rows"]]

    def ids(self):
        return [row[0] for row in self.asks(text="MATCH (n:N) RETURN id(n) AS i ORDER BY i")["rows"]]
