"""What the tools that make a journal of another one share: its file while no server has it, servers of their own over journals, and a
folder in which the new one is made."""
import collections
import contextlib
import fcntl
import json
import os
import re
import select
import socket
import subprocess
import sys
from typing import NamedTuple

import client_path  # (finds the package graphd)
import graphd
import journals
from graphd.connections import framed
from graphd_program import Failed
from tables import counted, safe

# what a start ends with where a reply isn't the kept one
DIFFERS = 5
# requests that are under way
AT_ONCE = 100
# bytes that are taken of replies at a time
ROOM = 1 << 18
# of tenants that the configuration doesn't have, so many are named
MOST_NAMED = 16
# lines that a server writes to standard output; one that names a tenant has line ends where the name has some
ANSWERED = re.compile(r"graphd_listen: answered ([0-9]+) requests of the journal again")
READY = re.compile(r"graphd_listen: ready at \S+:([0-9]+)")
NAMES = "graphd_listen: tenant "
NAMED = re.compile(re.escape(NAMES) + r".* is not in the configuration: [0-9]+ requests of it stay in the journal", re.DOTALL)


class Ended(Failed):
    """A server that ended by itself, and its status."""

    def __init__(self, status, told):
        self.status = status
        super().__init__(f"graphd_listen ended with status {status}" + (f" and told: {told}" if told else ""))


def lines_of(stream):
    """The lines that a server tells, with the line ends of a tenant's name in them, so that no part of a name counts as a line."""
    told = ""
    for line in iter(stream.readline, b""):
        told += line.decode(errors="replace")
        if not told.startswith(NAMES) or NAMED.fullmatch(told.rstrip("\n")):
            yield told.rstrip("\n")
            told = ""


class Running:
    """A graphd_listen with a journal, for a `with` block, at whose end it stops."""

    def __init__(self, executable, config, journal, *options):
        self.told = journal.with_name(f"{journal.name}.told")
        self.port = self.requests = None
        command = [str(executable), str(config), "127.0.0.1:0", "--journal", str(journal), *options]
        with open(self.told, "wb") as told:
            # (what is told of a fault goes to a file, so that nothing waits for its reader)
            self.child = subprocess.Popen(command, stdin=subprocess.PIPE, stdout=subprocess.PIPE, stderr=told, start_new_session=True)

    def __enter__(self):
        for line in lines_of(self.child.stdout):
            if found := ANSWERED.fullmatch(line):
                self.requests = int(found[1])
            if found := READY.fullmatch(line):
                self.port = int(found[1])
                return self
        raise self._ended()

    def _ended(self):
        status = self.child.wait()
        return Ended(status, self.told.read_text(errors="replace").strip())

    def __exit__(self, kind, fault, trace):
        """Lets it stop, and sees that it stopped well."""
        if kind is None or issubclass(kind, graphd.GraphdError):
            self.child.stdin.close()
            if self.child.wait() != 0:
                raise self._ended() from fault
        else:
            self.child.kill()
            self.child.wait()


class Tenant(NamedTuple):
    """A tenant of the configuration: how it is called here, its name, its tokens, those of them that may write, and its quotas."""

    title: str
    name: str
    tokens: list
    writes: list
    max_steps: int
    max_held: int

    @classmethod
    def of(cls, place, told):
        tokens = [it["token"] for it in told["tokens"]]
        writes = [it["token"] for it in told["tokens"] if it["rights"] == "write"]
        return cls(f"tenant {place} ({safe(told['name'])})", told["name"], tokens, writes, told["max_steps"], told.get("max_held", 0))

    @property
    def first(self):
        """Its first token that may write, or its first where none may."""
        return (self.writes or self.tokens)[0]

    def session(self, server):
        return graphd.connect(server.port, self.first)


def tenants_of(told):
    """The tenants of a configuration that can be asked: a tenant without tokens can't be."""
    return [Tenant.of(place, it) for place, it in enumerate(told["tenants"]) if it["tokens"]]


def test_configuration(executable, config):
    """Has the program look at the configuration, which tells what is wrong with it."""
    done = subprocess.run([executable, "--check", config], capture_output=True, text=True)
    if done.returncode:
        raise Failed(f"{config}: {done.stderr.strip()}")
    return json.loads(config.read_bytes())


class Pipe:
    """A connection over which requests are sent before those before were answered. What comes is taken while it sends, since a server
    takes no requests of a client that doesn't take its replies."""

    def __init__(self, port):
        self.socket = socket.create_connection(("127.0.0.1", port))
        self.socket.setblocking(False)
        self.taken = bytearray()

    def __enter__(self):
        return self

    def __exit__(self, *_fault):
        self.socket.close()

    def send(self, body):
        left = memoryview(framed(body))
        while left:
            readable, writable, _ = select.select([self.socket], [self.socket], [])
            if readable:
                self._take()
            if writable:
                try:
                    left = left[self.socket.send(left) :]
                except OSError as fault:
                    raise graphd.NotSent(f"the connection ended: {fault.strerror}") from None

    def has_reply(self):
        """Whether a reply is there whole."""
        return len(self.taken) >= 4 and len(self.taken) >= 4 + int.from_bytes(self.taken[:4], "big")

    def reply(self):
        """The body of the next reply, once it is there."""
        while not self.has_reply():
            select.select([self.socket], [], [])
            self._take()
        end = 4 + int.from_bytes(self.taken[:4], "big")
        body = bytes(self.taken[4:end])
        del self.taken[:end]
        return body

    def _take(self):
        try:
            more = self.socket.recv(ROOM)
        except OSError as fault:
            raise graphd.ConnectionLost(f"the connection ended: {fault.strerror}") from None
        if not more:
            raise graphd.ConnectionLost("the connection ended before the reply came")
        self.taken += more


def replies_to(port, bodies):
    """The replies to requests, in their order, of which some are sent before those before were answered, so that they share a sync. Where
    None stands among the requests, all before it are answered first."""
    with Pipe(port) as pipe:
        waiting = 0
        for body in bodies:
            if body is not None:
                pipe.send(body)
                waiting += 1
            while waiting and (body is None or waiting == AT_ONCE or pipe.has_reply()):
                yield pipe.reply()
                waiting -= 1
        for _ in range(waiting):
            yield pipe.reply()


@contextlib.contextmanager
def locked(file, may_change=True):
    """The file while no server has it, and none can, nor another run. Where it stays as it is, it is opened for reading alone."""
    with open(file, "r+b" if may_change else "rb") as held:
        try:
            fcntl.flock(held, fcntl.LOCK_EX | fcntl.LOCK_NB)
        except BlockingIOError:
            raise Failed(f"{file}: a server has it open, or another run of such a tool: let it end first") from None
        if not os.path.samestat(os.fstat(held.fileno()), os.stat(file)):
            raise Failed(f"{file}: it was replaced just now")
        yield held


class Look:
    """What is found in a journal beside its requests: how many there are of tenants that can't be asked, by their names, and how many
    transactions are open at the end."""

    def __init__(self, held, tenants):
        self.gone = collections.Counter()
        self.names = {it.name for it in tenants}
        names = {token: it.name for it in tenants for token in it.tokens}
        try:
            self.open = len(journals.open_transactions(self._of_others(held), names.get))
        except (journals.NoJournal, ValueError, KeyError) as fault:
            raise Failed(f"no whole journal: {fault}") from None

    def _of_others(self, held):
        """The records of tenants that can be asked; the others are counted."""
        for record in journals.records(held):
            if self.is_gone(record):
                self.gone[record.tenant.decode()] += 1
            else:
                yield record

    def is_gone(self, record):
        return bool(record.tenant) and record.tenant.decode() not in self.names

    def drop_gone(self, may_drop):
        """Tells which tenants' requests are left out, where they may be."""
        named = [f"{safe(name)} ({counted(count, 'request')})" for name, count in self.gone.most_common(MOST_NAMED)]
        more = len(self.gone) - len(named)
        told = ", ".join(named) + (f" and {more:,} more" if more else "")
        if told and not may_drop:
            raise Failed(
                f"the configuration has no tenant with a token of these names: {told}\n"
                "put them back into it, under these names, or leave their requests out by --drop-gone"
            )
        if told:
            print(f"left out, since the configuration has no tenant with a token of these names: {told}", flush=True)


@contextlib.contextmanager
def folder(beside, ours):
    """A folder of this name for files of these names, which goes in the end. What a killed run left there goes first."""
    beside.mkdir(mode=0o700, exist_ok=True)
    at = os.open(beside, os.O_RDONLY | os.O_DIRECTORY)
    try:
        # (two runs may come from different files, and make one of the same name)
        own(at, beside)
        clear(beside, ours)
        if any(beside.iterdir()):
            raise Failed(f"{beside}: there are files of others in it: move them away")
        try:
            yield beside
        finally:
            clear(beside, ours)
            beside.rmdir()
    finally:
        os.close(at)


def own(at, beside):
    """Takes the lock of a folder that is open, where no other run has it."""
    try:
        fcntl.flock(at, fcntl.LOCK_EX | fcntl.LOCK_NB)
        is_gone = not os.path.samestat(os.fstat(at), os.stat(beside))
    except (BlockingIOError, FileNotFoundError):
        is_gone = True
    if is_gone:
        raise Failed(f"{beside}: another run works there: let it end first")


def clear(work, ours):
    for name in ours:
        (work / name).unlink(missing_ok=True)


def give_rights(new, file):
    """Gives the new file the owner and the rights of the old one, and its owner may read and write it."""
    old = os.stat(file)
    os.chown(new, old.st_uid, old.st_gid)
    os.chmod(new, old.st_mode & 0o7777 | 0o600)


def sync(file):
    """Sees that all of a file is on the disk."""
    with open(file, "rb") as it:
        os.fsync(it.fileno())


def sync_folder(folder):
    """Sees that the names in a folder are on the disk. Until then a crash may bring back those of before, which are as good."""
    at = os.open(folder, os.O_RDONLY)
    try:
        os.fsync(at)
    except OSError as fault:
        print(f"{folder} can't be synced: {fault.strerror}", file=sys.stderr)
    finally:
        os.close(at)
