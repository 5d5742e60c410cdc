"""Servers of which measures are taken beside each other, each for a `with` block, and what asks them."""
import contextlib
import json
import os
import pwd
import resource
import shutil
import socket
import subprocess
import time
from pathlib import Path

from graphd_program import ROOT, Failed


def frame(body):
    return len(body).to_bytes(4, "big") + body


def query(text, token="a1"):
    return frame(json.dumps({"op": "query", "token": token, "text": text}).encode())


def free_port():
    with socket.socket() as it:
        it.bind(("127.0.0.1", 0))
        return it.getsockname()[1]


def wait_for(port, seconds=30):
    for _ in range(seconds * 20):
        with contextlib.suppress(OSError), socket.create_connection(("127.0.0.1", port), 1):
            return
        time.sleep(0.05)
    raise Failed(f"nothing listens at port {port}")


def asked_once(port, request):
    """The whole reply of graphd_listen to a request."""
    with socket.create_connection(("127.0.0.1", port), 60) as client:
        client.sendall(request)
        taken = client.makefile("rb")
        head = taken.read(4)
        return head + taken.read(int.from_bytes(head, "big"))


def whole_numbers(text):
    """Those between commas."""
    return [int(it) for it in text.split(",")]


def allow_files():
    """Lets this process and its children have as many files and connections open as the system lets them."""
    _, allowed = resource.getrlimit(resource.RLIMIT_NOFILE)
    resource.setrlimit(resource.RLIMIT_NOFILE, (allowed, allowed))


def load():
    return f"{os.getloadavg()[0]:.1f} of {os.cpu_count()} processors"


def build_client(folder):
    """Has tools/load_clients.c built into a folder."""
    compiler = shutil.which("cc") or shutil.which("gcc")
    if not compiler:
        raise Failed("there is no C compiler for the client")
    subprocess.run([compiler, "-O2", "-o", f"{folder}/load_clients", str(ROOT / "tools" / "load_clients.c")], check=True)


class Asked:
    """A server with a request and its reply, measured by the repository's client, which stands in the folder."""

    def __init__(self, name, port, request, reply, folder, seconds):
        self.name, self.port, self.seconds = name, port, seconds
        self.files = []
        for kind, content in (("request", request), ("reply", reply)):
            path = Path(folder) / f"{name}.{kind}".replace(" ", "_")
            path.write_bytes(content)
            self.files.append(str(path))
        self.client = Path(folder) / "load_clients"

    def command(self, connections, flight, seconds):
        return [str(self.client), str(self.port), str(connections), str(flight), str(seconds), *self.files]

    def asked(self, connections, flight):
        """The requests a second, and the median and the 99th percentile in microseconds."""
        done = subprocess.run(self.command(connections, flight, self.seconds), capture_output=True, text=True)
        if done.returncode:
            raise Failed(f"{self.name}: {done.stderr.strip()}")
        answered, seconds, median, late = done.stdout.split()
        return int(answered) / float(seconds), int(median), int(late)


@contextlib.contextmanager
def running(*command, **how):
    child = subprocess.Popen([str(it) for it in command], stdout=subprocess.DEVNULL, stderr=subprocess.DEVNULL, **how)
    try:
        yield child
    finally:
        child.terminate()
        try:
            child.wait(20)
        except subprocess.TimeoutExpired:
            child.kill()
            child.wait()


def has_redis():
    return shutil.which("redis-server") is not None


@contextlib.contextmanager
def redis(folder, most, *options):
    """The port of a redis-server for so many clients, with these options."""
    port = free_port()
    with running("redis-server", "--port", port, "--bind", "127.0.0.1", "--save", "", "--maxclients", most + 24, "--dir", folder, *options):
        wait_for(port)
        yield port


class Pgbench:
    """PostgreSQL, measured by pgbench with the text of a script."""

    def __init__(self, name, server, script, seconds):
        self.name, self.server, self.seconds, self.script = name, server, seconds, server.place / "script.sql"
        self.script.write_text(script)
        self.script.chmod(0o644)

    def asked(self, connections):
        """The scripts a second, and the median and the 99th percentile in microseconds."""
        for old in self.server.place.glob("times.*"):
            old.unlink()
        # (a thousand of its connections take seconds to be made)
        words = ["-n", "-M", "prepared", "-c", connections, "-j", min(2, connections), "-T", max(self.seconds, connections // 100)]
        words += ["-f", self.script, "-l", "--log-prefix", self.server.place / "times", "--sampling-rate", "0.2"]
        told = self.server.pgbench(*words).partition("tps = ")[2]
        times = sorted(int(line.split()[2]) for it in self.server.place.glob("times.*") for line in it.read_text().splitlines())
        at = lambda part: times[int(len(times) * part)] if times else 0
        return float(told.split()[0]) if told else 0, at(0.5), at(0.99)


class Postgres:
    """A PostgreSQL that is there or not, in a folder of its own, where its programs don't run as root."""

    def __init__(self, folder):
        places = sorted(Path("/usr/lib/postgresql").glob("*/bin/initdb"))
        self.tools, self.place, self.port = places[-1].parent if places else None, Path(folder) / "postgres", None
        user = pwd.getpwnam("postgres") if places and os.geteuid() == 0 else None
        self.own = {"user": user.pw_uid, "group": user.pw_gid} if user else {}

    def run(self, *words):
        done = subprocess.run([str(it) for it in words], capture_output=True, text=True, cwd=self.place, **self.own)
        if done.returncode:
            raise Failed(f"{Path(words[0]).name}: {done.stderr.strip()[-500:]}")
        return done.stdout

    def pgbench(self, *words):
        return self.run(self.tools / "pgbench", "-h", "127.0.0.1", "-p", self.port, *words, "postgres")

    def ask(self, text):
        """Has it do statements of SQL."""
        return self.run(self.tools / "psql", "-h", "127.0.0.1", "-p", self.port, "-q", "-c", text, "postgres")

    @contextlib.contextmanager
    def serving(self, most, *settings):
        """It serves so many clients, with these settings; its files are new."""
        if self.own:
            os.chmod(self.place.parent, 0o755)
        self.place.mkdir()
        if self.own:
            os.chown(self.place, self.own["user"], self.own["group"])
        self.port = free_port()
        self.run(self.tools / "initdb", "-A", "trust", "-N", "-U", "postgres", self.place / "data")
        settings += f"max_connections={most + 24}", "shared_buffers=256MB", "listen_addresses=127.0.0.1"
        settings += (f"unix_socket_directories={self.place}",)
        words = [it for setting in settings for it in ("-c", setting)]
        os.environ["PGUSER"] = "postgres"
        try:
            with running(self.tools / "postgres", "-D", self.place / "data", "-p", self.port, *words, cwd=self.place, **self.own):
                wait_for(self.port)
                time.sleep(1)
                yield self
        finally:
            shutil.rmtree(self.place)
