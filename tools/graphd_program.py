"""The programs graphd and graphd_listen, built by the repository's toolchain where they aren't built yet."""
import os
import shutil
import struct
import subprocess
import sys
from pathlib import Path

ROOT = Path(__file__).resolve().parent.parent


class Failed(Exception):
    """What a person is told where nothing more can be done."""


def sources():
    yield ROOT / "crates.txt"
    for folder in (ROOT / "crates").iterdir():
        yield from (folder / "src").rglob("*.rt")


def is_built(path):
    """Whether the tree has a program that is newer than its texts, with the toolchain's stamp or without."""
    if not path.is_file():
        return False
    built = path.stat().st_mtime
    return all(source.stat().st_mtime <= built for source in sources())


def build(name, path):
    """Builds a program, which proves it and all below it first."""
    if shutil.which("rt") is None:
        raise Failed(f"{name} isn't built, and the Rattle toolchain's command 'rt' is not on the PATH; {name.upper()}_PROGRAM names one that is")
    told = path.with_name("build.log")
    print(f"building {name}: all of it is proved first, which takes minutes (log: {told})", file=sys.stderr)
    told.parent.mkdir(exist_ok=True)
    with open(told, "wb") as log:
        # Without words the program only tells its usage.
        status = subprocess.run(["rt", "run"], cwd=ROOT / "crates" / name, stdin=subprocess.DEVNULL, stdout=log, stderr=log)
    # (the stamp is written by the toolchain once the program was proved and built)
    if not (path.is_file() and path.with_suffix(".stamp").is_file()):
        end = told.read_text(errors="replace").splitlines()[-15:]
        raise Failed("\n".join([f"{name} was not built (rt run ended with {status.returncode}):", *end]))
    os.utime(path)


def add_program(parser):
    """The word --program, which every tool takes that runs graphd."""
    parser.add_argument("--program", metavar="PATH", help="a built graphd; else the one that GRAPHD_PROGRAM names, else this tree's")


def program(named=None, name="graphd"):
    """The path of a program: the named one, else that of GRAPHD_PROGRAM or GRAPHD_LISTEN_PROGRAM, else this tree's. That one is built first
    where it is older than its texts."""
    named = named or os.environ.get(f"{name.upper()}_PROGRAM")
    if named:
        path = Path(named).expanduser().resolve()
        if not (path.is_file() and os.access(path, os.X_OK)):
            raise Failed(f"{named} is no program")
        return path
    path = ROOT / "crates" / name / "out" / name
    if not is_built(path):
        build(name, path)
    return path


def bodies(output):
    """The bodies of whole frames, and what is left behind them."""
    found = []
    while len(output) >= 4 and len(output) >= 4 + int.from_bytes(output[:4], "big"):
        length = int.from_bytes(output[:4], "big")
        found.append(output[4 : 4 + length])
        output = output[4 + length :]
    return found, output


def fault_of(done, more, rest):
    """What is wrong with the end of a run that was to end well: its status, what it told, so many replies more than requests, or bytes
    behind the last whole one. None where nothing is."""
    told = done.stderr.decode(errors="replace").strip()
    if done.returncode or told:
        return f"graphd ended with status {done.returncode}" + (f" and told: {told[-2000:]}" if told else "")
    if more > 0 or rest:
        return f"graphd wrote {max(more, 0)} replies and {len(rest)} bytes more than it was asked for"
    return None


def fault_of_child(child):
    """The same of a child whose replies were all taken: it is let end."""
    if child.stdin is None:
        return f"graphd ended with status {child.wait()} before"
    child.stdin.close()
    rest, told = child.stdout.read(), child.stderr.read()
    return fault_of(subprocess.CompletedProcess([], child.wait(), rest, told), 0, rest)


class Session:
    """A running graphd, which answers a frame at a time."""

    def __init__(self, config, named=None):
        command = [str(program(named)), "run", str(config)]
        pipe = subprocess.PIPE
        self.child = subprocess.Popen(command, stdin=pipe, stdout=pipe, stderr=pipe)

    def ask(self, body):
        """The reply to a request, both as bytes."""
        try:
            self.child.stdin.write(struct.pack(">I", len(body)) + body)
            self.child.stdin.flush()
        except BrokenPipeError:
            raise Failed(self.last_words()) from None
        length = self.take(4)
        return self.take(int.from_bytes(length, "big"))

    def take(self, count):
        taken = self.child.stdout.read(count)
        if len(taken) < count:
            raise Failed(self.last_words())
        return taken

    def last_words(self):
        """What graphd told before it ended."""
        self.child.stdin = None
        told = self.child.communicate()[1].decode(errors="replace").strip()
        return told or f"graphd ended with status {self.child.returncode} and told nothing"

    def fault(self):
        """Lets graphd end, and says what is wrong with its end, or None."""
        return fault_of_child(self.child)

    def close(self):
        """Lets graphd end, and gives its status."""
        if self.child.stdin:
            self.child.stdin.close()
        told = self.child.stderr.read().decode(errors="replace")
        sys.stderr.write(told)
        return self.child.wait()
