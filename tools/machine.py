"""What tests take of the machine that they run on: how long they wait, and what a program has used. So none is decided by how fast the
machine is, by what else it has to do, or by a moment in which it stands still."""
import contextlib
import os
import re
import signal
import threading
import time
from pathlib import Path

# what is waited for at most that is to come at once: it ends what hangs, and is far more than a slow machine needs
SECONDS = int(os.environ.get("GRAPHD_TEST_SECONDS", "300"))


def comes(holds, pause=0.05):
    """What is told once it holds, or last of all."""
    until = time.monotonic() + SECONDS
    while True:
        is_last = time.monotonic() > until
        found = holds()
        if found or is_last:
            return found
        time.sleep(pause)


class Gate:
    """Where what isn't to happen yet waits until it is let go. It is a file, which is there while one waits, since some are other processes."""

    def __init__(self, folder):
        self.file = folder / "waits"

    def hold(self):
        """Waits until it is let go."""
        self.file.touch()
        comes(lambda: not self.file.exists(), 0.01)

    def holds(self):
        return self.file.exists()

    def let_go(self):
        self.file.unlink(missing_ok=True)


def times_as_long(most, first, second):
    """How many times the processor time of the first work the second one takes in this process, by the least time of each: both are done
    again, some times, while it seems to be more than `most` times."""
    least = [float("inf"), float("inf")]
    for _ in range(8):
        for at, work in enumerate((first, second)):
            before = time.process_time()
            work()
            least[at] = min(least[at], time.process_time() - before)
        if least[1] <= most * least[0]:
            break
    return least[1] / least[0]


@contextlib.contextmanager
def ended_if_they_hang(pids):
    """Kills processes that haven't done in time what is asked within: who waits for them sees their end."""

    def end():
        for pid in pids:
            with contextlib.suppress(ProcessLookupError):
                os.kill(pid, signal.SIGKILL)

    timer = threading.Timer(SECONDS, end)
    timer.daemon = True
    timer.start()
    try:
        yield
    finally:
        timer.cancel()


def processor_seconds(pid):
    """The seconds of processor time that a process has had; of one that runs, as of some milliseconds ago."""
    # (the processor clock of a process, which Python has no name for; /proc tells the same in steps of 10 ms)
    return time.clock_gettime(~pid << 3 | 2)


def state_of(pid):
    """The letter by which the system tells what a process does: R where it runs or is to run, S where it waits."""
    return Path(f"/proc/{pid}/stat").read_text().rpartition(")")[2].split()[0]


def seconds_at_rest(pid):
    """The seconds of processor time that a process has had, exactly, once it waits: it may be at work still when its reply is there."""
    comes(lambda: state_of(pid) != "R", 0)
    return processor_seconds(pid)


def with_started(pid):
    """A process, those that it started, and those that they did."""
    parents = {}
    for stat in Path("/proc").glob("[0-9]*/stat"):
        with contextlib.suppress(OSError):
            parents[int(stat.parent.name)] = int(stat.read_text().rpartition(")")[2].split()[1])
    found = [pid]
    for above in found:
        found += [it for it, parent in parents.items() if parent == above]
    return found


def own_bytes(pid):
    """The bytes of memory that a process has for itself, also where they were put out to the disk. What it has of files isn't counted, since
    the system takes it and gives it back as it likes. (VmRSS has that too, and some versions of the system count it roughly.)"""
    told = Path(f"/proc/{pid}/smaps_rollup").read_text()
    return 1024 * sum(int(re.search(rf"^{word}: +(\d+) kB", told, re.MULTILINE)[1]) for word in ("Anonymous", "Swap"))
