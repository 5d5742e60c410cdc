"""A graphd that runs, asked frame by frame, with its memory looked at or limited."""
import json
import resource
import struct
import subprocess
from pathlib import Path

from graphd_program import Failed
from machine import own_bytes, seconds_at_rest


def body(token, text, parameters=None, page=None):
    """The body of a query, in pages of `page` rows where that is passed."""
    asked = {"op": "query", "token": token, "text": text}
    if parameters:
        asked["params"] = parameters
    if page is not None:
        asked["page"] = page
    return json.dumps(asked, separators=(",", ":")).encode()


def configuration(folder, cache, tenants):
    """The path of a configuration: of each tenant its name, which begins its tokens, its quotas of steps and elements, and that of held
    rows where it has one."""
    path = Path(folder) / "config.json"
    found = []
    for name, max_steps, max_elements, *held in tenants:
        tokens = [{"token": name + "1", "rights": "write"}, {"token": name + "2", "rights": "read"}]
        quotas = {"max_steps": max_steps, "max_elements": max_elements, **({"max_held": held[0]} if held else {})}
        found.append({"name": name, **quotas, "tokens": tokens})
    path.write_text(json.dumps({"cache": cache, "tenants": found}))
    return path


class Run:
    """A program that runs, perhaps within so many bytes of addresses, and what it has used."""

    def __init__(self, command, addresses=None):
        limits = {"preexec_fn": lambda: resource.setrlimit(resource.RLIMIT_AS, (addresses, addresses))} if addresses else {}
        self.command = command
        self.child = subprocess.Popen(command, stdin=subprocess.PIPE, stdout=subprocess.PIPE, **limits)
        self.about = Path("/proc") / str(self.child.pid)

    def ask(self, request):
        try:
            self.child.stdin.write(struct.pack(">I", len(request)) + request)
            self.child.stdin.flush()
        except BrokenPipeError:
            raise Failed("graphd ended while it was asked") from None
        return self.take(int.from_bytes(self.take(4), "big"))

    def take(self, count):
        taken = self.child.stdout.read(count)
        if len(taken) < count:
            raise Failed(f"graphd ended while it was asked, with status {self.child.wait()}")
        return taken

    def held(self, word):
        """So many KiB, as the system tells it under a word."""
        return int((self.about / "status").read_text().split(word + ":")[1].split()[0])

    def seconds(self):
        """The processor time that it has had."""
        return seconds_at_rest(self.child.pid)

    def own_bytes(self):
        return own_bytes(self.child.pid)

    def forget_peak(self):
        (self.about / "clear_refs").write_text("5")

    def close(self):
        """Lets it end, or stops it where it has more to do."""
        try:
            self.child.stdin.close()
            self.child.stdout.close()
            self.child.wait(timeout=10)
        except (BrokenPipeError, subprocess.TimeoutExpired):
            self.child.kill()
            self.child.wait()
