"""Cases of tools/graphd_replay: the requests of a journal are asked anew, and kept in another one."""
import contextlib
import fcntl
import json
import os
import subprocess
import sys
import tempfile
from pathlib import Path

import client_path  # (finds the package graphd)
from graphd.connections import MAX_BODY
from graphd_program import ROOT, program
from journaled import Client, Given, Running
from machine import SECONDS, comes
from tables import safe
from tests_of_compaction import compacted, limit, told_of
from tests_of_names import MAKE, ODD, config_of, did, graph, journal_of, made, numbers, of, records_of, rewrite, tokens_of, without_name

REPLAY = [sys.executable, str(ROOT / "tools" / "graphd_replay")]
# what one tenant does: elements, an index, transactions of which one is rolled back, pages
HISTORY = [
    *made(5, "a1"),
    ("a1", "MATCH (a:N {i: 1}), (b:N {i: 2}) CREATE (a)-[:T {since: 7}]->(b)"),
    ("a1", {"op": "create_index", "label": "N", "key": "i"}),
    *[("a1", act) for act in ("begin", "CREATE (:N {i: 6})", "commit", "begin", "MATCH (n:N) DETACH DELETE n", "rollback")],
    ("a1", ("MATCH (n:N) SET n.t = $t", {"t": "é\u2028\"token\":\"a1\" 🦊"})),
    ("-a2", {"op": "query", "text": "MATCH (n:N) RETURN n.i ORDER BY n.i", "page": 2}),
    ("-a2", {"op": "pull", "page": 0}),
]


def replayed(config, old, *words, new="new", most_bytes=None):
    """The status of a run, and what it told."""
    named = str(program(Given.program, name="graphd_listen"))
    command = [*REPLAY, str(config), str(old), str(old.with_name(new)), "--program", named, *words]
    done = subprocess.run(command, capture_output=True, text=True, preexec_fn=lambda: limit(most_bytes), restore_signals=False)
    return done.returncode, done.stdout + done.stderr


def files_of(folder):
    """What stands in a folder beside configurations."""
    return sorted(it.name for it in Path(folder).iterdir() if not it.name.startswith("config"))


def contents(journal):
    """The records without their replies' lengths and digests, which may differ."""
    return [(it.tenant, it.body) for it in records_of(journal)]


def plain():
    """Under the configuration of before, and under other tokens."""
    with tempfile.TemporaryDirectory() as folder:
        old, new = Path(folder) / "old", Path(folder) / "new"
        config = config_of(folder, of("a", "a1", "-a2"), of("b", "b1"))
        yield "requests of two tenants", set(did(config, old, [*HISTORY, *made(2, "b1")])), {0}
        old.chmod(0o640)
        whole, count = old.read_bytes(), len(HISTORY) + 2
        told = f"{count} requests asked, 0 answered otherwise than before; the new journal is"
        yield "they are asked anew", told_of(replayed(config, old), told), (0, [])
        yield "the old journal is as it was", old.read_bytes() == whole, True
        yield "the new one has the same records", records_of(new) == records_of(old), True
        found = new.stat().st_mode & 0o777, files_of(folder)
        yield "and the rights of the old one, and nothing else is there", found, (0o640, ["new", "old"])
        wanted = graph(config, old, "a1")
        yield "a start leads to the same graph", graph(config, new, "a1") == wanted, True
        new.unlink()
        then = config_of(folder, of("b", "a1"), of("c", "c1"), of("a", "n\"é😀1", "n2"))
        status, told = replayed(then, old)
        yield "they are asked with other tokens", told_of((status, told), f"{count} requests asked, 0 answered otherwise"), (0, [])
        yield "of which none is told", [it for it in ("a1", "n\"é😀1") if it in told], []
        yield "the new journal has these alone", tokens_of(new), sorted(["a1", "n\"é😀1"])
        yield "it leads to the same graphs", (graph(then, new, "n2") == wanted, numbers(then, new, "a1")), (True, [[0, 1]])
        with Running(then, new) as server:
            yield "pages are the token's that stands for theirs", Client(server.port, "n\"é😀1").asks("pull", page=0).get("rows"), [[4], [6]]


def odd_names():
    """Tenants with names of any letters, and a journal of an older version."""
    with tempfile.TemporaryDirectory() as folder:
        old, new = Path(folder) / "old", Path(folder) / "new"
        places = range(len(ODD))
        first = config_of(folder, *(of(name, f"o{place}") for place, name in enumerate(ODD)))
        then = config_of(folder, *reversed([of(name, f"o{(place + 1) % len(ODD)}") for place, name in enumerate(ODD)]))
        yield "tenants with names of any letters", set(did(first, old, made(2, *(f"o{place}" for place in places)))), {0}
        wanted = numbers(first, old, *(f"o{place}" for place in places))
        yield "are asked by them", replayed(then, old)[0], 0
        yield "each has what it had", numbers(then, new, *(f"o{(place + 1) % len(ODD)}" for place in places)), wanted
        new.unlink()
        rewrite(old, without_name)
        yield "without names they are asked by their tokens", replayed(first, old)[0], 0
        found = numbers(first, new, *(f"o{place}" for place in places)) == wanted, {it.tenant.decode() for it in records_of(new)}
        yield "which gives them names", found, (True, {*ODD})
        new.unlink()
        found = replayed(config_of(folder, of(ODD[0], "x1")), old)
        yield "a token that is no tenant's is a refusal", told_of(found, "request 1 at byte 41 is refused now: UnknownToken (3)"), (1, [])


def refusals():
    """A smaller quota: what is refused now ends it, or is left out."""
    with tempfile.TemporaryDirectory() as folder:
        old, new = Path(folder) / "old", Path(folder) / "new"
        config, few = config_of(folder, of("a b", "a1", max_steps=1_000)), config_of(folder, of("a b", "a1", max_steps=50))
        large = "UNWIND range(1, 30) AS i CREATE (:N {i: i}) /* " + "ä\n" * 150 + "*/"
        did(config, old, [*made(3, "a1"), ("a1", large), ("a1", large.replace(":N", ":M")), ("a1", MAKE)])
        whole, at = old.read_bytes(), records_of(old)[3].at
        with Running(few, old) as server:
            yield "under a smaller quota a start stops", server.ended()[0], 5
        status, told = replayed(few, old)
        wanted = [f"request 4 at byte {at} is refused now: StepQuota (25)", f"  query of a b: {safe(large[:200])}…\n", "--go-on"]
        yield "a refusal ends it", told_of((status, told), *wanted), (1, [])
        yield "the token isn't told", "a1" in told, False
        yield "no new journal is made, and the old one is as it was", (files_of(folder), old.read_bytes() == whole), (["old"], True)
        told = "6 requests asked, 0 answered otherwise than before, 2 refused and left out"
        yield "what is refused is left out", told_of(replayed(few, old, "--go-on"), told), (0, [])
        yield "the old journal is as it was", old.read_bytes() == whole, True
        yield "the new one has the others", contents(new) == [it for place, it in enumerate(contents(old)) if place not in (3, 4)], True
        yield "and a start answers it", numbers(few, new, "a1"), [[0, 0, 1, 2]]
        acts = ("begin", "UNWIND range(1, 99) AS i CREATE ()", "CREATE (:N {i: 9})", "commit", "begin", "CREATE (:N {i: 8})")
        old.unlink()
        did(config, old, [*HISTORY[:7], *[("a1", act) for act in acts]])
        yield "also in a transaction", told_of(replayed(few, old, "--go-on", new="newer"), "1 refused"), (0, [])
        yield "the one that is open in the end is rolled back at a start", numbers(few, new.with_name("newer"), "a1"), [[0, 1, 2, 3, 4, 9]]
        new.unlink()
        new.with_name("newer").unlink()
        reading = config_of(folder, {**of("a b"), "tokens": [{"token": "a1", "rights": "read"}, {"token": "a2", "rights": "write"}]})
        found = replayed(reading, old, "--go-on")
        wanted = ["is refused now: ReadOnly (4)\n  commit of a b\nthe end of a transaction isn't left out", "no new journal is made"]
        yield "the end of a transaction that is refused ends it", (*told_of(found, *wanted), files_of(folder)), (1, [], ["old"])


def differing():
    """Replies that are others now."""
    with tempfile.TemporaryDirectory() as folder:
        old, new = Path(folder) / "old", Path(folder) / "new"
        config = config_of(folder, of("a", "a1"))
        did(config, old, made(20, "a1"))
        wanted = records_of(old)
        changed = {place: {"digest": place} if place % 2 else {"length": 1_000} for place in range(3, 15)}
        old.write_bytes(journal_of([it._replace(**changed.get(place, {})) for place, it in enumerate(wanted)]))
        whole = old.read_bytes()
        with Running(config, old) as server:
            yield "a start stops where a reply is another one", server.ended()[0], 5
        status, told = replayed(config, old)
        yield "they are counted", told_of((status, told), "20 requests asked, 12 answered otherwise than before;"), (0, [])
        lines = [it for it in told.splitlines() if "is answered otherwise" in it]
        places = [f"request {place + 1} at byte {wanted[place].at}" for place in range(3, 13)]
        yield "ten of them are told", [it.split(" is ")[0] for it in lines], places
        was = wanted[3]
        both = f"the reply had {was.length} bytes with digest 3, and has {was.length} bytes with digest {was.digest}"
        yield "each with its lengths and digests", lines[0].partition(": ")[2], both
        yield "the new journal has the replies of now", records_of(new) == wanted, True
        yield "a start answers it", numbers(config, new, "a1"), [[*range(20)]]
        yield "the old one is as it was", old.read_bytes() == whole, True


def long_replies():
    """Replies and requests that are longer than what waits in between."""
    with tempfile.TemporaryDirectory() as folder:
        old = Path(folder) / "old"
        config, then = config_of(folder, of("a", "a1")), config_of(folder, of("a", "a1's heir"))
        text = "MERGE (n:N {i: 0}) SET n.t = $t RETURN n.t, range(1, 60000)"
        yield "long requests and replies", set(did(config, old, [("a1", (text, {"t": "x" * 900_000}))] * 20)), {0}
        yield "are asked anew", told_of(replayed(then, old), "20 requests asked, 0 answered otherwise"), (0, [])
        room = MAX_BODY - len(json.dumps({"op": "query", "token": "a1", "text": text, "params": {"t": ""}}))
        old.unlink()
        yield "the longest request", did(config, old, [("a1", (text, {"t": "x" * room}))]), [0]
        found = replayed(then, old, new="newer")
        yield "has no room for a longer token", told_of(found, "request 1 at byte 41 is longer than a request may be"), (1, [])
        yield "which a start doesn't mind", numbers(then, old, "a1's heir"), [[0]]


def faults():
    """What it refuses, and what is left where something goes wrong."""
    with tempfile.TemporaryDirectory() as folder:
        old, new = Path(folder) / "old", Path(folder) / "new"
        config = config_of(folder, of("a", "a1"), of("b", "b1"))
        alone = config_of(folder, of("a", "a1"), of("b"))
        did(config, old, made(50, "a1", "b1"))
        whole = old.read_bytes()

        def left(title, found, *wanted):
            return title, (*told_of(found, *wanted), old.read_bytes() == whole, files_of(folder)), (1, [], True, ["old"])

        yield left("a tenant that is gone", replayed(alone, old), "b (50 requests)", "--drop-gone")
        twice = config_of(folder, of("a", "a1"), of("b", "b1"), of("b", "b2"))
        yield left("two tenants of one name", replayed(twice, old), "needs a name of its own")
        yield left("a disk that is full", replayed(config, old, most_bytes=len(whole) // 2), "graphd_listen ended with status")
        with open(old, "rb") as held:
            fcntl.flock(held, fcntl.LOCK_EX)
            yield left("a journal that is served", replayed(config, old), "a server has it open")
        place = records_of(old)[70].at + 100
        old.write_bytes(whole[:place] + bytes([whole[place] ^ 1]) + whole[place + 1 :])
        found = replayed(config, old)
        old.write_bytes(whole)
        yield left("a changed byte", found, f"the record at byte {records_of(old)[70].at} has changed")
        yield left("no configuration", replayed(Path(folder) / "none", old), "cannot read the configuration")
        new.write_bytes(b"a letter")
        yield "a new journal that is there", (*told_of(replayed(config, old), "is there already"), new.read_bytes()), (1, [], b"a letter")


def behind_faults():
    """A run behind one that was killed, one that fails when its new journal is made, and one that leaves a tenant out."""
    with tempfile.TemporaryDirectory() as folder:
        old, new, stale = (Path(folder) / name for name in ("old", "new", "new.replaying"))
        config = config_of(folder, of("a", "a1"), of("b", "b1"))
        alone = config_of(folder, of("a", "a1"), of("b"))
        did(config, old, made(50, "a1", "b1"))
        whole = old.read_bytes()
        named = str(program(Given.program, name="graphd_listen"))
        with open("/dev/full", "w") as full:
            command = [*REPLAY, str(config), str(old), str(new), "--program", named]
            found = subprocess.run(command, stdout=full, stderr=subprocess.PIPE, text=True)
        told = found.returncode != 0, f"the new journal is made, and whole: {new}" in found.stderr, contents(new) == contents(old)
        yield "a fault once the new journal is made", told, (True, True, True)
        new.unlink()
        stale.mkdir()
        (stale / "new").write_bytes(whole[:300])
        found = replayed(config, old)[0], numbers(config, new, "a1") == numbers(config, old, "a1"), files_of(folder)
        yield "behind a run that was killed", found, (0, True, ["new", "old"])
        new.unlink()
        told = "b (50 requests)", "50 requests asked, 0 answered"
        yield "tenants that are gone are left out", told_of(replayed(alone, old, "--drop-gone"), *told), (0, [])
        found = contents(new) == [it for it in contents(old) if it[0] == b"a"], numbers(alone, new, "a1")
        yield "and the others stay", found, (True, [[*range(50)]])


def at_once():
    """Two runs at the same time: one makes a new journal, which is whole, and the other one is refused."""
    with tempfile.TemporaryDirectory() as folder:
        old, other, new = (Path(folder) / name for name in ("old", "other", "new"))
        config = config_of(folder, of("a", "a1"))
        did(config, old, made(300, "a1"))
        other.write_bytes(old.read_bytes())
        with under_way(config, old, new) as first:
            yield "a second run over the same journal", told_of(replayed(config, old), "another run of such a tool"), (1, [])
            yield "also for another new one", told_of(replayed(config, old, new="newer"), "another run of such a tool"), (1, [])
            yield "a compaction of it", told_of(compacted(config, old), "another run of such a tool"), (1, [])
            yield "a run over another journal, for the same new one", told_of(replayed(config, other), "another run works there"), (1, [])
        yield "the first one makes it", (first.returncode, files_of(folder)), (0, ["new", "old", "other"])
        yield "and whole", contents(new) == contents(old), True


@contextlib.contextmanager
def under_way(config, old, new):
    """A run that is held up while its server has answered nothing yet, and goes on in the end."""
    named = str(program(Given.program, name="graphd_listen"))
    # (its program waits for a word before it becomes the server)
    gate, slow = old.with_name("config-gate"), old.with_name("config-slow")
    os.mkfifo(gate)
    slow.write_text(f'#!/bin/sh\n[ "$1" = --check ] || read word < "{gate}"\nexec "{named}" "$@"\n')
    slow.chmod(0o700)
    word = os.open(gate, os.O_RDWR)
    child = subprocess.Popen([*REPLAY, str(config), str(old), str(new), "--program", str(slow)], stdout=subprocess.DEVNULL)
    made = new.with_name(f"{new.name}.replaying") / "new"
    try:
        comes(lambda: made.exists() or child.poll() is not None)
        yield child
        os.write(word, b"go\n")
        child.wait(timeout=SECONDS)
    finally:
        os.close(word)
        child.kill()
        child.wait()


def of_one_client():
    """What a run did with another token for one that was gone is asked with the token that stands for that one now."""
    with tempfile.TemporaryDirectory() as folder:
        old, new = Path(folder) / "old", Path(folder) / "new"
        first, then = config_of(folder, of("a", "t1"), of("b", "b1")), config_of(folder, of("a", "t2"), of("b", "b1"))
        last = config_of(folder, of("a", "t3", "t2"), of("b", "b1"))
        page = {"op": "query", "text": "UNWIND range(1, 7) AS x RETURN x", "page": 2}
        acts = [("t1", page), ("t1", page), ("t1", page), *made(2, "t1"), ("b1", "begin"), ("t1", "begin"), ("t1", "CREATE (:N {i: 7})")]
        yield "pages, and a kill in a transaction", set(did(first, old, [*acts, ("b1", MAKE)])), {0}
        of_pages = [{"op": "pull", "page": 0}, {"op": "pull", "page": 1}, {"op": "drop_page", "page": 2}, *[{"op": "pull", "page": 0}] * 2]
        more = [*[("t2", act) for act in of_pages], *made(1, "t2"), ("t2", page), ("t2", {"op": "pull", "page": 3}), ("t2", "begin")]
        yield "another token goes on with them", set(did(then, old, [*more, ("t2", "CREATE (:N {i: 9})"), ("t2", "commit")])), {0}
        wanted = graph(then, old, "t2")
        yield "a start with a new token before it", graph(last, old, "t3"), wanted
        copy = Path(folder) / "copy"
        copy.write_bytes(old.read_bytes())
        with Running(last, copy) as server:
            found = Client(server.port, "t3").asks("pull", page=1).get("rows"), Client(server.port, "t2").asks("pull", page=3).get("rows")
            yield "where each holds its pages", found, ([[5], [6]], [[5], [6]])
        yield "they are asked anew", told_of(replayed(last, old), f"{len(records_of(old))} requests asked, 0 answered otherwise"), (0, [])
        yield "which leads to the same graph", (graph(last, new, "t2") == wanted, numbers(last, new, "b1")), (True, [[]])
        shown = [json.loads(it.body)["token"] for it in records_of(new) if it.tenant == b"a"]
        yield "each with the token of its client", shown, ["t3"] * 13 + ["t2"] * 6
        with Running(last, new) as server:
            found = Client(server.port, "t3").asks("pull", page=1).get("rows"), Client(server.port, "t2").asks("pull", page=3).get("rows")
            yield "and the pages that are left are held", found, ([[5], [6]], [[5], [6]])


def cases():
    for part in (plain, odd_names, refusals, differing, long_replies, faults, behind_faults, at_once, of_one_client):
        yield from part()
