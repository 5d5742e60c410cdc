"""Cases of tools/graphd_compact: the new journal leads to the same graphs, and whatever goes wrong, the old one stays."""
import json
import os
import random
import subprocess
import sys
import tempfile
import time
from pathlib import Path

import client_path  # (finds the package graphd)
import dumps
import graphd
import journals
from graphd_program import ROOT, program
from journaled import Client, Given, Running, configuration, limit, tenant
from machine import SECONDS

COMPACT = [sys.executable, str(ROOT / "tools" / "graphd_compact")]
WIDE = {"list": [], "mixed": [True, "a", -1, "é\n"], "least": -(2**63), "no": False, "one": 1, "text": "'\"`\\", "odd `key{}": ""}
# what is asked of a tenant before its journal is made short: requests by their words, or queries, of which some have parameters
HISTORIES = {
    "kinds of values": [("CREATE (:A $p)-[:T $p]->(:B $p), ({t: $t, l: [true, 1, '1']})", {"p": WIDE, "t": "\u0000\u2028x" * 9})],
    "labels and types of any letters": ["CREATE (:A:`b ``c {d}`:`é\n`)-[:`T ``{u}`]->(:A), (:Restored {restored: 1, restored0_: 2})-[:T]->()"],
    "parallel relationships and loops": ["CREATE (a:A)-[:T]->(b:B), (a)-[:T]->(b), (b)-[:U]->(a), (a)-[:T]->(a), (a)-[:T {i: 1}]->(a)"],
    "ids that are missing": [
        "UNWIND range(1, 700) AS i CREATE (x:Q {i: i})-[:W {i: i}]->(x)",
        "MATCH (x:Q) WHERE x.i % 7 <> 0 OR 200 < x.i AND x.i < 600 DETACH DELETE x",
        "MATCH (x:Q)-[r]->() WHERE x.i % 2 = 0 DELETE r",
    ],
    "the last ids are missing": ["CREATE (a:A)-[:T]->(b)-[:T]->(c:C)-[:T]->(d)", "MATCH (c:C) DETACH DELETE c", "CREATE (x:X) DELETE x"],
    "nothing but counters": ["UNWIND range(1, 500) AS i CREATE (a)-[:T]->(b)", "MATCH (n) DETACH DELETE n", {"op": "create_index", "label": "A", "key": "k"}],
    "nodes that were counted, and nothing more": ["UNWIND range(1, 5) AS i CREATE (a) DELETE a"],
    "indexes": [
        "UNWIND range(1, 30) AS i CREATE (:A {k: i % 3, t: ['x', i]})",
        *({"op": "create_index", "label": "A", "key": key} for key in ("k", "t", "`", "a b", "line\nend")),
        {"op": "create_index", "label": "Restored", "key": "restored"},
        {"op": "drop_index", "label": "A", "key": "t"},
    ],
    "sixteen indexes": ["CREATE (:A)-[:T]->(:B)", *({"op": "create_index", "label": "A", "key": f"k{at}"} for at in range(16))],
    "transactions": ["begin", "CREATE (:A)", "commit", "begin", "CREATE (:B)-[:T]->(:B)", "rollback", "CREATE (:C)", "begin", "MATCH (n) DETACH DELETE n"],
    "values that no request holds": [
        *[("MERGE (n:L {i: 1}) SET n.t = coalesce(n.t, '') + $t", {"t": "é\u0001" * 80_000})] * 4,
        ("MATCH (n:L) SET n.l = ['b', n.t] SET n.z = n.t", {}),
        "MATCH (n:L) SET n.l = n.l + ['end', 1] CREATE (n)-[:T {x: 1}]->(n) CREATE ()-[:U]->()",
        "MATCH (n:L)-[r:T]->() SET r.t = n.t SET r.m = ['a'] + n.l",
    ],
}
# the same of tenants that are full
FULL = {
    "a full tenant, whose last ids of nodes are missing": ["CREATE (:A), (:B)", "CREATE (x) DELETE x", "MATCH (a:A), (b:B) CREATE (a)-[:T]->(b)"],
    "a full tenant, whose last ids of relationships are missing": ["CREATE (a:A)-[r:T]->(a) DELETE r", "CREATE (:B), (:C)"],
    "a full tenant, of which all were deleted": ["CREATE (a)-[:T]->(b)", "MATCH (n) DETACH DELETE n", "CREATE (), (), ()"],
}


def asked(client, act):
    """What is answered to a word, a query, or a request that is whole."""
    if isinstance(act, dict):
        return client.asks(**act)
    if isinstance(act, str) and act in ("begin", "commit", "rollback"):
        return client.asks(act)
    text, params = (act, {}) if isinstance(act, str) else act
    return client.asks(text=text, params=params)


def fill(config, journal, histories, tokens=None):
    """Makes a journal by the histories of tenants; it is killed in the end. What was refused is given back."""
    with Running(config, journal) as server:
        clients = [Client(server.port, token) for token in tokens or [f"t{place}-1" for place in range(len(histories))]]
        replies = [(act, asked(client, act)) for client, acts in zip(clients, histories) for act in acts]
    return [(act, reply) for act, reply in replies if reply["code"]]


def states(config, journal, count):
    """What each tenant has by a start of this journal, which is copied first."""
    copy = journal.with_name("looked-at")
    copy.write_bytes(journal.read_bytes())
    with Running(config, copy) as server:
        found = []
        for place in range(count):
            with graphd.connect(server.port, f"t{place}-1") as session:
                nodes, links, status = dumps.read(session)
                found.append((dumps.digest(nodes, links), status))
        return found


def compacted(config, journal, *words, most_bytes=None, executable=None):
    """The status of a run, and what it told."""
    named = str(executable or program(Given.program, name="graphd_listen"))
    done = subprocess.run(
        [*COMPACT, str(config), str(journal), "--program", named, *words], capture_output=True, text=True, preexec_fn=lambda: limit(most_bytes), restore_signals=False
    )
    return done.returncode, done.stdout + done.stderr


def requests_of(journal):
    """The bodies of a journal."""
    with open(journal, "rb") as file:
        return [record.body for record in journals.records(file)]


def size_of(file):
    return file.stat().st_size if file.exists() else None


def numbered(count, **quotas):
    return [tenant(f"t{place}-", **quotas) for place in range(count)]


def of_histories(folder, histories, **quotas):
    """All at once, each of a tenant of its own: what they have is the same behind the compaction."""
    # (what they have is looked at under a quota that allows it)
    wide = configuration(folder, *numbered(len(histories), **{**quotas, "max_steps": 10_000_000})).rename(folder / "wide.json")
    config, journal = configuration(folder, *numbered(len(histories), **quotas)), folder / "journal"
    refused = fill(config, journal, histories.values())
    yield f"{len(histories)} histories are made", refused, []
    before, size = states(wide, journal, len(histories)), journal.stat().st_size
    status, told = compacted(config, journal)
    yield "they are made short", (status, told) if status else 0, 0
    after = states(wide, journal, len(histories))
    yield from ((title, found, wanted) for title, found, wanted in zip(histories, after, before))
    yield "the old journal stays beside", size_of(folder / "journal.before"), size
    yield "and nothing else", sorted(it.name for it in folder.iterdir()), ["config.json", "journal", "journal.before", "looked-at", "wide.json"]


def histories():
    with tempfile.TemporaryDirectory() as made:
        yield from of_histories(Path(made), HISTORIES)
    with tempfile.TemporaryDirectory() as made:
        yield from of_histories(Path(made), FULL, max_elements=3)
    with tempfile.TemporaryDirectory() as made:
        yield from of_histories(Path(made), {"few steps": ["CREATE (:A {k: 1})-[:T]->(:B)"] * 5 + ["MATCH (n:B {x: 1}) RETURN n"]}, max_steps=10)


GROWN = ["UNWIND range(1, 60) AS i CREATE (:A {i: i})-[:T]->(:B)", *["MATCH (a:A) SET a.i = a.i + 1"] * 200]


def changed():
    """A token leaked, and a quota is made smaller: under the quota of before the journal is made short, and then answered under the smaller one."""
    with tempfile.TemporaryDirectory() as made:
        folder = Path(made)
        old, config, journal = folder / "old.json", folder / "config.json", folder / "journal"
        configuration(folder, tenant("a")).rename(old)
        acts = [*GROWN, "UNWIND range(1, 1000) AS i CREATE (:Gone)", "MATCH (n:Gone) DELETE n"]
        with Running(old, journal) as server:
            replies = [asked(Client(server.port, "a1"), act)["code"] for act in acts]
        yield "a journal of a token that leaked", set(replies), {0}
        told = json.loads(old.read_bytes())
        told["tenants"][0]["tokens"] = [{"token": "new", "rights": "write"}]
        old.write_text(json.dumps(told))
        told["tenants"][0].update(max_steps=1_000, max_elements=500)
        config.write_text(json.dumps(told))
        with Running(config, journal) as server:
            yield "a start under smaller quotas stops", server.ended()[0], 5
        yield "it is made short by the new token", told_of(compacted(old, journal), "tenant 0 (a): 120 nodes"), (0, [])
        yield "it names the new token alone", {json.loads(body)["token"] for body in requests_of(journal)}, {"new"}
        with Running(config, journal) as server:
            yield "a start under smaller quotas", Client(server.port, "new").asks("status")["elements"], 180


def told_of(found, *wanted):
    """The status, and which of the wanted words aren't told."""
    status, told = found
    return status, [it for it in wanted if it not in told] and told


def uses():
    """What is told, what is kept, and what serves then."""
    with tempfile.TemporaryDirectory() as made:
        folder = Path(made)
        config, journal = configuration(folder, tenant("a", max_held=10, rights=("write", "read")), tenant("b"), tenant("c", rights=("read",)), tenant("d", rights=())), folder / "journal"
        with Running(config, journal) as server:
            client, reader, other = (Client(server.port, token) for token in ("a1", "a2", "b1"))
            for act in GROWN:
                asked(client, act)
            reader.asks(text="UNWIND [1, 2, 3] AS x RETURN x", page=1)
            asked(other, "begin")
            asked(other, "CREATE (:Lost)")
            yield "a journal that is served is left alone", told_of(compacted(config, journal), "a server has it open"), (1, [])
        journal.chmod(0o640)
        size, copy = journal.stat().st_size, folder / "copy"
        copy.write_bytes(journal.read_bytes())
        with Running(config, copy) as server:
            is_held = Client(server.port, "a2").asks("pull", page=0)["code"] == 0
        found = compacted(config, journal)
        words = (*["tenant 0 (a): rows are held in pages"] * is_held, "1 transaction open at the end", "tenant 0 (a): 120 nodes, 60 relationships, 0 indexes", "journal.before")
        yield "what is lost is told", told_of(found, *words), (0, [])
        yield "it is shorter", journal.stat().st_size < size, True
        yield "it has the rights of the old one", journal.stat().st_mode & 0o777, 0o640
        with Running(config, journal) as server:
            asked(Client(server.port, "b1"), "CREATE (:New)")
        with Running(config, journal) as server:
            replies = [Client(server.port, "b1").asks(text="MATCH (n) RETURN id(n), labels(n)")["rows"], Client(server.port, "a2").asks("pull", page=0)["code"]]
        yield "it is served, and keeps what is new", replies, [[[0, ["New"]]], 43]
        yield "an old journal that is there is left", told_of(compacted(config, journal), "journal.before is there already"), (1, [])
        before = journal.with_name("journal.before").read_bytes()
        yield "unless none is to be kept", (compacted(config, journal, "--drop-old")[0], journal.with_name("journal.before").read_bytes() == before), (0, True)


def faults():
    """Whatever goes wrong, the file is as it was, and nothing is left beside it."""
    with tempfile.TemporaryDirectory() as made:
        folder = Path(made)
        config, journal = configuration(folder, *numbered(1)), folder / "journal"
        fill(config, journal, [GROWN])
        whole = journal.read_bytes()

        def left(title, found, *wanted):
            beside = sorted(it.name for it in folder.iterdir())
            return title, (*told_of(found, *wanted), journal.read_bytes() == whole, beside), (1, [], True, ["config.json", "journal"])

        yield left("a disk that is full at once", compacted(config, journal, most_bytes=len(whole) // 2), "File too large", "is as it was")
        # (the copy has room, and the new journal hasn't: the old one is the longer by little)
        fill(config, journal, [["CREATE (:C $p)", *[("MATCH (c:C) SET c += $p", {"p": {f"k{at}": "x" * 9_000 for at in range(9)}})] * 2][1:]])
        whole = journal.read_bytes()
        other = folder / "other.json"
        for words, change in {
            ("the requests are answered otherwise",): {"max_elements": 3},
            ("the requests are answered otherwise", "answered 0 requests"): {"tokens": [{"token": "t0-1", "rights": "read"}]},
        }.items():
            other.write_text(json.dumps({"cache": 64, "tenants": [{**tenant("t0-"), **change}]}))
            found = compacted(other, journal)
            other.unlink()
            yield left(f"another configuration, by {[*change][0]}", found, *words)
        other.write_text("{")
        found = compacted(other, journal)
        other.unlink()
        yield left("no configuration", found, "configuration: not JSON")
        journal.write_bytes(whole[:50] + bytes([whole[50] ^ 255]) + whole[51:])
        yield "a changed byte", told_of(compacted(config, journal), "is as it was")[0], 1
        journal.write_bytes(b"x" * 100)
        yield "no journal", told_of(compacted(config, journal), "no whole journal: it doesn't begin as a journal does", "is as it was"), (1, [])
        yield "no file", told_of(compacted(config, folder / "none"), "No such file"), (1, [])


def bounded():
    """A new journal that finds no room, and a tenant whose quota is too small to read all that it has."""
    with tempfile.TemporaryDirectory() as made:
        folder = Path(made)
        config, journal = configuration(folder, *numbered(1)), folder / "journal"
        # what is made again takes more bytes than what was asked
        fill(config, journal, [["UNWIND range(1, 20000) AS i CREATE (:A {k: i, t: 'a text that is long enough'})"]])
        whole = journal.read_bytes()
        found = compacted(config, journal, most_bytes=100_000)
        yield "a disk that is full later", (*told_of(found, "graphd_listen ended with status", "is as it was"), journal.read_bytes() == whole), (1, [], True)
        few = configuration(folder, *numbered(1, max_steps=150))
        journal.unlink()
        fill(few, journal, [["UNWIND range(1, 30) AS i CREATE (:A {i: i})"] * 3 + [{"op": "status"}]])
        status, told = compacted(few, journal)
        # (no reply that tells the quota is kept, so it can be raised)
        yield "a tenant of few steps", (status, told) if status else 0, 0


def killed(count=12):
    """It is killed at any moment, and goes on later: the old journal or the new one is there, whole, and leads to the same."""
    with tempfile.TemporaryDirectory() as made:
        folder = Path(made)
        config, journal = configuration(folder, *numbered(2)), folder / "journal"
        fill(config, journal, [GROWN, ["CREATE (:B)-[:T]->(:C)"] * 20])
        wanted, moments = states(config, journal, 2), []
        began = time.monotonic()
        yield "a compaction that isn't killed", compacted(config, journal)[0], 0
        seconds, whole = time.monotonic() - began, journal.with_name("journal.before").read_bytes()
        both = requests_of(journal.with_name("journal.before")), requests_of(journal)
        for turn in range(count):
            journal.with_name("journal.before").unlink(missing_ok=True)
            journal.unlink()
            journal.write_bytes(whole)
            moment = seconds * (random.random() if turn % 2 else random.uniform(0.8, 1.1))
            stop(config, journal, moment)
            yield f"killed, {turn + 1}", (requests_of(journal) in both, states(config, journal, 2) == wanted), (True, True)
        # what a kill between its two names leaves
        journal.with_name("journal.before").unlink(missing_ok=True)
        os.link(journal, journal.with_name("journal.before"))
        yield "a journal of two names", (compacted(config, journal)[0], states(config, journal, 2) == wanted), (0, True)
        foreign = journal.with_name("journal.compacting") / "letter"
        foreign.parent.mkdir(exist_ok=True)
        foreign.write_text("to a friend")
        yield "a folder with another's file", (compacted(config, journal, "--drop-old")[0], foreign.read_text()), (1, "to a friend")
        foreign.unlink()
        again = compacted(config, journal, "--drop-old")
        yield "and then again", (again[0] and again, states(config, journal, 2) == wanted, journal.with_name("journal.compacting").exists()), (0, True, False)


def stop(config, journal, seconds):
    """Kills a run after so many seconds, and waits until its servers have ended."""
    named = str(program(Given.program, name="graphd_listen"))
    child = subprocess.Popen([*COMPACT, str(config), str(journal), "--program", named], stdout=subprocess.PIPE, stderr=subprocess.PIPE)
    time.sleep(seconds)
    child.kill()
    child.communicate(timeout=SECONDS)


def cases():
    for part in (histories, uses, changed, faults, bounded, killed):
        yield from part()
