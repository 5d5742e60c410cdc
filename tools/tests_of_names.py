"""Cases of tenants' names in a journal: tokens that change between runs, and tenants that go and come back."""
import io
import json
import subprocess
import tempfile
from pathlib import Path

import client_path  # (finds the package graphd)
import dumps
import graphd
import journals
from graphd_program import program
from journaled import Client, Given, Running, tenant
from tests_of_compaction import asked, compacted, told_of

ODD = ["with spaces", "'\"`\\", "Köln, Straße", "🦊 \u2028 graphs", "graphd_listen: ready at 1.2.3.4:5", "x" * 3_000, "ready answered 7"]
ODD += ["lines\ngraphd_listen: answered 3 requests of the journal again\ngraphd_listen: ready at 127.0.0.1:5\n"]
SAME_NAMES = "graphd_listen: with a journal, each tenant needs a name of its own"
MAKE = "CREATE (:N {i: 0})"


def of(name, *tokens, **quotas):
    """A tenant with these tokens, of which those may only read that begin with a minus."""
    rights = [{"token": it, "rights": "read" if it.startswith("-") else "write"} for it in tokens]
    return {**tenant(name, **{"max_held": 100, **quotas}), "tokens": rights}


def config_of(folder, *tenants):
    """A configuration in a file of its own."""
    path = Path(folder) / f"config{len(list(Path(folder).glob('config*')))}.json"
    path.write_text(json.dumps({"cache": 64, "tenants": tenants}))
    return path


def did(config, journal, acts):
    """What is answered to these acts, each of a token: their codes. The server is killed in the end."""
    with Running(config, journal) as server:
        clients = {token: Client(server.port, token) for token, _ in acts}
        return [asked(clients[token], act)["code"] for token, act in acts]


def made(count, *tokens):
    """Acts that make so many nodes by each of these tokens, which are told apart by their number."""
    return [(token, f"CREATE (:N {{i: {number * 10 + at}}})") for number, token in enumerate(tokens) for at in range(count)]


def numbers(config, journal, *tokens):
    """The numbers of the nodes that each token sees by a start of a copy."""
    copy = journal.with_name("looked-at")
    copy.write_bytes(journal.read_bytes())
    with Running(config, copy) as server:
        found = [Client(server.port, token).numbers() for token in tokens] if server.port else server.ended()
    copy.unlink()
    return found


def graph(config, journal, token):
    """All that a tenant has by a start of a copy, and its status."""
    copy = journal.with_name("looked-at")
    copy.write_bytes(journal.read_bytes())
    with Running(config, copy) as server, graphd.connect(server.port, token) as session:
        nodes, links, status = dumps.read(session)
    copy.unlink()
    return dumps.digest(nodes, links), status.next_node, status.next_rel, status.indexes


def records_of(journal):
    with open(journal, "rb") as file:
        return list(journals.records(file, tests=True))


def kept_in(text):
    """The records that count of a journal's bytes, as bytes."""
    return text[journals.HEAD :][: journals.tally(io.BytesIO(text))[0]]


def names_of(journal):
    return sorted({it.tenant.decode() for it in records_of(journal)})


def tokens_of(journal):
    return sorted({json.loads(it.body)["token"] for it in records_of(journal)})


def journal_of(found):
    """The bytes of a journal of these records."""
    digest, text = journals.NONE, bytearray()
    for it in found:
        part = journals.NUMBERS.pack(len(it.tenant), len(it.body), it.length, it.digest) + it.tenant + it.body
        digest = journals.digest_on(digest, part)
        text += part + digest.to_bytes(8, "big")
    mark, first = next(iter(journals.SLOTS.items()))
    head = (journals.NAME + bytes([mark])).ljust(first, b"\0") + journals.TALLY.pack(len(text), digest)
    return head.ljust(journals.HEAD, b"\0") + text


def rewrite(journal, change):
    """Writes a journal anew, with each record as `change` has it, and right digests."""
    journal.write_bytes(journal_of([change(it) for it in records_of(journal)]))


def without_name(record):
    """A record as older programs kept it."""
    return record._replace(tenant=b"")


def gone_lines(server):
    return [it for it in server.said if "in the configuration" in it]


def escaped(name):
    """A name as it is told: on one line."""
    for piece in "\\'\"\n\u2028":
        name = name.replace(piece, {"\n": "\\n", "\u2028": "\\u{2028}"}.get(piece, "\\" + piece))
    return name


def line_of(name, count):
    return f"graphd_listen: tenant {escaped(name)} is not in the configuration: {count} requests of it stay in the journal"


def tokens():
    """Tokens change between runs: each tenant has what it had."""
    with tempfile.TemporaryDirectory() as folder:
        journal = Path(folder) / "journal"
        first = config_of(folder, of("a", "a1", "-a2"), of("b", "b1"), of("c", "-c1"))
        then = config_of(folder, of("a", "-a2", "new", "newer"), of("b", "b1", "a1"), of("c", "-c9"))
        page = {"op": "query", "text": "UNWIND range(1, 5) AS x RETURN x", "page": 2}
        acts = [*made(3, "a1", "b1"), ("-a2", page), ("-c1", page)]
        yield "requests of three tenants", set(did(first, journal, acts)), {0}
        yield "each record has its tenant's name", names_of(journal), ["a", "b", "c"]
        kept = kept_in(journal.read_bytes())
        with Running(then, journal) as server:
            yield "they are answered again under other tokens", (server.again, gone_lines(server)), (8, [])
            clients = {token: Client(server.port, token) for token in ("new", "-a2", "a1", "-c9")}
            yield "a token that is new sees what its tenant has", clients["new"].numbers(), [0, 1, 2]
            yield "one that was another tenant's sees what its own one has", clients["a1"].numbers(), [10, 11, 12]
            yield "a token that stayed has its pages", clients["-a2"].asks("pull", page=0).get("rows"), [[3], [4]]
            of_gone = clients["-c9"].asks("pull", page=0).get("rows")
            yield "where none may write, the first one has those of one that is gone", of_gone, [[3], [4]]
            yield "what is new is kept", [asked(clients[it], MAKE)["code"] for it in ("new", "a1")], [0, 0]
        last = config_of(folder, of("a", "-a2", "a1"), of("b", "new"), of("c", "-c1"))
        yield "tokens change hands once more", numbers(last, journal, "a1", "new"), [[0, 0, 1, 2], [0, 10, 11, 12]]
        writing = json.loads(last.read_text())
        writing["tenants"][0]["tokens"] = [{"token": "-a2", "rights": "write"}]
        last.write_text(json.dumps(writing))
        yield "a token that only read may write", numbers(last, journal, "-a2"), [[0, 0, 1, 2]]
        yield "and does", did(last, journal, [("-a2", MAKE)]), [0]
        yield "which a start answers", numbers(last, journal, "-a2"), [[0, 0, 0, 1, 2]]
        yield "no record was changed by all that", kept_in(journal.read_bytes()).startswith(kept), True
        yield "each shows the token that its client had", tokens_of(journal), ["-a2", "-c1", "-c9", "a1", "b1", "new"]


def transactions():
    """A transaction that is open at the end, whose token is replaced, is rolled back."""
    with tempfile.TemporaryDirectory() as folder:
        journal = Path(folder) / "journal"
        first, then = config_of(folder, of("a", "a1"), of("b", "b1")), config_of(folder, of("b", "b1"), of("a", "new"))
        of_b = [("b1", act) for act in ("begin", "CREATE (:N {i: 2})", "commit")]
        acts = [("a1", "CREATE (:N {i: 1})"), *of_b, ("a1", "begin"), ("a1", "CREATE (:N {i: 3})")]
        yield "a transaction is open at the end", set(did(first, journal, acts)), {0}
        whole = journal.read_bytes()
        with Running(then, journal) as server:
            client = Client(server.port, "new")
            yield "under another token it is rolled back", (client.numbers(), client.asks("commit")["code"]), ([1], 41)
            yield "the tenant goes on", asked(client, "CREATE (:N {i: 4})")["code"], 0
        found = [(it.tenant, b"rollback" in it.body) for it in records_of(journal)[6:]]
        yield "the rollback is kept under the tenant's name", found, [(b"a", True), (b"a", False)]
        yield "a start answers it, again under the old token", numbers(first, journal, "a1", "b1"), [[1, 4], [2]]
        found = compacted(first, journal, "--drop-old")
        yield "a compaction knows that none is open", (found[0], "open at the end" in found[1]), (0, False)
        journal.write_bytes(whole)
        found = compacted(then, journal, "--drop-old")
        yield "and of one that is", told_of(found, "1 transaction open at the end"), (0, [])
        yield "which is rolled back", numbers(then, journal, "new", "b1"), [[1], [2]]
        journal.write_bytes(whole)
        rewrite(journal, without_name)
        yield "one of an older file is rolled back", numbers(first, journal, "a1"), [[1]]
        did(first, journal, [("a1", MAKE)])
        found = compacted(first, journal, "--drop-old")
        yield "by a request with a name, which ends it", (found[0], "open at the end" in found[1]), (0, False)


def gone():
    """A tenant that the configuration doesn't have: its requests stay."""
    with tempfile.TemporaryDirectory() as folder:
        journal = Path(folder) / "journal"
        # (a token of the one that goes is another one's then)
        both, alone = config_of(folder, of("a", "a1"), of("b", "b1")), config_of(folder, of("a", "a1", "b1"))
        acts = [*made(3, "a1", "b1"), ("b1", {"op": "create_index", "label": "N", "key": "i"}), ("b1", "begin"), ("b1", MAKE)]
        yield "requests of two tenants", set(did(both, journal, acts)), {0}
        whole = journal.read_bytes()
        with Running(alone, journal) as server:
            yield "those of one that is gone aren't answered", server.again, 3
            yield "which is told", gone_lines(server), [line_of("b", 6)]
            yield "they stay where they are", journal.read_bytes() == whole, True
            client = Client(server.port, "a1")
            yield "the other one has its state, and goes on", (client.numbers(), asked(client, MAKE)["code"]), ([0, 1, 2], 0)
        yield "what is new goes behind", [it.tenant for it in records_of(journal)], [b"a"] * 3 + [b"b"] * 6 + [b"a"]
        renamed = config_of(folder, of("a", "a1"), of("c", "b1"))
        with Running(renamed, journal) as server:
            yield "a tenant that is renamed is gone", gone_lines(server), [line_of("b", 6)]
            client = Client(server.port, "b1")
            yield "the new one is empty, and goes on", (client.numbers(), asked(client, "CREATE (:N {i: 7})")["code"]), ([], 0)
        other = config_of(folder, of("b", "b2"), of("a", "a1"))
        with Running(other, journal) as server:
            yield "a tenant that is put back is answered", (server.again, gone_lines(server)), (10, [line_of("c", 1)])
            client = Client(server.port, "b2")
            found = client.numbers(), client.asks("commit")["code"], client.asks("status")["indexes"]
            yield "it has its state, and no open transaction", found, ([10, 11, 12], 41, [["N", "i"]])
        three = config_of(folder, of("c", "c1"), of("b", "b1"), of("a", "a1"))
        yield "all in another order", numbers(three, journal, "a1", "b1", "c1"), [[0, 0, 1, 2], [10, 11, 12], [7]]


def many_gone():
    """Of many tenants that are gone, some are named; and names of any letters."""
    with tempfile.TemporaryDirectory() as folder:
        journal, names = Path(folder) / "journal", [f"t{place}" for place in range(18)]
        every = config_of(folder, *(of(name, f"{name}-1") for name in names), of("a", "a1"))
        alone = config_of(folder, of("a", "a1"))
        acts = [("a1", MAKE), *((f"{it}-1", MAKE) for it in names for _ in range(3))]
        yield "requests of many tenants", set(did(every, journal, acts)), {0}
        with Running(alone, journal) as server:
            found = gone_lines(server)
            yield "sixteen that are gone are named", ({*found[:16]} <= {line_of(it, 3) for it in names}, len({*found[:16]})), (True, 16)
            yield "the others are counted", found[16:], ["graphd_listen: requests of further tenants that are not in the configuration: 6"]
            yield "and one is answered", server.again, 1
        yield "all are put back", numbers(every, journal, "a1", *(f"{it}-1" for it in names)), [[0]] + [[0, 0, 0]] * 18
        odd, places = Path(folder) / "odd", range(len(ODD))
        first = config_of(folder, *(of(name, f"o{place}") for place, name in enumerate(ODD)))
        then = config_of(folder, *reversed([of(name, f"p{place}", f"o{(place + 1) % len(ODD)}") for place, name in enumerate(ODD)]))
        yield "tenants with names of any letters", set(did(first, odd, made(2, *(f"o{place}" for place in places)))), {0}
        yield "are found by them", numbers(then, odd, *(f"p{it}" for it in places)), [[it * 10, it * 10 + 1] for it in places]
        with Running(alone, odd) as server:
            yield "and told by them", sorted(gone_lines(server)), sorted(line_of(it, 2) for it in ODD)
            yield "of which none is taken for a line of its own", (server.again, Client(server.port, "a1").numbers()), (0, [])


def same_names():
    """Two tenants of one name are refused, and nothing is written."""
    with tempfile.TemporaryDirectory() as folder:
        journal = Path(folder) / "journal"
        twice = config_of(folder, of("a", "a1"), of("b", "b1"), of("a", "a2"))
        with Running(twice, journal) as server:
            status, told = server.ended()
        yield "two tenants of one name", (status, SAME_NAMES in told.splitlines()), (2, True)
        yield "make no journal", journal.exists(), False
        did(config_of(folder, of("a", "a1")), journal, made(2, "a1"))
        whole = journal.read_bytes()
        with Running(twice, journal) as server:
            yield "nor are they served from one", server.ended()[0], 2
        yield "which is as it was", journal.read_bytes() == whole, True
        done = subprocess.run([program(Given.program, name="graphd_listen"), "--check", twice], capture_output=True)
        yield "without a journal names are for people", done.returncode, 0


def older():
    """A file of an older version, whose records have no names."""
    with tempfile.TemporaryDirectory() as folder:
        journal = Path(folder) / "journal"
        config = config_of(folder, of("a", "a1"), of("b", "b1"))
        did(config, journal, made(3, "a1", "b1"))
        rewrite(journal, without_name)
        yield "records without names", names_of(journal), [""]
        with Running(config, journal) as server:
            yield "are answered by their tokens", (server.again, gone_lines(server)), (6, [])
            yield "what is new is kept", asked(Client(server.port, "a1"), MAKE)["code"], 0
        yield "with its tenant's name", [it.tenant for it in records_of(journal)], [b""] * 6 + [b"a"]
        yield "behind the others", numbers(config, journal, "a1", "b1"), [[0, 0, 1, 2], [10, 11, 12]]
        renamed = config_of(folder, of("c", "a1"), of("b", "b1"))
        with Running(renamed, journal) as server:
            found = server.again, gone_lines(server), Client(server.port, "a1").numbers()
            yield "names don't matter for them", found, (6, [line_of("a", 1)], [0, 1, 2])
        changed = config_of(folder, of("a", "new"), of("b", "b1"))
        with Running(changed, journal) as server:
            status, told = server.ended()
        why = "the request at byte 41 has a token that no tenant of the configuration has"
        yield "a token of theirs that is gone stops a start", (status, why in told), (5, True)


def differing():
    """A reply that isn't the kept one is told with what was kept."""
    with tempfile.TemporaryDirectory() as folder:
        journal = Path(folder) / "journal"
        config = config_of(folder, of("a", "a1"))
        did(config, journal, made(3, "a1"))
        kept = records_of(journal)
        rewrite(journal, lambda it: it._replace(length=it.length + 2, digest=7) if it.at == kept[1].at else it)
        whole = journal.read_bytes()
        with Running(config, journal) as server:
            status, told = server.ended()
        before, now = f"{kept[1].length + 2} bytes with digest 7", f"{kept[1].length} bytes with digest {kept[1].digest}"
        wanted = f"graphd_listen: the reply had {before} before, and has {now} now"
        yield "a reply that differs ends a start", (status, journal.read_bytes() == whole), (5, True)
        yield "it is told beside the kept one", [it for it in told.splitlines() if "digest" in it], [wanted]
        yield "the digest is that of tools/journals.py", kept[1].digest, journals.digest_of(b'{"code":0,"columns":[],"rows":[],"steps":1}')
        # (the third node finds no room)
        few = config_of(folder, of("a", "a1", max_elements=2))
        journal.write_bytes(journal_of(kept))
        with Running(few, journal) as server:
            yield "so is a refusal", (server.ended()[0], server.again), (5, None)


def compactions():
    """A journal with requests of tenants that are gone isn't made short, unless they are to be left out."""
    with tempfile.TemporaryDirectory() as folder:
        journal = Path(folder) / "journal"
        every = config_of(folder, of("a", "a1"), of("b", "b1"), of(ODD[1], "c1"), of("bare", "d1"))
        alone = config_of(folder, of("a", "new", "newer"), of("bare"))
        # (what the last one has was asked while it had a token)
        did(every, journal, [*made(9, "a1", "b1"), ("c1", MAKE), ("d1", MAKE)] * 20)
        whole = journal.read_bytes()
        found = compacted(alone, journal)
        told = "b (180 requests), " + ODD[1] + " (20 requests), bare (20 requests)"
        yield "tenants that are gone are named, and one without tokens", told_of(found, told, "--drop-gone", "is as it was"), (1, [])
        beside = sorted(it.name for it in Path(folder).iterdir())
        yield "and nothing is done", (journal.read_bytes() == whole, beside), (True, [every.name, alone.name, "journal"])
        found = compacted(every, journal)
        found = found[0], len(journal.read_bytes()) < len(whole), names_of(journal)
        yield "put back, they are kept", found, (0, True, sorted(["a", "b", ODD[1], "bare"]))
        yield "with what they have", numbers(every, journal, "b1", "c1", "d1"), [sorted([*range(10, 19)] * 20), [0] * 20, [0] * 20]
        rest = journal.read_bytes()
        found = compacted(alone, journal, "--drop-gone", "--drop-old")
        yield "else they are left out where that is asked for", told_of(found, "left out", "b (", "bare ("), (0, [])
        yield "which is the last of them", (names_of(journal), tokens_of(journal)), (["a"], ["new"])
        yield "and of nothing else", numbers(alone, journal, "new"), [sorted([*range(9)] * 20)]
        found = compacted(alone, journal, "--drop-old")
        yield "none is gone then", (found[0], "left out" in found[1]), (0, False)
        journal.write_bytes(rest)
        add_status(every, journal, "a1")
        found = compacted(alone, journal, "--drop-gone", "--drop-old")
        yield "also behind a status of an older program, which tells quotas", told_of(found, "left out", "bare ("), (0, [])
        yield "and the state is the same", numbers(alone, journal, "new"), [sorted([*range(9)] * 20)]
        found = compacted(config_of(folder, of("bare")), journal, "--drop-gone", "--drop-old")
        yield "a configuration without any token makes nothing", told_of(found, "no tenant has a token"), (1, [])


def add_status(config, journal, token):
    """Puts a request for a status behind the others, as older programs kept it."""
    copy = journal.with_name("asked")
    copy.write_bytes(journal.read_bytes())
    with Running(config, copy) as server:
        reply = json.dumps(Client(server.port, token).asks("status"), sort_keys=True, separators=(",", ":")).encode()
    copy.unlink()
    body = json.dumps({"op": "status", "token": token}).encode()
    journal.write_bytes(journal_of([*records_of(journal), journals.Record(b"a", body, len(reply), journals.digest_of(reply), 0)]))


def ended_by_another():
    """A transaction of a token that is gone, which a later run rolled back: a start answers it with the token that holds it, wherever new ones stand."""
    with tempfile.TemporaryDirectory() as folder:
        journal = Path(folder) / "journal"
        first, then = config_of(folder, of("a", "t1")), config_of(folder, of("a", "t2"))
        behind, before = config_of(folder, of("a", "t2", "t3")), config_of(folder, of("a", "t3", "t2"))
        acts = [*made(2, "t1"), ("t1", "begin"), ("t1", "CREATE (:N {i: 7})")]
        yield "a kill in a transaction", set(did(first, journal, acts)), {0}
        yield "a start under another token rolls it back, and goes on", did(then, journal, [("t2", "CREATE (:N {i: 8})")]), [0]
        yield "with that token", [json.loads(it.body)["token"] for it in records_of(journal)[4:]], ["t2", "t2"]
        whole = journal.read_bytes()
        yield "with a new token before it", numbers(before, journal, "t2", "t3"), [[0, 1, 8]] * 2
        yield "with one behind it", numbers(behind, journal, "t2", "t3"), [[0, 1, 8]] * 2
        yield "no record is changed by that", kept_in(journal.read_bytes()), kept_in(whole)
        yield "it is made short", compacted(behind, journal, "--drop-old")[0], 0
        yield "then with one before it", numbers(before, journal, "t2", "t3"), [[0, 1, 8]] * 2


def cases():
    for part in (tokens, transactions, gone, many_gone, same_names, older, differing, compactions, ended_by_another):
        yield from part()
