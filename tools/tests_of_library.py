"""Tests of the client library."""
import asyncio
import contextlib
import inspect
import io
import json
import pickle
import re
import select
import shutil
import socket
import struct
import subprocess
import threading
import unittest

import client_path  # (finds the package graphd)
import graphd
import graphd.aio as aio
from graphd.aio_waiting import within
from graphd_program import ROOT
from machine import times_as_long
from tests_of_clients import CONFIG, LATE, SECONDS, SLOW, Relay, comes, command, folder, interrupted, late, listening, reserved_port, slowed


def in_threads(count, work):
    """Runs the work in so many threads at once, each with its number, and gives the faults that came."""
    faults = []

    def run(number):
        try:
            work(number)
        except BaseException as fault:
            faults.append(fault)

    threads = [threading.Thread(target=run, args=(number,), daemon=True) for number in range(count)]
    for thread in threads:
        thread.start()
    for thread in threads:
        thread.join(SECONDS)
        if thread.is_alive():
            faults.append(TimeoutError("a thread still waits"))
    return faults


async def it_comes(holds):
    """Whether it comes to hold, while other tasks go on."""
    return await asyncio.get_running_loop().run_in_executor(None, comes, holds)


def echoes(session, number, times):
    """Asks for values of this thread alone, and fails where another's come."""
    for turn in range(times):
        wanted = number * 1000 + turn
        found = session.query("RETURN $x AS x", x=wanted).value()
        assert found == wanted, f"{found} in place of {wanted}"


class Requests(unittest.TestCase):
    def setUp(self):
        self.session = graphd.start(command(), "a1")

    def test_queries(self):
        with self.session as graph:
            made = graph.query("CREATE (n:P {name:'x'}) RETURN n, id(n) AS id")
            self.assertEqual(made.columns, ["n", "id"])
            self.assertEqual(made.rows[0]["n"], graphd.Node(0, ("P",), {"name": "x"}))
            self.assertEqual((made.rows[0][1], made.steps), (0, 2))
            self.assertEqual(graph.query("RETURN 1").value(), 1)
            self.assertEqual(graph.status().elements, 1)

    def test_results_by_rows_and_columns(self):
        with self.session as graph:
            found = graph.query("UNWIND $xs AS x RETURN x, x + $d AS y", {"xs": [1, 2]}, d=10)
            self.assertEqual(found.data(), [{"x": 1, "y": 11}, {"x": 2, "y": 12}])
            self.assertEqual([row["y"] for row in found], [11, 12])
            row = found.rows[0]
            self.assertEqual((row.get("x"), row.get("z"), row.get("z", 7), dict(row), row[1:]), (1, None, 7, {"x": 1, "y": 11}, [11]))
            with self.assertRaises(KeyError):
                row["z"]
            self.assertEqual(graph.query("RETURN 1 AS x, 2 AS y").single()["y"], 2)
            for wrong in (found.single, found.value):
                with self.assertRaises(ValueError):
                    wrong()

    def test_parameters_given_twice(self):
        with self.assertRaises(ValueError):
            self.session.query("RETURN $x", {"x": 1}, x=2)

    def test_refusals(self):
        with self.session as graph:
            for text, kind in [("RETURN", graphd.BadSyntax), ("MATCH (a) RETURN b", graphd.UndefinedVariable)]:
                with self.assertRaises(kind):
                    graph.query(text)
            graph.token = "nobody"
            with self.assertRaises(graphd.UnknownToken) as refused:
                graph.status()
            self.assertEqual((refused.exception.code, refused.exception.name, refused.exception.place), (3, "UnknownToken", None))
            self.assertIn("token", refused.exception.advice)

    def test_refusals_tell_their_place(self):
        with self.session as graph:
            with self.assertRaises(graphd.UndefinedVariable) as refused:
                graph.query("MATCH (node)\nRETURN nod")
            place = refused.exception.place
            self.assertEqual((place.line, place.column, place.length, place.offset), (2, 8, 3, 20))
            self.assertIn("did you mean node?", str(refused.exception))
            with self.assertRaises(graphd.MissingParameter) as refused:
                graph.query("RETURN $a, $b", a=1)
            self.assertEqual((refused.exception.place.column, "$b" in refused.exception.place.why), (12, True))
            with self.assertRaises(graphd.DivisionByZero) as refused:
                graph.query("RETURN 1 / 0")
            self.assertIsNone(refused.exception.place)

    def test_faults_of_texts_are_told(self):
        # a text, the number of its fault, line and column, and a part of what is told
        told = [
            ("MATCH (n RETURN n", 7, 1, 10, "RETURN can't stand here: wanted is ':', '{' or ')'"),
            ("RETURN 1 +", 7, 1, 11, "the text ends: wanted is an expression"),
            ("MATCH (n)\r\nRETRUN n", 7, 2, 1, "did you mean RETURN?"),
            ("RETURN 1.5", 7, 1, 10, "no fractions"),
            ("RETURN 1 == 1", 7, 1, 11, "equal is ="),
            ("MATCH (n:A|B) RETURN n", 7, 1, 11, "no choice"),
            ("RETURN [x IN [1] WHERE x > 1]", 7, 1, 18, "no list comprehensions"),
            ("RETURN [x IN [1] | x]", 7, 1, 18, "no list comprehensions"),
            ("WITH [1] AS l RETURN l[0..1]", 7, 1, 25, "no slices"),
            ("MATCH (a), (b) WHERE (a)-->(b) RETURN a", 7, 1, 27, "a pattern is no condition"),
            ("MATCH (a), (b) WHERE NOT (a)-[:T]->(b) RETURN a", 7, 1, 31, "a pattern is no condition"),
            ("CREATE (n) MATCH (m) RETURN m", 7, 1, 12, "WITH stands between"),
            ("CALL db.labels()", 7, 1, 1, "no procedures"),
            ("RETURN 1 != 1", 6, 1, 10, "unequal is <>"),
            ("MATCH (n) WHERE n.k =~ 'a' RETURN n", 6, 1, 22, "no regular expressions"),
            ("RETURN 'a\\x'", 6, 1, 10, "no such escape"),
            ("RETURN 'a", 6, 1, 8, "isn't closed"),
            ("RETURN 007", 6, 1, 8, "leading zero"),
            ("RETURN " + "(" * 65 + "1" + ")" * 65, 8, 1, 72, "64 deep"),
            ("MATCH (n)\n RETURN m", 9, 2, 9, "the variable m isn't in scope"),
            ("UNWIND [1] AS x UNWIND [2] AS x RETURN x", 10, 1, 31, "of this name already"),
            ("RETURN count(*) + 1", 11, 1, 8, "name it by WITH"),
            ("MATCH (a)-[:T*]->(b) RETURN b", 12, 1, 10, "upper bound"),
            ("CREATE (a)-[:T]-(b)", 12, 1, 11, "one direction"),
            ("RETURN sise([])", 13, 1, 8, "did you mean size?"),
            ("RETURN range(1)", 13, 1, 8, "range takes 2 to 3 arguments"),
            ("RETURN 1 AS x, 2 AS x", 14, 1, 16, "of this name already"),
            ("RETURN $x, $y", 15, 1, 8, "the parameter $x has no value"),
        ]
        for text, *wanted, part in told:
            found = graphd.fault_of(text)
            self.assertEqual([found.code, found.line, found.column], wanted, text)
            self.assertIn(part, found.why)
        self.assertIsNone(graphd.fault_of("MATCH (n) RETURN $x", ["x"]))

    def test_faults_of_long_texts_are_told_soon(self):
        # in time of their length: four times as long ones may take some four times as long
        self.assertLessEqual(times_as_long(8, lambda: self.tell_faults(7_500), lambda: self.tell_faults(30_000)), 8)

    def tell_faults(self, size):
        long = "a" * size
        for text, code in [
            ("RETURN " + "1 + " * (size // 2) + "x", 9),
            ("RETURN " + "1 + " * (size // 4) + "1 AS a ORDER BY " + "1 + " * (size // 4) + "x", 9),
            (f"UNWIND [1] AS {long}b RETURN {long}c", 9),
            (f"RETURN {long}x(1)", 13),
            (f"RETURN 1 {long}", 7),
            ("UNWIND [" + ", ".join(f"a{n}" for n in range(size // 4)) + "] AS x RETURN 1", 9),
            ("RETURN " + "[" * (2 * size), 8),
            ("RETURN '" + "a" * (2 * size), 6),
            ("RETURN " + "1" * (2 * size), 6),
            ("RETURN x" + ".y" * size, 9),
        ]:
            self.assertEqual(graphd.fault_of(text).code, code, text[:40])

    def test_each_refusal_has_a_class(self):
        for code, kind in graphd.REFUSALS.items():
            self.assertEqual((kind.code, kind.name, getattr(graphd, kind.name)), (code, kind.__name__, kind))
            self.assertTrue(kind.advice and kind.__doc__)
            copied = pickle.loads(pickle.dumps(kind().of_query("RETURN", ["x"])))
            self.assertEqual(repr(copied), repr(kind()))
            self.assertEqual((type(copied), copied.code, copied.text, copied.given), (kind, code, "RETURN", ("x",)))

    def test_parameters_are_tested_first(self):
        deep = []
        for _ in range(64):
            deep = [deep]
        for wrong in (1.5, 2**63, {1: 2}, graphd.Node(0, (), {}), [object()], deep, "\ud800", {"\udfff": 1}):
            with self.assertRaises((TypeError, ValueError)):
                self.session.query("RETURN $x", x=wrong)
        with self.session as graph:
            self.assertEqual(graph.query("RETURN size($x) AS x", x=deep[0]).value(), 1)

    def test_a_request_that_is_too_long_ends_no_server(self):
        with self.session as graph:
            graph.query("CREATE (:P)")
            with self.assertRaises(graphd.FrameTooLong):
                graph.query("RETURN size($x)", x="a" * 1_048_576)
            self.assertEqual(graph.status().elements, 1)

    def test_a_map_with_an_elements_keys_is_a_map(self):
        for told in ({"$node": True, "labels": 1, "properties": 2}, {"$path": []}, {"$path": [1]}, {"$rel": 1}):
            self.assertIsInstance(graphd.value_of(told), dict)

    def test_values_are_spelt_as_they_came(self):
        text = "CREATE p = (:A {x: [1]})-[:T {y: {}}]->(:B) RETURN p, {a: [null]} AS m"
        with self.session as graph:
            body = {"op": "query", "token": "a1", "text": text.replace(" {y: {}}", "")}
            told = json.loads(graph.exchange(json.dumps(body).encode()))["rows"][0]
            self.assertEqual([graphd.spelt(graphd.value_of(value)) for value in told], told)

    def test_properties_of_elements_by_their_keys(self):
        with self.session as graph:
            node, link = graph.query("CREATE (n:P {name:'x', at: 1})-[r:K {w: 2}]->(:P) RETURN n, r").rows[0]
        self.assertEqual((node["name"], node.get("at"), node.get("none"), node.get("none", 7), link["w"]), ("x", 1, None, 7, 2))
        self.assertEqual(("at" in node, "none" in node, sorted(node), dict(link.properties)), (True, False, ["at", "name"], {"w": 2}))
        with self.assertRaises(KeyError):
            node["none"]

    def test_blocks_within_blocks(self):
        with self.session as graph:
            with graph:
                graph.query("CREATE (:P)")
            self.assertEqual(graph.status().elements, 1)

    def test_a_server_that_has_ended_is_told(self):
        with graphd.start([shutil.which("false")], "a1") as graph:
            for _ in range(2):
                with self.assertRaises(graphd.ConnectionLost):
                    graph.status()
        with self.assertRaises(graphd.ConnectionLost):
            graphd.start(["/nonexistent/graphd"], "a1").status()


class Connections(unittest.TestCase):
    def test_no_server(self):
        with reserved_port() as port, self.assertRaises(graphd.NotSent):
            graphd.connect(port, "a1").status()

    def test_addresses(self):
        for wrong in (0, 65536, "http://x", "graphd://", "graphd://a1@x:1", "graphd://x:70000"):
            with self.assertRaises(ValueError, msg=wrong):
                graphd.connect(wrong, "a1")
        with listening(CONFIG) as server:
            for where in (server.port, f"graphd://127.0.0.1:{server.port}", f"127.0.0.1:{server.port}"):
                self.assertEqual(graphd.connect(where, "a1").status().elements, 0)

    def test_another_server_is_told(self):
        with socket.create_server(("127.0.0.1", 0)) as listener:
            def answer():
                with listener.accept()[0] as taken:
                    taken.recv(1000)
                    taken.sendall(b"HTTP/1.1 400 Bad Request\r\n\r\n")
            threading.Thread(target=answer, daemon=True).start()
            with self.assertRaises(graphd.NotGraphd):
                graphd.connect(listener.getsockname()[1], "a1").status()

    def test_a_server_that_starts_later_is_waited_for(self):
        with reserved_port() as port:
            server = subprocess.Popen(["sh", "-c", 'sleep 0.7; exec "$@"', "", command()[0], "serve", str(CONFIG), str(port), "1"])
            try:
                self.assertEqual(graphd.connect(port, "a1", wait=SECONDS).status().elements, 0)
            finally:
                server.kill()
                server.wait()

    def test_threads_share_a_session(self):
        with graphd.start(command(), "a1") as graph:
            self.assertEqual(in_threads(8, lambda number: echoes(graph, number, 40)), [])
        with listening(CONFIG) as server:
            with graphd.connect(server.port, "a1") as graph:
                self.assertEqual(in_threads(8, lambda number: echoes(graph, number, 40)), [])

    def test_threads_share_a_pool(self):
        with listening(CONFIG) as server, graphd.pool(server.port, "a1", size=3) as pool:
            before = server.sockets()
            self.assertEqual(in_threads(8, lambda number: echoes(pool, number, 40)), [])
            self.assertLessEqual(server.sockets(), before + 3)

    def test_an_interrupt_leaves_no_reply_for_the_next_request(self):
        with folder() as made, late(CONFIG, made) as server:
            for opened in (lambda: graphd.connect(server.port, "a1"), lambda: graphd.start([str(slowed(server.gate)), "run", str(CONFIG)], "a1")):
                with opened() as graph:
                    with self.assertRaises(KeyboardInterrupt), interrupted(server.gate):
                        graph.query(f"RETURN 1 AS x {SLOW}")
                    self.assertEqual(graph.query("RETURN 2 AS x").value(), 2)

    def test_a_reply_that_takes_too_long(self):
        with folder() as made, late(CONFIG, made) as server:
            for graph in (graphd.connect(server.port, "a1"), graphd.start([str(slowed(server.gate)), "run", str(CONFIG)], "a1")):
                with graph:
                    graph.timeout = LATE
                    with self.assertRaises(graphd.TimedOut):
                        graph.query(f"RETURN 1 AS x {SLOW}")
                    self.assertTrue(comes(server.gate.holds))
                    server.gate.let_go()
                    graph.timeout = SECONDS
                    self.assertEqual(graph.query("RETURN 2 AS x").value(), 2)

    def test_a_connection_that_the_server_closed_is_opened_anew(self):
        # two connections, each of which is closed behind its first reply; nothing is sent twice
        with socket.create_server(("127.0.0.1", 0)) as listener:
            taken = []

            def serve():
                for _ in range(2):
                    with listener.accept()[0] as client:
                        length = int.from_bytes(client.recv(4), "big")
                        taken.append(client.recv(length))
                        body = b'{"code":0}'
                        client.sendall(struct.pack(">I", len(body)) + body)

            threading.Thread(target=serve, daemon=True).start()
            with graphd.connect(listener.getsockname()[1], "a1") as graph:
                graph.create_index("A", "k")
                # until the end has come
                self.assertTrue(select.select([graph._held.connection._socket], [], [], SECONDS)[0])
                graph.create_index("B", "k")
            self.assertEqual([json.loads(body)["label"] for body in taken], ["A", "B"])

    def test_tls(self):
        openssl = shutil.which("openssl")
        with folder() as made:
            key, certificate = made / "key", made / "certificate"
            words = ["req", "-x509", "-newkey", "rsa:2048", "-nodes", "-days", "1", "-subj", "/CN=localhost", "-addext", "subjectAltName=DNS:localhost"]
            subprocess.run([openssl, *words, "-keyout", key, "-out", certificate], check=True, capture_output=True)
            import ssl

            own = ssl.SSLContext(ssl.PROTOCOL_TLS_SERVER)
            own.load_cert_chain(certificate, key)
            with listening(CONFIG) as plain, Relay(plain, tls=own) as server:
                trusted = ssl.create_default_context(cafile=str(certificate))
                with graphd.connect(f"graphds://localhost:{server.port}", "a1", ssl=trusted) as graph:
                    self.assertEqual([graph.query("RETURN 1").value() for _ in range(3)], [1, 1, 1])
                with self.assertRaises(graphd.NotSent):
                    graphd.connect(f"graphds://localhost:{server.port}", "a1").status()


class Asyncio(unittest.TestCase):
    """The same words, awaited."""

    def test_a_session_is_asked(self):
        async def talk():
            async with aio.start(command(), "a1") as graph:
                made = await graph.query("CREATE (n:P {name: $name}) RETURN n", name="x")
                self.assertEqual(made.single()["n"], graphd.Node(0, ("P",), {"name": "x"}))
                await graph.create_index("P", "name")
                with self.assertRaises(graphd.IndexExists):
                    await graph.create_index("P", "name")
                self.assertEqual((await graph.status()).indexes, [("P", "name")])
                await graph.drop_index("P", "name")
                with self.assertRaises(graphd.UndefinedVariable) as fault:
                    await graph.query("MATCH (n)\nRETURN m")
                self.assertEqual((fault.exception.place.line, fault.exception.place.column), (2, 8))
                with self.assertRaises(TypeError):
                    await graph.query("RETURN $x", x=1.5)

        asyncio.run(talk())

    def test_tasks_share_a_session_and_a_pool(self):
        async def ask(graph, number):
            for turn in range(20):
                self.assertEqual((await graph.query("RETURN $x AS x", x=number * 100 + turn)).value(), number * 100 + turn)

        async def talk(port):
            for graph in (aio.connect(port, "a1"), aio.pool(f"graphd://127.0.0.1:{port}", "a1", size=3)):
                async with graph:
                    await asyncio.gather(*(ask(graph, number) for number in range(8)))
            await ask(aio.connect(port, "a1"), 9)

        with listening(CONFIG) as server:
            asyncio.run(talk(server.port))

    def test_what_is_cancelled_leaves_no_reply_for_the_next(self):
        async def talk(graph, gate):
            async with graph:
                for late in (self.cancelled(graph, gate), self.timed_out(graph)):
                    with self.assertRaises((asyncio.CancelledError, graphd.TimedOut)):
                        await late
                    self.assertTrue(await it_comes(gate.holds))
                    gate.let_go()
                    self.assertEqual((await graph.query("RETURN 'soon' AS x")).value(), "soon")

        with folder() as made, late(CONFIG, made) as server:
            program = slowed(server.gate)
            asyncio.run(talk(aio.start([str(program), "run", str(CONFIG)], "a1", timeout=SECONDS), server.gate))
            asyncio.run(talk(aio.connect(server.port, "a1", timeout=SECONDS), server.gate))

    async def cancelled(self, graph, gate):
        asks = asyncio.ensure_future(graph.query(f"RETURN 'late' AS x {SLOW}"))
        self.assertTrue(await it_comes(gate.holds))
        asks.cancel()
        return await asks

    def test_what_is_cancelled_as_its_reply_comes_is_cancelled(self):
        async def talk():
            loop, dropped = asyncio.get_running_loop(), []
            for ends in (lambda reply, waits: reply.set_result(1), lambda reply, waits: None):
                reply = loop.create_future()
                waits = asyncio.ensure_future(within(reply, SECONDS, dropped.append))
                await asyncio.sleep(0)
                ends(reply, waits)
                waits.cancel()
                with self.assertRaises(asyncio.CancelledError):
                    await waits
                await asyncio.sleep(0)
                self.assertEqual(dropped, [1])
            self.assertEqual(await within(asyncio.sleep(0, 2), SECONDS), 2)
            with self.assertRaises(asyncio.TimeoutError):
                await within(loop.create_future(), 0.01)
            with self.assertRaises(ZeroDivisionError):
                await within(self.divided(), SECONDS)

        asyncio.run(talk())

    async def divided(self):
        return 1 // 0

    async def timed_out(self, graph):
        before, graph.timeout = graph.timeout, LATE
        try:
            return await graph.query(f"RETURN 'late' AS x {SLOW}")
        finally:
            graph.timeout = before

    def test_connections_that_end(self):
        async def talk(port):
            async with aio.connect(port, "a1") as graph:
                self.assertEqual((await graph.query("RETURN 1")).value(), 1)
                # the server ends the connection of one that is silent; the next request takes another
                graph._held.connection._writer.transport.abort()
                self.assertEqual((await graph.query("RETURN 2")).value(), 2)
                graph._held.connection._reader.feed_eof()
                self.assertEqual((await graph.query("RETURN 3")).value(), 3)
            with self.assertRaises(graphd.NotSent):
                await aio.connect(1, "a1").query("RETURN 1")

        with listening(CONFIG) as server:
            asyncio.run(talk(server.port))

    def test_a_server_that_breaks_off(self):
        async def talk(port):
            with self.assertRaises(graphd.ConnectionLost) as fault:
                await aio.connect(port, "a1").query("RETURN 1")
            self.assertNotIsInstance(fault.exception, graphd.NotSent)

        with socket.create_server(("127.0.0.1", 0)) as server:
            def answer():
                client = server.accept()[0]
                client.recv(4096)
                client.sendall(b"\0\0\0\x10{")
                client.close()

            thread = threading.Thread(target=answer)
            thread.start()
            asyncio.run(talk(server.getsockname()[1]))
            thread.join()

    def test_both_have_the_same_words(self):
        def words(kind):
            return {name: list(inspect.signature(method).parameters) for name, method in vars(kind).items() if callable(method) and not name.startswith("_")}

        for name in ("connect", "pool", "start"):
            self.assertEqual(inspect.signature(getattr(aio, name)).parameters, inspect.signature(getattr(graphd, name)).parameters)
        plain = words(graphd.sessions.Requests)
        self.assertEqual({name: given for name, given in words(aio.Requests).items() if name != "close"}, plain)


AWAITED = (aio.connect, aio.pool, aio.start, aio.Requests, aio.Session, aio.Pool)


class Package(unittest.TestCase):
    def test_the_examples_of_its_page(self):
        page = (ROOT / "clients" / "python" / "README.md").read_text()
        blocks = re.findall(r"```python\n(.*?)```", page, re.DOTALL)
        with listening(CONFIG) as server:
            for block in blocks:
                told = io.StringIO()
                with contextlib.redirect_stdout(told):
                    exec(block.replace("7687", str(server.port)), {})
                self.assertTrue(told.getvalue())
        self.assertEqual(len(blocks), 6)
        self.assertIn("9 UndefinedVariable 2 8 the variable servce isn't in scope here: did you mean service?", told.getvalue())

    def test_the_version_is_the_repositorys(self):
        for name, told in (("README.md", r"This is version (\S+);"), ("CHANGELOG.md", r"\n## (\S+),")):
            self.assertEqual(re.search(told, (ROOT / name).read_text())[1], graphd.__version__, name)

    def test_types(self):
        if shutil.which("mypy") is None:
            self.skipTest("mypy isn't there")
        with folder() as made:
            words = ["mypy", "--strict", "--cache-dir", str(made), "graphd"]
            done = subprocess.run(words, cwd=ROOT / "clients" / "python", capture_output=True, text=True)
        self.assertEqual(done.returncode, 0, done.stdout)

    def test_every_public_name_has_a_docstring(self):
        shown = {**{name: getattr(graphd, name) for name in graphd.__all__}, **{f"aio.{it.__name__}": it for it in AWAITED}}
        for name, value in shown.items():
            if callable(value) and not getattr(value, "__origin__", None):
                self.assertTrue(value.__doc__, name)
            for member in vars(value) if isinstance(value, type) else ():
                if callable(getattr(value, member)) and not member.startswith("_"):
                    self.assertTrue(inspect.getdoc(getattr(value, member)), f"{name}.{member}")
