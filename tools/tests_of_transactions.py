"""Tests of the client library's transactions."""
import asyncio
import json
import socket
import threading
import time
import unittest

import client_path  # (finds the package graphd)
import graphd
import graphd.aio as aio
from tests_of_clients import CONFIG, LATE, SECONDS, SLOW, comes, command, folder, interrupted, late, listening, slowed
from tests_of_library import in_threads, it_comes

COUNT = "MATCH (n) RETURN count(n) AS c"


def count(session):
    return session.query(COUNT).value()


def two_writers(folder):
    """The file of a configuration of a tenant with two tokens that may write, and one that may read."""
    tokens = [{"token": token, "rights": right} for token, right in (("a1", "write"), ("a2", "read"), ("a3", "write"))]
    path = folder / "config.json"
    path.write_text(json.dumps({"cache": 4, "tenants": [{"name": "A", "max_steps": 1000, "max_elements": 100, "tokens": tokens}]}))
    return path


class Left(Exception):
    """What leaves a block in a test."""


class Scripted(graphd.sessions.Connection):
    """A connection that notes what is asked, and answers each `op` as it is told: by a code, or by raising what it is given."""

    def __init__(self, **answers):
        self.answers, self.asked = answers, []

    def exchange(self, body, timeout):
        request = json.loads(body)
        self.asked.append(request.get("text", request["op"]))
        told = self.answers.get(request["op"], 0)
        if callable(told):
            told = told(request)
        if isinstance(told, BaseException):
            raise told
        return json.dumps({"code": told, "columns": [], "rows": [], "steps": 0}).encode()

    def close(self):
        self.asked.append("closed")


class Transactions(unittest.TestCase):
    def test_all_of_a_block_takes_effect(self):
        with folder() as made, listening(two_writers(made)) as server:
            other = graphd.connect(server.port, "a2")
            for graph in (graphd.connect(server.port, "a1"), graphd.pool(server.port, "a1", size=2)):
                before = count(other)
                with graph.transaction() as transaction:
                    graph.query("CREATE (:P)")
                    self.assertEqual((count(graph), transaction.is_open), (before + 1, True))
                    with self.assertRaises(graphd.TenantBusy):
                        count(other)
                    graph.query("MATCH (n:P) CREATE (n)-[:K]->(:Q)")
                self.assertFalse(transaction.is_open)
                self.assertEqual((count(graph), count(other) > before), (count(other), True))

    def test_nothing_of_a_block_that_an_exception_leaves(self):
        with folder() as made, listening(two_writers(made)) as server:
            for graph in (graphd.connect(server.port, "a1"), graphd.pool(server.port, "a1", size=2)):
                fault = Left()
                with self.assertRaises(Left) as left:
                    with graph.transaction():
                        self.assertEqual(graph.query("CREATE (n:P) RETURN id(n)").value(), 0)
                        raise fault
                self.assertIs(left.exception, fault)
                self.assertEqual((graphd.connect(server.port, "a2").status().next_node, count(graph)), (0, 0))
                with self.assertRaises(graphd.DivisionByZero):
                    with graph.transaction():
                        graph.query("CREATE (:P)")
                        graph.query("RETURN 1 / 0")
                self.assertEqual(count(graph), 0)

    def test_a_refused_query_that_is_caught_is_undone_alone(self):
        with graphd.start(command(), "a1") as graph:
            with graph.transaction():
                graph.query("CREATE (:P)")
                with self.assertRaises(graphd.DivisionByZero):
                    graph.query("CREATE (:Q) WITH 1 AS x RETURN x / 0")
            self.assertEqual(graph.query("MATCH (n) RETURN labels(n)").value(), ["P"])

    def test_a_transaction_that_ends_before_its_block(self):
        with graphd.start(command(), "a1") as graph:
            with graph.transaction() as transaction:
                graph.query("CREATE (:P)")
                transaction.commit()
                for end in (transaction.commit, transaction.rollback):
                    with self.assertRaises(graphd.NoTransaction):
                        end()
                graph.query("CREATE (:P)")
            with graph.transaction() as transaction:
                graph.query("CREATE (:P)")
                transaction.rollback()
            self.assertEqual(count(graph), 2)

    def test_what_is_refused(self):
        with folder() as made, listening(two_writers(made)) as server:
            graph, reads, other = (graphd.connect(server.port, token) for token in ("a1", "a2", "a3"))
            with self.assertRaises(graphd.ReadOnly), reads.transaction():
                self.fail("a token that may only read has begun one")
            with self.assertRaises(graphd.UnknownToken), graphd.connect(server.port, "a4").transaction():
                self.fail("nobody has begun one")
            with self.assertRaises(Left), graph.transaction():
                graph.query("CREATE (:P)")
                for refused in (lambda: graph.create_index("A", "k"), lambda: graph.drop_index("A", "k"), lambda: graph.transaction().__enter__()):
                    with self.assertRaises(graphd.TransactionOpen):
                        refused()
                with self.assertRaises(graphd.TransactionOpen):
                    graphd.connect(server.port, "a1").transaction().__enter__()
                with self.assertRaises(graphd.TenantBusy):
                    other.transaction().__enter__()
                self.assertEqual(count(graph), 1)
                raise Left
            # each of them can be used as ever
            self.assertEqual([count(it) for it in (graph, reads, other)], [0, 0, 0])
            with other.transaction():
                other.query("CREATE (:P)")
            self.assertEqual(count(reads), 1)

    def test_a_pool_has_one_connection_for_it_and_no_other_request(self):
        with listening(CONFIG) as server, graphd.pool(server.port, "a1", size=3) as pool:
            self.assertEqual(in_threads(6, lambda number: count(pool)), [])
            opened = server.sockets()
            found = []
            with self.assertRaises(Left), pool.transaction():
                pool.query("CREATE (:P)")
                thread = threading.Thread(target=lambda: found.append(pool.query("CREATE (n:Q) RETURN id(n)").value()))
                thread.start()
                time.sleep(0.2)
                self.assertEqual((found, count(pool)), ([], 1))
                raise Left
            thread.join(SECONDS)
            # what another thread asked meanwhile isn't rolled back, and has the first id
            self.assertEqual((found, count(pool)), ([0], 1))
            self.assertLessEqual(server.sockets(), opened)

    def test_other_threads_wait_no_longer_than_for_a_reply(self):
        with listening(CONFIG) as server:
            for graph in (graphd.connect(server.port, "a1"), graphd.pool(server.port, "a1", size=2)):
                faults = []
                with graph.transaction():
                    graph.timeout = 0.3
                    faults = in_threads(2, lambda number: graph.query("CREATE (:P)"))
                    faults += in_threads(1, lambda number: graph.transaction().__enter__())
                    graph.timeout = SECONDS
                self.assertEqual([type(fault) for fault in faults], [graphd.NotSent] * 3)
                self.assertEqual(count(graph), 0)

    def test_threads_have_transactions_one_after_the_other(self):
        with listening(CONFIG) as server, graphd.connect(server.port, "a1") as graph, graphd.pool(server.port, "b1", size=4) as pool:
            def work(session):
                for turn in range(10):
                    try:
                        with session.transaction():
                            found = session.query("MERGE (n:N) ON CREATE SET n.x = 0 SET n.x = n.x + 1 RETURN n.x").value()
                            assert session.query("MATCH (n:N) RETURN n.x").value() == found
                            if turn % 3 == 0:
                                raise Left
                    except Left:
                        pass

            for session in (graph, pool):
                self.assertEqual(in_threads(4, lambda number: work(session)), [])
                self.assertEqual(session.query("MATCH (n:N) RETURN n.x").value(), 24)

    def test_it_begins_once_requests_before_it_are_answered(self):
        go, come = threading.Event(), threading.Event()

        def wait(request):
            come.set()
            go.wait(SECONDS)
            return 0

        for make in (lambda opened: graphd.Session("a1", opened), lambda opened: graphd.Pool("a1", opened, 3)):
            connection = Scripted(query=wait)
            graph = make(lambda: connection)
            asks = threading.Thread(target=lambda: graph.query("SLOW"))
            asks.start()
            self.assertTrue(come.wait(SECONDS))
            begins = threading.Thread(target=lambda: graph.transaction().__enter__())
            begins.start()
            time.sleep(0.1)
            self.assertEqual(connection.asked, ["SLOW"])
            go.set()
            asks.join(SECONDS)
            begins.join(SECONDS)
            self.assertEqual([it for it in connection.asked if it != "closed"], ["SLOW", "begin"])
            go.clear()
            come.clear()

    def test_a_commit_that_is_refused_is_rolled_back(self):
        connection = Scripted(commit=99)
        with graphd.Session("a1", lambda: connection) as graph:
            with self.assertRaises(graphd.OutOfMemory), graph.transaction():
                graph.query("Q")
            self.assertEqual(connection.asked, ["begin", "Q", "commit", "rollback"])
            connection.answers["commit"] = 41
            with self.assertRaises(graphd.NoTransaction), graph.transaction():
                graph.query("Q")
            self.assertEqual(connection.asked[4:], ["begin", "Q", "commit"])

    def test_a_begin_whose_reply_didnt_come_is_rolled_back(self):
        for fault, wanted in ((graphd.TimedOut(), ["begin", "rollback"]), (KeyboardInterrupt(), ["begin", "rollback"]), (graphd.NotSent(), ["begin"])):
            connection = Scripted(begin=fault)
            with graphd.Session("a1", lambda: connection) as graph:
                with self.assertRaises(type(fault)), graph.transaction():
                    self.fail("it has begun")
                self.assertEqual(connection.asked, wanted)
                graph.query("Q")

    def test_a_begin_over_a_connection_that_was_closed_before(self):
        with listening(CONFIG) as server, graphd.connect(server.port, "a1") as graph:
            graph._held.connection._socket.shutdown(socket.SHUT_RDWR)
            with graph.transaction():
                graph.query("CREATE (:P)")
            self.assertEqual(count(graph), 1)

    def test_a_connection_that_ends_within(self):
        with listening(CONFIG) as server:
            for graph in (graphd.connect(server.port, "a1"), graphd.pool(server.port, "a1", size=2)):
                # the request that would come next isn't asked outside of the transaction, nor is the commit
                for ask in (lambda: graph.query("CREATE (:Q)"), lambda: None):
                    with self.assertRaises(graphd.NotSent) as fault, graph.transaction() as transaction:
                        graph.query("CREATE (:P)")
                        transaction._held.connection._socket.shutdown(socket.SHUT_RDWR)
                        ask()
                    self.assertIn("and with it the transaction", str(fault.exception))
                    self.assertTrue(comes(lambda: count(graph) == 0))
                with graph.transaction():
                    graph.query("CREATE (:P)")
                graph.query("MATCH (n) DELETE n")

    def test_nothing_is_asked_until_the_server_has_ended_a_transaction_whose_connection_was_lost(self):
        opened = []

        def open_one():
            codes = iter([42, 42, 0])
            opened.append(Scripted() if not opened else Scripted(begin=lambda request: next(codes)))
            return opened[-1]

        for graph in (graphd.Session("a1", open_one), graphd.Pool("a1", open_one, 2)):
            opened.clear()
            with self.assertRaises(graphd.TimedOut), graph.transaction():
                opened[0].is_lost, opened[0].answers["query"] = True, graphd.TimedOut()
                graph.query("Q")
            self.assertEqual(opened[0].asked[:2], ["begin", "Q"])
            graph.query("R")
            graph.query("S")
            found = [it for connection in opened[1:] for it in connection.asked if it != "closed"]
            self.assertEqual(found, ["begin", "begin", "begin", "rollback", "R", "S"])

    def test_a_reply_that_takes_too_long_within(self):
        with folder() as made, late(CONFIG, made) as server:
            for graph in (graphd.connect(server.port, "a1"), graphd.start([str(slowed(server.gate)), "run", str(CONFIG)], "a1")):
                with graph:
                    with self.assertRaises(graphd.TimedOut), graph.transaction():
                        graph.timeout = LATE
                        graph.query(f"CREATE (:P) {SLOW}")
                    self.assertTrue(comes(server.gate.holds))
                    server.gate.let_go()
                    graph.timeout = SECONDS
                    self.assertTrue(comes(lambda: count(graph) == 0))

    def test_an_interrupt_within(self):
        with folder() as made, late(CONFIG, made) as server:
            for graph in (graphd.connect(server.port, "a1"), graphd.start([str(slowed(server.gate)), "run", str(CONFIG)], "a1")):
                with graph:
                    with self.assertRaises(KeyboardInterrupt), interrupted(server.gate), graph.transaction():
                        graph.query("CREATE (:P)")
                        graph.query(f"CREATE (:P) {SLOW}")
                    self.assertTrue(comes(lambda: count(graph) == 0))
                    with graph.transaction():
                        graph.query("CREATE (:P)")
                    self.assertEqual(count(graph), 1)


async def count_of(session):
    return (await session.query(COUNT)).value()


class Asyncio(unittest.TestCase):
    """The same, awaited."""

    def over_each(self, talk):
        """Awaits the talk over a session that connects for each request, one that holds a connection, and a pool."""
        async def run(port):
            await talk(aio.connect(port, "a1"))
            async with aio.connect(port, "a1") as graph:
                await talk(graph)
            async with aio.pool(port, "a1", size=3) as graph:
                await talk(graph)

        with listening(CONFIG) as server:
            asyncio.run(run(server.port))

    def test_blocks(self):
        async def talk(graph):
            async with graph.transaction() as transaction:
                await graph.query("CREATE (:P)")
                with self.assertRaises(graphd.DivisionByZero):
                    await graph.query("CREATE (:Q) WITH 1 AS x RETURN x / 0")
                with self.assertRaises(graphd.TransactionOpen):
                    await graph.transaction().__aenter__()
                with self.assertRaises(graphd.TransactionOpen):
                    await graph.create_index("P", "k")
                self.assertTrue(transaction.is_open)
            self.assertEqual((await count_of(graph), transaction.is_open), (1, False))
            with self.assertRaises(Left):
                async with graph.transaction():
                    await graph.query("MATCH (n) DELETE n")
                    raise Left
            async with graph.transaction() as transaction:
                await graph.query("MATCH (n) DELETE n")
                await transaction.rollback()
                with self.assertRaises(graphd.NoTransaction):
                    await transaction.commit()
                self.assertEqual(await count_of(graph), 1)
            graph.token = "a2"
            with self.assertRaises(graphd.ReadOnly):
                async with graph.transaction():
                    self.fail("a token that may only read has begun one")
            graph.token = "a1"
            await graph.query("MATCH (n) DELETE n")

        self.over_each(talk)

    def test_tasks_of_a_block_are_part_of_it_and_others_wait(self):
        async def talk(graph):
            before = (await graph.status()).next_node
            begun = asyncio.Event()

            async def other():
                await begun.wait()
                return (await graph.query("CREATE (n:Q) RETURN id(n)")).value()

            outside = asyncio.ensure_future(other())
            with self.assertRaises(Left):
                async with graph.transaction():
                    await asyncio.gather(*(graph.query("CREATE (:P)") for _ in range(5)))
                    begun.set()
                    await asyncio.sleep(0.1)
                    self.assertEqual(await count_of(graph), 5)
                    raise Left
            self.assertEqual((await outside, await count_of(graph)), (before, 1))
            await graph.query("MATCH (n) DELETE n")

        self.over_each(talk)

    def test_a_task_that_outlives_its_block_asks_nothing_behind_it(self):
        async def talk(graph):
            async def later():
                await asyncio.sleep(0.1)
                await graph.query("CREATE (:P)")

            with self.assertRaises(Left):
                async with graph.transaction():
                    started = asyncio.ensure_future(later())
                    raise Left
            with self.assertRaises(graphd.NotSent):
                await started
            self.assertEqual(await count_of(graph), 0)

        self.over_each(talk)

    def test_other_tasks_wait_no_longer_than_for_a_reply(self):
        async def talk(graph):
            async def asked():
                await graph.query("CREATE (:P)")

            async def begun():
                async with graph.transaction():
                    await asked()

            # (tasks that are started before the block)
            waiting = asyncio.Event()

            async def behind(work):
                await waiting.wait()
                await work()

            tasks = [asyncio.ensure_future(behind(work)) for work in (asked, asked, begun)]
            async with graph.transaction():
                graph.timeout = 0.3
                waiting.set()
                done = await asyncio.gather(*tasks, return_exceptions=True)
                graph.timeout = SECONDS
            self.assertEqual([type(fault) for fault in done], [graphd.NotSent] * 3)
            self.assertEqual(await count_of(graph), 0)

        self.over_each(talk)

    def test_tasks_have_transactions_one_after_the_other(self):
        async def work(graph):
            for turn in range(6):
                try:
                    async with graph.transaction():
                        found = (await graph.query("MERGE (n:N) ON CREATE SET n.x = 0 SET n.x = n.x + 1 RETURN n.x")).value()
                        self.assertEqual((await graph.query("MATCH (n:N) RETURN n.x")).value(), found)
                        if turn % 3 == 0:
                            raise Left
                except Left:
                    pass

        async def talk(graph):
            await asyncio.gather(*(work(graph) for _ in range(4)))
            self.assertEqual((await graph.query("MATCH (n:N) RETURN n.x")).value(), 16)
            await graph.query("MATCH (n) DELETE n")

        self.over_each(talk)

    def test_what_is_cancelled_is_rolled_back(self):
        async def work(graph, text, asked):
            async with graph.transaction():
                await graph.query("CREATE (:P)")
                await graph.query(text)
                asked.set()
                await asyncio.sleep(SECONDS)

        async def talk(graph, gate):
            async with graph:
                for text in ("CREATE (:Q)", f"CREATE (:Q) {SLOW}"):
                    asked = asyncio.Event()
                    works = asyncio.ensure_future(work(graph, text, asked))
                    self.assertTrue(await it_comes(lambda: asked.is_set() or gate.holds()))
                    works.cancel()
                    await asyncio.wait({works}, timeout=LATE)
                    gate.let_go()
                    with self.assertRaises(asyncio.CancelledError):
                        await works
                    until = time.monotonic() + SECONDS
                    while await count_of(graph) and time.monotonic() < until:
                        await asyncio.sleep(0.05)
                    self.assertEqual(await count_of(graph), 0)
                async with graph.transaction():
                    await graph.query("CREATE (:P)")
                self.assertEqual(await count_of(graph), 1)
                await graph.query("MATCH (n) DELETE n")

        with folder() as made, late(CONFIG, made) as server:
            for graph in (aio.connect(server.port, "a1"), aio.pool(server.port, "a1", size=2), aio.start([str(slowed(server.gate)), "run", str(CONFIG)], "a1")):
                asyncio.run(talk(graph, server.gate))

    def test_a_connection_that_ends_within(self):
        async def talk(graph):
            with self.assertRaises(graphd.NotSent) as fault:
                async with graph.transaction() as transaction:
                    await graph.query("CREATE (:P)")
                    transaction._held.connection._writer.transport.abort()
                    await graph.query("CREATE (:Q)")
            self.assertIn("and with it the transaction", str(fault.exception))
            self.assertEqual(await count_of(graph), 0)

        self.over_each(talk)
