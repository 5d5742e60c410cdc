"""Tests of the client library's streams and pages."""
import asyncio
import json
import time
import unittest

import client_path  # (finds the package graphd)
import graphd
import graphd.aio as aio
from tests_of_clients import SECONDS, SLOW, command, folder, interrupted, late, listening
from tests_of_library import in_threads

MOST_HELD = 20
ROWS = "UNWIND range(1, $n) AS x RETURN x, 10 * x AS y"


def holding(folder, most=MOST_HELD):
    """The file of a configuration of two tenants, the first with two tokens, that may hold so many rows."""
    tokens = {"A": [("a1", "write"), ("a2", "read")], "B": [("b1", "write")]}
    told = [
        {
            "name": name, "max_steps": 100_000, "max_elements": 100, "max_held": most,
            "tokens": [{"token": token, "rights": right} for token, right in given],
        }
        for name, given in tokens.items()
    ]
    path = folder / "config.json"
    path.write_text(json.dumps({"cache": 4, "tenants": told}))
    return path


def numbers(rows):
    return [row["x"] for row in rows]


def whole_quota(session):
    """Whether the tenant holds no rows: then so many may be held, and no more."""
    page = session.query_page(ROWS, 1, n=MOST_HELD + 1)
    session.drop_page(page)
    return True


class Left(Exception):
    """What leaves a loop in a test."""


class Scripted(graphd.sessions.Connection):
    """A connection that notes what is asked, and answers by the next of these: a reply, or what it raises."""

    def __init__(self, *answers):
        self.answers, self.asked = list(answers), []

    def exchange(self, body, timeout):
        self.asked.append(json.loads(body))
        told = self.answers.pop(0)
        if isinstance(told, BaseException):
            raise told
        return json.dumps(told).encode()

    def close(self):
        pass


def first(page, *rows):
    return {"code": 0, "columns": ["x"], "page": page, "rows": [[x] for x in rows], "steps": 7}


def more(page, *rows):
    return {"code": 0, "page": page, "rows": [[x] for x in rows]}


def refused(code):
    return {"code": code, "error": graphd.NAMES[code]}


def scripted(*answers):
    """A session that is answered so, and its connection."""
    connection = Scripted(*answers)
    return graphd.Session("a1", lambda: connection), connection


class Streams(unittest.TestCase):
    def test_all_rows_come_in_their_order(self):
        with folder() as made, graphd.start(command(holding(made)), "a1") as graph:
            for count in (0, 1, 4, 5, 6, 20):
                for page in (1, 2, 5, 19, 20, 21, 10_000):
                    if count - page <= MOST_HELD:
                        self.assertEqual([*graph.stream(ROWS, page=page, n=count)], graph.query(ROWS, n=count).rows, (count, page))
            self.assertEqual([row["y"] for row in graph.stream(ROWS, {"n": 2}, page=1)], [10, 20])
            self.assertEqual([*graph.stream("CREATE (:P)")], [])
            self.assertTrue(whole_quota(graph))

    def test_rows_are_those_of_the_query(self):
        with folder() as made, graphd.start(command(holding(made)), "a1") as graph:
            graph.query("UNWIND range(0, 4) AS i CREATE (:P {i: i})")
            stream = graph.stream("MATCH (n:P) RETURN n", page=2)
            first = next(stream)["n"]
            graph.query("MATCH (n) DETACH DELETE n")
            self.assertEqual([first, *(row["n"] for row in stream)], [graphd.Node(i, ("P",), {"i": i}) for i in range(5)])
            self.assertEqual(graph.status().elements, 0)

    def test_what_is_asked_takes_effect_once(self):
        with folder() as made, graphd.start(command(holding(made)), "a1") as graph:
            stream = graph.stream("UNWIND range(1, 9) AS i CREATE (n:P {i: i}) RETURN n.i AS x", page=2)
            self.assertEqual(graph.status().elements, 0)
            self.assertEqual((numbers(stream), graph.status().elements), ([*range(1, 10)], 9))
            self.assertEqual((stream.columns, stream.steps, stream.page), (["x"], 27, None))

    def test_a_stream_that_is_left_is_dropped(self):
        with folder() as made, listening(holding(made)) as server:
            for graph in (graphd.connect(server.port, "a1"), graphd.pool(server.port, "a1", size=2)):
                self.leave(graph)
                with graph:
                    self.leave(graph)
                self.assertTrue(whole_quota(graph))

    def leave(self, graph):
        for row in graph.stream(ROWS, page=3, n=23):
            if row["x"] == 4:
                break
        self.assertTrue(whole_quota(graph))
        with self.assertRaises(Left):
            for row in graph.stream(ROWS, page=3, n=23):
                raise Left
        self.assertTrue(whole_quota(graph))
        stream = graph.stream(ROWS, page=3, n=23)
        self.assertEqual((next(stream)["x"], stream.columns, stream.page is None), (1, ["x", "y"], False))
        with self.assertRaises(graphd.HeldRowsQuota):
            whole_quota(graph)
        stream.close()
        self.assertEqual([*stream], [])
        self.assertTrue(whole_quota(graph))
        with graph.stream(ROWS, page=3, n=23) as stream:
            next(stream)
        self.assertTrue(whole_quota(graph))
        for _ in zip(range(3), graph.stream(ROWS, page=1, n=21)):
            pass
        self.assertTrue(whole_quota(graph))

    def test_what_is_refused(self):
        with folder() as made, graphd.start(command(holding(made)), "a1") as graph:
            stream = graph.stream("MATCH (n) RETURN m")
            with self.assertRaises(graphd.UndefinedVariable) as fault:
                next(stream)
            self.assertEqual(fault.exception.place.column, 18)
            with self.assertRaises(graphd.HeldRowsQuota) as fault:
                [*graph.stream("UNWIND range(1, 30) AS i CREATE (n:P) RETURN n", page=9)]
            self.assertIn("max_held", str(fault.exception))
            self.assertEqual(graph.status().elements, 0)

    def test_arguments(self):
        with folder() as made, graphd.start(command(holding(made)), "a1") as graph:
            for wrong in (0, -1, 10_001, "1", 1.0, None, True):
                for asked in (lambda: graph.stream("RETURN 1", page=wrong), lambda: graph.query_page("RETURN 1", wrong)):
                    with self.assertRaises((TypeError, ValueError), msg=wrong):
                        asked()
            for wrong in (-1, 2**63, "1", 1.0, None, True, graph.query("RETURN 1")):
                for asked in (graph.pull, graph.drop_page):
                    with self.assertRaises((TypeError, ValueError), msg=wrong):
                        asked(wrong)
            self.assertEqual([row[0] for row in graph.stream("RETURN $page AS x", {"page": 7}, page=1)], [7])

    def test_threads_have_streams_of_one_pool(self):
        def read(number):
            for _ in range(5):
                found = numbers(pool.stream(ROWS, page=1 + number, n=2 + number))
                assert found == [*range(1, 3 + number)], found

        with folder() as made, listening(holding(made)) as server, graphd.pool(server.port, "a1", size=3) as pool:
            self.assertEqual(in_threads(6, read), [])

    def test_a_pull_without_reply_is_told(self):
        graph, connection = scripted(first(3, 1), graphd.TimedOut("late"), refused(43))
        with graph:
            stream = graph.stream(ROWS, n=9)
            self.assertEqual(next(stream)[0], 1)
            for _ in range(2):
                with self.assertRaises(graphd.ConnectionLost):
                    next(stream)
            stream.close()
            self.assertEqual([*stream], [])
        self.assertEqual([it["op"] for it in connection.asked], ["query", "pull", "drop_page"])

    def test_a_query_without_reply_is_not_asked_again(self):
        graph, connection = scripted(graphd.TimedOut("late"))
        with graph:
            stream = graph.stream("CREATE (n) RETURN n")
            for _ in range(2):
                with self.assertRaises(graphd.ConnectionLost):
                    next(stream)
        self.assertEqual(len(connection.asked), 1)

    def test_a_pull_that_changed_nothing_can_be_asked_again(self):
        graph, connection = scripted(first(3, 1), refused(99), graphd.NotSent("no server"), refused(40), more(None, 2))
        with graph:
            stream = graph.stream(ROWS, n=9)
            self.assertEqual(next(stream)[0], 1)
            for kind in (graphd.OutOfMemory, graphd.NotSent, graphd.TenantBusy):
                with self.assertRaises(kind):
                    next(stream)
            self.assertEqual([row[0] for row in stream], [2])
        self.assertEqual([it["op"] for it in connection.asked], ["query"] + ["pull"] * 4)

    def test_a_page_that_could_not_be_dropped_is_dropped_later(self):
        for told in (refused(42), refused(40), refused(99), graphd.NotSent("no server"), graphd.TimedOut("late")):
            graph, connection = scripted(first(3, 1), told, told, {"code": 0}, first(None, 2), first(None, 3))
            with graph:
                for row in graph.stream(ROWS, n=9):
                    break
                self.assertEqual([graph._left, len(connection.asked)], [[3], 2])
                # the first of these requests is tried before the second
                connection.answers.insert(1, first(None, 4))
                self.assertEqual([graph.query("RETURN 1").value() for _ in range(2)], [4, 2])
                self.assertEqual([it["op"] for it in connection.asked], ["query", "drop_page", "drop_page", "query", "drop_page", "query"])

    def test_an_interrupt_while_a_page_comes(self):
        with folder() as made, late(holding(made), made) as server, graphd.connect(server.port, "a1") as graph:
            with self.assertRaises(KeyboardInterrupt), interrupted(server.gate):
                next(graph.stream(f"RETURN 1 AS x {SLOW}"))
            self.assertEqual(numbers(graph.stream(ROWS, page=2, n=5)), [1, 2, 3, 4, 5])

    def test_a_server_of_ones_own_that_has_ended_is_not_started_for_a_page(self):
        with folder() as made:
            graph = graphd.start(command(holding(made)), "a1")
            with graph:
                stream = graph.stream(ROWS, page=2, n=5)
                next(stream)
            graph._opened = lambda: self.fail("a server was started")
            stream.close()


class Pages(unittest.TestCase):
    def test_results_tell_what_is_left(self):
        with folder() as made, graphd.start(command(holding(made)), "a1") as graph:
            self.assertIsNone(graph.query(ROWS, n=3).page)
            result = graph.query_page(ROWS, 2, n=5)
            self.assertEqual((result.columns, numbers(result), result.steps, result.page), (["x", "y"], [1, 2], 10, 0))
            result = graph.pull(result)
            self.assertEqual((result.columns, numbers(result), result.steps, result.page), (["x", "y"], [3, 4], 0, 0))
            result = graph.pull(result.page)
            self.assertEqual((result.columns, [*result.rows[0]], result.page), ([], [5, 50], None))
            with self.assertRaises(graphd.NoSuchPage) as fault:
                graph.pull(0)
            self.assertEqual((fault.exception.code, fault.exception.name), (43, "NoSuchPage"))
            result = graph.query_page(ROWS, 2, {"n": 3})
            self.assertEqual(result.page, 1)
            graph.drop_page(result)
            for gone in (graph.pull, graph.drop_page):
                with self.assertRaises(graphd.NoSuchPage):
                    gone(1)
            self.assertEqual(graph.query_page(ROWS, 2, {"n": 2}).page, None)

    def test_pages_are_of_a_token(self):
        with folder() as made, listening(holding(made)) as server:
            graph, reads, other = (graphd.connect(server.port, token) for token in ("a1", "a2", "b1"))
            for at, session in enumerate((graph, reads)):
                self.assertEqual(session.query_page(ROWS, 1, n=3).page, at)
            self.assertEqual(other.query_page(ROWS, 1, n=3).page, 0)
            for session, number in ((graph, 1), (reads, 0), (other, 1)):
                for asked in (session.pull, session.drop_page):
                    with self.assertRaises(graphd.NoSuchPage):
                        asked(number)
            self.assertEqual([numbers_of(it.pull(page)) for it, page in ((graph, 0), (reads, 1), (other, 0))], [[2]] * 3)

    def test_no_pages_in_transactions(self):
        with folder() as made, listening(holding(made)) as server:
            for graph in (graphd.connect(server.port, "a1"), graphd.pool(server.port, "a1", size=2)):
                stream, held = graph.stream(ROWS, page=1, n=3), graph.query_page(ROWS, 1, n=3)
                self.assertEqual(next(stream)["x"], 1)
                with graph.transaction():
                    asked = [
                        lambda: next(graph.stream(ROWS, n=1)), lambda: graph.query_page(ROWS, 1, n=1), lambda: graph.pull(held),
                        lambda: graph.drop_page(held), lambda: next(stream), lambda: graph.pull(99),
                    ]
                    for it in asked:
                        with self.assertRaises(graphd.TransactionOpen) as fault:
                            it()
                        self.assertIn("pages", str(fault.exception))
                    self.assertEqual(len(graph.query(ROWS, n=3)), 3)
                self.assertEqual((numbers(stream), numbers(graph.pull(held))), ([2, 3], [2]))
                graph.drop_page(held)
                self.assertTrue(whole_quota(graph))

    def test_a_stream_that_is_left_in_a_transaction_is_dropped_after_it(self):
        with folder() as made, listening(holding(made)) as server:
            for graph in (graphd.connect(server.port, "a1"), graphd.pool(server.port, "a1", size=2)):
                stream = graph.stream(ROWS, page=1, n=3)
                next(stream)
                with graph.transaction():
                    stream.close()
                    graph.query("CREATE (:P)")
                self.assertTrue(whole_quota(graphd.connect(server.port, "a1")))


def numbers_of(result):
    return [row[0] for row in result.rows]


async def whole_quota_of(session):
    await session.drop_page(await session.query_page(ROWS, 1, n=MOST_HELD + 1))
    return True


async def comes_to(session):
    """Waits until the tenant holds no rows."""
    until = time.monotonic() + SECONDS
    while True:
        try:
            return await whole_quota_of(session)
        except graphd.HeldRowsQuota:
            if time.monotonic() > until:
                raise
        await asyncio.sleep(0.01)


class OfAsyncio(unittest.TestCase):
    """The same words, awaited."""

    def test_all_rows_come_in_their_order(self):
        async def talk():
            async with aio.start(command(config), "a1") as graph:
                for count in (0, 1, 4, 5, 20):
                    for page in (1, 2, 5, 21, 10_000):
                        self.assertEqual([row async for row in graph.stream(ROWS, page=page, n=count)], (await graph.query(ROWS, n=count)).rows)
                result = await graph.query_page(ROWS, 2, n=5)
                result = await graph.pull(result)
                self.assertEqual((numbers(result), result.columns), ([3, 4], ["x", "y"]))
                await graph.drop_page(result)
                with self.assertRaises(graphd.NoSuchPage):
                    await graph.pull(result)
                self.assertTrue(await whole_quota_of(graph))
                with self.assertRaises(ValueError):
                    graph.stream("RETURN 1", page=0)
                with self.assertRaises(graphd.BadSyntax) as fault:
                    await graph.stream("RETURN").__anext__()
                self.assertEqual(fault.exception.place.column, 7)

        with folder() as made:
            config = holding(made)
            asyncio.run(talk())

    def test_a_stream_that_is_left_is_dropped(self):
        async def talk(port):
            for graph in (aio.connect(port, "a1"), aio.pool(port, "a1", size=2)):
                async with graph:
                    async for row in graph.stream(ROWS, page=3, n=23):
                        if row["x"] == 4:
                            break
                    self.assertTrue(await comes_to(graph))
                    with self.assertRaises(Left):
                        async for row in graph.stream(ROWS, page=3, n=23):
                            raise Left
                    self.assertTrue(await comes_to(graph))
                    stream = graph.stream(ROWS, page=3, n=23)
                    await stream.__anext__()
                    await stream.aclose()
                    self.assertTrue(await whole_quota_of(graph))
                    async with graph.stream(ROWS, page=3, n=23) as stream:
                        await stream.__anext__()
                    self.assertEqual([row async for row in stream], [])
                    self.assertTrue(await whole_quota_of(graph))

        with folder() as made, listening(holding(made)) as server:
            asyncio.run(talk(server.port))

    def test_a_stream_that_is_left_at_the_end_of_all_is_dropped(self):
        async def talk(graph):
            async with graph:
                async for row in graph.stream(ROWS, page=3, n=23):
                    break

        with folder() as made, listening(holding(made)) as server:
            for graph in (aio.connect(server.port, "a1"), aio.pool(server.port, "a1", size=2)):
                asyncio.run(talk(graph))
                self.assertTrue(whole_quota(graphd.connect(server.port, "a1")))

    def test_a_stream_whose_task_is_cancelled_is_dropped(self):
        async def read(graph, has_row):
            async for row in graph.stream(ROWS, page=3, n=23):
                has_row.set()
                await asyncio.sleep(SECONDS)

        async def talk(port):
            async with aio.connect(port, "a1") as graph:
                has_row = asyncio.Event()
                task = asyncio.ensure_future(read(graph, has_row))
                await asyncio.wait_for(has_row.wait(), SECONDS)
                task.cancel()
                with self.assertRaises(asyncio.CancelledError):
                    await task
                self.assertTrue(await comes_to(graph))

        with folder() as made, listening(holding(made)) as server:
            asyncio.run(talk(server.port))

    def test_no_pages_in_transactions(self):
        async def talk(port):
            for graph in (aio.connect(port, "a1"), aio.pool(port, "a1", size=2)):
                stream, left = graph.stream(ROWS, page=1, n=3), graph.stream(ROWS, page=1, n=3)
                self.assertEqual([(await it.__anext__())["x"] for it in (stream, left)], [1, 1])
                async with graph.transaction():
                    for asked in (graph.query_page(ROWS, 1, n=1), graph.pull(0), graph.drop_page(0), stream.__anext__()):
                        with self.assertRaises(graphd.TransactionOpen):
                            await asked
                    await left.aclose()
                self.assertEqual(numbers([row async for row in stream]), [2, 3])
                self.assertTrue(await whole_quota_of(graph))

        with folder() as made, listening(holding(made)) as server:
            asyncio.run(talk(server.port))

    def test_tasks_have_streams_of_one_pool(self):
        async def read(graph, number):
            for _ in range(5):
                found = numbers([row async for row in graph.stream(ROWS, page=1 + number, n=2 + number)])
                self.assertEqual(found, [*range(1, 3 + number)])

        async def talk(port):
            async with aio.pool(port, "a1", size=3) as graph:
                await asyncio.gather(*(read(graph, number) for number in range(6)))

        with folder() as made, listening(holding(made)) as server:
            asyncio.run(talk(server.port))
