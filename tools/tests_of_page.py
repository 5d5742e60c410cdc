"""Tests of the page: its server by itself, and in a browser."""
import contextlib
import http.client
import importlib.util
import json
import subprocess
import sys
import time
import unittest
from pathlib import Path

import browser
import client_path  # (finds the package graphd)
import graphd
from graphd_program import ROOT
from tests_of_clients import CONFIG, SECONDS, environment, folder, listening

ACCESS = ROOT / "examples" / "access"
HARM = "<img src=x onerror=harm=1>"
PARTS = [Path("/usr/share/javascript") / it for it in ("d3/d3.min.js", "codemirror/lib/codemirror.js", "codemirror/mode/cypher/cypher.js")]


@contextlib.contextmanager
def page(port, *words):
    """The port of a page over a server."""
    run = [sys.executable, str(ROOT / "tools" / "graphpage"), str(port), "--web", "0", *map(str, words)]
    child = subprocess.Popen(run, stdout=subprocess.PIPE, stderr=subprocess.PIPE, text=True, env=environment())
    try:
        yield int(child.stdout.readline().rstrip("/\n").rsplit(":", 1)[1])
    finally:
        child.terminate()
        told = child.communicate(timeout=SECONDS)[1]
    assert (child.returncode, told) == (0, ""), f"graphpage ended with status {child.returncode}: {told}"


def ask(port, method, path, body=None, **headers):
    """The status, the headers and the body of a reply."""
    with contextlib.closing(http.client.HTTPConnection("127.0.0.1", port, timeout=SECONDS)) as connection:
        connection.request(method, path, body, {name.replace("_", "-"): value for name, value in headers.items()})
        with connection.getresponse() as answer:
            return answer.status, answer.headers, answer.read()


@unittest.skipUnless(all(it.is_file() for it in PARTS), "libjs-d3 and libjs-codemirror aren't there")
class Bridge(unittest.TestCase):
    def asked(self, port, **request):
        status, _, told = ask(port, "POST", "/ask", json.dumps(request), Content_Type="application/json")
        self.assertEqual(status, 200, told)
        return json.loads(told)

    def test_requests_are_handed_on(self):
        with listening(CONFIG) as server, page(server.port) as web:
            made = self.asked(web, token="a1", op="query", text="CREATE (n:P {big: 9223372036854775807, small: -9007199254740991}) RETURN n.big, n.small")
            self.assertEqual(made["reply"]["rows"], [[{"$integer": "9223372036854775807"}, -9007199254740991]])
            self.assertEqual(self.asked(web, token="a1", op="status")["reply"]["elements"], 1)
            self.assertEqual(self.asked(web, token="b1", op="status")["reply"]["elements"], 0)
            self.assertEqual(self.asked(web, token="no", op="status")["reply"]["code"], 3)
            wrong = self.asked(web, token="a1", op="query", text="MATCH (n)\nRETURN m")
            self.assertEqual((wrong["reply"]["code"], wrong["line"], wrong["column"], wrong["length"]), (9, 2, 8, 1))
            self.assertIn("index", self.asked(web, token="a1", op="explain", text="MATCH (n:P {big: 1}) RETURN n")["plan"][1])
            self.assertEqual(self.asked(web, token="a1", op="query", text="x" * 1_100_000)["reply"]["code"], 1)
        with page(1) as web:
            self.assertIn("no server answers", self.asked(web, token="a1", op="status")["lost"])

    def test_its_server_ends_whenever_it_is_told_to(self):
        # also where it is told as soon as it is ready
        for _ in range(30):
            with page(1):
                pass

    def test_no_other_page_may_ask(self):
        with page(1) as web:
            body, kind = json.dumps({"token": "a1", "op": "status"}), {"Content_Type": "application/json"}
            self.assertEqual(ask(web, "POST", "/ask", body, **kind)[0], 200)
            self.assertEqual(ask(web, "POST", "/ask", body, **kind, Origin=f"http://127.0.0.1:{web}")[0], 200)
            for headers in ({"Origin": "http://elsewhere.example"}, {"Origin": "null"}, {"Host": f"elsewhere.example:{web}"}):
                self.assertEqual(ask(web, "POST", "/ask", body, **kind, **headers)[0], 403)
                self.assertEqual(ask(web, "GET", "/", **headers)[0], 403)
            self.assertEqual(ask(web, "POST", "/ask", body, Content_Type="text/plain")[0], 404)
            self.assertEqual(ask(web, "GET", "/../../etc/passwd")[0], 404)
            self.assertEqual(ask(web, "POST", "/ask", "[", **kind)[0], 400)
            self.assertEqual(ask(web, "POST", "/ask", "[1]", **kind)[0], 400)
            self.assertEqual(ask(web, "POST", "/ask", "[" * 100_000, **kind)[0], 400)
            self.assertEqual(ask(web, "POST", "/ask", "x", **kind, Content_Length="99999999")[0], 413)

    def test_what_a_browser_is_told(self):
        with page(1) as web:
            for path in ("/", "/page.js", "/page.css", "/d3.js", "/codemirror.js", "/codemirror.css", "/cypher.js", "/questions"):
                status, headers, told = ask(web, "GET", path)
                self.assertTrue(status == 200 and told, path)
                self.assertTrue(headers["Content-Security-Policy"].startswith("default-src 'none'; script-src 'self';"), path)
                self.assertNotIn("unsafe", headers["Content-Security-Policy"])
                self.assertIsNone(headers["Set-Cookie"])


@unittest.skipUnless(browser.is_there() and all(it.is_file() for it in PARTS), "chromium, chromium-driver, libjs-d3 and libjs-codemirror aren't there")
class Seen(unittest.TestCase):
    """What a person sees, in a browser."""

    def setUp(self):
        self.open = contextlib.ExitStack()
        self.addCleanup(self.open.close)
        self.folder = self.open.enter_context(folder())

    def begin(self, config, token, *words, load=None):
        server = self.open.enter_context(listening(config))
        if load:
            with graphd.connect(server.port, token) as graph:
                load(graph)
        self.web = self.open.enter_context(page(server.port, *words))
        self.seen = self.open.enter_context(browser.Browser(self.folder / "browser"))
        self.seen.open(f"http://127.0.0.1:{self.web}/")
        self.seen.wait("return document.querySelector('.CodeMirror') !== null")
        self.seen.click("#token")
        self.seen.type(token + "\n")
        self.seen.wait("return document.querySelector('#tenant').textContent.includes('elements')")

    def query(self, text):
        self.seen.click(".CodeMirror-lines")
        self.seen.type("a", "Control")
        self.seen.type(text)
        self.seen.click("#run")

    def drawn(self):
        return self.seen.run(
            "return [document.querySelectorAll('#graph .node circle').length, document.querySelectorAll('#graph path.link').length,"
            " [...document.querySelectorAll('#graph .node > text')].map((it) => it.textContent).sort(),"
            " [...document.querySelectorAll('#graph .type')].map((it) => it.textContent).sort()]"
        )

    def rows(self):
        return self.seen.run("return [...document.querySelectorAll('#table tr')].map((row) => [...row.cells].map((it) => it.textContent))")

    def test_an_answer_is_drawn(self):
        def load(graph):
            graph.query("CREATE (a:Person {name: 'Ada', big: 9223372036854775807})-[:KNOWS]->(b:Person {name: 'Bo'})-[:READ]->(:Doc {title: 'Plan'}), (a)-[:KNOWS]->(b), (b)-[:SEES]->(b)")

        self.begin(CONFIG, "a1", load=load)
        self.query("MATCH (a:Person)-[r:KNOWS]->(b) RETURN a, r, b.name AS name")
        self.seen.wait("return document.querySelector('#told').textContent")
        self.assertEqual(self.drawn(), [2, 2, ["1", "Ada"], ["KNOWS", "KNOWS"]])
        self.assertEqual(self.rows()[0], ["a", "r", "name"])
        self.assertEqual(self.rows()[1], ['(0:Person {big: 9223372036854775807, name: "Ada"})', "(0)-[0:KNOWS]->(1)", '"Bo"'])
        self.assertTrue(self.seen.run("return document.querySelector('#told').textContent").startswith("2 rows, "))
        keywords = self.seen.run("return [...document.querySelectorAll('.cm-keyword')].map((it) => it.textContent)")
        self.assertTrue({"MATCH", "RETURN", "AS"} <= set(keywords), keywords)
        # a click shows what a node has, a second one soon after what it is joined to
        self.seen.click_until("#graph .node circle", "return document.querySelector('#named').textContent === '(0:Person)'")
        self.assertIn("9223372036854775807", self.seen.run("return document.querySelector('#properties').textContent"))
        self.query("MATCH (b {name: 'Bo'}) RETURN b")
        self.seen.wait("return document.querySelectorAll('#graph .node').length === 1")
        self.expand(3)
        self.assertEqual(self.drawn(), [3, 4, ["Ada", "Bo", "Plan"], ["KNOWS", "KNOWS", "READ", "SEES"]])
        picture = self.seen.screenshot()
        self.assertTrue(picture.startswith(b"\x89PNG") and len(picture) > 20_000)
        self.is_quiet()

    def expand(self, count):
        """Double clicks on the first node until so many are drawn: where a machine is busy, two clicks may be too far apart for one."""
        until = time.monotonic() + SECONDS
        while self.seen.run("return document.querySelectorAll('#graph .node').length") != count and time.monotonic() < until:
            self.seen.click("#graph .node circle", times=2)
            time.sleep(1)

    def is_quiet(self):
        """The browser had nothing to complain of, asked nobody else, and keeps nothing."""
        # (it asks for a picture for its own list of pages, and advises to put passwords into forms)
        told = [it["message"] for it in self.seen.told() if it["level"] in ("WARNING", "SEVERE") and "/favicon.ico" not in it["message"]]
        self.assertEqual(told, [])
        asked = self.seen.run("return performance.getEntriesByType('resource').map((it) => it.name)")
        self.assertTrue(len(asked) >= 6 and all(it.startswith(f"http://127.0.0.1:{self.web}/") for it in asked), asked)
        self.assertEqual(self.seen.run("return [document.cookie, localStorage.length, sessionStorage.length]"), ["", 0, 0])

    def test_a_fault_shows_its_place(self):
        self.begin(CONFIG, "a1")
        self.query("MATCH (person) RETURN persn")
        told = self.seen.wait("return document.querySelector('#fault').hidden ? '' : document.querySelector('#fault').textContent")
        self.assertEqual(told.split("\n"), [
            "UndefinedVariable (9) at line 1, column 23", "MATCH (person) RETURN persn", "                      ^^^^^",
            "the variable persn isn't in scope here: did you mean person?",
        ])
        self.assertEqual(self.seen.run("return [...document.querySelectorAll('.CodeMirror .fault')].map((it) => it.textContent)"), ["persn"])
        self.query("RETURN 1 AS one")
        self.seen.wait("return document.querySelector('#fault').hidden && document.querySelectorAll('#table tr').length === 2")
        self.assertEqual(self.seen.run("return document.querySelectorAll('.CodeMirror .fault').length"), 0)
        self.is_quiet()

    def test_markup_does_no_harm(self):
        def load(graph):
            graph.query(f"CREATE (a:`{HARM}` {{name: $harm, `{HARM}`: $harm}})-[:`{HARM}`]->(:B {{name: '<script>harm=1</script>'}})", harm=HARM)

        self.begin(CONFIG, "a1", load=load)
        self.query("MATCH (a)-[r]->(b) RETURN a, r, b, a.name AS `<b>bold</b>`")
        self.seen.wait("return document.querySelector('#told').textContent.startsWith('1 row')")
        self.seen.click_until("#graph .node circle", "return !document.querySelector('#element').hidden")
        self.query("RETURN `<img src=x onerror=harm=1>`")
        self.seen.wait("return !document.querySelector('#fault').hidden")
        self.assertEqual(self.drawn()[:2], [2, 1])
        self.assertEqual(self.drawn()[3], [HARM])
        self.assertEqual(self.seen.run("return [typeof harm, document.querySelectorAll('img, b, body script').length]"), ["undefined", 0])
        self.is_quiet()

    def test_questions_are_asked_by_a_click(self):
        spec = importlib.util.spec_from_file_location("load_access", ACCESS / "load.py")
        loader = importlib.util.module_from_spec(spec)
        spec.loader.exec_module(loader)
        self.begin(ACCESS / "config.json", "access-writes", "--questions", ACCESS / "README.md", load=loader.load)
        headings = self.seen.wait("return [...document.querySelectorAll('#questions button')].map((it) => it.firstChild.textContent)")
        self.assertEqual(headings[:3], ["May this user read it?", "May this user read it?", "Why?"])
        self.seen.click("#questions li:nth-child(3) button")
        self.seen.wait("return document.querySelector('#told').textContent.startsWith('2 rows, 245 steps')")
        self.assertEqual(self.drawn()[:2], [6, 6])
        self.assertEqual(self.seen.run("return document.querySelectorAll('#history button').length"), 1)
        # what would change the graph waits for a click of its own
        self.seen.run("[...document.querySelectorAll('#questions button')].find((it) => it.firstChild.textContent === 'Somebody changes teams').click()")
        self.seen.wait("return document.querySelector('#told').textContent.startsWith('this changes the graph')")
        self.assertEqual(self.seen.run("return document.querySelectorAll('#history button').length"), 1)
        self.seen.click("#questions li:nth-child(3) button")
        self.seen.wait("return document.querySelector('#told').textContent.startsWith('2 rows')")
        self.seen.click("#explain")
        self.seen.wait("return document.querySelector('#table').textContent.includes('(u:User')")
        self.is_quiet()
