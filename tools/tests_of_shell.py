"""Tests of the shell."""
import contextlib
import io
import json
import os
import shutil
import signal
import subprocess
import sys
import unittest
import unittest.mock

import client_path  # (finds the package graphd)
import dumps
import graphd
import replies
import tables
from graphd_program import ROOT
from machine import times_as_long
from statements import Open, Splitter, statements
from terminal import completions
from tests_of_clients import CONFIG, PROMPT, SECONDS, SHELL, SLOW, Given, Terminal, comes, configuration, elements, environment, folder, late, listening, shell, slowed


def texts(text):
    return [statement.text for statement in statements(text)]


class Statements(unittest.TestCase):
    def test_statements_end_at_their_semicolons(self):
        told = "RETURN ';'; /* ; */ RETURN `;`; // ;\nRETURN \"\\\";\""
        self.assertEqual(texts(told), ["RETURN ';'", "RETURN `;`", 'RETURN "\\";"'])

    def test_comments_are_no_statement(self):
        self.assertEqual(texts("RETURN 1;\n// one\n// two\n/* three\n */ ; ;\n"), ["RETURN 1"])

    def test_commands_are_lines(self):
        self.assertEqual(texts("// a\n :status\nMATCH (n\n:L) RETURN n; :help\nRETURN 1"), [":status", "MATCH (n\n:L) RETURN n", ":help", "RETURN 1"])

    def test_lines_are_counted(self):
        self.assertEqual([it.line for it in statements("\n// c\nRETURN\n1;RETURN 2;\r\nRETURN 'a\nb';\rRETURN 3")], [3, 4, 5, 7])

    def test_what_isnt_closed_is_told(self):
        for told, line in (("RETURN 1;\nRETURN 'it;\nRETURN 2;", 2), ("/* a\n;", 1), ("RETURN `a;", 1), ("RETURN 'a\\';\n", 1)):
            with self.assertRaisesRegex(Open, f"line {line}:"):
                statements(told)

    def test_backslashes_and_stars_at_the_end_of_a_line(self):
        self.assertEqual(texts("RETURN 'a\\\n;', ';' ;RETURN /* *\n/ ; */ 2"), ["RETURN 'a\\\n;', ';'", "RETURN /* *\n/ ; */ 2"])

    def test_pieces_are_the_whole(self):
        told = "RETURN 'a\\\\';/**/RETURN /* '; \n*/ `x``;`;\n:index A b\nRETURN \"\\\"\n;\";//;'\nRETURN 1 / 2;"
        splitter = Splitter()
        found = []
        for line in told.splitlines(keepends=True):
            found += splitter.feed(line)
        self.assertEqual(found + splitter.rest(), statements(told))
        self.assertEqual(len(found), 5)

    def test_long_lines_take_time_of_their_length(self):
        def read(count):
            self.assertEqual(len(statements("RETURN 'a', \"b\" /* c */;" * count)), count)

        self.assertLessEqual(times_as_long(8, lambda: read(30_000), lambda: read(120_000)), 8)

    def test_long_texts_take_time_of_their_length(self):
        with folder() as made:
            file = made / "long.cypher"
            file.write_text("RETURN 1 AS x\n" + "//\n" * 16_000 + ";\n")
            self.assertEqual(shell(CONFIG, "a1", "--file", file)[0], 0)


class Scripts(unittest.TestCase):
    def test_statements_in_a_pipe(self):
        status, told, _ = shell(CONFIG, "a1", text="CREATE (n:P\n  {name:'x;y'});\n:status\nMATCH (n) RETURN n.name AS name")
        lines = [json.loads(line) for line in told.splitlines()]
        self.assertEqual((status, lines[1]["elements"], lines[2]["rows"]), (0, 1, [["x;y"]]))

    def test_formats(self):
        for words, wanted in [
            (["--csv"], 'a,b,c\n1,"x""y",\n'),
            (["--format", "json"], '{"columns": ["a", "b", "c"], "rows": [[1, "x\\"y", null]], "steps": 1}\n'),
        ]:
            status, told, _ = shell(CONFIG, "a1", "-c", "RETURN 1 AS a, 'x\"y' AS b, null AS c", *words)
            self.assertEqual((status, told), (0, wanted))
        told = shell(CONFIG, "a1", "-c", "RETURN 1 AS a, 'xy' AS long", "--format", "vertical")[1]
        self.assertIn('row 1\n  a    | 1\n  long | "xy"\n1 row', told)
        self.assertIn('a | long\n--+-----\n1 | "xy"\n', shell(CONFIG, "a1", "-c", "RETURN 1 AS a, 'xy' AS long", "--format", "table")[1])

    def test_a_refusal_is_status_1(self):
        status, told, _ = shell(CONFIG, "a1", text="RETURN;\nRETURN 1")
        lines = told.splitlines()
        self.assertEqual((status, len(lines), json.loads(lines[0])["error"]), (1, 2, "BadSyntax"))
        self.assertEqual(json.loads(lines[0])["where"], "standard input: statement 1, line 1")

    def test_a_refusal_shows_its_place(self):
        status, _, told = shell(CONFIG, "a1", "-c", "RETURN 1;\nMATCH (n)\n  RETRUN n;", "--format", "table")
        self.assertEqual(status, 1)
        self.assertIn("statement 2, line 2\nrefused: BadSyntax (7) at line 2, column 3\n    RETRUN n\n    ^^^^^^\n", told)
        self.assertIn("did you mean RETURN?", told)
        told = shell(CONFIG, "a1", "-c", "RETURN 'é日', toUpper('a')", "--format", "table")[2]
        self.assertIn("\n  RETURN 'é日', toUpper('a')\n                ^^^^^^^\n  there is no function toUpper: ", told)

    def test_a_wrong_parameter_is_refused_alone(self):
        for wrong in ("1.5", "NaN", "{", "99999999999999999999", "[" * 65 + "]" * 65):
            status, told, fault = shell(CONFIG, "a1", text=f":param x {wrong}\nRETURN 1 AS y;")
            self.assertEqual((status, json.loads(told)["rows"]), (1, [[1]]))
            self.assertIn("$x", fault)

    def test_only_parameters_that_a_text_names_are_sent(self):
        # together they would make a request that is too long
        large = json.dumps("a" * 600_000)
        status, told, _ = shell(CONFIG, "a1", text=f":param a {large}\n:param b {large}\nRETURN size($a) AS x;\nRETURN size($`b`) AS x;")
        self.assertEqual((status, [json.loads(line)["rows"] for line in told.splitlines()]), (0, [[[600_000]], [[600_000]]]))

    def test_parameters_of_the_command_line(self):
        told = shell(CONFIG, "a1", "-c", "RETURN $x + 1, $y", "--param", "x=41", "--param", 'y="a=b"', "--csv")[1]
        self.assertEqual(told.splitlines()[1], "42,a=b")
        status, _, fault = shell(CONFIG, "a1", "-c", "RETURN 1", "--param", "x=1.5")
        self.assertEqual((status, "Traceback" in fault, "$x" in fault), (1, False, True))

    def test_fail_fast(self):
        text = "CREATE (:P);\nRETURN;\nCREATE (:P);"
        with listening(CONFIG) as server:
            status, _, told = shell("--port", server.port, "a1", "--fail-fast", text=text)
            self.assertEqual((status, elements(server.port)), (1, 1))
            self.assertIn("statement 2, line 2", told)
            self.assertEqual(shell("--port", server.port, "a1", text=text)[0], 1)
            self.assertEqual(elements(server.port), 3)

    def test_tokens_from_elsewhere(self):
        with folder() as made:
            (made / "token").write_text("a1\n")
            self.assertEqual(shell(CONFIG, "-c", "RETURN 1", "--token-file", made / "token")[0], 0)
        self.assertEqual(shell(CONFIG, "-c", "RETURN 1", GRAPHD_TOKEN="a1")[0], 0)
        self.assertEqual(shell(CONFIG, "-c", "RETURN 1")[0], 2)

    def test_comments_at_the_end_of_a_file(self):
        with folder() as made:
            file = made / "a.cypher"
            file.write_text("RETURN 1;\n// one\n// two\n")
            self.assertEqual(shell(CONFIG, "a1", "--file", file)[0], 0)

    def test_an_open_quote_in_a_file(self):
        with folder() as made:
            file = made / "a.cypher"
            file.write_text("CREATE (:P);\nRETURN 'it;\nCREATE (:P);\n")
            status, told, fault = shell(CONFIG, "a1", "--file", file)
            self.assertEqual((status, len(told.splitlines())), (1, 1))
            self.assertIn("line 2: the text that ' opens here isn't closed", fault)

    def test_faults_without_a_traceback(self):
        with folder() as made:
            (made / "binary").write_bytes(b"RETURN 1;\n\x80\xff\0;\n")
            faults = [
                ([CONFIG, "a1", "--file", made / "missing"], "missing"),
                ([CONFIG, "a1", "--file", made], "Is a directory"),
                ([CONFIG, "a1", "--file", made / "binary"], "line 2: no text in UTF-8"),
                (["--port", "70000", "a1", "-c", "RETURN 1"], "70000"),
                (["--port", "1", "a1", "-c", "RETURN 1"], "no server answers"),
                ([made / "missing.json", "a1", "-c", "RETURN 1"], "missing.json"),
                ([CONFIG, "-c", "RETURN 1", "--token-file", made / "missing"], "missing"),
                ([CONFIG, "a1", "-c", ":source /nonexistent"], "/nonexistent"),
            ]
            for words, wanted in faults:
                status, _, told = shell(*words)
                self.assertNotIn("Traceback", told)
                self.assertIn(wanted, told)
                self.assertEqual(status, 1)
            self.assertIn("no text in UTF-8", shell(CONFIG, "a1", text=b"RETURN 1;\n\xff;")[2])

    def test_homes_and_marks_of_order(self):
        with folder() as made:
            (made / "a.cypher").write_bytes("\ufeffRETURN 'é' AS x;\n".encode())
            (made / "config.json").write_bytes(CONFIG.read_bytes())
            wanted = {"columns": ["x"], "rows": [["é"]], "steps": 1}
            for words in (["--file", "~/a.cypher"], ["-c", ":source ~/a.cypher"]):
                status, told, _ = shell("~/config.json", "a1", *words, HOME=str(made))
                self.assertEqual((status, json.loads(told)), (0, wanted))

    def test_a_broken_pipe_ends_the_run(self):
        with folder() as made, listening(configuration(made, 1)) as server:
            file = made / "many.cypher"
            # (more than a pipe takes that nobody reads)
            file.write_text("CREATE (n) RETURN n, range(1, 900);\n" * 300)
            run = [*SHELL, "--port", str(server.port), "t0", "--file", str(file)]
            child = subprocess.Popen(run, stdout=subprocess.PIPE, stderr=subprocess.PIPE, env=environment())
            child.stdout.readline()
            child.stdout.close()
            fault = child.communicate(timeout=SECONDS)[1].decode()
            self.assertEqual((child.returncode, fault), (1, ""))
            self.assertLess(elements(server.port, "t0"), 250)

    def test_an_interrupt_of_a_file(self):
        with folder() as made, late(CONFIG, made) as server:
            file = made / "a.cypher"
            file.write_text(f"CREATE (:P);\nRETURN 1 AS x {SLOW};\nCREATE (:P);\n")
            run = [*SHELL, "--port", str(server.port), "a1", "--file", str(file)]
            child = subprocess.Popen(run, stdout=subprocess.PIPE, stderr=subprocess.PIPE, env=environment())
            child.stdout.readline()
            self.assertTrue(comes(server.gate.holds))
            child.send_signal(signal.SIGINT)
            told = child.communicate(timeout=SECONDS)[1].decode()
            server.gate.let_go()
            self.assertEqual((child.returncode, elements(server.port)), (130, 1))
            self.assertIn("at statement 2; what the server has begun goes on", told)

    def test_indexes_of_labels_with_blanks(self):
        text = ":index `My Label` `a``b`\n:index :Other(key)\n:status\n:unindex `My Label` `a``b`\n:status\n"
        status, told, _ = shell(CONFIG, "a1", text=text)
        lines = [json.loads(line) for line in told.splitlines()]
        self.assertEqual((status, lines[2]["indexes"], lines[4]["indexes"]), (0, [["My Label", "a`b"], ["Other", "key"]], [["Other", "key"]]))

    def test_a_dump_is_the_graph(self):
        make = """CREATE (a:A {x: 1, t: 'é"\\'\\n'}), (b:`B c`:A {l: [1, 2], `odd key`: true}), (c), (a)-[:T {k: 'v'}]->(b),
            (b)-[:T]->(b), (c)-[:`U v`]->(a), (d:A), (d)-[:T]->(c);
            MATCH (n:A {x: 1})-[r:T]->() DELETE r;
            MATCH (c)-[:`U v`]->(a) CREATE (a)-[:Z {n: -9223372036854775807}]->(c);
            :index A x\n"""
        shows = "MATCH (n) RETURN labels(n), properties(n); MATCH (a)-[r]->(b) RETURN type(r), properties(r), labels(a), labels(b); :status\n"
        with folder() as made:
            config = configuration(made, 1)
            _, before, _ = shell(config, "t0", text=f"{make}{shows}:dump {made}/dump\n")
            status, after, fault = shell(config, "t0", text=f":restore {made}/dump\n{shows}:restore {made}/dump\n")
            again = shell(config, "t0", "--file", made / "dump", "--format", "csv")
        self.assertEqual((status, "a dump is restored on an empty one" in fault, again[0]), (1, True, 0))
        rows = [[json.loads(line).get("rows") for line in told.splitlines()] for told in (before, after)]
        self.assertEqual(rows[0][4:6], rows[1][1:3])
        self.assertEqual(json.loads(before.splitlines()[6])["indexes"], json.loads(after.splitlines()[3])["indexes"])

    def test_a_dump_keeps_ids(self):
        # loops, names in backquotes, all kinds of values, and ids that are missing: one, some in a row, and more than a statement makes
        make = """:param wide {"list": [], "mixed": [true, "a", -1, "é\\n"], "least": -9223372036854775808, "no": false, "text": "'\\"`", "odd `key{}": ""}
            CREATE (a:A $wide)-[:T $wide]->(b:`B ``c {d}`:A), (b)-[:`T ``{u}`]->(b), (), (a)-[:T]->(b), (c:C)-[:T]->(c), (:C);
            MATCH (:A)-[r:T]->(b) WHERE id(r) = 2 DELETE r;
            MATCH (n) WHERE id(n) = 2 DELETE n;
            UNWIND range(1, 120) AS i CREATE (x:Q)-[:W {i: i}]->(x);
            MATCH (x:Q) WHERE id(x) % 5 <> 0 DETACH DELETE x;
            UNWIND range(1, 180) AS i CREATE (x)-[:V]->(x) DETACH DELETE x;
            UNWIND range(1, 180) AS i CREATE (x)-[:V]->(x) DETACH DELETE x;
            CREATE (:`B ``c {d}`)-[:`T ``{u}`]->(:Z), (:Z);
            MATCH (n:Z) WHERE id(n) = 487 DELETE n;
            :index A `odd ``key{}`\n"""
        with folder() as made:
            config = configuration(made, 1)
            status, before, _ = shell(config, "t0", "--format", "table", text=f"{make}:status\n:dump {made}/one\n")
            self.assertEqual((status, before.splitlines()[-1]), (0, "30 nodes and 28 relationships written, with their ids"))
            status, after, _ = shell(config, "t0", "--format", "table", text=f":restore {made}/one\n:status\n:dump {made}/two\n")
            self.assertEqual((status, after.splitlines()[0]), (0, "58 elements restored, with their ids"))
            self.assertEqual((made / "one").read_text(), (made / "two").read_text())
            # a node with a greater id than those that there are was deleted: the next one's comes behind it
            self.assertIn("next node id 488, next relationship id 485", before)
            self.assertIn("next node id 488, next relationship id 485", after)
            again = f"CREATE (n) DELETE n;\n:restore {made}/one\nMATCH (n:A) RETURN min(id(n)) AS least;\n"
            status, told, _ = shell(config, "t0", "--format", "table", text=again)
            self.assertEqual((status, "58 elements restored, under new ids" in told, "\n1\n" in told), (0, True, True))

    def test_a_dump_fills_ids_within_bounds(self):
        status = graphd.Status(3, 1000, 1000, 1001, 0, [])
        nodes = [graphd.Node(at, (), {}) for at in (0, 450, 1000)]
        texts = [line for line in dumps.Dump(nodes, [], status).lines() if line.startswith("UNWIND range")]
        self.assertEqual([line.split(")")[0] for line in texts], [f"UNWIND range(1, {count}" for count in (300, 149, 300, 249)])
        # a tenant without room for more, and one that has given more ids than are filled
        tight = dumps.Dump(nodes, [], graphd.Status(3, 3, 1000, 1001, 0, []))
        self.assertEqual(sum(line.startswith("UNWIND range(1, 2)") for line in tight.lines()), 224)
        far = dumps.Dump(nodes, [], graphd.Status(3, 1000, 1000, dumps.MOST_FILLED + 5, 0, []))
        self.assertEqual((far.keeps_ids, any("range" in line for line in far.lines())), (False, False))

    def test_a_dump_of_what_no_request_holds(self):
        # (a letter that JSON spells with six)
        text = json.dumps(chr(1) * 160_000)
        make = f""":param t {text}
            CREATE (n:L {{t: $t, i: 1}})-[:T]->(:M), (:N)-[:U]->(:L);
            MATCH (n:L {{i: 1}})-[r]->() SET n.t = n.t + $t SET r.t = n.t SET n.l = ['a', n.t, true];\n"""
        with folder() as made:
            config = configuration(made, 1)
            status, _, _ = shell(config, "t0", text=f"{make}:dump {made}/one\n")
            restored = shell(config, "t0", "--format", "table", text=f":restore {made}/one\n:dump {made}/two\nMATCH (n:L)-[r]->() RETURN size(n.t), size(r.t), size(n.l[1]), n.l[2];\n")
            self.assertEqual((status, restored[0], (made / "one").read_text() == (made / "two").read_text()), (0, 0, True))
            self.assertIn("320000 | 320000 | 320000 | true", " ".join(restored[1].split()))

    def test_the_schema(self):
        text = "CREATE (:A:B {x: 1})-[:T {y: 2}]->(:A);\n:schema\n"
        told = shell(CONFIG, "a1", "--format", "table", text=text)[1]
        for line in ("label A: 2", "label B: 1", "node key x: 1", "type T: 1", "relationship key y: 1"):
            self.assertIn(line, told)


    def test_pages_of_a_script(self):
        text = "UNWIND range(1, 5) AS x RETURN x;\nRETURN 7 AS x;\n:pages\n"
        status, told, _ = shell(CONFIG, "a1", "--page", "2", text=text)
        wanted = [
            {"columns": ["x"], "page": 0, "rows": [[1], [2]], "steps": 10}, {"page": 0, "rows": [[3], [4]]}, {"page": None, "rows": [[5]]},
            {"columns": ["x"], "rows": [[7]], "steps": 1}, {"pages": ["no rows are held for this shell"]},
        ]
        self.assertEqual((status, [json.loads(line) for line in told.splitlines()]), (0, wanted))
        self.assertEqual(shell(CONFIG, "a1", "--page", "2", "--csv", text=text.replace(":pages", ""))[1].split(), ["x", *"12345", "x", "7"])
        told = shell(CONFIG, "a1", "--page", "2", "--format", "vertical", text=text)[1]
        self.assertIn("row 2\n  x | 2\nrows 1 to 2\nrow 3\n", told)
        self.assertIn("row 5\n  x | 5\n5 rows, 10 steps, ", told)
        for wrong in ("0", "10001", "x"):
            self.assertEqual(shell(CONFIG, "a1", "--page", wrong, text=text)[0], 2)

    def test_pages_that_cant_be_had(self):
        # more than may be held is refused where pages were asked for; a transaction has none
        text = "UNWIND range(1, 300) AS x CREATE (:P) RETURN x;\n:status\n:begin\nUNWIND range(1, 5) AS x RETURN x;\n:commit\n"
        status, told, _ = shell(CONFIG, "a1", "--page", "2", text=text.replace("CREATE (:P) ", ""))
        lines = [json.loads(line) for line in told.splitlines()]
        self.assertEqual((status, lines[0]["error"], lines[3]["rows"]), (1, "HeldRowsQuota", [[1], [2], [3], [4], [5]]))
        status, told, fault = shell(CONFIG, "a1", text=":pull 0\n:drop\n:pull x\n:pull -1\n")
        self.assertEqual((status, told, fault.count("no such page: :pages lists them")), (1, "", 4))

    def test_transactions(self):
        text = ":begin\nCREATE (:P);\n:begin\n:index P k\n:rollback\n:status\n:commit\n:begin\nCREATE (:P);\n:commit\n:status\nCOMMIT;\n"
        status, told, _ = shell(CONFIG, "a1", text=text)
        lines = [json.loads(line) for line in told.splitlines()]
        self.assertEqual((status, [line["error"] for line in lines if "error" in line]), (1, ["TransactionOpen", "TransactionOpen", "NoTransaction", "BadSyntax"]))
        self.assertEqual([(line["elements"], line["next_node"]) for line in lines if "elements" in line], [(0, 0), (1, 1)])
        self.assertIn("in the shell by :commit", lines[-1]["why"])
        told = shell(CONFIG, "a1", "--format", "table", text=":begin\n:commit\n:begin\n:rollback\n")[1]
        self.assertEqual(told.splitlines(), ["a transaction is open", "committed", "a transaction is open", "rolled back"])

    def test_what_a_file_leaves_open_is_rolled_back(self):
        with listening(CONFIG) as server:
            for text, words in ((":begin\nCREATE (:P);\n", []), (":begin\nCREATE (:P);\nRETURN;\n:commit\n", ["--fail-fast"]), (":begin\nCREATE (:P);\n:quit\n", [])):
                status, _, told = shell("--port", server.port, "a1", *words, text=text)
                self.assertEqual((status, elements(server.port)), (1, 0))
                self.assertIn("the transaction that was open is rolled back", told)
            self.assertEqual(shell("--port", server.port, "a1", text=":begin\nCREATE (:P);\nRETURN;\n:commit\n")[0], 1)
            self.assertEqual(elements(server.port), 1)

    def test_a_dump_isnt_restored_within_a_transaction(self):
        with folder() as made:
            status, _, told = shell(CONFIG, "a1", text=f"CREATE (:P);\n:dump {made}/dump\n:begin\nMATCH (n) DELETE n;\n:restore {made}/dump\n:commit\n")
        self.assertEqual((status, "isn't restored within a transaction" in told), (1, True))


class Shown(unittest.TestCase):
    def test_nothing_shown_moves_the_cursor(self):
        self.assertEqual(tables.safe("a\x1b[2J\n\u202e"), "a\\u001b[2J\\n\\u{202e}")
        self.assertEqual(tables.shown(graphd.Node(1, ("A b", "C"), {"x": [None, True]})), "(1:`A b`:C {x: [null, true]})")
        self.assertEqual(tables.shortened("日" * 40, 60), "日" * 29 + "…")

    def test_a_terminal_without_a_size(self):
        with unittest.mock.patch("shutil.get_terminal_size", return_value=os.terminal_size((0, 0))):
            self.assertEqual(tables.lines(["a", "b"], [["x" * 30, 2]], False)[2], f'"{"x" * 30}" | 2')
            with unittest.mock.patch("replies._page") as paged, contextlib.redirect_stdout(io.StringIO()):
                replies.Tables(pages=True).told("", ["line"] * 20)
            paged.assert_not_called()

    def test_a_wide_column_takes_what_others_leave(self):
        os.environ["COLUMNS"] = "80"
        try:
            told = tables.lines(["a", "b", "c"], [[1, "x" * 60, 2]], False)
            self.assertEqual(told[2], f'1 | "{"x" * 60}" | 2')
            told = tables.lines(["a", "b", "c"], [["y" * 90, "x" * 90, 2]], False)
            self.assertEqual([len(cell) for cell in told[2].split(" | ")], [36, 37, 1])
        finally:
            del os.environ["COLUMNS"]


class Typed(unittest.TestCase):
    def test_an_interrupt_at_the_prompt_keeps_the_graph(self):
        with Terminal(CONFIG, "a1") as typed:
            typed.wait_for(PROMPT)
            typed.type("CREATE (:P);\n")
            typed.wait_for(r"1 step")
            typed.wait_for(PROMPT)
            typed.type("RETURN 'half")
            typed.wait_for("half")
            typed.wait_for_rest()
            typed.type("\x03")
            typed.wait_for(PROMPT)
            typed.type("MATCH (n) RETURN count(n) AS count_of_n;\n")
            self.assertIn("\n1\r\n1 row", typed.wait_for(r"1 row, "))

    def test_an_interrupt_of_a_query_keeps_the_shell_and_the_graph(self):
        with folder() as made, late(CONFIG, made) as server:
            for words in ([CONFIG, "a1", "--program", slowed(server.gate)], ["--port", server.port, "a1"]):
                with Terminal(*words) as typed:
                    typed.wait_for(PROMPT)
                    typed.type(f"CREATE (n:P) RETURN 'first' AS x {SLOW};\n")
                    self.assertTrue(comes(server.gate.holds))
                    typed.type("\x03")
                    typed.wait_for("stopped waiting: the request goes on in the server")
                    typed.wait_for(PROMPT)
                    server.gate.let_go()
                    typed.type("MATCH (n) RETURN 'second', count(n) AS c;\n")
                    self.assertIn('"second" | 1', typed.wait_for(r"1 row, "))

    def test_the_prompt_tells_that_a_transaction_is_open(self):
        with listening(CONFIG) as server, Terminal("--port", server.port, "a1") as typed:
            typed.wait_for(PROMPT)
            typed.type(":begin\n")
            typed.wait_for(r"a transaction is open\r\ngraphd\*> $")
            typed.type("CREATE\n")
            typed.wait_for(r" {4}\.\.\.> $")
            typed.type("(:P);\n")
            typed.wait_for(r"graphd\*> $")
            typed.type(":commit\n")
            typed.wait_for(r"committed\r\ngraphd> $")
            self.assertEqual(elements(server.port), 1)
            typed.type(":begin\nCREATE (:P);\n")
            typed.wait_for(r"1 step[^>]*graphd\*> $")
            typed.type(":quit\n")
            typed.wait_for("the transaction that was open is rolled back")
            self.assertEqual((typed.ended(), elements(server.port)), (0, 1))

    def test_an_interrupt_within_a_transaction(self):
        with folder() as made, late(CONFIG, made) as server:
            # over a connection it ends the transaction, and in a server of the shell's own it doesn't
            wanted = r"the transaction has ended with its connection[^>]*stopped waiting\r\ngraphd> $", r"stopped waiting: the request goes on[^>]*graphd\*> $"
            for words, told, left in ((["--port", server.port, "a1"], wanted[0], 0), ([CONFIG, "a1", "--program", slowed(server.gate)], wanted[1], 2)):
                with Terminal(*words) as typed:
                    typed.wait_for(PROMPT)
                    typed.type(":begin\n")
                    typed.wait_for(r"graphd\*> $")
                    typed.type("CREATE (:P);\n")
                    typed.wait_for(r"graphd\*> $")
                    typed.type(f"CREATE (:P) {SLOW};\n")
                    self.assertTrue(comes(server.gate.holds))
                    typed.type("\x03")
                    typed.wait_for(told)
                    server.gate.let_go()
                    typed.type("MATCH (n) RETURN count(n) AS count_of_n;\n")
                    self.assertIn(f"\n{left}\r\n1 row", typed.wait_for(r"1 row, "))

    def test_help_within_a_statement(self):
        with Terminal(CONFIG, "a1") as typed:
            typed.wait_for(PROMPT)
            typed.type("RETURN 7 AS\n:help\n")
            typed.wait_for(r"takes it back")
            typed.wait_for(r"\.\.\.> $")
            typed.type("seven;\n")
            self.assertIn("\n7\r\n", typed.wait_for(r"1 row, "))
            typed.wait_for(PROMPT)
            typed.type("RETURN 'open\n")
            typed.wait_for(r"'\.\.> $")
            typed.type(":clear\n")
            typed.wait_for(PROMPT)
            typed.type("RETURN 8 AS\n:status\n")
            typed.wait_for(r"is still open: a semicolon ends it, :clear drops it\.\r\n +\.\.\.> $")
            typed.type("exit\n")
            typed.wait_for(r"is still open[^>]*> $")
            typed.type(":clear\n")
            typed.wait_for(PROMPT)
            typed.type("help\n")
            typed.wait_for(r"takes it back")
            typed.wait_for(PROMPT)
            typed.type("quit\n")
            self.assertEqual(typed.ended(), 0)

    def test_a_server_that_comes_back(self):
        with Terminal("--port", "1", "a1") as typed:
            typed.wait_for(PROMPT)
            typed.type("RETURN 1;\n")
            typed.wait_for("no server answers")
            typed.wait_for(PROMPT)
            typed.type(":quit\n")
            self.assertEqual(typed.ended(), 1)

    def test_the_history_has_whole_statements(self):
        with folder() as made:
            with Terminal(CONFIG, "a1", HOME=str(made)) as typed:
                typed.wait_for(PROMPT)
                typed.type("RETURN 1 AS x,\n  'a  b' AS y;\n")
                typed.wait_for(r"1 row, ")
                typed.wait_for(PROMPT)
                typed.type(":quit\n")
                self.assertEqual(typed.ended(), 0)
            self.assertEqual((made / ".graphsh_history").read_text().splitlines(), ["RETURN 1 AS x, 'a  b' AS y;", ":quit"])

    def test_long_tables_are_paged(self):
        # by the shell itself where the tenant may hold no rows
        with folder() as made:
            config = configuration(made, 1)
            for words, wanted in (([], "paged:98 "), (["--no-pager"], "\n98 ")):
                with Terminal(config, "t0", *words, PAGER="sed s/^/paged:/") as typed:
                    typed.wait_for(PROMPT)
                    typed.type("UNWIND range(1, 98) AS x RETURN x, 1 AS y;\n")
                    self.assertIn(wanted, typed.wait_for(r"98 rows, "))

    def test_results_come_page_by_page(self):
        with listening(CONFIG) as server, Terminal("--port", server.port, "a1") as typed:
            typed.wait_for(PROMPT)
            typed.type("UNWIND range(1, 48) AS x RETURN x, 1 AS y;\n")
            told = typed.wait_for(r"rows 1 to 20\r\na key goes on, q drops the rest, k keeps it$")
            self.assertEqual(("\n20 | 1" in told, "\n21 | 1" in told), (True, False))
            typed.type(" ")
            self.assertIn("\n21 | 1", typed.wait_for(r"rows 21 to 40\r\na key goes on[^\r]*$"))
            typed.type("\n")
            self.assertIn("\n48 | 1", typed.wait_for(r"48 rows, 96 steps, [^>]*graphd> $"))
            typed.type("RETURN 1 AS x;\n")
            typed.wait_for(r"1 row, [^>]*graphd> $")

    def test_what_is_left_of_a_result_is_kept_or_dropped(self):
        with listening(CONFIG) as server:
            other = graphd.connect(server.port, "a1")
            with Terminal("--port", server.port, "a1", "--page", "9") as typed:
                typed.wait_for(PROMPT)
                typed.type("UNWIND range(1, 30) AS x RETURN x;\n")
                typed.wait_for(r"rows 1 to 9\r\na key goes on[^\r]*$")
                typed.type("k")
                typed.wait_for(r"the rest is page 0: :pull 0 goes on\r\ngraphd> $")
                typed.type(":begin\n:pages\n")
                typed.wait_for(r"page 0: 9 rows seen of UNWIND range\(1, 30\) AS x RETURN x\r\ngraphd\*> $")
                typed.type(":pull 0\n")
                typed.wait_for(r"TransactionOpen \(42\)[^>]*graphd\*> $")
                typed.type(":rollback\n:pull\n")
                typed.wait_for(r"\n10\r\n(?s:.*)rows 10 to 18\r\na key goes on[^\r]*$")
                typed.type("q")
                typed.wait_for(r"the rows after the first 18 are dropped\r\ngraphd> $")
                for key in ("\x03", "k"):
                    typed.type("UNWIND range(1, 30) AS x RETURN x;\n")
                    typed.wait_for(r"rows 1 to 9\r\na key goes on[^\r]*$")
                    typed.type(key)
                    typed.wait_for(PROMPT)
                typed.type(":pages\n")
                typed.wait_for("page 2: 9 rows seen")
                typed.wait_for(PROMPT)
                typed.type(":drop 1\n")
                typed.wait_for("no such page")
                typed.wait_for(PROMPT)
                other.drop_page(2)
                typed.type(":pull 2\n")
                typed.wait_for(r"NoSuchPage \(43\)")
                typed.wait_for(PROMPT)
                typed.type("UNWIND range(1, 99) AS x RETURN x;\n")
                typed.wait_for(r"a key goes on[^\r]*$")
                typed.type("k")
                typed.wait_for(PROMPT)
                typed.type(":quit\n")
                typed.ended()
            # (what was kept is dropped at the end)
            self.assertEqual(other.query_page("UNWIND range(1, 101) AS x RETURN x", 1).page, 4)

    def test_a_transaction_and_other_formats_are_not_paged(self):
        with Terminal(CONFIG, "a1", PAGER="cat") as typed:
            for typing in (":begin\n", ":rollback\n:format json\n"):
                typed.wait_for(r"graphd\*?> $")
                typed.type(typing + "UNWIND range(1, 98) AS x RETURN x, 1 AS y;\n")
                typed.wait_for(r"98 rows, |\[98, 1\]")

    def test_keywords_are_completed(self):
        with Terminal(CONFIG, "a1") as typed:
            typed.wait_for(PROMPT)
            typed.type("unw\t [7] as x RET\t x;\n")
            self.assertIn("\n7\r\n", typed.wait_for(r"1 row, "))

    def test_names_of_the_graph_are_completed(self):
        with Terminal(CONFIG, "a1") as typed:
            typed.wait_for(PROMPT)
            typed.type("CREATE (:Household {inhabitants: 3});\n")
            typed.wait_for(r"0 rows, ")
            typed.wait_for(PROMPT)
            typed.type("MATCH (found:Hou\t) RETURN fou\t.inh\t + 1 AS more;\n")
            self.assertIn("\n4\r\n", typed.wait_for(r"1 row, "))

    def test_what_completes_a_word(self):
        names = ["Person", "KNOWS", "path"]
        self.assertEqual(completions(":sta", "", names), [":status"])
        self.assertEqual(completions(":pu", "", names), [":pull"])
        self.assertEqual(completions("p:Pe", "MATCH (", names), ["p:Person"])
        self.assertEqual(completions(":K", "MATCH (p)-[", names), [":KNOWS"])
        self.assertEqual(completions("pa", "MATCH (p) RETURN p.", names), ["path"])
        self.assertEqual(completions("ma", "", names), ["match", "max("])
        self.assertEqual(completions("", "MATCH (", names), [])


class Programs(unittest.TestCase):
    """Which program the tools take, in a tree whose program has no stamp."""

    def copied(self, made):
        for name in ("tools", "clients", "examples"):
            shutil.copytree(ROOT / name, made / name, ignore=shutil.ignore_patterns("__pycache__", ".mypy_cache"))
        (made / "crates" / "graphd" / "out").mkdir(parents=True)
        shutil.copy(ROOT / "crates.txt", made)
        return made / "crates" / "graphd" / "out" / "graphd"

    def run_tool(self, made, *words, **variables):
        kept = {name: value for name, value in environment().items() if name not in ("GRAPHD_PROGRAM", "PATH")}
        sent = '{"op":"status","token":"a1"}\n'
        run = [sys.executable, str(made / "tools" / words[0]), *map(str, words[1:])]
        done = subprocess.run(run, input=sent, capture_output=True, text=True, timeout=SECONDS, env={**kept, **variables})
        return done.returncode, done.stdout, done.stderr

    def test_which_program_is_taken(self):
        with folder() as made:
            program = self.copied(made)
            asked = ["ask", made / "examples" / "first.json"]
            self.assertEqual(self.run_tool(made, *asked)[0], 1)
            self.assertEqual(self.run_tool(made, *asked, "--program", Given.program)[:1], (0,))
            self.assertEqual(self.run_tool(made, *asked, GRAPHD_PROGRAM=str(Given.program))[:1], (0,))
            self.assertIn("no program", self.run_tool(made, *asked, "--program", made / "missing")[2])
            program.symlink_to(Given.program)
            os.utime(made / "crates.txt", (0, 0))
            self.assertEqual(self.run_tool(made, *asked)[:1], (0,))
