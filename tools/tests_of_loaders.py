"""Tests of the examples' loaders, and of the one that writes rows."""
import contextlib
import importlib.util
import inspect
import io
import json
import subprocess
import sys
import unittest
import unittest.mock

import client_path  # (finds the package graphd)
import graphd
from graphd_program import ROOT
from tests_of_clients import CONFIG, SECONDS, Given, environment, listening, reserved_port


class Exports(unittest.TestCase):
    """The example that writes the rows of a query."""

    def run_it(self, port, text, *words, taken=None):
        """The status, the lines that were written, as many as are taken, and what was told."""
        run = [sys.executable, str(ROOT / "examples" / "export.py"), *words, str(port), "a1", text]
        child = subprocess.Popen(run, stdout=subprocess.PIPE, stderr=subprocess.PIPE, text=True, env=environment())
        lines = [child.stdout.readline() for _ in range(taken)] if taken else child.stdout.readlines()
        child.stdout.close()
        told = child.stderr.read()
        child.stderr.close()
        return child.wait(timeout=SECONDS), lines, told

    def test_rows_are_written_as_they_come(self):
        with listening(CONFIG) as server:
            status, lines, told = self.run_it(server.port, "UNWIND range(1, 60) AS x RETURN x, 'é' AS t", "--page", "7")
            self.assertEqual((status, [json.loads(it) for it in lines], told), (0, [{"x": x, "t": "é"} for x in range(1, 61)], ""))
            status, _, told = self.run_it(server.port, "UNWIND range(1, 200) AS x RETURN x", "--page", "7")
            self.assertEqual((status, "HeldRowsQuota (44)" in told, "Traceback" in told), (1, True, False))

    def test_what_nobody_takes_is_dropped(self):
        with listening(CONFIG) as server:
            found = self.run_it(server.port, "UNWIND range(1, 90) AS x RETURN x, range(1, 900) AS l", "--page", "1", taken=2)
            self.assertEqual((found[0], [json.loads(it)["x"] for it in found[1]], found[2]), (0, [1, 2], ""))
            self.assertEqual(graphd.connect(server.port, "a1").query_page("UNWIND range(1, 101) AS x RETURN x", 1).page, 1)


class Loaders(unittest.TestCase):
    def load(self, name, port):
        run = [sys.executable, str(ROOT / "examples" / name / "load.py"), str(port)]
        done = subprocess.run(run, capture_output=True, text=True, timeout=SECONDS, env=environment())
        return done.returncode, done.stdout, done.stderr

    def test_a_loader_waits_for_its_server(self):
        with reserved_port() as port:
            server = f"{Given.listener} {ROOT}/examples/parts/config.json 127.0.0.1:{port}"
            run = f'{server} >/dev/null & "$0" {ROOT}/examples/parts/load.py {port}; status=$?; kill $!; wait; exit $status'
            done = subprocess.run(["sh", "-c", run, sys.executable], capture_output=True, text=True, timeout=SECONDS, env=environment())
        self.assertEqual((done.returncode, done.stdout.splitlines()[-1]), (0, "353 elements"), done.stderr)

    def test_a_load_may_take_any_time(self):
        spec = importlib.util.spec_from_file_location("loading", ROOT / "examples" / "loading.py")
        loading = importlib.util.module_from_spec(spec)
        spec.loader.exec_module(loading)
        words = inspect.signature(loading.graphd.connect)
        patched = unittest.mock.patch.object
        with patched(sys, "argv", ["load.py", "1"]), patched(loading.graphd, "connect") as connect, contextlib.redirect_stdout(io.StringIO()):
            loading.main(lambda graph: None, "token", "")
        given = words.bind(*connect.call_args[0], **connect.call_args[1])
        given.apply_defaults()
        self.assertIsNone(given.arguments["timeout"])

    def test_no_server_is_told(self):
        status, _, told = self.load("parts", 70000)
        self.assertEqual((status, "Traceback" in told), (1, False))
