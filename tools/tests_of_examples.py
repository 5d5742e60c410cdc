"""Tests of the examples: each loads by its own command, a second time makes nothing twice, and its picture is its graph's."""
import importlib.machinery
import importlib.util
import subprocess
import sys
import unittest

import client_path  # (finds the package graphd)
import graphd
from graphd_program import ROOT
from tests_of_clients import SECONDS, environment, listening


def draw_examples():
    loader = importlib.machinery.SourceFileLoader("draw_examples", str(ROOT / "tools" / "draw_examples"))
    module = importlib.util.module_from_spec(importlib.util.spec_from_loader("draw_examples", loader))
    loader.exec_module(module)
    return module


class Examples(unittest.TestCase):
    def load(self, name, port):
        run = [sys.executable, str(ROOT / "examples" / name / "load.py"), str(port)]
        done = subprocess.run(run, capture_output=True, text=True, timeout=SECONDS, env=environment())
        self.assertEqual((done.returncode, done.stderr), (0, ""))
        return done.stdout

    def load_twice(self, name):
        pictures = draw_examples()
        with listening(ROOT / "examples" / name / "config.json") as server:
            graph = graphd.connect(server.port, f"{name}-reads")
            once = self.load(name, server.port), pictures.text_of(name, graph)
            self.assertRegex(once[0], r"^[1-9]\d* elements\n$")
            self.assertEqual((self.load(name, server.port), pictures.text_of(name, graph)), once)
        self.assertEqual(pictures.kept_in(name), once[1], "tools/draw_examples draws it anew")

    def test_access(self):
        self.load_twice("access")

    def test_devices(self):
        self.load_twice("devices")

    def test_a_device_is_moved_or_stays(self):
        with listening(ROOT / "examples" / "devices" / "config.json") as server:
            self.load("devices", server.port)
            reads = graphd.connect(server.port, "devices-reads")

            def homes():
                return {tuple(row) for row in reads.query("MATCH (s:Switch)-[l:FEEDS]->(d:Device) RETURN d.name, s.name, l.gbit, id(l)")}

            def move(*words):
                run = [sys.executable, str(ROOT / "examples" / "devices" / "move.py"), str(server.port), *words]
                done = subprocess.run(run, capture_output=True, text=True, timeout=SECONDS, env=environment())
                return done.returncode, done.stdout + done.stderr

            self.assertEqual(move("camera-112", "access-11", "access-13"), (0, "camera-112 hangs on access-13\n"))
            before = homes()
            told = {row[0]: row[1] for row in before if row[0] == "camera-112" and row[1] != "access-12"}
            self.assertEqual(told, {"camera-112": "access-13"})
            for words, why in [
                (("phone-111", "access-11", "access-13"), "access-13 has no port left"),
                (("phone-111", "access-11", "access-99"), "there is no switch access-99"),
                (("phone-111", "access-12", "access-14"), "phone-111 doesn't hang on access-12"),
            ]:
                self.assertEqual(move(*words), (1, f"move.py: {why}\n"))
                self.assertEqual(homes(), before)
            self.assertEqual(reads.status().next_rel, max(row[3] for row in before) + 1)

    def test_links(self):
        self.load_twice("links")

    def test_parts(self):
        self.load_twice("parts")
