#!/usr/bin/env python3
"""Loads the pages of a documentation, what they link to and what they are about, into a server that listens.

    examples/links/load.py PORT

To load again makes nothing twice.
"""
import sys
from pathlib import Path

sys.dont_write_bytecode = True
sys.path.insert(0, str(Path(__file__).resolve().parents[1]))

import loading

SECTIONS = {
    "start": ["install", "first-steps", "upgrade", "licence", "faq", "support"],
    "guide": ["import", "export", "search", "backup", "users", "rights", "mail", "reports", "themes", "plugins"],
    "admin": ["configure", "monitor", "restore", "cluster", "logs", "quotas", "security", "certificates"],
    "api": ["tokens", "errors", "pages", "events", "batch", "limits", "clients", "versions", "examples"],
    "notes": [f"release-{major}-{minor}" for major in (1, 2, 3) for minor in range(8)],
}
TAGS = {
    "security": ["rights", "users", "security", "certificates", "tokens", "licence"],
    "data": ["import", "export", "backup", "restore", "batch", "search"],
    "operations": ["install", "upgrade", "configure", "monitor", "cluster", "logs", "quotas", "limits", "backup"],
    "development": ["tokens", "errors", "pages", "events", "batch", "clients", "versions", "examples", "plugins"],
}
# nothing links to these, and these lead nowhere
HIDDEN = {"/guide/themes"}
ENDS = {"/start/licence", "/start/support"}


def pages():
    """Each page: its path, title and how often it was read."""
    yield ["/", "Home", 9000]
    place = 0
    for section, names in SECTIONS.items():
        yield [f"/{section}", section.capitalize(), 2000 + 100 * len(names)]
        for name in names:
            place += 1
            yield [f"/{section}/{name}", name.replace("-", " ").capitalize(), 20 + place * place * 31 % 977]


def links():
    """Which page links to which."""
    for section, names in SECTIONS.items():
        yield "/", f"/{section}"
        yield f"/{section}", "/"
        if section != "notes":
            yield from links_within(section, names)
    texts = [f"/{section}/{name}" for section, names in SECTIONS.items() if section != "notes" for name in names]
    for place, path in enumerate(texts):
        # a few pages are linked from everywhere
        targets = {texts[0], texts[place * 5 % 12], texts[place * place % len(texts)]}
        yield from ((path, target) for target in targets - {path} - HIDDEN if path not in ENDS)
    notes = [f"/notes/{name}" for name in SECTIONS["notes"]]
    # the section shows the latest notes, and each note the one before
    yield from (("/notes", note) for note in notes[-3:])
    yield from zip(notes[1:], notes)
    yield from ((note, texts[place * 3 % len(texts)]) for place, note in enumerate(notes))


def links_within(section, names):
    paths = [f"/{section}/{name}" for name in names]
    yield from ((f"/{section}", path) for path in paths if path not in HIDDEN)
    yield from ((path, f"/{section}") for path in paths if path not in ENDS)
    yield from ((path, after) for path, after in zip(paths, paths[1:]) if path not in ENDS and after not in HIDDEN)


def load(graph):
    graph.query("UNWIND $rows AS row MERGE (p:Page {path: row[0]}) SET p.title = row[1], p.reads = row[2]", rows=list(pages()))
    distinct = sorted(set(links()))
    graph.query(
        "UNWIND $rows AS row MATCH (a:Page {path: row[0]}), (b:Page {path: row[1]}) MERGE (a)-[:LINKS_TO]->(b)",
        rows=[list(row) for row in distinct],
    )
    graph.query("UNWIND $names AS name MERGE (:Tag {name: name})", names=list(TAGS))
    graph.query(
        "UNWIND $rows AS row MATCH (t:Tag {name: row[0]}), (p:Page) WHERE p.path ENDS WITH row[1] MERGE (p)-[:ABOUT]->(t)",
        rows=[[tag, f"/{name}"] for tag, names in TAGS.items() for name in names],
    )


if __name__ == "__main__":
    loading.main(load, "links-writes", __doc__)
