#!/usr/bin/env python3
"""Loads who belongs to which group, and which group may read which folder, into a server that listens.

    examples/access/load.py PORT

To load again makes nothing twice.
"""
import sys
from pathlib import Path

sys.dont_write_bytecode = True
sys.path.insert(0, str(Path(__file__).resolve().parents[1]))

import loading

# each group with the group that it belongs to
GROUPS = {
    "everyone": None, "staff": "everyone", "guests": "everyone", "board": "staff",
    "engineering": "staff", "backend": "engineering", "frontend": "engineering", "operations": "engineering",
    "sales": "staff", "sales-north": "sales", "sales-south": "sales",
    "office": "staff", "finance": "office", "people": "office",
}
PROJECTS = ["apollo", "hermes", "juno"]
TEAMS = ["backend", "frontend", "operations", "sales-north", "sales-south", "finance", "people"]
FIRST = "ada ben cleo dan eva finn gwen hugo ines jan kira leo mia nils olga paul".split()
LAST = ["abel", "brandt", "costa", "demir"]

# each folder with the folder that it lies in
FOLDERS = {
    "/": None, "/handbook": "/", "/code": "/", "/code/server": "/code", "/code/web": "/code", "/runbooks": "/code",
    "/deals": "/", "/deals/north": "/deals", "/deals/south": "/deals", "/payroll": "/", "/projects": "/",
    **{f"/projects/{project}": "/projects" for project in PROJECTS},
}
MAY_READ = [
    ("everyone", "/handbook"), ("engineering", "/code"), ("operations", "/runbooks"), ("sales", "/deals"),
    ("sales-north", "/deals/north"), ("sales-south", "/deals/south"), ("finance", "/payroll"), ("people", "/payroll"),
    ("board", "/"), *((project, f"/projects/{project}") for project in PROJECTS),
]
DOCUMENTS = 8  # in each folder but the topmost


def users():
    """The names of 64 users, each with the groups that it is in."""
    names = [f"{first}.{last}" for last in LAST for first in FIRST]
    for number, name in enumerate(names):
        if number % 16 == 15:
            yield name, ["guests"]
            continue
        groups = [TEAMS[number % len(TEAMS)]]
        if number % 5 == 0:
            groups.append(PROJECTS[number // 5 % len(PROJECTS)])
        if number % 20 == 6:
            groups.append("board")
        yield name, groups


def load(graph):
    groups = [*GROUPS, *PROJECTS]
    graph.query("UNWIND $names AS name MERGE (:Group {name: name})", names=groups)
    inside = [[group, above] for group, above in GROUPS.items() if above]
    graph.query(
        "UNWIND $rows AS row MATCH (g:Group {name: row[0]}), (h:Group {name: row[1]}) MERGE (g)-[:IN]->(h)",
        rows=inside,
    )
    graph.query("UNWIND $names AS name MERGE (:User {name: name})", names=[name for name, _ in users()])
    graph.query(
        "UNWIND $rows AS row MATCH (u:User {name: row[0]}), (g:Group {name: row[1]}) MERGE (u)-[:IN]->(g)",
        rows=[[name, group] for name, groups in users() for group in groups],
    )
    graph.query("UNWIND $paths AS path MERGE (:Folder {path: path})", paths=list(FOLDERS))
    graph.query(
        "UNWIND $rows AS row MATCH (f:Folder {path: row[0]}), (g:Folder {path: row[1]}) MERGE (f)-[:LIES_IN]->(g)",
        rows=[[folder, above] for folder, above in FOLDERS.items() if above],
    )
    documents = [[f"{folder}/{number}", folder] for folder in FOLDERS if folder != "/" for number in range(1, DOCUMENTS + 1)]
    graph.query(
        "UNWIND $rows AS row MATCH (f:Folder {path: row[1]}) MERGE (:Document {path: row[0]})-[:LIES_IN]->(f)",
        rows=documents,
    )
    graph.query(
        "UNWIND $rows AS row MATCH (g:Group {name: row[0]}), (f:Folder {path: row[1]}) MERGE (g)-[:MAY_READ]->(f)",
        rows=[list(row) for row in MAY_READ],
    )


if __name__ == "__main__":
    loading.main(load, "access-writes", __doc__)
