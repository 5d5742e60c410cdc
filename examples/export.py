#!/usr/bin/env python3
"""Writes the rows of a query to standard output as they come, a line of JSON each.

    examples/export.py [--page N] ADDRESS TOKEN QUERY

ADDRESS is a port of this machine, or graphd://HOST:PORT. N rows come at a time (1,000 unless told), and the server holds the others, at
most as many as its tenant's max_held. They are those of the moment when the query was asked. Where nobody takes what is written any
more, as in `.. | head`, the server drops the rest.
"""
import argparse
import json
import os
import sys
from pathlib import Path

sys.dont_write_bytecode = True
sys.path.insert(0, str(Path(__file__).resolve().parents[1] / "clients" / "python"))

import graphd


def words():
    parser = argparse.ArgumentParser(description=__doc__, formatter_class=argparse.RawDescriptionHelpFormatter)
    parser.add_argument("--page", type=int, default=1000, metavar="N")
    parser.add_argument("address", metavar="ADDRESS")
    parser.add_argument("token", metavar="TOKEN")
    parser.add_argument("query", metavar="QUERY")
    return parser.parse_args()


def export(graph, query, page):
    with graph.stream(query, page=page) as rows:
        for row in rows:
            print(json.dumps({name: graphd.spelt(value) for name, value in zip(row.keys(), row)}, ensure_ascii=False), flush=True)


def main():
    told = words()
    where = int(told.address) if told.address.isdigit() else told.address
    try:
        with graphd.connect(where, told.token) as graph:
            export(graph, told.query, told.page)
    except BrokenPipeError:
        os.dup2(os.open(os.devnull, os.O_WRONLY), sys.stdout.fileno())
    except (graphd.GraphdError, ValueError) as fault:
        sys.exit(f"export.py: {fault}")


if __name__ == "__main__":
    main()
