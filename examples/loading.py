"""What the loaders of the examples share: the port as their only word, and a server that may still be starting."""
import sys
from pathlib import Path

sys.path.insert(0, str(Path(__file__).resolve().parents[1] / "clients" / "python"))

import graphd

WAIT = 20.0  # seconds until a server has to listen; a load itself may take any time


def main(load, token, usage):
    if len(sys.argv) != 2:
        sys.exit(usage)
    try:
        with graphd.connect(sys.argv[1] if ":" in sys.argv[1] else int(sys.argv[1]), token, timeout=None, wait=WAIT) as server:
            load(server)
            print(f"{server.status().elements} elements")
    except (graphd.GraphdError, ValueError) as fault:
        sys.exit(f"load.py: {fault}")
