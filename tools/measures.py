"""Builds the program of measures. Its texts lie in measures/bench, each with `.in` behind its name, so that the gate doesn't prove it: it is
no part of the product, and proving it took a thirtieth of the gate. It is made a crate of a copy of the repository, and proved there."""
import shutil
import subprocess
from pathlib import Path

ROOT = Path(__file__).resolve().parent.parent
LINE = "bench: pg_json pg_names pg_graph pg_tables pg_pool pg_store pg_value_core pg_meaning\n"


def built(folder):
    """The program, proved and built in a copy of the repository below this folder. Libraries that rt check left here aren't proved anew."""
    copy = Path(folder) / "repository"
    copy.mkdir()
    # (hard links, since what rt check keeps there is large)
    subprocess.run(["cp", "-al", ROOT / "crates", copy / "crates"], check=True)
    for name in ("HANDLES", "crates.txt"):
        shutil.copy(ROOT / name, copy)
    with open(copy / "crates.txt", "a", encoding="utf-8") as it:
        it.write(LINE)
    crate = copy / "crates" / "bench"
    shutil.copytree(ROOT / "measures" / "bench", crate)
    for text in crate.rglob("*.in"):
        text.rename(text.with_suffix(""))
    subprocess.run(["rt", "run"], cwd=crate, check=True, capture_output=True)
    return crate / "out" / "bench"
