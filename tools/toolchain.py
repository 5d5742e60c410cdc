"""The toolchain's own command, rt, as a module: how it reads crates.txt, applies an edit, and shares out processors and memory. And which
libraries are those that rt ci left: it writes no stamp for them, so tools/test notes beside each what it was proved from."""
import hashlib
import importlib.machinery
import importlib.util
import os
import re
import shutil


def load():
    loader = importlib.machinery.SourceFileLoader("rt_main", os.path.realpath(shutil.which("rt")))
    made = importlib.util.module_from_spec(importlib.util.spec_from_loader("rt_main", loader))
    loader.exec_module(made)
    return made


rt = load()
# what the prover says where a proof names what is gone: a goal, a step of a body, a definition
GONE = re.compile(r"has no `[^`]+` that can be named|has no field|is not in scope|has no `|was not admitted|is no name")


def texts_of(crate):
    """A sum of the crate's own texts, each with its path in the crate."""
    sum = hashlib.sha256(repr(crate.said).encode())
    for file in sorted(rt.rtlib.files_of(crate.folder)):
        with open(file, "rb") as it:
            sum.update(repr((os.path.relpath(file, crate.folder), it.read())).encode())
    return sum.hexdigest()


def sums_of(crates):
    """A sum of the texts of each crate and of those below it, and of the toolchain, by the crate's name."""
    kit, own = rt.rtlib.text_of(f"{rt.rtlib.KIT}/WHAT"), {it.name: texts_of(it) for it in crates}
    below = {it.name: sorted(own[dep.name] for dep in it.below()) for it in crates}
    return {it.name: hashlib.sha256(repr((kit, own[it.name], below[it.name])).encode()).hexdigest() for it in crates}


def note_of(crate):
    """Where the sum is noted from which rt ci proved the crate's library. What replaces the library removes it."""
    return f"{crate.folder}/out/rlib/proved-from"


def note_libraries(crates, sums):
    """Notes these sums beside the libraries that rt ci left, but where a text has changed since they were taken."""
    now = sums_of(crates)
    for crate in crates:
        if os.path.isdir(crate.rlib) and now[crate.name] == sums[crate.name]:
            with open(note_of(crate), "w", encoding="utf-8") as it:
                it.write(sums[crate.name])


def is_of_ci(crate, sum):
    """Whether rt ci proved this library from the texts of this sum. It may have taken what an earlier run kept, which is older than the
    texts, so that goes by the note; where there is none, by the times."""
    made = f"{crate.rlib}/format"
    if not os.path.isfile(made) or os.path.isfile(f"{crate.folder}/out/rlib/stamp"):
        return False
    if os.path.isfile(note_of(crate)):
        return rt.rtlib.text_of(note_of(crate)) == sum
    return all(os.path.getmtime(it) < os.path.getmtime(made) for it in rt.rtlib.files_of(crate.folder))
