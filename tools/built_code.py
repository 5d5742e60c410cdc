"""What built libraries hold of their functions: the code that was proved (MIR), by the function's name.

A function's code is a tree of lists and of dictionaries with one key, the kind. Of these kinds a call has what is called, `Fn` (a function
by its name, with the implementations that stand for its bounds) or `Method` (of an implementation, by its number in the trait); an
implementation is `Impl`, by its name with those that stand for its own bounds, or `Given`, the bound of that number of the function itself.
"""
import json
import os

from toolchain import rt


def library_of(crate_name, crates):
    """The folder of a crate's library, be it the repository's or the toolchain's."""
    for crate in crates:
        if crate.name == crate_name:
            return crate.rlib
    return f"{rt.rtlib.KIT}/rlibs/{crate_name}.rlib"


def functions_of(library):
    """The functions of a built library, each as its name and its code; none where it isn't built."""
    code = f"{library}/toolchain/mir.json"
    if not os.path.isfile(code):
        return []
    with open(code, encoding="utf-8") as it:
        return json.load(it)
