"""The program that `rt ci` proved, where it proved these very sources on this machine.

rt keeps what it proved in a folder beside the kit, each crate under the checksum of all that its
proof read. It alone can tell these checksums, so its own functions are asked for them.
"""
import contextlib
import glob
import hashlib
import importlib.machinery
import importlib.util
import io
import json
import os
import sys

from crates import PROGRAM, TOP, sum_of


def store(folder):
    return f"{os.path.dirname(folder)}/rattle-kept"


def newest(folder):
    """When `rt ci` last kept a program of ours, in seconds, or 0."""
    found = glob.glob(f"{store(folder)}/proof-{PROGRAM}-*")
    return max(map(os.path.getmtime, found), default=0)


def rt_of(folder):
    """rt as a module."""
    loader = importlib.machinery.SourceFileLoader("rt", f"{folder}/bin/rt")
    module = importlib.util.module_from_spec(importlib.util.spec_from_loader("rt", loader))
    sys.path.insert(0, f"{folder}/bin")
    loader.exec_module(module)
    below, known = module.Crate.below, {}

    def below_once(crate):
        """What rt's own `below` gives, which walks each way from a crate to another one."""
        key = crate.name, *(it.name for it in crate.deps)
        if key not in known:
            known[key] = below(crate)
        return known[key]

    module.Crate.below = below_once
    return module


def entry(folder, top, program):
    """The folder in which rt keeps this program of the sources at `top`. Fails where it has none."""
    rt = rt_of(folder)
    here = os.getcwd()
    os.chdir(top)
    try:
        rt.Crate.cuts_libraries, rt.Crate.allowed = True, rt.handles_of(top)
        crate = next(it for it in rt.crates_of(top) if it.name == program)
        crates = [*crate.below(), crate]
        kept = rt.Kept([])
        for crate in crates:
            at = kept.place(crate, False, kept.key(crate))
            with open(f"{at}/made.json", encoding="utf-8") as file:
                files = [tuple(it) for it in json.load(file)["files"]]
            kept.rlibs[crate.name] = hashlib.sha256(repr(files).encode()).hexdigest()
    finally:
        os.chdir(here)
    return at


def find(folder, top=TOP, program=PROGRAM):
    """The path of the program that `rt ci` proved, or none."""
    if not glob.glob(f"{store(folder)}/proof-{program}-*"):
        return None
    try:
        with contextlib.redirect_stderr(io.StringIO()):
            at = entry(folder, top, program)
        with open(f"{at}/made.json", encoding="utf-8") as file:
            files = json.load(file)["files"]
        number = [name for name, _ in files].index(program)
        return f"{at}/{number}" if sum_of(f"{at}/{number}") == files[number][1] else None
    except (Exception, SystemExit):  # another kit keeps it another way
        return None
