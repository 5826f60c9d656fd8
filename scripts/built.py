"""The kept program, as the scripts beside and those of bench/ run it: build/strc, proved or not, or
the one that STRC names.
"""
import functools
import os
import subprocess
import sys
from pathlib import Path

import kept

TOP = Path(__file__).resolve().parent.parent
STRC = os.environ.get("STRC", TOP / "build" / "strc")
SECONDS = 60
# The status of a run that hasn't ended within so many seconds.
HANGS = "no end"


def build(is_timed=False):
    """Has a program of the sources as they are. What is timed says so where it isn't proved."""
    if "STRC" in os.environ:
        return
    subprocess.run([TOP / "strc", "--keep"], check=True)
    if is_timed and not kept.read()["proved"]:
        print("strc: this program isn't proved, and takes 2 to 8 times as long as the proved one: its"
              " times aren't the proved one's", file=sys.stderr)


@functools.cache
def options():
    """The options of a run, as its help names them."""
    told = subprocess.run([STRC, "run", "--help"], capture_output=True, text=True, check=True)
    return {it for it in told.stdout.split() if it.startswith("--")}


def known(words):
    """The words without those options, and their numbers, that the program doesn't have."""
    found, rest = [], list(words)
    while rest:
        word = rest.pop(0)
        if word.startswith("--") and word.partition("=")[0] not in options():
            if "=" not in word and rest and not rest[0].startswith("--"):
                rest.pop(0)
        else:
            found.append(word)
    return found


def ended(command, **how):
    """What a command writes, its status, and what a person reads of it."""
    try:
        done = subprocess.run(command, capture_output=True, timeout=SECONDS, check=False, **how)
    except subprocess.TimeoutExpired:
        return b"", HANGS, b""
    return done.stdout, done.returncode, done.stderr
