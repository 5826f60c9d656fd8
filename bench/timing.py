"""What the scripts beside share: the kept program, the rounds that a text says, the time of a run,
and the tables of README.md.
"""
import os
import re
import resource
import subprocess
import sys
import time
from pathlib import Path

HERE = Path(__file__).resolve().parent
sys.path.insert(0, str(HERE.parent / "scripts"))
import kept
from built import STRC, build
from markers import table, with_part


def repeats(otherwise):
    """How often each run is timed, of which the least counts: REPEATS, or else this number."""
    return int(os.environ.get("REPEATS", otherwise))


def rounds_of(text):
    """The rounds that the first line of a program says."""
    return int(text.read_text().split("\n", 1)[0].removeprefix("// rounds "))


def timed(command):
    """The output of a run, and how many seconds it took."""
    begun = time.perf_counter()
    output = subprocess.run(command, stdout=subprocess.PIPE, check=True).stdout
    return output, time.perf_counter() - begun


def user_time(command):
    """The output of a run, and how many seconds of user time it took."""
    before = resource.getrusage(resource.RUSAGE_CHILDREN).ru_utime
    output = subprocess.run(command, stdout=subprocess.PIPE, check=True).stdout
    return output, resource.getrusage(resource.RUSAGE_CHILDREN).ru_utime - before


def machine():
    """The processors, in words."""
    model = re.search(r"^model name\s*: (.*)", Path("/proc/cpuinfo").read_text(), re.M)
    return f"{os.cpu_count()} processors, {model[1] if model else 'of an unknown kind'}"


def write(name, rows):
    """Writes a table of README.md, with what it was measured by: the proved program alone."""
    note = kept.read()
    if "STRC" in os.environ or not note["proved"]:
        sys.exit("the tables have times of the proved program alone: ./strc --prove")
    by = f"{machine()}; the program {kept.told(note)}.\n\n"
    path = HERE / "README.md"
    path.write_text(with_part(path.read_text(), name, by + table(rows)))
