"""The program that is kept: build/strc, and beside it a note of what it is: whether it was proved, of
which sources, and when.
"""
import json
import os
import shutil
import time
from hashlib import sha256

import crates
import gated
from crates import BUILD, COMPILED_PARTS, PROGRAM, PROVED_PARTS, TOP

KEPT, NOTE = f"{BUILD}/{PROGRAM}", f"{BUILD}/{PROGRAM}.json"


def parts(is_proved):
    """The folders of a crate that such a program is made of."""
    return PROVED_PARTS if is_proved else COMPILED_PARTS


def stamp(is_proved):
    """A checksum of the times of its sources and of itself: while it stays, they do."""
    found, paths = sha256(), [KEPT, f"{TOP}/crates.txt"]
    for crate in crates.crates_of(PROGRAM).values():
        paths += crate.files(parts(is_proved))
    for path in paths:
        try:
            of = os.stat(path)
        except FileNotFoundError:
            continue
        found.update(f"{path} {of.st_size} {of.st_mtime_ns} {of.st_ctime_ns}\n".encode())
    return found.hexdigest()


def sources(is_proved):
    """The checksum of its sources."""
    return crates.keys_of(crates.crates_of(PROGRAM), "", parts(is_proved))[PROGRAM]


def read():
    """The note of the kept program, or none."""
    try:
        return json.loads(crates.text_of(NOTE))
    except ValueError:
        return None


def write(note):
    with open(f"{NOTE}.new", "w", encoding="utf-8") as file:
        json.dump(note, file, indent=1)
    os.replace(f"{NOTE}.new", NOTE)


def is_whole(note):
    """Whether the kept program is the one that the note is of, and was made on this machine."""
    return (note is not None and note["machine"] == crates.machine()
            and crates.sum_of(KEPT) == note["program"])


def is_current(note):
    """Whether there is a kept program, and it is of the sources as they are."""
    if note is None or not os.path.exists(KEPT):
        return False
    now = stamp(note["proved"])
    if note["stamp"] == now:
        return True
    if not is_whole(note) or note["sources"] != sources(note["proved"]):
        return False
    write({**note, "stamp": now})
    return True


def is_gated_since(note):
    """Whether `rt ci` has proved a program since this one was built, or since that was looked for."""
    rt = shutil.which("rt")
    folder = rt and os.path.dirname(os.path.dirname(os.path.realpath(rt)))
    return bool(folder) and gated.newest(folder) > note["looked"]


def commit():
    """The commit of the sources, and whether they are another way than there."""
    changed = crates.git("status", "--porcelain", "--", "crates", "crates.txt")
    head = crates.git("rev-parse", "--short=12", "HEAD") or "no commit"
    return f"{head}, changed" if changed else head


def origin(is_proved):
    """What such a program is made of, as it is now: its sources' checksum, and their commit."""
    return {"sources": sources(is_proved), "commit": commit()}


def keep(program, of, how, folder):
    """Moves a program to its place, with a note: its origin, and how it was proved, or None."""
    os.makedirs(BUILD, exist_ok=True)
    # Between the two there is no note, so that none is ever of another program.
    if os.path.exists(NOTE):
        os.remove(NOTE)
    shutil.move(program, KEPT)
    os.chmod(KEPT, 0o755)
    note = {"proved": how is not None, "how": how, **of, "kit": crates.kit_name(folder)}
    note |= {"when": time.strftime("%Y-%m-%d %H:%M %z"), "machine": crates.machine()}
    note |= {"program": crates.sum_of(KEPT), "looked": time.time()}
    # Where the sources were changed meanwhile, it is old from the beginning.
    now = stamp(note["proved"])
    write({**note, "stamp": now if of["sources"] == sources(note["proved"]) else ""})


def told(note):
    """What is kept, in a line."""
    if note is None or not is_whole(note):
        return "no program is kept"
    how = f"proved by {note['how']}" if note["proved"] else "not proved"
    age = "" if is_current(note) else "; the sources have changed since"
    return f"{how}, of commit {note['commit']}, kept since {note['when']}, {note['kit']}{age}"
