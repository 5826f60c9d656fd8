"""The crates, as crates.txt lists them, the kit that reads them, and checksums of their files."""
import hashlib
import os
import re
import shutil
import subprocess

TOP = os.path.dirname(os.path.dirname(os.path.realpath(__file__)))
BUILD = f"{TOP}/build"
PROGRAM = "strc"
# What a proof of a crate reads of it, and what the program is compiled from.
PROVED_PARTS, COMPILED_PARTS = ("src", "specs", "proofs"), ("src",)


class Crate:
    """A crate, with the crates and the kit's libraries that it stands on."""

    def __init__(self, name, uses, names):
        self.name, self.folder = name, f"{TOP}/crates/{name}"
        self.below = [it for it in uses if it in names]
        self.libraries = ["std", *(it for it in uses if it not in names)]
        self.is_program = os.path.exists(f"{self.folder}/src/main.rt")
        self.root = f"src/{'main' if self.is_program else 'lib'}.rt"

    def files(self, parts):
        """The paths of its files in these folders, in one order."""
        for part in parts:
            for at, folders, names in os.walk(f"{self.folder}/{part}"):
                folders.sort()
                yield from (f"{at}/{name}" for name in sorted(names))

    def key(self, base, keys, parts):
        """The checksum of a base, of the crate's files, and of the crates below."""
        found = hashlib.sha256(base.encode())
        for name in self.below:
            found.update(keys[name].encode())
        for path in self.files(parts):
            found.update(os.path.relpath(path, self.folder).encode() + b"\0")
            found.update(bytes.fromhex(sum_of(path)))
        return found.hexdigest()


def text_of(path):
    """The text of a file, or nothing where there is none."""
    try:
        with open(path, encoding="utf-8") as file:
            return file.read()
    except FileNotFoundError:
        return ""


def sum_of(path):
    """The checksum of a file, or nothing where there is none."""
    try:
        with open(path, "rb") as file:
            return hashlib.sha256(file.read()).hexdigest()
    except FileNotFoundError:
        return ""


def all_crates():
    """Every crate by name, in the order of crates.txt."""
    uses = {}
    for line in text_of(f"{TOP}/crates.txt").splitlines():
        name, colon, words = line.partition("#")[0].partition(":")
        if colon:
            uses[name.strip()] = words.split()
    return {name: Crate(name, words, uses) for name, words in uses.items()}


def crates_of(program):
    """A program's crates by name, each after those that it stands on."""
    every, found = all_crates(), {}

    def visit(name):
        if name not in found:
            for it in every[name].below:
                visit(it)
            found[name] = every[name]

    visit(program)
    return found


def keys_of(crates, base, parts):
    """The checksum of each crate and of all below it."""
    keys = {}
    for name, crate in crates.items():
        keys[name] = crate.key(base, keys, parts)
    return keys


def version():
    """The version, which one constant in the crates says."""
    for crate in all_crates().values():
        for path in crate.files(COMPILED_PARTS):
            found = re.search(r'^pub const VERSION: &str = "(.*)";', text_of(path), re.M)
            if found:
                return found[1]
    raise SystemExit("no crate has the constant VERSION")


def machine():
    """What tells this machine from others: a proof is one of the machine that checked it."""
    return text_of("/etc/machine-id").strip()


def kit():
    """The folder of the Rattle kit."""
    rt = shutil.which("rt")
    if not rt:
        raise SystemExit("strc: there is no `rt`: the Rattle kit isn't installed")
    return os.path.dirname(os.path.dirname(os.path.realpath(rt)))


def kit_name(folder):
    """The kit's name, as `rt version` prints it."""
    return text_of(f"{folder}/KIT-ID").strip()


def git(*words):
    """What a git command about the sources writes, or nothing where they aren't in git."""
    try:
        words = ["git", "-C", TOP, *words]
        return subprocess.run(words, capture_output=True, text=True, check=False).stdout.strip()
    except OSError:
        return ""


def link(folder, made, program, log):
    """Links an object to a program. Gives the linker's status."""
    words = [f"{folder}/bin/rattle-link", "--target", "x86_64-unknown-linux-gnu"]
    words += ["--toolchain", f"{folder}/toolchain", "-o", program, made]
    words += [f"{folder}/c/libos_c.a", f"{folder}/c/liblibc_c.a"]
    return subprocess.run(words, stdout=log, stderr=log, check=False).returncode
