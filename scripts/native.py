"""A program by way of C: `./strc native FILE [--main NAME] [--rounds N]` writes its C, has it
compiled by $CC (cc) into build/native under the checksum of the text, and runs it over standard
input.
"""
import hashlib
import os
import subprocess
import sys

import kept

FOLDER = f"{kept.BUILD}/native"
FLAGS = ["-std=c11", "-O2"]


def parted(words):
    """The words that tell the main stream, and the others."""
    main, rest = [], []
    words = list(words)
    while words:
        word = words.pop(0)
        if word == "--main" and words:
            main += [word, words.pop(0)]
        else:
            (main if word.startswith("--main=") else rest).append(word)
    return main, rest


def compiled(text):
    """The file of the compiled program of a text of C."""
    compiler = os.environ.get("CC", "cc")
    of = hashlib.sha256("\0".join([compiler, *FLAGS, ""]).encode() + text).hexdigest()
    file = f"{FOLDER}/{of}"
    if not os.path.exists(file):
        os.makedirs(FOLDER, exist_ok=True)
        with open(f"{file}.c", "wb") as source:
            source.write(text)
        made = f"{file}.{os.getpid()}"
        try:
            subprocess.run([compiler, *FLAGS, f"{file}.c", "-o", made], check=True)
        except FileNotFoundError:
            sys.exit(f"strc: there is no C compiler {compiler}")
        except subprocess.CalledProcessError as error:
            sys.exit(error.returncode)
        os.replace(made, file)
    return file


def run(program, words):
    """Runs a file of StreamIt so; a text that is refused is refused as by `strc check`."""
    main, rest = parted(words[1:])
    told = subprocess.run([program, "emit", *words[:1], *main], stdout=subprocess.PIPE, check=False)
    if told.returncode != 0:
        sys.stdout.buffer.write(told.stdout)
        sys.exit(told.returncode)
    file = compiled(told.stdout)
    os.execv(file, [file, *rest])
