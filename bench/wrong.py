#!/usr/bin/env python3
"""Tries a wrong body by a test: builds the program with it, without a proof, and runs the test over that program.

usage: bench/wrong.py EDIT TEST [WORD..]

EDIT has the lines `file:`, `old:` and `new:` of a wrong body. The paths of one below crates/NAME/must-fail begin at that crate, and
those of another one at the checkout; what it changes of proofs is left out. TEST is a script of tests/ that takes `--program PATH`,
and the words behind it are passed on to it. The program of the sources as they are is built in the same way. The test has to accept
that one, and to refuse the other. Ends with status 0 where it does both; the last line says so.

    bench/wrong.py bench/wrong/ends_of_deleted_documents_left_out.edit tests/work.py --seconds 20
"""

import os
import re
import shutil
import subprocess
import sys
import tempfile
from concurrent.futures import ThreadPoolExecutor

TOP = os.path.dirname(os.path.dirname(os.path.realpath(__file__)))
PARTS = ("crates", "crates.txt", "HANDLES", "bench", "release")
SHOWN = 8  # lines that are shown of what a test said, of its first and of its last
PAIR = re.compile(r"^(?:file: (?P<file>.+)|old: (?P<old>.+)|new: ?(?P<new>.*))$", re.MULTILINE)


def stop(text):
    raise SystemExit(f"wrong: {text}")


def copy(room):
    """Copies the sources of the program, and what builds it without a proof."""
    for part in PARTS:
        if os.path.isdir(f"{TOP}/{part}"):
            shutil.copytree(f"{TOP}/{part}", f"{room}/{part}", ignore=shutil.ignore_patterns("out", "__pycache__"))
        else:
            shutil.copy(f"{TOP}/{part}", room)


def base_of(edit):
    """Where the paths of a wrong body begin, from the top of the checkout."""
    folder = os.path.dirname(os.path.realpath(edit))
    return os.path.relpath(os.path.dirname(folder), TOP) if os.path.basename(folder) == "must-fail" else "."


def pairs_in(edit):
    """Each change of a source: its path, and the text in place of another."""
    with open(edit, encoding="utf-8") as file:
        text = file.read()
    base, path, old = base_of(edit), "", ""
    for line in PAIR.finditer(text):
        path, old = line["file"] or path, line["old"] or old
        if line["new"] is not None and "src" in path.split("/"):
            yield os.path.normpath(f"{base}/{path}"), old, line["new"]


def put(edit, room):
    """Puts a wrong body into the copied sources, where there is one."""
    if edit is None:
        return
    pairs = list(pairs_in(edit))
    for path, old, new in pairs:
        with open(f"{room}/{path}", encoding="utf-8") as file:
            text = file.read()
        if text.count(old) != 1:
            stop(f"{path} has this {text.count(old)} times, and not once: {old}")
        with open(f"{room}/{path}", "w", encoding="utf-8") as file:
            file.write(text.replace(old, new))
    if not pairs:
        stop(f"{edit} changes no source")


def build(edit, room):
    """The path of the program with this wrong body, or without one."""
    sources, program = f"{room}/{edit is None}/sources", f"{room}/{edit is None}/program"
    os.makedirs(sources)
    copy(sources)
    put(edit, sources)
    done = subprocess.run([sys.executable, f"{sources}/bench/unproved.py", program], stdout=subprocess.PIPE, stderr=subprocess.STDOUT, text=True)
    if done.returncode:
        stop(f"no program came of it: {done.stdout[-2000:]}")
    return program


def accepts(words, program):
    """Whether a test accepts a program, and what it said."""
    command = [sys.executable, *words[:1], "--program", program, *words[1:]]
    done = subprocess.run(command, cwd=TOP, stdout=subprocess.PIPE, stderr=subprocess.STDOUT, text=True, errors="replace")
    return done.returncode == 0, done.stdout.splitlines()


def shown(said):
    """The first and the last lines of what a test said."""
    return "\n".join(said if len(said) <= 2 * SHOWN else [*said[:SHOWN], "..", *said[-SHOWN:]])


def main():
    if len(sys.argv) < 3 or sys.argv[1].startswith("-"):
        raise SystemExit(__doc__)
    edit, test = os.path.abspath(sys.argv[1]), os.path.relpath(os.path.realpath(sys.argv[2]), TOP)
    words = [test, *sys.argv[3:]]
    name = os.path.splitext(os.path.basename(edit))[0]
    with tempfile.TemporaryDirectory() as room, ThreadPoolExecutor(2) as pool:
        wrong, right = pool.map(lambda body: build(body, room), (edit, None))
        took_right, said = accepts(words, right)
        if not took_right:
            stop(f"{test} refuses the right program too, so it shows nothing\n{shown(said)}")
        took_wrong, said = accepts(words, wrong)
    print(shown(said))
    print(f"wrong: {name}: {'NOT REFUSED' if took_wrong else 'refused'} by {test}, which accepts the right program")
    return 1 if took_wrong else 0


if __name__ == "__main__":
    sys.exit(main())
