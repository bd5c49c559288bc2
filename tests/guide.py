#!/usr/bin/env python3
"""Runs every command block of README.md, docs/GUIDE.md and docs/SCALE.md, and compares what it prints with the text block behind it.

usage: tests/guide.py [--program PATH] [FILE ..]

The blocks of one file run in one new folder, in their order, and without the kit: those of README.md with a release of the program,
those of the others with the program as it is built. `sh` blocks by a shell that stops at the first command that
fails, `python` blocks by Python. A `text` block holds all that the block before it printed. Any other kind of block, or one
that is not closed, is a fault, so that none is passed over. `.ci/run` is left out, since it runs this check.
"""

import argparse
import difflib
import os
import re
import shutil
import subprocess
import sys
import tempfile
from typing import NamedTuple

from checkouts import release

from support import PATIENCE, TOP

SHARED = ("bunco", "client", "docs", "examples", "tests")  # what of the repository the commands name

MAILBOX = """From ann@example.org Mon Jan  1 09:00:00 2024
Message-ID: <first@example.org>
Subject: Red Fox

The quick red fox jumps over the lazy dog.
"""

STATUS = """Package: python3
Description: interactive high-level object-oriented language
 Python, the high-level, interactive object oriented language.
"""


class Block(NamedTuple):
    line: int
    kind: str
    text: str


def blocks(path):
    """The fenced blocks of a file."""
    found = []
    kind = None
    with open(path, encoding="utf-8") as file:
        for number, line in enumerate(file, 1):
            if kind is None and line.startswith("```"):
                begin, kind, lines = number, line[3:].strip(), []
                if kind not in ("sh", "python", "text"):
                    raise SystemExit(f"guide: {path}:{number}: a block of the kind {kind!r}")
            elif kind is not None and line.rstrip() == "```":
                found.append(Block(begin, kind, "".join(lines)))
                kind = None
            elif kind is not None:
                lines.append(line)
    if kind is not None:
        raise SystemExit(f"guide: {path}:{begin}: a block that is not closed")
    return found


def prepare(folder, program, is_released):
    """A folder in which the commands find what they name: the program, built or released, the scripts, and some input."""
    for name in SHARED:
        os.symlink(os.path.join(TOP, name), os.path.join(folder, name))
    for name in ("alta", "crates.txt", "HANDLES"):
        shutil.copy(os.path.join(TOP, name), folder)
    os.makedirs(os.path.join(folder, "crates", "alta_cli", "out"))
    os.mkdir(os.path.join(folder, "release"))
    shutil.copy(os.path.join(TOP, "release", "digest"), os.path.join(folder, "release"))
    if is_released:
        with open(program, "rb") as file:
            release(folder, file.read())
    else:
        shutil.copy(program, os.path.join(folder, "crates", "alta_cli", "out", "alta_cli"))
    with open(os.path.join(folder, "archive.mbox"), "w") as file:
        file.write(MAILBOX)


def commands(text):
    """The commands of a block, without the gate."""
    kept = [line for line in text.split("\n") if not re.fullmatch(r"\.ci/run\s*(#.*)?", line)]
    text = "\n".join(kept)
    status = "/var/lib/dpkg/status"
    if status in text and not os.path.exists(status):
        print(f"guide: {status} is missing here, so a small one stands for it")
        with open("status", "w") as file:
            file.write(STATUS)
        text = text.replace(status, "status")
    return text


def path_without_kit():
    """The folders of the PATH that have no command `rt`, behind that of this Python."""
    folders = [os.path.dirname(sys.executable), *os.environ["PATH"].split(os.pathsep)]
    return os.pathsep.join(folder for folder in folders if not os.path.exists(os.path.join(folder, "rt")))


def run(block, folder, program):
    """The status and all that the block prints, on either stream; there is no kit."""
    text = commands(block.text)
    command = ["sh", "-eu", "-c", text] if block.kind == "sh" else [sys.executable, "-c", text]
    environment = {
        **os.environ,
        "BUNCOCEDAR_PROGRAM": program,
        "PYTHONPATH": os.path.join(folder, "client"),
        "PATH": path_without_kit(),
    }
    done = subprocess.run(
        command,
        cwd=folder,
        env=environment,
        stdin=subprocess.DEVNULL,
        stdout=subprocess.PIPE,
        stderr=subprocess.STDOUT,
        timeout=PATIENCE,
    )
    return done.returncode, done.stdout.decode(errors="replace")


def check(path, program):
    """Runs the blocks of a file, and answers how many ran and the faults."""
    found = blocks(path)
    faults = []
    ran = 0
    with tempfile.TemporaryDirectory() as folder:
        # A reader of README has a clone, and no program yet.
        prepare(folder, program, is_released=os.path.basename(path) == "README.md")
        for number, block in enumerate(found):
            if block.kind == "text":
                if number == 0 or found[number - 1].kind == "text":
                    faults.append(f"{path}:{block.line}: a text block that no commands print")
                continue
            ran += 1
            status, printed = run(block, folder, program)
            if status != 0:
                faults.append(f"{path}:{block.line}: the commands end with status {status}:\n{printed}")
                continue
            following = found[number + 1] if number + 1 < len(found) else None
            if following and following.kind == "text" and following.text != printed:
                lines = difflib.unified_diff(
                    following.text.splitlines(), printed.splitlines(), "written", "printed", lineterm=""
                )
                faults.append(f"{path}:{following.line}: the commands print something else:\n" + "\n".join(lines))
    if not ran:
        faults.append(f"{path}: it has no commands")
    return ran, faults


def main():
    parser = argparse.ArgumentParser(description=__doc__, formatter_class=argparse.RawDescriptionHelpFormatter)
    parser.add_argument("--program", default=os.path.join(TOP, "crates", "alta_cli", "out", "alta_cli"))
    parser.add_argument("files", metavar="FILE", nargs="*")
    options = parser.parse_args()
    program = os.path.abspath(options.program)
    with open(os.path.join(TOP, ".ci", "run"), encoding="utf-8") as gate:
        if not re.search(r"^\s*rt ci\b", gate.read(), re.MULTILINE):
            raise SystemExit("guide: the gate does not run `rt ci`, which is left out here")
    faulty = False
    for path in options.files or [os.path.join(TOP, name) for name in ("README.md", "docs/GUIDE.md", "docs/SCALE.md")]:
        ran, faults = check(path, program)
        print(f"guide: {os.path.relpath(path, TOP)}: {ran} blocks run, {len(faults)} faults")
        for fault in faults:
            print(f"guide: {fault}", file=sys.stderr)
        faulty = faulty or bool(faults)
    return 1 if faulty else 0


if __name__ == "__main__":
    sys.exit(main())
