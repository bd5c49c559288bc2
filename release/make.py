#!/usr/bin/env python3
"""Makes the release of this checkout: the program that the proof of its sources has built, and what it was made of.

usage: release/make.py                  writes alta-x86_64.gz, MANIFEST and NOTICES, where the program was proved here
       release/make.py --check          ends with 0 where the release is of these sources, and what their proof has built here
       release/make.py --compare        the same, and no release, or one of other sources, is no fault
       release/make.py --assembly FILE  writes the assembly of the program that was proved here; `release/assembly.py` says of what use

MANIFEST has a word and a value a line: the version, the digest of the sources (`release/digest`), the kit that proved and built
them, and the digest of the program. A release is made of sources that are in a commit, and of a program that the kit has marked as
proved; another program needs another version. Under another kit than MANIFEST names, a proof may build other bytes, which says
nothing. NOTICES has the licences of the kit's crates that the program is made of.
"""

import argparse
import gzip
import hashlib
import os
import re
import shutil
import subprocess
import sys

import assembly

HERE = os.path.dirname(os.path.realpath(__file__))
TOP = os.path.dirname(HERE)
PROGRAM = os.path.join(TOP, "crates", "alta_cli", "out", "alta_cli")
PACKED = os.path.join(HERE, "alta-x86_64.gz")
MANIFEST = os.path.join(HERE, "MANIFEST")
NOTICES = os.path.join(HERE, "NOTICES")
SAME = "the release is what the proof of these sources has built here, byte for byte"
OTHER_KIT = "the release is of these sources; under another kit than that of release/MANIFEST its bytes can't be compared with those built here"
OTHER_SOURCES = "the release is of other sources than these: release/make.py makes one of these"
OTHER_BYTES = "the proof of these sources has built another program here than the released one"


class Fault(Exception):
    """Why there is no release, or why what is there is none."""


def read(path):
    with open(path, "rb") as file:
        return file.read()


def asked(*words):
    """What a command prints, without the newline at its end."""
    try:
        done = subprocess.run(words, cwd=TOP, stdout=subprocess.PIPE, stderr=subprocess.PIPE, text=True, check=True)
    except FileNotFoundError:
        raise Fault(f"the command {words[0]} is missing") from None
    except subprocess.CalledProcessError as error:
        raise Fault(f"{' '.join(words)} ended with status {error.returncode}: {error.stderr.strip()}") from None
    return done.stdout.rstrip("\n")


def sources():
    return asked(os.path.join(HERE, "digest"), "--anew")


def kit():
    """The kit's own name, or nothing where there is none."""
    return asked("rt", "version") if shutil.which("rt") else ""


def folder_of_kit():
    """The folder in which the kit lies."""
    command = shutil.which("rt")
    if command is None:
        raise Fault("the command rt is missing")
    return os.path.dirname(os.path.dirname(os.path.realpath(command)))


def version():
    """The version that the launcher says."""
    return asked(os.path.join(TOP, "alta"), "--version").partition(" ")[2]


def said(text):
    """The values of a manifest, by their words."""
    lines = (line.partition(" ") for line in text.splitlines() if not line.startswith("#"))
    return {word: value for word, _, value in lines}


def manifest():
    try:
        found = said(read(MANIFEST).decode())
    except FileNotFoundError:
        raise Fault("there is no release/MANIFEST: release/make.py makes a release") from None
    missing = {"version", "sources", "kit", "program"} - set(found)
    if missing:
        raise Fault(f"release/MANIFEST has no {', '.join(sorted(missing))}")
    return found


def proved():
    """The program that was proved here, of the sources as they are."""
    if not re.search("^serves: proved here$", asked(os.path.join(TOP, "alta"), "--state"), re.MULTILINE):
        raise Fault("these sources are not proved here: ./alta --prove proves them")
    return read(PROGRAM)


def released(digest):
    """The released program, which has to have this digest."""
    try:
        program = gzip.decompress(read(PACKED))
    except (OSError, EOFError) as error:
        raise Fault(f"the released program can't be unpacked: {error}") from None
    if hashlib.sha256(program).hexdigest() != digest:
        raise Fault("the released program is not the one that release/MANIFEST names")
    return program


def compared():
    """How the release stands to what was proved here: one of the lines above."""
    found = manifest()
    program = released(found["program"])
    if found["sources"] != sources():
        return OTHER_SOURCES
    if program == proved():
        return SAME
    return OTHER_BYTES if found["kit"] == kit() else OTHER_KIT


def of_kit():
    """The kit's crates that crates.txt names."""
    with open(os.path.join(TOP, "crates.txt"), encoding="utf-8") as file:
        lines = [line.partition("#")[0].partition(":") for line in file]
    own = {name.split()[0] for name, _, _ in lines if name.strip()}
    return {word for _, _, words in lines for word in words.split()} - own


def whole(names, folder):
    """These crates of the kit, and those that they are made of, in order."""
    found, left = set(), set(names)
    while left:
        name = left.pop()
        found.add(name)
        below = os.path.join(folder, "rlibs", f"{name}.rlib", "below")
        left |= set(os.listdir(below) if os.path.isdir(below) else ()) - found
    return sorted(found)


def notices(folder):
    """The licences of the kit's crates, from the folder of the kit."""
    parts = [
        "The program holds code of these crates of the Rattle kit, which are ports of crates of the same names for Rust.\n"
        "Each stands here with the licences that the kit has beside it. The kit has none beside its own crates.\n"
    ]
    for name in whole(of_kit(), folder):
        place = os.path.join(folder, "rattle", name)
        for file in sorted(it for it in os.listdir(place) if it.startswith(("LICENSE", "COPYING", "NOTICE"))):
            text = read(os.path.join(place, file)).decode().strip()
            parts.append(f"== {name}: {file}\n\n{text}\n")
    return "\n".join(parts)


def unnoticed():
    """The kit's crates that crates.txt names, and NOTICES does not."""
    try:
        named = set(re.findall(r"^== (\w+): ", read(NOTICES).decode(), re.MULTILINE))
    except FileNotFoundError:
        raise Fault("there is no release/NOTICES: release/make.py makes a release") from None
    return sorted(of_kit() - named - {"std", "core"})


def write():
    changed = asked("git", "status", "--porcelain", "--", "crates", "crates.txt", "HANDLES")
    if changed:
        raise Fault(f"these sources are in no commit:\n{changed}")
    program, by, number = proved(), asked("rt", "version"), version()
    # The kit puts this mark into what a proof has built, and another one into what `rt try` builds.
    if f"rattle logic={by.rpartition(' logic ')[2]}".encode() not in program:
        raise Fault("the program has not the mark of a proof by this kit")
    digest = hashlib.sha256(program).hexdigest()
    before = said(asked("git", "show", "HEAD:release/MANIFEST")) if asked("git", "ls-tree", "HEAD", "release/MANIFEST") else {}
    if before.get("version") == number and before.get("program") != digest:
        raise Fault(f"another program was released as version {number}: raise the version in alta, client/pyproject.toml and the client")
    with open(NOTICES, "w", encoding="utf-8") as file:
        file.write(notices(folder_of_kit()))
    with open(PACKED, "wb") as file:
        file.write(gzip.compress(program, 9, mtime=0))
    with open(MANIFEST, "w", encoding="ascii") as file:
        file.write("# The program in alta-x86_64.gz, and what it was made of; release/make.py writes both.\n")
        file.write(f"version {number}\nsources {sources()}\nkit {by}\nprogram {digest}\n")
    return f"released version {number}, {digest}"


def check(may_differ):
    """What a comparison says; it is a fault where the release is not what was proved here, as far as that can be said."""
    if may_differ and not os.path.exists(MANIFEST):
        return "these sources are proved here, and there is no release to compare with"
    line = compared()
    if line == OTHER_BYTES or (line == OTHER_SOURCES and not may_differ):
        raise Fault(line)
    missing = [] if may_differ else unnoticed()
    if missing:
        raise Fault(f"release/NOTICES has no licence of {', '.join(missing)}")
    return line


def write_assembly(path):
    made = assembly.of_program(TOP, "alta_cli", folder_of_kit(), proved())
    with open(path, "wb") as file:
        file.write(made)
    return f"wrote {path}, {len(made)} bytes: the kit's clang makes the program of it that was proved here, byte for byte"


def main():
    parser = argparse.ArgumentParser(description=__doc__, formatter_class=argparse.RawDescriptionHelpFormatter)
    ways = parser.add_mutually_exclusive_group()
    ways.add_argument("--check", action="store_true")
    ways.add_argument("--compare", action="store_true")
    ways.add_argument("--assembly", metavar="FILE")
    options = parser.parse_args()
    try:
        if options.assembly:
            said_last = write_assembly(options.assembly)
        elif options.check or options.compare:
            said_last = check(options.compare)
        else:
            said_last = write()
    except (Fault, assembly.Fault) as fault:
        print(f"make: {fault}", file=sys.stderr)
        return 1
    print(f"make: {said_last}")
    return 0


if __name__ == "__main__":
    sys.exit(main())
