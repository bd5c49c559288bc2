#!/usr/bin/env python3
"""Makes a Debian package of this checkout: the program behind its guard, the client with its commands, manual pages, completion, and a
timer for nightly imports.

usage: packaging/deb.py [--maintainer 'NAME <ADDRESS>'] [FOLDER]

It takes the files of the wheel (`client/wheel_backend.py`), those below packaging/root as they stand, and the texts for users. So it
needs a program of these very sources, proved here or released. The package is the same bytes for the same commit. It is written into
the folder, or here, and its path is printed. dpkg-deb makes it, which is Debian's own.
"""

import argparse
import configparser
import glob
import gzip
import os
import shutil
import stat
import subprocess
import sys
import tempfile
import zipfile

HERE = os.path.dirname(os.path.realpath(__file__))
TOP = os.path.dirname(HERE)
NAME = "buncocedar"
PYTHON = "usr/lib/python3/dist-packages"
TEXTS = ("README.md", "CHANGELOG.md", "docs/GUIDE.md", "docs/QUERIES.md", "docs/FORMAT.md", "docs/GUARANTEES.md")
CONTROL = """Package: {name}
Version: {version}
Section: utils
Priority: optional
Architecture: amd64
Maintainer: {maintainer}
Installed-Size: {size}
Depends: libc6 (>= 2.34), python3 (>= 3.9)
Description: full-text index in one file, proved
 Documents go in by lines on standard input, and replies come out on standard
 output. No document is answered as stored before it is on the disk. The
 package has the program, its client for Python, and the command bunco, which
 brings in mail, folders and package descriptions, and finds what is in them.
"""
COPYRIGHT = """Files: *
License: none
 The owner of Buncocedar has not chosen a licence yet.

"""
# Nobody but the system's own user can keep what Python makes of the modules: without it each command reads them anew.
AFTER_INSTALLING = f"""#!/bin/sh
set -e
if [ "$1" = configure ] && command -v py3compile >/dev/null; then
    py3compile -p {NAME}
fi
"""
# What Python has kept of the modules is of no package.
BEFORE_REMOVAL = f"""#!/bin/sh
set -e
find /{PYTHON}/{NAME} -name __pycache__ -type d -prune -exec rm -rf {{}} +
"""
COMMAND = """#!/usr/bin/python3
import sys

from {module} import {call}

sys.exit({call}())
"""


COMPLETIONS = {"bash": "usr/share/bash-completion/completions/bunco", "zsh": "usr/share/zsh/vendor-completions/_bunco"}


class Fault(Exception):
    """Why there is no package."""


def asked(*words, **options):
    """What a command prints, without the newline at its end."""
    try:
        return subprocess.run(words, stdout=subprocess.PIPE, text=True, check=True, **options).stdout.rstrip("\n")
    except FileNotFoundError:
        raise Fault(f"the command {words[0]} is missing") from None
    except subprocess.CalledProcessError as error:
        raise Fault(f"{words[0]} ended with status {error.returncode}") from None


def read(path):
    with open(os.path.join(TOP, path), "rb") as file:
        return file.read()


class Stage:
    """The folder from which the package is made."""

    def __init__(self, folder):
        self.folder = folder

    def put(self, name, data, mode=0o644):
        """Writes a file; manual pages and texts are packed, as Debian has them."""
        if name.startswith(("usr/share/man/", f"usr/share/doc/{NAME}/")) and not name.endswith(("/copyright", ".gz")):
            name, data = f"{name}.gz", gzip.compress(data, 9, mtime=0)
        path = os.path.join(self.folder, name)
        os.makedirs(os.path.dirname(path), exist_ok=True)
        with open(path, "wb") as file:
            file.write(data)
        os.chmod(path, mode)

    def size(self):
        """The kibibytes of all files."""
        return -(-sum(os.path.getsize(os.path.join(at, it)) for at, _, names in os.walk(self.folder) for it in names) // 1024)


def put_wheel(stage, folder):
    """Puts each file of the wheel where Debian has it, and a command for each entry point; answers the version."""
    make = "import sys, wheel_backend; print(wheel_backend.build_wheel(sys.argv[1]))"
    name = asked(sys.executable, "-c", make, folder, cwd=os.path.join(TOP, "client"))
    if "manylinux" not in name:
        raise Fault("no program of these sources serves here: ./alta --state says why")
    with zipfile.ZipFile(os.path.join(folder, name)) as wheel:
        for info in wheel.infolist():
            data, mode = wheel.read(info), stat.S_IMODE(info.external_attr >> 16)
            first, _, rest = info.filename.partition("/")
            if first.endswith(".data"):
                kind, _, path = rest.partition("/")
                stage.put(f"usr/bin/{path}" if kind == "scripts" else f"usr/{path}", data, mode)
            elif rest != "RECORD":
                stage.put(f"{PYTHON}/{info.filename}", data, mode)
            if rest == "entry_points.txt":
                put_commands(stage, data.decode())
    return name.split("-")[1]


def put_commands(stage, text):
    entries = configparser.ConfigParser()
    entries.read_string(text)
    for name, value in entries["console_scripts"].items():
        module, _, call = value.partition(":")
        stage.put(f"usr/bin/{name}", COMMAND.format(module=module, call=call).encode(), 0o755)


def put_texts(stage):
    for path in TEXTS:
        stage.put(f"usr/share/doc/{NAME}/{os.path.basename(path)}", read(path))
    for path in sorted([*glob.glob(f"{TOP}/docs/*.1"), *glob.glob(f"{TOP}/docs/man/*.1")]):
        stage.put(f"usr/share/man/man1/{os.path.basename(path)}", read(path))
    for shell, name in COMPLETIONS.items():
        stage.put(name, (asked(os.path.join(TOP, "bunco"), "completion", shell) + "\n").encode())
    notices = read("release/NOTICES") if os.path.exists(os.path.join(TOP, "release", "NOTICES")) else b""
    stage.put(f"usr/share/doc/{NAME}/copyright", COPYRIGHT.encode() + notices)


def put_root(stage):
    """The files that stand below packaging/root as they stand below the root of a system."""
    root = os.path.join(HERE, "root")
    for at, _, names in os.walk(root):
        for name in names:
            path = os.path.join(at, name)
            stage.put(os.path.relpath(path, root), read(path), 0o755 if os.access(path, os.X_OK) else 0o644)


def make(maintainer, target):
    """Makes the package in a folder, and answers its path."""
    if shutil.which("dpkg-deb") is None:
        raise Fault("the command dpkg-deb is missing (Debian: apt-get install dpkg)")
    stamp = asked("git", "-C", TOP, "log", "-1", "--format=%ct")
    os.umask(0o022)
    with tempfile.TemporaryDirectory() as folder, tempfile.TemporaryDirectory() as wheel:
        os.chmod(folder, 0o755)
        stage = Stage(folder)
        version = put_wheel(stage, wheel)
        put_texts(stage)
        put_root(stage)
        control = CONTROL.format(name=NAME, version=version, maintainer=maintainer, size=stage.size())
        stage.put("DEBIAN/control", control.encode())
        stage.put("DEBIAN/postinst", AFTER_INSTALLING.encode(), 0o755)
        stage.put("DEBIAN/prerm", BEFORE_REMOVAL.encode(), 0o755)
        path = os.path.join(target, f"{NAME}_{version}_amd64.deb")
        words = ("dpkg-deb", "--root-owner-group", "-Zxz", "--build", folder, path)
        asked(*words, env={**os.environ, "SOURCE_DATE_EPOCH": stamp})
    return path


def main():
    parser = argparse.ArgumentParser(description=__doc__, formatter_class=argparse.RawDescriptionHelpFormatter)
    parser.add_argument("--maintainer", metavar="NAME <ADDRESS>", default="The makers of Buncocedar <makers@buncocedar.invalid>")
    parser.add_argument("folder", metavar="FOLDER", nargs="?", default=".")
    options = parser.parse_args()
    try:
        print(make(options.maintainer, options.folder))
    except Fault as fault:
        print(f"deb: {fault}", file=sys.stderr)
        return 1
    return 0


if __name__ == "__main__":
    sys.exit(main())
