"""Checkouts of the tests' own, for the tests of the launcher and of releases, with a stand-in for the command `rt`."""

import gzip
import hashlib
import os
import shutil
import subprocess
import sys
import tempfile
import unittest

from support import PATIENCE, TOP, until

# All that the launcher takes of the system, beside the shell, where the released program serves.
TOOLS = (
    "cat chmod cp cut dirname find gzip head mkdir mv od readlink rm rmdir sed sh sha256sum sort touch tr uname wc xargs".split()
)

KIT = "rattle-kit-stand-in logic 0123456789abcdef"
MARK = "rattle logic=0123456789abcdef"

RT = f"""#!/bin/sh
# Stands for the kit's command: it proves when it is let, over the libraries of the crates below, and builds or refuses.
if [ "$1" = version ]; then echo "{KIT}"; exit; fi
crate=${{PWD##*/}}
echo "rt $1 $crate" >>"$HERE/calls"
case $1 in
    lib)
        until [ -e "$HERE/go" ] || [ ! -e "$HERE/calls" ]; do sleep 0.05; done
        [ "$crate" = alta_codec ] || [ -e ../alta_codec/out/rlib/proved ] || exit 1
        [ ! -e "$HERE/refused" ] || [ "$(cat "$HERE/refused")" != "$crate" ] || exit 1
        mkdir -p out/rlib && echo "$crate" >>out/rlib/proved
        ;;
    run)
        cp "$HERE/made" out/alta_cli
        chmod 755 out/alta_cli
        ;;
esac
"""


def script(word):
    """A program that says this word and then its own words, and how it is used where it has none."""
    return f'#!/bin/sh\n# {MARK}\n[ $# -gt 0 ] || {{ echo "alta: usage: alta_cli PATH init" >&2; exit 1; }}\necho {word} "$@"\n'


def done(*words, status=0, **options):
    """What a command prints, on either stream; it has to end with this status."""
    run = subprocess.run(words, stdout=subprocess.PIPE, stderr=subprocess.STDOUT, text=True, timeout=PATIENCE, **options)
    if run.returncode != status:
        raise AssertionError(f"{' '.join(words)} ended with {run.returncode}: {run.stdout}")
    return run.stdout


def digest_of(data):
    return hashlib.sha256(data).hexdigest()


def release(top, data, **other):
    """Writes a release of these bytes and of the sources as they are into a checkout, but for these values of its manifest; answers the digest of the bytes."""
    digest = hashlib.sha256(data).hexdigest()
    sources = done(os.path.join(top, "release", "digest"), "--anew").strip()
    values = {"version": "1.2.3", "sources": sources, "kit": KIT, "program": digest, **other}
    with open(os.path.join(top, "release", "MANIFEST"), "w") as file:
        file.write("# A comment.\n" + "".join(f"{word} {value}\n" for word, value in values.items()))
    with open(os.path.join(top, "release", "alta-x86_64.gz"), "wb") as file:
        file.write(gzip.compress(data))
    return digest


class Checkout(unittest.TestCase):
    """A small checkout, with two crates, in a folder of its own."""

    def setUp(self):
        folder = tempfile.TemporaryDirectory()
        self.addCleanup(folder.cleanup)
        self.folder = folder.name
        self.top = os.path.join(folder.name, "checkout")
        self.crate = os.path.join(self.top, "crates", "alta_cli")
        self.launcher = os.path.join(self.top, "alta")
        self.path = os.path.join(folder.name, "x.alta")
        os.makedirs(os.path.join(self.top, "docs"))
        os.mkdir(os.path.join(self.top, "release"))
        for file in ("alta", "build.py", "docs/alta.1", "release/assembly.py", "release/compiling.py", "release/digest", "release/make.py"):
            shutil.copy(os.path.join(TOP, file), os.path.join(self.top, file))
        self.put("HANDLES", "Handles allowed: none.\n")
        self.put("crates.txt", "alta_codec:\nalta_cli: alta_codec\n")
        self.put("crates/alta_codec/src/lib.rt", "fn one() {}\n")
        self.put("crates/alta_codec/specs/One.antt", "abbrev pub one : N\n")
        self.put("crates/alta_cli/src/main.rt", "fn main() {}\n")
        self.put("../here/made", script("new"))
        self.here = os.path.join(self.folder, "here")
        self.environment = dict(os.environ, HERE=self.here)

    def put(self, name, content, mode=0o644):
        path = os.path.normpath(os.path.join(self.top, name))
        os.makedirs(os.path.dirname(path), exist_ok=True)
        with open(path, "wb") as file:
            file.write(content if isinstance(content, bytes) else content.encode())
        os.chmod(path, mode)
        return path

    def text(self, name):
        with open(os.path.join(self.top, name), encoding="utf-8") as file:
            return file.read()

    def give_rt(self):
        """Puts the stand-in of the kit's command first."""
        self.put("../bin/rt", RT, 0o755)
        self.environment["PATH"] = os.path.join(self.folder, "bin") + os.pathsep + os.environ["PATH"]

    def take_rt(self):
        """Leaves of the system what the launcher needs alone."""
        tools = os.path.join(self.folder, "tools")
        os.makedirs(tools, exist_ok=True)
        for name in TOOLS:
            place = os.path.join(tools, name)
            if not os.path.lexists(place):
                os.symlink(shutil.which(name), place)
        self.environment["PATH"] = tools

    def put_built(self, program):
        """A program that `rt` alone has built, after the sources were written."""
        return self.put("crates/alta_cli/out/alta_cli", program, 0o755)

    def commit(self):
        """Puts all files into a commit, in a repository of the checkout's own."""
        for words in (["init", "-q"], ["add", "-A"], ["-c", "user.name=a", "-c", "user.email=a@example.org", "commit", "-qm", "x"]):
            done("git", *words, cwd=self.top, env=self.environment)

    def said(self, *words, status=0, **options):
        """What the launcher prints, on either stream."""
        return done(self.launcher, *words, status=status, env=self.environment, **options)


class Started(Checkout):
    """Launchers side by side, with the stand-in of the kit's command, which waits until it is let go."""

    def setUp(self):
        super().setUp()
        self.give_rt()
        self.words = [self.launcher, self.put("../index", ""), "run"]
        self.out = os.path.join(self.crate, "out")

    def start(self, *words, of=None):
        process = subprocess.Popen(
            [*self.words[:1], *words, *(self.words[1:] if of is None else of)],
            env=self.environment,
            stdin=subprocess.DEVNULL,
            stdout=subprocess.PIPE,
            stderr=subprocess.PIPE,
            text=True,
        )
        self.addCleanup(process.wait)
        self.addCleanup(self.let_go)
        return process

    def building(self, *words, of=None):
        """One that builds: it has asked for the proofs."""
        process = self.start(*words, of=of)
        until(lambda: os.path.exists(os.path.join(self.here, "calls")))
        return process

    def let_go(self):
        self.put("../here/go", "")

    def ended(self, process, status, out):
        """What it said on standard error; it has to end so."""
        given, said = process.communicate(timeout=PATIENCE)
        self.assertEqual((process.returncode, given.split(" ")[0].strip()), (status, out), said)
        return said

    def calls(self, word=1):
        with open(os.path.join(self.here, "calls")) as file:
            return [line.split()[word] for line in file]


TAKEN = "alta: this is the released program of these sources, proved by its makers; ./alta --prove proves it here\n"


class WithRelease(Started):
    """A checkout with a released program, which says `released`; at first without `rt`."""

    def setUp(self):
        super().setUp()
        self.take_rt()
        self.release(script("released").encode())
        self.asks = self.words[1:]

    def release(self, data, **other):
        self.digest = release(self.top, data, **other)

    def state(self):
        """What `--state` says, by the words of its lines."""
        return dict(line.split(": ", 1) for line in self.said("--state").splitlines() if not line.startswith("alta: "))

    def refused(self, *words):
        """What is said where no program serves; it has to name what can be done."""
        said = self.said(*(words or self.asks), status=2)
        self.assertIn("the command rt is missing, which proves and builds a program of these sources; README.md", said)
        self.assertNotIn("released index run", said)
        self.assertEqual(self.state()["serves"], "none")
        return said

    def make(self, *words, status=0):
        return done(sys.executable, os.path.join(self.top, "release", "make.py"), *words, status=status, env=self.environment)
