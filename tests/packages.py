#!/usr/bin/env python3
"""Tests of the packages, the wheel with the program and the one for Debian: each is the same bytes twice, and works where it is put.

usage: tests/packages.py --program PATH [TEST ..]

They are made in a checkout of the test's own, in which the program at the path was built. What needs pip or dpkg-deb is left out
where it is not there, and that is said.
"""

import os
import shlex
import shutil
import subprocess
import sys
import time
import unittest
import zipfile

from checkouts import Checkout, done
from support import TOP, run_tests

PROGRAM = None
WHEEL = "import sys, wheel_backend; print(wheel_backend.build_wheel(sys.argv[1]))"
PIP = [sys.executable, "-m", "pip", "--disable-pip-version-check"]
HAS_PIP = subprocess.run([*PIP, "--version"], capture_output=True).returncode == 0
BARE = {"PATH": "", "PIP_ROOT_USER_ACTION": "ignore"}  # what a timer may have, and less


class Packages(Checkout):
    """A checkout with all that a package is made of."""

    def setUp(self):
        super().setUp()
        for folder in ("client", "packaging", "docs"):
            shutil.copytree(os.path.join(TOP, folder), os.path.join(self.top, folder), dirs_exist_ok=True, ignore=shutil.ignore_patterns("__pycache__"))
        for file in ("README.md", "CHANGELOG.md", "bunco"):
            shutil.copy(os.path.join(TOP, file), self.top)
        self.put("release/NOTICES", "== caseless: LICENSE\n")
        self.put(".gitignore", "out/\n__pycache__/\n")
        self.commit()
        if PROGRAM:
            shutil.copy(PROGRAM, self.put_built(""))
        self.version = self.said("--version").split()[1]

    def made(self, name):
        """A new folder for what is made."""
        path = os.path.join(self.folder, name)
        os.mkdir(path)
        return path

    def wheel(self, folder):
        name = done(sys.executable, "-c", WHEEL, folder, cwd=os.path.join(self.top, "client")).strip()
        return os.path.join(folder, name)

    def same(self, one, other):
        with open(one, "rb") as first, open(other, "rb") as second:
            self.assertEqual(first.read(), second.read())

    def touch(self):
        """Gives all files of the checkout another time, as another clone has it."""
        for at, _, names in os.walk(os.path.join(self.top, "client")):
            for name in names:
                os.utime(os.path.join(at, name))

    def uses(self, command, bunco, environment):
        """A use of both commands, without a PATH: what the program is, is found beside them."""
        path = os.path.join(self.folder, "notes.alta")
        notes = self.made("notes")
        with open(os.path.join(notes, "a"), "w") as file:
            file.write("The quick fox")
        done(command, path, "init", env=environment)
        done(bunco, "folder", path, notes, env=environment)
        self.assertIn("1 a\n", done(bunco, "find", path, "fox", env=environment))
        self.assertEqual(done(command, path, "run", env=environment, input="count fox\n"), "found 1\n")
        # The guard stands before the program.
        letters = os.path.join(self.folder, "letters.tar")
        with open(letters, "wb") as file:
            file.write(b"letters\n")
        self.assertEqual(done(command, letters, "init", env=environment, status=10), "alta: not empty, and no index\n")
        self.assertEqual(done(command, "--version", env=environment), f"alta {self.version}\n")


@unittest.skipUnless(HAS_PIP, "this Python has no pip")
class Wheel(Packages):
    def test_without_a_program(self):
        shutil.rmtree(os.path.join(self.crate, "out"), ignore_errors=True)
        first = self.wheel(self.made("first"))
        self.assertEqual(os.path.basename(first), f"buncocedar-{self.version}-py3-none-any.whl")
        self.touch()
        time.sleep(2.1)
        self.same(first, self.wheel(self.made("second")))
        with zipfile.ZipFile(first) as wheel:
            self.assertFalse([name for name in wheel.namelist() if ".data/" in name])

    def test_no_older_program_is_packed(self):
        self.put_built("")
        self.put("crates/alta_cli/src/main.rt", "fn main() { }\n")
        self.assertIn("-py3-none-any.whl", self.wheel(self.made("first")))

    def test_with_a_program(self):
        self.need_program()
        first = self.wheel(self.made("first"))
        self.assertEqual(os.path.basename(first), f"buncocedar-{self.version}-py3-none-manylinux_2_34_x86_64.whl")
        self.touch()
        time.sleep(2.1)
        self.same(first, self.wheel(self.made("second")))
        place = os.path.join(self.folder, "environment")
        done(sys.executable, "-m", "venv", place)
        done(os.path.join(place, "bin", "python"), "-m", "pip", "--disable-pip-version-check", "install", "--quiet", "--no-index", first)
        self.same(os.path.join(place, "libexec", "buncocedar", "alta_cli"), PROGRAM)
        self.same(os.path.join(place, "bin", "alta"), os.path.join(TOP, "alta"))
        self.uses(os.path.join(place, "bin", "alta"), os.path.join(place, "bin", "bunco"), BARE)
        said = done(os.path.join(place, "bin", "python"), "-c", "import buncocedar; print(buncocedar.default_program())", env=BARE)
        self.assertEqual(said, os.path.join(place, "bin", "alta") + "\n")

    def test_in_a_folder(self):
        self.need_program()
        place = os.path.join(self.folder, "place")
        done(*PIP, "install", "--quiet", "--no-index", "--target", place, os.path.join(self.top, "client"), env={**os.environ, **{"PIP_ROOT_USER_ACTION": "ignore"}})
        environment = {**BARE, "PYTHONPATH": place}
        self.uses(os.path.join(place, "bin", "alta"), os.path.join(place, "bin", "bunco"), environment)

    def test_with_the_library(self):
        self.need_program()
        folder = self.made("library")
        for name in ("libalta_embed.so", "alta_embed32.wasm"):
            self.put(f"../library/{name}", name, 0o755)
        self.put("release/embedded.py", f"import sys\nprint({folder!r} + '/' + sys.argv[2])\n")
        wheel, place = self.wheel(self.made("first")), os.path.join(self.folder, "place")
        done(*PIP, "install", "--quiet", "--no-index", "--target", place, wheel, env={**os.environ, **{"PIP_ROOT_USER_ACTION": "ignore"}})
        for name in ("libalta_embed.so", "alta_embed32.wasm"):
            self.same(os.path.join(place, "libexec", "buncocedar", name), os.path.join(folder, name))
            asked = f"from buncocedar.embedded import released; print(released({name!r}))"
            said = done(sys.executable, "-c", asked, env={**BARE, "PYTHONPATH": place})
            self.assertEqual(said, os.path.join(place, "libexec", "buncocedar", name) + "\n")

    def need_program(self):
        if not PROGRAM:
            self.skipTest("without the real program")


@unittest.skipUnless(shutil.which("dpkg-deb"), "dpkg-deb is not here")
class Debian(Packages):
    def deb(self, folder, status=0):
        return done(sys.executable, os.path.join(self.top, "packaging", "deb.py"), folder, status=status, cwd=self.folder).strip()

    def test_without_a_program(self):
        shutil.rmtree(os.path.join(self.crate, "out"), ignore_errors=True)
        self.assertEqual(self.deb(self.made("first"), status=1), "deb: no program of these sources serves here: ./alta --state says why")

    def test_the_package(self):
        if not PROGRAM:
            self.skipTest("without the real program")
        first = self.deb(self.made("first"))
        self.assertEqual(os.path.basename(first), f"buncocedar_{self.version}_amd64.deb")
        self.touch()
        time.sleep(2.1)
        self.same(first, self.deb(self.made("second")))
        root = self.made("root")
        done("dpkg-deb", "-x", first, root)
        self.same(os.path.join(root, "usr/libexec/buncocedar/alta_cli"), PROGRAM)
        listed = done("dpkg-deb", "-c", first)
        self.assertNotIn("__pycache__", listed)
        for line in listed.splitlines():
            self.assertRegex(line, r"^[-d]rw[-x]r-[-x]r-[-x] root/root ", line)
        named = "man/man1/alta.1.gz man/man1/bunco.1.gz man/man1/bunco-find.1.gz doc/buncocedar/copyright doc/buncocedar/GUIDE.md.gz".split()
        named += ["bash-completion/completions/alta", "bash-completion/completions/bunco", "zsh/vendor-completions/_bunco"]
        for name in [f"usr/share/{it}" for it in named] + ["usr/lib/systemd/user/bunco-import.timer", "usr/bin/bunco"]:
            self.assertTrue(os.path.isfile(os.path.join(root, name)), name)
        # Behind the installation Python's own form of the modules is made, by Debian's command for it.
        done("dpkg-deb", "-e", first, self.made("control"))
        stub = self.put("../stub/py3compile", f'#!/bin/sh\necho "$@" >>{shlex.quote(os.path.join(self.folder, "compiled"))}\n')
        os.chmod(stub, 0o755)
        for word in ("abort-upgrade", "configure"):
            done(os.path.join(self.folder, "control", "postinst"), word, env={**os.environ, "PATH": f"{os.path.dirname(stub)}:{os.environ['PATH']}"})
        self.assertEqual(self.text("../compiled"), "-p buncocedar\n")
        done(os.path.join(self.folder, "control", "postinst"), "configure", env={"PATH": "/nowhere"})
        # In a bare folder the package is where no scheme of this Python has it, and the program on the PATH.
        environment = {"PATH": os.path.join(root, "usr/bin"), "PYTHONPATH": os.path.join(root, "usr/lib/python3/dist-packages")}
        self.uses(os.path.join(root, "usr/bin/alta"), os.path.join(root, "usr/bin/bunco"), environment)

    def test_nightly(self):
        nightly = os.path.join(TOP, "packaging/root/usr/libexec/buncocedar/nightly")
        file = self.put("../commands", "# a comment\n\necho one >>done\nfalse\ncat >>done\n(exit 7)\necho two >>done")
        environment = {**os.environ, "HOME": self.made("home")}
        said = done(nightly, file, env=environment, status=7, input="not read\n")
        self.assertEqual(said, "nightly: status 1: false\nnightly: status 7: (exit 7)\n")
        self.assertEqual(self.text("../home/done"), "one\ntwo\n")
        self.assertIn("no file of commands", done(nightly, os.path.join(self.folder, "none"), env=environment, status=1))
        self.assertIn("no file of commands", done(nightly, env=environment, status=1))

    def test_the_units(self):
        analyze = shutil.which("systemd-analyze")
        if analyze is None:
            self.skipTest("systemd-analyze is not here")
        folder = os.path.join(TOP, "packaging/root/usr/lib/systemd/user")
        for unit in sorted(os.listdir(folder)):
            words = [analyze, "verify", "--user", "--man=no", os.path.join(folder, unit)]
            said = subprocess.run(words, env={**os.environ, "XDG_RUNTIME_DIR": self.folder}, capture_output=True, text=True)
            left = [line for line in said.stderr.splitlines() if "nightly is not executable" not in line]
            self.assertEqual(left, [], unit)

    def test_completion(self):
        bash = shutil.which("bash")
        if bash is None:
            self.skipTest("bash is not here")
        self.put("../here/one.alta", "")
        self.put("../here/two.txt", "")
        file = os.path.join(TOP, "packaging/root/usr/share/bash-completion/completions/alta")
        for words, offered in ((["alta", ""], "--help --version one.alta"), (["alta", "one.alta", "i"], "init"), (["alta", "--help", ""], "")):
            text = f". '{file}'; COMP_WORDS=({' '.join(repr(word) for word in words)}); COMP_CWORD={len(words) - 1}; _alta; echo ${{COMPREPLY[*]}}"
            self.assertEqual(" ".join(sorted(done(bash, "-c", text, cwd=self.here).split())), offered, words)


def take_program(path):
    global PROGRAM
    PROGRAM = path


if __name__ == "__main__":
    run_tests("packages", take_program)
