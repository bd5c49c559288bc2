#!/usr/bin/env python3
"""Tests of the launcher: what it looks at before the program runs, what it installs, and how it has the program built.

usage: tests/launcher.py --program PATH [TEST ..]

The command `rt` is one of the tests' own, which proves in no time what it is let.
"""

import fcntl
import os
import shutil
import signal
import subprocess
import sys
import time

from checkouts import Checkout, Started, done, script
from support import PATIENCE, TOP, run_tests

PROGRAM = None


class Guard(Checkout):
    """What the launcher and the installed command look at before the program runs."""

    def setUp(self):
        super().setUp()
        shutil.copy(PROGRAM, self.put_built(""))
        self.prefix = os.path.join(self.folder, "prefix with a blank")
        self.said("--install", self.prefix)
        self.commands = (self.launcher, os.path.join(self.prefix, "bin", "alta"))

    def test_what_init_does_not_write_over(self):
        # The content of a file, the status of init and demo, and what is said: the program itself refuses an index.
        other, exists = "alta: not empty, and no index\n", "alta: index exists\n"
        rows = [
            (b"no index\n", 10, other),
            (b"", 0, ""),
            (bytes(100), 0, ""),
            (bytes(2_105_343) + b"x", 10, other),
            (bytes(3_000_000) + b"x", 10, other),
            (b"\xa5" + bytes(8190), 10, other),
            (b"\xa5" + bytes(8191), 10, exists),
            (bytes(4096) + b"\xa5" + bytes(4095), 10, exists),
            (bytes(4097) + b"\xa5" + bytes(4095), 10, other),
        ]
        for shell in filter(shutil.which, ("sh", "dash", "bash", "busybox")):
            for command in self.commands:
                words = [shell, *(["sh"] if shell == "busybox" else []), command]
                for content, status, said in rows:
                    self.kept([*words, "index", "init"], content, status, said)
                self.kept([*words, "index", "demo", "1"], *rows[0])
                for name in ("-", "--", "-n", "!", "(", "a b", "a\nb", " ", "*", "&1", "$HOME", "\u00e9", "--state"):
                    self.kept([*words, name, "init"], *rows[0])
                said = done(*words, ".", "init", status=2, cwd=self.folder)
                self.assertEqual(said, "alta: disk fault\nalta: open: Is a directory (os error 21)\n")

    def kept(self, words, content, status, said):
        """A file of this content, which the words name behind the command's, stays as it is where it is not made an index."""
        command = next(word for word in words if word in self.commands)
        path = os.path.join(self.folder, words[words.index(command) + 1])
        with open(path, "wb") as file:
            file.write(content)
        given = done(*words, status=status, cwd=self.folder, stdin=subprocess.DEVNULL)
        with open(path, "rb") as file:
            stays = file.read() == content
        self.assertEqual((stays, given), (status != 0, said), (words, content[:9]))
        os.remove(path)

    def test_words(self):
        for command in self.commands:
            usage = f"usage: {command} PATH init | run | demo N\n"
            for words in ([], ["x"], ["x", "y"], ["x", "init", "y"], ["x", "demo"], ["--no-build"], ["", "help"], ["--install"]):
                self.assertEqual(done(command, *words, status=1), usage, words)
            for words in (["--help"], ["-h"], ["help"]):
                self.assertTrue(done(command, *words).startswith(usage), words)
            self.assertEqual(done(command, os.path.join(self.folder, "none"), "run", status=7), "alta: no index\n")
            self.assertFalse(os.path.exists(os.path.join(self.folder, "none")))
            self.assertEqual(done(command, "--version"), done(TOP + "/alta", "--version"))
        launcher, installed = (done(command, "--help") for command in self.commands)
        self.assertEqual(("--prove" in launcher, "--prove" in installed), (True, False))
        self.assertTrue(self.said("--no-build", "--help").startswith("usage: "))
        for word in ("--state", "--prove"):
            done(self.commands[1], word, status=1)

    def test_one_version(self):
        number = done(TOP + "/alta", "--version").split()[1]
        for file in ("client/pyproject.toml", "client/buncocedar/__init__.py"):
            with open(os.path.join(TOP, file), encoding="utf-8") as it:
                self.assertRegex(it.read(), rf'(?m)^(__version__|version) = "{number}"$', file)


class Installing(Checkout):
    """`./alta --install`, of a checkout whose program is built."""

    def setUp(self):
        super().setUp()
        shutil.copy(PROGRAM, self.put_built(""))
        self.prefix = os.path.join(self.folder, "prefix with a blank")
        self.command = os.path.join(self.prefix, "bin", "alta")

    def test_installing(self):
        said = self.said("--install", self.prefix)
        self.assertIn(self.command, said)
        shutil.rmtree(self.top)
        done(self.command, self.path, "init")
        self.assertEqual(done(self.command, self.path, "run", input="add a\t\tfox\ncount fox\n"), "added 1\nfound 1\n")
        found = [os.path.join(os.path.relpath(at, self.prefix), name) for at, _, names in os.walk(self.prefix) for name in names]
        self.assertEqual(sorted(found), ["bin/alta", "libexec/buncocedar/alta_cli", "share/man/man1/alta.1"])
        with open(os.path.join(self.prefix, "share", "man", "man1", "alta.1")) as page:
            self.assertTrue(page.read().startswith(".TH ALTA 1"))

    def test_the_installed_command_by_links(self):
        # As pipx makes one, and as /bin is one of /usr/bin.
        self.said("--install", self.prefix)
        os.symlink(self.command, os.path.join(self.folder, "link"))
        os.symlink(os.path.join(self.prefix, "bin"), os.path.join(self.folder, "bin of it"))
        for command in ("link", "bin of it/alta"):
            self.assertEqual(done(os.path.join(self.folder, command), self.path, "run", status=7), "alta: no index\n")
            done(os.path.join(self.folder, command), self.path, "init")
            os.remove(self.path)
        os.remove(os.path.join(self.prefix, "libexec", "buncocedar", "alta_cli"))
        self.assertIn("the program is missing: ", done(self.command, self.path, "init", status=2))

    def test_installing_into_a_folder_of_any_name(self):
        with open(os.path.join(self.folder, "--install"), "w") as file:
            file.write("notes\n")
        for name in ("init", "run", "demo", "-x", "--"):
            self.said("--install", name, cwd=self.folder)
            self.assertTrue(os.path.exists(os.path.join(self.folder, name, "bin", "alta")))

    def test_installing_again(self):
        # Over a program that runs, which goes on.
        self.said("--install", self.prefix)
        done(self.command, self.path, "init")
        with subprocess.Popen([self.command, self.path, "run"], stdin=subprocess.PIPE, stdout=subprocess.PIPE, text=True) as run:
            run.stdin.write("stats\n")
            run.stdin.flush()
            self.assertEqual(run.stdout.readline(), "documents 0 words 0 next 1\n")
            self.said("--install", self.prefix)
            self.assertEqual(run.communicate("stats\n", timeout=PATIENCE)[0], "documents 0 words 0 next 1\n")
        self.assertEqual(run.returncode, 0)

    def test_where_it_can_not(self):
        with open(self.prefix, "w"):
            pass
        self.said("--install", self.prefix, status=2)

    def test_the_manual_page(self):
        man = shutil.which("man") or shutil.which("groff")
        if man is None:
            self.skipTest("neither man nor groff is here")
        words = [man, "-l"] if man.endswith("man") else [man, "-man", "-Tascii", "-ww"]
        page = done(*words, os.path.join(TOP, "docs", "alta.1"), env={**os.environ, "MANPAGER": "cat", "PAGER": "cat"})
        self.assertIn("EXIT STATUS", page)


class Building(Started):
    """`./alta` where its program is not built, or was before a source has changed."""

    def put_older(self):
        """A program that is older than its source."""
        self.put("crates/alta_cli/out/alta_cli", script("old"), 0o755)
        os.utime(os.path.join(self.out, "alta_cli"), (1, 1))

    def test_the_first_time(self):
        # Of two at once one builds, and the other waits for it.
        first = self.building()
        second = self.start()
        self.assertIn("was not built yet", self.ended(self.start("--no-build"), 2, ""))
        self.assertIn(f"waiting for process {first.pid}, which builds the program; see ", second.stderr.readline())
        self.let_go()
        self.assertIn('README.md, "Two commands"', self.ended(first, 0, "new"))
        self.ended(second, 0, "new")
        self.ended(self.start(), 0, "new")
        self.assertEqual(self.calls(), ["lib", "run"])
        self.assertEqual(sorted(os.listdir(self.out)), ["alta_cli", "build.log", "building", "proved"])

    def test_paths_of_any_name(self):
        # They go by the builder, and come back as they were.
        self.let_go()
        for name in ("-x", "--", "--jobs", "a b\n*"):
            self.put("../index of any name/" + name, "")
            words = [self.launcher, name, "run"]
            said = subprocess.run(words, cwd=os.path.join(self.folder, "index of any name"), env=self.environment, stdout=subprocess.PIPE, text=True)
            self.assertEqual(said.stdout, f"new {name} run\n")
            os.remove(os.path.join(self.out, "alta_cli"))

    def test_an_older_program_serves(self):
        self.put_older()
        first = self.building()
        for _ in range(2):
            self.assertIn("the one of before serves until then", self.ended(self.start(), 0, "old"))
        self.assertEqual(self.ended(self.start("--no-build"), 0, "old"), "")
        # A source that changes while it is built asks for another build.
        self.put("crates/alta_cli/src/main.rt", "fn main() {  }\n")
        self.let_go()
        self.ended(first, 0, "new")
        self.assertEqual(self.ended(self.start("--no-build"), 0, "new"), "")
        self.assertIn("proving and building the program", self.ended(self.start(), 0, "new"))
        self.assertEqual(self.calls(), ["lib", "run", "lib", "run"])

    def test_what_is_built_goes_by_content(self):
        self.let_go()
        self.ended(self.start(), 0, "new")
        source = self.text("crates/alta_cli/src/main.rt")
        for _ in range(2):
            # Written anew with the same content, as by `git checkout` to another commit and back.
            self.put("crates/alta_cli/src/main.rt", source)
            self.assertEqual(self.ended(self.start(), 0, "new"), "")
        self.put("crates/alta_cli/src/main.rt", source.replace("{", "{ "))
        # A time that was set back hides no change.
        os.utime(os.path.join(self.crate, "src", "main.rt"), (1, 1))
        self.assertIn("proving and building the program", self.ended(self.start(), 0, "new"))
        self.put("crates/alta_cli/src/main.rt", source.replace("{", "{  "))
        self.put("../here/refused", "alta_codec")
        self.ended(self.start(), 2, "")
        # The sources of the program that was built last are back.
        self.put("crates/alta_cli/src/main.rt", source.replace("{", "{ "))
        self.assertEqual(self.ended(self.start(), 0, "new"), "")

    def test_what_the_kit_alone_has_built(self):
        # As `rt ci` and `rt run` leave it: by time, and no older record stands for it.
        self.let_go()
        self.ended(self.start(), 0, "new")
        self.put("crates/alta_cli/src/main.rt", "fn main() { }\n")
        time.sleep(0.02)
        self.put_built(script("other"))
        self.assertEqual(self.ended(self.start(), 0, "other"), "")
        time.sleep(0.02)
        self.put("crates/alta_cli/src/main.rt", "fn main() {}\n")
        self.assertIn("proving and building the program", self.ended(self.start(), 0, "new"))

    def test_what_rt_ci_has_built(self):
        # The gate records the sources as they were before, where they have stayed so.
        def record(digest, status=0):
            return done(sys.executable, os.path.join(self.top, "build.py"), "--record", digest, status=status, env=self.environment)

        digest = done(os.path.join(self.top, "release", "digest"), "--anew").strip()
        self.put_built(script("other"))
        self.assertIn("the sources have changed while they were proved", record("0" * 64, status=2))
        record(digest)
        source = self.text("crates/alta_cli/src/main.rt")
        self.put("crates/alta_cli/src/main.rt", source)
        self.assertEqual(self.ended(self.start(), 0, "other"), "")
        self.put("crates/alta_cli/src/main.rt", source + "\n")
        self.let_go()
        self.assertIn("proving and building the program", self.ended(self.start(), 0, "new"))

    def test_no_older_program_stands_for_one_that_is_refused(self):
        self.put_older()
        self.put("../here/refused", "alta_codec")
        self.let_go()
        for _ in range(2):
            self.assertIn("the program could not be built", self.ended(self.start(), 2, ""))
        self.assertEqual(self.ended(self.start("--no-build"), 0, "old"), "")
        os.remove(os.path.join(self.here, "refused"))
        self.ended(self.start(), 0, "new")
        self.assertEqual(self.ended(self.start("--no-build"), 0, "new"), "")

    def test_a_build_that_was_killed(self):
        self.put_older()
        first = self.building()
        first.kill()
        first.wait()
        first.stdout.close()
        first.stderr.close()
        self.assertEqual(self.ended(self.start("--no-build"), 0, "old"), "")
        # A proof that it had begun goes on, and holds the turn; the older program serves meanwhile.
        self.assertIn("the one of before serves until then", self.ended(self.start(), 0, "old"))
        second = self.start(of=["--prove"])
        self.assertIn(f"waiting for process {first.pid}, ", second.stderr.readline())
        self.let_go()
        self.ended(second, 0, "make:")
        self.ended(self.start(), 0, "new")
        self.assertEqual(self.calls(), ["lib", "lib", "run"])

    def test_a_part_of_a_program_never_serves(self):
        # A build was killed as the program was written: there is an older one, or none.
        self.put("crates/alta_cli/out/begun", "")
        self.put_built(script("part"))
        self.assertIn("was not built yet", self.ended(self.start("--no-build"), 2, ""))
        self.put("crates/alta_cli/out/older", script("old"), 0o755)
        self.assertEqual(self.ended(self.start("--no-build"), 0, "old"), "")
        self.put("../here/refused", "alta_codec")
        self.let_go()
        self.ended(self.start(), 2, "")
        self.assertEqual(self.ended(self.start("--no-build"), 0, "old"), "")

    def test_what_a_killed_build_has_left(self):
        # Its copies are taken away, and those of one that runs are not, nor what only looks like them.
        for name in ("lanes-left", "lanes-used"):
            self.put(f"crates/alta_cli/out/{name}/0/crates/alta_codec/src/lib.rt", "")
        self.put("crates/alta_cli/out/lanes-file", "")
        os.symlink("lanes-file", os.path.join(self.out, "lanes-link"))
        handle = os.open(os.path.join(self.out, "lanes-used"), os.O_RDONLY)
        self.addCleanup(os.close, handle)
        fcntl.flock(handle, fcntl.LOCK_EX)
        self.let_go()
        self.ended(self.start(), 0, "new")
        left = sorted(name for name in os.listdir(self.out) if name.startswith("lanes-"))
        self.assertEqual(left, ["lanes-file", "lanes-link", "lanes-used"])
        self.assertTrue(os.path.exists(os.path.join(self.out, "lanes-used", "0", "crates", "alta_codec", "src", "lib.rt")))

    def test_a_build_that_was_interrupted(self):
        self.put_older()
        self.put("crates/alta_codec/out/kept", "")
        for number in (signal.SIGTERM, signal.SIGINT):
            first = self.building()
            first.send_signal(number)
            self.ended(first, 128 + number, "")
            # What it had begun has ended, and stands where it stood.
            self.assertEqual(self.ended(self.start("--no-build"), 0, "old"), "")
            self.assertTrue(os.path.exists(os.path.join(self.top, "crates", "alta_codec", "out", "kept")))
            self.assertEqual(sorted(os.listdir(self.out)), ["alta_cli", "build.log", "building"])
            os.remove(os.path.join(self.here, "calls"))
        self.let_go()
        self.ended(self.start(), 0, "new")

    def test_each_crate_behind_those_below_it(self):
        self.put("crates.txt", "alta_codec:\nalta_disk: alta_codec arrayvec\nalta_text: alta_codec\nother: alta_codec\nalta_cli: alta_text alta_disk\n")
        for name in ("alta_disk", "alta_text", "other"):
            self.put(f"crates/{name}/src/lib.rt", "\n" * len(name))
        self.put("../here/refused", "alta_codec")
        self.let_go()
        self.ended(self.start(), 2, "")
        self.assertEqual(self.calls(2), ["alta_codec"])
        os.remove(os.path.join(self.here, "refused"))
        self.ended(self.start(), 0, "new")
        called = self.calls(2)
        self.assertEqual((called[1], sorted(called[2:4]), called[4:]), ("alta_codec", ["alta_disk", "alta_text"], ["alta_cli"]))


def take_program(path):
    global PROGRAM
    PROGRAM = path


if __name__ == "__main__":
    run_tests("launcher", take_program)
