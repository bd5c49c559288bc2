#!/usr/bin/env python3
"""Tests of the trusted edge: the file, its folder and the standard streams, where the system fails or something stands in the way.

usage: tests/edge.py --program PATH

A device that loses what no sync made firm is `device.c`, which a C compiler makes into a library that is loaded before the C
library. Where there is no compiler, the tests that need it are not run, and a line says so.
"""

import os
import resource
import shutil
import signal
import subprocess
import sys
import tempfile
import time
import unittest

from support import PATIENCE

HERE = os.path.dirname(os.path.abspath(__file__))
PROGRAM = None
DEVICE = None  # the library of the device, where it could be built
HEAD = 2_105_344  # bytes before the first level
NOBODY = 65534
LONG = "x y " * 2500  # a text that fills more than two pages
ADDS = [f"add a\t\tone {LONG}", "flush", f"add b\t\ttwo {LONG}", "flush", "merge"]
LATER = [f"add c\t\tthree {LONG}", "flush", f"add d\t\tfour {LONG}"]


def text(lines):
    return "".join(line + "\n" for line in lines)


def run(path, *words, given="", **options):
    """What the program ends with: status, output, standard error."""
    done = subprocess.run(
        [PROGRAM, path, *words], input=given.encode(), stdout=subprocess.PIPE, stderr=subprocess.PIPE, timeout=PATIENCE, **options
    )
    return done.returncode, done.stdout.decode(), done.stderr.decode()


def content(path):
    with open(path, "rb") as file:
        return file.read()


def within(most):
    """For a child: its files have so many bytes at most."""

    def bound():
        signal.signal(signal.SIGXFSZ, signal.SIG_IGN)
        resource.setrlimit(resource.RLIMIT_FSIZE, (most, most))

    return bound


def becoming_nobody():
    """For a child: gives up the rights of root, to whom no folder is closed."""
    if os.geteuid() == 0:
        os.setgroups([])
        os.setgid(NOBODY)
        os.setuid(NOBODY)


class Edge(unittest.TestCase):
    def setUp(self):
        folder = tempfile.TemporaryDirectory()
        self.addCleanup(folder.cleanup)
        self.folder = folder.name
        self.path = self.at("x.alta")

    def at(self, *names):
        return os.path.join(self.folder, *names)

    def make(self):
        self.assertEqual(run(self.path, "init"), (0, "", ""))

    def answered(self, replies, given="stats\n", path=None, **options):
        """The program answers these lines, and ends well."""
        self.assertEqual(run(path or self.path, "run", given=given, **options), (0, replies, ""))


class Faults(Edge):
    """The second line of a fault: which call of the system failed, and why."""

    def refused(self, status, lines, *words, path=None, **options):
        ended, given, said = run(path or self.path, *words, **options)
        self.assertEqual((ended, said.splitlines()), (status, lines))
        return given

    def test_a_folder(self):
        self.refused(2, ["alta: disk fault", "alta: open: Is a directory (os error 21)"], "run", path=self.folder)

    def test_no_folder(self):
        self.make()
        for name, why in (("none", "No such file or directory (os error 2)"), ("x.alta", "Not a directory (os error 20)")):
            self.refused(2, ["alta: disk fault", f"alta: open: {why}"], "init", path=self.at(name, "inside"))

    def test_a_file_longer_than_the_limit(self):
        self.make()
        os.truncate(self.path, 1 << 40)
        self.answered("documents 0 words 0 next 1\n")
        os.truncate(self.path, (1 << 40) + 1)
        self.refused(2, ["alta: disk fault", "alta: statx: file too large"], "run")

    def test_no_plain_file(self):
        self.refused(2, ["alta: disk fault", "alta: open: no plain file"], "init", path="/dev/null")

    def test_a_file_in_use(self):
        self.make()
        with subprocess.Popen([PROGRAM, self.path, "run"], stdin=subprocess.PIPE, stdout=subprocess.PIPE) as other:
            other.stdin.write(b"stats\n")
            other.stdin.flush()
            other.stdout.readline()
            self.refused(2, ["alta: disk fault", "alta: flock: another program has the file open"], "run")

    def test_a_file_that_may_not_grow(self):
        lines = ["alta: disk fault", "alta: pwrite64: File too large (os error 27)"]
        self.refused(2, lines, "init", preexec_fn=within(65_536), restore_signals=False)
        # A demo gives nothing, be it that the head has no place, the first level or a later one.
        for most in (0, 65_536, HEAD, HEAD + 1_000, HEAD + 20_000):
            path = self.at(f"{most}.alta")
            given = self.refused(2, lines, "demo", "200", path=path, preexec_fn=within(most), restore_signals=False)
            self.assertEqual(given, "")

    def test_a_full_output(self):
        self.make()
        with open("/dev/full", "w") as full:
            done = subprocess.run([PROGRAM, self.path, "run"], input=b"stats\n", stdout=full, stderr=subprocess.PIPE, timeout=PATIENCE)
        lines = [b"alta: output fault", b"alta: write: No space left on device (os error 28)"]
        self.assertEqual((done.returncode, done.stderr.splitlines()), (4, lines))

    def test_an_input_that_is_a_folder(self):
        self.make()
        handle = os.open(self.folder, os.O_RDONLY)
        self.addCleanup(os.close, handle)
        done = subprocess.run([PROGRAM, self.path, "run"], stdin=handle, stdout=subprocess.PIPE, stderr=subprocess.PIPE, timeout=PATIENCE)
        lines = [b"alta: input fault", b"alta: read: Is a directory (os error 21)"]
        self.assertEqual((done.returncode, done.stderr.splitlines()), (3, lines))


class Names(Edge):
    """A file whose name goes away below a run, and the folder that it stands in."""

    def lost(self, happens):
        """What no name leads to any more is not answered as stored."""
        self.make()
        with subprocess.Popen(
            [PROGRAM, self.path, "run"], stdin=subprocess.PIPE, stdout=subprocess.PIPE, stderr=subprocess.PIPE
        ) as program:
            program.stdin.write(b"add a\t\tx\n")
            program.stdin.flush()
            self.assertEqual(program.stdout.readline(), b"added 1\n")
            happens()
            given, said = program.communicate(b"add b\t\ty\n", timeout=PATIENCE)
        why = b"alta: disk fault\nalta: statx: the file was deleted, or another took its place\n"
        self.assertEqual((program.returncode, given, said), (2, b"", why))

    def test_deleted(self):
        self.lost(lambda: os.unlink(self.path))

    def test_replaced(self):
        other = self.at("other")
        self.assertEqual(run(other, "init"), (0, "", ""))
        self.lost(lambda: os.replace(other, self.path))
        self.answered("documents 0 words 0 next 1\n")

    def test_a_second_name_is_enough(self):
        self.make()
        os.link(self.path, self.at("second"))
        os.unlink(self.path)
        self.answered("added 1\n", "add a\t\tx\n", path=self.at("second"))

    def test_a_folder_that_may_not_be_read(self):
        self.make()
        os.chmod(self.path, 0o666)
        os.chmod(self.folder, 0o711)
        program = shutil.copy(PROGRAM, self.at("program"))
        os.chmod(program, 0o755)
        done = subprocess.run(
            [program, self.path, "run"], input=b"add a\t\tx\n", stdout=subprocess.PIPE, stderr=subprocess.PIPE, preexec_fn=self.outside
        )
        self.assertEqual((done.returncode, done.stdout, done.stderr), (0, b"added 1\n", b""))

    def outside(self):
        if os.geteuid() != 0:
            os.chmod(self.folder, 0o311)
        becoming_nobody()


class Streams(Edge):
    """The standard streams."""

    def test_an_input_that_does_not_wait(self):
        self.make()
        read, write = os.pipe()
        os.set_blocking(read, False)
        with subprocess.Popen([PROGRAM, self.path, "run"], stdin=read, stdout=subprocess.PIPE, stderr=subprocess.PIPE) as program:
            os.close(read)
            for _ in range(3):
                time.sleep(0.2)
                os.write(write, b"stats\n")
                self.assertEqual(program.stdout.readline(), b"documents 0 words 0 next 1\n")
            os.close(write)
            self.assertEqual((program.wait(PATIENCE), program.stderr.read()), (0, b""))

    def test_an_output_that_does_not_wait(self):
        self.make()
        lines = 20_000
        read, write = os.pipe()
        os.set_blocking(write, False)
        with open(self.at("lines"), "w+b") as given:
            given.write(b"stats\n" * lines)
            given.seek(0)
            with subprocess.Popen([PROGRAM, self.path, "run"], stdin=given, stdout=write, stderr=subprocess.PIPE) as program:
                os.close(write)
                time.sleep(0.3)
                with open(read, "rb") as output:
                    self.assertEqual(output.read(), b"documents 0 words 0 next 1\n" * lines)
                self.assertEqual((program.wait(PATIENCE), program.stderr.read()), (0, b""))

    def into_the_index(self, handle, stream, said):
        before = content(self.path)
        streams = {"stdout": subprocess.PIPE, "stderr": subprocess.PIPE, stream: handle}
        for words, given in [(("run",), b"stats\nadd a\t\tx\n"), (("demo", "5"), b""), (("init",), b"")]:
            done = subprocess.run([PROGRAM, self.path, *words], input=given, timeout=PATIENCE, **streams)
            self.assertEqual((done.returncode, done.stderr), (2, said))
            self.assertEqual(content(self.path), before)

    def test_replies_into_the_index(self):
        self.make()
        said = b"alta: disk fault\nalta: open: the standard output is the index\n"
        for mode in ("ab", "r+b"):
            with open(self.path, mode) as handle:
                self.into_the_index(handle, "stdout", said)

    def test_faults_into_the_index(self):
        self.make()
        for mode in ("ab", "r+b"):
            with open(self.path, mode) as handle:
                self.into_the_index(handle, "stderr", None)

    def test_a_link_to_the_index(self):
        self.make()
        os.symlink(self.path, self.at("link"))
        with open(self.path, "r+b") as handle:
            done = subprocess.run([PROGRAM, self.at("link"), "run"], input=b"stats\n", stdout=handle, stderr=subprocess.DEVNULL)
        self.assertEqual(done.returncode, 2)
        self.answered("documents 0 words 0 next 1\n")


class Device(Edge):
    """A file over a device that has what was synced, and no more."""

    def setUp(self):
        super().setUp()
        if DEVICE is None:
            self.skipTest("there is no C compiler")

    def on_device(self, path=None, **settings):
        """The options of a run on the device, with the settings of `device.c`."""
        os.makedirs(self.at("state"), exist_ok=True)
        named = {f"EDGE_{name.upper()}": str(value) for name, value in settings.items()}
        named.update(EDGE_STATE=self.at("state"), EDGE_FILE=path or self.path, LD_PRELOAD=DEVICE)
        return {"env": {**os.environ, **named}}

    def synced(self):
        """What was synced, in order: a line each, with the call and the path."""
        with open(self.at("state", "log")) as log:
            return log.read().splitlines()

    def stop(self):
        """The machine stops: the file has what the device has."""
        shutil.copyfile(self.at("state", "device"), self.path)
        os.truncate(self.at("state", "dirty"), 0)

    def begin(self):
        """A new index on the device, all of it firm."""
        shutil.rmtree(self.at("state"), ignore_errors=True)
        if os.path.exists(self.path):
            os.unlink(self.path)
        self.assertEqual(run(self.path, "init", **self.on_device()), (0, "", ""))

    def names(self, replies, lines):
        """The documents whose add was answered."""
        answered = replies.count("\n")
        return {line.split()[1].split("\t")[0] for line in lines[:answered] if line.startswith("add ")}

    def documents(self):
        status, given, said = run(self.path, "run", given="search NOT zebra\n")
        self.assertEqual((status, said), (0, ""))
        return {line.split()[1] for line in given.splitlines()[:-1]}

    def test_the_device_loses_what_no_sync_made_firm(self):
        self.begin()
        self.answered("added 1\n", "add a\t\tx\n", **self.on_device())
        with open(self.path, "r+b") as file:
            file.write(b"lost")
        self.stop()
        self.assertEqual(self.documents(), {"a"})

    def syncs_of(self, lines):
        self.begin()
        before = len(self.synced())
        self.assertEqual(run(self.path, "run", given=text(lines), **self.on_device())[0], 0)
        return len(self.synced()) - before

    def test_a_sync_that_fails_and_another_run(self):
        """Each sync fails in turn, and with it all behind it; the next run finds the device whole, and is stopped at each of its syncs."""
        for failing in range(1, self.syncs_of(ADDS) + 1):
            for stopping in range(1, 10):
                with self.subTest(failing=failing, stopping=stopping):
                    self.go_on_and_stop(2, stopping, fail=failing)

    def test_a_program_killed_inside_of_a_sync_that_fails_and_another_run(self):
        """The same, where the program is killed before it hears of the failure."""
        for dying in range(1, self.syncs_of(ADDS) + 1):
            for stopping in range(1, 10):
                with self.subTest(dying=dying, stopping=stopping):
                    self.go_on_and_stop(-signal.SIGKILL, stopping, die=dying)

    def go_on_and_stop(self, ends, stopping, **fault):
        """A run ends so by a fault of the device, and the machine stops behind a sync of the next run: no answered document is lost."""
        self.begin()
        status, given, _ = run(self.path, "run", given=text(ADDS), **self.on_device(**fault))
        self.assertEqual(status, ends)
        answered = self.names(given, ADDS)
        _, given, _ = run(self.path, "run", given=text(LATER), **self.on_device(stop=stopping))
        answered |= self.names(given, LATER)
        self.stop()
        self.assertLessEqual(answered, self.documents())

    def test_a_block_device(self):
        """The system tells no length of one, so that it would count as empty."""
        self.make()
        before = content(self.path)
        ended = run(self.path, "init", **self.on_device(block=1))
        self.assertEqual(ended, (2, "", "alta: disk fault\nalta: open: no plain file\n"))
        self.assertEqual(content(self.path), before)

    def test_calls_that_are_interrupted(self):
        self.make()
        for call in ("statx", "read", "write"):
            with self.subTest(call=call):
                self.answered("documents 0 words 0 next 1\n", **self.on_device(interrupt=call))

    def test_an_output_that_takes_a_few_bytes_at_a_time(self):
        self.make()
        self.answered("documents 0 words 0 next 1\n", **self.on_device(most=3))

    def test_an_output_that_takes_no_byte(self):
        self.make()
        ended = run(self.path, "run", given="stats\n", **self.on_device(most=0))
        self.assertEqual(ended, (4, "", "alta: output fault\nalta: write: write zero\n"))

    def test_the_folder_is_synced_where_the_file_is_made(self):
        self.begin()
        self.assertEqual(self.synced()[0], f"fsync {os.path.realpath(self.folder)}")
        made = len(self.synced())
        self.answered("added 1\n", "add a\t\tx\n", **self.on_device())
        self.assertEqual({line.split()[0] for line in self.synced()[made:]}, {"fdatasync"})

    def test_a_folder_that_cannot_be_synced(self):
        self.make()
        invalid = 22
        self.answered("documents 0 words 0 next 1\n", **self.on_device(folder=invalid))
        new = self.at("new.alta")
        ended = run(new, "init", **self.on_device(new, folder=invalid))
        self.assertEqual(ended, (2, "", "alta: disk fault\nalta: fsync of the folder: Invalid argument (os error 22)\n"))

    def test_a_link_to_a_missing_file(self):
        other = self.at("other")
        os.mkdir(other)
        link = self.at("link.alta")
        os.symlink(os.path.join("other", "z.alta"), link)
        self.assertEqual(run(link, "init", **self.on_device(link)), (0, "", ""))
        self.assertIn(f"fsync {os.path.realpath(other)}", self.synced())

    def test_a_link_in_the_folder_of_the_process(self):
        self.assertEqual(run("x.alta", "init", cwd=self.folder, **self.on_device()), (0, "", ""))
        self.assertIn(f"fsync {os.path.realpath(self.folder)}", self.synced())


def built_device(folder):
    """The device's library, made by a C compiler, or None where there is none."""
    compiler = next(filter(None, map(shutil.which, ("cc", "gcc", "clang"))), None)
    if compiler is None:
        print("edge: without the device: there is no C compiler, so no sync that fails is tested", file=sys.stderr)
        return None
    library = os.path.join(folder, "device.so")
    subprocess.run([compiler, "-O1", "-shared", "-fPIC", "-o", library, os.path.join(HERE, "device.c"), "-ldl"], check=True)
    os.chmod(folder, 0o755)
    return library


def main():
    global PROGRAM, DEVICE
    if "--program" not in sys.argv:
        raise SystemExit("usage: tests/edge.py --program PATH")
    at = sys.argv.index("--program")
    PROGRAM = os.path.abspath(sys.argv[at + 1])
    del sys.argv[at : at + 2]
    with tempfile.TemporaryDirectory() as folder:
        DEVICE = built_device(folder)
        unittest.main()


if __name__ == "__main__":
    main()
