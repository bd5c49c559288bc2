#!/usr/bin/env python3
"""Tests of releases: where the launcher takes one, what it says of it, and how `release/make.py` makes and checks one.

usage: tests/release.py --program PATH [TEST ..]

The command `rt` is one of the tests' own, which proves in no time what it is let.
"""

import gzip
import os
import shutil
import sys
import time

from checkouts import KIT, RT, TAKEN, WithRelease, digest_of, done, script
from support import TOP, run_tests

PROGRAM = None


class Released(WithRelease):
    """The launcher with a release."""

    def test_the_first_minute(self):
        with open(PROGRAM, "rb") as file:
            self.release(file.read())
        self.assertEqual(self.said(self.path, "init"), TAKEN)
        self.assertEqual(self.said(self.path, "run", input="add a\tRed Fox\tthe quick red fox\n"), "added 1\n")
        # It is said once, and nothing is unpacked where git or the kit would see it.
        self.assertFalse(os.path.exists(self.out))
        self.assertEqual(sorted(os.listdir(os.path.join(self.top, "release", "out"))), sorted([self.digest, "sources"]))
        self.assertEqual(os.listdir(os.path.join(self.top, "release", "out", self.digest)), ["alta_cli"])

    def test_other_sources_have_no_release(self):
        def changed(name, old, new):
            return lambda: self.put(name, self.text(name).replace(old, new))

        def moved():
            os.rename(os.path.join(self.top, "crates/alta_codec/specs/One.antt"), os.path.join(self.top, "crates/alta_codec/specs/Two.antt"))

        changes = {
            "a byte of a source": changed("crates/alta_codec/src/lib.rt", "one", "two"),
            "a byte of a definition": changed("crates/alta_codec/specs/One.antt", "pub", "pub "),
            "a byte of the list of crates": changed("crates.txt", "cli: ", "cli:  "),
            "the handles": changed("HANDLES", "none", "Net"),
            "a new file": lambda: self.put("crates/alta_codec/proofs/New.antt", ""),
            "a file that is gone": lambda: os.remove(os.path.join(self.top, "crates/alta_codec/specs/One.antt")),
            "a file of another name": moved,
        }
        aside = os.path.join(self.folder, "aside")
        for is_unpacked in (False, True):
            for what, change in changes.items():
                with self.subTest(what, is_unpacked=is_unpacked):
                    shutil.copytree(self.top, aside, symlinks=True)
                    if is_unpacked:
                        self.assertEqual(self.said(*self.asks), TAKEN + f"released {' '.join(self.asks)}\n")
                    change()
                    self.assertIn("the released program is of other sources than these", self.refused())
                    shutil.rmtree(self.top)
                    os.rename(aside, self.top)
        # The same bytes again, at another time.
        self.put("crates.txt", self.text("crates.txt"))
        self.assertEqual(self.said(*self.asks), TAKEN + f"released {' '.join(self.asks)}\n")
        self.put("crates.txt", self.text("crates.txt"))
        self.assertEqual(self.said(*self.asks), f"released {' '.join(self.asks)}\n")

    def test_a_damaged_release_never_runs(self):
        packed = gzip.compress(script("released").encode())
        other = gzip.compress(script("other").encode())
        rows = [packed[:-9], packed[:-1], packed[:40] + bytes([packed[40] ^ 1]) + packed[41:], other, b"", b"released", packed + b"x"]
        for row in rows:
            self.put("release/alta-x86_64.gz", row)
            self.assertIn("the released program is damaged: ", self.refused())
            self.assertEqual(os.listdir(os.path.join(self.top, "release", "out")), ["sources"])
        os.remove(os.path.join(self.top, "release", "alta-x86_64.gz"))
        self.assertIn("the released program is damaged: ", self.refused())
        for value in ("0" * 64, "", "../../crates"):
            self.release(script("released").encode(), program=value)
            self.assertRegex(self.refused(), "the released program is damaged: |there is no released program")
        os.remove(os.path.join(self.top, "release", "MANIFEST"))
        self.assertIn("there is no released program in this checkout", self.refused())

    def test_another_machine(self):
        self.put("../tools/uname.new", "#!/bin/sh\necho Linux aarch64\n", 0o755)
        os.rename(os.path.join(self.folder, "tools", "uname.new"), os.path.join(self.folder, "tools", "uname"))
        self.assertIn("the released program is for Linux on x86-64", self.refused())

    def test_a_machine_that_does_not_start_it(self):
        loader = "alta_cli: /lib/x86_64-linux-gnu/libc.so.6: version `GLIBC_2.34' not found (required by alta_cli)"
        for program in (f'#!/bin/sh\necho "{loader}" >&2\nexit 1\n', "#!/nowhere\n"):
            self.release(program.encode())
            self.assertIn("the released program needs glibc 2.34 and a processor of the level x86-64-v2, and does not start here", self.refused())
            self.assertEqual(os.listdir(os.path.join(self.top, "release", "out")), ["sources"])

    def test_where_nothing_can_be_unpacked(self):
        self.put("release/out", "")
        self.assertIn("nothing can be unpacked in ", self.refused())

    def test_a_newer_release(self):
        self.said(*self.asks)
        self.put("crates/alta_cli/src/main.rt", "fn main() { }\n")
        self.release(script("newer").encode())
        self.assertEqual(self.said(*self.asks), TAKEN + f"newer {' '.join(self.asks)}\n")
        self.assertEqual(sorted(os.listdir(os.path.join(self.top, "release", "out"))), sorted([self.digest, "sources"]))

    def test_many_at_once(self):
        started = [self.start() for _ in range(8)]
        self.assertEqual([self.ended(it, 0, "released").replace(TAKEN, "") for it in started], [""] * 8)

    def test_installing_from_a_release(self):
        prefix = os.path.join(self.folder, "prefix")
        self.said("--install", prefix)
        with open(os.path.join(prefix, "libexec", "buncocedar", "alta_cli"), "rb") as file:
            self.assertEqual(digest_of(file.read()), self.digest)

    def test_states(self):
        release = f"1.2.3 of these sources, sha256 {self.digest}, by {KIT}"
        unpacked = os.path.join(self.top, "release", "out", self.digest, "alta_cli")
        for _ in range(2):
            state = self.state()
            self.assertEqual((state["serves"], state["program"], state["sha256"], state["release"]), ("released", unpacked, self.digest, release))
        # A proof here comes before the release.
        self.give_rt()
        self.put("../here/made", script("released"))
        self.let_go()
        self.said("--prove")
        state = self.state()
        built = os.path.join(self.out, "alta_cli")
        self.assertEqual((state["serves"], state["program"], state["sha256"], state["release"]), ("proved here", built, self.digest, release))
        # What was proved here of other sources is older than the release.
        self.put("crates/alta_cli/src/main.rt", "fn main() { }\n")
        self.assertEqual((self.state()["serves"], self.state()["program"], self.state()["release"]), ("older", built, "the released program is of other sources than these"))
        self.take_rt()
        self.assertIn("./alta --no-build takes it", self.said(*self.asks, status=2))
        self.assertEqual(self.said("--no-build", *self.asks), f"released {' '.join(self.asks)}\n")
        self.release(script("newer").encode())
        self.assertEqual(self.state()["serves"], "released")
        self.assertEqual(self.said("--no-build", *self.asks), f"newer {' '.join(self.asks)}\n")
        os.remove(built)
        os.remove(os.path.join(self.top, "release", "MANIFEST"))
        self.assertEqual((self.state()["serves"], self.state()["release"]), ("none", "there is no released program in this checkout"))

    def test_proving_what_is_released(self):
        self.give_rt()
        self.let_go()
        self.put("../here/made", script("released"))
        said = self.said("--prove")
        self.assertIn("proving and building the program", said)
        self.assertIn("make: the release is what the proof of these sources has built here, byte for byte\n", said)
        # It is proved, and only compared from then on.
        self.assertEqual(self.said("--prove"), "make: the release is what the proof of these sources has built here, byte for byte\n")
        self.assertEqual(self.calls(), ["lib", "run"])
        self.assertEqual(self.said(*self.asks), f"released {' '.join(self.asks)}\n")

    def test_a_proof_that_builds_another_program(self):
        self.give_rt()
        self.let_go()
        said = self.said("--prove", status=1)
        self.assertIn("make: the proof of these sources has built another program here than the released one\n", said)
        # Of another kit's bytes nothing is said.
        self.release(script("released").encode(), kit="rattle-kit-other logic 0123456789abcdef")
        self.assertIn("its bytes can't be compared", self.said("--prove"))
        # Of a release of other sources neither.
        self.release(script("released").encode(), sources="0" * 64)
        self.assertIn("the release is of other sources than these", self.said("--prove"))
        self.assertIn("the release is of other sources than these", self.make("--check", status=1))
        self.release(script("released").encode(), program="0" * 64)
        self.assertIn("is not the one that release/MANIFEST names", self.said("--prove", status=1))
        os.remove(os.path.join(self.top, "release", "MANIFEST"))
        self.assertIn("there is no release to compare with", self.said("--prove"))

    def test_a_proof_that_is_refused(self):
        self.give_rt()
        self.let_go()
        self.put("../here/refused", "alta_codec")
        self.assertIn("the program could not be built", self.said("--prove", status=2))
        self.assertEqual(self.said(*self.asks), TAKEN + f"released {' '.join(self.asks)}\n")

    def test_the_release_serves_while_one_proves(self):
        self.give_rt()
        self.put("../here/made", script("released"))
        first = self.building(of=["--prove"])
        self.assertEqual(self.ended(self.start(), 0, "released"), TAKEN)
        second = self.start(of=["--prove"])
        self.assertIn(f"waiting for process {first.pid}, ", second.stderr.readline())
        self.let_go()
        for process in (first, second):
            self.ended(process, 0, "make:")
        self.assertEqual(self.calls(), ["lib", "run"])

    def test_proving_without_rt(self):
        self.assertIn("the command rt is missing", self.said("--prove", status=2))


class Making(WithRelease):
    """`release/make.py`, in a repository with a kit of its own."""

    def setUp(self):
        super().setUp()
        shutil.rmtree(os.path.join(self.top, "release", "out"), ignore_errors=True)
        self.put(".gitignore", "out/\n__pycache__/\n")
        self.put("crates.txt", "alta_codec: caseless\nalta_cli: alta_codec\n")
        self.put("../kit/bin/rt", RT, 0o755)
        self.put("../kit/rattle/caseless/LICENSE", "Copyright of caseless\n")
        self.put("../kit/rattle/caseless/README.md", "no licence\n")
        self.put("../kit/rattle/ucd_table/LICENSE-UNICODE", "Copyright of Unicode\n")
        self.put("../kit/rattle/std/README.md", "")
        for name, below in {"caseless": ("ucd_table", "std"), "ucd_table": ("std",), "std": ()}.items():
            os.makedirs(os.path.join(self.folder, "kit", "rlibs", f"{name}.rlib", "below"))
            for other in below:
                self.put(f"../kit/rlibs/{name}.rlib/below/{other}", "")
        self.environment["PATH"] = os.path.join(self.folder, "kit", "bin") + os.pathsep + os.environ["PATH"]
        self.let_go()
        self.commit()

    def prove(self):
        self.said("--no-build", "--prove", status=2)
        self.said("--prove")

    def written(self):
        names = ("MANIFEST", "NOTICES", "alta-x86_64.gz")
        found = []
        for name in names:
            with open(os.path.join(self.top, "release", name), "rb") as file:
                found.append(file.read())
        return found

    def test_a_release(self):
        self.assertIn("not proved here", self.make(status=1))
        self.prove()
        version = self.said("--version").split()[1]
        self.assertEqual(self.make(), f"make: released version {version}, {digest_of(script('new').encode())}\n")
        first = self.written()
        self.assertIn(f"\nversion {version}\n".encode(), first[0])
        self.assertEqual(first[1].decode().split("\n\n", 1)[1], "== caseless: LICENSE\n\nCopyright of caseless\n\n== ucd_table: LICENSE-UNICODE\n\nCopyright of Unicode\n")
        self.assertEqual(self.make("--check"), "make: the release is what the proof of these sources has built here, byte for byte\n")
        time.sleep(1.1)
        self.make()
        self.assertEqual(self.written(), first)
        # In another checkout it serves at once.
        shutil.rmtree(self.out)
        self.take_rt()
        self.assertEqual(self.said(*self.asks), TAKEN + f"new {' '.join(self.asks)}\n")

    def test_what_is_refused(self):
        self.prove()
        # No release of a program of which it is not known that it was proved, or of what.
        self.put("crates/alta_codec/new", "")
        self.assertIn("these sources are in no commit:\n?? crates/alta_codec/new", self.make(status=1))
        os.remove(os.path.join(self.top, "crates/alta_codec/new"))
        self.put("crates/alta_cli/src/main.rt", "fn main() { }\n")
        self.commit()
        self.assertIn("not proved here", self.make(status=1))
        self.put("../here/made", script("new").replace("logic=", "tried="))
        self.prove()
        self.assertIn("the program has not the mark of a proof by this kit", self.make(status=1))
        self.assertFalse(os.path.exists(os.path.join(self.top, "release", "NOTICES")))

    def test_each_release_has_a_version_of_its_own(self):
        self.prove()
        self.make()
        self.commit()
        self.put("../here/made", script("newer"))
        self.put("crates/alta_cli/src/main.rt", "fn main() { }\n")
        self.commit()
        self.said("--prove")
        self.assertIn("the release is of other sources than these", self.make("--check", status=1))
        self.assertIn("another program was released as version ", self.make(status=1))
        self.put("alta", self.text("alta").replace("\nversion=", "\nversion=9."), 0o755)
        self.make()
        self.assertIn("byte for byte", self.make("--check"))

    def test_the_gate(self):
        # It fails where the release is missing, damaged, of other sources or of other bytes, or has no licence of a crate.
        self.prove()
        self.make()
        packed = self.written()[2]
        self.put("release/alta-x86_64.gz", packed[:-1])
        self.assertIn("can't be unpacked", self.make("--check", status=1))
        self.put("release/alta-x86_64.gz", gzip.compress(b"other"))
        self.assertIn("is not the one that release/MANIFEST names", self.make("--check", status=1))
        self.put("release/alta-x86_64.gz", packed)
        self.put("release/NOTICES", "== other: LICENSE\n")
        self.assertIn("release/NOTICES has no licence of caseless", self.make("--check", status=1))
        os.remove(os.path.join(self.top, "release", "NOTICES"))
        self.assertIn("there is no release/NOTICES", self.make("--check", status=1))
        self.release(script("other").encode())
        self.assertIn("has built another program here", self.make("--check", status=1))
        os.remove(os.path.join(self.top, "release", "MANIFEST"))
        self.assertIn("there is no release/MANIFEST", self.make("--check", status=1))
        self.put("release/MANIFEST", "version 1\n")
        self.assertIn("release/MANIFEST has no kit, program, sources", self.make("--check", status=1))


def wasm_of(flags, names, before=b""):
    """A WebAssembly module of no code, with a memory of these flags and exports of these names and kinds."""

    def part(number, data):
        return bytes([number, len(data)]) + data

    given = b"".join(bytes([len(name)]) + name.encode() + bytes([kind, 0]) for name, kind in names)
    return b"\0asm\1\0\0\0" + before + part(5, bytes([1, flags, 1])) + part(7, bytes([len(names)]) + given)


class Library(WithRelease):
    """`release/embedded.py`, over released files of the tests' own."""

    NAMES = {"library": "libalta_embed-x86_64.so.gz", "module": "alta_embed.wasm.gz", "module32": "alta_embed32.wasm.gz"}
    EXPORTS = [("memory", 2), ("alta_embed_answer", 0), ("malloc", 0), ("free", 0)]

    def setUp(self):
        super().setUp()
        os.makedirs(os.path.join(self.top, "web"))
        for file in ("release/embedded.py", "web/heap.c", "web/wasm.py"):
            shutil.copy(os.path.join(TOP, file), os.path.join(self.top, file))
        self.environment["PATH"] = os.path.dirname(sys.executable) + os.pathsep + self.environment["PATH"]
        self.files = {"library": b"library", "module": wasm_of(4, self.EXPORTS), "module32": wasm_of(0, self.EXPORTS)}
        self.put_files()

    def put_files(self, **values):
        """Packs the files, and names their digests, but for these values."""
        for word, data in self.files.items():
            self.put(f"release/{self.NAMES[word]}", gzip.compress(data))
        made_by = "".join(self.text(f"web/{name}") for name in ("heap.c", "wasm.py"))
        digests = {word: digest_of(data) for word, data in self.files.items()}
        self.release(script("released").encode(), **{**digests, "steps": digest_of(made_by.encode()), **values})

    def asked(self, *words, status=0):
        return done(sys.executable, os.path.join(self.top, "release", "embedded.py"), *words, status=status, env=self.environment).rstrip("\n")

    def test_the_released_files(self):
        self.assertIn("are those that release/MANIFEST names, and of these sources", self.asked("--check"))
        for name, word in {"libalta_embed.so": "library", "alta_embed.wasm": "module", "alta_embed32.wasm": "module32"}.items():
            for _ in range(2):
                path = self.asked("--path", name)
                self.assertEqual(path, os.path.join(self.top, "release", "out", digest_of(self.files[word]), name))
                with open(path, "rb") as file:
                    self.assertEqual(file.read(), self.files[word])
                self.assertEqual(os.listdir(os.path.dirname(path)), [name])
        self.assertIn("no other.so is released", self.asked("--path", "other.so", status=1))

    def test_what_is_refused(self):
        def faults(text, *words):
            self.assertIn(text, self.asked(*words, status=1))

        self.put_files(library="0" * 64)
        faults("libalta_embed-x86_64.so.gz is not the libalta_embed.so that release/MANIFEST names", "--check")
        faults("is not the libalta_embed.so", "--path", "libalta_embed.so")
        self.put_files(sources="0" * 64)
        faults("of other sources than these", "--check")
        faults("of other sources than these", "--path", "alta_embed.wasm")
        faults("release/make.py makes one of these first")
        self.put_files()
        self.put("web/heap.c", self.text("web/heap.c") + "\n")
        faults("web/heap.c or web/wasm.py has changed since the modules were released", "--check")
        self.put_files()
        self.put("release/alta_embed.wasm.gz", b"none")
        faults("alta_embed.wasm.gz can't be unpacked", "--check")
        self.put_files()
        os.remove(os.path.join(self.top, "release", "alta_embed32.wasm.gz"))
        faults("alta_embed32.wasm.gz can't be unpacked", "--check")
        self.release(script("released").encode())
        faults("release/MANIFEST has no library", "--check")
        os.remove(os.path.join(self.top, "release", "MANIFEST"))
        faults("there is no release/MANIFEST", "--check")

    def test_modules_that_are_none(self):
        an_import = b"\2\x07\1\1a\1b\0\0"
        rows = {
            "exports memory, and not": wasm_of(4, self.EXPORTS[:1]),
            "has an import": wasm_of(4, self.EXPORTS, an_import),
            "has the flags 0": wasm_of(0, self.EXPORTS),
            "no WebAssembly module": b"none",
        }
        for said, data in rows.items():
            self.files["module"] = data
            self.put_files()
            self.assertIn(said, self.asked("--check", status=1))


def take_program(path):
    global PROGRAM
    PROGRAM = path


if __name__ == "__main__":
    run_tests("release", take_program)
