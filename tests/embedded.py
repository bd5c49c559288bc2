#!/usr/bin/env python3
"""Compares the library for callers in memory with the program, from Python and from C.

usage: tests/embedded.py --program PATH [TEST ..]

BUNCOCEDAR_LIBRARY names another library than the released one, and BUNCOCEDAR_MODULE another module for pages. The C of `embed/` is compiled where there is a C compiler; elsewhere a
line says that it was not.
"""

import os
import random
import shutil
import subprocess
import sys
import tempfile
import threading
import unittest

from damage import QUERIES
from demo import lines_of
from model.answers import spelled
from support import TOP, run_tests

from buncocedar import BadLine, Damaged, NoIndex, QueryFault
from buncocedar.embedded import EmbeddedIndex, default_library, released

PROGRAM = None
DOCUMENTS = 2_000
HEAD = 2_105_344  # bytes before the first level
EMBED = os.path.join(TOP, "embed")
WORDS = ["red", "Fox", "quick", "brown", "dog", "item", "w3", "w42", "even", "odd", "7", "1996", "007"]


def text(lines):
    return "".join(line + "\n" for line in lines).encode()


def a_query(random_source):
    return spelled(random_source.choice(QUERIES)) if random_source.random() < 0.5 else " ".join(random_source.choices(WORDS, k=2))


def a_line(random_source):
    """A line of any kind, whole or one that is refused."""
    name = f"d{random_source.randint(1, DOCUMENTS)}"
    words = " ".join(random_source.choices(WORDS, k=random_source.randint(0, 6)))
    return random_source.choice(
        [
            f"add {name}\t{words}\t{words} {name}",
            f"delete {name}",
            f"search {a_query(random_source)}",
            f"top {random_source.randint(0, 20)} {a_query(random_source)}",
            f"count {a_query(random_source)}",
            f"explain {a_query(random_source)}",
            f"open {a_query(random_source)}",
            f"fetch {random_source.randint(1, 3)} {random_source.randint(0, 30)}",
            "close 1",
            "stats",
            "flush",
            "merge",
            f"step {random_source.randint(0, 60)}",
            "dump",
            "find nothing",
            "count (",
            "",
        ]
    )


class Embedded(unittest.TestCase):
    """One index of a generated run, which no test changes."""

    @classmethod
    def setUpClass(cls):
        cls.folder = tempfile.TemporaryDirectory()
        cls.path = os.path.join(cls.folder.name, "x.alta")
        subprocess.run([PROGRAM, cls.path, "demo", str(DOCUMENTS)], stdout=subprocess.DEVNULL, check=True)
        with open(cls.path, "rb") as file:
            cls.content = file.read()
        cls.index = EmbeddedIndex(cls.content)

    @classmethod
    def tearDownClass(cls):
        cls.folder.cleanup()

    def program(self, lines, content=None):
        """Status and replies of the program over a file with this content."""
        with tempfile.NamedTemporaryFile(suffix=".alta") as file:
            file.write(self.content if content is None else content)
            file.flush()
            done = subprocess.run([PROGRAM, file.name, "run"], input=lines, capture_output=True)
            return done.returncode, done.stdout

    def test_the_generated_run(self):
        empty = os.path.join(self.folder.name, "empty.alta")
        subprocess.run([PROGRAM, empty, "init"], check=True)
        lines = text([*lines_of(DOCUMENTS), *(f"count {spelled(query)}" for query in QUERIES), "search name:d1999", "stats"])
        with open(empty, "rb") as file:
            content = file.read()
        self.assertEqual(EmbeddedIndex(content).answer(lines), self.program(lines, content)[1])

    def test_random_scripts(self):
        random_source = random.Random(20)
        for _ in range(40):
            lines = text(a_line(random_source) for _ in range(250))
            # Without a last newline, now and then.
            lines = lines[: -random_source.randint(0, 1)] or lines
            status, replies = self.program(lines)
            self.assertEqual((status, self.index.answer(lines)), (0, replies))
        # What those lines changed is gone, and the bytes are as they were.
        self.assertEqual(self.index.content, self.content)
        self.assertEqual(self.index.stats().documents, DOCUMENTS - DOCUMENTS // 5)

    def test_queries(self):
        self.assertEqual(list(self.index.search("name:d1999")), [(1999, "d1999")])
        self.assertEqual(self.index.count("w42"), 20)
        self.assertEqual(self.index.top("w42", 2).found, 20)
        self.assertEqual(len(list(self.index.search("even"))), 800)
        self.assertEqual(len(list(self.index.dump())), 1600)
        self.assertEqual(self.index.explain("w42").split("\n")[0], '"w42"')
        self.assertRaises(QueryFault, self.index.count, "(")
        self.assertRaises(QueryFault, self.index.search, '"')
        self.assertRaises(BadLine, self.index.top, "w42", 0)
        self.assertRaises(TypeError, self.index.cursor, "w42")

    def test_a_file(self):
        self.assertEqual(EmbeddedIndex.of_file(self.path).count("w42"), 20)
        self.assertRaises(FileNotFoundError, EmbeddedIndex.of_file, self.path + ".none")

    def test_no_index(self):
        for content in (b"", bytes(4096), bytes(2_200_000)):
            self.assertRaises(NoIndex, EmbeddedIndex, content)
            self.assertEqual(self.program(b"stats\n", content)[0], 7)

    def test_damage(self):
        # An empty index whose journal begins with a record of no length, and files that are cut.
        empty = os.path.join(self.folder.name, "damaged.alta")
        subprocess.run([PROGRAM, empty, "init"], check=True)
        with open(empty, "rb") as file:
            made = file.read()
        record = made[:8192] + bytes([165, 255, 255, 255, 255]) + made[8197:]
        for content in (record, self.content[: len(self.content) // 2], self.content[: HEAD + 100], self.content[:-1]):
            with tempfile.NamedTemporaryFile(suffix=".alta") as file:
                file.write(content)
                file.flush()
                done = subprocess.run([PROGRAM, file.name, "run"], input=b"stats\n", capture_output=True, text=False)
            self.assertEqual(done.returncode, 6)
            with self.assertRaises(Damaged) as found:
                EmbeddedIndex(content)
            self.assertEqual(f"alta: damaged at {found.exception.place}\n".encode(), done.stderr)

    def test_want_of_memory(self):
        script = (
            "import resource, sys; from buncocedar.embedded import EmbeddedIndex; from buncocedar import OutOfMemory\n"
            "index = EmbeddedIndex.of_file(sys.argv[1])\n"
            "held = int(open('/proc/self/statm').read().split()[0]) * resource.getpagesize()\n"
            "resource.setrlimit(resource.RLIMIT_AS, (held + (1 << 20), held + (1 << 20)))\n"
            "try: index.answer(b'add a\\t\\t' + b'x ' * 100_000 + b'\\n' + b'dump\\n' * 400)\n"
            "except (OutOfMemory, MemoryError): print('none')\n"
        )
        words = [sys.executable, "-c", script, self.path]
        done = subprocess.run(words, env=dict(os.environ, PYTHONPATH=os.path.join(TOP, "client")), capture_output=True, text=True)
        self.assertEqual((done.stdout, done.stderr), ("none\n", ""))

    def test_threads(self):
        wanted, found = self.index.answer(b"count even\nstats\n"), []

        def ask():
            for _ in range(20):
                found.append(self.index.answer(b"count even\nstats\n"))

        threads = [threading.Thread(target=ask) for _ in range(8)]
        for thread in threads:
            thread.start()
        for thread in threads:
            thread.join()
        self.assertEqual(found, [wanted] * 160)

    def test_from_c(self):
        compiler = shutil.which("cc")
        if compiler is None:
            print("embedded: cc is missing (Debian: apt-get install gcc), so the C of embed/ was not compiled", file=sys.stderr)
            return
        library, made = default_library(), os.path.join(self.folder.name, "answer")
        words = [compiler, "-std=c11", "-Wall", "-Wextra", "-Werror", "-pedantic", f"{EMBED}/answer.c", library, f"-Wl,-rpath,{os.path.dirname(library)}"]
        subprocess.run([*words, "-o", made], check=True)
        for line in ("count w42\n", "search even\nstats\ndump", "add d1\tx\ty\nsearch x", "count (", ""):
            done = subprocess.run([made, self.path, line], capture_output=True)
            self.assertEqual((done.returncode, done.stdout), (0, self.program(line.encode())[1]))
        other = os.path.join(self.folder.name, "other")
        with open(other, "wb") as file:
            file.write(self.content[:-1])
        done = subprocess.run([made, other, "stats"], capture_output=True, text=True)
        self.assertEqual((done.returncode, done.stdout, done.stderr[:12]), (2, "", "answer: -6, "))


    def test_a_module_without_memory(self):
        node = shutil.which("node")
        if node is None:
            print("embedded: node is missing (Debian: apt-get install nodejs), so the module for pages was not run without memory", file=sys.stderr)
            return
        module = os.environ.get("BUNCOCEDAR_MODULE") or released("alta_embed32.wasm")
        done = subprocess.run([node, "--input-type=module", "-e", WITHOUT_MEMORY, module, self.path], capture_output=True, text=True)
        self.assertEqual((done.stdout, done.stderr), ("-5\n9 found 20\n", ""))


# Takes the memory of a module, and then asks it; gives the memory back, and asks it again.
WITHOUT_MEMORY = """
import fs from "fs"
const [path, index] = process.argv.slice(1)
const {instance} = await WebAssembly.instantiate(fs.readFileSync(path), {})
const {memory, malloc, free, alta_embed_answer} = instance.exports
const put = bytes => {
  const block = malloc(BigInt(bytes.length))
  new Uint8Array(memory.buffer).set(bytes, Number(block))
  return [block, BigInt(bytes.length)]
}
const words = [...put(fs.readFileSync(index)), ...put(Buffer.from("count w42\\n")), ...put(new Uint8Array(100)), malloc(8n)]
const taken = []
for (let size = 1n << 30n; size >= 1n << 12n; size /= 2n) {
  for (let block = malloc(size); block; block = malloc(size)) taken.push(block)
}
console.log(`${alta_embed_answer(...words)}`)
for (const block of taken) free(block)
const many = alta_embed_answer(...words)
console.log(`${many} ${Buffer.from(memory.buffer, Number(words[4]), Number(many))}`.trim())
"""


def take_program(path):
    global PROGRAM
    PROGRAM = path


if __name__ == "__main__":
    run_tests("embedded", take_program)
