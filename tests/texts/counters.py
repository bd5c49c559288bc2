#!/usr/bin/env python3
"""Refuses a counter of steps that a search makes for itself: tests/texts/counters.py

The bounds on a search are said of the one counter of steps that its caller lends. No contract forbids a body to make another, and
to move readers by that; but whoever makes one has to name `Blank`, of which a counter is made. No crate from the readers up to the search, the counts, the ranking, the
leading word, the loading of lists, the marks of places and the dump, and none below these, may name it outside its tests, but for the counter's own module.
alta_replies lies above them: it makes the counter of each line and lends it.
"""

import os
import re
import sys

from chain import crates_of

TOPS = ["alta_counts", "alta_top", "alta_cursors", "alta_search", "alta_rank", "alta_lead", "alta_loading", "alta_gather", "alta_dump"]
COUNTER = "alta_codec/src/steps.rt"
BLANK = re.compile(r"\bBlank\b")
NO_CODE = re.compile(r"""'(?:\\.|[^'\\\n])'|"(?:\\.|[^"\\])*"|//[^\n]*|/\*.*?\*/""", re.DOTALL)
TEST_FILE = re.compile(r"#\[cfg\(test\)\]\s*mod\s+(\w+)\s*;")
TEST_BLOCK = re.compile(r"#\[cfg\(test\)\]\s*mod\s+\w+\s*{")


def crates_below(needs, tops):
    """These crates and all that they stand on."""
    found, left = set(), list(tops)
    while left:
        name = left.pop()
        if name not in found:
            found.add(name)
            left += needs[name]
    return sorted(found)


def code_of(text):
    """A text without comments and strings, its lines kept."""
    return NO_CODE.sub(lambda part: "\n" * part.group().count("\n"), text)


def block_end(code, at):
    """Where the block ends whose first brace is before this place."""
    depth = 1
    while depth and at < len(code):
        depth += {"{": 1, "}": -1}.get(code[at], 0)
        at += 1
    return at


def without_tests(code):
    """A code without the test modules that stand in it, its lines kept."""
    while block := TEST_BLOCK.search(code):
        end = block_end(code, block.end())
        code = code[: block.start()] + "\n" * code[block.start() : end].count("\n") + code[end:]
    return code


def test_modules(path, code):
    """The paths, without their ends, of the test modules that this file declares."""
    folder, name = os.path.split(path)
    stem = os.path.splitext(name)[0]
    inside = folder if stem in ("lib", "main", "mod") else os.path.join(folder, stem)
    return [os.path.join(inside, module) for module in TEST_FILE.findall(code)]


def faults_in(files):
    """Where these files, paths with their texts, name a `Blank` outside of tests."""
    codes = {path: code_of(text) for path, text in files.items()}
    tests = {module for path, code in codes.items() for module in test_modules(path, code)}
    found = []
    for path, code in sorted(codes.items()):
        parts = os.path.splitext(path)[0].split(os.sep)
        if path == COUNTER or any(os.sep.join(parts[:n]) in tests for n in range(1, len(parts) + 1)):
            continue
        lines = without_tests(code).split("\n")
        found += [f"{path}:{number}" for number, line in enumerate(lines, 1) if BLANK.search(line)]
    return found


def files_of(folder, crates):
    """The sources of these crates, by their paths below the folder."""
    files = {}
    for crate in crates:
        for place, _, names in os.walk(os.path.join(folder, crate, "src")):
            for name in names:
                path = os.path.join(place, name)
                with open(path, encoding="utf-8") as file:
                    files[os.path.relpath(path, folder)] = file.read()
    return files


def test_itself():
    """A text for each way to name it, and for each that is none."""
    wrong = {
        "a/src/lib.rt": "mod walk;\n#[cfg(test)]\nmod tests;\n",
        "a/src/tests.rt": "mod more;\nuse std::sync::ledger::Blank;\n",
        "a/src/tests/more.rt": "fn f() { Blank::new(1) }\n",
        "a/src/walk.rt": "// A Blank.\nlet s = \"Blank // \";\nlet Blanks = '\"';\nlet n = Steps::new(Blank::new(1));\n",
        "a/src/ends.rt": "#[cfg(test)]\nmod tests {\n    fn f() { Blank::new(1) }\n}\nuse std::sync::ledger::{Blank as B};\n",
        "a/src/ends/tests.rt": "Blank",
        COUNTER: "pub fn new(blank: Blank) -> Steps<L>\n",
    }
    want = ["a/src/ends.rt:5", "a/src/ends/tests.rt:1", "a/src/walk.rt:4"]
    if faults_in(wrong) != want:
        raise SystemExit(f"counters: the check itself fails: {faults_in(wrong)}")
    needs = {"top": ["middle"], "middle": ["low"], "low": [], "beside": ["low"]}
    if crates_below(needs, ["top"]) != ["low", "middle", "top"]:
        raise SystemExit("counters: the check itself fails: crates")


def main():
    test_itself()
    top = os.path.dirname(os.path.dirname(os.path.dirname(os.path.abspath(__file__))))
    with open(os.path.join(top, "crates.txt"), encoding="utf-8") as file:
        crates = crates_below(crates_of(file.read()), TOPS)
    files = files_of(os.path.join(top, "crates"), crates)
    if not BLANK.search(code_of(files.get(COUNTER, ""))):
        print(f"counters: {COUNTER} does not name Blank, so nothing would be found")
        return 1
    faults = faults_in(files)
    for fault in faults:
        print(f"counters: {fault}: a counter of its own")
    print(f"counters: {len(files)} files of {len(crates)} crates, {len(faults)} faults")
    return 1 if faults else 0


if __name__ == "__main__":
    sys.exit(main())
