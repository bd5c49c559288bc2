#!/usr/bin/env python3
"""Refuses sentences that are too long, and words that point at something without naming it: tests/texts/prose.py

A sentence has at most 40 words. It ends with a full stop, a question mark or an exclamation mark, and with its paragraph, its item of a list, or
its cell of a table. What stands in backquotes counts as one word. Blocks of code are not read.

With --longest N it prints the N longest sentences of each document instead, each with its words.
"""

import argparse
import os
import re
from typing import NamedTuple

TOP = os.path.dirname(os.path.dirname(os.path.dirname(os.path.abspath(__file__))))
DOCUMENTS = [
    "README.md",
    "CONTRIBUTING.md",
    "CHANGELOG.md",
    "docs/alta.1",
    "docs/ARCHITECTURE.md",
    "docs/DECISIONS.md",
    "docs/FIGURES.md",
    "docs/FORMAT.md",
    "docs/GUARANTEES.md",
    "docs/GUIDE.md",
    "docs/PLAN.md",
    "docs/QUERIES.md",
    "docs/READING.md",
    "docs/SCALE.md",
    "tests/README.md",
]
MOST = 40  # words of a sentence
# What these point at has to be named.
POINTERS = ["of before", "such a", "such an", "such ones", "of such", "the former", "the latter", "and vice versa", "of these one", "as said"]
CODE = re.compile(r"`[^`]*`")
END = re.compile(r"[.?!][)\"*]*(?=\s|$)")
WORD = re.compile(r"\w")
ROW_OF_DASHES = re.compile(r"\|[\s:|-]+\|$")
ITEM = re.compile(r"^\s*(?:[-*]|\d+\.)\s+")
MACRO = re.compile(r"\.[A-Za-z]+ ?|\\f[A-Z]|\\&|\\")


class Sentence(NamedTuple):
    """A sentence, and the line of the document in which it begins."""

    line: int
    text: str

    def words(self):
        return sum(WORD.search(word) is not None for word in self.text.split())


def paragraphs(lines):
    """The paragraphs, items and cells of a text, each with its first line and without code."""
    first, held, is_code = 1, [], False
    for number, line in enumerate(lines, 1):
        line = line.rstrip("\n")
        if line.lstrip().startswith("```"):
            is_code = not is_code
            line = ""
        elif is_code:
            continue
        is_row = line.startswith("|")
        if held and (not line.strip() or line.startswith("#") or ITEM.match(line) or is_row):
            yield first, " ".join(held)
            held = []
        if is_row:
            yield from ((number, cell) for cell in line.strip("|").split(" | ") if not ROW_OF_DASHES.match(line))
        elif line.strip() and not line.startswith("#"):
            first = first if held else number
            held.append(ITEM.sub("", line) if not held else line)
    if held:
        yield first, " ".join(held)


def manual_paragraphs(lines):
    """The paragraphs of a manual page, which requests of the formatter part."""
    first, held = 1, []
    for number, line in enumerate(lines, 1):
        if re.match(r"\.(SH|TP|PP|TH|nf|fi|RS|RE|\\\")", line) or not line.strip():
            if held:
                yield first, " ".join(held)
            held = []
            continue
        first = first if held else number
        held.append(MACRO.sub("", line.rstrip("\n")))
    if held:
        yield first, " ".join(held)


def sentences(document, lines):
    """The sentences of a document."""
    for line, text in (manual_paragraphs if document.endswith(".1") else paragraphs)(lines):
        start, plain = 0, CODE.sub(lambda code: "x" * len(code[0]), text)
        for end in [*(match.end() for match in END.finditer(plain)), len(plain)]:
            if plain[start:end].strip():
                yield Sentence(line, CODE.sub(lambda code: "`" + code[0].strip("`").replace(" ", "_") + "`", text[start:end].strip()))
            start = end


def pointers_in(sentence):
    """The pointers of a sentence."""
    plain = CODE.sub("", sentence.text.lower())
    return [words for words in POINTERS if re.search(rf"\b{words}\b", plain)]


def faults(document, found):
    """What is wrong with the sentences of a document."""
    for sentence in found:
        if sentence.words() > MOST:
            yield f"{document}:{sentence.line}: a sentence of {sentence.words()} words: {sentence.text[:60]} .."
        for words in pointers_in(sentence):
            yield f'{document}:{sentence.line}: "{words}" does not name what it points at: {sentence.text[:60]} ..'


def read(document):
    """The sentences of a document, in order."""
    with open(os.path.join(TOP, document), encoding="utf-8") as file:
        return list(sentences(document, file))


def print_longest(document, found, many):
    """Prints the longest sentences of a document."""
    for sentence in sorted(found, key=Sentence.words, reverse=True)[:many]:
        print(f"{document}:{sentence.line}: {sentence.words()}: {sentence.text}")


def main():
    parser = argparse.ArgumentParser(description=__doc__, formatter_class=argparse.RawDescriptionHelpFormatter)
    parser.add_argument("--longest", type=int, default=0)
    options = parser.parse_args()
    texts = {document: read(document) for document in DOCUMENTS}
    if options.longest:
        for document, found in texts.items():
            print_longest(document, found, options.longest)
        return
    found = [fault for document, text in texts.items() for fault in faults(document, text)]
    print("\n".join([*found, f"prose: {len(texts)} documents, {sum(map(len, texts.values()))} sentences, {len(found)} faults"]))
    raise SystemExit(bool(found))


if __name__ == "__main__":
    main()
