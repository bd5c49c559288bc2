#!/usr/bin/env python3
"""Refuses a file or a class of the client that is too large to be read at once: tests/texts/sizes.py

A file below client/ has at most MOST_LINES lines, and a class there at most MOST_METHODS methods of its own.
"""

import ast
import os
import sys

TOP = os.path.dirname(os.path.dirname(os.path.dirname(os.path.abspath(__file__))))
MOST_LINES = 600
MOST_METHODS = 25


def sources():
    """The Python files of the client."""
    for folder, _, names in os.walk(os.path.join(TOP, "client")):
        yield from (os.path.join(folder, name) for name in sorted(names) if name.endswith(".py"))


def classes_in(text):
    """Each class of a text, with how many methods it has."""
    for node in ast.walk(ast.parse(text)):
        if isinstance(node, ast.ClassDef):
            yield node.name, sum(isinstance(part, (ast.FunctionDef, ast.AsyncFunctionDef)) for part in node.body)


def faults_of(text):
    """What of a file is too large."""
    lines = text.count("\n")
    if lines > MOST_LINES:
        yield f"{lines} lines, where {MOST_LINES} may be"
    for name, methods in classes_in(text):
        if methods > MOST_METHODS:
            yield f"{name} has {methods} methods, where {MOST_METHODS} may be"


def test_itself():
    """What is too large is found, and what is just not is let through."""
    large = "class A:\n" + "".join(f"    def f{n}(self): pass\n" for n in range(MOST_METHODS + 1))
    if len(list(faults_of(large))) != 1 or list(faults_of(large.replace("    def f0(self): pass\n", ""))):
        raise SystemExit("sizes: the check itself fails: methods")
    if len(list(faults_of("\n" * (MOST_LINES + 1)))) != 1 or list(faults_of("\n" * MOST_LINES)):
        raise SystemExit("sizes: the check itself fails: lines")


def main():
    test_itself()
    files = faults = 0
    for path in sources():
        files += 1
        with open(path, encoding="utf-8") as file:
            for fault in faults_of(file.read()):
                faults += 1
                print(f"sizes: {os.path.relpath(path, TOP)}: {fault}")
    print(f"sizes: {files} files, {faults} faults")
    return 1 if faults else 0


if __name__ == "__main__":
    sys.exit(main())
