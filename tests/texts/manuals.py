#!/usr/bin/env python3
"""Refuses manual pages that are not those of the commands' option lists: tests/texts/manuals.py [--write]

The pages stand in docs/man, one for `bunco` and one for each of its commands. With --write they are written anew.
"""

import os
import sys

TOP = os.path.dirname(os.path.dirname(os.path.dirname(os.path.abspath(__file__))))
FOLDER = os.path.join(TOP, "docs", "man")
sys.path.insert(0, os.path.join(TOP, "client"))

from buncocedar.tools.main import COMMANDS  # noqa: E402
from buncocedar.tools.manual import page_of, page_of_all, roff_of  # noqa: E402


def pages():
    """The content of each page, by the name of its file."""
    # Some versions of Python wrap a usage line by the width of the terminal.
    os.environ["COLUMNS"] = "80"
    found = [page_of_all(), *map(page_of, COMMANDS)]
    return {f"{page.name}.1": roff_of(page) for page in found}


def content(name):
    try:
        with open(os.path.join(FOLDER, name), encoding="utf-8") as file:
            return file.read()
    except FileNotFoundError:
        return None


def main():
    wanted = pages()
    if sys.argv[1:] == ["--write"]:
        os.makedirs(FOLDER, exist_ok=True)
        for name, page in wanted.items():
            with open(os.path.join(FOLDER, name), "w", encoding="utf-8") as file:
                file.write(page)
    others = set(os.listdir(FOLDER)) - set(wanted) if os.path.isdir(FOLDER) else set()
    faults = [*(name for name, page in wanted.items() if content(name) != page), *sorted(others)]
    for name in faults:
        print(f"manuals: docs/man/{name} is not the page of the command: tests/texts/manuals.py --write makes it")
    print(f"manuals: {len(wanted)} pages, {len(faults)} faults")
    return 1 if faults else 0


if __name__ == "__main__":
    sys.exit(main())
