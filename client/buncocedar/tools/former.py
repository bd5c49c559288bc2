"""The names that the commands had before `bunco`: each says so, and runs the command. They go with the next version."""

from __future__ import annotations

import sys

from .main import main


def _run(name: str) -> int:
    print(f"bunco-{name}: this name goes with the next version; use bunco {name}", file=sys.stderr)
    return main([name, *sys.argv[1:]])


def mail() -> int:
    return _run("mail")


def folder() -> int:
    return _run("folder")


def packages() -> int:
    return _run("packages")


def find() -> int:
    return _run("find")


def shell() -> int:
    return _run("shell")


def check() -> int:
    return _run("check")


def compact() -> int:
    return _run("compact")


def server() -> int:
    print("bunco-server: this name goes with the next version; use bunco serve", file=sys.stderr)
    return main(["serve", *sys.argv[1:]])
