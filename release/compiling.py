"""The kit's own way of calling its compiler, with a clang in its place that also keeps what it is given."""

import importlib.util
import os
import subprocess
import sys

TARGET = "x86_64-unknown-linux-gnu"


class Fault(Exception):
    """Why something is not made."""


def loaded(path):
    """The kit's own module of its command: it knows the words by which `rt run` calls the compiler."""
    sys.dont_write_bytecode = True
    spec = importlib.util.spec_from_file_location("rtlib", path)
    module = importlib.util.module_from_spec(spec)
    sys.modules["rtlib"] = module
    spec.loader.exec_module(module)
    return module


def put_toolchain(folder, kit, script):
    """A toolchain as the kit's, whose clang is this script in Python; it finds in `clang` the path of the kit's, and `words` after it."""
    os.makedirs(f"{folder}/bin")
    os.symlink(f"{kit}/toolchain/lib", f"{folder}/lib")
    for name in os.listdir(f"{kit}/toolchain/bin"):
        if name != "clang":
            os.symlink(f"{kit}/toolchain/bin/{name}", f"{folder}/bin/{name}")
    head = f"#!{sys.executable}\nimport os, shutil, subprocess, sys\n\nclang, words = {kit + '/toolchain/bin/clang'!r}, sys.argv[1:]\n"
    with open(f"{folder}/bin/clang", "w", encoding="utf-8") as file:
        file.write(f"{head}{script}\nos.execv(clang, [clang, *words])\n")
    os.chmod(f"{folder}/bin/clang", 0o755)


def call(what, *words, **options):
    """Runs a command, which has to end with 0, and gives what it has said."""
    done = subprocess.run(words, stdin=subprocess.DEVNULL, stdout=subprocess.PIPE, stderr=subprocess.STDOUT, text=True, errors="replace", **options)
    if done.returncode:
        raise Fault(f"{what} ended with status {done.returncode}: {done.stdout[-2000:]}")
    return done.stdout


def read(path):
    with open(path, "rb") as file:
        return file.read()
