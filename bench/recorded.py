"""Figures that a bench records as JSON, for bench/plot.py: see there for the form."""

import json
import os
import platform
import shlex
import sqlite3
import sys

PLACES = ("--program", "--folder", "--lines", "--log", "--pid", "--to", "--record", "--before")  # options whose value is a place of this machine


def machine():
    """The machine and its load, in one line."""
    load = " ".join(f"{number:.1f}" for number in os.getloadavg())
    return f"{platform.system()} {platform.release()}, {os.cpu_count()} processors, load {load}; SQLite {sqlite3.sqlite_version}"


def command():
    """The command line of this bench, without the options that name places of this machine alone."""
    words, left = [os.path.join("bench", os.path.basename(sys.argv[0]))], iter(sys.argv[1:])
    for word in left:
        if word in PLACES:
            next(left, None)
        else:
            words.append(word)
    return shlex.join(words)


def record(path, title, panels):
    """Writes a file of figures."""
    figures = {"title": title, "command": command(), "machine": machine(), "panels": panels}
    with open(path, "w", encoding="utf-8") as file:
        json.dump(figures, file, indent=1)
        file.write("\n")
