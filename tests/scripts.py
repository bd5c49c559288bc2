#!/usr/bin/env python3
r"""Plays scripts, and compares what the program gives: tests/scripts.py [--program PATH]

Each file of tests/scripts/ is a script: runs of the program as text, with what each has to give. A block of lines up to an empty one
is one run. All lines of it are replies, in their order, but those that begin with a mark:

    #   and a name: the file is a new one with an index without documents, or with `##` there is none
    @   the words of the command line, with a bar between them, in place of `run`
    ~   a place and bytes: this run is on a copy of the file, with these bytes there; where there are none the copy has so many bytes
        as the place says
    %   the output is full
    >   a line of the input
    $   the last line of the input, without a newline
    =   what is said behind `alta: ` at the end, in place of nothing at status 0

In a line and in a reply `{3 x}` stands for `xxx`, `\t` and `\r` for a tab and a return, and `\s` for a blank at the end of a line.
"""

import argparse
import os
import re
import shutil
import socket
import subprocess
import tempfile

SCRIPTS = os.path.join(os.path.dirname(os.path.abspath(__file__)), "scripts")
STATUSES = {"usage": 1, "output fault": 4, "damaged at": 6, "no index": 7, "index exists": 10}
# Scripts that are played again with an input that comes in pieces of these sizes, over and over.
IN_PIECES = {"lines": ([1], [1, 1, 9, 2, 1], [99, 3, 1, 1, 7]), "long": ([30_000],)}


def spelled(text):
    text = text.replace(r"\t", "\t").replace(r"\r", "\r").replace(r"\s", " ")
    return re.sub(r"{(\d+) (.*?)}", lambda match: match[2] * int(match[1]), text)


class Run:
    """One run that a block asks for."""

    def __init__(self, block):
        self.begins = self.ends = ""
        self.words, self.changes = ["run"], []
        self.input = self.replies = ""
        self.is_full = False
        for line in spelled(block).split("\n"):
            mark, _, text = line.partition(" ")
            if mark in ("#", "##"):
                self.begins = mark
            elif mark == "@":
                self.words = text.split("|") if text else []
            elif mark == "~":
                self.changes.append(text)
            elif mark == "%":
                self.is_full = True
            elif mark in (">", "$"):
                self.input += text + ("\n" if mark == ">" else "")
            elif mark == "=":
                self.ends = text
            else:
                self.replies += line + "\n"

    def status(self):
        return next((status for words, status in STATUSES.items() if self.ends.startswith(words)), 0)


def change(path, text):
    """Puts bytes at a place of a file, or has it so many bytes long."""
    place, *digits = text.split(" ")
    if not digits:
        return os.truncate(path, int(place))
    with open(path, "r+b") as file:
        file.seek(int(place))
        file.write(bytes.fromhex("".join(digits)))


class Player:
    """The program over a file of a folder."""

    def __init__(self, program, folder):
        self.program, self.path, self.copy = program, os.path.join(folder, "index"), os.path.join(folder, "copy")

    def begin(self, mark):
        """Makes the file anew, as a mark asks for."""
        if os.path.exists(self.path):
            os.remove(self.path)
        if mark == "#":
            subprocess.run([self.program, self.path, "init"], check=True)

    def changed(self, changes):
        """The path of a copy with changed bytes."""
        open(self.copy, "wb").close()
        if os.path.exists(self.path):
            shutil.copyfile(self.path, self.copy)
        for text in changes:
            change(self.copy, text)
        return self.copy

    def told(self, run, pieces):
        """The status of a run, the replies, and the first line on standard error."""
        path = self.changed(run.changes) if run.changes else self.path
        ours, input_ = socket.socketpair(socket.AF_UNIX, socket.SOCK_SEQPACKET)
        with tempfile.TemporaryFile() as given, open("/dev/full", "wb") as full:
            ran = subprocess.Popen([self.program, path, *run.words], stdin=input_, stdout=full if run.is_full else given, stderr=subprocess.PIPE)
            input_.close()
            send(ours, run.input.encode(), pieces)
            said = ran.communicate()[1].decode().split("\n")[0]
            given.seek(0)
            return ran.returncode, given.read().decode(), said

    def play(self, script, pieces):
        with open(os.path.join(SCRIPTS, script + ".txt"), encoding="utf-8") as file:
            blocks = file.read().removesuffix("\n").split("\n\n")
        for block in blocks:
            run = Run(block)
            if run.begins:
                self.begin(run.begins)
            want = run.status(), run.replies, f"alta: {run.ends}" if run.ends else ""
            found = self.told(run, pieces)
            if found != want:
                raise SystemExit(f"scripts: {found!r:.300} in place of {want!r:.300}: {script}: {block:.300}")
        return len(blocks)


def send(ours, data, pieces):
    """Sends an input, of which each read takes one piece; a program that ends before takes no more."""
    at = number = 0
    try:
        while at < len(data):
            size = pieces[number % len(pieces)]
            ours.send(data[at : at + size])
            at, number = at + size, number + 1
    except (BrokenPipeError, ConnectionResetError):
        pass
    ours.close()


def main():
    parser = argparse.ArgumentParser()
    parser.add_argument("--program", default="./alta")
    program = os.path.abspath(parser.parse_args().program)
    # Each record costs two syncs, and of a folder in memory these are cheap.
    place = "/dev/shm" if os.access("/dev/shm", os.W_OK) else None
    runs = 0
    with tempfile.TemporaryDirectory(dir=place) as folder:
        player = Player(program, folder)
        for name in sorted(os.listdir(SCRIPTS)):
            script = name.removesuffix(".txt")
            for pieces in ([60_000], *IN_PIECES.get(script, ())):
                runs += player.play(script, pieces)
    print(f"scripts: {runs} runs")


if __name__ == "__main__":
    main()
