#!/usr/bin/env python3
"""Kills the program at random moments while it changes an index, and checks that nothing it answered is lost.

usage: tests/kill.py [--program PATH] [--rounds N] [--seconds S] [--seed N]

Each round starts the program on the same file, feeds it lines that add, delete, flush, merge and step, and ends it with SIGKILL some
moments after one of the replies, which is mostly the one before a line that works on levels. Each reply has to be the line's. The
file then has to keep the rules of docs/FORMAT.md, the lists of its levels among them, and a new start has to answer searches and
stats as `answers.py` does behind the lines that were answered, or behind these and the next one. Ends with status 0 where nothing
was lost.
"""

import argparse
import os
import random
import select
import subprocess
import sys
import tempfile
import threading
import time
from typing import NamedTuple

from model.answers import Machine, spelled
from model.reading import NoIndex, opened
from model.segments import Broken

WORDS = ["red", "fox", "quick", "brown", "dog", "lazy", "over", "jumps"]
FOX = ("word", "fox")
ASKED = [("not", ("word", "zebra")), ("not", FOX), ("phrase", ["red", "fox"]), ("title", FOX)]
ASKING = ["stats"] + [f"search {spelled(query)}" for query in ASKED]
WORKS = ["flush", "merge", "step 10", "step 300", "step 1000000"]
MOST = 500  # documents that a file gets
LONGEST = 0.3  # seconds that a round may take


class Style(NamedTuple):
    """How the lines of a round are made: how many, which part of them works on levels, and which part of the others deletes."""

    lines: int
    works: float
    deletes: float


STYLES = [
    Style(lines=150, works=0.01, deletes=0.1),
    Style(lines=80, works=0.1, deletes=0.2),
    Style(lines=40, works=0.5, deletes=0.3),
]


# ---- the runs


def start(program, path):
    return subprocess.Popen(
        [program, path, "run"], stdin=subprocess.PIPE, stdout=subprocess.PIPE, stderr=subprocess.PIPE
    )


def feed(process, lines):
    try:
        process.stdin.write("".join(line + "\n" for line in lines).encode())
        process.stdin.close()
    except (BrokenPipeError, ValueError):
        pass


def given_by(process, replies, latest):
    """What a process gives up to so many lines, or up to a moment."""
    given = b""
    while given.count(b"\n") < replies:
        ready, _, _ = select.select([process.stdout], [], [], max(0, latest - time.monotonic()))
        piece = os.read(process.stdout.fileno(), 65536) if ready else b""
        if not piece:
            break
        given += piece
    return given


def killed_run(program, path, lines, replies, wait):
    """What a run gives that is killed so many seconds after so many lines were given, or where these take too long."""
    process = start(program, path)
    writer = threading.Thread(target=feed, args=(process, lines))
    writer.start()
    given = given_by(process, replies, time.monotonic() + LONGEST)
    time.sleep(wait)
    process.kill()
    process.wait()
    given += given_by(process, len(lines) + 1, time.monotonic() + LONGEST)
    writer.join()
    process.stderr.close()
    process.stdout.close()
    return given.decode()


def whole_run(program, path, lines):
    """What a run gives to its end."""
    process = start(program, path)
    out, err = process.communicate("".join(line + "\n" for line in lines).encode())
    if process.returncode != 0:
        raise SystemExit(f"kill: the program ended with status {process.returncode}: {err.decode().strip()}")
    return out.decode()


# ---- the lines


def text(chance, most):
    return " ".join(chance.choice(WORDS) for _ in range(chance.randrange(most)))


def script(chance, style, live):
    """Lines that are all answered, where these names are live, each by one line."""
    live, lines = list(live), []
    for number in range(style.lines):
        kind = chance.random()
        if kind < style.works:
            lines.append(chance.choice(WORKS))
        elif live and kind < style.works + style.deletes:
            lines.append(f"delete {live.pop(chance.randrange(len(live)))}")
        else:
            name = f"{chance.randrange(1 << 40):x}.{number}"
            if live and chance.random() < 0.3:
                name = live.pop(chance.randrange(len(live)))
            live.append(name)
            lines.append(f"add {name}\t{text(chance, 4)}\t{text(chance, 25)}")
    return lines


# ---- the checks


class Check:
    """A file, what the lines that were answered over it say, and what was tried."""

    def __init__(self, program, folder):
        self.program = program
        self.folder = folder
        self.files = self.killed = self.answered = self.done_unanswered = 0
        self.before = {"add": 0, "delete": 0, "flush": 0, "merge": 0, "step": 0}
        self.new_file()

    def new_file(self):
        self.files += 1
        self.path = os.path.join(self.folder, f"{self.files}.alta")
        subprocess.run([self.program, self.path, "init"], check=True)
        self.machine = Machine(ASKED)

    def follow(self, lines, given):
        """Goes on over the lines that were answered, and answers how many these are. Each reply has to be the line's."""
        for done, line in enumerate(lines):
            reply, _, rest = given.partition("\n")
            if "\n" not in given:
                return done
            wanted = self.machine.reply(line)
            if reply + "\n" != wanted:
                raise SystemExit(f"kill: the reply to {line!r} was {reply!r}, not {wanted!r}")
            given = rest
        if given:
            raise SystemExit(f"kill: more was given than asked: {given!r}")
        return len(lines)

    def said(self):
        return "".join(map(self.machine.reply, ASKING))

    def is_whole(self):
        """The file has to be an index each of whose lists can be read."""
        with open(self.path, "rb") as file:
            content = file.read()
        try:
            for level in opened(content).levels:
                for term in level.terms:
                    level.load(term)
        except NoIndex:
            raise SystemExit("kill: there is no index any more") from None
        except Broken as broken:
            raise SystemExit(f"kill: the file is damaged at {broken.place}") from None

    def nothing_lost(self, following):
        """What a new start says has to be that of the lines that were answered, or that of one line more, if there is one."""
        self.is_whole()
        given = whole_run(self.program, self.path, ASKING)
        if given == self.said():
            return
        if following is not None:
            self.machine.reply(following)
            if given == self.said():
                self.done_unanswered += 1
                return
        raise SystemExit(f"kill: behind {self.answered} lines that were answered and {following!r} a new start says {given!r}")

    def round(self, chance, style):
        lines = script(chance, style, self.machine.names)
        works = [place for place, line in enumerate(lines) if line in WORKS]
        replies = chance.choice(works) if works and chance.random() < 0.8 else chance.randrange(len(lines))
        done = self.follow(lines, killed_run(self.program, self.path, lines, replies, chance.uniform(0, 0.004)))
        self.answered += done
        following = lines[done] if done < len(lines) else None
        if following:
            self.killed += 1
            self.before[following.partition(" ")[0]] += 1
        self.nothing_lost(following)


def main():
    parser = argparse.ArgumentParser(description=__doc__, formatter_class=argparse.RawDescriptionHelpFormatter)
    top = os.path.dirname(os.path.dirname(os.path.abspath(__file__)))
    parser.add_argument("--program", default=os.path.join(top, "alta"))
    parser.add_argument("--rounds", type=int, default=100)
    parser.add_argument("--seconds", type=float, default=25.0)
    parser.add_argument("--seed", type=int, default=None)
    options = parser.parse_args()
    seed = options.seed if options.seed is not None else random.randrange(1 << 32)
    chance = random.Random(seed)
    begun = time.monotonic()
    rounds = 0
    with tempfile.TemporaryDirectory() as folder:
        check = Check(options.program, folder)
        # Where the machine is slow, the time is not the end before a run was killed.
        while rounds < options.rounds and (time.monotonic() - begun < options.seconds or not check.killed):
            check.round(chance, STYLES[rounds % len(STYLES)])
            rounds += 1
            if check.machine.next_number > MOST:
                check.new_file()
    if not check.killed:
        raise SystemExit("kill: no run was killed before its end, so nothing was tried")
    before = ", ".join(f"{count} before {'an' if word == 'add' else 'a'} {word}" for word, count in check.before.items())
    print(
        f"kill: {rounds} rounds, {check.killed} killed, {before} was answered; {check.answered} lines answered, nothing lost; "
        f"{check.done_unanswered} lines were not answered and done (seed {seed})"
    )
    if rounds < options.rounds:
        print(f"kill: only {rounds} of {options.rounds} rounds in {options.seconds} seconds", file=sys.stderr)


if __name__ == "__main__":
    main()
