#!/usr/bin/env python3
"""Tests of shards on workers of dask.distributed: workers, machines and programs that are killed, one that hangs, a scheduler that is lost,
and the commands that take its address.

usage: tests/shards_dask.py [--program PATH] [--rounds N] [--seed N] [--shards S] [--machines M]

In each round a worker, a worker with all its programs, or one program is ended by SIGKILL at a random moment while documents are
added, replaced, deleted and asked for. Each name may have the states that its answered changes leave, and those that got no answer.
An answer that is given as a whole one has to fit all shards, one that lacks shards the others; and when all is up again, the dump
has to have of each name one of its states. Ends with status 0 where nothing was lost; without dask.distributed nothing is tested, and
that is said.
"""

import argparse
import logging
import os
import random
import re
import signal
import subprocess
import sys
import tempfile
import threading
import time

import fake
from support import BUNCO, PATIENCE

from buncocedar import Added, NoSuchDocument
from buncocedar.shards import Missing, NotAnswered, shard_of

EVERY = "NOT name:! OR name:!"
GONE = ""
ASKED = ((EVERY, ""), ("grey", "grey"), ("red fox", "red fox"))  # a query, and what a text has that it finds


class Client:
    """What is changed and asked, and held against what may be."""

    def __init__(self, index, chance):
        self.index = index
        self.chance = chance
        self.states = {}  # of each name the texts that it may have, GONE where it may be none
        self.number = 0
        self.answered = self.unanswered = self.whole = self.partial = 0

    def documents(self, count):
        for _ in range(count):
            self.number += 1
            is_known = self.states and self.chance.random() < 0.3
            name = self.chance.choice(list(self.states)) if is_known else f"n{self.number}"
            yield name, "", f"v{self.number} red fox {'blue' if self.number % 3 else 'grey'}"

    def add(self, count):
        documents = list(self.documents(count))
        for (asked, _, body), (name, outcome) in zip(documents, self.index.add_all(documents)):
            assert asked == name
            if isinstance(outcome, Added):
                self.note(name, {body})
            else:
                assert isinstance(outcome, NotAnswered), outcome
                self.note(name, self.states.get(name, {GONE}) | {body}, False)

    def delete(self, count):
        for name in self.chance.sample(list(self.states), min(count, len(self.states))):
            try:
                self.index.delete(name)
                assert self.states[name] != {GONE}, name
                self.note(name, {GONE})
            except NoSuchDocument:
                assert GONE in self.states[name], name
                self.note(name, {GONE})
            except NotAnswered:
                self.note(name, self.states[name] | {GONE}, False)

    def note(self, name, states, is_answered=True):
        self.states[name] = states
        self.answered += is_answered
        self.unanswered += not is_answered

    def change(self, count):
        self.add(count)
        self.delete(10)

    def ask(self):
        for query, words in ASKED:
            for ask in (self.index.count, lambda query: self.index.top(query, 5).found, lambda query: len(self.rows(query, words))):
                missing = {}
                try:
                    found = ask(query)
                    self.whole += 1
                except Missing as error:
                    missing, found = error.shards, error.answer
                    self.partial += 1
                if found is not None:
                    self.expect(query, words, getattr(found, "found", found), missing)

    def rows(self, query, words):
        """The rows of a search; what is missing is raised behind what the others have."""
        names = []
        missing = {}
        try:
            names.extend(name for _, name in self.index.search(query))
        except Missing as error:
            missing = error.shards
        assert len(names) == len(set(names)), query
        assert all(any(text and words in text for text in self.states[name]) for name in names), query
        of_others = [name for name in names if shard_of(name, self.index.shards) not in missing]
        self.expect(query, words, len(of_others), missing)
        if missing:
            raise Missing(missing)
        return names

    def expect(self, query, words, found, missing):
        """Whether so many may be found in the shards that are not missing."""
        sure = maybe = 0
        for name, texts in self.states.items():
            if shard_of(name, self.index.shards) not in missing:
                matches = [bool(text) and words in text for text in texts]
                sure += all(matches)
                maybe += any(matches)
        assert sure <= found <= maybe, (query, sure, found, maybe, missing)

    def settle(self):
        """Waits until no shard is missing, and answers how long that took."""
        begun = time.monotonic()
        while True:
            try:
                self.index.count("fox")
                return time.monotonic() - begun
            except Missing as error:
                assert time.monotonic() < begun + PATIENCE, error
                time.sleep(0.05)

    def nothing_lost(self):
        found = {row.name: row.body for row in self.index.dump()}
        assert found.keys() <= self.states.keys(), found.keys() - self.states.keys()
        for name, texts in self.states.items():
            text = found.get(name, GONE)
            assert text in texts, f"{name}: {text!r} is none of {texts}"
            self.states[name] = {text}


class Killer(threading.Thread):
    """Ends something of a cluster after so many seconds."""

    def __init__(self, cluster, kind, machine, chance):
        super().__init__()
        self.cluster, self.kind, self.machine = cluster, kind, machine
        self.seconds, self.part = chance.uniform(0, 0.6), chance.random()

    def run(self):
        time.sleep(self.seconds)
        if self.kind != "program":
            self.cluster.kill(self.machine, whole=self.kind == "machine")
            return
        programs = programs_of(self.cluster.workers[self.machine].pid)
        if programs:
            os.kill(programs[int(self.part * len(programs))].process, signal.SIGKILL)


def kills(cluster, client, options, chance):
    """Rounds with a kill each, and how many seconds each took until all was up again."""
    back = []
    for number in range(options.rounds):
        kind, machine = ("worker", "machine", "program")[number % 3], chance.randrange(options.machines)
        killer = Killer(cluster, kind, machine, chance)
        killer.start()
        begun = time.monotonic()
        while killer.is_alive() or time.monotonic() < begun + 0.7:
            client.change(chance.randrange(10, 400))
            client.ask()
        killer.join()
        client.change(20)
        client.ask()
        if kind != "program":
            cluster.start(machine)
        back.append(client.settle())
        client.nothing_lost()
    return back


def a_worker_that_is_stopped(cluster, client, options):
    """It holds nobody for more than the seconds that it has, is missing meanwhile, and answers again when it goes on."""
    worker = cluster.workers[0]
    worker.send_signal(signal.SIGSTOP)
    try:
        # Then it rests, and nothing waits for it.
        for most in (2 * options.patience + 4, options.patience):
            begun = time.monotonic()
            try:
                client.index.count("fox")
                raise AssertionError("a worker that is stopped has answered")
            except Missing as missing:
                assert set(missing.shards) == set(range(0, options.shards, options.machines)), missing.shards
                client.expect("fox", "fox", missing.answer, missing.shards)
            took = time.monotonic() - begun
            assert took < most, f"{took:.1f} s, where {most:.1f} may be"
        client.change(60)
    finally:
        worker.send_signal(signal.SIGCONT)
    client.settle()
    client.nothing_lost()


def a_scheduler_that_is_lost(cluster, client):
    """Its workers end too. All that was answered is there when others run, for the index object that there was."""
    cluster.scheduler.kill()
    cluster.scheduler.wait()
    for worker in cluster.workers:
        worker.wait(PATIENCE)
    try:
        client.index.count("fox")
        raise AssertionError("a cluster without workers has answered")
    except Missing as missing:
        assert len(missing.shards) == client.index.shards, missing.shards
    client.change(20)
    cluster.start_scheduler()
    for number in range(len(cluster.workers)):
        cluster.start(number)
    client.settle()
    client.nothing_lost()


def bunco(program, *words, typed="", status=0):
    """What the command prints, and says."""
    environment = {**os.environ, "BUNCOCEDAR_PROGRAM": program}
    done = subprocess.run([sys.executable, BUNCO, *words], input=typed, env=environment, capture_output=True, text=True, timeout=PATIENCE)
    assert done.returncode == status, f"{words} ended with {done.returncode}: {done.stderr}"
    return done.stdout, done.stderr


def homes(cluster, program):
    """Where each shard stands, as `bunco shards stats` prints it."""
    printed, _ = bunco(program, "shards", "stats", cluster.address)
    return {int(shard): place for shard, place in re.findall(r"^ *(\d+) (\S+) [\d,]+ documents", printed, re.MULTILINE)}


def commands(cluster, client, options, program, folder):
    """A shard is moved by one command and back by the one that `plan` prints, all are copied, and others ask by the address."""
    found = client.index.count("fox")
    before = homes(cluster, program)
    assert sorted(before) == list(range(options.shards)), before
    planned = bunco(program, "shards", "plan", cluster.address)
    assert planned == ("", ""), (planned, before)
    target = before[1]
    assert re.search("shard 0, [0-9,]+ bytes, is at", bunco(program, "shards", "move", cluster.address, "0", target)[1])
    assert homes(cluster, program) == {**before, 0: target}
    assert "is at" in bunco(program, "shards", "move", cluster.address, "0", target, status=2)[1]
    assert "none of the workers" in bunco(program, "shards", "move", cluster.address, "0", "nowhere:1", status=2)[1]
    planned, _ = bunco(program, "shards", "plan", cluster.address)
    assert len(planned.splitlines()) == 1 and planned.startswith(f"bunco shards move {cluster.address} "), planned
    bunco(program, *planned.split()[1:])
    assert bunco(program, "shards", "plan", cluster.address) == ("", "")
    client.settle()
    client.nothing_lost()
    copy = os.path.join(folder, "copy")
    if options.program:
        _, said = bunco(program, "shards", "copy", cluster.address, copy)
        assert f"{options.shards} of {options.shards} shards" in said, said
        assert bunco(program, "find", copy, "fox", "--count")[0] == f"{found}\n"
    printed, _ = bunco(program, "status", cluster.address)
    assert f" in {options.shards} of {options.shards} shards\n" in printed, printed
    assert bunco(program, "shell", cluster.address, typed="count fox\n")[0] == f"found {found}\n"


def main():
    parser = argparse.ArgumentParser(description=__doc__, formatter_class=argparse.RawDescriptionHelpFormatter)
    parser.add_argument("--program")
    parser.add_argument("--rounds", type=int, default=6)
    parser.add_argument("--seed", type=int, default=1)
    parser.add_argument("--shards", type=int, default=8)
    parser.add_argument("--machines", type=int, default=4)
    parser.add_argument("--patience", type=float, default=10.0)
    options = parser.parse_args()
    program = os.path.abspath(options.program) if options.program else fake.installed()
    chance = random.Random(options.seed)
    # What Dask says of connections that are lost is what is tested here.
    logging.disable(logging.CRITICAL)
    with tempfile.TemporaryDirectory() as folder:
        cluster = Cluster(spread(folder, options.shards, options.machines, program), program)
        try:
            cluster.wait()
            with on_workers(cluster.address, options.patience) as index:
                client = Client(index, chance)
                client.change(400)
                back = kills(cluster, client, options, chance)
                a_worker_that_is_stopped(cluster, client, options)
                a_scheduler_that_is_lost(cluster, client)
                commands(cluster, client, options, program, folder)
        finally:
            cluster.close()
    print(
        f"shards_dask: {options.rounds} kills, a worker that was stopped, a scheduler that was lost, commands: {client.answered:,} changes "
        f"answered, none lost; {client.unanswered:,} not answered; {client.whole:,} answers whole and {client.partial:,} that said what "
        f"they lacked; whole again after {max(back):.1f} s at most (seed {options.seed})"
    )


if __name__ == "__main__":
    try:
        from cluster import Cluster, programs_of, spread

        from buncocedar.dask_shards import on_workers
    except ImportError as missing:
        print(f"shards_dask: not tested: {missing}")
        sys.exit(0)
    sys.exit(main())
