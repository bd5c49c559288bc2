#!/usr/bin/env python3
"""Proves the crates that the program is made of, and builds it: crates/alta_cli/out/alta_cli.

usage: build.py [--jobs N] [--then ALTA WORD ..]
       build.py --record DIGEST

Each crate is proved by `rt lib` as soon as those below it are, that with the longest chain above it first, N side by side: as many as
there are processors, with 4 GB of memory for each, and four at most. A proof works alone at its begin and end, so each gets N / 2 jobs,
and that with the longest chain N. An unchanged crate that is proved is not proved again.
`rt` locks the crates below the one that it proves, so each lane works in a copy of its own of the sources. What a crate has in out/ is moved
there and back, and its library is linked into the other copies.

One process builds at a time, and others wait for it. What `rt` says goes to crates/alta_cli/out/build.log, with "== NAME" behind
each crate; the standard error says once a minute how many are proved. The program of before stands aside meanwhile, as out/older, and
comes back where the new one is refused. out/proved has the digests of the sources that were proved and of the program that was made
of them. With `--then` the launcher ALTA is run with the words behind it, once the program is there; a run that needs no new program
is given the one of before while another process builds. `--record` says that the program which is there was built by `rt ci`, which
began when the sources had this digest; they have to have it still.
The exit status is 2 where the program could not be built.
"""

# `rt all check` first reads the sources of all crates by one processor, which takes five minutes, goes by the number of
# crates below, and gives each crate one job, also the last three, which are a third of the whole and have nothing beside
# them. A copy of the sources takes a moment, and what a crate has in out/ is moved, not copied.

import argparse
import contextlib
import fcntl
import hashlib
import os
import shutil
import signal
import subprocess
import sys
import tempfile
import threading
from concurrent.futures import FIRST_COMPLETED, ThreadPoolExecutor, wait

TOP = os.path.dirname(os.path.realpath(__file__))
PROGRAM = "alta_cli"
HOME = f"{TOP}/crates/{PROGRAM}"
OUT = f"{HOME}/out"
BUILT, OLDER, BEGUN, RECORD, LOG, TURN = (f"{OUT}/{name}" for name in (PROGRAM, "older", "begun", "proved", "build.log", "building"))
MEMORY_OF_ONE = 4 << 30
LANES = "lanes-"  # how the name of a folder of copies begins
MINUTE = 60
PATIENT = ("--prove", "--install")  # words of the launcher for which no older program will do


def say(text):
    print(f"alta: {text}", file=sys.stderr, flush=True)


def needs():
    """The crates of the program, each with those of the repository that it names."""
    listed = {}
    with open(f"{TOP}/crates.txt", encoding="utf-8") as file:
        for line in file:
            name, colon, words = line.partition(":")
            if colon and not name.startswith("#"):
                listed[name.split()[0]] = words.split()
    found, left = {}, [PROGRAM]
    while left:
        name = left.pop()
        if name not in found:
            found[name] = [it for it in listed[name] if it in listed]
            left += found[name]
    return found


def lines_of(name):
    """How many lines a crate's sources have: what its proof takes goes by them."""
    lines = 0
    for at, folders, files in os.walk(f"{TOP}/crates/{name}"):
        folders[:] = [it for it in folders if it != "out"]
        for file in files:
            with open(f"{at}/{file}", "rb") as it:
                lines += it.read().count(b"\n")
    return lines


def chains(below):
    """The lines of the longest chain of crates that begins with each and goes up."""
    above = {name: [other for other in below if name in below[other]] for name in below}
    lengths = {}

    def length(name):
        if name not in lengths:
            lengths[name] = lines_of(name) + max(map(length, above[name]), default=0)
        return lengths[name]

    return {name: length(name) for name in below}


def lanes_here():
    with open("/proc/meminfo", encoding="ascii") as file:
        free = next(int(line.split()[1]) << 10 for line in file if line.startswith("MemAvailable:"))
    return max(1, min(4, len(os.sched_getaffinity(0)), free // MEMORY_OF_ONE))


def takes_lock(handle, how=fcntl.LOCK_EX):
    """Whether this process has the lock now: it has none where another one has it, or the file system knows no locks."""
    try:
        fcntl.flock(handle, how)
        return True
    except OSError:
        return False


@contextlib.contextmanager
def opened(folder):
    handle = os.open(folder, os.O_RDONLY)
    try:
        yield handle
    finally:
        os.close(handle)


def sweep(parent):
    """Takes away the copies that builds have left as they were killed: whoever works in them has their folder locked."""
    for entry in list(os.scandir(parent)):
        if entry.name.startswith(LANES) and entry.is_dir(follow_symlinks=False):
            with opened(entry.path) as handle:
                if takes_lock(handle, fcntl.LOCK_EX | fcntl.LOCK_NB):
                    shutil.rmtree(entry.path, ignore_errors=True)


@contextlib.contextmanager
def lanes_folder(parent):
    """A new folder for copies, and a handle that has it locked; what was left there is taken away before."""
    sweep(parent)
    with tempfile.TemporaryDirectory(prefix=LANES, dir=parent) as folder, opened(folder) as handle:
        takes_lock(handle)
        yield folder, handle


def out_of(top, name):
    """Where a crate keeps what was made of it."""
    return f"{top}/crates/{name}/out"


def link_or_copy(one, other):
    try:
        os.link(one, other)
    except OSError:
        shutil.copy2(one, other)


class Build:
    """The copies of the sources, and what is proved of the crates. Each proof holds the locks of the handles, too."""

    def __init__(self, folder, handles, lanes):
        self.handles = handles
        self.free = [f"{folder}/{number}" for number in range(lanes)]
        self.copies = list(self.free)
        self.running = set()
        self.stopped = False
        self.guard = threading.Condition()
        for copy in self.copies:
            shutil.copytree(f"{TOP}/crates", f"{copy}/crates", ignore=shutil.ignore_patterns("out"))
            for file in ("crates.txt", "HANDLES"):
                shutil.copy2(f"{TOP}/{file}", copy)

    def call(self, folder, *words):
        """What the kit's command says, and its exit status; none is begun once the build is stopped."""
        with self.guard:
            if self.stopped:
                return "", 1
            process = subprocess.Popen(
                ["rt", *words],
                cwd=folder,
                stdin=subprocess.DEVNULL,
                stdout=subprocess.PIPE,
                stderr=subprocess.STDOUT,
                errors="replace",
                pass_fds=self.handles,
            )
            self.running.add(process)
        said, _ = process.communicate()
        with self.guard:
            self.running.discard(process)
            self.guard.notify_all()
        return said, process.returncode

    def stop(self):
        """Ends the proofs that go on, which end all that they have begun, and waits until what was moved is back.

        A pool waits for no thread that it started as a signal came, so that this does not go by its threads.
        """
        with self.guard:
            self.stopped = True
            for process in self.running:
                process.terminate()
            self.guard.wait_for(lambda: not self.running and len(self.free) == len(self.copies))

    def prove(self, name, jobs):
        """Proves a crate, and builds it where it is the program: what was said, and whether it is proved."""
        if name != PROGRAM:
            return self.prove_library(name, jobs)
        # Without words the program ends with a status of its own.
        said, _ = self.call(HOME, "run")
        return said, os.access(BUILT, os.X_OK)

    def take_copy(self, name):
        """A free copy, into which what the crate has in out/ was moved; None once the build is stopped."""
        with self.guard:
            if self.stopped:
                return None
            copy = self.free.pop()
            home, here = out_of(TOP, name), out_of(copy, name)
            if os.path.isdir(home):
                shutil.rmtree(here, ignore_errors=True)
                os.rename(home, here)
            return copy

    def give_back(self, copy):
        with self.guard:
            self.free.append(copy)
            self.guard.notify_all()

    def prove_library(self, name, jobs):
        """Proves a library in a free copy, and hands it to the others."""
        copy = self.take_copy(name)
        if copy is None:
            return "", False
        home, here = out_of(TOP, name), out_of(copy, name)
        try:
            try:
                said, status = self.call(os.path.dirname(here), "lib", "--jobs", str(jobs))
            finally:
                if os.path.isdir(here):
                    os.rename(here, home)
            if status == 0:
                for other in self.copies:
                    shutil.copytree(f"{home}/rlib", f"{out_of(other, name)}/rlib", copy_function=link_or_copy)
        finally:
            self.give_back(copy)
        return said, status == 0


def prove_all(build, below, lanes, log):
    """Proves all crates and builds the program, and tells whether all are proved."""
    order, proved, running, good = chains(below), set(), {}, True
    left = sorted(below, key=lambda name: -order[name])
    with ThreadPoolExecutor(lanes) as pool:
        try:
            while running or (left and good):
                ready = [name for name in left if good and proved.issuperset(below[name])]
                for name in ready[: lanes - len(running)]:
                    # That with the longest chain of those that run gets all jobs: the whole waits for it.
                    is_longest = all(order[name] >= order[it] for it in running.values())
                    left.remove(name)
                    running[pool.submit(build.prove, name, lanes if is_longest else max(1, lanes // 2))] = name
                ended = wait(running, timeout=MINUTE, return_when=FIRST_COMPLETED).done
                if not ended:
                    say(f"{len(proved)} of {len(below)} crates are proved")
                for it in ended:
                    name, (said, is_proved) = running.pop(it), it.result()
                    log.write(f"== {name}\n{said}")
                    log.flush()
                    proved |= {name} if is_proved else set()
                    good = good and is_proved
        except BaseException:
            build.stop()
            raise
    return good


def sources():
    """The digest of the sources as they are."""
    return subprocess.run([f"{TOP}/release/digest", "--anew"], stdout=subprocess.PIPE, text=True, check=True).stdout.strip()


def digest_of(path):
    with open(path, "rb") as file:
        return hashlib.sha256(file.read()).hexdigest()


def is_proved():
    """Whether the program was built here of the sources as they are."""
    with contextlib.suppress(OSError), open(RECORD, encoding="ascii") as file:
        return file.read().split() == [sources(), digest_of(BUILT)]
    return False


def put_aside():
    """Makes the program the older one. Where a build was killed, what stands in its place may be a part of one, and the older one stays."""
    if os.path.exists(BEGUN):
        with contextlib.suppress(FileNotFoundError):
            os.remove(BUILT)
    elif os.path.exists(BUILT):
        os.replace(BUILT, OLDER)
    with open(BEGUN, "w"):
        pass


def put_back():
    """Takes what a build that failed has left away, and makes the older program the one that was built last."""
    with contextlib.suppress(FileNotFoundError):
        os.remove(BUILT)
    with contextlib.suppress(FileNotFoundError):
        os.replace(OLDER, BUILT)
    os.remove(BEGUN)


def put_in_place(proved):
    """Records of which sources the new program was made, and lets it serve in the place of the older one."""
    with open(f"{RECORD}.new", "w", encoding="ascii") as file:
        file.write(f"{proved} {digest_of(BUILT)}\n")
    os.replace(f"{RECORD}.new", RECORD)
    for left in (BEGUN, OLDER):
        with contextlib.suppress(FileNotFoundError):
            os.remove(left)


def build(lanes, turn):
    """Proves and builds the program, and tells whether it could be built."""
    say(f'proving and building the program: README.md, "Two commands", says what that takes; see {LOG}')
    begun, below, good = sources(), needs(), False
    put_aside()
    try:
        with lanes_folder(OUT) as (folder, handle), open(LOG, "w", encoding="utf-8") as log:
            good = prove_all(Build(folder, [handle, turn.fileno()], lanes), below, lanes, log)
        if good:
            # Of sources that have changed meanwhile it is not known of which it was made.
            put_in_place(begun if begun == sources() else "changed")
    finally:
        if not good:
            put_back()
    if not good:
        with open(LOG, encoding="utf-8") as log:
            sys.stderr.write("".join(log.readlines()[-20:]))
        say("the program could not be built")
    return good


def has_older():
    """Whether there is a program of before, while another process builds."""
    return os.path.exists(OLDER) or (os.path.exists(BUILT) and not os.path.exists(BEGUN))


def have_built(lanes, words):
    """Builds the program, or waits until another process has: the words that the launcher is to have, or None where it could not be built."""
    os.makedirs(OUT, exist_ok=True)
    with open(TURN, "a+", encoding="ascii") as turn:
        if not takes_lock(turn, fcntl.LOCK_EX | fcntl.LOCK_NB):
            if words and words[0] not in PATIENT and has_older():
                say("the program is being built; the one of before serves until then")
                return ["--no-build", *words]
            turn.seek(0)
            say(f"waiting for process {turn.read().strip()}, which builds the program; see {LOG}")
            takes_lock(turn)
            # The launcher looks again which program serves.
            return words
        if is_proved():
            # Another process has ended just before, or the same program was put there anew.
            os.utime(RECORD)
            return ["--no-build", *words]
        turn.truncate(0)
        turn.write(f"{os.getpid()}\n")
        turn.flush()
        return ["--no-build", *words] if build(lanes, turn) else None


def record(digest):
    """Records of which sources `rt ci` has built the program, and tells whether these have stayed so."""
    if digest != sources():
        say("the sources have changed while they were proved")
        return False
    put_in_place(digest)
    return True


def end_by_signal(number, _frame):
    sys.exit(128 + number)


def main():
    parser = argparse.ArgumentParser(description=__doc__, formatter_class=argparse.RawDescriptionHelpFormatter)
    parser.add_argument("--jobs", type=int, default=lanes_here())
    parser.add_argument("--record", metavar="DIGEST")
    words = sys.argv[1:]
    own = words.index("--then") if "--then" in words else len(words)
    # No word of the launcher's is read here: an index may be called `--`.
    options, launcher = parser.parse_args(words[:own]), words[own + 1 :]
    signal.signal(signal.SIGTERM, end_by_signal)
    signal.signal(signal.SIGINT, end_by_signal)
    if shutil.which("rt") is None:
        say("the command rt is missing, which proves and builds the program")
        return 2
    try:
        if options.record:
            return 0 if record(options.record) else 2
        words = have_built(options.jobs, launcher[1:])
    except OSError as error:
        say(f"nothing can be built in {OUT}: {error}")
        return 2
    if words is None:
        return 2
    if launcher:
        os.execv(launcher[0], [launcher[0], *words])
    return 0


if __name__ == "__main__":
    sys.exit(main())
