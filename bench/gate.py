#!/usr/bin/env python3
"""Reads what `rt ci` says with a clock, and tells what each crate has cost: its proof, its tests, and its must-fail edits.

usage: rt ci 2>&1 | bench/gate.py [--to FILE] [--every SECONDS] [--record FILE]
       .ci/run >FILE 2>&1 & bench/gate.py --log FILE --pid $! [--to FILE] [--every SECONDS] [--record FILE]
       bench/gate.py --read FILE

Hands the lines on as they come, and writes them to FILE with the seconds of the clock before each, which --read takes. With --log the
lines are those of a growing file. They end with the gate's last one, also where .ci/run goes on, or with the process that --pid names.

While the lines come it looks at processes, as often as said: at those below PID, or below whoever writes into the pipe or FILE. Of a
pipeline it finds all (`rt ci 2>&1 | tee FILE | bench/gate.py`). The processor time of a check is what its process and those that it has
started were last seen with, and by the clock it lasts from its start until it is seen no more. The gate begins with its first check.

Prints at the end a line for each crate, the dearest first: processor seconds and minutes by the clock of its proof, its tests and
its edits, with the minute at which proof and tests stood, and how many edits there are; then the sums, and how long all took. Where the
processes were not seen, as with --read, there are the minutes alone. With --record the processor seconds of each crate go into a file of
figures, from which bench/plot.py draws a picture; of a gate that did not end, or whose checks were not seen, nothing is recorded.
"""

import argparse
import os
import re
import select
import signal
import stat
import sys
import time
from typing import NamedTuple

from recorded import record

PROVED = re.compile(r"rt: (\w+)(: its tests are)? (NOT PROVED(?:: .*)?|proved|is kept: .*)\n?")
TRIES = re.compile(r"rt: (\w+): trying its must-fail edits \((\d+)\)\n?")
LAST = re.compile(r"[0-9]+ passed, [0-9]+ failed.*\n?")
CLOCKED = re.compile(r"([0-9]+(?:\.[0-9]+)?) (.*)", re.DOTALL)
KINDS = ("proof", "tests", "edits")
TICKS = os.sysconf("SC_CLK_TCK")


# --- What is said.


class Said:
    """What the gate's lines tell: when proof and tests of each crate stood, when its edits began, and how many there are."""

    def __init__(self):
        self.begun = self.ended = None
        self.stood = {}  # of (crate, kind), seconds since the epoch
        self.edits = {}
        self.last = ""

    def take(self, at, line):
        self.begun = at if self.begun is None else self.begun
        self.ended = at
        proved, tries = PROVED.fullmatch(line), TRIES.fullmatch(line)
        if proved:
            self.stood[proved[1], "tests" if proved[2] else "proof"] = at
        elif tries:
            self.stood[tries[1], "edits"] = at
            self.edits[tries[1]] = int(tries[2])
        elif LAST.fullmatch(line):
            self.last = line.strip()

    def minute(self, crate, kind):
        at = self.stood.get((crate, kind))
        return "-" if at is None else f"{(at - self.begun) / 60:.1f}"


# --- What is seen.


class Process(NamedTuple):
    """A process: who started it, its group, the processor seconds of it and of what it has waited for, and the tick at which it began."""

    parent: int
    group: int
    seconds: float
    begun: int


def process_of(number):
    """The process of this number; None where there is none, or where it has ended and is only not waited for."""
    try:
        with open(f"/proc/{number}/stat", encoding="utf-8", errors="replace") as file:
            state, *fields = file.read().rpartition(")")[2].split()
    except OSError:
        return None
    if state in "ZX":
        return None
    return Process(int(fields[0]), int(fields[1]), sum(map(int, fields[10:14])) / TICKS, int(fields[18]))


def begun_of(number):
    """The tick at which a process began, which tells it from another of its number; None where there is none."""
    process = process_of(number)
    return process and process.begun


def processes():
    """All processes by their numbers."""
    found = {int(name): process_of(name) for name in os.listdir("/proc") if name.isdigit()}
    return {number: process for number, process in found.items() if process}


def booted():
    """When the machine was started, by the clock."""
    with open("/proc/uptime", encoding="ascii") as file:
        return time.time() - float(file.read().split()[0])


def streams_of(number):
    """What the input of a process leads to, and the set of what it has open for writing."""
    folder, source, outputs = f"/proc/{number}/fd", "", set()
    try:
        for name in os.listdir(folder):
            place, mode = os.readlink(f"{folder}/{name}"), os.lstat(f"{folder}/{name}").st_mode
            source = place if name == "0" else source
            outputs |= {place} if mode & stat.S_IWUSR else set()
    except OSError:
        pass  # it has ended, or is another user's
    return source, outputs


def writers_of(place, found):
    """The processes, of those found, that write into this. Where one reads a pipe, those of its group that write it are among them."""
    streams = {number: streams_of(number) for number in found if number != os.getpid()}
    writers = {number for number, (_, outputs) in streams.items() if place in outputs}
    left = list(writers)
    while left:
        reader = left.pop()
        source = streams[reader][0]
        for number, (_, outputs) in streams.items():
            is_before = source.startswith("pipe:") and source in outputs and found[number].group == found[reader].group
            if is_before and number not in writers:
                writers.add(number)
                left.append(number)
    return writers


def work_of(number):
    """The crate and the kind of work of a process, by its words and its folder; None where it is no check."""
    try:
        with open(f"/proc/{number}/cmdline", "rb") as file:
            words = file.read().decode(errors="replace").split("\0")
        folder = os.readlink(f"/proc/{number}/cwd")
    except OSError:
        return None
    if "--crate-name" not in words:
        return None
    crate = words[words.index("--crate-name") + 1]
    tries = os.path.basename(folder).startswith("rt-edit-")
    return crate, "edits" if tries else "tests" if "--test" in words else "proof"


class Check:
    """A check that is seen."""

    def __init__(self, work, begun):
        self.work = work
        self.begun = begun
        self.seen = begun
        self.seconds = 0.0


class Seen:
    """The checks below some processes, which are looked at now and then: `roots` tells, of all processes, which these are."""

    def __init__(self, roots, every):
        self.roots = roots
        self.every = every
        self.checks = {}  # by number and begin, since a number comes again
        self.looked = 0.0
        self.booted = booted()

    def look(self):
        """Looks at the processes, where it is time."""
        now = time.time()
        if now - self.looked < self.every:
            return
        self.looked = now
        found = processes()
        children = {}
        for number, process in found.items():
            children.setdefault(process.parent, []).append(number)
        for root in self.roots(found):
            self.look_at(root, found, children, now)

    def look_at(self, number, found, children, now):
        """Looks at a process: a check with all below it, or what has started some."""
        key = number, found[number].begun
        check = self.checks.get(key)
        if check is None:
            work = work_of(number)
            if work is None:
                for child in children.get(number, []):
                    self.look_at(child, found, children, now)
                return
            check = self.checks[key] = Check(work, self.booted + found[number].begun / TICKS)
        check.seconds = max(check.seconds, seconds_below(number, found, children))
        check.seen = now

    def begun(self):
        """When the first check began; None where none was seen."""
        return min((check.begun for check in self.checks.values()), default=None)

    def costs(self):
        """Of each crate and kind the processor seconds, and the minutes by the clock of its checks."""
        costs = {}
        for check in self.checks.values():
            seconds, minutes = costs.get(check.work, (0.0, 0.0))
            costs[check.work] = seconds + check.seconds, minutes + (check.seen - check.begun) / 60
        return costs


def seconds_below(number, found, children):
    """The processor seconds of a process and of all that it has started."""
    return found[number].seconds + sum(seconds_below(child, found, children) for child in children.get(number, []))


# --- The lines.


def lines_of(file, look):
    """The lines of a pipe, as they come; between them it looks about."""
    rest = b""
    while True:
        ready, _, _ = select.select([file], [], [], 0.2)
        look()
        if ready:
            data = os.read(file, 1 << 16)
            if not data:
                break
            *lines, rest = (rest + data).split(b"\n")
            yield from (line.decode(errors="replace") + "\n" for line in lines)
    if rest:
        yield rest.decode(errors="replace")


def lines_that_grow(path, look, pid):
    """The lines of a file that another process writes, up to the gate's last one, or until that process is no more. It may be there soon."""
    begun, rest = pid and begun_of(pid), ""
    ended = lambda: pid and (begun is None or begun_of(pid) != begun)
    while not os.path.exists(path) and not ended():
        time.sleep(0.2)
    with open(path, encoding="utf-8", errors="replace") as file:
        while True:
            look()
            is_over = ended()
            part = file.readline()
            rest += part
            if rest.endswith("\n"):
                yield rest
                if LAST.fullmatch(rest):
                    return
                rest = ""
            elif not part and is_over:
                return
            elif not part:
                time.sleep(0.2)


def clocked_lines(path):
    """The lines of a file that an earlier run has written, each with its time."""
    with open(path, encoding="utf-8", errors="replace") as file:
        for line in file:
            match = CLOCKED.fullmatch(line)
            if match:
                yield float(match[1]), match[2]


# --- What it came to.


def row(name, cells):
    print(f"{name:18}" + "".join(f"{cell:>9}" for cell in cells))


def tell(said, costs):
    """Prints the table."""
    crates = {crate for crate, _ in [*said.stood, *costs]}
    spent = {crate: sum(costs.get((crate, kind), (0, 0))[0] for kind in KINDS) for crate in crates}
    row("", ["proof s", "min", "at", "tests s", "min", "at", "edits s", "min", "number"])
    for crate in sorted(crates, key=lambda crate: (-spent[crate], said.stood.get((crate, "proof"), 0), crate)):
        cells = []
        for kind in KINDS:
            seconds, minutes = costs.get((crate, kind), (None, None))
            cells += ["-", "-"] if seconds is None else [f"{seconds:.0f}", f"{minutes:.1f}"]
            cells.append(str(said.edits.get(crate, "-")) if kind == "edits" else said.minute(crate, kind))
        row(crate, cells)
    sums = []
    for kind in KINDS:
        each = [cost for (_, what), cost in costs.items() if what == kind]
        sums += [f"{sum(seconds for seconds, _ in each):.0f}", f"{sum(minutes for _, minutes in each):.1f}", ""]
    sums[-1] = str(sum(said.edits.values()))
    row("all", sums)
    if said.begun is not None:
        whole = sum(spent.values())
        print(f"{(said.ended - said.begun) / 60:.1f} minutes, {whole / 60:.1f} of processor time seen: {said.last or 'no end'}")


def record_costs(path, said, costs):
    """Records the processor seconds of the crates, the dearest first."""
    spent = {work: round(seconds) for work, (seconds, _) in costs.items()}
    rows = [[crate, *(spent.get((crate, kind)) for kind in KINDS)] for crate in {crate for crate, _ in costs}]
    rows.sort(key=lambda row: (-sum(value or 0 for value in row[1:]), row[0]))
    series = ["proof", "tests", f"wrong bodies ({sum(said.edits.values())} in all)"]
    panel = {"title": "processor time of each crate", "kind": "bars", "unit": "s", "series": series, "rows": rows}
    record(path, f"What proving everything costs: {(said.ended - said.begun) / 60:.0f} minutes", [panel])


def read_all(options):
    """Takes the lines as they come, and answers what was said and what the checks cost."""
    place = os.path.realpath(options.log) if options.log else os.readlink("/proc/self/fd/0")
    roots = lambda found: {options.pid} & found.keys() if options.pid else writers_of(place, found)
    said, seen = Said(), Seen(roots, options.every)
    lines = lines_that_grow(options.log, seen.look, options.pid) if options.log else lines_of(0, seen.look)
    to = open(options.to, "w", encoding="utf-8") if options.to else None
    for number in (signal.SIGINT, signal.SIGTERM):
        signal.signal(number, signal.default_int_handler)
    try:
        for line in lines:
            said.take(time.time(), line)
            sys.stdout.write(line)
            sys.stdout.flush()
            if to:
                to.write(f"{time.time():.1f} {line}")
                to.flush()
    except KeyboardInterrupt:
        # What was seen until then is told.
        print("gate: interrupted", file=sys.stderr)
    finally:
        if to:
            to.close()
    said.begun = seen.begun() or said.begun
    return said, seen.costs()


def main():
    parser = argparse.ArgumentParser(description=__doc__, formatter_class=argparse.RawDescriptionHelpFormatter)
    parser.add_argument("--to", metavar="FILE", help="where the lines go with the clock")
    parser.add_argument("--every", metavar="SECONDS", type=float, default=1.0, help="how often the processes are looked at")
    parser.add_argument("--log", metavar="FILE", help="a file that the gate writes")
    parser.add_argument("--pid", type=int, help="the process of the gate that writes it")
    parser.add_argument("--read", metavar="FILE", help="what --to has written")
    parser.add_argument("--record", metavar="FILE", help="a file of figures for bench/plot.py")
    options = parser.parse_args()
    if options.read:
        said = Said()
        for at, line in clocked_lines(options.read):
            said.take(at, line)
        tell(said, {})
    else:
        said, costs = read_all(options)
        tell(said, costs)
        if options.record and not (said.last and costs):
            print("gate: nothing is recorded: " + ("no check was seen" if said.last else "it did not end"), file=sys.stderr)
            return 1
        if options.record:
            record_costs(options.record, said, costs)
    return 0


if __name__ == "__main__":
    sys.exit(main())
