#!/usr/bin/env python3
"""A program that speaks the lines of the index program, and misbehaves as it is told: for the tests of the client.

It takes the words `PATH init` and `PATH run`, and keeps what it stores as lines of the file, which it locks. A search finds the documents
that have all words of the query, and one with `NOT name:!` all. The variable FAKE has what it is to do, as
JSON:

room N      ends with status 8 at the document that would be stored as the N+1st
end [N, S]  ends with status S (a signal, where it is below 0) in place of the N+1st reply
mute        gives no line for its status
done        then stores first what that line asks for
cut         then gives the first half of that reply
slow        gives its replies in pieces of one byte
hold N      gives no reply before it has read N lines more, or the end
silent N    gives no reply after the Nth, and takes no further line
deaf [N, P] closes its input in place of the N+1st reply, gives it when the file P is there, and ends with status 2
say [N, R]  gives R in place of the N+1st reply, and does not do what its line asks for
old         does not know the commands that are built last
loud        says something on its standard error for each line
mark PATH   makes this file when it falls silent or deaf, with its process number
"""

import atexit
import fcntl
import json
import os
import shutil
import sys
import tempfile
import time

STATUS_LINES = {
    1: "alta: usage: alta_cli PATH init | run | demo N",
    2: "alta: disk fault",
    3: "alta: input fault",
    4: "alta: output fault",
    5: "alta: out of memory",
    6: "alta: damaged at 8193",
    7: "alta: no index",
    8: "alta: full, need 321, greatest gap 123",
    9: "alta: input too long",
    10: "alta: index exists",
}
DO = json.loads(os.environ.get("FAKE", "{}"))


def end(status):
    sys.stdout.flush()
    if status < 0:
        os.kill(os.getpid(), -status)
    if status in STATUS_LINES and not DO.get("mute"):
        print(STATUS_LINES[status], file=sys.stderr, flush=True)
    os._exit(status)


def installed():
    """The path of a copy that this Python runs itself, without looking for one: it starts sooner so."""
    folder = tempfile.mkdtemp()
    atexit.register(shutil.rmtree, folder)
    path = os.path.join(folder, "fake")
    with open(__file__) as source, open(path, "w") as copy:
        copy.write(source.read().replace("#!/usr/bin/env python3", f"#!{sys.executable} -SE", 1))
    os.chmod(path, 0o755)
    return path


class Store:
    def __init__(self, path):
        self.file = open(path, "r+b")
        try:
            fcntl.flock(self.file, fcntl.LOCK_EX | fcntl.LOCK_NB)
        except BlockingIOError:
            end(2)
        if self.file.readline() != b"fake\n":
            end(7)
        self.documents = {}
        self.stored = 0
        for line in self.file:
            self.replay(line.rstrip(b"\n"))
        self.cursors = {}

    def replay(self, line):
        word, _, rest = line.partition(b" ")
        if word == b"add":
            name, title, body = rest.split(b"\t", 2)
            self.stored += 1
            self.documents[name.decode()] = (self.stored, title.decode().lower().split(), body.decode().lower().split())
        else:
            del self.documents[rest.decode()]

    def commit(self, line):
        os.write(self.file.fileno(), line + b"\n")
        self.replay(line)

    def found(self, query):
        words = query.lower().split()
        every = "NOT name:!" in query
        rows = [
            f"{number} {name}"
            for name, (number, title, body) in self.documents.items()
            if every or all(word in title + body for word in words)
        ]
        return sorted(rows, key=lambda row: int(row.split()[0]))

    def best(self, count, query):
        """The lines of the best answers: a word counts four where it stands in the title."""
        words, scored = query.lower().split(), []
        for row in self.found(query):
            number, name = row.split()
            _, title, body = self.documents[name]
            score = sum(4 * title.count(word) + body.count(word) for word in words)
            scored.append((-score, int(number), name))
        return [f"{number} {name} {-score}" for score, number, name in sorted(scored)[:count]]

    def reply(self, line):
        """The reply lines; the line is done first."""
        if len(line) > 262_143:
            return ["! line too long"]
        try:
            word, blank, rest = line.decode().partition(" ")
        except UnicodeDecodeError:
            return ["! not UTF-8"]
        call = self.calls.get(word)
        if call is None or DO.get("old") and word in self.newer:
            return ["! unknown command"]
        return call(self, rest, blank, line)

    def add(self, rest, blank, line):
        before = self.documents.get(rest.split("\t")[0])
        if self.stored >= DO.get("room", 1 << 32):
            end(8)
        self.commit(line)
        return [f"replaced {before[0]} by {self.stored}" if before else f"added {self.stored}"]

    def delete(self, name, blank, line):
        if name not in self.documents:
            return ["! no such document"]
        number = self.documents[name][0]
        self.commit(line)
        return [f"deleted {number}"]

    def search(self, query, blank, line):
        rows = self.found(query)
        return fault_of(query) or rows + [f"found {len(rows)}"]

    def top(self, rest, blank, line):
        count, _, query = rest.partition(" ")
        if not (count.isdecimal() and len(count) < 5 and 1 <= int(count) <= 1000):
            return ["! bad line"]
        return fault_of(query) or self.best(int(count), query) + [f"found {len(self.found(query))}"]

    def count(self, query, blank, line):
        return fault_of(query) or [f"found {len(self.found(query))}"]

    def explain(self, query, blank, line):
        return fault_of(query) or [f'"{query}"', f"found D W{query}", "  x1 <= x0"]

    def open(self, query, blank, line):
        number = min(set(range(1, 65)) - set(self.cursors), default=None)
        if fault_of(query) or number is None:
            return fault_of(query) or ["! too many cursors"]
        self.cursors[number] = self.found(query)
        return [f"cursor {number}"]

    def fetch(self, rest, blank, line):
        number, count = map(int, rest.split())
        if number not in self.cursors:
            return ["! no such cursor"]
        rows = self.cursors[number]
        self.cursors[number] = rows[count:]
        return rows[:count] + ["more" if rows[count:] else "end"]

    def close(self, number, blank, line):
        if int(number) not in self.cursors:
            return ["! no such cursor"]
        del self.cursors[int(number)]
        return [f"closed {number}"]

    def dump(self, rest, blank, line):
        if blank:
            return ["! bad line"]
        documents = sorted((number, name, title, body) for name, (number, title, body) in self.documents.items())
        lines = [f"add {name}\t{' '.join(title)}\t{' '.join(body)}" for _, name, title, body in documents]
        return lines + [f"dumped {len(lines)}"]

    def work(self, rest, blank, line):
        return ["ok"]

    def stats(self, rest, blank, line):
        words = sum(len(title) + len(body) for _, title, body in self.documents.values())
        return [f"documents {len(self.documents)} words {words} next {self.stored + 1}"]

    calls = {
        "add": add,
        "delete": delete,
        "search": search,
        "top": top,
        "count": count,
        "explain": explain,
        "open": open,
        "fetch": fetch,
        "close": close,
        "dump": dump,
        "flush": work,
        "merge": work,
        "step": work,
        "stats": stats,
    }
    newer = ("flush", "merge", "step", "open", "fetch", "close", "top", "dump")


def fault_of(query):
    """The reply to a query that asks for a fault, as `fault 8 Paren ..`; none to any other."""
    if not query.startswith("fault "):
        return []
    _, place, cause = query.split(" ")[:3]
    return [f"! query {place} {cause}"]


def give(text):
    data = text.encode()
    step = 1 if DO.get("slow") else max(1, len(data))
    for at in range(0, len(data), step):
        os.write(1, data[at : at + step])


def make_mark():
    if "mark" in DO:
        with open(DO["mark"] + ".new", "w") as file:
            file.write(str(os.getpid()))
        os.rename(DO["mark"] + ".new", DO["mark"])


def run(path):
    store = Store(path)
    given = 0
    held = []
    for line in sys.stdin.buffer:
        line = line.rstrip(b"\n")
        if DO.get("loud"):
            print(f"fake: {len(line)} bytes", file=sys.stderr, flush=True)
        if "silent" in DO and given >= DO["silent"]:
            make_mark()
            # Where whoever started it is killed, nobody ends it.
            time.sleep(3600)
            end(2)
        last = "end" in DO and given >= DO["end"][0]
        if last and not DO.get("done"):
            end(DO["end"][1])
        if "deaf" in DO and given >= DO["deaf"][0]:
            os.close(0)
            make_mark()
            while not os.path.exists(DO["deaf"][1]):
                time.sleep(0.01)
            give("\n".join(store.reply(line)) + "\n")
            end(2)
        if "say" in DO and given == DO["say"][0]:
            reply = DO["say"][1] + "\n"
        else:
            reply = "\n".join(store.reply(line)) + "\n"
        if last:
            give(reply[: len(reply) // 2] if DO.get("cut") else "")
            end(DO["end"][1])
        given += 1
        held.append(reply)
        # The first reply, which opens the client, is not held back.
        if given == 1 or len(held) >= DO.get("hold", 0):
            give("".join(held))
            held = []
    give("".join(held))


def main():
    path, word = sys.argv[1:]
    if word == "init":
        if os.path.exists(path) and os.path.getsize(path):
            end(10)
        with open(path, "wb") as file:
            file.write(b"fake\n")
    else:
        run(path)


if __name__ == "__main__":
    main()
