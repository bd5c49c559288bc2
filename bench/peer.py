"""The peers of the benches over the same documents: a full-text table of SQLite, cut into words by its `unicode61`, a database of Xapian,
by its `TermGenerator` without stems, and an index of Lucene, by its `StandardTokenizer`."""

import glob
import os
import shutil
import sqlite3
import subprocess
import sys
import time

from kinds import BEST, NEAR, TABLE

try:
    import xapian
except ImportError:
    xapian = None  # Debian's python3-xapian has it, for the system's own Python

# Debian's liblucene8-java has it, which takes a JDK besides.
CORE = next(iter(glob.glob("/usr/share/java/lucene-core-8*.jar")), None) if shutil.which("javac") else None
TITLE = "S"  # before a word of a title in a database of Xapian

# What FTS5 is asked by.
STATEMENTS = {
    "count": "select count(*) from mail where mail match ?",
    "all": "select rowid from mail where mail match ?",
    "best": f"select rowid from mail where mail match ? order by rank limit {BEST}",
}

# Opens what stands at a path, and asks it for one count: prints the processor seconds of both, and the count.
ONCE = """
import sys, time
sys.path.insert(0, sys.argv[1])
import peer
from kinds import Query
begun = time.process_time()
found = getattr(peer, sys.argv[2])(sys.argv[3]).ask("count", Query(sys.argv[4], tuple(sys.argv[5:])))
print(time.process_time() - begun, found)
"""


def text_of(line):
    """Title and body of an `add` line."""
    return line[4:].rstrip(b"\n").decode().split("\t", 2)[1:]


def texts_of(lines):
    """Title and body of each `add` line."""
    return list(map(text_of, lines))


def table_of(texts, path, keeps_texts=False):
    """A table `mail` of these titles and bodies, numbered from 1, in a database at this path; it keeps no texts where it need not."""
    base = sqlite3.connect(path)
    without = "" if keeps_texts else "content='', "
    base.execute(f"create virtual table mail using fts5(title, body, {without}tokenize = 'unicode61 remove_diacritics 0')")
    base.executemany("insert into mail(title, body) values (?, ?)", texts)
    base.execute("insert into mail(mail) values ('optimize')")
    base.commit()
    return base


def make_database(texts, path):
    """Makes a compact database of Xapian with these titles and bodies, numbered from 1. A word counts four times in a title."""
    base = xapian.WritableDatabase(path + ".made", xapian.DB_CREATE)
    words = xapian.TermGenerator()
    for title, body in texts:
        document = xapian.Document()
        words.set_document(document)
        words.set_termpos(0)
        words.index_text(title, 4)
        words.increase_termpos()
        words.index_text(body)
        words.index_text_without_positions(title, 1, TITLE)
        base.add_document(document)
    base.commit()
    base.compact(path)
    base.close()


class Peer:
    """What is asked beside the program, in this process."""

    def turn(self, order, query, count):
        """The processor seconds of one of so many answers, and how many documents were found. An opening has a process of its own."""
        if order == "opening":
            return self.opening(query)
        begun = time.process_time()
        for _ in range(count):
            found = self.ask(order, query)
        return (time.process_time() - begun) / count, found

    def close(self):
        """What stays behind the last turn is no more than a file."""

    def opening(self, query):
        words = [os.path.dirname(os.path.abspath(__file__)), type(self).__name__, self.path, query.form, *query.words]
        seconds, found = subprocess.run([sys.executable, "-c", ONCE, *words], stdout=subprocess.PIPE, check=True).stdout.split()
        return float(seconds), int(found)


class Table(Peer):
    """FTS5's table at a path."""

    name = "FTS5"

    def __init__(self, path):
        self.path = path
        self.base = sqlite3.connect(path)

    def ask(self, order, query):
        rows = self.base.execute(STATEMENTS[order], (query.spelled(TABLE),)).fetchall()
        return rows[0][0] if order == "count" else len(rows)


class Database(Peer):
    """Xapian's database at a path. Only the best are weighed, a count looks at each document, and numbers stay in the set that has them."""

    name = "Xapian"

    def __init__(self, path):
        self.path = path
        self.base = xapian.Database(path)

    def ask(self, order, query):
        enquiry = xapian.Enquire(self.base)
        enquiry.set_query(self.query(query))
        if order == "best":
            return len(enquiry.get_mset(0, BEST))
        enquiry.set_weighting_scheme(xapian.BoolWeight())
        enquiry.set_docid_order(enquiry.DONT_CARE)
        size = self.base.get_doccount()
        if order == "count":
            return enquiry.get_mset(0, 1, size).get_matches_estimated()
        return len(enquiry.get_mset(0, size))

    def query(self, query):
        word, of = query.words[0], xapian.Query
        if query.form in ("word", "title"):
            return of(TITLE * (query.form == "title") + word)
        if query.form == "prefix":
            return of(of.OP_WILDCARD, word, 0, of.WILDCARD_LIMIT_ERROR, of.OP_SYNONYM)
        if query.form == "near":
            return of(of.OP_NEAR, list(query.words), NEAR + 1)
        return of({"and": of.OP_AND, "or": of.OP_OR, "not": of.OP_AND_NOT, "phrase": of.OP_PHRASE}[query.form], list(query.words))


class Lucene(Peer):
    """Lucene's index at a path, in a process of its own, which measures itself."""

    name = "Lucene"

    def __init__(self, path, classes):
        self.path = path
        self.java = ["java", "-Xbatch", "-XX:+UseSerialGC", "-cp", os.pathsep.join([classes, CORE]), "Lucene"]
        self.process = subprocess.Popen([*self.java, "ask", path], stdin=subprocess.PIPE, stdout=subprocess.PIPE)

    def turn(self, order, query, count):
        line = f"{count}\t{'count' if order == 'opening' else order}\t{query.form} {' '.join(query.words)}\n".encode()
        if order == "opening":
            answer = subprocess.run([*self.java, "once", self.path], input=line, stdout=subprocess.PIPE, check=True).stdout
        else:
            self.process.stdin.write(line)
            self.process.stdin.flush()
            answer = self.process.stdout.readline()
        spent, found = answer.split(b"\t")
        return int(spent) / 1e9, int(found)

    def close(self):
        self.process.communicate()


def lucene_of(texts, folder):
    """Lucene's index of these titles and bodies, made in this folder."""
    path, classes = os.path.join(folder, "lucene"), os.path.join(folder, "classes")
    source = os.path.join(os.path.dirname(os.path.abspath(__file__)), "Lucene.java")
    subprocess.run(["javac", "-d", classes, "-cp", CORE, source], check=True)
    lines = "".join("\t".join(text) + "\n" for text in texts).encode()
    subprocess.run(["java", "-cp", os.pathsep.join([classes, CORE]), "Lucene", "make", path], input=lines, check=True)
    return Lucene(path, classes)


def peers_of(texts, folder):
    """The peers that this machine has, each over these titles and bodies, in this folder."""
    table = os.path.join(folder, "x.db")
    table_of(texts, table).close()
    peers = [Table(table)]
    if xapian:
        make_database(texts, os.path.join(folder, "xapian"))
        peers.append(Database(os.path.join(folder, "xapian")))
    if CORE:
        peers.append(lucene_of(texts, folder))
    return peers
