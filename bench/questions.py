#!/usr/bin/env python3
"""Asks the same questions of mail of notmuch and of an index, and says what each finds of what is right.

usage: bench/questions.py [--messages N] [--seed S] [--mail FOLDER] [--program PATH]

The mail is made from the seed: a Maildir with folders, in which each question has answers that are known from the making.
notmuch is Debian's (apt-get install notmuch). Printed is a line for each question: how many messages are right, how many each
program finds, and how many of those are right.
"""

import argparse
import datetime
import email.message
import email.utils
import os
import random
import shutil
import subprocess
import sys
import tempfile
from typing import Callable, NamedTuple

TOP = os.path.dirname(os.path.dirname(os.path.abspath(__file__)))
sys.path.insert(0, os.path.join(TOP, "client"))

from buncocedar import Index  # noqa: E402
from buncocedar.imports.fields import thread_word  # noqa: E402
from buncocedar.imports.stamps import name_of  # noqa: E402

PEOPLE = [
    (f"{first} {last}", f"{first}.{last}@{domain}".lower())
    for first in ("Ann", "Bob", "Cid", "Dora", "Emil")
    for last, domain in (("Lee", "example.org"), ("Moss", "mail.example.org"), ("Novak", "other.net"), ("Okoye", "ubuntu.example.com"))
]
LISTS = ("debian-devel", "debian-user", "users")
FOLDERS = ("", ".Lists", ".Old.Work")
NAMED = ("core.autocrlf", "strbuf_add", "user@host.example", "SUMMARY:Budget")
LETTERS = ("\u043c\u0438\u0440 \u0438 \u0441\u0432\u0435\u0442", "\u65e5\u672c\u8a9e\u306e\u30c6\u30ad\u30b9\u30c8", "caf\u00e9 cre\u0300me")


class Letter(NamedTuple):
    """A message, and what is known of it."""

    id: str
    thread: str  # the id of its first message
    writer: tuple
    readers: list
    copied: list
    list: str
    day: datetime.date
    subject: str
    words: list  # of its body
    form: str
    folder: str
    is_unread: bool
    is_flagged: bool


class Question(NamedTuple):
    """What is asked, in the words of each program, and what is right."""

    about: str
    notmuch: str
    bunco: str
    is_right: Callable[[Letter], bool]


# --- The mail.


def vocabulary(chance):
    """Some two thousand words."""
    syllables = [first + last for first in "bdfgklmnprst" for last in ("a", "e", "i", "o", "u", "an", "or")]
    return ["".join(chance.choice(syllables) for _ in range(chance.randint(2, 3))) for _ in range(2_000)]


def letters(count, chance):
    """The letters, each with all that is known of it."""
    words = vocabulary(chance)
    first_ids = []
    for number in range(count):
        end = "x" * chance.choice((0, 0, 70))
        identity = f"{number}.{chance.randrange(10**6)}{end}@{chance.choice(('mail', 'lists'))}.example.org"
        thread = chance.choice(first_ids) if first_ids and chance.random() < 0.6 else identity
        if thread == identity:
            first_ids.append(identity)
        people = chance.sample(PEOPLE, 4)
        body = chance.choices(words, k=chance.randint(20, 200))
        for special in (*NAMED, *LETTERS, "the red fox jumps", "fox of the deep red"):
            if chance.random() < 0.03:
                body.insert(chance.randrange(len(body)), special)
        yield Letter(
            identity,
            thread,
            people[0],
            people[1 : chance.randint(2, 3)],
            people[3:] if chance.random() < 0.3 else [],
            chance.choice(("", *LISTS)),
            datetime.date(1996, 1, 1) + datetime.timedelta(days=chance.randrange(10_000)),
            " ".join(chance.choices(words, k=4) + (["release", "plan"] if chance.random() < 0.05 else [])),
            body,
            chance.choices(("plain", "html", "report.pdf", "fix.patch", "calendar", "signed", "encrypted"), (60, 10, 8, 8, 4, 6, 4))[0],
            chance.choice(FOLDERS),
            chance.random() < 0.2,
            chance.random() < 0.1,
        )


def message_of(letter):
    """The bytes of a letter."""
    message = email.message.EmailMessage()
    message["Message-ID"] = f"<{letter.id}>"
    message["From"] = email.utils.formataddr(letter.writer)
    message["To"] = ", ".join(map(email.utils.formataddr, letter.readers))
    if letter.copied:
        message["Cc"] = ", ".join(map(email.utils.formataddr, letter.copied))
    if letter.list:
        message["List-Id"] = f"<{letter.list}.lists.example.org>"
    if letter.thread != letter.id:
        message["References"] = f"<{letter.thread}>"
    message["Date"] = email.utils.format_datetime(datetime.datetime.combine(letter.day, datetime.time(12)))
    message["Subject"] = letter.subject
    text = " ".join(letter.words)
    if letter.form == "html":
        message.set_content(text)
        message.add_alternative(f"<p>{text}</p>", subtype="html")
    else:
        message.set_content(text)
    if letter.form == "report.pdf":
        message.add_attachment(b"%PDF", maintype="application", subtype="pdf", filename="report.pdf")
    elif letter.form == "fix.patch":
        message.add_attachment("patchwork of lines\n", subtype="x-diff", filename="fix.patch", disposition="inline")
    elif letter.form == "calendar":
        message.add_attachment("BEGIN:VCALENDAR\r\nSUMMARY:Quarterly meeting\r\nEND:VCALENDAR\r\n", subtype="calendar")
    data = message.as_bytes()
    if letter.form in ("signed", "encrypted"):
        kind = f'multipart/{letter.form}; boundary="edge"; protocol="application/pgp-signature"'.encode()
        head, _, body = data.partition(b"\n\n")
        fields = [line for line in head.split(b"\n") if not line.lower().startswith(b"content-")]
        part = b"Content-Type: text/plain; charset=utf-8\nContent-Transfer-Encoding: 8bit\n\n" + text.encode()
        data = b"\n".join([*fields, b"Content-Type: " + kind, b"", b"--edge", part, b"--edge--", b""])
    return data


def put(top, number, letter):
    """Puts a letter in the Maildir."""
    folder = os.path.join(top, letter.folder, "cur")
    for name in ("cur", "new", "tmp"):
        os.makedirs(os.path.join(top, letter.folder, name), exist_ok=True)
    flags = ("F" if letter.is_flagged else "") + ("" if letter.is_unread else "S")
    with open(os.path.join(folder, f"{number}.x:2,{flags}"), "wb") as file:
        file.write(message_of(letter))


# --- The questions.


def has(phrase):
    return lambda letter: f" {phrase} " in f" {' '.join(letter.words)} "


def begins(stem):
    return lambda letter: any(word.startswith(stem) for word in " ".join(letter.words).split()) or any(
        word.startswith(stem) for word in letter.subject.split()
    )


def questions(known):
    """The questions; one of a thread asks for a known one."""
    (name, address), thread = PEOPLE[0], known[0].thread
    long_id = next(letter.id for letter in known if len(letter.id) > 64)
    return [
        Question("from a person", f'from:"{name}"', f'"from {name.lower()}"', lambda letter: letter.writer[0] == name),
        Question("from an address", f"from:{address}", f"from:{address}", lambda letter: letter.writer[1] == address),
        Question("from a domain", "from:other.net", "from:other.net", lambda letter: letter.writer[1].endswith("@other.net")),
        Question("to or cc a person", f"to:{address}", f"to:{address} OR cc:{address}", lambda letter: (name, address) in letter.readers + letter.copied),
        Question("of a list", "List:debian-devel", "list:debian-devel", lambda letter: letter.list == "debian-devel"),
        Question("words of the subject", 'subject:"release plan"', 'title:"release plan"', lambda letter: "release plan" in letter.subject),
        Question("a year", "date:2004", "date:2004", lambda letter: letter.day.year == 2004),
        Question("a span of days", "date:2004-03-01..2004-04-30", "value:20040301..20040430", lambda letter: datetime.date(2004, 3, 1) <= letter.day <= datetime.date(2004, 4, 30)),
        Question("a file is attached", "attachment:report.pdf", "attachment:report.pdf", lambda letter: letter.form == "report.pdf"),
        Question("a word of its name", "attachment:patch", "attachment:patch", lambda letter: letter.form == "fix.patch"),
        Question("any file is attached", "tag:attachment", "is:attached", lambda letter: letter.form in ("report.pdf", "fix.patch")),
        Question("in an attached text", "patchwork", "patchwork", lambda letter: letter.form == "fix.patch"),
        Question("an invitation", '"quarterly meeting"', '"quarterly meeting"', lambda letter: letter.form == "calendar"),
        Question("signed", "tag:signed", "is:signed", lambda letter: letter.form == "signed"),
        Question("encrypted", "tag:encrypted", "is:encrypted", lambda letter: letter.form == "encrypted"),
        Question("unread", "tag:unread", "is:unread", lambda letter: letter.is_unread),
        Question("flagged", "tag:flagged", "is:flagged", lambda letter: letter.is_flagged),
        Question("in a folder", "folder:.Lists", "folder:lists", lambda letter: letter.folder == ".Lists"),
        Question("a thread", f"thread:{{id:{thread}}}", f"thread:{thread_word(thread.encode())}", lambda letter: letter.thread == thread),
        Question("an id of more than 64 characters", f"id:{long_id}", f"id:{long_id}", lambda letter: letter.id == long_id),
        Question("a phrase", '"the red fox jumps"', '"the red fox jumps"', has("the red fox jumps")),
        Question("two words near", "fox NEAR/4 red", "fox NEAR/4 red", lambda letter: has("the red fox jumps")(letter) or has("fox of the deep red")(letter)),
        Question("a prefix", "bato*", "bato*", begins("bato")),
        Question("boolean", "fox and not jumps", "fox NOT jumps", lambda letter: has("fox")(letter) and not has("jumps")(letter)),
        Question("cyrillic, either case", "\u041c\u0418\u0420", "\u043c\u0438\u0440", has("\u043c\u0438\u0440")),
        Question("Japanese", "\u65e5\u672c\u8a9e", "\u65e5\u672c\u8a9e", lambda letter: LETTERS[1] in letter.words),
        Question("composed letters", "cr\u00e8me", "cr\u00e8me", has("cre\u0300me")),
        Question("a word inside of a word", "autocrlf", "autocrlf", has("core.autocrlf")),
        Question("a part of an identifier", "strbuf", "strbuf", has("strbuf_add")),
    ]


# --- The programs.


class Notmuch:
    """notmuch over a Maildir, with a configuration of its own."""

    def __init__(self, top, place):
        path = os.path.join(place, "notmuch.conf")
        with open(path, "w") as file:
            file.write(f"[database]\npath={top}\n[user]\nname=x\nprimary_email=x@example.org\n[new]\ntags=inbox\n[maildir]\nsynchronize_flags=true\n")
        self.environment = {**os.environ, "NOTMUCH_CONFIG": path, "HOME": place}
        self.run("config", "set", "index.header.List", "List-Id")
        self.run("new", "--quiet")

    def run(self, *words):
        return subprocess.run(["notmuch", *words], env=self.environment, check=True, stdout=subprocess.PIPE).stdout.decode()

    def found(self, query):
        return {line[3:] for line in self.run("search", "--output=messages", "--exclude=false", query).splitlines()}


class Bunco:
    """The index that the import of this checkout makes of a Maildir."""

    def __init__(self, top, place, program, known):
        path = os.path.join(place, "mail.alta")
        environment = {**os.environ, **({"BUNCOCEDAR_PROGRAM": program} if program else {})}
        subprocess.run([sys.executable, os.path.join(TOP, "bunco"), "mail", path, top], env=environment, check=True)
        self.index = Index(path, program=program)
        self.ids = {name_of(letter.id): letter.id for letter in known}

    def found(self, query):
        return {self.ids.get(name, name) for _, name in self.index.search(query)}


def main():
    parser = argparse.ArgumentParser(description=__doc__, formatter_class=argparse.RawDescriptionHelpFormatter)
    parser.add_argument("--messages", type=int, default=3_000)
    parser.add_argument("--seed", type=int, default=1)
    parser.add_argument("--mail", metavar="FOLDER", help="where the mail is made; what such a run has made there is used again")
    parser.add_argument("--program")
    options = parser.parse_args()
    if shutil.which("notmuch") is None:
        sys.exit("questions: notmuch is missing (Debian: apt-get install notmuch)")
    with tempfile.TemporaryDirectory() as place:
        top = options.mail or os.path.join(place, "Mail")
        known = list(letters(options.messages, random.Random(options.seed)))
        for number, letter in enumerate([] if os.path.exists(top) else known):
            put(top, number, letter)
        notmuch, bunco = Notmuch(top, place), Bunco(top, place, options.program, known)
        print(f"{'question':34} {'right':>6} {'notmuch':>8} {'right':>6} {'bunco':>6} {'right':>6} {'both':>6}")
        for question in questions(known):
            right = {letter.id for letter in known if question.is_right(letter)}
            theirs, ours = notmuch.found(question.notmuch), bunco.found(question.bunco)
            row = (len(right), len(theirs), len(theirs & right), len(ours), len(ours & right), len(theirs & ours))
            print(f"{question.about:34} {row[0]:6,} {row[1]:8,} {row[2]:6,} {row[3]:6,} {row[4]:6,} {row[5]:6,}")


if __name__ == "__main__":
    main()
