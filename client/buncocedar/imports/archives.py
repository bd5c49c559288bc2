"""Mail archives: the messages of an mbox, a Maildir, a folder of files, or one file, and where in it each stands."""

# A Maildir is listed until nothing in it is new, a few times at most: who reads mail meanwhile moves and renames messages,
# and `--prune` would delete what is in no list.
#
# A folder that has no `cur` and no `new` is walked: each file is an mbox or a message by its first lines, as MH, Thunderbird
# and mutt keep them, and anything else is passed over.
#
# What was brought in before is not read again: a file whose path, size and time are as they were, and of an mbox, which mostly
# grows, the front up to its last message by its digest. A mail reader notes flags in a message's name, which is another path
# then. The folders are listed and each file is asked for its size each time: the time of a folder says nothing of a file in it
# that was written again.

import contextlib
import errno
import functools
import hashlib
import itertools
import os
import re
import stat
from typing import NamedTuple

from ..document import NoText, Unchanged, Unseen
from .packed import FAULTS, is_packed, opened
from .stamps import FileMark, Place, mark_of, place_of, spelled_path

DATED = re.compile(
    rb"From .* (?:Mon|Tue|Wed|Thu|Fri|Sat|Sun)\b.{0,9}\b(?:Jan|Feb|Mar|Apr|May|Jun|Jul|Aug|Sep|Oct|Nov|Dec)\b.{0,24}\d:\d\d"
)
FIELD = re.compile(rb"([!-9;-~]+)[ \t]*:")
# What a header begins with, as a line of a text hardly does.
FIRST = re.compile(
    rb"(?i)(Bcc|Cc|Date|Delivered-To|Envelope-To|From|In-Reply-To|Message-ID|MIME-Version|Newsgroups|Received|References|"
    rb"Reply-To|Return-Path|Sender|Subject|To|(ARC|Content|DKIM|List|Resent|X)-[!-9;-~]+)[ \t]*:"
)
LOOKS = 4  # times that a Maildir is listed at most
HEAD_LOOK = 8_192  # bytes of a file by which it is a message, an mbox, or none
CHUNK = 1 << 20
MAILDIR = ("cur", "new")


class Entry(NamedTuple):
    """A message of an archive: where it stands, as `stamps.Place` spells it, and its bytes or why there are none.

    `mark` is the size and time of its file, where it has one of its own.
    """

    place: str
    raw: object
    mark: str = ""


# --- An mbox.


def split(lines):
    """The messages of an mbox, each with the place of its first byte; what stands before the first one is given as one too.

    A message begins behind a line `From ` where that has a date, or where a field that begins headers is next. Without an empty
    line before it, it has to have both.
    """
    message = []
    begin = at = 0
    blank = True
    lines = itertools.chain(lines, [b""])
    line = next(lines)
    for following in lines:
        at += len(line)
        if line.startswith(b"From ") and is_beginning(line, following, blank):
            if message:
                yield begin, b"".join(message)
            begin, message = at, []
        else:
            message.append(line)
        blank = not line.strip()
        line = following
    if message:
        yield begin, b"".join(message)


def is_beginning(line, following, blank):
    """Whether a line `From ` begins a message; `blank` says that an empty line stands before it."""
    has_date, has_field = DATED.match(line), FIRST.match(following)
    return bool(has_date or has_field) if blank else bool(has_date and has_field)


def mbox(path, below, known):
    """The messages of an mbox; those that are known and stand in a front that is as it was are given together, unread."""
    found = os.stat(path)
    with opened(path) as file:
        passed, front = known_front(file, found, below, known)
        if passed:
            yield Unchanged([(place, name) for _, place, name in passed], functools.partial(piece, path))
        if front is None:
            return
        file.seek(front)
        last, before, count = front, len(passed), len(passed)
        for begin, raw in split(file):
            last, before = front + begin, count
            count += bool(raw.strip())
            yield Entry(Place(below, last, len(raw)).spelled(), raw)
        if is_packed(path):
            known.note(below, FileMark(found.st_size, found.st_mtime_ns, 0, "", 0, count))
        else:
            known.note(below, FileMark(found.st_size, found.st_mtime_ns, *front_of(file, last), before, count))


def known_front(file, found, below, known):
    """The messages of an mbox that need not be read, as `Known.pieces` gives them, and where what is to be read begins; None where
    nothing is. They count only where all that stood there are known.
    """
    mark = known.file(below)
    if mark is None:
        return [], 0
    pieces = known.pieces(below)
    if mark.has(found) and len(pieces) == mark.documents:
        return pieces, None
    in_front = [piece for piece in pieces if piece[0] < mark.front]
    if found.st_size > mark.size and len(in_front) == mark.before and digest_of_front(file, mark.front) == mark.digest:
        return in_front, mark.front
    return [], 0


def piece(path, place):
    """The message at a place of an mbox."""
    begin, length = map(int, place.rpartition("@")[2].split("+"))
    with opened(path) as file:
        file.seek(begin)
        return Entry(place, file.read(length))


def front_of(file, last):
    """Where the line begins that begins the last message, and the digest of all before it."""
    file.seek(0)
    at = max(0, last - CHUNK)
    file.seek(at)
    begin = at + (file.read(last - at)[:-1].rfind(b"\n") + 1) if last else 0
    return begin, digest_of_front(file, begin)


def digest_of_front(file, length):
    digest = hashlib.blake2b(digest_size=16)
    file.seek(0)
    while length > 0 and (data := file.read(min(CHUNK, length))):
        digest.update(data)
        length -= len(data)
    return digest.hexdigest()


# --- Folders.


class Listed(NamedTuple):
    """A folder that may have messages: its path, that below the archive's, and the names of its files.

    `is_maildir` says that it is one of those in which a Maildir has its messages; `home` is then the Maildir, and else its path.
    """

    path: str
    below: str
    names: list
    is_maildir: bool
    home: str

    def path_of(self, name):
        return f"{self.path}/{name}"

    def below_of(self, name):
        return name if self.below == "." else f"{self.below}/{name}"

    def stays(self, name):
        """What of a file's path stays as it is read: a message of a Maildir is moved from `new` to `cur`, and gets flags in its name."""
        return self.home, name.partition(":")[0] if self.is_maildir else name


def folder(top, known):
    """The messages of a folder and of those in it.

    Who reads mail meanwhile moves and renames messages. So the folders are listed again until nothing in them is new, a few times
    at most; what is missing then, or cannot be read, comes last.
    """
    met, whole, is_mail = set(), {}, False
    for _ in range(LOOKS):
        faults, fresh = {}, set()
        for listed in folders(top, faults):
            if whole.get(listed.path) == listed.names:
                continue
            names = sorted(name for name in listed.names if not met or listed.stays(name) not in met)
            before = len(faults)
            is_mail = (yield from messages_in(listed._replace(names=names), known, fresh, faults)) or is_mail
            if len(faults) == before:
                whole[listed.path] = listed.names
        if not fresh:
            break
        met |= fresh
    if not is_mail:
        faults.setdefault(".", Unseen("no mail: it has no folder cur or new, and no file of messages"))
    for below, fault in faults.items():
        yield Entry(spelled_path(below), fault)


def folders(top, faults):
    """The folders that may have messages. What is not looked into goes to the faults, by its path below the first one."""
    for path, inner, names in os.walk(top, onerror=lambda error: faults.update({relative(error.filename, top): Unseen(error.strerror)})):
        has_mail = any(name in inner for name in MAILDIR)
        # What is moved from new to cur meanwhile stands in one of the lists, or in both.
        inner[:] = sorted((name for name in inner if not (has_mail and name == "tmp")), key=lambda name: (name == "cur", name))
        links = filter(os.path.islink, (os.path.join(path, name) for name in inner))
        faults.update((relative(link, top), NoText("a link to a folder")) for link in links)
        is_maildir = os.path.basename(os.path.abspath(path)) in MAILDIR
        if is_maildir or not has_mail:
            yield Listed(path, relative(path, top), names, is_maildir, os.path.dirname(path) if is_maildir else path)


def messages_in(listed, known, met, faults):
    """Yields the messages of the files of a folder, the known ones first and together, and answers whether it has any.

    What stays of the path of each goes to those that were met; a file that has none or can't be looked at to the faults.
    """
    unchanged, others = [], []
    stat_of = os.stat if listed.is_maildir else os.lstat
    for name in listed.names:
        below = listed.below_of(name)
        try:
            found = stat_of(listed.path_of(name))
        except OSError as error:
            faults[below] = Unseen(error.strerror)
            continue
        place = spelled_path(below)
        document = known.name_at(place, found)
        if document is None:
            others.append(name)
        else:
            unchanged.append((place, document))
            met.add(listed.stays(name))
    is_mail = listed.is_maildir or bool(unchanged)
    if unchanged:
        yield Unchanged(unchanged, functools.partial(message_at, listed))
    for name in others:
        path, below = listed.path_of(name), listed.below_of(name)
        fault = None if listed.is_maildir else fault_of(path)
        if fault is None:
            is_mail = True
            fault = yield from without_fault((message_file if listed.is_maildir else any_file)(path, below, known))
        if fault is None:
            met.add(listed.stays(name))
        else:
            faults[below] = fault
    return is_mail


def message_at(listed, place):
    """The message of the file at a place of a folder that was listed."""
    below = place_of(place).path
    return message_file(listed.path_of(os.path.basename(below)), below)[0]


def without_fault(entries):
    """Yields the messages, and answers why a part of them could not be looked at, where that is so."""
    fault = None
    for entry in entries:
        if isinstance(entry, Entry) and isinstance(entry.raw, Unseen):
            fault = entry.raw
        else:
            yield entry
    return fault


def relative(path, top):
    return os.path.relpath(path, top)


def fault_of(path):
    """Why a file of a folder that is no Maildir has no messages, or None where it has some."""
    try:
        if os.path.islink(path):
            return NoText("a link to a file")
        if not stat.S_ISREG(os.stat(path).st_mode):
            return NoText("no regular file")
        with opened(path) as file:
            return None if is_mail_head(file.read(HEAD_LOOK)) else NoText("no mail")
    except (OSError, *FAULTS) as error:
        return unread(error)


def unread(error):
    """Why a file could not be read, that is there or was."""
    return Unseen(getattr(error, "strerror", None) or f"it can't be unpacked: {error}")


def is_mail_head(head):
    """Whether a file that begins so is an mbox or a message: each line up to an empty one is a field's, and one of a message."""
    lines = head.splitlines()
    if head.startswith(b"From "):
        return is_beginning(lines[0], lines[1] if len(lines) > 1 else b"", True)
    if len(head) == HEAD_LOOK:
        lines.pop()
    fields = list(itertools.takewhile(bytes.strip, lines))
    return all(FIELD.match(line) or line[:1] in b" \t" for line in fields) and any(map(FIRST.match, fields))


def message_file(path, below, known=None):
    """The one message of a file, in a list."""
    place = spelled_path(below)
    try:
        # Its time comes first, so that what is written meanwhile is read by the next run.
        mark = mark_of(os.stat(path))
    except OSError as error:
        return [Entry(place, unread(error))]
    return [Entry(place, content_of(path), mark)]


def any_file(path, below, known):
    """The messages of an mbox, or the one message that a file is."""
    try:
        with opened(path) as file:
            is_mbox = file.read(5) == b"From "
        yield from (mbox if is_mbox else message_file)(path, below, known)
    except (OSError, *FAULTS) as error:
        yield Entry(spelled_path(below), unread(error))


def content_of(path):
    """The bytes of a file; where a mail reader has moved it meanwhile, that it is unseen."""
    try:
        with opened(path) as file:
            return file.read()
    except (OSError, *FAULTS) as error:
        return unread(error)


# --- Archives.


def messages(path, known):
    """The messages of an archive, each an `Entry`. Raises `OSError` where it cannot be read."""
    if os.path.isdir(path):
        yield from folder(path, known)
        return
    mode = os.stat(path).st_mode
    if stat.S_ISCHR(mode) or stat.S_ISBLK(mode):
        raise OSError(f"{path} is a device")
    try:
        yield from mbox(path, "", known) if stat.S_ISREG(mode) else stream(path)
    except FAULTS as error:
        raise OSError(f"{path} can't be unpacked: {error}") from None


def stream(path):
    """The messages that come through a pipe."""
    with open(path, "rb") as file:
        for begin, raw in split(file):
            yield Entry(Place("", begin, len(raw)).spelled(), raw)


def raw_at(found):
    """The bytes of a message that was brought in, where it stands there still: in a Maildir also where it was moved or renamed since."""
    try:
        file = opened(found.path)
    except FileNotFoundError:
        file = opened(moved_to(found.path))
    with file:
        file.seek(found.begin or 0)
        return file.read(-1 if found.begin is None else found.length)


def moved_to(path):
    """The path of the message of a Maildir that stood here: it keeps the front of its name, before what its reader notes.

    Raises `FileNotFoundError` where it is in no folder beside.
    """
    folder, name = os.path.split(path)
    if os.path.basename(folder) in MAILDIR:
        front = name.partition(":")[0]
        for beside in MAILDIR:
            place = os.path.join(os.path.dirname(folder), beside)
            with contextlib.suppress(FileNotFoundError), os.scandir(place) as entries:
                for entry in entries:
                    if entry.name.partition(":")[0] == front:
                        return entry.path
    raise FileNotFoundError(errno.ENOENT, os.strerror(errno.ENOENT), path)
