"""Brings the text files of a folder into an index: those that are new or have changed.

The name is the path below the folder, made to fit the rule on names; the title is the file's name; the body is its path and its
text. Words as `dir:src` and `ext:c` find files by their folders and endings. Files that end in .gz, .xz and .bz2 are unpacked. A
file that is no UTF-8 is refused, and said so; one that has a NUL in its first 8,192 bytes is no text, and passed over, as are
links. In the folder of a git repository what git ignores is left out. A file counts as changed where its size or its time of
change is another.

With --filter '*.pdf=pdftotext - -' the text of such a file is what the command makes of it.
"""

# The text of a filtered file is not shown by `bunco find`: the command would have to stand in the file of stamps, and whoever
# was given an index would run what another one wrote.

import argparse
import codecs
import fnmatch
import functools
import os
import stat
import subprocess
import sys
from typing import NamedTuple

from ..document import TEXT_LIMIT, Document, NoText, Text, Unfit, Unseen
from ..links import server_path
from .bringing import BAD_USE, bring_as, parser_of
from .packed import FAULTS, is_packed, opened
from .stampfile import JOURNAL, stamps_path
from .stamps import Place, Source

BINARY_LOOK = 8_192  # bytes that are looked at for a NUL
CHUNK = 1 << 20
SKIPPED = (".git", ".hg", ".svn", "*.alta", "*.alta.stamps", "*.alta.stamps.new", f"*.alta.stamps{JOURNAL}", "*.alta.socket", "*.alta.digests", "*.alta.digests.new")
FILTERED = "filtered"  # what is noted of a file whose text is made by a command
# What goes into a stamp besides the file's size and time: another one, and all files are made anew once.
FORM = b"paths\n"


def raised(why):
    """Loads nothing, and says why."""
    raise why


def no_document(path, why):
    """A document that says why there is none: an `Unfit`."""
    return Document(path, str(why).encode(), functools.partial(raised, why), Place(path).spelled(), exact=False)


# --- Texts.


def data_of(path):
    """The bytes of a file, unpacked where it is packed, up to the limit, and how many are beyond."""
    try:
        with opened(path) as file:
            data = file.read(BINARY_LOOK)
            # What is no text has no stamp: each run looks at it, and reads no more of it.
            if b"\0" in data:
                raise NoText("binary")
            data += file.read(TEXT_LIMIT - len(data))
            return data, bytes_left(path, file) if len(data) == TEXT_LIMIT else 0
    except FAULTS as error:
        raise Unfit(f"it can't be unpacked: {error}") from None
    except OSError as error:
        if error.errno is None and is_packed(path):
            raise Unfit(f"it can't be unpacked: {error}") from None
        raise


def bytes_left(path, file):
    """How many bytes a file has from where it was read to: a packed one has to be unpacked for that."""
    if is_packed(path):
        return sum(map(len, iter(lambda: file.read(CHUNK), b"")))
    return max(0, os.fstat(file.fileno()).st_size - file.tell())


def filtered(path, command):
    """What a command of the shell makes of a file that it reads, up to the limit, and how many bytes are beyond."""
    with open(path, "rb") as file:
        done = subprocess.run(command, shell=True, stdin=file, capture_output=True)
    if done.returncode:
        said = done.stderr.decode(errors="replace").strip().split("\n")[0]
        raise Unfit(f"{command!r} ended with status {done.returncode}{said and f': {said}'}")
    return done.stdout[:TEXT_LIMIT], max(0, len(done.stdout) - TEXT_LIMIT)


def text_of(path, latin=False, command=""):
    """The text of a file; a command makes it where one is given."""
    data, beyond = filtered(path, command) if command else data_of(path)
    try:
        # A character that the limit has cut is left out.
        text = codecs.getincrementaldecoder("utf-8-sig")().decode(data, final=not beyond)
    except UnicodeDecodeError as error:
        if not latin:
            raise Unfit(f"no UTF-8, first at byte {error.start} (--latin-1 reads it as Latin-1)") from None
        text = data.decode("latin-1")
    return Text(os.path.basename(path), text, beyond)


def text_with_path(path, below, latin, command):
    """The text of a file, with the words that its path below the folder is found by."""
    return text_of(path, latin, command)._replace(head=below, terms=path_words(below))


def path_words(below):
    """The exact words for a path: of its folders `dir:`, each with those below it, and of its endings `ext:`."""
    *folders, name = below.split("/")
    words = [f"dir:{'/'.join(folders[number:])}" for number in range(len(folders))]
    words += [f"ext:{ending}" for ending in name.split(".")[1:] if ending]
    return " ".join(words)


def read(found):
    """The text of a file that was brought in, as `bunco find` shows it."""
    if found.notes == FILTERED:
        raise Unfit("a filter made its text, which is not run to show it")
    return text_of(found.path, latin=True)


# --- Files.


class Filter(NamedTuple):
    """A command of the shell that makes the texts of files whose names match a pattern."""

    pattern: str
    command: str


class Selection:
    """Which files and folders are wanted: patterns of their names, or of their paths below the folder.

    `listed` are the only paths that are wanted, where that is known.
    """

    def __init__(self, only=(), skip=(), listed=None):
        self.only = tuple(only)
        self.skip = (*SKIPPED, *skip)
        self.listed = listed
        self.parents = {parent for path in listed or () for parent in parents_of(path)}

    def passes(self, below, patterns):
        return any(matches(below, pattern) for pattern in patterns)

    def is_listed(self, below):
        # What is a repository of its own in another one is listed as a folder.
        return self.listed is None or below in self.listed or any(parent in self.listed for parent in parents_of(below))

    def has_folder(self, below):
        return not self.passes(below, self.skip) and (below in self.parents or self.is_listed(below))

    def has_file(self, below):
        return not self.passes(below, self.skip) and (not self.only or self.passes(below, self.only)) and self.is_listed(below)


def matches(below, pattern):
    """Whether a path below the folder, or its last part, is of a pattern."""
    return any(fnmatch.fnmatchcase(text, pattern) for text in (os.path.basename(below), below))


def parents_of(path):
    """The folders above a path."""
    at = path.rfind("/")
    while at > 0:
        yield path[:at]
        at = path.rfind("/", 0, at)


def listed_by_git(top):
    """The paths below a folder that git does not ignore, None where that is no repository; raises `Unfit` where git does not answer."""
    if not os.path.exists(os.path.join(top, ".git")):
        return None
    command = ["git", "-C", top, "ls-files", "-z", "--cached", "--others", "--exclude-standard"]
    try:
        done = subprocess.run(command, stdin=subprocess.DEVNULL, capture_output=True, env={**os.environ, "LC_ALL": "C"})
    except OSError as error:
        raise Unfit(error.strerror) from None
    if b"not a git repository" in done.stderr:
        return None
    if done.returncode:
        raise Unfit(done.stderr.decode(errors="replace").strip().split("\n")[0])
    return {os.fsdecode(path).rstrip("/") for path in done.stdout.split(b"\0") if path}


def file_document(path, below, latin, filters=()):
    """The document of a file, or one that says why there is none."""
    try:
        found = os.lstat(path)
    except OSError as error:
        return no_document(below, Unfit(error.strerror))
    if stat.S_ISLNK(found.st_mode):
        return no_document(below, NoText("a link to a file" if os.path.exists(path) else "a link to nothing"))
    if not stat.S_ISREG(found.st_mode):
        return no_document(below, NoText("no regular file"))
    command = next((each.command for each in filters if matches(below, each.pattern)), "")
    stamp = FORM + f"{found.st_size} {found.st_mtime_ns} {command}".encode(errors="surrogateescape")
    load = functools.partial(text_with_path, path, below, latin, command)
    notes = FILTERED if command else ""
    return Document(below, stamp, load, Place(below).spelled(), exact=False, notes=notes, size=found.st_size)


def files(top, without=frozenset(), selection=Selection(), latin=False, filters=()):
    """A document for each file below the folder that is wanted, without those of the index itself."""
    unread = []
    for folder, folders, names in os.walk(top, onerror=unread.append):
        below = os.path.relpath(folder, top)
        folders[:] = sorted(name for name in folders if selection.has_folder(os.path.normpath(os.path.join(below, name))))
        for name in folders:
            if os.path.islink(os.path.join(folder, name)):
                yield no_document(os.path.normpath(os.path.join(below, name)), NoText("a link to a folder"))
        for name in sorted(names):
            path, path_below = os.path.join(folder, name), os.path.normpath(os.path.join(below, name))
            if os.path.realpath(path) not in without and selection.has_file(path_below):
                yield file_document(path, path_below, latin, filters)
    for error in unread:
        yield no_document(os.path.relpath(error.filename, top), Unseen(error.strerror))


# --- The command.


def filter_of(text):
    pattern, mark, command = text.partition("=")
    if not (pattern and mark and command.strip()):
        raise argparse.ArgumentTypeError(f"{text} is not of the form PATTERN=COMMAND")
    return Filter(pattern, command)


def parser():
    """What the words of the command may be."""
    parser = parser_of("folder", __doc__, ("FOLDER", "the folder of text files"))
    parser.add_argument("--only", metavar="PATTERN", action="append", default=[], help="take only files whose names match, as '*.txt'")
    parser.add_argument(
        "--skip", metavar="PATTERN", action="append", default=[], help=f"leave out such files and folders, besides {', '.join(SKIPPED)}"
    )
    parser.add_argument(
        "--filter", metavar="PATTERN=COMMAND", action="append", default=[], type=filter_of, help="take what the shell's COMMAND makes of such files"
    )
    parser.add_argument("--no-ignore", action="store_true", help="take what git ignores, too")
    parser.add_argument("--latin-1", action="store_true", help="read files that are no UTF-8 as Latin-1")
    return parser


def main(arguments=None):
    options = parser().parse_args(arguments)
    if not os.path.isdir(options.folder):
        print(f"folder: {options.folder} is no folder", file=sys.stderr)
        return BAD_USE
    try:
        listed = None if options.no_ignore else listed_by_git(options.folder)
    except Unfit as why:
        print(f"folder: git does not say what it ignores ({why}): --no-ignore takes all", file=sys.stderr)
        return BAD_USE
    stamps = stamps_path(options.index)
    without = {os.path.realpath(options.index), stamps, f"{stamps}.new", f"{stamps}{JOURNAL}", server_path(options.index)}
    selection = Selection(options.only, options.skip, listed)
    source = Source("folder", os.path.realpath(options.folder))
    return bring_as("folder", options, [(source, files(options.folder, without, selection, options.latin_1, options.filter))])
