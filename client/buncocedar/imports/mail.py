"""Brings the messages of mail archives into an index: of mbox files, Maildir folders, folders of messages, or one message.

The name is the Message-ID, made to fit the rule on names; the title is the Subject; the body begins with lines `From: ..`,
`To: ..`, `Cc: ..`, `Date: 2024-01-31 20240131` and `Attachment: ..`, and then has the texts of its parts, attached ones too; where
a text is there in several forms, the HTML only if the plain one is blank. Words as `from:ann`, `to:example.org`, `list:debian-devel`,
`thread:..`, `attachment:report`, `is:unread`, `folder:sent` and `label:..` find messages by these fields. Files that end
in .gz, .xz and .bz2 are unpacked. What a mail reader notes besides is no change.

With --show the words are ARCHIVE NAME, and the message of this name is printed; with --raw as it stands in the archive. Where
ARCHIVE is an index, the message is found at once, where it stood when it was brought in; else all of the archive is read.
"""

import functools
import os
import sys

from ..document import Unchanged, Unfit
from ..terminal import printable, quiet_end, why_at, write
from . import archives
from .bringing import BAD_USE, STOPPED, bring_as, parser_of
from .messages import Message, document_of, form_of
from .stampfile import stamps_path
from .stamps import Known, Records, Source, digest, is_numbered, name_of, numbered, part_of, stem_of


def documents(path, known, attached=True):
    """The documents of an archive: one for each message, and those together that are as they were."""
    for entry in archives.messages(path, known):
        if isinstance(entry, Unchanged):
            yield entry._replace(read=functools.partial(document_at, entry.read, attached))
        else:
            document = document_of(entry, attached)
            if document is not None:
                yield document


def document_at(read, attached, place):
    """The document of the message that this call reads at a place."""
    return document_of(read(place), attached)


# --- Back to a message.


def named(archive):
    """The messages of an archive by the names that an import into a new index gives them."""
    used, met = set(), set()
    numbers = {}  # of a wanted name the first number that may be free
    for entry in archives.messages(archive, Known()):
        if isinstance(entry.raw, Unfit):
            continue
        message = Message(entry.raw)
        if not message.header.fields or message.stamp in met:
            continue
        met.add(message.stamp)
        wanted = name_of(message.wanted)
        while (name := numbered(wanted, numbers.setdefault(wanted, 1))) in used:
            numbers[wanted] += 1
        used.add(name)
        yield name, entry.raw


def found_in(archive, name):
    """The bytes of the message of this name or id, or of the one that this is a part of; None where an archive or an index has none."""
    part = part_of(name)
    wanted = (name, name_of(name.strip("<>")))
    if not os.path.exists(stamps_path(archive)):
        return next((raw for each, raw in named(archive) if each in wanted or part and stem_of(each) == part[0]), None)
    records = Records(stamps_path(archive))
    whole = [each for each in records.in_parts() if stem_of(each) == part[0]] if part else []
    for each in (*wanted, *whole):
        place = records.found(each)
        if place is not None and place.kind == "mail":
            raw = archives.raw_at(place)
            if not is_numbered(each, name_of(Message(raw).wanted)):
                raise OSError(f"{each} has moved since it was brought in: run bunco mail again")
            return raw
    return None


def show(archive, name, as_it_stands):
    """Prints the message of this name or id, or of the one that this is a part of."""
    raw = found_in(archive, name)
    if raw is None:
        print(f"mail: {archive}: it has no message {name}", file=sys.stderr)
        return 1
    if as_it_stands:
        with quiet_end():
            sys.stdout.buffer.write(raw)
            sys.stdout.buffer.flush()
    else:
        text = Message(raw).text()
        shown = f"Subject: {text.title}\n{text.head}\n\n{text.body.rstrip()}\n"
        write(printable(shown) if sys.stdout.isatty() else shown)
    return 0


# --- The command.


def parser():
    """What the words of the command may be."""
    parser = parser_of("mail", __doc__, ("ARCHIVE ..", "mbox files, Maildirs, folders of messages, or files of one message"))
    parser.add_argument("--no-attachments", action="store_true", help="leave out the texts of attached files")
    parser.add_argument("--show", action="store_true", help="print a message: the words are ARCHIVE NAME, or INDEX NAME")
    parser.add_argument("--raw", action="store_true", help="print it as it stands in the archive")
    return parser


def main(arguments=None):
    words = parser()
    options = words.parse_args(arguments)
    if options.show and len(options.archive) > 1:
        words.error("--show goes with one archive and one name")
    if options.moved_from is not None and len(options.archive) > 1:
        words.error("--moved-from goes with one archive")
    paths = [options.index] if options.show else options.archive
    for archive in paths:
        if not os.path.exists(archive):
            print(f"mail: {archive}: there is none", file=sys.stderr)
            return BAD_USE
    if options.show:
        try:
            return show(options.index, options.archive[0], options.raw)
        except OSError as error:
            print(f"mail: {why_at(options.index, error)}", file=sys.stderr)
            return STOPPED
    attached = not options.no_attachments
    form = digest(form_of(attached), 4)
    sources = [
        (Source("mail", os.path.realpath(archive)), functools.partial(documents, archive, attached=attached)) for archive in dict.fromkeys(paths)
    ]
    return bring_as("mail", options, sources, form=form)
