"""The documents behind the answers: where they were found, their texts as they stand there, and the way into an editor."""

# A document is opened in an editor where it stands only if it is a file of a folder. A message of an mbox, a package and a
# packed file are pieces of something, and what the editor would write is not what stands there. They are copies that can't be
# written. The index is let go before the editor begins, but at the prompt, which has it as long as it runs.

import contextlib
import importlib
import os
import re

from ..imports.stampfile import has_none_in_parts, stamps_path
from ..texts import Regular

READERS = {"folder": "folder", "mail": "messages", "packages": "packages"}  # of each kind of import the module that reads a document again


def read(found):
    """The text of a document where it was found. Its import is loaded here: what counts answers needs none."""
    from ..document import Unfit

    if found.kind not in READERS:
        raise Unfit(f"this version knows no bunco {found.kind}")
    return importlib.import_module(f"..imports.{READERS[found.kind]}", __package__).read(found)


class Places:
    """Where the documents of an index were found, by its file of stamps, which is read when it is first asked for."""

    def __init__(self, index, moved=None):
        self.path = stamps_path(index)
        self.moved = moved
        self.read = None
        self.in_parts = frozenset()  # the names of the documents that are stored in parts
        self.long_stems = {}

    def records(self):
        if self.read is None:
            from ..imports.stamps import STEM_LIMIT, Records, stem_of

            self.read = Records(self.path)
            self.in_parts = frozenset(self.read.in_parts())
            self.long_stems = {stem_of(name): name for name in self.in_parts if len(name) > STEM_LIMIT}
        return self.read

    def document(self, name):
        """The name of the document that has this one as a part; any other name is a document's own."""
        if "~p" not in name:
            return name
        from ..imports.stamps import part_of

        part = part_of(name)
        if part is None:
            return name
        records = self.records()
        whole = self.long_stems.get(part[0], part[0])
        stamp = records.stamp(whole)
        return whole if stamp is not None and len(stamp.numbers) >= part[1] else name

    def named(self, word):
        """The name of the document that has this name or number."""
        name = self.document(word)
        if not word.isdecimal() or self.records().stamp(name):
            return name
        return self.records().name_of_number(int(word)) or word

    def is_in_parts(self, name):
        """Whether the document of this name is stored in parts."""
        self.records()
        return name in self.in_parts

    def moment(self, name):
        """When a document was written, in seconds since 1970, None where that is not known: as the stamps say, or else what it came from."""
        stamp = self.records().stamp(name)
        if stamp is not None and stamp.moment is not None:
            return stamp.moment
        found = self.found(name)
        return None if found is None else moment_at(found)

    def thread(self, name):
        """The word by which the messages of a document's thread are found, empty where it has none."""
        found = self.found(name)
        if found is None or found.kind != "mail":
            return ""
        from ..document import Unfit
        from ..imports import archives, messages

        try:
            return messages.Message(archives.raw_at(found)).thread
        except (OSError, Unfit):
            return ""

    def has_parts(self):
        """Whether any document is stored in parts. Where the first bytes of the stamps say that none is, no more is loaded."""
        if self.read is None and has_none_in_parts(self.path):
            return False
        self.records()
        return bool(self.in_parts)

    def found(self, name):
        return self.records().found(name, self.moved)


def text_at(found):
    """The text of a document, or in its place why there is none."""
    from ..document import Unfit

    try:
        return read(found)
    except FileNotFoundError:
        return "gone"
    except (OSError, Unfit) as fault:
        return getattr(fault, "strerror", None) or str(fault)


THREAD = Regular(r"(?<!\S)thread:[!-~]+")


def thread_of(text):
    """The word by which the messages of one thread are found, empty where a text has none."""
    found = THREAD.search(text.terms)
    return found[0] if found else ""


def moment_at(found):
    """When a document was written, in seconds since 1970: a message by its Date, a file by its time; else None."""
    try:
        if found.kind == "folder":
            return os.stat(found.path).st_mtime
        if found.kind == "mail":
            from ..imports import archives, header, messages

            return messages.moment_of(header.parted(archives.raw_at(found))[0])
    except (OSError, ValueError, OverflowError, TypeError, IndexError):
        pass
    return None


def head_fields(text):
    """The fields of a text's head, each with its values."""
    found = {}
    for line in text.head.split("\n"):
        field, colon, value = line.partition(": ")
        if colon:
            found.setdefault(field, []).append(value)
    return found


def day_of(fields):
    """The day of a message, without the number by which ranges of values find it; empty where it has none."""
    return fields.get("Date", [""])[0].partition(" ")[0]


def shown_path(path):
    """A path as it is named from here, where it stands below."""
    below = os.path.relpath(path)
    return path if below.startswith(os.pardir) else below


# --- Whole documents.


def whole_lines(found, text):
    """The lines of a document as it is shown: of a message and a package behind what is known of it."""
    body = text.body.rstrip("\n").split("\n")
    if found.kind == "folder":
        return body
    title = f"Subject: {text.title}" if found.kind == "mail" else text.title
    return [title, *(text.head.split("\n") if text.head else []), "", *body]


def about(text):
    """A line that says what a message or a package is."""
    fields = head_fields(text)
    front = " ".join(filter(None, (day_of(fields), fields.get("From", [""])[0])))
    return ": ".join(filter(None, (front, text.title)))


# --- In an editor.


def edit(name, found, text, line):
    """Opens a document in the user's editor, at a line of those that are shown, and answers the editor's status.

    A file of a folder is opened where it stands; anything else as a copy to be read, of which no change goes anywhere.
    """
    from ..imports.packed import is_packed
    from ..terminal import edited

    if found.kind == "folder" and not is_packed(found.path):
        return edited(found.path, line)
    with reading_copy(name, "\n".join(whole_lines(found, text)) + "\n") as path:
        return edited(path, line)


@contextlib.contextmanager
def reading_copy(name, content):
    """The path of a file with this content that is named after the document, as long as it is needed."""
    import tempfile

    with tempfile.TemporaryDirectory(prefix="bunco-") as place:
        path = os.path.join(place, re.sub("[^A-Za-z0-9@._+-]", "-", name).lstrip("-.") + ".txt")
        with open(path, "w", encoding="utf-8", errors="surrogateescape") as file:
            file.write(content)
        os.chmod(path, 0o400)
        yield path
