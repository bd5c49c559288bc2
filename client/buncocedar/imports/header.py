"""The header of a message: its fields, and their values as text."""

# Bytes beyond ASCII in fields are taken as they stand, and encoded words are given to the email package one by one: of a run
# of them it would take quadratic time.

import codecs
import email.errors
import email.header
import itertools
import re

from .archives import FIELD

ENCODED = r"=\?[^?\s]*\?[bBqQ]\?.*?\?="
WORD = re.compile(ENCODED)
WORDS = re.compile(rf"{ENCODED}(?:\s*{ENCODED})*")
# Codecs of charsets that say nothing of the letters beyond ASCII, or whose decoding takes quadratic time.
UNUSED_CODECS = ("ascii", "idna", "punycode")


class Header:
    """The fields of a header: `fields` has each as its lines, and `names` the name of each in lower case."""

    def __init__(self, fields):
        self.fields = fields
        self.names = []
        self._behind = {}  # of each name what stands behind its colon, field by field
        for field in fields:
            name, _, rest = field.partition(b":")
            name = name.strip().lower()
            self.names.append(name)
            self._behind.setdefault(name, []).append(rest)

    def values(self, name):
        """The values of the fields of this name, each on one line."""
        return list(map(on_one_line, self._behind.get(name, ())))

    def value(self, name):
        """The value of the first field of this name, on one line; empty where there is none."""
        behind = self._behind.get(name)
        return on_one_line(behind[0]) if behind else b""


def on_one_line(lines):
    return b" ".join(map(bytes.strip, lines.splitlines())).strip()


def parted(raw):
    """The header of a message and its body. A line of another form is passed over."""
    end = re.search(rb"^\r?\n", raw, re.MULTILINE)
    head, body = (raw[: end.start()], raw[end.end() :]) if end else (raw, b"")
    found = []
    for line in head.splitlines(True):
        if line[:1] in (b" ", b"\t"):
            if found:
                found[-1].append(line)
        elif FIELD.match(line):
            found.append([line])
    return Header([b"".join(lines) for lines in found]), body


# --- Text.


def codec_of(charset):
    """The name of the codec of a charset, None where there is none that is used."""
    try:
        name = codecs.lookup(charset).name if charset else None
    except (LookupError, ValueError):
        return None
    return None if name in UNUSED_CODECS else name


def decoded(data, charset=None):
    """The bytes as text: in this charset where it is known, and else UTF-8, or Latin-1 where they are none."""
    codec = codec_of(charset)
    if codec:
        try:
            # Some give halves of characters, which nothing can be encoded with.
            return re.sub("[\ud800-\udfff]", "\ufffd", data.decode(codec, "replace"))
        except (LookupError, ValueError):
            pass
    try:
        return data.decode()
    except UnicodeDecodeError:
        return data.decode("latin-1")


def heading(data):
    """A header's value as text, with its encoded words decoded.

    Only the words are given to `decode_header`: of what stands between them it would read a backslash as an escape.
    """
    text = decoded(data)
    # Behind the last end of a word each beginning of one would be looked along to the end.
    end = text.rfind("?=") + 2
    return WORDS.sub(lambda words: decoded_words(words[0]), text[:end]) + text[end:] if end > 1 else text


def decoded_words(words):
    """The text of encoded words that stand one behind the other; as they stand where they cannot be decoded."""
    try:
        pieces = [email.header.decode_header(word)[0] for word in WORD.findall(words)]
    except (email.errors.MessageError, ValueError):
        return words
    # What words of one charset have is decoded together: a letter may begin in one and end in the next.
    runs = itertools.groupby(pieces, key=lambda piece: piece[1])
    return "".join(decoded(b"".join(data for data, _ in run), charset.partition("*")[0]) for charset, run in runs)
