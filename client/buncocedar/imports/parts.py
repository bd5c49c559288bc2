"""The lines that a document becomes: its text without waste, and in parts where it is too long for a line."""

# A long document is several documents, and `bunco find` alone makes one answer of them. The program knows no parts, so a
# query is answered part by part, and `count` counts parts. Each part has the title, and of a message the lines of its header,
# so that `"from ann" fox` finds a fox anywhere in a long message. A name that ends like a part's is changed as one that
# breaks the rule on names. One document over several lines would be another format and another machine.

import unicodedata

from ..document import Unfit
from ..lines import LINE_LIMIT, TITLE_ROOM
from ..texts import fitted, one_line
from .inner import inner_words
from .stamps import part_name

OVERLAP = 100  # words of a part that the next one has too


def spaced(text):
    """The text with one space for each run of blanks and line ends, since more words fit in a line so, and with composed letters
    (NFC), since a query has them.
    """
    # A regular expression takes seven times as long.
    for blank in "\t\r\n\f\v":
        text = text.replace(blank, " ")
    while "  " in text:
        text = text.replace("  ", " ")
    return unicodedata.normalize("NFC", text.strip(" "))


def character_start(data, at):
    """The start of the character that has this byte of UTF-8."""
    while data[at] & 0xC0 == 0x80:
        at -= 1
    return at


def overlap_start(data, least, end):
    """Where the last words before a place begin: a hundred, or as many as stand behind `least`."""
    at = end
    for _ in range(OVERLAP):
        blank = data.rfind(b" ", least, at)
        if blank < 0:
            break
        at = blank
    return at + 1 if at < end else character_start(data, least)


def pieces(text, room):
    """The text in pieces, cut at a blank where there is one, each with the last words before it.

    Each has at most so many bytes with the words inside of its words.
    """
    data = text.encode()
    begin = 0
    while begin < len(data):
        reach = begin + room_for(data[begin : begin + room], room)
        if len(data) <= reach:
            break
        blank = data.rfind(b" ", begin + (reach - begin) // 2, reach + 1)
        end = blank if blank > 0 else character_start(data, reach)
        yield data[begin:end].decode()
        begin = overlap_start(data, end - (reach - begin) // 4, end)
    yield data[begin:].decode()


def room_for(data, room):
    """How many bytes of a text fit with the words inside of its words, which are at most twice as long."""
    inner = len(inner_words(data.decode(errors="ignore")).encode())
    return max(room - inner - 1, room // 3) if inner else room


def size(text):
    """How many bytes of UTF-8 a text has."""
    return len(text) if text.isascii() else len(text.encode())


def joined(*texts):
    return " ".join(filter(None, texts))


def with_inner(text):
    """A text with the words inside of its words behind it."""
    return joined(text, inner_words(text))


def parts_of(name, text, whole):
    """The parts of a document, each a (name, title, body). Raises `Unfit` where `whole` asks for one and it has more."""
    title, body, head, terms = (one_line(spaced(part)) for part in (text.title, text.body, text.head, text.terms))
    title = with_inner(title)
    front = joined(with_inner(head), terms)
    limit, room = LINE_LIMIT, TITLE_ROOM
    line = joined(front, with_inner(body))
    length = len(f"add {name}\t{title}\t{line}".encode())
    if length <= limit:
        return [(name, title, line)]
    if whole:
        raise Unfit(f"its line has {length:,} bytes where {limit:,} may be")
    if len(front.encode()) > room:
        front, body = "", joined(head, terms, body)
    short = fitted(title, room)
    if short != title:
        body = joined(title, body)
    used = len(f"add \t{short}\t{front} ".encode()) + 64
    found = enumerate(pieces(body, limit - used), 1)
    return [(part_name(name, number), short, joined(front, with_inner(piece))) for number, piece in found]
