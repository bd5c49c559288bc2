"""An index, as docs/FORMAT.md has it: its levels, its journal, and the file that they make. Nothing of the program is used."""

from .answers import cells_of
from .segments import segment, stream

SLOT = 4096
HALF = 1048576
HEAD = 2 * SLOT + 2 * HALF
GATE = b"\xa5"


def level(documents):
    """The segment of documents: (number, first location, name, title, body)."""
    rows, lists = [], {}
    for number, first, name, title, body in documents:
        of_document = cells_of(name, title, body)
        rows.append((number, first, len(of_document), name.encode()))
        for location, terms in enumerate(of_document, first):
            for term in terms:
                lists.setdefault(term, []).append(location)
    return segment(rows, sorted(lists.items()))


def entry_of_add(name, title, body):
    out = b"\x01" + bytes([len(name)]) + name.encode()
    for text in (title, body):
        out += len(text).to_bytes(4, "big") + text.encode()
    return out


def entry_of_delete(number):
    return b"\x02" + number.to_bytes(8, "big")


def entry_of_replace(number, name, title, body):
    return b"\x03" + number.to_bytes(8, "big") + entry_of_add(name, title, body)[1:]


def journal(entries):
    """The bytes of a half: records behind open gates, up to a closed one."""
    return b"".join(GATE + len(entry).to_bytes(4, "big") + entry for entry in entries) + b"\0"


def index(version, slot, sequence, next_number, next_location, deleted, levels, entries, gaps):
    """The file with these levels and this list of deleted ends, with some unused bytes before each, and the places of the levels."""
    body, extents = b"", []
    for part, gap in zip([stream(deleted)] + levels, gaps):
        if not part:
            extents.append((0, 0))
            continue
        body += b"\xee" * gap
        extents.append((HEAD + len(body), len(part)))
        body += part
    fields = bytes([version, sequence, len(levels), 0, 0, 0, 0]) + next_number.to_bytes(8, "big") + next_location.to_bytes(8, "big")
    fields += b"".join(number.to_bytes(8, "big") for extent in extents for number in extent)
    root = (GATE + fields).ljust(SLOT, b"\0")
    # the other slot has the root before, without levels, and the other half what no longer counts
    older = bytes([1, (sequence - 1) % 256, 0, 0, 0, 0, 0]) + (1).to_bytes(8, "big") + (1).to_bytes(8, "big")
    older = (GATE + older).ljust(SLOT, b"\0")
    half = journal(entries).ljust(HALF, b"\0")
    old_half = journal([entry_of_add("old", "", "")]).ljust(HALF, b"\0")
    pair = [root, older, half, old_half] if slot == 0 else [older, root, old_half, half]
    return b"".join(pair) + body, [place for place, _ in extents[1:]]
