"""What the page knows of the documents besides the index: titles, facts, texts, and what links need, in files of some kilobytes.

A page of answers loads the files in which its documents stand, so no file has many.
"""

from __future__ import annotations

import contextlib
import json
import os
import shutil
import tempfile
from typing import Dict, Iterable, Iterator, List, NamedTuple, Optional, Tuple
from urllib.parse import quote

from ..document import Text
from ..imports.packed import is_packed, opened
from ..imports.stamps import Found, Stamp, place_of
from ..replies import Row
from ..tools.documents import Places, text_at
from ..web.answers import Answer, fields_of, head_of, with_text
from ..web.markup import FORBIDDEN
from ..web.pages import facts_of_answer

KEPT = 100_000  # characters of a text that the site has
FILE_SIZE = 65_536  # bytes of records after which a file ends


class Record(NamedTuple):
    """A document, as `assets/searcher.js` takes it.

    `number` is that of its first part. `fields` are shown above the whole text; `place` stands behind the address of the documents: the
    path of a file below its folder, or else the name. `head` is what of the text stands above its body. Where the text is not there,
    `has_text` is false; `is_cut` says whether it goes on.
    """

    number: int
    kind: str
    title: str
    facts: List[str]
    fields: List[Tuple[str, str]]
    place: str
    head: str
    body: str
    has_text: bool
    is_cut: bool


class Part(NamedTuple):
    """A part of a document behind the first: its number, that of the first part, and the document's name."""

    number: int
    first: int
    name: str


class Unpacked:
    """Files that are packed, each unpacked once however many documents stand in it, in a `with`."""

    def __init__(self) -> None:
        self._paths: Dict[str, str] = {}

    def __enter__(self) -> "Unpacked":
        self._folder = tempfile.mkdtemp(prefix="bunco-site-")
        return self

    def __exit__(self, *what: object) -> None:
        shutil.rmtree(self._folder, ignore_errors=True)

    def at(self, found: Found) -> Found:
        """Where a document stands, in a file that is not packed if it is a piece of one."""
        if found.begin is None or not is_packed(found.path):
            return found
        if found.path not in self._paths:
            path = os.path.join(self._folder, str(len(self._paths)))
            with opened(found.path) as source, open(path, "wb") as target:
                shutil.copyfileobj(source, target)
            self._paths[found.path] = path
        return found._replace(path=self._paths[found.path])

    def text(self, found: Found) -> Optional[Text]:
        """The text of a document, None where it can't be had any more."""
        with contextlib.suppress(OSError, EOFError):
            text = text_at(self.at(found))
            return text if isinstance(text, Text) else None
        return None


def clean(text: str) -> str:
    """The text without what no page may have."""
    return FORBIDDEN.sub("\ufffd", text)


def place_below(stamp: Stamp, kind: str, name: str) -> str:
    """What stands behind the address of the documents, as in an URL."""
    return quote(os.fsencode(place_of(stamp.place).path or name)) if kind == "folder" else quote(name, safe="")


def record_of(number: int, name: str, stamp: Stamp, found: Found, text: Optional[Text]) -> Record:
    """The record of a document whose text may be there."""
    # The page says where a file stands below its folder, and not where that is on this machine.
    path = place_of(stamp.place).path if found.kind == "folder" else ""
    bare = Answer(number, name, None, found.kind, name, "", "", path, 1, [])
    place = place_below(stamp, found.kind, name)
    if text is None:
        return Record(number, found.kind, clean(name), facts_of_answer(bare), [], place, "", "", False, False)
    answer = with_text(bare, text)
    values = head_of(text)
    fields = fields_of(found.kind, values) + [("Attached", value) for value in values.get("Attachment", [])]
    if path:
        fields.append(("Stands in", path))
    return Record(
        number,
        found.kind,
        clean(answer.title),
        [clean(fact) for fact in facts_of_answer(answer)],
        [(field, clean(value)) for field, value in fields],
        place,
        clean(text.head),
        clean(text.body[:KEPT]),
        True,
        len(text.body) > KEPT or text.beyond > 0,
    )


class Documents:
    """What is known of the documents of an index: `rows` are theirs, by rising number.

    Behind the last record `parts` has the parts of documents, and `texts` says how many records have a text.
    """

    def __init__(self, rows: Iterable[Row], places: Places) -> None:
        self.parts: List[Part] = []
        self.texts = 0
        self._rows = rows
        self._places = places

    def records(self) -> Iterator[Record]:
        """The records by rising number, as their texts are read."""
        with Unpacked() as unpacked:
            for number, name in self._rows:
                whole = self._places.document(name)
                stamp = self._places.records().stamp(whole)
                # A stamp counts only beside the document that it is of.
                if stamp is None or number not in stamp.numbers:
                    continue
                if number != stamp.numbers[0]:
                    self.parts.append(Part(number, stamp.numbers[0], whole))
                    continue
                found = self._places.found(whole)
                if found is not None:
                    record = record_of(number, whole, stamp, found, unpacked.text(found))
                    self.texts += record.has_text
                    yield record


def files_of(records: Iterable[Record]) -> Iterator[Tuple[int, bytes]]:
    """The records in files, each with the number of its first record."""
    lines: List[str] = []
    first = size = 0
    for record in records:
        line = json.dumps(record, ensure_ascii=False, separators=(",", ":"))
        first = first if lines else record.number
        lines.append(line)
        size += len(line)
        if size >= FILE_SIZE:
            yield first, whole_file(lines)
            lines, size = [], 0
    if lines:
        yield first, whole_file(lines)


def whole_file(lines: List[str]) -> bytes:
    return f"[{','.join(lines)}]".encode()
