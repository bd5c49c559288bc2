"""What an import takes: a document, the text of it, and why there is none."""

from typing import Any, Callable, List, NamedTuple, Optional, Tuple

TEXT_LIMIT = 33_554_432  # bytes of a text that are looked at


class Text(NamedTuple):
    """What of a document goes into its lines: the head into each. `beyond` is how many bytes of its text were not looked at.

    `terms` are words that find it and are shown nowhere, as `from:ann` and `ext:c`; they go into each line, too. `moment` is when it was
    written, in seconds since 1970, where that is known.
    """

    title: str
    body: str
    beyond: int = 0
    head: str = ""
    terms: str = ""
    moment: Optional[int] = None


class Document(NamedTuple):
    """A document to be brought in. `load` is called only where it is new or has changed, and raises `Unfit` or `OSError`. Where it can
    be pickled, with what it answers, it may be called in another process.

    `place` is where it stands in its source, as `stamps.Place` spells it. `exact` says whether documents of one name and stamp
    are the same: where it is false, as of the size and time of a file, they are where they stand at one place of one source.
    `former` are the stamps that older versions gave it, where those were others. `mark` is the size and time of the file that
    the document is, by which the next run knows it without reading it. `notes` are words for what its archive notes of it:
    a document with other notes is brought in again, and is the same. `size` is about how many bytes `load` reads.
    """

    wanted: str
    stamp: bytes
    load: Callable[[], Text]
    place: str = ""
    exact: bool = True
    former: Tuple[bytes, ...] = ()
    mark: str = ""
    notes: str = ""
    size: int = 0


class Unchanged(NamedTuple):
    """Documents of a source that are as they were, and were not read: of each its place and its name.

    `read` answers the `Document` that is read at a place, or None where there is none.
    """

    names: List[Tuple[str, str]]
    read: Callable[[str], Any]


class Unfit(Exception):
    """Why a document can't be brought in."""


class NoText(Unfit):
    """It is no text: it is passed over, and no fault."""


class Unseen(Unfit):
    """Why a part of the source could not be looked at: documents may stand there."""
