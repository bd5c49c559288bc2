"""Which name each document of an import gets: the one under which the index has it, or the first that is free."""

# What stands under a name without a stamp is replaced, since a stop may leave a document without its stamp. Only its name is
# known, so it could also be someone else's; the guide says so.
#
# Nothing has moved because its place is empty: a disk that is not mounted looks the same. So a changed file of another folder
# gets a name of its own, and `--moved-from` says more. A link in its place that leads on does say that it has moved. An
# unchanged file is known by a digest of its text. Size and time alone say nothing of two files in two folders, as where an
# archive gave all its files one time.

from __future__ import annotations

import functools
import os
from typing import NamedTuple, Optional

from .stamps import FRONT_LIMIT, Known, Place, Stamp, below, digest, is_numbered, name_of, numbered, part_name, place_of

# What goes into a stamp besides the document: another one, and all documents are made anew once.
FORM = b"parts and fields\n"
GONE = "gone"  # the mark of a document that the last run over its source did not see


def content_of(text):
    """The digest of a text, by which that of a file is known again in another folder."""
    return digest(f"{text.title}\0{text.body}\0{text.beyond}".encode(errors="surrogatepass"))


def has_content(document, content):
    try:
        return content_of(document.load()) == content
    except Exception:
        # It is looked at once more when it is sent, and then refused.
        return False


def stands(top, place=Place()):
    """Whether this place of a source is still there. Its path was the real one: where a link leads on from it now, it has moved."""
    return os.path.realpath(top) == top and os.path.exists(below(top, place))


class Chosen(NamedTuple):
    """The name that a document gets, its stamp, and what becomes of it: "unchanged", "repeated", or what it counts as.

    `moved` is the stamp that the name gets now, where the document is unchanged and stands in another place.
    """

    name: str
    stamp: str
    kind: str
    moved: Optional[Stamp] = None


class Naming:
    """The names of one run: `used` has those that its documents got, each with its stamp.

    `records` are the stamps of earlier runs, and `live` has the number of each name in the index, today's. `source` is the
    digest of what the documents come from, and `sources` has those of the places where that stood before, too. `form` is that of
    the import: what was brought in in another form is read again.
    """

    def __init__(self, records, live, source, sources, form=""):
        self.records = records
        self.live = live
        self.source = source
        self.sources = sources
        self.known = Known(form, self._known_places(), records.marks(sources, form))
        self.used = {}
        self.numbers = {}  # of a wanted name the first number that may be free, where that is not 1
        self.later = {}  # of the front of a wanted name, and a stamp, the names with a number
        for name in [name for name in records.of if "~" in name]:
            self._note_number(name, records.of[name].stamp)

    def counts_for(self, name, stamp):
        """Whether a stamp counts: the index has all its parts."""
        if len(stamp.numbers) == 1:
            return self.live.get(name) == stamp.numbers[0]
        return all(self.live.get(part_name(name, part)) == number for part, number in enumerate(stamp.numbers, 1))

    def _known_places(self):
        """Of each place in this source the name of the document that stands there, with its mark."""
        places = {place: (name, mark) for place, name, mark in self.records.repeats(self.sources) if self._counting(name)}
        for name, stamp in self.records.of.items():
            if stamp.source in self.sources and stamp.mark != GONE and self.counts_for(name, stamp):
                places[stamp.place] = (name, stamp.mark)
        return places

    def choose(self, document):
        """What the document gets, a `Chosen`; its name is used from then on."""
        wanted = name_of(document.wanted)
        stamp = digest(FORM + document.stamp)
        names = [wanted, *self.later.get((wanted[:FRONT_LIMIT], stamp), ())]
        for name in names:
            if document.exact and self.used.get(name) == stamp and is_numbered(name, wanted):
                return Chosen(name, stamp, "repeated")
        name = self._name_it_has(document, wanted, stamp, names) or self._name_it_gets(document, wanted)
        self.used[name] = stamp
        if name != wanted:
            self._note_number(name, stamp)
        known = self._counting(name)
        if known is None:
            return Chosen(name, stamp, "added again" if name in self.live else "added")
        if known.stamp != stamp or known.source in self.sources and known.notes != document.notes:
            return Chosen(name, stamp, "changed")
        # It has moved, or two sources have this document: its next change is this source's.
        now = known._replace(source=self.source, place=document.place or known.place, mark=self.known.marked(document.mark))
        return Chosen(name, stamp, "unchanged", now if now != known else None)

    def elsewhere(self, name, stamp):
        """The stamp of a document that has gone from this source and still stands in another one, to which it then belongs; else None."""
        for source, place, mark in self.records.elsewhere(name):
            if source not in self.sources and stands(self.records.sources[source].path, place_of(place)):
                return stamp._replace(source=source, place=place, mark=mark)
        return None

    def _note_number(self, name, stamp):
        front, mark, number = name.rpartition("~")
        if mark and number.isdecimal():
            self.later.setdefault((front[:FRONT_LIMIT], stamp), []).append(name)

    def _counting(self, name):
        """The stamp of this name where it counts, else None."""
        stamp = self.records.of.get(name)
        return stamp if stamp is not None and self.counts_for(name, stamp) else None

    @functools.cached_property
    def _places(self):
        """Of each place in this source the name of the document that was found there."""
        found = [(name, stamp) for name, stamp in self.records.of.items() if stamp.source in self.sources and self.counts_for(name, stamp)]
        found.sort(key=lambda pair: pair[1].source == self.source)
        return {stamp.place: name for name, stamp in found}

    def _name_it_has(self, document, wanted, stamp, names):
        """The name under which the index has the document, None where it has none: it need not be the first that is free."""
        if not document.exact:
            names = [self._places.get(document.place, wanted), *names]
        for name in names:
            known = self._counting(name)
            if known is not None and name not in self.used and is_numbered(name, wanted) and self._is_same(document, stamp, known):
                return name
        return None

    def _is_same(self, document, stamp, known):
        """Whether a stamp is that of the document, also where a file has changed."""
        if document.exact:
            return known.stamp == stamp
        if known.place not in ("", document.place):
            return False
        if known.source in self.sources:
            return known.stamp == stamp or known.place == document.place
        # The file of another folder: that folder has moved, or this is another file of the same size and time.
        source = self.records.sources.get(known.source)
        if known.stamp != stamp or source is None:
            return False
        return not stands(source.path, place_of(document.place)) and has_content(document, known.content)

    def _name_it_gets(self, document, wanted):
        """The first name that no other document has: it is free, or was this document's before."""
        while True:
            number = self.numbers.get(wanted, 1)
            name = numbered(wanted, number)
            known = self._counting(name)
            if name not in self.used and (known is None or self._is_older(document, known)):
                return name
            self.numbers[wanted] = number + 1

    def _is_older(self, document, known):
        """Whether what has another stamp can be the document as it was before."""
        if any(known.stamp == digest(FORM + former) for former in document.former):
            return True
        return known.source in self.sources and (document.exact or known.place in ("", document.place))
