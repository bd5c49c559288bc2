"""Brings documents into an index: those that are new or have changed, and none twice, through any stop.

What is done is kept beside the index, in a file of stamps (`stamps.py`). A stamp is written behind the replies to its
document, so a stop may leave a document without its stamp, and never a stamp without its document; and a stamp counts only
where the index has documents of those names and numbers. What has no stamp that counts is added, in the place of what stands
under its name: a stop leaves the one or the other.

A document that is too long for a line goes in as several, its parts: `NAME`, `NAME~p2`, `NAME~p3`, .., each with its title and
with the last hundred words of the part before, so that a phrase over the border is found.
"""

# An import replaces a document's parts first, and then deletes those that it has no more. So something of the document is
# always there. A stop in between leaves parts of both, without a stamp that counts, and the next run stores them all anew.
#
# What is gone is deleted only by `--prune`, after a run that reached the end of its source, saw each of its folders, and
# found anything at all: a disk that is not mounted is no empty archive.
#
# An import merges where there are sixteen levels and one more in the journal. From there on each full journal joins the two
# oldest levels, and the oldest has all that was merged before, so each megabyte would write the whole of the old text again.
# Merging sooner, as each 12 MB, writes more: 6.3 bytes for a byte of text at 100 MB in place of 5.3 (bench/growth.py).
# Merging at a third of what there is was measured at 8.6 bytes at 88 MB. An import
# counts what goes into the journal, since the file does not say how full it is.

import os
from collections import deque
from typing import NamedTuple, Optional

from ..document import TEXT_LIMIT, NoText, Unchanged
from ..errors import Error, Refused
from ..fileformat import HALF, LEVELS, Unusable, level_count
from ..shards.errors import NotAnswered
from .log import several
from .making import Job
from .naming import GONE, Naming, stands
from .parts import size
from .stamps import NOT_THERE, PART, Place, Stamp, below, is_numbered, name_of, part_name, part_of, place_of, stem_of
from .summary import Summary

EVERY_DOCUMENT = "NOT name:! OR name:!"
RECORD = 17  # bytes that a line takes more in the journal, at most


class Sent(NamedTuple):
    """A document under way: the replies to the adds of its parts, and to the deletions of those that it has no more.

    `parts` and `older` are how many it has, and has no more; what stands behind `gone` is for its stamp.
    """

    name: str
    kind: str
    stamp: str
    place: str
    parts: int
    older: int
    added: list
    gone: list
    content: str = ""
    mark: str = ""
    notes: str = ""
    moment: Optional[int] = None

    def is_answered(self):
        """Replies come in the order of their lines, so the last one is there when all are."""
        replies = self.added + self.gone
        return len(replies) == self.parts + self.older and replies[-1][1].answered

    def is_lost(self):
        """Whether it will get no answer, though others behind it may: its shard gave none."""
        return any(isinstance(reply.error, NotAnswered) for _, reply in self.added + self.gone if reply.settled)

    def why_lost(self):
        return next(reply.error for _, reply in self.added + self.gone if isinstance(reply.error, NotAnswered))

    def is_stored_in_part(self):
        """Whether a part of it is stored, and another one is not."""
        return 0 < sum(was_done(reply) for _, reply in self.added) < self.parts

    def was_deleted(self):
        """Whether something that stood under its name is deleted."""
        return any(was_done(reply) for _, reply in self.gone)


def was_done(reply):
    return reply.answered and reply.error is None


class Options(NamedTuple):
    """How an import is to be done, as its words say. `moved_from` is where its folder or archive stood before.

    `file` is the one that is read, where all files are one source, and empty where that is no file. `may_pause` says that the source
    may give nothing for a while, as a pipe: what it gave before is sent meanwhile. `form` changes where the same source gives other
    documents: what was brought in in another form is read again. `jobs` is how many processes read, and `shards` in how many files a
    new index is made, where that is not one.
    """

    whole: bool = False
    prune: bool = False
    merge: bool = True
    verbose: bool = False
    wait: float = 10.0
    moved_from: Optional[str] = None
    file: str = ""
    may_pause: bool = False
    form: str = ""
    jobs: Optional[int] = None
    shards: Optional[int] = None


class Import:
    """One run over the documents of a source: which of them are sent, and what is kept of the replies."""

    def __init__(self, index, stamps, source, options, log, makers, growth):
        self.index = index
        self.stamps = stamps
        self.options = options
        self.log = log
        self.archives = {below(source.path, Place(options.file))}  # where the documents stand, or stood before
        self.sources = set()
        if options.moved_from is not None:
            old = os.path.abspath(options.moved_from)
            is_known = any(self.is_from(stamp, source.kind, old) for stamp in stamps.of.values())
            self.note_move(source.kind, old if is_known else os.path.realpath(old))
        self.source = stamps.source(*source)
        self.sources.add(self.source)
        self.live = {name: number for number, name in index.search(EVERY_DOCUMENT)}
        self.parts = {}  # of each stem the number of its last part
        for name in self.live:
            self.note_part(name)
        self.naming = Naming(stamps, self.live, self.source, self.sources, options.form)
        self.known = self.naming.known
        self.makers = makers
        self.growth = growth
        self.chosen = {}  # of each name whose lines are being made its `Chosen` and its document
        self.anew = set()  # names whose documents were sent, or are to be
        self.repeated = set()  # places of documents that stand elsewhere, too
        self.summary = Summary(log, options.verbose, options.prune)
        self.sent = deque()
        self.levels = Levels(levels_of(index.path) + bool(self.live))
        self.look_for_losses()

    def note_part(self, name):
        if PART in name and (part := part_of(name)):
            stem, number = part
            self.parts[stem] = max(number, self.parts.get(stem, 0))

    def note_move(self, kind, path):
        """Takes what was brought in from another path for what stands in this source."""
        if stands(path):
            raise Unusable(f"nothing has moved from {path}: it is still there")
        self.sources = {stamp.source for stamp in self.stamps.of.values() if self.is_from(stamp, kind, path)}
        if not self.sources:
            raise Unusable(f"nothing was brought in from {path}")
        self.archives.add(path)

    def is_from(self, stamp, kind, path):
        source = self.stamps.sources.get(stamp.source)
        return source is not None and source.kind == kind and self.stamps.archive(stamp) == path

    def look_for_losses(self):
        """Says where the index has forgotten what an earlier run brought in."""
        stamped = [number for stamp in self.stamps.of.values() for number in stamp.numbers]
        given = set(self.index.gave(stamped)) if stamped else set()
        numbers = [number for number in stamped if number not in given]
        if numbers:
            self.log.say(
                f"the index has lost the documents {min(numbers):,} to {max(numbers):,} since the last run: its file was changed, or "
                "made anew, or an older copy put in its place; what is still in the archives is added again"
            )

    # -- One document.

    def take(self, document):
        """Brings one document in, or only counts it where the program has ended."""
        chosen = self.naming.choose(document)
        name, _, kind, moved = chosen
        if moved is not None:
            self.move(name, moved)
        if kind in ("unchanged", "repeated"):
            self.summary.counts[kind] += 1
            if kind == "repeated":
                mark = self.known.marked(document.mark) or self.known.places.get(document.place, NOT_THERE)[1]
                self.note_repeat(document.place, name, mark)
        elif self.summary.end is not None:
            self.summary.leave(name)
        else:
            self.anew.add(name)
            self.chosen[name] = (chosen, document)
            self.makers.put(Job(name, document.load, not document.exact, self.options.whole), document.size)

    def take_unchanged(self, unchanged):
        """Counts documents that stand where they stood, unread; one whose name is another's meanwhile is read, and taken."""
        used, marks = self.naming.used, self.known.places
        for place, name in unchanged.names:
            stamp = self.stamps.of.get(name)
            if stamp is None or name in self.anew:
                document = unchanged.read(place)
                if document is not None:
                    self.take(document)
                continue
            kind = "repeated" if name in used else "unchanged"
            used[name] = stamp.stamp
            self.summary.counts[kind] += 1
            if kind == "repeated":
                self.note_repeat(place, name, marks[place][1])
            elif stamp.place != place or stamp.source != self.source:
                self.move(name, stamp._replace(source=self.source, place=place, mark=marks[place][1]))

    def move(self, name, moved):
        """Writes that a document stands in another place, and, where that is another source's, that it still stands in that one."""
        known = self.stamps.of[name]
        if known.source not in self.sources:
            self.stamps.put_repeat(known.source, known.place, name, known.mark)
        self.stamps.put({name: moved})

    def note_repeat(self, place, name, mark):
        """Notes where else a document stands, so that the next run need not read it there."""
        self.repeated.add(place)
        if self.known.places.get(place) != (name, mark):
            self.stamps.put_repeat(self.source, place, name, mark)

    def send_made(self, all_of_them=False):
        """Sends the documents whose lines are made, all that were taken or those that are there."""
        for job, made in self.makers.ready(all_of_them):
            chosen, document = self.chosen.pop(job.name)
            if self.summary.end is not None:
                self.summary.leave(job.name)
            elif isinstance(made, Exception):
                self.summary.note_fault(job.name, document.wanted, made)
                if isinstance(made, NoText):
                    # What stands there now is no text, so the text of a run before is gone.
                    del self.naming.used[job.name]
            else:
                mark = self.known.marked(document.mark)
                sent = Sent(job.name, chosen.kind, chosen.stamp, document.place, 0, 0, [], [], made.content, mark, document.notes, made.moment)
                self.send(sent, made, document)
                self.collect()

    def send(self, sent, made, document):
        """Sends a document. What is refused here is refused before anything of its older text is replaced."""
        gone = self.standing(sent.name, but=[name for name, _, _ in made.parts])
        sent = sent._replace(parts=len(made.parts), older=len(gone))
        self.sent.append(sent)
        try:
            self.replace(sent, made.parts, gone)
        except Refused as fault:
            self.sent.pop()
            self.summary.note_fault(sent.name, document.wanted, fault)
            return
        except Error as end:
            self.summary.end = end
            return
        self.summary.in_parts += len(made.parts) > 1
        if made.beyond:
            self.summary.cut += 1
            self.log.say(f"cut {sent.name}: {made.beyond:,} bytes of its text left out, behind {TEXT_LIMIT:,}")
        if self.options.merge and self.levels.count > LEVELS:
            self.merge()

    def replace(self, sent, parts, gone):
        """Sends the lines that put these parts in the place of those of their names, and delete the others.

        This is the one place that sends adds and deletions.
        """
        for name, title, body in parts:
            sent.added.append((name, self.index.send_add(name, title, body)))
            length = size(title) + size(body)
            self.summary.bytes += length
            self.growth.put(length)
            self.levels.put(len("add \t\t") + len(name) + length)
            self.collect()
        for name in gone:
            sent.gone.append((name, self.index.send_delete(name)))
            self.levels.put(0)

    def standing(self, name, but=()):
        """The names under which the index has a document and its parts, but for some of them."""
        count = max(1, self.parts.get(stem_of(name), 1))
        names = (part_name(name, number) for number in range(1, count + 1))
        return [name for name in names if name in self.live and name not in but]

    def merge(self):
        """Joins all levels, so that no level is written again for each full journal."""
        self.levels = Levels(1)
        self.log.progress(lambda: f"{several(self.summary.stored())} stored; the levels are joined")
        try:
            self.index.merge()
        except Refused:
            # An older program, which has no levels.
            pass
        except Error as end:
            self.summary.end = end

    # -- Replies.

    def collect(self):
        """Takes the replies that have come, in order, and writes the stamps of what is stored."""
        stamps = {}
        while self.sent and (self.sent[0].is_answered() or self.sent[0].is_lost()):
            sent = self.sent.popleft()
            numbers = () if sent.is_lost() else self.numbers_of(sent)
            if sent.is_lost():
                self.summary.lose(sent.name, sent.why_lost())
                self.note_what_is_stored(sent)
            if numbers:
                self.summary.counts[sent.kind] += 1
                stamps[sent.name] = Stamp(numbers, sent.stamp, self.source, sent.place, sent.content, sent.mark, sent.notes, sent.moment)
        if stamps:
            self.stamps.put(stamps)

    def numbers_of(self, sent):
        """The numbers of a document's parts, all answered; none where one of them was refused."""
        refusals = [reply.error for _, reply in sent.added if reply.error is not None]
        for name, reply in sent.added:
            if reply.error is None:
                self.live[name] = int(reply.result())
                self.note_part(name)
        for name, reply in sent.gone:
            if reply.error is None:
                self.live.pop(name, None)
        if refusals:
            self.summary.refuse(sent.name, sent.name, refusals[0])
            self.note_what_is_stored(sent)
            return ()
        return tuple(self.live[name] for name, _ in sent.added)

    def note_what_is_stored(self, sent):
        if sent.is_stored_in_part():
            self.summary.stored_in_part.append(sent.name)

    # -- The run.

    def run(self, documents, interrupts):
        """Brings the documents in up to their end, an interrupt, or a fault, and takes the replies under way."""
        try:
            for document in interrupts.each(documents):
                (self.take_unchanged if isinstance(document, Unchanged) else self.take)(document)
                if self.chosen or self.sent:
                    self.send_made()
                    if self.options.may_pause:
                        # Changes wait for others, to be written together: there may be none for long.
                        self.index.settle(0)
                    self.collect()
                self.log.progress(lambda: self.summary.so_far(len(self.sent) + len(self.chosen)))
                if self.stamps.fault:
                    break
        except OSError as error:
            self.summary.fault = f"the source could not be read: {error}"
        self.send_made(all_of_them=not (interrupts.count or self.stamps.fault))
        if not (interrupts.count or self.summary.fault or self.stamps.fault or self.summary.end):
            self.look_for_gone()
            if self.options.prune:
                self.prune(interrupts)
            self.note_what_was_read()
        self.finish()
        self.summary.interrupted = interrupts.count > 0
        self.stamps.flush()
        self.summary.fault = self.summary.fault or self.stamps.fault

    def note_what_was_read(self):
        """Notes which files need not be read by the next run: those of a run in which nothing was refused."""
        self.stamps.put({name: self.stamps.of[name]._replace(mark=GONE) for name in self.summary.gone if name in self.stamps.of})
        if self.summary.counts["refused"] or self.sent:
            return
        read = set(self.known.noted)
        if not read:
            return
        stale = [place for place, (name, _) in self.known.places.items() if place not in self.repeated and place_of(place).path in read]
        self.stamps.drop_repeats(self.source, stale)
        self.stamps.put_marks(self.source, self.options.form, self.known.noted)

    def look_for_gone(self):
        """Finds what an earlier run brought in and this one did not see.

        Where the source gave nothing, or a part of it could not be looked at, that says nothing of what is in it.
        """
        self.index.settle()
        self.collect()
        self.stamps.flush()
        kind = self.stamps.sources[self.source].kind
        others = {}
        for name in [name for name in self.stamps.of if name not in self.naming.used]:
            stamp = self.stamps.of[name]
            if not self.naming.counts_for(name, stamp) or not self.is_of_kind(kind, name, stamp):
                continue
            archive = self.stamps.archive(stamp)
            if stamp.source in self.sources and archive in self.archives:
                other = self.naming.elsewhere(name, stamp)
                if other is None:
                    self.summary.gone.append(name)
                else:
                    self.stamps.put({name: other})
            else:
                others[archive] = others.get(archive, 0) + 1
        if self.sent or self.summary.unseen or self.summary.gave_nothing():
            self.summary.gone = []
        self.summary.missing = {path: count for path, count in others.items() if os.path.isabs(path) and not stands(path)}

    def is_of_kind(self, kind, name, stamp):
        """Whether a document was brought in from a source of this kind.

        A file has its path as its name, and nothing else has: of a version before, a folder of files and a Maildir at one path can
        have one source.
        """
        source = self.stamps.sources.get(stamp.source)
        path = place_of(stamp.place).path
        return source is not None and source.kind == kind and (not path or is_numbered(name, name_of(path)) == (kind == "folder"))

    def prune(self, interrupts):
        """Deletes what is gone, up to an interrupt."""
        for name in self.summary.gone:
            if interrupts.count:
                break
            sent = Sent(name, "", "", "", 0, 0, [], [])
            try:
                self.replace(sent, [], self.standing(name))
                self.index.settle()
            except Error as end:
                self.summary.end = end
                break
            if not sent.was_deleted():
                break
            for part, _ in sent.gone:
                del self.live[part]
            self.stamps.drop([name])
            self.summary.pruned += 1

    def finish(self):
        """Waits for the replies under way. What gets none is left; where it is stored in part, that is noted."""
        self.index.settle()
        self.collect()
        if self.summary.end is None and self.levels.has_much():
            self.flush()
        if self.sent:
            self.summary.first_left = self.sent[0].name
            self.summary.is_doubtful = True
        for sent in self.sent:
            self.summary.leave(sent.name)
            self.note_what_is_stored(sent)

    def flush(self):
        """Writes the journal as a level, so that nobody who opens the index has to read it."""
        try:
            self.index.flush()
            self.levels.empty()
        except Refused:
            # There is no room for a level: the journal has all.
            pass
        except Error as end:
            self.summary.end = end


class Levels:
    """How many levels an index has as lines go in, with the one that its journal becomes when it is full.

    There are sixteen at most: with one more in the journal the next to be written has the two oldest joined before, and the oldest has
    all that was ever merged. So a merge comes first.
    """

    def __init__(self, count):
        self.count = count
        self.used = HALF  # bytes of the journal, which is taken for full where it is not known
        self.put_bytes = 0  # of those, what this run has put in

    def put(self, size):
        """A line of so many bytes goes in."""
        if self.used + size + RECORD > HALF:
            self.count += 1
            self.empty()
        self.used += size + RECORD
        self.put_bytes += size + RECORD

    def empty(self):
        """The journal has become a level."""
        self.used = self.put_bytes = 0

    def has_much(self):
        """Whether this run has filled so much of the journal that it pays to make a level of that."""
        return self.put_bytes > HALF // 8


def levels_of(path):
    """How many levels the file has, as far as it tells it."""
    try:
        with open(path, "rb") as file:
            return level_count(file)
    except OSError:
        return 0
