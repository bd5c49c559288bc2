"""What a run of an import has done, counted as it goes and said at its end."""

from __future__ import annotations

import time

from ..document import NoText, Unseen
from ..errors import Full
from ..lines import LINE_LIMIT
from .log import several

KINDS = ("added", "changed", "added again", "unchanged", "repeated", "passed over", "refused", "left")


class Summary:
    """The counts of a run are of documents, each in one of them. What is stored was answered; what was not answered is left."""

    def __init__(self, log, verbose=False, prunes=False):
        self.log = log
        self.verbose = verbose
        self.prunes = prunes
        self.counts = dict.fromkeys(KINDS, 0)
        self.in_parts = 0
        self.cut = 0
        self.bytes = 0
        self.stored_in_part = []  # names of documents
        self.gone = []  # names of documents of earlier runs that this one did not see
        self.pruned = 0  # of those
        self.missing = {}  # of each archive that is not there how many documents came from it
        self.unseen = False  # a part of the source could not be looked at
        self.first_left = None
        self.lost = 0  # documents that got no answer of their shard
        self.is_doubtful = False  # the first document that is left may be stored
        self.end = None  # how the program ended, where it did
        self.fault = None  # why else the run stopped
        self.interrupted = False
        self.begun = time.monotonic()

    # -- As it goes.

    def refuse(self, name, wanted, why):
        self.counts["refused"] += 1
        self.log.say(f"refused {name if name == wanted else ascii(wanted)}: {why}")

    def note_fault(self, name, wanted, fault):
        """Counts a document whose text could not be had or sent: as passed over where it is none, and else as refused."""
        if isinstance(fault, NoText):
            self.pass_over(wanted, fault)
            return
        self.unseen = self.unseen or isinstance(fault, Unseen)
        self.refuse(name, wanted, fault.strerror or fault if isinstance(fault, OSError) else fault)

    def pass_over(self, wanted, why):
        self.counts["passed over"] += 1
        if self.verbose:
            self.log.say(f"passed over {ascii(wanted)}: {why}")

    def leave(self, name):
        self.counts["left"] += 1
        self.first_left = self.first_left or name

    def lose(self, name, why):
        """Counts a document whose shard gave no answer, so that it may be stored or not; why is said of the first."""
        self.leave(name)
        self.is_doubtful = True
        if not self.lost:
            self.log.say(f"{name} got no answer: {why}")
        self.lost += 1

    def stored(self):
        return self.counts["added"] + self.counts["changed"] + self.counts["added again"]

    def gave_nothing(self):
        """Whether the source had no document, or only what is none."""
        return sum(self.counts.values()) == self.counts["passed over"]

    def so_far(self, under_way):
        """The line of progress, with so many documents under way."""
        seconds = max(time.monotonic() - self.begun, 0.001)
        looked = sum(self.counts.values()) + under_way
        rate = self.bytes / seconds / 1000
        return f"{several(looked)}, {self.stored():,} stored, {rate:,.0f} kB a second, {self.counts['refused']:,} refused"

    # -- At the end.

    def report(self):
        """Says what was done, exactly: what is stored was answered, and what was not answered is not counted as stored."""
        counts = self.counts
        parts = [f"{number:,} {kind}" for kind, number in counts.items() if kind != "left" and (number or kind == "added")]
        self.log.say(f"{several(sum(counts.values()))}: {', '.join(parts)}")
        if counts["passed over"] and not self.verbose:
            self.log.say("what is passed over is no text; --verbose lists it")
        if self.in_parts:
            self.log.say(f"{several(self.in_parts)} in parts, since a line has {LINE_LIMIT:,} bytes")
        if self.cut:
            self.log.say(f"{several(self.cut)} cut")
        self._report_gone()
        if self.end is not None:
            self.log.say(f"the program ended: {self.end}")
        if counts["left"]:
            self.log.say(f"{several(counts['left'])} not stored, the first of them {self.first_left}{self._doubt()}")
        for name in self.stored_in_part:
            self.log.say(f"{name}: some of its parts are stored, and the others are as they were")
        if self.fault:
            self.log.say(f"stopped: {self.fault}")
        self._report_how_to_go_on()

    def _report_how_to_go_on(self):
        if isinstance(self.end, Full):
            self.log.say("the rest needs an index of its own; run again when there is room, this one goes on from here")
        elif self.interrupted:
            self.log.say("interrupted: run this again, and it goes on from here")
        elif self.end is not None or self.fault or self.lost:
            self.log.say("run this again, and it goes on from here")

    def _report_gone(self):
        if self.pruned:
            self.log.say(f"{several(self.pruned)} of earlier runs not seen any more, and deleted")
        left = len(self.gone) - self.pruned
        if left:
            self.log.say(f"{several(left)} of earlier runs not seen any more, and still in the index; --prune deletes such")
        if self.prunes and (self.unseen or self.gave_nothing()):
            self.log.say("nothing was pruned: the source gave nothing, or not all of it could be looked at")
        if self.missing:
            archive, *others = self.missing
            more = f" and {several(len(others), 'other')}" if others else ""
            self.log.say(
                f"{several(sum(self.missing.values()))} of earlier runs came from {archive}{more}, not there any more; "
                "--moved-from says where this source was before"
            )

    def _doubt(self):
        """What is not known of the first document without a reply, since the program may have ended behind its commit."""
        if self.is_doubtful and not isinstance(self.end, Full):
            return " (which may be stored: the next run finds out)"
        return ""
