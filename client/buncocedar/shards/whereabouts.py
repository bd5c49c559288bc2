"""Which shards are where, and what places say."""

from __future__ import annotations

import time
from concurrent.futures import TimeoutError as NoAnswerYet
from typing import Any, Dict, Iterable, List, Optional, Tuple

from ..errors import Error, Refused
from .places import SECONDS_OVER
from .shard import SECONDS_OF_REST, SECONDS_SHUT, SECONDS_TO_TAKE

Told = Tuple[Any, Any]  # a place, and what it says or an exception


class Whereabouts:
    """The places of an index, by a source that is asked anew where a shard is missing. A shard that is in two places is in none.

    `name` is that of the index, None where its places have no other.
    """

    def __init__(self, source: Any, patience: float, name: Optional[str]):
        self.source = source
        self.patience = patience
        self.name = name
        self.shards = 0
        self.places: List[Any] = []
        self.home: Dict[int, Any] = {}
        self.twice: Dict[int, List[Any]] = {}
        self._why: Dict[str, str] = {}  # a place has no shard of the index
        self._rests: Dict[Any, float] = {}
        self._looked = 0.0
        self.look()
        if not self.shards:
            raise Error("; ".join(self._why.values()) or f"{source.path}: no shards were found")

    def look(self) -> None:
        """Asks which shards are where. One that is in two places is in none, since nobody knows which one counts."""
        self._looked = time.monotonic()
        self._why = {}
        try:
            self.places = self.source.find()
        except Exception as error:
            # What is known of the places still counts.
            self._why[self.source.path] = f"{self.source.path}: {_words(error)}"
        known = self._known()
        self._agree([about["name"] for _, about in known])
        found: Dict[int, List[Any]] = {}
        for place, about in known:
            if about["name"] != self.name or self.shards not in (0, about["shards"]):
                self._why[place.name] = f"{place.name} has shards of another index, {about['name']} of {about['shards']:,} shards"
                continue
            self.shards = about["shards"]
            for shard in about["here"]:
                found.setdefault(shard, []).append(place)
        self.twice = {shard: places for shard, places in found.items() if len(places) > 1}
        self.home = {shard: places[0] for shard, places in found.items() if len(places) == 1}

    def _known(self):
        """Each place that answers, with what it says of itself."""
        told = self.ask([(place, "about") for place in self.places])
        self._why.update((place.name, str(about)) for place, about in told if isinstance(about, Exception))
        return [(place, about) for place, about in told if not isinstance(about, Exception)]

    def _agree(self, names):
        """Takes the name that all places have, where none was given."""
        different = sorted(set(names))
        if self.name is None and len(different) > 1:
            raise Error(f"{self.source.path}: shards of several indexes, {', '.join(different)}: say which one by its name")
        if self.name is None and different:
            self.name = different[0]

    def looks_again(self) -> bool:
        """Asks anew which shards are where, once a second at most, and tells whether it did."""
        is_due = time.monotonic() >= self._looked + SECONDS_SHUT
        if is_due:
            self.look()
        return is_due

    def ask(self, calls: Iterable[tuple]) -> List[Told]:
        """Makes all calls, each a (place, method, *arguments), at once: what each place answers, or why it does not."""
        now = time.monotonic()
        under_way = [(place, self._called(place, method, args, now)) for place, method, *args in calls]
        until = now + self.patience + SECONDS_OVER
        return [(place, self._answer(place, future, until)) for place, future in under_way]

    def _called(self, place, method, args, now):
        """The future of a call, None where the place rests."""
        return None if self._rests.get(place, 0.0) > now else place.call(method, *args)

    def _answer(self, place, future, until):
        if future is None:
            return Error(f"{place.name} gave no answer in {self.patience:g} seconds, a moment ago")
        try:
            return future.result(max(SECONDS_TO_TAKE, until - time.monotonic()))
        except Refused as refusal:
            return refusal
        except (TimeoutError, NoAnswerYet):
            self._rests[place] = time.monotonic() + SECONDS_OF_REST
            return Error(f"{place.name} gave no answer in {self.patience:g} seconds")
        except Exception as error:
            return Error(f"{place.name}: {_words(error)}")

    def lose(self, place: Any) -> None:
        """Takes the shards of a place for missing, until they are looked for."""
        self.home = {shard: home for shard, home in self.home.items() if home is not place}

    def left_out(self) -> Dict[str, str]:
        """Of each place that was found last and has no part in the index, as it gave no answer, why, by its name."""
        return {place.name: self._why[place.name] for place in self.places if place.name in self._why}

    def why_missing(self, shard: int) -> str:
        if shard in self.twice:
            return f"shard {shard} is in two places, {' and '.join(place.name for place in self.twice[shard])}"
        return "; ".join(self._why.values()) or f"shard {shard} is nowhere"

    def gathered(self, method: str, *args: Any, undo: str = "") -> Tuple[List[tuple], Dict[int, str]]:
        """What the places say of their shards, each (place, answer, ..), and of each shard that is missing why.

        Where a shard is missing it is looked for once more. What one place refuses is raised, and what others have begun is
        undone by their method `undo`.
        """
        parts: List[tuple] = []
        failed: Dict[int, str] = {}
        left = set(range(self.shards))
        for _ in range(2):
            asked: Dict[Any, List[int]] = {}
            for shard in sorted(left & self.home.keys()):
                asked.setdefault(self.home[shard], []).append(shard)
            told = self.ask([(place, method, shards, *args) for place, shards in asked.items()])
            parts += [(place, *said[1:]) for place, said in told if not isinstance(said, Exception)]
            self._raise_refusal(told, parts, undo)
            for place, said in told:
                failed.update(dict.fromkeys(asked[place], str(said)) if isinstance(said, Exception) else said[0])
                left.difference_update(() if isinstance(said, Exception) else set(asked[place]) - said[0].keys())
            if not left or not self.looks_again():
                break
        return parts, {shard: failed.get(shard) or self.why_missing(shard) for shard in left}

    @staticmethod
    def _raise_refusal(told, parts, undo):
        refusal = next((said for _, said in told if isinstance(said, Refused)), None)
        if refusal is None:
            return
        for place, key, *_ in parts if undo else ():
            place.call(undo, key)
        raise refusal


def _words(error: Exception) -> str:
    """An error of this package in its words, and any other one with its type."""
    return str(error) if isinstance(error, Error) else f"{type(error).__name__}: {error}"
