"""From where on one file is too little for an index that grows, and what is said of it."""

# Each join of levels takes the oldest one, which has all that was joined before. So each 16 MB of text write all of it anew
# (docs/SCALE.md, "What one file cannot do").

from __future__ import annotations

import os
import shlex
from typing import Callable

from .fileformat import Unusable, read_root
from .shards import is_address

LARGE = 500_000_000  # bytes of text, from which on shards are proposed
SHARDS = 8  # of a folder that is made for one machine


def text_in(path: str) -> int:
    """About how many bytes of text an index in one file has: as many as its levels have. None where there is no such index."""
    try:
        with open(path, "rb") as file:
            return sum(level.length for level in read_root(file).levels)
    except (OSError, Unusable):
        return 0


def proposal(path: str, text: int) -> str:
    """The line that says of an index with so many bytes of text which command makes shards of it."""
    folder = os.path.splitext(path)[0] + ".shards"
    words = shlex.join(["bunco", "shards", "split", path, folder, str(SHARDS)])
    return f"{path} has about {text // 1_000_000:,} MB of text, and each further 16 MB write all of it anew: `{words}` makes {SHARDS} files of it"


class Growth:
    """Says once of an index in one file, as text goes in, that it grows at too great a cost."""

    def __init__(self, path: str, say: Callable[[str], None]) -> None:
        self.path = path
        self.say = say
        self.text = text_in(path)
        self.is_said = os.path.isdir(path) or is_address(path)  # it is in shards already

    def put(self, size: int) -> None:
        """So many bytes of text go in."""
        self.text += size
        if self.text >= LARGE and not self.is_said:
            self.is_said = True
            self.say(proposal(self.path, self.text))
