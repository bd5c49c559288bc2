"""Queries of what people type: all of their words, or the words as a phrase, whatever else they have typed."""

# Each piece is put in quotes, where no character is an operator, a field or a parenthesis. What the program takes for a word is
# cut by Unicode's word boundaries (UAX #29), which Python's standard library has not. So words are counted from above: one for
# each run of letters and digits, and one for each character of a script that is written without blanks.

from __future__ import annotations

import re
from typing import Iterator, List, Tuple

from .texts import one_line

MOST_WORDS = 64  # of a query
WORD_BYTES = 128  # of a word, as it is written and folded

_RUN = re.compile(r"[^\W_]+")
# Thai to Tibetan, Myanmar, Khmer, kana, and ideographs: each character may be a word.
_ALONE = re.compile("[\u0e00-\u0fff\u1000-\u109f\u1780-\u17ff\u3005-\u30ff\u3400-\u9fff\uf900-\ufaff\U00020000-\U0003ffff]")


def words(text: str) -> str:
    """The query for the documents that have all words of a text, in any order and in every spelling: `"red" "fox"`.

    A word is what stands between blanks: one with signs in it, as `red-fox`, is looked for as it stands. What has neither letter
    nor digit is passed over, and so are words of more than 128 bytes, which no index has. Of more than 64 words the first ones
    are taken. Raises `ValueError` where no word is left.
    """
    return " ".join(f'"{piece}"' for piece in _pieces(text))


def phrase(text: str) -> str:
    """The query for the documents that have the words of a text one behind the other, in every spelling: `"red fox"`.

    What `words` passes over is passed over here too. Raises `ValueError` where no word is left.
    """
    return f'"{" ".join(_pieces(text))}"'


def _pieces(text) -> List[str]:
    """The pieces of a text that have words, folded, as many as a query may have."""
    pieces, room = [], MOST_WORDS
    for piece, count in _counted(one_line(text, "a text")):
        if count > room:
            break
        pieces.append(piece)
        room -= count
    if not pieces:
        raise ValueError(f"there is no word to look for in {text[:80]!r}")
    return pieces


def _counted(text) -> Iterator[Tuple[str, int]]:
    """The pieces of a text between blanks and quotes, folded, each with how many words it has at most."""
    for piece in text.replace('"', " ").casefold().split():
        runs = _RUN.findall(piece)
        if runs and all(len(run.encode()) <= WORD_BYTES for run in runs) and len(piece.encode()) <= WORD_BYTES:
            yield piece, sum(1 + len(_ALONE.findall(run)) for run in runs)
        elif runs:
            yield from ((run, 1 + len(_ALONE.findall(run))) for run in runs if len(run.encode()) <= WORD_BYTES)
