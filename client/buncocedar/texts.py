"""Texts as a command line takes them, and as a terminal shows them."""

from __future__ import annotations

import operator
import re
from typing import Any, Union

NUMBER = r"(0|[1-9][0-9]*)"


class Regular:
    """A regular expression that is compiled when it is first used: a run uses few of all that there are."""

    def __init__(self, expression: Union[str, bytes], flags: int = 0):
        self._expression = expression
        self._flags = flags

    def __getattr__(self, name: str) -> Any:
        """A method of the compiled expression, which from then on is found here."""
        if name.startswith("_"):
            raise AttributeError(name)
        method = getattr(re.compile(self._expression, self._flags), name)
        setattr(self, name, method)
        return method


_NAME = Regular(r"[!-~]{1,64}")


def name_ok(name: str) -> bool:
    """Whether the text is a name: 1 to 64 graphic ASCII characters."""
    return _NAME.fullmatch(_text(name, "a name")) is not None


def one_line(text: str, what: str = "a text") -> str:
    """The text as it stands in a line: tabs, newlines and carriage returns are spaces, and lone surrogates U+FFFD."""
    text = _text(text, what)
    for blank in "\t\n\r":
        text = text.replace(blank, " ")
    try:
        text.encode()
    except UnicodeEncodeError:
        text = text.encode("utf-16", "surrogatepass").decode("utf-16", "replace")
    return text


def _text(text, what):
    if not isinstance(text, str):
        raise TypeError(f"{what} must be a str, not {type(text).__name__}")
    return text


def whole(number, what):
    """The whole number, in digits. A text of digits is none: what stands behind them would stand in the line too."""
    try:
        return str(int(operator.index(number)))
    except TypeError:
        raise TypeError(f"{what} must be an int, not {type(number).__name__}") from None


def fitted(text: str, room: int) -> str:
    """The text where it has at most so many bytes, and else its front up to a word's end, or what fits of its first word."""
    data = text.encode()
    if len(data) <= room:
        return text
    end = data.rfind(b" ", 0, room + 1)
    front = data[:end].rstrip(b" ") if end > 0 else b""
    return (front or data[:room]).decode(errors="ignore")


def columns(text: str) -> int:
    """How many columns of a terminal the text takes: two for a wide character, none for one that is put on another."""
    return sum(map(_columns_of, text))


def _columns_of(character):
    import unicodedata

    if unicodedata.category(character) in ("Mn", "Me") or "\u1160" <= character <= "\u11ff":
        return 0
    return 2 if unicodedata.east_asian_width(character) in "WF" else 1


def marked(text: str, place: int) -> str:
    """The text on a line and a mark on the next, under the character at this byte of its UTF-8, or behind its end.

    Of a long text only what is near the mark is shown. What cannot be printed is a U+FFFD.
    """
    data = text.encode(errors="replace")
    before, after = (printable_line(part.decode(errors="replace")) for part in (data[:place], data[place:]))
    if len(before) > 60:
        before = "..." + before[-57:]
    if len(after) > 60:
        after = after[:57] + "..."
    return f"  {before}{after}\n  {' ' * columns(before)}^"


def printable_line(text):
    return "".join(character if character.isprintable() else " " if character == "\t" else "\ufffd" for character in text)
