"""Command lines: how long one may be, the line that adds a document, and a range of values in a query."""

from __future__ import annotations

from typing import TYPE_CHECKING, Tuple, Union

from .errors import BadName, LineTooLong
from .texts import fitted, name_ok, one_line, whole

if TYPE_CHECKING:
    import datetime

LINE_LIMIT = 262_143  # bytes of a command line
TITLE_ROOM = 4_096  # bytes that a title keeps where its line is cut
MOST_VALUE = 4_294_967_295  # that a range of values may name


def add_line(name: str, title: str, body: str, cut: bool = False) -> Tuple[bytes, int]:
    """The line that adds a document, as bytes with its newline, and how many bytes of title and body were cut off.

    Raises `BadName`, and `LineTooLong` where the line has more than 262,143 bytes. With `cut` such a line is cut at the end
    of a word instead: the title to 4,096 bytes, and the body to what is left.
    """
    if not name_ok(name):
        raise BadName("! bad name", ascii(name[:80]))
    title, body = one_line(title, "a title"), one_line(body, "a body")
    line = f"add {name}\t{title}\t{body}".encode()
    whole = len(line)
    if whole > LINE_LIMIT:
        if not cut:
            raise too_long(whole, f"add {name}")
        head = f"add {name}\t{fitted(title, TITLE_ROOM)}\t"
        line = (head + fitted(body, LINE_LIMIT - len(head.encode()))).encode()
    return line + b"\n", whole - len(line)


def too_long(length, command):
    error = LineTooLong("! line too long", f"{command}, {length:,} bytes where {LINE_LIMIT:,} may be")
    error.length = length
    return error


def value_range(first: Union[int, datetime.date], last: Union[int, datetime.date]) -> str:
    """The query for a number from the first to the last one, both among them: `value:20240101..20241231`.

    A date, or a date with its time, stands for the number of its day, as 20240131 for 2024-01-31. Raises `ValueError` where
    the first is above the last or one is none of 0 to 4,294,967,295.
    """
    low, high = (whole(_day(value), "a value") for value in (first, last))
    if not 0 <= int(low) <= int(high) <= MOST_VALUE:
        raise ValueError(f"no range of values from 0 to {MOST_VALUE:,}: {low} to {high}")
    return f"value:{low}..{high}"


def _day(value):
    import datetime  # here, since who asks for no dates needs none of it

    if isinstance(value, str):
        raise TypeError("a value must be an int or a date, not str")
    return value.year * 10_000 + value.month * 100 + value.day if isinstance(value, datetime.date) else value
