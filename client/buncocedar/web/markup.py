"""HTML of which every text is escaped: what is not made by `element` or `join` is text."""

from __future__ import annotations

import html
import re
from typing import Iterable, Mapping, Optional

# What no document may have: controls, halves of characters, and two that are none (HTML Standard, section 13.2.3.5).
FORBIDDEN = re.compile("[\x00-\x08\x0b\x0c\x0e-\x1f\x7f-\x9f\ud800-\udfff\ufffe\uffff]")
# Elements that have no content and no end tag.
VOID = frozenset({"input", "link", "meta", "br"})


class Markup(str):
    """Text that is HTML already."""


def escaped(text: str) -> Markup:
    """The text as HTML; what no document may have, as a NUL or half a character, is a U+FFFD."""
    return text if isinstance(text, Markup) else Markup(html.escape(FORBIDDEN.sub("\ufffd", text)))


def join(parts: Iterable[str]) -> Markup:
    """The parts one behind the other, texts escaped."""
    return Markup("".join(map(escaped, parts)))


def element(name: str, attributes: Optional[Mapping[str, Optional[str]]] = None, *content: str) -> Markup:
    """An element. An attribute that is None is left out, and one that is empty stands alone."""
    given = {key: value for key, value in (attributes or {}).items() if value is not None}
    said = "".join(f' {key}="{escaped(value)}"' if value else f" {key}" for key, value in given.items())
    begin = f"<{name}{said}>"
    return Markup(begin if name in VOID else f"{begin}{join(content)}</{name}>")
