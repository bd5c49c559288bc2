"""Words inside of words: the parts of what the program's rule keeps together, as `autocrlf` in `core.autocrlf`."""

# The program cuts a text by Unicode's word boundaries, which keep letters together over `.`, `:`, `_` and an apostrophe. So
# the parts go in as words of their own, behind the text: each kept-together word that the text has once, and its parts behind
# it. Phrases of the text stay as they are, and a phrase over two of these groups would have to name the whole word between
# them. What is all digits is no part, since it would be found as a value; nor is a single letter.

import functools
import re

KEPT_LENGTH = 64  # characters of what is kept, to be known when it comes again
APART = re.compile("[_.:'\u2019]+")
# What is cut off at a blank, and may have parts.
MAY_HAVE = re.compile("_|[^\\W\\d_][.:'\u2019][^\\W\\d_]")
# A word by the rule: over a point, a colon and an apostrophe it goes on only between letters.
WORD = re.compile("\\w+(?:(?<=[^\\W\\d_])[.:'\u2019](?=[^\\W\\d_])\\w+)*")


def parts_inside(word):
    """The parts of a word, none where it has no others than itself."""
    parts = [part for part in APART.split(word) if len(part) > 1 and not part.isdecimal()]
    return [] if parts == [word] else parts


def inner_words(text):
    """Each word of a text that has parts, once, with its parts behind it. The text has one space for each run of blanks."""
    found = {}
    # Most are letters alone, of which nothing need be looked for.
    for token in [token for token in dict.fromkeys(text.split(" ")) if not token.isalnum()]:
        found.update(known_groups(token) if len(token) <= KEPT_LENGTH else groups(token))
    return " ".join(found.values())


def groups(token):
    """Of each word in what is cut off at a blank that has parts: the word, and it with its parts behind it."""
    words = WORD.findall(token) if MAY_HAVE.search(token) else ()
    return tuple((word, f"{word} {' '.join(parts)}") for word in words for parts in [parts_inside(word)] if parts)


# Addresses and the names of a program come again and again.
known_groups = functools.lru_cache(1 << 14)(groups)
