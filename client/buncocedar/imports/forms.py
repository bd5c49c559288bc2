"""Texts that are written in a form of their own, as what a reader sees of them: HTML, calendars, cards, and flowed text."""

import html
import html.parser
import re

# Up to its end tag a script or a style has no comments and no declarations.
RAW = r"(<(script|style)\b[^>]*>.*?(?:</\2|\Z))"
COMMENT = re.compile(RAW + "|<!--(?:-?>|.*?-->)", re.DOTALL | re.IGNORECASE)
DECLARATION = re.compile(RAW + "|<[!?][^>]*>", re.DOTALL | re.IGNORECASE)
HUGE_NUMBER = re.compile("&#[0-9]{20,};?")
# Tags that may stand inside of a word.
INLINE = frozenset(
    "a abbr acronym b bdi bdo big cite code del dfn em font i ins kbd mark nobr q s samp small span strike strong sub sup tt u var "
    "wbr".split()
)
# A line of a calendar or a card: what it is, parameters, and the value. What a parameter names is in quotes or goes up to the next.
CARD_LINE = re.compile(r"(?P<name>[A-Za-z0-9.-]+)(?P<parameters>(?:;[^:\"\n]*(?:\"[^\"\n]*\"[^:\"\n]*)*)?):(?P<value>.*)")
COMMON_NAME = re.compile(r"(?i);CN=(?:\"([^\"]*)\"|([^;:\"]*))")
DAY = re.compile(r"([0-9]{8})T([0-9]{6}Z?)")


# --- HTML.


class Shown(html.parser.HTMLParser):
    """The text of an HTML part, without scripts and styles, with a blank for each tag that parts words."""

    def __init__(self):
        super().__init__()
        self.pieces = []
        self.hidden = 0

    def handle_starttag(self, tag, attributes):
        self.handle_tag(tag)
        self.hidden += tag in ("script", "style")

    def handle_endtag(self, tag):
        self.handle_tag(tag)
        self.hidden -= tag in ("script", "style") and self.hidden > 0

    def handle_tag(self, tag):
        # A word processor has tags of its own, as `o:p` and `st1:place`.
        if tag not in INLINE and ":" not in tag:
            self.pieces.append(" ")

    def handle_data(self, data):
        if not self.hidden:
            self.pieces.append(data)


def text_of_html(source):
    """The text of an HTML part.

    What has no end is text, and the parser is not asked about it, nor about comments, declarations and numbers that are no character:
    it would take quadratic time, or give up.
    """
    source = HUGE_NUMBER.sub("\ufffd", source)
    end = source.rfind("-->") + 3
    source = COMMENT.sub(lambda found: found[1] or "", source[:end]) + source[end:]
    end = source.rfind(">") + 1
    reader = Shown()
    reader.feed(DECLARATION.sub(lambda found: found[1] or "", source[:end]))
    reader.close()
    reader.handle_data(html.unescape(source[end:]))
    return "".join(reader.pieces)


# --- Flowed text, calendars and cards.


def without_line_ends(text):
    """A flowed text (RFC 3676, `delsp=yes`) with its paragraphs in one line each: a blank before a line's end belongs to the end."""
    lines = []
    goes_on = False
    for line in text.splitlines():
        content = line.lstrip(">")
        quoted = line[: len(line) - len(content)]
        if goes_on and lines[-1][0] == quoted:
            lines[-1][1].append(content[content.startswith(" ") :])
        else:
            lines.append((quoted, [content]))
        goes_on = content.endswith(" ") and content.strip() != "--"
        if goes_on:
            lines[-1][1][-1] = lines[-1][1][-1][:-1]
    return "\n".join(quoted + "".join(pieces) for quoted, pieces in lines)


def text_of_card(text):
    """The text of a calendar or a card (RFC 5545, RFC 6350): each value behind a blank, so that its first word is one, with the name
    of whom it is about; a day is a number.
    """
    unfolded = re.sub("\r?\n[ \t]", "", text)
    return "\n".join(map(card_line, unfolded.splitlines()))


def card_line(line):
    match = CARD_LINE.match(line)
    if match is None:
        return line
    names = [quoted or plain for quoted, plain in COMMON_NAME.findall(match["parameters"])]
    value = re.sub(r"\\([,;\\nN])", lambda escaped: " " if escaped[1] in "nN" else escaped[1], match["value"])
    value = DAY.sub(r"\1 \2", re.sub("(?i)^mailto:", "", value))
    return f"{match['name']}: {' '.join([*names, value])}"
