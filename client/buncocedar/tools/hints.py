"""What a query means otherwise here than elsewhere: words that are operators in other programs, and fields that are none."""

from __future__ import annotations

from typing import Dict, Iterator, List, Set

from ..texts import Regular

OPERATORS = {"and": "AND", "or": "OR", "not": "NOT", "NEAR": "NEAR/10", "near": "NEAR/10"}
SIGNS = {"&&": "AND", "&": "AND", "||": "OR", "|": "OR"}
FIELDS = ("title", "name", "value", "id")  # of a query; the client asks for an id by its name
IMPORTED = {  # the words with a colon that an import makes
    **dict.fromkeys(("from", "to", "cc", "bcc", "list", "thread", "attachment", "is", "label", "folder"), "mail"),
    **dict.fromkeys(("dir", "ext"), "folders"),
}
DAYS = "value:20240101..20241231"
# What others call a field, and how that is asked for here.
ELSEWHERE = {
    **dict.fromkeys(("subject", "s"), "title:"),
    **dict.fromkeys(("date", "d", "after", "before", "since", "until"), DAYS),
    **dict.fromkeys(("body", "text", "b"), "a word alone"),
    **dict.fromkeys(("mid", "msgid", "m"), "id:"),
    **dict.fromkeys(("f", "t", "c", "l"), "from:, to:, cc: or list:"),
    **dict.fromkeys(("has", "filename", "mimetype"), "is:attached or attachment:report.pdf"),
}

_PIECE = Regular(r'"[^"]*"?|[()]|[^\s()"]+')
_FIELD = Regular(r"([A-Za-z]+):(?=\S)")
_ALONE = Regular(r"([A-Za-z]+):")


def hints_of(query: str, count, is_read: bool) -> Iterator[str]:
    """What of a query that is answered may mean something else than who wrote it thinks; `is_read` says that no program reads it."""
    yield from operator_hints(query)
    yield from parted_hints(query)
    yield from field_hints(query, count)
    if is_read:
        yield from spelling_hints(query, count)


def pieces_of(query: str) -> List[str]:
    """The pieces of a query as docs/QUERIES.md cuts it."""
    return _PIECE.findall(query)


def operator_hints(query: str) -> Iterator[str]:
    """What of a query is an operator in other programs and a word here, each told once."""
    pieces, told = pieces_of(query), set()
    for at, piece in enumerate(pieces):
        hint = _operator_hint(piece, 0 < at, at + 1 < len(pieces))
        if hint and hint not in told:
            told.add(hint)
            yield hint


def _operator_hint(piece, has_before, has_behind):
    if piece in OPERATORS and has_behind and (has_before or piece == "not"):
        return f"{piece} is a word here; {OPERATORS[piece]} is the operator"
    if piece[0] != '"' and "*" in piece[:-1]:
        return f"* goes at the end of a word alone; {piece} is words here"
    if piece in SIGNS:
        return f"{piece} is no operator here; {SIGNS[piece]} is"
    if piece[0] in "-!" and piece[1:2].isalnum():
        return f"{piece} is the word {piece[1:]} here; NOT {piece[1:]} leaves it out"
    if piece[0] == "+" and piece[1:2].isalnum():
        return f"{piece} is the word {piece[1:]} here; each word has to be there, also without a +"
    return ""


def parted_hints(query: str) -> Iterator[str]:
    """Says of each `from:"ann lee"` and `from:(ann OR lee)` that the colon joins nothing to what stands behind."""
    end, field = 0, None
    for match in _PIECE.finditer(query):
        piece = match[0]
        if field and match.start() == end and piece[0] in '"(' and field[1] not in FIELDS:
            yield f"{field[0]} before {piece[0]} is the word {field[1]} alone here; {_joined(field[1], piece)}"
        end, field = match.end(), _ALONE.fullmatch(piece)


def _joined(field, piece):
    """How one asks for what stands behind a field, in quotes or in parentheses."""
    if field.lower() in ELSEWHERE:
        return f"what it is elsewhere is {ELSEWHERE[field.lower()]}"
    joined = f"( {field}:a OR {field}:b )" if piece == "(" else '"{} {}"'.format(field, piece.strip('"'))
    return f"{joined} may be what is meant"


def fields_in(query: str) -> Dict[str, str]:
    """Of each word with a colon that is no field of a query: the word, and what stands before its colon."""
    found = {}
    for piece in pieces_of(query):
        match = _FIELD.match(piece)
        if match and match[1] not in FIELDS and not piece.startswith('"'):
            found[piece] = match[1]
    return found


def field_hints(query: str, count) -> Iterator[str]:
    """Says of each word with a colon that no document has that it is a word; `count` tells how many documents a query finds."""
    told: Set[str] = set()
    for word, field in fields_in(query).items():
        if field not in told and count(word) == 0:
            told.add(field)
            yield f"no document has the word {word}{_field_hint(word, field)}"


def _field_hint(word, field):
    """What is said of a word with a colon that no document has."""
    plain = field.lower()
    if field != plain and (plain in IMPORTED or plain in FIELDS):
        return f"; the field is {plain}:, in small letters"
    if plain in IMPORTED:
        return f", as imports of {IMPORTED[plain]} make them"
    return f": {field}: is no field of a query" + (f"; here it is {ELSEWHERE[plain]}" if plain in ELSEWHERE else "")


def spelling_hints(query: str, count) -> Iterator[str]:
    """Says of each word in capitals that it finds this spelling alone, where more documents have another one."""
    for piece in pieces_of(query):
        word = piece.strip('"')
        if piece in ("AND", "OR", "NOT") or piece.startswith("NEAR/") or word == word.casefold() or not word.isalnum():
            continue
        all_spellings = count(f'"{word.casefold()}"')
        if all_spellings > count(f'"{word}"'):
            yield f"{word} finds only this spelling; {word.casefold()} finds each one, in {all_spellings:,} documents"
