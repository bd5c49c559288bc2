"""Message-IDs in a query: `id:` asks for the message that has this id."""

# There is no word for a message's id: most ids begin with digits, which would part it into `id` and a number, and each message
# would be found by them. Its name says the same, so `id:` becomes `name:`, with the name that an import gives a message of this
# id. In quotes it stays: there it is a word.

from __future__ import annotations

from .texts import Regular

_ASKED = Regular(r"(?<![^\s(])id:([^\s()]+)(?=(\)?))")


def with_names(query: str) -> str:
    """A query in which each `id:` stands for the name of the message that has this id, outside of quotes."""
    if "id:" not in query:
        return query
    from .imports.stamps import name_of

    pieces = query.split('"')
    pieces[::2] = [_ASKED.sub(lambda asked: f"name:{name_of(asked[1].strip('<>'))}{asked[2] and ' '}", piece) for piece in pieces[::2]]
    return '"'.join(pieces)
