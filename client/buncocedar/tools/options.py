"""What the words of a command may be, read off its parser: for its manual page, and for the completion in shells."""

from __future__ import annotations

import argparse
from typing import List, NamedTuple, Tuple


class Option(NamedTuple):
    """An option, or a word that stands by its place, which has no names.

    `value` is what stands behind it, empty where nothing does; `choices` are all that this may be, where that is known.
    """

    names: Tuple[str, ...]
    value: str
    choices: Tuple[str, ...]
    about: str

    def spelled(self) -> str:
        """As a manual page has it: `--limit N`."""
        value = "{" + ",".join(self.choices) + "}" if self.choices else self.value
        return f"{', '.join(self.names)} {value}".strip()


def _option_of(action: argparse.Action) -> Option:
    takes_none = action.nargs == 0
    value = "" if takes_none else str(action.metavar or action.dest)
    choices = () if takes_none or action.choices is None else tuple(map(str, action.choices))
    return Option(tuple(action.option_strings), value, choices, "" if action.help is None else action.help)


def options_of(parser: argparse.ArgumentParser) -> List[Option]:
    """The options and the words of a parser, in its order."""
    # The only list of them that a parser gives.
    return [_option_of(action) for action in parser._actions]
