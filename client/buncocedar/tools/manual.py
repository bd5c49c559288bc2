"""The manual page of a command, from its option list: as text, and as roff for `man`."""

from __future__ import annotations

import re
import textwrap
from typing import Dict, List, NamedTuple, Tuple, Union

from .main import COMMANDS, Command
from .options import Option, options_of


class Item(NamedTuple):
    """What is explained, and its explanation."""

    term: str
    text: str


class Section(NamedTuple):
    title: str
    parts: List[Union[str, Item]]  # a text is a paragraph, wrapped anew


class Page(NamedTuple):
    name: str
    about: str
    synopsis: str
    sections: List[Section]


PROGRAM = Item("BUNCOCEDAR_PROGRAM", "the path of the program; else it is alta of the checkout, or as it was installed with the client, or on the PATH")
MODULE = Item("BUNCOCEDAR_MODULE", "the path of the WebAssembly module; else it is that of the checkout, or as it was installed with the client")
HISTORY = Item("BUNCOCEDAR_HISTORY", "the file of the history; empty, none is kept")
EDITOR = Item("VISUAL, EDITOR", "the editor")
PAGER = Item("PAGER, NO_COLOR", "what shows long answers, and that no colours are used")

INDEX = Item("INDEX", "the index, one file")
STAMPS = Item("INDEX.stamps", "what the imports have brought in, and where it was found")
SOCKET = Item("INDEX.socket", "where the server of the index listens")
STATE = Item("~/.local/state/buncocedar/", "the histories of the prompts")

IMPORTED = [
    Item("0", "all is in the index"),
    Item("1", "some documents were refused"),
    Item("2", "the words of the command are wrong, or the source is not there"),
    Item("3", "the import stopped before its end; run again, it goes on from there"),
    Item("128+N", "signal N ended it"),
]
DONE = [Item("0", "done"), Item("2", "the words of the command are wrong"), Item("3", "it could not be done; the message says why")]
SOURCES = ("mail", "folder", "packages")

# Of each command its files, its variables, its exit statuses and the commands to see also.
Facts = Tuple[List[Item], List[Item], List[Item], Tuple[str, ...]]
FACTS: Dict[str, Facts] = {
    "init": ([INDEX], [PROGRAM], DONE, ("mail", "folder", "shell")),
    "mail": ([INDEX, STAMPS], [PROGRAM], IMPORTED, ("find", "folder", "packages")),
    "folder": ([INDEX, STAMPS], [PROGRAM], IMPORTED, ("find", "mail", "packages")),
    "packages": ([INDEX, STAMPS], [PROGRAM], IMPORTED, ("find", "mail", "folder")),
    "find": (
        [INDEX, STAMPS, STATE],
        [PROGRAM, HISTORY, EDITOR, PAGER],
        [
            Item("0", "the last query found something"),
            Item("1", "it found nothing, or a document could not be shown"),
            Item("2", "it has a fault, or the words of the command are wrong"),
            Item("3", "the index could not be asked"),
        ],
        ("web", "shell", *SOURCES),
    ),
    "shell": (
        [INDEX, STATE],
        [PROGRAM, HISTORY],
        [
            Item("0", "done"),
            Item("1", "a line that was not typed was refused"),
            Item("2", "the words of the command are wrong"),
            Item("3", "the index could not be asked"),
        ],
        ("find", "dump"),
    ),
    "web": ([INDEX, STAMPS, SOCKET], [PROGRAM], DONE, ("find", "serve")),
    "site": (
        [INDEX, STAMPS, Item("FOLDER/bunco-site.json", "the mark of a folder that this command may write over")],
        [PROGRAM, MODULE],
        DONE,
        ("web", "find"),
    ),
    "serve": (
        [INDEX, SOCKET],
        [PROGRAM],
        [Item("0", "it was asked to end"), Item("3", "the index could not be opened, or the program has ended")],
        ("web", "find", "status"),
    ),
    "status": ([INDEX, STAMPS, SOCKET], [PROGRAM], DONE, ("check", "serve")),
    "check": (
        [INDEX, STAMPS],
        [PROGRAM],
        [
            Item("0", "the index is whole"),
            Item("1", "it is damaged, or has lost documents"),
            Item("3", "it could not be checked"),
        ],
        ("compact", "status"),
    ),
    "compact": ([INDEX, STAMPS], [], DONE, ("check", "dump")),
    "shards": (
        [Item("FOLDER/shards.json", "the name of the index, and how many shards it has"), Item("FOLDER/00007.alta", "the shard 7")],
        [PROGRAM],
        [
            Item("0", "done"),
            Item("1", "a shard is missing or damaged"),
            Item("2", "the words of the command are wrong"),
            Item("3", "it could not be done; the message says why"),
        ],
        ("find", "check", "compact"),
    ),
    "dump": (
        [INDEX],
        [PROGRAM],
        [Item("0", "done"), Item("1", "a document was left out"), Item("3", "not all could be written")],
        ("shell", "compact"),
    ),
}


def _item_of(option: Option) -> Item:
    return Item(option.spelled(), option.about)


def _see_also(names: Tuple[str, ...]) -> str:
    return ", ".join([*(f"bunco-{name}(1)" for name in names), "bunco(1)", "alta(1)"])


def page_of(command: Command) -> Page:
    """The page of a command."""
    parser = command.load().parser()
    files, variables, statuses, others = FACTS[command.name]
    description = (parser.description or "").strip()
    sections = [
        Section("DESCRIPTION", [" ".join(paragraph.split()) for paragraph in description.split("\n\n")]),
        Section("OPTIONS", [_item_of(option) for option in options_of(parser)]),
        Section("FILES", list(files)),
        Section("ENVIRONMENT", list(variables)),
        Section("EXIT STATUS", list(statuses)),
        Section("SEE ALSO", [_see_also(others)]),
    ]
    synopsis = " ".join(parser.format_usage().split()[1:])
    return Page(f"bunco-{command.name}", command.about, synopsis, [section for section in sections if section.parts])


def page_of_all() -> Page:
    """The page of `bunco` itself."""
    about = "bring documents into an index of Buncocedar, and find them"
    commands = [Item(command.name, command.about) for command in COMMANDS]
    description = "An index is one file, in which words and phrases of documents are found. Each command has a page of its own."
    sections = [
        Section("DESCRIPTION", [description]),
        Section("COMMANDS", [*commands, Item("help COMMAND", "the page of a command")]),
        Section("FILES", [INDEX, STAMPS, SOCKET, STATE]),
        Section("ENVIRONMENT", [PROGRAM, HISTORY, EDITOR, PAGER]),
        Section("SEE ALSO", [", ".join([*(f"bunco-{command.name}(1)" for command in COMMANDS), "alta(1)"])]),
    ]
    return Page("bunco", about, "bunco COMMAND ..", sections)


# --- As text.


def _lines_of(part: Union[str, Item], columns: int) -> List[str]:
    if isinstance(part, Item):
        return [f"    {part.term}", *textwrap.wrap(part.text, columns, initial_indent=" " * 8, subsequent_indent=" " * 8)]
    return [*textwrap.wrap(part, columns, initial_indent=" " * 4, subsequent_indent=" " * 4), ""]


def text_of(page: Page, columns: int) -> str:
    """The page in lines of so many columns."""
    lines = ["NAME", f"    {page.name} - {page.about}", "", "SYNOPSIS"]
    lines += textwrap.wrap(page.synopsis, columns, initial_indent=" " * 4, subsequent_indent=" " * 8)
    for section in page.sections:
        lines += ["", section.title]
        for part in section.parts:
            lines += _lines_of(part, columns)
        while not lines[-1]:
            lines.pop()
    return "\n".join(lines)


# --- As roff.


def _escaped(text: str) -> str:
    text = text.replace("\\", "\\e").replace("-", "\\-")
    return f"\\&{text}" if text[:1] in (".", "'") else text


def _roff_of(part: Union[str, Item]) -> List[str]:
    if isinstance(part, Item):
        return [".TP", f".B {_escaped(part.term)}", _escaped(part.text)]
    return [".PP", re.sub(r"`([^`]*)`", r"\\fB\1\\fR", _escaped(part))]


def roff_of(page: Page) -> str:
    """The page for `man`."""
    lines = [f".TH {_escaped(page.name.upper())} 1", ".SH NAME", f"{_escaped(page.name)} \\- {_escaped(page.about)}"]
    lines += [".SH SYNOPSIS", f".B {_escaped(page.synopsis)}"]
    for section in page.sections:
        lines.append(f".SH {section.title}")
        for part in section.parts:
            lines += _roff_of(part)
    return "\n".join(lines) + "\n"
