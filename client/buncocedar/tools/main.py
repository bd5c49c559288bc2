"""The command `bunco`: one word for each thing that is done with an index."""

import contextlib
import gc
import importlib
import os
import signal
import sys
from typing import List, NamedTuple, Optional, TextIO

from ..lasting import lasting

BAD_USE = 2
STOPPED = 3


class Command(NamedTuple):
    """A word of `bunco`: the module whose `main` takes the words behind it, and what it is for."""

    name: str
    module: str
    about: str

    def load(self):
        """The module, which has `parser()` and `main(words)`."""
        return importlib.import_module(self.module)


COMMANDS = (
    Command("init", "buncocedar.tools.init", "make an empty index"),
    Command("mail", "buncocedar.imports.mail", "bring in the messages of a mail archive"),
    Command("folder", "buncocedar.imports.folder", "bring in the text files of a folder"),
    Command("packages", "buncocedar.imports.packages", "bring in Debian's package descriptions"),
    Command("find", "buncocedar.tools.find", "find documents, by one query or at a prompt"),
    Command("shell", "buncocedar.tools.shell", "a prompt for all commands of an index"),
    Command("web", "buncocedar.web.main", "a page to search on, for your own browser"),
    Command("site", "buncocedar.site.main", "a folder for any web server, whose page searches by itself"),
    Command("serve", "buncocedar.server", "share an index between many programs"),
    Command("status", "buncocedar.tools.status", "what an index has, and who has it open"),
    Command("check", "buncocedar.tools.check", "read all of an index, and say whether it is whole"),
    Command("compact", "buncocedar.tools.compact", "copy an index without its free room, as for a backup"),
    Command("shards", "buncocedar.shards.command", "several files as one index, on one machine or many"),
    Command("dump", "buncocedar.tools.dump", "write the words of all documents, as lines that add them"),
)

OTHERS = (
    ("help COMMAND", "the manual page of a command"),
    ("completion SHELL", "what completes these words in bash or zsh"),
    ("--version", "the version of the package"),
)


def named(word: str) -> Optional[Command]:
    """The command of this name, or None."""
    return next((command for command in COMMANDS if command.name == word), None)


def usage() -> str:
    """The help of `bunco`, on one screen."""
    rows = [(command.name, command.about) for command in COMMANDS] + list(OTHERS)
    width = max(len(name) for name, _ in rows)
    lines = [f"  {name:{width}}  {about}" for name, about in rows]
    example = ["  bunco mail mail.alta archive.mbox", "  bunco find mail.alta '\"red fox\" OR title:meeting'"]
    return "\n".join(["usage: bunco COMMAND ..", "", *lines, "", "To begin:", *example])


def help_on(words: List[str]) -> int:
    """Shows the manual page of a command, or without one the help of all; answers the exit status."""
    import shutil

    from ..terminal import paged, write
    from .manual import page_of
    from .manual import text_of as shown

    command = named(words[0]) if words else None
    if words and command is None:
        print(f"bunco: {words[0]} is no command: bunco --help lists them", file=sys.stderr)
        return BAD_USE
    with paged(command is not None):
        columns = min(80, shutil.get_terminal_size().columns)
        write((usage() if command is None else shown(page_of(command), columns)) + "\n")
    return 0


def completion(words: List[str]) -> int:
    """Writes the completion for a shell, and answers the exit status."""
    from ..terminal import write
    from .completion import SHELLS

    if len(words) != 1 or words[0] not in SHELLS:
        print(f"usage: bunco completion {' | '.join(SHELLS)}", file=sys.stderr)
        return BAD_USE
    write(SHELLS[words[0]]())
    return 0


def version(words: List[str]) -> int:
    from .. import __version__

    print(f"bunco {__version__}")
    return 0


WORDS = {"help": help_on, "--help": help_on, "-h": help_on, "completion": completion, "--version": version}


def run(words: List[str]) -> int:
    """Runs the command that the words name, and answers its exit status: 2 where there is none of this name."""
    if not words:
        print(usage(), file=sys.stderr)
        return BAD_USE
    command = named(words[0])
    if command is not None and words[1:] == ["--version"]:
        return version(words)
    if command is not None:
        with lasting():
            module = command.load()
        return module.main(words[1:])
    if words[0] in WORDS:
        return WORDS[words[0]](words[1:])
    print(f"bunco: {words[0]} is no command: bunco --help lists them", file=sys.stderr)
    return BAD_USE


def open_closed_streams() -> None:
    """Gives each standard stream that is closed a file: there is nothing to read, and what is written is refused as by a closed one."""
    for number, name, mode in ((0, "stdin", "r"), (1, "stdout", "w"), (2, "stderr", "w")):
        if getattr(sys, name) is None:
            # The lowest number is taken, which is that of the stream.
            file = os.open(os.devnull, os.O_WRONLY if number == 2 else os.O_RDONLY)
            setattr(sys, name, open(file, mode, encoding="utf-8", errors="replace"))


def discard(stream: TextIO) -> None:
    """Lets what is still buffered go nowhere, so that the end says nothing of it."""
    os.dup2(os.open(os.devnull, os.O_WRONLY), stream.fileno())


def tell(text: str) -> None:
    """Says a line on standard error, where that takes it."""
    with contextlib.suppress(OSError):
        print(text, file=sys.stderr, flush=True)


def main(arguments: Optional[List[str]] = None) -> int:
    """The command, from its words to its exit status: 3 where its output could not be written, and 130 behind an interrupt."""
    open_closed_streams()
    try:
        # While the command was loaded an interrupt ended it without a word; from here on it ends as it says.
        signal.signal(signal.SIGINT, signal.default_int_handler)
        return flushed(run(sys.argv[1:] if arguments is None else arguments))
    except KeyboardInterrupt:
        return 128 + signal.SIGINT
    except BrokenPipeError:
        # Whoever reads has enough.
        discard(sys.stdout)
        return 0
    except OSError as error:
        discard(sys.stdout)
        tell(f"bunco: {error.filename + ': ' if error.filename else ''}{error.strerror or error}")
        return STOPPED
    finally:
        signal.signal(signal.SIGINT, signal.SIG_DFL)
        leave_unsaid()
        # All goes with the process: Python's collector need not look through it before.
        gc.freeze()


def leave_unsaid() -> None:
    """Lets what standard error has not taken go nowhere: the exit status says how the command ended."""
    try:
        sys.stderr.flush()
    except OSError:
        discard(sys.stderr)


def flushed(status: int) -> int:
    """The exit status of a command that ended with this one, once its output is written; what it has told is not told again."""
    try:
        sys.stdout.flush()
    except OSError:
        if status != STOPPED:
            raise
        discard(sys.stdout)
    return status
