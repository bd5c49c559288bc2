"""What the scripts write: text that a terminal can show, in colours, and through a pager; and the user's editor."""

import contextlib
import os
import sys

MARK, NAME, PLACE, PLAIN = "\x1b[1;31m", "\x1b[35m", "\x1b[32m", "\x1b[0m"


def printable(text):
    """The text without what would steer a terminal: a tab is blanks, and what cannot be printed a U+FFFD."""
    return "".join(
        character if character.isprintable() or character == "\n" else "    " if character == "\t" else "\ufffd" for character in text
    )


def why(error):
    """An error in words, without the number that the system gives it."""
    if isinstance(error, OSError) and error.strerror:
        return f"{error.filename}: {error.strerror}" if error.filename else error.strerror
    return str(error)


def why_at(path, error):
    """An error in words, behind the path that it is of, which stands there once."""
    told = why(error)
    return told if told.startswith(path) else f"{path}: {told}"


def waits(say):
    """What tells, by this call, who is waited for."""
    return lambda who: say(f"{who}, and is waited for")


def write(text):
    """Writes text and flushes; a reader that has enough ends it quietly."""
    with quiet_end():
        sys.stdout.write(text)
        sys.stdout.flush()


@contextlib.contextmanager
def quiet_end():
    """Where the reader of standard output has gone, what is still buffered goes nowhere, and the end says nothing of it."""
    try:
        yield
    except BrokenPipeError:
        os.dup2(os.open(os.devnull, os.O_WRONLY), sys.stdout.fileno())


class Paint:
    """Colours, or none."""

    def __init__(self, on):
        self.on = on

    def __call__(self, colour, text):
        return f"{colour}{text}{PLAIN}" if self.on else text

    def marked(self, text, spans):
        """The text with these spans of it marked; they rise and don't meet."""
        if not self.on:
            return text
        at, shown = 0, []
        for begin, end in spans:
            shown += [text[at:begin], MARK, text[begin:end], PLAIN]
            at = end
        return "".join([*shown, text[at:]])


def wants_colour(choice):
    """Whether to write in colours: always, never, or on a terminal whose user has not set NO_COLOR."""
    if choice == "auto":
        return sys.stdout.isatty() and not os.environ.get("NO_COLOR") and os.environ.get("TERM") != "dumb"
    return choice == "always"


@contextlib.contextmanager
def paged(wanted):
    """Standard output through the user's pager, which ends by itself where all fits on the screen."""
    pager = started_pager() if wanted and sys.stdout.isatty() else None
    if pager is None:
        yield
        return
    sys.stdout.flush()
    terminal = os.dup(sys.stdout.fileno())
    os.dup2(pager.stdin.fileno(), sys.stdout.fileno())
    pager.stdin.close()
    try:
        with quiet_end():
            yield
            sys.stdout.flush()
    finally:
        os.dup2(terminal, sys.stdout.fileno())
        os.close(terminal)
        waited(pager)


def started_pager():
    """The user's pager, or None where there is none."""
    import shlex
    import subprocess

    words = shlex.split(os.environ.get("PAGER", "less"))
    try:
        return subprocess.Popen(words, stdin=subprocess.PIPE, env={"LESS": "FRX", **os.environ}) if words else None
    except OSError:
        return None


def waited(process):
    """Waits for a program that has the terminal meanwhile, and answers its status: an interrupt there is one for it."""
    while process.poll() is None:
        with contextlib.suppress(KeyboardInterrupt):
            process.wait()
    return process.returncode


# Editors that begin at the line which a word `+N` before the file says.
AT_A_LINE = ("emacs", "emacsclient", "gvim", "joe", "kak", "mg", "micro", "nano", "nvim", "pico", "vi", "view", "vim")


# Editors that begin at the line which stands behind the file's name, as `FILE:N`; of some a word before it says that.
BEHIND_THE_NAME = {"code": ["--goto"], "codium": ["--goto"], "hx": [], "subl": [], "zed": []}


def editor_words(path, line):
    """The command that opens a file in the user's editor, at a line where it is known how that editor takes one."""
    import shlex

    words = shlex.split(os.environ.get("VISUAL") or os.environ.get("EDITOR") or "vi")
    name = os.path.basename(words[0]).partition(".")[0] if words else ""
    if name in BEHIND_THE_NAME:
        return [*words, *BEHIND_THE_NAME[name], f"{path}:{line}"]
    return [*words, *([f"+{line}"] if name in AT_A_LINE else []), path]


def edited(path, line=1):
    """Opens a file in the user's editor until that ends, and answers its status. Raises `OSError` where it can't be started."""
    import subprocess

    return waited(subprocess.Popen(editor_words(path, line)))


def linked(text, path):
    """The text as a link to a file, by the sequence OSC 8 that terminals know."""
    import socket
    from urllib.parse import quote

    return f"\x1b]8;;file://{socket.gethostname()}{quote(os.fsencode(os.path.abspath(path)))}\x1b\\{text}\x1b]8;;\x1b\\"
