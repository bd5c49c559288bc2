"""The prompt of the scripts: typed lines, with a history over sessions and completion, or the lines of a file or pipe."""

import os
import sys

try:
    import readline
except ImportError:
    readline = None  # type: ignore[assignment]

LINES_KEPT = 1_000  # of the history


def history_path(name):
    """The file of a history: this one in the user's folder for such, or what BUNCOCEDAR_HISTORY says; where that is empty, none."""
    state = os.environ.get("XDG_STATE_HOME") or os.path.join(os.path.expanduser("~"), ".local", "state")
    return os.environ.get("BUNCOCEDAR_HISTORY", os.path.join(state, "buncocedar", name))


class Prompt:
    """Asks for lines: of a terminal in a `with`, which has a history there, and completes these words.

    `typed` tells whether somebody types; `tool` is who says it where the history can't be kept.
    """

    def __init__(self, tool, history, words):
        self.tool = tool
        self.words = words
        if sys.stdin is None:
            # It was closed: there are no lines.
            sys.stdin = open(os.devnull)
        self.typed = sys.stdin.isatty()
        # What is no text stays the bytes that it is. What nobody types is in the program's own encoding, and ends where its lines do.
        as_they_are = {} if self.typed else {"encoding": "utf-8", "newline": "\n"}
        sys.stdin.reconfigure(errors="surrogateescape", **as_they_are)
        self.path = history_path(history) if self.typed and readline else ""

    def __enter__(self):
        if self.typed and readline:
            readline.set_completer(self.completed)
            readline.set_completer_delims(" ()")
            readline.parse_and_bind("tab: complete")
            readline.set_history_length(LINES_KEPT)
        if self.path:
            try:
                readline.read_history_file(self.path)
            except OSError:
                pass
        return self

    def __exit__(self, *what):
        if not self.path:
            return
        try:
            os.makedirs(os.path.dirname(os.path.abspath(self.path)), mode=0o700, exist_ok=True)
            readline.write_history_file(self.path)
        except OSError as error:
            print(f"{self.tool}: the history could not be kept: {error}", file=sys.stderr)

    def completed(self, text, state):
        fitting = [word for word in self.words if text and word.startswith(text)]
        return fitting[state] if state < len(fitting) else None

    def ask(self, text):
        """A line, None at the end. The text is shown where somebody types. Bytes that are no text are lone surrogates, as in names of files."""
        try:
            return input(text if self.typed else "")
        except EOFError:
            return None

    def lines(self, text):
        """The lines up to the end, or up to a typed `quit`, without empty ones and typed ones that are interrupted."""
        while True:
            try:
                line = self.ask(text)
            except KeyboardInterrupt:
                if not self.typed:
                    raise
                print()
                continue
            if line is None and self.typed:
                print()
            if line is None or self.typed and line.strip() in ("quit", "exit"):
                return
            if line.strip():
                yield line
