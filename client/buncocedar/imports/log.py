"""What an import says while it runs. Where standard error takes no more, as on a full disk, the import goes on."""

import contextlib
import sys
import time


class Log:
    """Messages on standard error, and a line of progress there where it is a terminal."""

    def __init__(self, tool, file=None):
        self.tool = tool
        self.file = file or sys.stderr
        self.shows = self.file.isatty()
        self.shown = False
        self.at = 0.0

    def say(self, text):
        with contextlib.suppress(OSError):
            self.clear()
            print(f"{self.tool}: {text}", file=self.file, flush=True)

    def clear(self):
        if self.shown:
            self.file.write("\r\x1b[K")
            self.shown = False

    def progress(self, text):
        """Shows what this call answers, some times a second."""
        now = time.monotonic()
        if self.shows and now - self.at >= 0.2:
            self.at = now
            self.file.write(f"\r\x1b[K{text()}")
            self.file.flush()
            self.shown = True


def several(number, word="document"):
    return f"{number:,} {word}" if number == 1 else f"{number:,} {word}s"
