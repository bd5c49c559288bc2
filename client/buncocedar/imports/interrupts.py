"""What an interrupt does to an import."""

# An interrupt while Python still reads the modules of a script ends it with a traceback. Nothing is begun then. To end
# without a word each script would need lines of its own before its imports, and Python's own start would still have a moment
# of its own.

import os
import signal


class Interrupted(BaseException):
    """An interrupt while the import waits for its source."""


class Interrupts:
    """Interrupts while an import runs: the first asks it to end, the second ends the program, the third breaks all off."""

    notes = {1: b"\nends when the replies under way have come; once more ends the program\n", 2: b"\nending the program\n"}

    def __init__(self, index):
        self.index = index
        self.count = 0
        self.signal = 0
        self.waits = False

    def __enter__(self):
        self.before = {each: signal.signal(each, self.take) for each in (signal.SIGINT, signal.SIGTERM)}
        return self

    def __exit__(self, *what):
        for each, handler in self.before.items():
            signal.signal(each, handler)

    def take(self, number, frame):
        self.count += 1
        self.signal = number
        # Written past the buffer, which this may have interrupted.
        try:
            os.write(2, self.notes.get(self.count, b""))
        except OSError:
            pass
        # One may come while this still runs for the one before.
        if self.count == 2:
            self.index.break_off()
        elif self.count > 2:
            raise KeyboardInterrupt
        if self.waits:
            # A read of the source would go on waiting.
            self.waits = False
            raise Interrupted

    def each(self, documents):
        """The documents of a source, up to an interrupt."""
        documents = iter(documents)
        while True:
            document = self.next_of(documents)
            if document is None:
                break
            yield document

    def next_of(self, documents):
        """The next document, None at the end of the source and at an interrupt."""
        try:
            self.waits = True
            document = None if self.count else next(documents, None)
            self.waits = False
            return document
        except Interrupted:
            return None
        finally:
            self.waits = False
