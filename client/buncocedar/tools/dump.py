"""Writes the words of all documents, as lines that add them again: to standard output.

The words are as the index has them, in small letters: it keeps no texts. `bunco dump old.alta | bunco shell new.alta --create`
makes a new index of them. A document whose words give no such line is told, and left out. An index that may not be written is read
by a private copy.

The status is 0, 1 where a document was left out, and 3 where not all could be written.
"""

import argparse
import os
import sys

from ..errors import Error
from ..lines import add_line
from ..replies import Skipped
from .reading import Readable

SOME_LEFT_OUT = 1
STOPPED = 3


def parser():
    """What the words of the command may be."""
    parser = argparse.ArgumentParser(
        prog="bunco dump", description=__doc__, formatter_class=argparse.RawDescriptionHelpFormatter
    )
    parser.add_argument("index", metavar="INDEX")
    parser.add_argument("--wait", metavar="SECONDS", type=float, default=10.0, help="how long to wait for who has it open")
    return parser


def say(text):
    print(f"dump: {text}", file=sys.stderr)


def write_all(documents):
    """Writes the lines, and answers how many documents have none."""
    left_out = 0
    for document in documents:
        if isinstance(document, Skipped):
            left_out += 1
            say(f"{document.name}: its words give no line, so it is left out")
        else:
            sys.stdout.buffer.write(add_line(*document)[0])
    sys.stdout.buffer.flush()
    return left_out


def main(arguments=None):
    options = parser().parse_args(arguments)
    try:
        with Readable(options.index, options.wait, say) as source, source.opened() as index:
            return SOME_LEFT_OUT if write_all(index.dump()) else 0
    except OSError as error:
        # What is still buffered goes nowhere, so that the end says nothing of it.
        os.dup2(os.open(os.devnull, os.O_WRONLY), 1)
        if not isinstance(error, BrokenPipeError):
            say(error)
        return STOPPED
    except Error as error:
        say(error)
        return STOPPED
    except KeyboardInterrupt:
        return 130
