"""Makes an empty index, in a new file or an empty one: whole, or not at all.

The commands that bring documents in make one by themselves where there is none.

The status is 0 where the index stands, and 3 where it could not be made, as where the file holds something.
"""

import argparse
import sys

from ..errors import Error
from ..links import default_program
from ..making import holds_bytes, make_index
from ..terminal import why_at

STOPPED = 3


def parser():
    """What the words of the command may be."""
    parser = argparse.ArgumentParser(
        prog="bunco init", description=__doc__, formatter_class=argparse.RawDescriptionHelpFormatter
    )
    parser.add_argument("index", metavar="INDEX", help="the file to be made")
    return parser


def main(arguments=None):
    options = parser().parse_args(arguments)
    try:
        if holds_bytes(options.index):
            print(f"init: {options.index} is there already, and stays as it is", file=sys.stderr)
            return STOPPED
        make_index(default_program(), options.index)
    except (Error, OSError) as error:
        print(f"init: {why_at(options.index, error)}", file=sys.stderr)
        return STOPPED
    except KeyboardInterrupt:
        return 130
    return 0
