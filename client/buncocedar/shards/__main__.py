"""The command `bunco shards`, by `python3 -m buncocedar.shards`."""

import sys

from .command import main

if __name__ == "__main__":
    sys.exit(main())
