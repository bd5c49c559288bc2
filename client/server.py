#!/usr/bin/env python3
"""The name that `bunco serve` had before, from a checkout. It goes with the next version."""

import sys

from buncocedar.server import main

if __name__ == "__main__":
    print("client/server.py: this name goes with the next version; use bunco serve", file=sys.stderr)
    sys.exit(main())
