"""`python3 -m buncocedar` is the command `bunco`."""

import sys

if __name__ == "__main__":
    from .tools.main import main

    sys.exit(main())
