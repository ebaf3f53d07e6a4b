"""`python3 -m riichi_hall` is the command `riichi-hall`."""

import sys

from .command import main

if __name__ == "__main__":
    sys.exit(main())
