"""`python3 -m judyd` is the command line judy."""

import sys

from .command import main

if __name__ == "__main__":
    sys.exit(main())
