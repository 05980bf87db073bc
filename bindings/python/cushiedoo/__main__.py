"""`python3 -m cushiedoo`: see `cushiedoo.cli`."""
import sys

from .cli import main

if __name__ == "__main__":
    sys.exit(main())
