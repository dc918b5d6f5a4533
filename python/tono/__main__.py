"""`python3 -m tono` is the command `tono`."""
import sys

from .command import main

if __name__ == "__main__":
    sys.exit(main())
