"""The kit's command `rt`, with the sums of `kit.py`: `python3 gate/command.py ci` at the top of the repository."""

import sys

from kit import rt

if __name__ == "__main__":
    sys.exit(rt.main(sys.argv[1:]))
