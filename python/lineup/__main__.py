"""Starts lineup from its folder: no path of the environment is searched for modules."""
import os
import sys

if sys.version_info < (3, 9):
    print("lineup: Python 3.9 or newer is needed, and this is " + sys.version.split()[0], file=sys.stderr)
    sys.exit(2)
sys.path.insert(0, os.path.dirname(os.path.dirname(os.path.abspath(__file__))))

from lineup.cli import main  # noqa: E402 (the path has to be set first)

sys.exit(main(sys.argv[1:]))
