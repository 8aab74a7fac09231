"""Runs the command doomview."""
import os
import sys

HERE = os.path.dirname(os.path.abspath(__file__))
sys.path[:] = [os.path.dirname(HERE), *(path for path in sys.path if path != HERE)]  # the first may be that of Python's own
from doomview_tools.command import main  # noqa: E402

sys.exit(main(sys.argv[1:]))
