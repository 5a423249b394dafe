"""What each script begins with: the ways to the modules that scripts share, in whichever folder they stand, and an end in words
(readings/quiet.py).

Other folders whose scripts begin so have a file of this name that runs this one."""
import os
import sys

TOP = os.path.dirname(os.path.dirname(os.path.dirname(os.path.realpath(__file__))))
# (the first is the script's own folder)
sys.path[1:1] = [TOP, *(f"{TOP}/{folder}" for folder in ("tests", "tests/checks", "tests/fuzz", "bench", "build"))]

from readings import quiet  # noqa: E402, F401
