"""What each script of this folder begins with: the ways that tests/checks/ways.py makes to the modules that scripts share."""
import os
import runpy

TOP = runpy.run_path(f"{os.path.dirname(os.path.realpath(__file__))}/../tests/checks/ways.py")["TOP"]
