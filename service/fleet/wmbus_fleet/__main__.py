"""`python3 -m wmbus_fleet` is `wmbus-fleet`."""
import sys

from .commandline import main

sys.exit(main(sys.argv[1:]))
