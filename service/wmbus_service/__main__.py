"""`wmbus-service`."""
import sys

from .commandline import main

sys.exit(main(sys.argv[1:]))
