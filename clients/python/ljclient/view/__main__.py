"""`python3 -m ljclient.view`."""
import sys

from . import main

sys.exit(main(sys.argv[1:]))
