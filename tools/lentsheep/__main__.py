"""The entry, which sandbox runs by the name of this file: a folder takes longer to be run."""
import os
import sys

sys.dont_write_bytecode = True
# The folder of the package stands in for that of its modules, whose names may be those of others.
sys.path[0] = os.path.dirname(os.path.dirname(os.path.realpath(__file__)))

from sites import bytecode

bytecode.keep()

from lentsheep.entry import main

sys.exit(main(sys.argv[1:]))
