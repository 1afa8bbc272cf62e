"""Starts tools/command.py as a module, whose compiled form Python keeps."""
import os
import sys

# This file alone is read by every Python 3, so nothing of a later one may be in it.
if sys.version_info < (3, 8):
    sys.stderr.write('m51: python3 on the path is %d.%d, and 3.8 or later is needed\n' % sys.version_info[:2])
    sys.exit(70)
sys.path.insert(0, os.path.dirname(os.path.realpath(__file__)))
import command  # noqa: E402

sys.exit(command.main(sys.argv[1:]))
