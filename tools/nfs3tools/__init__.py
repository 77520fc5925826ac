"""The tools for testers: reading recordings and captures, and running the program on them.

This file is read by any Python, so that a tool can say what an old one lacks.
"""
import os
import sys

if sys.version_info < (3, 9):
    called = os.path.basename(sys.argv[0]) if sys.argv[0] not in ('', '-c', '-m') else __name__
    sys.stderr.write('%s: needs Python 3.9 or later; this is %d.%d.%d\n'
                     % ((called,) + tuple(sys.version_info[:3])))
    sys.exit(3)
