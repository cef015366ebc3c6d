"""Runs a script for each line of standard input, with its words as arguments, in one process; names the lines that it fails on.

    each.py SCRIPT < LINES
"""

import runpy
import sys

script, bad = sys.argv[1], 0
for line in sys.stdin:
    sys.argv = [script, *line.split()]
    try:
        runpy.run_path(script, run_name="__main__")
    except SystemExit as wrong:
        if wrong.code:
            print(f"{line.strip()}: {wrong.code}")
            bad = 1
sys.exit(bad)
