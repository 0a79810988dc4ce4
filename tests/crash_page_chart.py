#!/usr/bin/env python3
"""The chart of an exploration: the draws in the order of what they decide, and the table by hand."""

import os
import sys

sys.dont_write_bytecode = True
sys.path.insert(0, os.path.join(os.path.dirname(os.path.dirname(os.path.abspath(__file__))), "bindings", "python"))
from blobcrash_page import Exploration, exploration, table

# Draw 1 decides alone: every run fails if it is false. Draw 2 was made in half of the runs, and always as true.
EXPLORED = Exploration([("bytes 61", 2), ("bytes 62", 6)], [(4, 2, 4, 3), (4, 0, 4, 4), (4, 2, 0, 0)])

WANTED = """8 runs, 2 outcomes
         6  75.0% ##################       bytes 62
         2  25.0% ######                   bytes 61

 draw        fails if true       fails if false
    1          0 of 4 (0%)        4 of 4 (100%)
    0         2 of 4 (50%)         3 of 4 (75%)
    2         2 of 4 (50%)          never drawn"""

if table(EXPLORED) != WANTED:
    print(table(EXPLORED))
    sys.exit(1)

# Two bytes, each kept or lost, of which recovery wants the first: draw 0 decides.
EXPLORED_TEXT = """# 1 leaf, first: words 0 0
crashed 0:11
bytes 6262
# 1 leaf, first: words 0 max
crashed 0:10
bytes 6261
# 1 leaf, first: words max 0
crashed 0:01
bytes 6162
# 1 leaf, first: words max max
crashed 0:00
bytes 6161
# 4 leaves, all of them; 4 outcomes
"""
found = exploration(EXPLORED_TEXT, lambda replies: replies[-1].startswith("bytes 61"))
if found.draws != [(2, 0, 2, 2), (2, 1, 2, 1)] or found.deciding()[0][0] != 0 or len(found.outcomes) != 4:
    print(found.outcomes, found.draws)
    sys.exit(1)
# With several leaves to an outcome the words of most of them aren't known.
found = exploration("# 3 leaves, first: words 0 0\nsize 2\n# 1 leaf, which draws no words\nsize 0\n# 4 leaves, not all of them: the limit was reached; 2 outcomes\n", bool)
if found.draws != [] or found.outcomes != [("size 2", 3), ("size 0", 1)]:
    print(found.outcomes, found.draws)
    sys.exit(1)
try:
    exploration("ok\n")
    sys.exit("another text is an exploration")
except ValueError:
    pass
