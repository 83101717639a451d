# The program ram: reads a run sheet and prints its page.
#
#     python3 reference/ram.py < sheet

from __future__ import annotations

import sys

from sheet import page

if __name__ == "__main__":
    sys.stdout.buffer.write(page(sys.stdin.buffer.read()))
