# Compares the built program ram with the reference, byte for byte, on all special
# run sheets, on every file in sheets/, and on N generated sheets.
#
#     python3 reference/compare_sheets.py PROGRAM [--count N]
#
# Ends with status 0 only if at least one sheet was compared and all agree.
# At the first difference it writes the sheet to a file and ends with status 1.

from __future__ import annotations

import argparse
import sys
from collections.abc import Iterator
from pathlib import Path

from comparison import Comparison
from sheet import page
from sheets import generated_sheet
from special_sheets import special_sheets

SHEETS = Path(__file__).resolve().parent.parent / "sheets"


def chosen_sheets(count: int) -> Iterator[tuple[str, bytes]]:
    yield from special_sheets()
    for path in sorted(SHEETS.glob("*")):
        yield path.name, path.read_bytes()
    for seed in range(1, count + 1):
        yield generated_sheet(seed)


def main() -> int:
    parser = argparse.ArgumentParser(description="Compare ram with the reference.")
    parser.add_argument("program", type=Path)
    parser.add_argument("--count", type=int, default=400, help="how many generated sheets")
    arguments = parser.parse_args()
    comparison = Comparison("ram", "sheet", arguments.program, page)
    return comparison.of_all(chosen_sheets(arguments.count))


if __name__ == "__main__":
    sys.exit(main())
