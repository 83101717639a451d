# Compares the built program hydrograph with the reference, byte for byte, on
# all special storms and on N generated ones.
#
#     python3 reference/compare_hydrograph.py PROGRAM [--seeds N] [--vast]
#
# Ends with status 0 only if at least one storm was compared and all agree.
# At the first difference it writes the storm to a file and ends with status 1.

from __future__ import annotations

import argparse
import sys
from collections.abc import Iterator
from pathlib import Path

from comparison import Comparison
from hydrograph import page
from special_storms import special_storms, vast_storm
from storms import generated_storm


def chosen_storms(seeds: int, vast: bool) -> Iterator[tuple[str, bytes]]:
    yield from special_storms()
    for seed in range(1, seeds + 1):
        yield generated_storm(seed)
    if vast:
        yield vast_storm()


def main() -> int:
    parser = argparse.ArgumentParser(description="Compare hydrograph with the reference.")
    parser.add_argument("program", type=Path)
    parser.add_argument("--seeds", type=int, default=200, help="how many generated storms")
    parser.add_argument("--vast", action="store_true", help="also totals of more than 2**64")
    arguments = parser.parse_args()
    comparison = Comparison("hydrograph", "storm", arguments.program, page)
    return comparison.of_all(chosen_storms(arguments.seeds, arguments.vast))


if __name__ == "__main__":
    sys.exit(main())
