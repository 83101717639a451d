# Writing run sheets: lines, the four lines that open a node, and whole sheets.
# What is not given is as in the worked node: 10 m2 of open water, 20 paved and
# 100 unpaved, reservoirs that keep nothing, and water that carries nothing.

from __future__ import annotations

AREAS = (10, 20, 0, 100)
SOIL = (10_000, 30_000, 40_000, 2_000, 1_000, 500, 80, 50)
KEEPING_NOTHING = (0,) * 12
CLEAN = (0,) * 21

BROUGHT_IN = 3_000_000  # by such a node: 30,000 points on 100 m2


def line(letter: str, *numbers: int) -> bytes:
    return " ".join([letter, *(str(number) for number in numbers)]).encode("ascii")


def opening(
    number: int,
    areas: tuple[int, ...] = AREAS,
    soil: tuple[int, ...] = SOIL,
    fractions: tuple[int, ...] = KEEPING_NOTHING,
    concentrations: tuple[int, ...] = CLEAN,
) -> list[bytes]:
    return [
        line("o", number, *areas),
        line("g", *soil),
        line("k", *fractions),
        line("c", *concentrations),
    ]


def sheet_of(lines: list[bytes]) -> bytes:
    """The lines as one sheet, each ended."""
    return b"".join(each + b"\n" for each in lines)


def replaced(numbers: tuple[int, ...], place: int, number: int) -> tuple[int, ...]:
    """The same numbers but for one; the places start at 0."""
    return *numbers[:place], number, *numbers[place + 1 :]
