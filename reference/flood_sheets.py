# The floods among the special sheets: each of the six places filled to its
# capacity of 10^14 centilitres exactly, and several places at once.
#
# On the largest area a point of rain is 10^8 centilitres, so that a place is full
# at 1,000,000 points. Its reservoirs keep fifteen sixteenths, and each rain is
# chosen so that every cell again holds whole points; then the room that is left
# can be filled to the centilitre.
#
# Cause 10, too much income, is met by no sheet. A line adds at most 2 x 10^13
# centilitres: an opening 199,999 points on 10^8 m2, a step 110,000 points. The
# shortest of these lines has ten bytes with its end, so that there are at most
# 6,553 of them, and 1.4 x 10^17 is well below 10^18.

from __future__ import annotations

from copy import deepcopy

from card import LARGEST_AREA
from node import LARGEST_RAIN, PLACES
from reservoirs import CAPACITY, Reservoir
from sheet import reservoir_at
from sheet_text import KEEPING_NOTHING, SOIL, line, opening, sheet_of

FIFTEEN_SIXTEENTHS = 61_440  # of 65,536, as the two below
MUCH = 64_512  # sixty-three sixty-fourths
MOST = 65_535  # the most that a linear reservoir keeps

HARD = (0, 0, 1, 0, 0, 0, 0, 0)  # a soil that nothing enters
SIEVE = (0, 100_000, 200_000, 100_000, 100_000, 0, 0)  # all rain percolates; no slow share yet


def card_for(place: str, area: int) -> tuple[tuple[int, ...], tuple[int, ...]]:
    """Areas and soil with which all rain goes to one place."""
    if place in ("open", "paved", "sewer"):
        return tuple(area if name == place else 0 for name in PLACES[:3]) + (0,), SOIL
    if place == "surface":
        return (0, 0, 0, area), HARD
    return (0, 0, 0, area), (*SIEVE, 100 if place == "slow" else 0)


def fractions_for(place: str, a: int, b: int) -> tuple[int, ...]:
    """That place keeps a and b; the others keep nothing."""
    return tuple(number for name in PLACES for number in ((a, b) if name == place else (0, 0)))


def holds_whole_points(reservoir: Reservoir) -> bool:
    return all(cell % LARGEST_AREA == 0 for cell in reservoir.cells())


def largest_even_rain(reservoir: Reservoir) -> int:
    """The largest that leaves whole points in every cell."""
    for rain in range(LARGEST_RAIN, 0, -1):
        after = deepcopy(reservoir)
        after.take(rain * LARGEST_AREA)
        if holds_whole_points(after):
            return rain
    raise ValueError("no rain leaves whole points")


def rains_to_the_brim(place: str) -> list[int]:
    """The last of them fills the place exactly."""
    reservoir = reservoir_at(place, FIFTEEN_SIXTEENTHS, FIFTEEN_SIXTEENTHS)
    rains = []
    while CAPACITY - reservoir.held() >= LARGEST_RAIN * LARGEST_AREA:
        rain = largest_even_rain(reservoir)
        reservoir.take(rain * LARGEST_AREA)
        rains.append(rain)
    return [*rains, (CAPACITY - reservoir.held()) // LARGEST_AREA]


def brim_sheet(place: str) -> bytes:
    """Filled exactly, after one point too much was refused; then on until it is full again."""
    areas, soil = card_for(place, LARGEST_AREA)
    fractions = fractions_for(place, FIFTEEN_SIXTEENTHS, FIFTEEN_SIXTEENTHS)
    *rains, last = rains_to_the_brim(place)
    steps = [*rains, last + 1, last, LARGEST_RAIN, LARGEST_RAIN, 1, LARGEST_RAIN, 0, 0]
    lines = opening(1, areas, soil, fractions)
    lines += [line("s", 1, rain, 0, 0) for rain in steps]
    return sheet_of(lines + [b"r", b"w 1", b"r"])


def flooded(number: int, areas: tuple[int, ...], soil: tuple[int, ...], keep: int) -> list[bytes]:
    """A node under the heaviest rain for 26 steps, read, dried for one, and flooded again.

    Each of its places keeps that many 65,536ths.
    """
    heaviest = line("s", number, LARGEST_RAIN, 0, 0)
    dry = line("s", number, 0, 10_000, 0)
    return opening(number, areas, soil, (keep,) * 12) + [heaviest] * 26 + [b"r", dry, heaviest]


def several_places_sheet() -> bytes:
    """Two places fill alike: the lowest is told, unless only the higher one is full.

    The sewer's lag and the second reservoir of the slow place hold what the first
    has given, so that those two places may be full sooner.
    """
    half = LARGEST_AREA // 2
    lines = flooded(1, (half, half, 0, 0), SOIL, MOST)  # refused at 1
    lines += flooded(2, (half, 0, 0, half), HARD, MOST)  # at 1
    lines += flooded(3, (0, half, half, 0), SOIL, MUCH)  # at 2; once dried, at 3
    halves = (*SIEVE, 50)
    lines += flooded(4, (0, 0, 0, LARGEST_AREA), halves, MUCH)  # at 6
    lines += flooded(5, (0, 0, 0, LARGEST_AREA), halves, MOST)  # at 5
    return sheet_of(lines)


def lag_sheet() -> bytes:
    """A sewer whose lag alone holds something, a step's rain: it never fills."""
    lines = opening(1, (0, 0, LARGEST_AREA, 0), fractions=KEEPING_NOTHING)
    return sheet_of(lines + [line("s", 1, LARGEST_RAIN, 0, 10_000)] * 25 + [b"s 1 0 0 0", b"r"])


def flood_sheets() -> list[tuple[str, bytes]]:
    brims = [(f"brim-{place}", brim_sheet(place)) for place in PLACES]
    several = ("several-places-full", several_places_sheet())
    return [*brims, several, ("lag-never-full", lag_sheet())]
