# Random lines for generated run sheets: the four that open a node, and steps. A
# plain card is never refused as a card; an edge card has numbers at their limits
# and just beyond, so that most are refused.

from __future__ import annotations

from random import Random

from sheet_text import line, opening
from storms import random_fractions

EDGE_NUMBERS = [0, 1, 2, 255, 256, 257, 65_537, 999_999_999]  # of nodes
REMARKS = [b"", b"", b"#", b"# dry", b"#12", b"# \xe9t\xe9 \0\r", b"#" * 200]


# Parts of cards


def plain_areas(random: Random) -> tuple[int, ...]:
    largest = 10 ** random.randint(0, 7)
    areas = [random.choice([0, random.randint(0, largest)]) for _ in range(4)]
    areas[random.randrange(4)] += 1  # so that not all are 0
    return tuple(areas)


def plain_soil(random: Random) -> tuple[int, ...]:
    highest = 10 ** random.randint(1, 5) * random.choice([1, 2])
    wilting_point, field_capacity = sorted(random.randint(0, highest - 1) for _ in range(2))
    saturation = random.randint(field_capacity + 1, highest)
    percolation = random.randint(0, saturation - field_capacity)
    infiltration, depression = (random.randint(0, 10 ** random.randint(0, 5)) for _ in range(2))
    share = random.choice([0, 100, random.randint(0, 100)])
    limits = infiltration, percolation, depression
    return wilting_point, field_capacity, saturation, *limits, random.randint(0, 200), share


def six_fractions(random: Random) -> tuple[int, ...]:
    return tuple(number for _ in range(6) for number in random_fractions(random))


def plain_water(random: Random) -> tuple[int, ...]:
    highest = random.choice([0, 1, 300, 20_000])
    return tuple(random.randint(0, highest) for _ in range(21))


def shaken(random: Random, numbers: tuple[int, ...], limits: tuple[int, ...]) -> tuple[int, ...]:
    """The same numbers, but now and then one is set about its limit."""
    edges = [max(limit + random.randint(-1, 1), 0) for limit in limits]
    return tuple(
        edge if random.random() < 0.05 else number for number, edge in zip(numbers, edges)
    )


# Openings


def plain_opening(random: Random, number: int) -> list[bytes]:
    areas, soil = plain_areas(random), plain_soil(random)
    return opening(number, areas, soil, six_fractions(random), plain_water(random))


def edge_opening(random: Random) -> list[bytes]:
    areas = shaken(random, plain_areas(random), (100_000_000,) * 4)
    soil = plain_soil(random)
    _, field_capacity, saturation = soil[:3]
    moistures = field_capacity, saturation, random.choice([field_capacity, 200_000])
    limits = *moistures, 100_000, saturation - field_capacity, 100_000, 200, 100
    fractions = shaken(random, six_fractions(random), (65_535, 65_535) * 6)
    water = shaken(random, plain_water(random), (20_000,) * 21)
    return opening(
        random.choice(EDGE_NUMBERS + [random.randint(1, 256)] * 8),
        random.choice([areas] * 7 + [(0, 0, 0, 0)]),
        shaken(random, soil, limits),
        random.choice([fractions, six_fractions(random)]),
        random.choice([water, plain_water(random)]),
    )


# Steps


def plain_step(random: Random, number: int) -> bytes:
    rain = random.choice([0, 0, random.randint(0, 10 ** random.randint(0, 5))])
    evaporation = random.choice([0, random.randint(0, 10 ** random.randint(0, 4))])
    seepage = random.choice([0, random.randint(-1, 1) * random.randint(0, 10_000)])
    return line("s", number, rain, evaporation, seepage)


def edge_step(random: Random, number: int) -> bytes:
    rain = random.choice([0, 99_999, 100_000, 100_000, 100_001, 999_999_999])
    evaporation = random.choice([0, 9_999, 10_000, 10_000, 10_001])
    seepage = random.choice([-10_001, -10_000, -9_999, -1, 0, 0, 1, 10_000, 10_001])
    return line("s", number, rain, evaporation, seepage)
