# The course exercise: prints the run sheet of a district of eight nodes and a
# year of days, as docs/COURSE.md tells it.
#
#     python3 reference/course.py > sheets/year.sheet
#
# A step is a day. Depths are points of 0.01 mm, time constants days. The
# weather is made up, the same each time: rain and evaporation are multiples of
# 0.1 mm, as a weather station gives them, with the months of a Dutch year. On
# the first of July two nodes are withdrawn.

from __future__ import annotations

import math
from dataclasses import dataclass
from random import Random

from card import Areas, Concentrations
from reservoirs import WHOLE
from soil import Soil

SEED = 18

# Each month: its name, its days, and about its rain in points, cloudbursts apart.
MONTHS = (
    ("January", 31, 7600),
    ("February", 28, 6200),
    ("March", 31, 6100),
    ("April", 30, 3400),
    ("May", 31, 4300),
    ("June", 30, 4400),
    ("July", 31, 3400),
    ("August", 31, 4900),
    ("September", 30, 7600),
    ("October", 31, 8600),
    ("November", 30, 8800),
    ("December", 31, 7800),
)
CLOUDBURSTS = {(7, 24): 4600, (8, 27): 3800}  # by month and day, in points
DRY_SPELLS = {4: range(9, 23), 6: range(4, 17), 7: range(4, 22)}  # days by month
LAST_WHOLE_MONTH = 6  # after it two nodes are withdrawn

MEAN_EVAPORATION = 157  # of a day, in points; summer lies as far above as winter below
SWING = 145
LONGEST_NIGHT = 355  # the day of the year with the least evaporation
DAYS = 365

HECTARE = 10_000  # in m2
TENTH = 10  # of a millimetre, in points


# Nodes


@dataclass(frozen=True)
class Earth:
    """The water in a soil at pF 4.2, 2 and 0, in tenths of a percent of its volume."""

    wilting_point: int
    field_capacity: int
    saturation: int


@dataclass(frozen=True)
class Place:
    """One node of the district: what its lines on the sheet say."""

    number: int
    name: str
    areas: Areas
    soil: Soil
    days: tuple[float, ...]  # the time constants of the six places
    concentrations: Concentrations
    seepage: int  # of every day, in points; above 0 where it rises
    stays: bool = True  # the others are withdrawn halfway


def hectares(open: int, paved: int, sewer: int, unpaved: int) -> Areas:
    return Areas(open * HECTARE, paved * HECTARE, sewer * HECTARE, unpaved * HECTARE)


def soil_of(earth: Earth, depth: int, limits: tuple[int, int, int], crop: int, slow: int) -> Soil:
    """Of so many centimetres of earth; a percent of a metre is 10 mm.

    The limits are those of infiltration and percolation in a day and of depression storage.
    """
    moistures = (earth.wilting_point, earth.field_capacity, earth.saturation)
    wilting_point, field_capacity, saturation = (depth * moisture for moisture in moistures)
    return Soil(wilting_point, field_capacity, saturation, *limits, crop, slow)


# From the Staring series: light clay, light loam, peat, heavy clay, clayey
# peat, loamy sand, and sand with little loam.
LIGHT_CLAY = Earth(143, 377, 448)
LIGHT_LOAM = Earth(99, 328, 401)
PEAT = Earth(129, 589, 733)
HEAVY_CLAY = Earth(170, 436, 517)
CLAYEY_PEAT = Earth(279, 609, 717)
LOAMY_SAND = Earth(45, 276, 432)
SAND = Earth(30, 201, 371)

# Ammonium, nitrate and phosphor in hundredths of mg/l. They lie in the ranges
# that RAM 1.0 (STOWA 96-03) tables, or are estimates where it has none.
RAIN = (240, 120, 11)
ROADS = (80, 70, 25)
DWELLINGS = (130, 40, 60)
INDUSTRY = (400, 500, 40)
BELOW_CLAY = (450, 40, 150)
BELOW_PEAT = (200, 50, 25)
BELOW_SAND = (20, 200, 0)

PLACES = (
    Place(
        number=1,
        name="village",
        areas=hectares(open=4, paved=10, sewer=36, unpaved=70),
        soil=soil_of(LIGHT_CLAY, 80, (3000, 2400, 300), crop=90, slow=40),
        days=(0.5, 0.002, 0.25, 0.1, 3, 40),
        concentrations=Concentrations(
            open=RAIN,
            paved=ROADS,
            sewer=DWELLINGS,
            surface=(150, 200, 100),
            quick=(60, 100, 40),
            slow=BELOW_CLAY,
            rising=(300, 10, 40),
        ),
        seepage=20,
    ),
    Place(
        number=2,
        name="greenhouses",
        areas=hectares(open=12, paved=68, sewer=0, unpaved=40),
        soil=soil_of(LIGHT_LOAM, 60, (4800, 2400, 200), crop=80, slow=30),
        days=(0.5, 0.002, 0.25, 0.1, 2, 40),
        concentrations=Concentrations(
            open=RAIN,
            paved=RAIN,
            surface=(200, 600, 200),
            quick=(80, 1800, 250),
            slow=(350, 400, 150),
            rising=(300, 10, 40),
        ),
        seepage=30,
    ),
    Place(
        number=3,
        name="grassland on peat",
        areas=hectares(open=28, paved=2, sewer=0, unpaved=270),
        soil=soil_of(PEAT, 50, (9600, 1600, 800), crop=100, slow=60),
        days=(1, 0.002, 0.25, 0.5, 15, 60),
        concentrations=Concentrations(
            open=RAIN,
            paved=ROADS,
            surface=(200, 500, 200),
            quick=(150, 400, 60),
            slow=BELOW_PEAT,
            rising=(300, 10, 40),
        ),
        seepage=40,
    ),
    Place(
        number=4,
        name="arable land on clay",
        areas=hectares(open=6, paved=4, sewer=0, unpaved=240),
        soil=soil_of(HEAVY_CLAY, 100, (2400, 2000, 500), crop=90, slow=30),
        days=(0.5, 0.002, 0.25, 0.2, 2, 50),
        concentrations=Concentrations(
            open=RAIN,
            paved=ROADS,
            surface=(100, 600, 150),
            quick=(40, 1200, 20),
            slow=(450, 1400, 150),
            rising=(300, 10, 40),
        ),
        seepage=50,
    ),
    Place(
        number=5,
        name="heath and wood on sand",
        areas=hectares(open=1, paved=1, sewer=0, unpaved=148),
        soil=soil_of(SAND, 60, (18000, 1200, 600), crop=100, slow=90),
        days=(1, 0.002, 0.25, 0.5, 5, 150),
        concentrations=Concentrations(
            open=RAIN,
            paved=ROADS,
            surface=(100, 200, 10),
            quick=(30, 200, 5),
            slow=BELOW_SAND,
        ),
        seepage=-60,
    ),
    Place(
        number=6,
        name="lake with reed",
        areas=hectares(open=64, paved=0, sewer=0, unpaved=16),
        soil=soil_of(CLAYEY_PEAT, 60, (9600, 1000, 2000), crop=120, slow=50),
        days=(20, 0.002, 0.25, 1, 20, 60),
        concentrations=Concentrations(
            open=RAIN,
            surface=(100, 50, 20),
            quick=(100, 200, 20),
            slow=BELOW_PEAT,
            rising=(150, 10, 20),
        ),
        seepage=10,
    ),
    Place(
        number=7,
        name="industrial estate",
        areas=hectares(open=3, paved=15, sewer=45, unpaved=17),
        soil=soil_of(LOAMY_SAND, 60, (6000, 4000, 200), crop=90, slow=50),
        days=(0.5, 0.002, 0.25, 0.1, 3, 60),
        concentrations=Concentrations(
            open=RAIN,
            paved=INDUSTRY,
            sewer=INDUSTRY,
            surface=(120, 200, 30),
            quick=(50, 200, 5),
            slow=BELOW_SAND,
            rising=(300, 10, 40),
        ),
        seepage=10,
        stays=False,
    ),
    Place(
        number=8,
        name="bulb fields on sand",
        areas=hectares(open=5, paved=3, sewer=0, unpaved=72),
        soil=soil_of(SAND, 50, (18000, 4800, 300), crop=80, slow=40),
        days=(0.5, 0.002, 0.25, 0.1, 2, 60),
        concentrations=Concentrations(
            open=RAIN,
            paved=ROADS,
            surface=(200, 800, 300),
            quick=(60, 2500, 250),
            slow=(80, 800, 40),
            rising=(200, 10, 80),
        ),
        seepage=60,
        stays=False,
    ),
)


def fractions(days: float) -> tuple[int, int]:
    """What a linear reservoir keeps of its storage and of a day's inflow."""
    left = math.exp(-1 / days)
    return math.floor(WHOLE * left), math.floor(WHOLE * days * (1 - left))


# Weather


@dataclass(frozen=True)
class Day:
    month: int  # from 1, as the day is
    day: int
    rain: int
    evaporation: int


def rounded_down(depth: float) -> int:
    """To a tenth of a millimetre."""
    return TENTH * math.floor(depth / TENTH)


def wet_days(random: Random, month: int, days: int) -> list[bool]:
    """Wet days go together, and dry ones; a dry spell has none that is wet."""
    wet = random.random() < 0.5
    found = []
    for day in range(1, days + 1):
        wet = random.random() < (0.74 if wet else 0.42)
        found.append(wet and day not in DRY_SPELLS.get(month, ()))
    return found


def month_of_rain(random: Random, month: int) -> list[int]:
    """Few days have much rain; together they have that of the month."""
    _, days, total = MONTHS[month - 1]
    wet_or_dry = wet_days(random, month, days)
    shares = [-math.log(1 - random.random()) if wet else 0 for wet in wet_or_dry]
    rain = [rounded_down(total * share / sum(shares)) for share in shares]
    for (burst_month, day), depth in CLOUDBURSTS.items():
        if burst_month == month:
            rain[day - 1] = depth
    return rain


def evaporation(random: Random, day_of_year: int, rain: int) -> int:
    """More in summer, and more where it does not rain."""
    season = 2 * math.pi * (day_of_year - LONGEST_NIGHT) / DAYS
    sky = (0.45 if rain else 0.95) + 0.5 * random.random()
    return rounded_down(sky * (MEAN_EVAPORATION - SWING * math.cos(season)) + TENTH / 2)


def weather() -> list[Day]:
    random = Random(SEED)
    year: list[Day] = []
    for month in range(1, len(MONTHS) + 1):
        for day, rain in enumerate(month_of_rain(random, month), start=1):
            year.append(Day(month, day, rain, evaporation(random, len(year) + 1, rain)))
    return year


# The sheet


def line(letter: str, *numbers: int) -> str:
    return " ".join([letter, *map(str, numbers)])


def card_lines(place: Place) -> list[str]:
    soil = place.soil
    moistures = (soil.wilting_point, soil.field_capacity, soil.saturation)
    limits = (soil.infiltration_limit, soil.percolation_limit, soil.depression_limit)
    settings = [fraction for days in place.days for fraction in fractions(days)]
    carried = [amount for flow in place.concentrations.each() for amount in flow]
    return [
        f"# {place.number}: {place.name}",
        line("o", place.number, *place.areas.each()),
        line("g", *moistures, *limits, soil.crop_factor, soil.slow_share),
        line("k", *settings),
        line("c", *carried),
    ]


def day_lines(day: Day) -> list[str]:
    name, _, _ = MONTHS[day.month - 1]
    stepped = [place for place in PLACES if place.stays or day.month <= LAST_WHOLE_MONTH]
    return [
        f"# {day.day} {name}",
        *(line("s", place.number, day.rain, day.evaporation, place.seepage) for place in stepped),
    ]


def withdrawal_lines() -> list[str]:
    leaving = [place for place in PLACES if not place.stays]
    names = " and ".join(place.name for place in leaving)
    return [
        f"# 1 July, before the first step: withdrawn are {names}",
        *(line("w", place.number) for place in leaving),
        "# the reading after the withdrawals",
        "r",
    ]


def month_lines(month: int, days: list[Day]) -> list[str]:
    name, _, _ = MONTHS[month - 1]
    steps = [text for day in days if day.month == month for text in day_lines(day)]
    return [*steps, f"# the reading at the end of {name}", "r"]


def sheet_lines() -> list[str]:
    days = weather()
    lines = ["# The course exercise: a district of eight nodes, a year of days."]
    for place in PLACES:
        lines += card_lines(place)
    lines += ["# the reading at the start", "r"]
    for month in range(1, len(MONTHS) + 1):
        lines += month_lines(month, days)
        if month == LAST_WHOLE_MONTH:
            lines += withdrawal_lines()
    return lines


if __name__ == "__main__":
    for text in sheet_lines():
        print(text)
