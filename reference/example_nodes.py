# The three nodes of the district example: their cards and reservoirs.

from __future__ import annotations

from card import Areas, Card, Concentrations
from reservoirs import Lag, Linear, Reservoir, Series
from soil import Soil

# A small yard with some ditch, some pavement and mostly grass. Its reservoirs
# give everything in the step they take it.
YARD = Card(
    Areas(open=10, paved=20, sewer=0, unpaved=100),
    Soil(
        wilting_point=10_000,
        field_capacity=30_000,
        saturation=40_000,
        infiltration_limit=2_000,
        percolation_limit=1_000,
        depression_limit=500,
        crop_factor=80,
        slow_share=50,
    ),
    Concentrations(surface=(690, 0, 0)),
)

# A part of a town with every kind of surface, a clay soil, reservoirs that
# keep something, and a concentration of its own in each flow.
TOWN = Card(
    Areas(open=1_000, paved=2_500, sewer=4_000, unpaved=12_500),
    Soil(
        wilting_point=12_000,
        field_capacity=28_000,
        saturation=45_000,
        infiltration_limit=1_500,
        percolation_limit=700,
        depression_limit=300,
        crop_factor=110,
        slow_share=33,
    ),
    Concentrations(
        open=(240, 120, 11),
        paved=(150, 90, 40),
        sewer=(600, 210, 130),
        surface=(80, 310, 25),
        quick=(45, 520, 17),
        slow=(30, 260, 9),
        rising=(310, 20, 52),
    ),
)

# A meadow on fine sand with a ditch and a path. Its sewer place stays dry.
MEADOW = Card(
    Areas(open=400, paved=100, sewer=0, unpaved=39_500),
    Soil(
        wilting_point=2_400,
        field_capacity=16_080,
        saturation=29_680,
        infiltration_limit=2_500,
        percolation_limit=1_200,
        depression_limit=800,
        crop_factor=95,
        slow_share=70,
    ),
    Concentrations(
        open=(240, 120, 11),
        paved=(150, 90, 40),
        surface=(110, 460, 85),
        quick=(25, 730, 12),
        slow=(15, 340, 6),
        rising=(310, 20, 52),
    ),
)


def yard_reservoirs() -> list[Reservoir]:
    return [
        Linear(0, 0),
        Linear(0, 0),
        Series(Linear(0, 0), Lag(1)),
        Linear(0, 0),
        Linear(0, 0),
        Series(Linear(0, 0), Linear(0, 0)),
    ]


def town_reservoirs() -> list[Reservoir]:
    return [
        Linear(30_000, 47_000),
        Linear(12_345, 34_567),
        Series(Linear(20_000, 40_001), Lag(1)),
        Linear(5_000, 30_000),
        Linear(44_000, 55_555),
        Series(Linear(60_000, 62_000), Linear(60_000, 62_000)),
    ]


def meadow_reservoirs() -> list[Reservoir]:
    return [
        Linear(40_000, 52_000),
        Linear(10_000, 33_000),
        Series(Linear(0, 0), Lag(2)),
        Linear(25_000, 45_000),
        Linear(50_000, 58_000),
        Series(Linear(62_000, 63_700), Linear(61_000, 63_200)),
    ]
