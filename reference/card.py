# The card: what is fixed about a node. Four areas in m2, a soil, and the
# concentrations of three nutrients in seven flows, in hundredths of mg/l.
#
# Checking a card either refuses it or gives a checked card, which opens one
# node, once.

from __future__ import annotations

from dataclasses import dataclass

from reservoirs import Refusal
from soil import Soil

LARGEST_AREA = 100_000_000  # in m2; also of the four together
LARGEST_SATURATION = 200_000  # in points
LARGEST_LIMIT = 100_000  # of infiltration and of depression storage, in points
LARGEST_CROP_FACTOR = 200  # in hundredths
LARGEST_SHARE = 100  # in hundredths
LARGEST_CONCENTRATION = 20_000  # in hundredths of mg/l

NODE_LAYER = 3  # the layer that refuses
WHOLE_NODE = 0  # the place of a refusal that concerns no reservoir

BAD_AREAS = 1  # cause of a refusal: an area too large, or no area at all
BAD_SOIL = 2  # cause of a refusal: no soil has these numbers
BAD_CONCENTRATION = 3  # cause of a refusal: a concentration too high

Nutrients = tuple[int, int, int]  # of ammonium, nitrate and phosphor, in this order

CLEAN: Nutrients = (0, 0, 0)


@dataclass(frozen=True)
class Areas:
    open: int
    paved: int
    sewer: int
    unpaved: int

    def each(self) -> tuple[int, ...]:
        return self.open, self.paved, self.sewer, self.unpaved

    def hard(self) -> int:
        """Everything that lets no water into a soil."""
        return self.open + self.paved + self.sewer

    def total(self) -> int:
        return self.hard() + self.unpaved


@dataclass(frozen=True)
class Concentrations:
    """The concentrations in each of the seven flows."""

    open: Nutrients = CLEAN
    paved: Nutrients = CLEAN
    sewer: Nutrients = CLEAN
    surface: Nutrients = CLEAN
    quick: Nutrients = CLEAN
    slow: Nutrients = CLEAN
    rising: Nutrients = CLEAN

    def each(self) -> tuple[Nutrients, ...]:
        """In the order of the flows."""
        hard = (self.open, self.paved, self.sewer)
        unpaved = (self.surface, self.quick, self.slow)
        return *hard, *unpaved, self.rising


class CheckedCard:
    """A card that was checked; only check() makes one. Opening a node uses it up."""

    def __init__(self, card: Card) -> None:
        self.card = card
        self.used = False

    def use_up(self) -> Card:
        if self.used:
            raise ValueError("this card has opened a node already")
        self.used = True
        return self.card


@dataclass(frozen=True)
class Card:
    areas: Areas
    soil: Soil
    concentrations: Concentrations

    def check(self) -> CheckedCard:
        """Raises the refusal of the first fault, in the order of the causes."""
        if not areas_fit(self.areas):
            raise Refusal(BAD_AREAS, NODE_LAYER, WHOLE_NODE)
        if not soil_fits(self.soil):
            raise Refusal(BAD_SOIL, NODE_LAYER, WHOLE_NODE)
        if not concentrations_fit(self.concentrations):
            raise Refusal(BAD_CONCENTRATION, NODE_LAYER, WHOLE_NODE)
        return CheckedCard(self)


def areas_fit(areas: Areas) -> bool:
    each_fits = all(area <= LARGEST_AREA for area in areas.each())
    return each_fits and 0 < areas.total() <= LARGEST_AREA


def soil_fits(soil: Soil) -> bool:
    return (
        soil.wilting_point <= soil.field_capacity < soil.saturation <= LARGEST_SATURATION
        and soil.infiltration_limit <= LARGEST_LIMIT
        and soil.depression_limit <= LARGEST_LIMIT
        and soil.percolation_limit <= soil.saturation - soil.field_capacity
        and soil.crop_factor <= LARGEST_CROP_FACTOR
        and soil.slow_share <= LARGEST_SHARE
    )


def concentrations_fit(concentrations: Concentrations) -> bool:
    return all(
        concentration <= LARGEST_CONCENTRATION
        for nutrients in concentrations.each()
        for concentration in nutrients
    )
