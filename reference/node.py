# The node: a card and six reservoirs, which turn rain, evaporation and seepage
# into seven flows and three loads, step by step.
#
# Depths are whole points of 0.01 mm, volumes whole centilitres (depth times
# area), loads tenths of a microgram (volume times concentration). A step
# happens as a whole or not at all.

from __future__ import annotations

from dataclasses import dataclass

from card import NODE_LAYER, WHOLE_NODE, Card, CheckedCard, Nutrients
from reservoirs import Refusal, Reservoir
from soil import depression_storage, infiltration, percolation, sinking, transpiration

PLACES = ("open", "paved", "sewer", "surface", "quick", "slow")  # numbered from 1

LARGEST_RAIN = 100_000  # in points, as the two below
LARGEST_EVAPORATION = 10_000
LARGEST_SEEPAGE = 10_000  # upwards and downwards

BAD_FORCING = 12  # cause of a refusal: no step has such weather


@dataclass(frozen=True)
class Forcing:
    """The weather of one step, in points. Seepage is above 0 where it rises."""

    rain: int
    evaporation: int
    seepage: int

    def check(self) -> None:
        if (
            self.rain > LARGEST_RAIN
            or self.evaporation > LARGEST_EVAPORATION
            or abs(self.seepage) > LARGEST_SEEPAGE
        ):
            raise Refusal(BAD_FORCING, NODE_LAYER, WHOLE_NODE)


@dataclass(frozen=True)
class Answer:
    """What one step gives: volumes, and the loads that the flows carry."""

    flows: tuple[int, ...]  # of the six places, then rising seepage
    evaporated: int
    sunk: int
    loads: Nutrients


@dataclass(frozen=True)
class Look:
    moisture: int
    depression: int
    contents: tuple[int, ...]  # of the six reservoirs


@dataclass(frozen=True)
class Plan:
    """What a step would do, before any reservoir has been asked."""

    moisture: int  # after the step, as is the depression storage
    depression: int
    inflows: tuple[int, ...]  # of the six reservoirs
    rising: int
    evaporated: int
    sunk: int


class Node:
    """Only open() makes one."""

    def __init__(self, card: Card, reservoirs: list[Reservoir]) -> None:
        self.card = card
        self.reservoirs = reservoirs
        self.moisture = card.soil.field_capacity
        self.depression = 0

    @classmethod
    def open(cls, checked: CheckedCard, reservoirs: list[Reservoir]) -> Node:
        """Uses up the checked card; the reservoirs are emptied and are the node's."""
        if not isinstance(checked, CheckedCard):
            raise TypeError("only a checked card opens a node")
        if len(reservoirs) != len(PLACES):
            raise ValueError("a node has six reservoirs")
        card = checked.use_up()
        for reservoir in reservoirs:
            reservoir.empty()
        return cls(card, list(reservoirs))

    def step(self, forcing: Forcing) -> Answer:
        """One step, or a refusal that changes nothing."""
        forcing.check()
        plan = self.plan(forcing)
        self.ask(plan.inflows)
        self.moisture = plan.moisture
        self.depression = plan.depression
        pairs = zip(self.reservoirs, plan.inflows)
        given = [reservoir.take(inflow) for reservoir, inflow in pairs]
        flows = (*given, plan.rising)
        return Answer(flows, plan.evaporated, plan.sunk, self.loads(flows))

    def plan(self, forcing: Forcing) -> Plan:
        areas, soil = self.card.areas, self.card.soil
        rain, evaporation = forcing.rain, forcing.evaporation

        from_hard = min(rain, 125 * evaporation // 100)  # what evaporates there
        off_hard = rain - from_hard  # what runs off

        on_top = rain + self.depression
        infiltrated = infiltration(soil, self.moisture, on_top)
        left_on_top = on_top - infiltrated
        depression = depression_storage(soil, left_on_top)
        excess = left_on_top - depression

        moisture = self.moisture + infiltrated
        transpired = transpiration(soil, moisture, evaporation)
        moisture -= transpired
        percolated = percolation(soil, moisture)
        moisture -= percolated
        sunken = sinking(soil, moisture, forcing.seepage)
        moisture -= sunken

        ground = percolated * areas.unpaved
        slow = soil.slow_share * ground // 100
        return Plan(
            moisture=moisture,
            depression=depression,
            inflows=(
                off_hard * areas.open,
                off_hard * areas.paved,
                off_hard * areas.sewer,
                excess * areas.unpaved,
                ground - slow,
                slow,
            ),
            rising=max(forcing.seepage, 0) * areas.total(),
            evaporated=from_hard * areas.hard() + transpired * areas.unpaved,
            sunk=sunken * areas.unpaved,
        )

    def ask(self, inflows: tuple[int, ...]) -> None:
        """Raises the refusal of the lowest place that has no room; changes nothing."""
        for place, (reservoir, inflow) in enumerate(zip(self.reservoirs, inflows), start=1):
            try:
                reservoir.ask(inflow)
            except Refusal as refusal:
                raise Refusal(refusal.cause, refusal.layer, place) from None

    def loads(self, flows: tuple[int, ...]) -> Nutrients:
        ammonium = nitrate = phosphor = 0
        for flow, concentrations in zip(flows, self.card.concentrations.each()):
            ammonium += flow * concentrations[0]
            nitrate += flow * concentrations[1]
            phosphor += flow * concentrations[2]
        return ammonium, nitrate, phosphor

    def look(self) -> Look:
        contents = tuple(reservoir.held() for reservoir in self.reservoirs)
        return Look(self.moisture, self.depression, contents)

    def storage(self) -> int:
        """Everything the node holds, in centilitres."""
        look = self.look()
        on_and_in_soil = (look.moisture + look.depression) * self.card.areas.unpaved
        return sum(look.contents) + on_and_in_soil
