# The soil of the unpaved area: its numbers, and the five rules by which water
# moves through it in one step.
#
# All depths are whole points of 0.01 mm and every division rounds down. The
# moisture is what the soil holds; the depression storage is what stands in the
# hollows on top of it. Each rule gives a depth and changes nothing.

from __future__ import annotations

from dataclasses import dataclass


@dataclass(frozen=True)
class Soil:
    """The eight numbers of a soil; whether they fit together is checked by the card."""

    wilting_point: int  # moisture below which nothing transpires
    field_capacity: int  # moisture above which water percolates
    saturation: int  # the most moisture the soil can hold
    infiltration_limit: int  # the most that enters the soil in one step
    percolation_limit: int  # what percolates in one step at saturation
    depression_limit: int  # the most that stands on top
    crop_factor: int  # of the reference evaporation, in hundredths
    slow_share: int  # of the percolation, in hundredths


def infiltration(soil: Soil, moisture: int, on_top: int) -> int:
    """What enters the soil, of the rain and the depression storage together."""
    room = soil.saturation - moisture + soil.percolation_limit
    return min(on_top, soil.infiltration_limit, room)


def depression_storage(soil: Soil, left_on_top: int) -> int:
    """What the hollows keep of the water that did not enter; the rest runs off."""
    return min(left_on_top, soil.depression_limit)


def transpiration(soil: Soil, moisture: int, evaporation: int) -> int:
    """What the crop draws from the soil; it stops at the wilting point."""
    demand = soil.crop_factor * evaporation // 100
    return min(demand, max(moisture - soil.wilting_point, 0))


def percolation(soil: Soil, moisture: int) -> int:
    """What leaves downwards: 0 at field capacity, the percolation limit at saturation."""
    if moisture <= soil.field_capacity:
        return 0
    span = soil.saturation - soil.field_capacity
    return soil.percolation_limit * min(moisture - soil.field_capacity, span) // span


def sinking(soil: Soil, moisture: int, seepage: int) -> int:
    """What downward seepage draws from the soil; it stops at field capacity."""
    if seepage >= 0:
        return 0
    return min(-seepage, max(moisture - soil.field_capacity, 0))
