# The reservoirs: linear, lag, and two reservoirs in series.
#
# All volumes are whole centilitres and every division rounds down. A reservoir
# has settings that never change, and cells, each a volume. It holds the sum of
# its cells. It starts empty: all cells are 0.

from __future__ import annotations

CAPACITY = 10**14  # the most any reservoir may hold, in centilitres
WHOLE = 65_536  # the fractions of a linear reservoir are in 65,536ths
LONGEST_LAG = 12  # in steps

RESERVOIR_LAYER = 4  # the layer that refuses
BY_ITSELF = 0  # the place of a reservoir that stands in no node

BAD_SETTINGS = 4  # cause of a refusal: no reservoir has these settings
TOO_FULL = 5  # cause of a refusal: the reservoir would hold more than CAPACITY


class Refusal(Exception):
    """Says why something was not made or not taken, by which layer and at which place."""

    def __init__(self, cause: int, layer: int, place: int) -> None:
        super().__init__(cause, layer, place)
        self.cause = cause
        self.layer = layer
        self.place = place


class Reservoir:
    """What all reservoirs have in common; each kind adds cells, empty and route."""

    def cells(self) -> list[int]:
        raise NotImplementedError

    def empty(self) -> None:
        raise NotImplementedError

    def route(self, inflow: int) -> int:
        """Changes the cells by one step and gives the outflow."""
        raise NotImplementedError

    def held(self) -> int:
        return sum(self.cells())

    def ask(self, inflow: int) -> None:
        """Raises the refusal that taking this inflow would meet; changes nothing."""
        if self.held() + inflow > CAPACITY:
            raise Refusal(TOO_FULL, RESERVOIR_LAYER, BY_ITSELF)

    def take(self, inflow: int) -> int:
        """Takes the inflow and gives the outflow, or refuses and changes nothing."""
        self.ask(inflow)
        return self.route(inflow)


class Linear(Reservoir):
    """One cell, the storage; keeps a of the storage and b of the inflow."""

    def __init__(self, a: int, b: int) -> None:
        if not a <= b <= WHOLE - 1:
            raise Refusal(BAD_SETTINGS, RESERVOIR_LAYER, BY_ITSELF)
        self.a = a
        self.b = b
        self.empty()

    def cells(self) -> list[int]:
        return [self.storage]

    def empty(self) -> None:
        self.storage = 0

    def route(self, inflow: int) -> int:
        old_storage = self.storage
        self.storage = (self.a * old_storage + self.b * inflow) // WHOLE
        return old_storage + inflow - self.storage


class Lag(Reservoir):
    """The last n inflows, oldest first; gives each of them n steps later."""

    def __init__(self, n: int) -> None:
        if not 1 <= n <= LONGEST_LAG:
            raise Refusal(BAD_SETTINGS, RESERVOIR_LAYER, BY_ITSELF)
        self.n = n
        self.empty()

    def cells(self) -> list[int]:
        return self.inflows

    def empty(self) -> None:
        self.inflows = [0] * self.n

    def route(self, inflow: int) -> int:
        outflow = self.inflows[0]
        self.inflows = self.inflows[1:] + [inflow]
        return outflow


class Series(Reservoir):
    """Two reservoirs; the second takes, in the same step, what the first gives.

    Joining empties both, and they belong to the series from then on. The series
    refuses by its own sum; what it accepts, neither of the two can refuse.
    """

    def __init__(self, first: Reservoir, second: Reservoir) -> None:
        self.first = first
        self.second = second
        self.empty()

    def cells(self) -> list[int]:
        return self.first.cells() + self.second.cells()

    def empty(self) -> None:
        self.first.empty()
        self.second.empty()

    def route(self, inflow: int) -> int:
        return self.second.take(self.first.take(inflow))
