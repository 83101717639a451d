# The district: the numbers 1 to 256, the nodes that are open under some of
# them, and the book, which totals all water that comes and goes.
#
# A number is new, open or withdrawn, and withdrawn it stays. What the district
# stores is asked of the open nodes, never calculated from the book. A call that
# is refused changes nothing.

from __future__ import annotations

from dataclasses import dataclass, replace

from card import CLEAN, CheckedCard, Nutrients
from node import Answer, Forcing, Look, Node
from reservoirs import Refusal, Reservoir

LARGEST_NUMBER = 256  # the numbers start at 1
MOST_CELLS = 64  # the most nodes that can be open together
MOST_INCOME = 10**18  # rain, rise and brought in together, in centilitres
GRAM = 10_000_000  # in tenths of a microgram

DISTRICT_LAYER = 2  # the layer that refuses
WHOLE_DISTRICT = 0  # the place of its refusals

NO_SUCH_NUMBER = 6  # cause of a refusal: not one of 1 to 256
OPEN = 7  # cause of a refusal: a number opens once
WITHDRAWN = 8  # cause of a refusal: the number is withdrawn for good
NO_CELL = 9  # cause of a refusal: no node cell is unused
TOO_MUCH = 10  # cause of a refusal: the income would pass MOST_INCOME
NEW = 11  # cause of a refusal: the number was never opened


@dataclass
class Book:
    """Totals of everything accepted since the district was new."""

    rain: int = 0  # in centilitres, as all but the loads
    rise: int = 0  # rising seepage
    brought_in: int = 0  # storage at the openings
    evaporated: int = 0
    discharged: int = 0  # all seven flows
    sunk: int = 0
    ceded: int = 0  # storage at the withdrawals
    loads: Nutrients = CLEAN  # in tenths of a microgram

    def income(self) -> int:
        return self.rain + self.rise + self.brought_in

    def outgo(self) -> int:
        return self.evaporated + self.discharged + self.sunk + self.ceded

    def masses(self) -> tuple[tuple[int, int], ...]:
        """Each load as whole grams and a rest in tenths of a microgram."""
        return tuple(divmod(load, GRAM) for load in self.loads)


@dataclass(frozen=True)
class Reading:
    book: Book
    storage: int  # of the open nodes, as they answer


class District:
    def __init__(self, cells: int) -> None:
        """All numbers are new, all cells unused and the book is zero."""
        self.cells = min(cells, MOST_CELLS)
        self.nodes: dict[int, Node] = {}  # by number, the open ones
        self.withdrawn: set[int] = set()
        self.book = Book()

    def open(self, number: int, checked: CheckedCard, reservoirs: list[Reservoir]) -> int:
        """Gives the volume brought in. Accepted or not, the card is used up."""
        card = checked.use_up()
        check_number(number)
        if number in self.nodes:
            raise refused(OPEN)
        if number in self.withdrawn:
            raise refused(WITHDRAWN)
        if len(self.nodes) >= self.cells:
            raise refused(NO_CELL)
        brought_in = card.soil.field_capacity * card.areas.unpaved
        self.check_income(brought_in)
        self.nodes[number] = Node.open(card.check(), reservoirs)
        self.book.brought_in += brought_in
        return brought_in

    def step(self, number: int, forcing: Forcing) -> Answer:
        node = self.node(number)
        forcing.check()
        plan = node.plan(forcing)
        node.ask(plan.inflows)
        rain = forcing.rain * node.card.areas.total()
        self.check_income(rain + plan.rising)
        answer = node.step(forcing)
        self.book.rain += rain
        self.book.rise += plan.rising
        self.book.evaporated += answer.evaporated
        self.book.discharged += sum(answer.flows)
        self.book.sunk += answer.sunk
        ammonium, nitrate, phosphor = (
            total + load for total, load in zip(self.book.loads, answer.loads)
        )
        self.book.loads = ammonium, nitrate, phosphor
        return answer

    def withdraw(self, number: int) -> int:
        """Gives the volume ceded. The number never opens again, its cell may."""
        ceded = self.node(number).storage()
        del self.nodes[number]
        self.withdrawn.add(number)
        self.book.ceded += ceded
        return ceded

    def look(self, number: int) -> Look:
        return self.node(number).look()

    def read(self) -> Reading:
        """Never refuses."""
        return Reading(replace(self.book), sum(node.storage() for node in self.nodes.values()))

    def node(self, number: int) -> Node:
        """The node open under a number, or the refusal of a number that is not open."""
        check_number(number)
        if number in self.nodes:
            return self.nodes[number]
        raise refused(WITHDRAWN if number in self.withdrawn else NEW)

    def check_income(self, more: int) -> None:
        if self.book.income() + more > MOST_INCOME:
            raise refused(TOO_MUCH)


def check_number(number: int) -> None:
    if not 1 <= number <= LARGEST_NUMBER:
        raise refused(NO_SUCH_NUMBER)


def refused(cause: int) -> Refusal:
    return Refusal(cause, DISTRICT_LAYER, WHOLE_DISTRICT)
