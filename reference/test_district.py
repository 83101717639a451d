# Holds the district to its refusals and their order, to its limits, to its book
# and to a tally that knows nothing but the calls and the answers.
#
#     python3 reference/test_district.py

import copy
import dataclasses
import unittest
from random import Random

import district_example
from card import Areas, Card, Concentrations
from district import (
    GRAM,
    MOST_INCOME,
    NEW,
    NO_CELL,
    NO_SUCH_NUMBER,
    OPEN,
    TOO_MUCH,
    WITHDRAWN,
    Book,
    District,
)
from node import BAD_FORCING, PLACES, Answer, Forcing, Look, Node
from reservoirs import CAPACITY, TOO_FULL, Lag, Linear, Refusal
from test_node import (
    CARD,
    SOIL,
    NodeCase,
    keeping_nothing,
    random_card,
    random_forcing,
    random_reservoir,
    state,
    wetter,
)

BROUGHT_IN = 3_000_000  # by CARD: 30,000 points on 100 m2
SHOWER = Forcing(3000, 400, 0)
BAD = Forcing(0, 0, -10_001)

SEEDS = 200

# A lake of the largest area whose reservoir keeps nearly all it takes. Each
# step brings 10^13 centilitres, so that the eleventh finds no room.
LAKE = Card(
    Areas(open=100_000_000, paved=0, sewer=0, unpaved=0),
    SOIL,
    Concentrations(open=(240, 120, 11)),
)


def open_in(district, number, card=CARD, reservoirs=None):
    return district.open(number, card.check(), reservoirs or keeping_nothing())


def everything(district):
    """All that a call can change."""
    nodes = {number: state(node) for number, node in district.nodes.items()}
    return nodes, set(district.withdrawn), district.read()


class DistrictCase(NodeCase):
    def assert_changes_nothing(self, district, expected, action, *arguments):
        """Expected is cause, layer and place of the refusal."""
        before = everything(district)
        self.assert_refused(expected, action, *arguments)
        self.assertEqual(everything(district), before)

    def assert_closes(self, reading):
        self.assertEqual(reading.book.income(), reading.book.outgo() + reading.storage)


class Worked(DistrictCase):
    def test_a_new_district(self):
        reading = District(4).read()
        self.assertEqual((reading.book, reading.storage), (Book(), 0))

    def test_one_node_from_opening_to_withdrawal(self):
        district = District(4)
        self.assertEqual(open_in(district, 9), BROUGHT_IN)
        answer = district.step(9, SHOWER)
        self.assertEqual(answer.flows, (25000, 50000, 0, 50000, 8400, 8400, 0))
        reading = district.read()
        self.assertEqual(reading.storage, (31512 + 500) * 100)
        expected = Book(
            rain=3000 * 130,
            brought_in=BROUGHT_IN,
            evaporated=47_000,
            discharged=141_800,
            loads=(34_500_000, 0, 0),
        )
        self.assertEqual(reading.book, expected)
        self.assertEqual(reading.book.masses(), ((3, 4_500_000), (0, 0), (0, 0)))
        district.step(9, Forcing(0, 0, -2000))
        district.step(9, Forcing(0, 0, 7))
        self.assertEqual(district.withdraw(9), BROUGHT_IN)
        reading = district.read()
        self.assertEqual(reading.storage, 0)
        expected = Book(
            rain=390_000,
            rise=7 * 130,
            brought_in=BROUGHT_IN,
            evaporated=47_000,
            discharged=141_800 + 20_100 + 7 * 130,
            sunk=181_100,
            ceded=BROUGHT_IN,
            loads=(34_500_000, 0, 0),
        )
        self.assertEqual(reading.book, expected)
        self.assert_closes(reading)

    def test_a_mass_is_grams_and_a_rest_below_a_gram(self):
        for load, mass in [(0, (0, 0)), (GRAM - 1, (0, GRAM - 1)), (GRAM, (1, 0))]:
            self.assertEqual(Book(loads=(load, 0, 0)).masses()[0], mass)

    def test_a_withdrawn_node_cedes_what_its_reservoirs_hold_too(self):
        district = District(1)
        open_in(district, 1, dataclasses.replace(CARD, areas=Areas(0, 0, 10, 1)))
        district.step(1, SHOWER)
        look = district.look(1)
        self.assertEqual(look, Look(31512, 500, (0, 0, 25000, 0, 0, 0)))
        self.assertEqual(district.withdraw(1), 25000 + 31512 + 500)

    def test_storage_is_asked_of_the_nodes(self):
        district = District(1)
        reservoirs = keeping_nothing()
        open_in(district, 1, CARD, reservoirs)
        reservoirs[2].take(77)  # water that no call brought in
        self.assertEqual(district.read().storage, BROUGHT_IN + 77)

    def test_a_reading_is_not_changed_by_later_calls(self):
        district = District(1)
        open_in(district, 1)
        reading = district.read()
        district.step(1, SHOWER)
        self.assertEqual(reading.book, Book(brought_in=BROUGHT_IN))

    def test_looking_and_reading_change_nothing(self):
        district = District(2)
        open_in(district, 1)
        district.step(1, SHOWER)
        before = everything(district)
        district.look(1)
        district.read()
        self.assertEqual(everything(district), before)


class NumbersAndCells(DistrictCase):
    def test_all_numbers_from_1_to_256(self):
        district = District(64)
        for number in range(1, 257):
            open_in(district, number)
            district.withdraw(number)
        for number in [0, 257, 1000]:
            no_such = (NO_SUCH_NUMBER, 2, 0)
            self.assert_changes_nothing(district, no_such, open_in, district, number)

    def test_number_256_opens_and_257_does_not(self):
        district = District(64)
        self.assertEqual(open_in(district, 256), BROUGHT_IN)
        self.assert_changes_nothing(district, (NO_SUCH_NUMBER, 2, 0), open_in, district, 257)

    def test_64_open_nodes_and_no_more_however_many_cells(self):
        for cells in [64, 65, 1000]:
            district = District(cells)
            for number in range(1, 65):
                open_in(district, 4 * number)
            for number in [1, 65, 255]:
                no_cell = (NO_CELL, 2, 0)
                self.assert_changes_nothing(district, no_cell, open_in, district, number)
            district.withdraw(100)
            open_in(district, 65)
            self.assert_changes_nothing(district, (NO_CELL, 2, 0), open_in, district, 66)

    def test_fewer_cells(self):
        for cells in range(5):
            district = District(cells)
            for number in range(1, cells + 1):
                open_in(district, number)
            self.assert_changes_nothing(district, (NO_CELL, 2, 0), open_in, district, 200)
            if cells:
                district.withdraw(1)
                open_in(district, 200)
                self.assert_changes_nothing(district, (NO_CELL, 2, 0), open_in, district, 201)

    def test_a_cell_is_used_again_and_again(self):
        district = District(1)
        for number in range(1, 11):
            open_in(district, number)
            district.step(number, SHOWER)
            district.withdraw(number)
        self.assertEqual(district.read().book.brought_in, 10 * BROUGHT_IN)
        self.assert_closes(district.read())


class Openings(DistrictCase):
    def full(self):
        """Number 1 open, 2 withdrawn, no unused cell, and no room in the book."""
        district = District(1)
        open_in(district, 2)
        district.withdraw(2)
        open_in(district, 1)
        district.book.rain = MOST_INCOME
        return district

    def test_order(self):
        district = self.full()
        causes = {0: NO_SUCH_NUMBER, 257: NO_SUCH_NUMBER, 1: OPEN, 2: WITHDRAWN, 3: NO_CELL}
        for number, cause in causes.items():
            self.assert_changes_nothing(district, (cause, 2, 0), open_in, district, number)
        district.withdraw(1)
        self.assert_changes_nothing(district, (WITHDRAWN, 2, 0), open_in, district, 1)
        self.assert_changes_nothing(district, (TOO_MUCH, 2, 0), open_in, district, 3)

    def test_a_second_opening(self):
        district = District(4)
        open_in(district, 1)
        district.step(1, SHOWER)
        self.assert_changes_nothing(district, (OPEN, 2, 0), open_in, district, 1)
        district.withdraw(1)
        self.assert_changes_nothing(district, (WITHDRAWN, 2, 0), open_in, district, 1)

    def test_a_refused_opening_leaves_the_reservoirs_as_they_were(self):
        district, roomy = self.full(), self.full()
        roomy.cells = 2
        reservoirs = [Lag(2) for _ in PLACES]
        for reservoir in reservoirs:
            reservoir.take(5)
        refusals = [
            (district, 0, NO_SUCH_NUMBER),
            (district, 1, OPEN),
            (district, 2, WITHDRAWN),
            (district, 3, NO_CELL),
            (roomy, 3, TOO_MUCH),
        ]
        for refusing, number, cause in refusals:
            self.assert_refused((cause, 2, 0), open_in, refusing, number, CARD, reservoirs)
            self.assertEqual([reservoir.cells() for reservoir in reservoirs], [[0, 5]] * 6)

    def test_an_accepted_opening_empties_them(self):
        reservoirs = [Lag(2) for _ in PLACES]
        reservoirs[3].take(5)
        district = District(1)
        open_in(district, 1, CARD, reservoirs)
        self.assertEqual(district.look(1), Look(30000, 0, (0, 0, 0, 0, 0, 0)))

    def test_the_card_is_used_up_accepted_or_not(self):
        district = self.full()
        for number in [0, 1, 2, 3]:
            checked = CARD.check()
            with self.assertRaises(Refusal):
                district.open(number, checked, keeping_nothing())
            with self.assertRaises(ValueError):
                District(1).open(1, checked, keeping_nothing())
        checked = CARD.check()
        District(1).open(1, checked, keeping_nothing())
        with self.assertRaises(ValueError):
            District(1).open(1, checked, keeping_nothing())

    def test_the_book_at_its_edge(self):
        for total in ["rain", "rise", "brought_in"]:
            district = District(1)
            setattr(district.book, total, MOST_INCOME - BROUGHT_IN + 1)
            self.assert_changes_nothing(district, (TOO_MUCH, 2, 0), open_in, district, 1)
            setattr(district.book, total, MOST_INCOME - BROUGHT_IN)
            self.assertEqual(open_in(district, 1), BROUGHT_IN)
            self.assertEqual(district.read().book.income(), MOST_INCOME)

    def test_a_full_book_takes_a_node_that_brings_nothing(self):
        district = District(1)
        district.book.rain = MOST_INCOME
        pond = dataclasses.replace(CARD, areas=Areas(1, 0, 0, 0))
        self.assertEqual(open_in(district, 1, pond), 0)


class Steps(DistrictCase):
    def setUp(self):
        """Number 1 open, 2 withdrawn, the others new."""
        self.reservoirs = [Lag(2) for _ in PLACES]
        self.district = District(4)
        open_in(self.district, 2)
        self.district.withdraw(2)
        areas = Areas(open=10, paved=20, sewer=30, unpaved=100)
        open_in(self.district, 1, dataclasses.replace(CARD, areas=areas), self.reservoirs)

    def fill(self, *places):
        for place in places:
            self.reservoirs[place - 1].take(CAPACITY)

    def leave_room(self, volume):
        """Sets the rain so that the book takes this volume and no more."""
        self.district.book.rain = 0
        self.district.book.rain = MOST_INCOME - self.district.book.income() - volume

    def assert_step_refused(self, expected, number, forcing):
        self.assert_changes_nothing(self.district, expected, self.district.step, number, forcing)

    def test_each_cause(self):
        for number in [0, 257]:
            self.assert_step_refused((NO_SUCH_NUMBER, 2, 0), number, SHOWER)
        self.assert_step_refused((NEW, 2, 0), 3, SHOWER)
        self.assert_step_refused((WITHDRAWN, 2, 0), 2, SHOWER)
        self.assert_step_refused((BAD_FORCING, 3, 0), 1, BAD)
        self.fill(2, 4)
        self.assert_step_refused((TOO_FULL, 4, 2), 1, SHOWER)
        self.reservoirs[1].empty()
        self.assert_step_refused((TOO_FULL, 4, 4), 1, SHOWER)
        self.reservoirs[3].empty()
        self.leave_room(0)
        self.assert_step_refused((TOO_MUCH, 2, 0), 1, SHOWER)

    def test_order(self):
        self.fill(1, 2, 3, 4, 5, 6)
        self.leave_room(0)
        too_wet = Forcing(100_001, 0, 0)  # out of range, into full reservoirs and a full book
        for number in [0, 257]:
            self.assert_step_refused((NO_SUCH_NUMBER, 2, 0), number, too_wet)
        self.assert_step_refused((NEW, 2, 0), 3, too_wet)
        self.assert_step_refused((WITHDRAWN, 2, 0), 2, too_wet)
        self.assert_step_refused((BAD_FORCING, 3, 0), 1, too_wet)
        self.assert_step_refused((TOO_FULL, 4, 1), 1, SHOWER)
        for reservoir in self.reservoirs:
            reservoir.empty()
        self.assert_step_refused((BAD_FORCING, 3, 0), 1, too_wet)
        self.assert_step_refused((TOO_MUCH, 2, 0), 1, SHOWER)

    def test_the_book_at_its_edge(self):
        both = Forcing(1000, 20, 50)
        came = (1000 + 50) * 160
        self.leave_room(came - 1)
        self.assert_step_refused((TOO_MUCH, 2, 0), 1, both)
        self.leave_room(came)
        self.district.step(1, both)
        self.assertEqual(self.district.read().book.income(), MOST_INCOME)
        for forcing in [Forcing(1, 0, 0), Forcing(0, 0, 1)]:
            self.assert_step_refused((TOO_MUCH, 2, 0), 1, forcing)

    def test_a_full_book_takes_steps_that_bring_nothing(self):
        self.leave_room(0)
        self.district.step(1, Forcing(0, 400, 0))
        self.district.step(1, Forcing(0, 0, -10_000))

    def test_after_a_refusal_the_district_goes_on_as_if_it_were_not_there(self):
        other = copy.deepcopy(self.district)
        self.assert_step_refused((BAD_FORCING, 3, 0), 1, BAD)
        self.assertEqual(self.district.step(1, SHOWER), other.step(1, SHOWER))
        self.assertEqual(everything(self.district), everything(other))


class WithdrawalsAndLooks(DistrictCase):
    def test_each_cause(self):
        district = District(4)
        open_in(district, 2)
        district.withdraw(2)
        open_in(district, 1)
        district.book.rain = MOST_INCOME  # of which neither call takes notice
        causes = {0: NO_SUCH_NUMBER, 257: NO_SUCH_NUMBER, 3: NEW, 2: WITHDRAWN}
        for call in [district.withdraw, district.look]:
            for number, cause in causes.items():
                self.assert_changes_nothing(district, (cause, 2, 0), call, number)
        self.assertEqual(district.look(1), Look(30000, 0, (0, 0, 0, 0, 0, 0)))
        self.assertEqual(district.withdraw(1), BROUGHT_IN)
        for call in [district.withdraw, district.look]:
            self.assert_changes_nothing(district, (WITHDRAWN, 2, 0), call, 1)


# Random runs


class Tally:
    """Counts along from the calls and the answers; asks the district only for looks."""

    def __init__(self, book):
        self.book = dataclasses.replace(book)
        self.cards = {}  # of the open numbers
        self.withdrawn = set()

    def opened(self, number, card, brought_in):
        self.cards[number] = card
        self.book.brought_in += brought_in

    def stepped(self, number, forcing, answer):
        self.book.rain += forcing.rain * self.cards[number].areas.total()
        self.book.rise += max(forcing.seepage, 0) * self.cards[number].areas.total()
        self.book.evaporated += answer.evaporated
        self.book.discharged += sum(answer.flows)
        self.book.sunk += answer.sunk
        self.book.loads = tuple(map(sum, zip(self.book.loads, answer.loads)))

    def withdrew(self, number, ceded):
        del self.cards[number]
        self.withdrawn.add(number)
        self.book.ceded += ceded

    def storage(self, district):
        """What the looks of the open numbers show."""
        total = 0
        for number, card in self.cards.items():
            look = district.look(number)
            total += sum(look.contents) + (look.moisture + look.depression) * card.areas.unpaved
        return total


MANY = [0, 1, 2, 3, 4, 5, 6, 256, 257]
FEW = [1, 256]


def random_district(random):
    """Sometimes one that has seen nearly all the rain that a book takes, and evaporated it."""
    district = District(random.choice([0, 1, 2, 3, 4, 64, 100]))
    if random.random() < 0.3:
        seen = MOST_INCOME - random.randint(0, 10**15)
        district.book.rain = district.book.evaporated = seen
    return district


def random_node(random):
    """A card and six reservoirs; sometimes a lake that keeps its rain until it is full."""
    if random.random() < 0.3:
        return LAKE, [Linear(65_535, 65_535), *keeping_nothing()[1:]]
    return random_card(random), [random_reservoir(random) for _ in PLACES]


def random_call(random, numbers, district, tally):
    """Makes a call, tells the tally of it if it is accepted, and gives number and answer."""
    number = random.choice(numbers)
    kind = random.random()
    try:
        if kind < 0.2:
            card, reservoirs = random_node(random)
            answer = district.open(number, card.check(), reservoirs)
            tally.opened(number, card, answer)
        elif kind < 0.8:
            forcing = random_forcing(random)
            answer = district.step(number, forcing)
            tally.stepped(number, forcing, answer)
        elif kind < 0.83:
            answer = district.withdraw(number)
            tally.withdrew(number, answer)
        else:
            answer = district.look(number)
    except Refusal as refusal:
        answer = refusal
    return number, answer


class RandomRuns(DistrictCase):
    def assert_tallies(self, district, tally, seed):
        reading = district.read()
        self.assertEqual(reading.book, tally.book, f"seed {seed}")
        self.assertEqual(reading.storage, tally.storage(district), f"seed {seed}")
        self.assert_closes(reading)
        self.assertLessEqual(reading.book.income(), MOST_INCOME)
        self.assertLessEqual(max(reading.book.outgo(), reading.storage), MOST_INCOME)
        self.assertLessEqual(max(reading.book.loads), 20_000 * reading.book.discharged)
        for (grams, rest), load in zip(reading.book.masses(), tally.book.loads, strict=True):
            self.assertEqual((grams * GRAM + rest, rest < GRAM), (load, True))

    def assert_difference_closes(self, earlier, later):
        income = later.book.income() - earlier.book.income()
        outgo = later.book.outgo() - earlier.book.outgo()
        self.assertEqual(income, outgo + later.storage - earlier.storage)

    def test_the_book_closes_and_the_tally_agrees(self):
        causes, accepted = set(), 0
        for seed in range(SEEDS):
            random = Random(seed)
            numbers = random.choice([MANY, FEW])
            district = random_district(random)
            tally = Tally(district.book)
            readings = [district.read()]
            for _ in range(100):
                before, were_withdrawn = everything(district), set(tally.withdrawn)
                number, answer = random_call(random, numbers, district, tally)
                self.assert_tallies(district, tally, seed)
                self.assertLessEqual(len(tally.cards), min(district.cells, 64))
                if isinstance(answer, Refusal):
                    causes.add(answer.cause)
                    self.assertEqual(everything(district), before, f"seed {seed}")
                else:
                    accepted += 1
                if isinstance(answer, Look):
                    self.assertEqual(everything(district), before, f"seed {seed}")
                if number in were_withdrawn:
                    self.assertEqual(answer.cause, WITHDRAWN)
                self.assert_difference_closes(random.choice(readings), district.read())
                readings.append(district.read())
        district_causes = {NO_SUCH_NUMBER, OPEN, WITHDRAWN, NO_CELL, TOO_MUCH, NEW}
        self.assertEqual(causes, district_causes | {BAD_FORCING, TOO_FULL})
        self.assertGreater(accepted, 2000)

    def test_a_node_steps_in_a_district_as_it_would_alone(self):
        for seed in range(SEEDS):
            random = Random(seed)
            district, alone = District(3), {}
            for number in [1, 2, 3]:
                card, reservoirs = random_node(random)
                alone[number] = Node.open(card.check(), copy.deepcopy(reservoirs))
                district.open(number, card.check(), reservoirs)
            for _ in range(30):
                number, forcing = random.randint(1, 3), random_forcing(random)
                answer = tried_step(district, number, forcing)
                expected = tried_step(alone[number], forcing)
                if isinstance(answer, Refusal):
                    self.assertEqual(answer.args, expected.args)
                else:
                    self.assertEqual(answer, expected)
                self.assertEqual(district.look(number), alone[number].look())

    def assert_no_less(self, first, second, seed):
        for less, more in zip(first, second, strict=True):
            self.assertLessEqual(less, more, f"seed {seed}")

    def test_more_rain_gives_no_less(self):
        accepted = 0
        for seed in range(SEEDS):
            random = Random(seed)
            district = District(3)
            card, reservoirs = random_node(random)
            district.open(10, card.check(), copy.deepcopy(reservoirs))
            district.open(20, card.check(), reservoirs)
            open_in(district, 30)
            for _ in range(30):
                forcing = random_forcing(random)
                answer = tried_step(district, 10, forcing)
                tried_step(district, 30, random_forcing(random))  # of no matter to the others
                more = tried_step(district, 20, wetter(random, forcing))
                if isinstance(answer, Refusal) != isinstance(more, Refusal):
                    break  # of such a pair the law says nothing
                if isinstance(answer, Answer):
                    accepted += 1
                    self.assert_no_less(answer.flows, more.flows, seed)
                    self.assert_no_less(answer.loads, more.loads, seed)
                first, second = district.look(10), district.look(20)
                self.assertLessEqual(first.moisture, second.moisture)
                self.assertLessEqual(first.depression, second.depression)
                self.assert_no_less(first.contents, second.contents, seed)
        self.assertGreater(accepted, 1000)


def tried_step(stepped, *arguments):
    """The answer of a step of a district or a node, or its refusal."""
    try:
        return stepped.step(*arguments)
    except Refusal as refusal:
        return refusal


class Bounds(DistrictCase):
    def test_a_load_may_reach_its_bound(self):
        concentrations = Concentrations(*[(20_000, 0, 0)] * 7)
        district = District(1)
        open_in(district, 1, Card(Areas(10, 20, 0, 100), SOIL, concentrations))
        district.step(1, SHOWER)
        book = district.read().book
        self.assertEqual(book.loads, (20_000 * book.discharged, 0, 0))


class Example(unittest.TestCase):
    def setUp(self):
        self.lines = district_example.page().decode("ascii").splitlines()

    def numbers(self, line):
        return [int(word) for word in line.split() if word.isdigit()]

    def test_the_yard_answers_as_in_the_worked_step(self):
        self.assertIn(
            "step 1 3000 400 0: flows 25000 50000 0 50000 8400 8400 0"
            " evaporated 47000 sunk 0 loads 34500000 0 0",
            self.lines,
        )

    def test_the_refusals(self):
        refusals = [line for line in self.lines if line.startswith("refused ")]
        expected = [
            "refused step 2 cause 8 layer 2 place 0",
            "refused look 2 cause 8 layer 2 place 0",
            "refused withdraw 2 cause 8 layer 2 place 0",
            "refused open 2 cause 8 layer 2 place 0",
            "refused step 3 cause 11 layer 2 place 0",
            "refused look 3 cause 11 layer 2 place 0",
            "refused open 1 cause 7 layer 2 place 0",
            "refused open 257 cause 6 layer 2 place 0",
            "refused step 1 cause 12 layer 3 place 0",
            "refused open 5 cause 9 layer 2 place 0",
        ]
        self.assertEqual(refusals, expected)

    def test_refusals_leave_the_reading_as_it_was(self):
        first = self.lines.index("refused step 2 cause 8 layer 2 place 0")
        last = self.lines.index("refused step 1 cause 12 layer 3 place 0")
        before, after = self.lines[first - 2 : first], self.lines[last + 1 : last + 3]
        self.assertTrue(before[0].startswith("read "))
        self.assertEqual(before, after)

    def test_what_the_town_cedes_is_what_the_look_shows(self):
        at = next(i for i, line in enumerate(self.lines) if line.startswith("withdraw 2 "))
        _, moisture, depression, *contents = self.numbers(self.lines[at - 1])
        ceded = (moisture + depression) * 12_500 + sum(contents)
        self.assertEqual(self.lines[at], f"withdraw 2 ceded {ceded}")

    def test_every_reading_closes(self):
        readings = [i for i, line in enumerate(self.lines) if line.startswith("read ")]
        self.assertEqual(len(readings), 7)
        for i in readings:
            self.assertTrue(self.lines[i + 1].startswith("closes "))
            numbers = self.numbers(self.lines[i + 1])
            self.assertEqual(numbers, self.numbers(self.lines[i])[:8])
            self.assertEqual(sum(numbers[:3]), sum(numbers[3:]))
        self.assertTrue(self.lines[-1].startswith("balance "))
        self.assertEqual(self.numbers(self.lines[-1]), self.numbers(self.lines[-2]))


if __name__ == "__main__":
    unittest.main()
