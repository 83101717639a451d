# Holds the node to figures worked by hand, to its refusals at both sides of
# each limit, to its balance and to the law of more rain.
#
#     python3 reference/test_node.py

import copy
import dataclasses
import unittest
from random import Random

from card import BAD_AREAS, BAD_CONCENTRATION, BAD_SOIL, Areas, Card, Concentrations
from node import BAD_FORCING, PLACES, Forcing, Node
from reservoirs import CAPACITY, TOO_FULL, Lag, Linear, Refusal, Series
from soil import Soil, depression_storage, infiltration, percolation, sinking, transpiration

SOIL = Soil(10000, 30000, 40000, 2000, 1000, 500, 80, 50)
AREAS = Areas(open=10, paved=20, sewer=0, unpaved=100)
CONCENTRATIONS = Concentrations(surface=(690, 0, 0))
CARD = Card(AREAS, SOIL, CONCENTRATIONS)

SEEDS = 300


def keeping_nothing():
    """Six reservoirs; all but the lag give in the step what they take in it."""
    sewer = Series(Linear(0, 0), Lag(1))
    slow = Series(Linear(0, 0), Linear(0, 0))
    return [Linear(0, 0), Linear(0, 0), sewer, Linear(0, 0), Linear(0, 0), slow]


def opened(card=CARD, reservoirs=None):
    return Node.open(card.check(), reservoirs or keeping_nothing())


def state(node):
    """Everything that a step can change."""
    cells = [cell for reservoir in node.reservoirs for cell in reservoir.cells()]
    return [node.moisture, node.depression, *cells]


def tried(node, forcing):
    """The answer of a step, or its refusal."""
    try:
        return node.step(forcing)
    except Refusal as refusal:
        return refusal


class NodeCase(unittest.TestCase):
    def assert_refused(self, expected, action, *arguments):
        """Expected is cause, layer and place."""
        with self.assertRaises(Refusal) as caught:
            action(*arguments)
        refusal = caught.exception
        self.assertEqual((refusal.cause, refusal.layer, refusal.place), expected)


class WorkedSteps(NodeCase):
    def test_opening(self):
        node = opened()
        look = node.look()
        self.assertEqual((look.moisture, look.depression), (30000, 0))
        self.assertEqual(look.contents, (0, 0, 0, 0, 0, 0))
        self.assertEqual(node.storage(), 3_000_000)

    def test_a_shower_and_then_downward_seepage(self):
        node = opened()
        shower = node.step(Forcing(3000, 400, 0))
        self.assertEqual(shower.flows, (25000, 50000, 0, 50000, 8400, 8400, 0))
        self.assertEqual(shower.evaporated, 500 * 30 + 320 * 100)
        self.assertEqual(shower.sunk, 0)
        self.assertEqual(shower.loads, (50000 * 690, 0, 0))
        self.assertEqual((node.moisture, node.depression), (31512, 500))
        dry = node.step(Forcing(0, 0, -2000))
        self.assertEqual(dry.flows, (0, 0, 0, 0, 10050, 10050, 0))
        self.assertEqual((dry.evaporated, dry.sunk), (0, 1811 * 100))
        self.assertEqual(dry.loads, (0, 0, 0))
        self.assertEqual((node.moisture, node.depression), (30000, 0))
        self.assertEqual(node.storage(), 3_000_000)

    def test_rising_seepage_comes_from_all_areas(self):
        node = opened()
        answer = node.step(Forcing(0, 0, 7))
        self.assertEqual(answer.flows, (0, 0, 0, 0, 0, 0, 7 * 130))
        self.assertEqual(node.moisture, 30000)

    def test_a_lag_in_the_sewer(self):
        node = opened(dataclasses.replace(CARD, areas=Areas(0, 0, 10, 0)))
        self.assertEqual(node.step(Forcing(3000, 400, 0)).flows[2], 0)
        self.assertEqual(node.look().contents, (0, 0, 25000, 0, 0, 0))
        self.assertEqual(node.storage(), 25000)
        self.assertEqual(node.step(Forcing(0, 0, 0)).flows[2], 25000)

    def test_divisions_round_down(self):
        card = Card(Areas(1, 0, 0, 1), dataclasses.replace(SOIL, slow_share=33), CONCENTRATIONS)
        node = opened(card)
        # 125 x 3 / 100 = 3 and 80 x 3 / 100 = 2 of 1999; 1000 x 1997 / 10000 = 199
        answer = node.step(Forcing(1999, 3, 0))
        self.assertEqual(answer.evaporated, 3 + 2)
        # 33 x 199 / 100 = 65, and the rest is quick
        self.assertEqual(answer.flows, (1996, 0, 0, 0, 134, 65, 0))

    def test_each_load_is_the_sum_over_all_seven_flows(self):
        triples = [(10**flow, 2 * 10**flow, 3) for flow in range(4)] * 2
        card = dataclasses.replace(CARD, concentrations=Concentrations(*triples[:7]))
        answer = opened(card).step(Forcing(3000, 400, 1))
        flows = (25000, 50000, 0, 50000, 8400, 8400, 130)
        self.assertEqual(answer.flows, flows)
        ammonium = 25000 + 500000 + 0 + 50000000 + 8400 + 84000 + 13000
        self.assertEqual(answer.loads, (ammonium, 2 * ammonium, 3 * sum(flows)))


class SoilRules(unittest.TestCase):
    def test_infiltration_is_the_smallest_of_three(self):
        self.assertEqual(infiltration(SOIL, 30000, 1999), 1999)
        self.assertEqual(infiltration(SOIL, 30000, 2001), 2000)
        self.assertEqual(infiltration(SOIL, 39001, 2001), 1999)
        self.assertEqual(infiltration(SOIL, 40000, 2001), 1000)

    def test_depression_storage(self):
        self.assertEqual(depression_storage(SOIL, 500), 500)
        self.assertEqual(depression_storage(SOIL, 501), 500)

    def test_transpiration_stops_at_the_wilting_point(self):
        self.assertEqual(transpiration(SOIL, 10320, 400), 320)
        self.assertEqual(transpiration(SOIL, 10319, 400), 319)
        self.assertEqual(transpiration(SOIL, 10000, 400), 0)
        self.assertEqual(transpiration(SOIL, 9999, 400), 0)

    def test_percolation_rises_to_its_limit(self):
        self.assertEqual(percolation(SOIL, 29999), 0)
        self.assertEqual(percolation(SOIL, 30000), 0)
        self.assertEqual(percolation(SOIL, 30009), 0)
        self.assertEqual(percolation(SOIL, 30010), 1)
        self.assertEqual(percolation(SOIL, 39999), 999)
        self.assertEqual(percolation(SOIL, 40000), 1000)
        self.assertEqual(percolation(SOIL, 41000), 1000)

    def test_sinking_stops_at_field_capacity(self):
        self.assertEqual(sinking(SOIL, 30005, -4), 4)
        self.assertEqual(sinking(SOIL, 30005, -6), 5)
        self.assertEqual(sinking(SOIL, 29999, -6), 0)
        self.assertEqual(sinking(SOIL, 30005, 6), 0)


class CardLimits(NodeCase):
    def assert_card_refused(self, cause, card):
        self.assert_refused((cause, 3, 0), card.check)

    def assert_soil(self, fits, **numbers):
        card = dataclasses.replace(CARD, soil=dataclasses.replace(SOIL, **numbers))
        if fits:
            card.check()
        else:
            self.assert_card_refused(BAD_SOIL, card)

    def test_areas(self):
        for place in range(4):
            areas = [0, 0, 0, 0]
            areas[place] = 1
            dataclasses.replace(CARD, areas=Areas(*areas)).check()
            areas[place] = 100_000_000
            dataclasses.replace(CARD, areas=Areas(*areas)).check()
            areas[place] = 100_000_001
            self.assert_card_refused(BAD_AREAS, dataclasses.replace(CARD, areas=Areas(*areas)))

    def test_sum_of_areas(self):
        quarter = 25_000_000
        dataclasses.replace(CARD, areas=Areas(quarter, quarter, quarter, quarter)).check()
        for place in range(4):
            areas = [quarter] * 4
            areas[place] += 1
            self.assert_card_refused(BAD_AREAS, dataclasses.replace(CARD, areas=Areas(*areas)))
        self.assert_card_refused(BAD_AREAS, dataclasses.replace(CARD, areas=Areas(0, 0, 0, 0)))

    def test_soil(self):
        self.assert_soil(True, wilting_point=30000)
        self.assert_soil(False, wilting_point=30001)
        self.assert_soil(True, wilting_point=0, field_capacity=0)
        self.assert_soil(True, field_capacity=39999, percolation_limit=1)
        self.assert_soil(False, field_capacity=40000, percolation_limit=0)
        self.assert_soil(False, field_capacity=40001, percolation_limit=0)
        self.assert_soil(True, saturation=200_000)
        self.assert_soil(False, saturation=200_001)
        self.assert_soil(True, infiltration_limit=100_000)
        self.assert_soil(False, infiltration_limit=100_001)
        self.assert_soil(True, depression_limit=100_000)
        self.assert_soil(False, depression_limit=100_001)
        self.assert_soil(True, percolation_limit=10_000)
        self.assert_soil(False, percolation_limit=10_001)
        self.assert_soil(True, crop_factor=200)
        self.assert_soil(False, crop_factor=201)
        self.assert_soil(True, slow_share=100)
        self.assert_soil(False, slow_share=101)

    def test_all_limits_of_a_soil_may_be_0(self):
        Card(AREAS, Soil(0, 0, 1, 0, 0, 0, 0, 0), CONCENTRATIONS).check()

    def test_concentrations(self):
        for flow in range(7):
            for nutrient in range(3):
                triples = [[0, 0, 0] for _ in range(7)]
                triples[flow][nutrient] = 20_000
                Card(AREAS, SOIL, Concentrations(*map(tuple, triples))).check()
                triples[flow][nutrient] = 20_001
                card = Card(AREAS, SOIL, Concentrations(*map(tuple, triples)))
                self.assert_card_refused(BAD_CONCENTRATION, card)

    def test_order(self):
        no_areas = Areas(0, 0, 0, 0)
        no_soil = dataclasses.replace(SOIL, slow_share=101)
        too_high = Concentrations(rising=(0, 0, 20_001))
        self.assert_card_refused(BAD_AREAS, Card(no_areas, no_soil, too_high))
        self.assert_card_refused(BAD_AREAS, Card(no_areas, SOIL, too_high))
        self.assert_card_refused(BAD_SOIL, Card(AREAS, no_soil, too_high))
        self.assert_card_refused(BAD_CONCENTRATION, Card(AREAS, SOIL, too_high))


class Opening(unittest.TestCase):
    def test_only_a_checked_card_opens(self):
        with self.assertRaises(TypeError):
            Node.open(CARD, keeping_nothing())

    def test_a_card_opens_once(self):
        checked = CARD.check()
        Node.open(checked, keeping_nothing())
        with self.assertRaises(ValueError):
            Node.open(checked, keeping_nothing())

    def test_opening_empties_all_six(self):
        reservoirs = [Lag(1) for _ in PLACES]
        for reservoir in reservoirs:
            reservoir.take(5)
        self.assertEqual(opened(CARD, reservoirs).look().contents, (0, 0, 0, 0, 0, 0))


class Refusals(NodeCase):
    def setUp(self):
        areas = Areas(open=10, paved=20, sewer=30, unpaved=100)
        self.reservoirs = [Lag(2) for _ in PLACES]
        self.node = opened(dataclasses.replace(CARD, areas=areas), self.reservoirs)

    def fill(self, *places):
        for place in places:
            self.reservoirs[place - 1].take(CAPACITY)

    def assert_step_refused(self, cause, layer, place, forcing):
        before = state(self.node)
        self.assert_refused((cause, layer, place), self.node.step, forcing)
        self.assertEqual(state(self.node), before)

    def test_forcing_at_its_edges(self):
        for forcing in [(100_000, 0, 0), (0, 10_000, 0), (0, 0, 10_000), (0, 0, -10_000)]:
            self.node.step(Forcing(*forcing))
        for forcing in [(100_001, 0, 0), (0, 10_001, 0), (0, 0, 10_001), (0, 0, -10_001)]:
            self.assert_step_refused(BAD_FORCING, 3, 0, Forcing(*forcing))

    def test_the_lowest_place_is_told(self):
        for place in range(6, 0, -1):
            self.fill(place)
            self.assert_step_refused(TOO_FULL, 4, place, Forcing(3000, 400, 0))

    def test_each_place_by_itself(self):
        for place in range(1, 7):
            self.setUp()
            self.fill(place)
            self.assert_step_refused(TOO_FULL, 4, place, Forcing(3000, 400, 0))

    def test_forcing_is_tried_first(self):
        self.fill(1, 2, 3, 4, 5, 6)
        self.assert_step_refused(BAD_FORCING, 3, 0, Forcing(100_001, 0, 0))
        self.assert_step_refused(BAD_FORCING, 3, 0, Forcing(3000, 10_001, 0))
        self.assert_step_refused(TOO_FULL, 4, 1, Forcing(100_000, 0, 0))

    def test_full_reservoirs_accept_a_step_that_brings_them_nothing(self):
        self.fill(1, 2, 3, 4, 5, 6)
        answer = self.node.step(Forcing(0, 400, 3))
        self.assertEqual(answer.flows, (0, 0, 0, 0, 0, 0, 480))

    def test_the_last_centilitre_is_taken(self):
        self.reservoirs[1].take(CAPACITY - 20 * 2500)
        self.assertEqual(copy.deepcopy(self.node).step(Forcing(3000, 400, 0)).evaporated, 62000)
        self.reservoirs[1].empty()
        self.reservoirs[1].take(CAPACITY - 20 * 2500 + 1)
        self.assert_step_refused(TOO_FULL, 4, 2, Forcing(3000, 400, 0))

    def test_after_a_refusal_the_node_goes_on_as_if_it_were_not_there(self):
        other = copy.deepcopy(self.node)
        self.assert_step_refused(BAD_FORCING, 3, 0, Forcing(5, 0, -10_001))
        forcing = Forcing(3000, 400, 0)
        self.assertEqual(self.node.step(forcing), other.step(forcing))
        self.assertEqual(state(self.node), state(other))


# Random nodes and weather


def up_to(random, largest):
    """Often an end of the range or near it, else small or anything."""
    small = random.randint(0, min(largest, 100))
    return random.choice([0, largest, max(largest - 1, 0), small, random.randint(0, largest)])


def random_reservoir(random, depth=0):
    kind = random.randrange(4 if depth < 2 else 2)
    if kind == 0:
        return Lag(random.randint(1, 12))
    if kind == 3:
        return Series(random_reservoir(random, depth + 1), random_reservoir(random, depth + 1))
    lowest = random.choice([0, 65000, 65535])
    return Linear(*sorted(random.randint(lowest, 65535) for _ in range(2)))


def random_soil(random):
    saturation = random.choice([1, 2, 10, 40000, 200_000])
    field_capacity = up_to(random, saturation - 1)
    return Soil(
        up_to(random, field_capacity),
        field_capacity,
        saturation,
        up_to(random, 100_000),
        up_to(random, saturation - field_capacity),
        up_to(random, 100_000),
        up_to(random, 200),
        up_to(random, 100),
    )


def random_card(random):
    cuts = sorted(up_to(random, random.choice([1000, 100_000_000])) for _ in range(4))
    areas = [cuts[0], cuts[1] - cuts[0], cuts[2] - cuts[1], cuts[3] - cuts[2]]
    random.shuffle(areas)
    areas[0] += sum(areas) == 0
    triples = [tuple(up_to(random, 20_000) for _ in range(3)) for _ in range(7)]
    return Card(Areas(*areas), random_soil(random), Concentrations(*triples))


def random_forcing(random):
    if random.random() < 0.05:
        return Forcing(*random.choice([(100_001, 0, 0), (0, 10_001, 0), (9, 0, -10_001)]))
    rain, evaporation = up_to(random, 100_000), up_to(random, 10_000)
    return Forcing(rain, evaporation, random.choice([-1, 0, 1]) * up_to(random, 10_000))


def wetter(random, forcing):
    """No less rain, no less seepage and no more evaporation."""
    if random.random() < 0.3:
        return forcing
    return Forcing(
        forcing.rain + up_to(random, max(100_000 - forcing.rain, 0)),
        forcing.evaporation - up_to(random, forcing.evaporation),
        forcing.seepage + up_to(random, 10_000 - forcing.seepage),
    )


class RandomSteps(unittest.TestCase):
    def test_balance_and_bounds(self):
        causes = set()
        for seed in range(SEEDS):
            random = Random(seed)
            card = random_card(random)
            node = opened(card, [random_reservoir(random) for _ in PLACES])
            for _ in range(40):
                before, stored = state(node), node.storage()
                forcing = random_forcing(random)
                answer = tried(node, forcing)
                if isinstance(answer, Refusal):
                    causes.add(answer.cause)
                    self.assertEqual(state(node), before)
                    continue
                came = forcing.rain * card.areas.total() + answer.flows[6] + stored
                went = answer.evaporated + sum(answer.flows) + answer.sunk + node.storage()
                self.assertEqual(came, went, f"seed {seed}")
                self.assertLessEqual(card.soil.wilting_point, node.moisture)
                self.assertLessEqual(node.moisture, card.soil.saturation)
                self.assertLessEqual(0, node.depression)
                self.assertLessEqual(node.depression, card.soil.depression_limit)
                self.assertGreaterEqual(min(answer.flows + answer.loads), 0)
        self.assertEqual(causes, {BAD_FORCING, TOO_FULL})

    def assert_no_less(self, first, second, seed):
        for less, more in zip(first, second, strict=True):
            self.assertLessEqual(less, more, f"seed {seed}")

    def test_more_rain_gives_no_less(self):
        accepted = refused = 0
        for seed in range(SEEDS):
            random = Random(seed)
            first = opened(random_card(random), [random_reservoir(random) for _ in PLACES])
            second = copy.deepcopy(first)
            for _ in range(40):
                forcing = random_forcing(random)
                answer = tried(first, forcing)
                more = tried(second, wetter(random, forcing))
                if isinstance(answer, Refusal) != isinstance(more, Refusal):
                    break  # of such a pair the law says nothing
                if isinstance(answer, Refusal):
                    refused += 1
                else:
                    accepted += 1
                    self.assert_no_less(answer.flows, more.flows, seed)
                    self.assert_no_less(answer.loads, more.loads, seed)
                self.assert_no_less(state(first), state(second), seed)
        self.assertGreater(accepted, 1000)
        self.assertGreater(refused, 10)


if __name__ == "__main__":
    unittest.main()
