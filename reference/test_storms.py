# Holds the storms to their purpose: together they bring out every sort of line
# that the page can have, and both sides of the limit of each reservoir.
#
#     python3 reference/test_storms.py

import unittest

from hydrograph import page
from special_storms import special_storms
from storms import generated_storm

LIMIT = b" would hold more than 100000000000000 centilitres\n"
REFUSERS = [b"the linear reservoir", b"the lag", b"the linear reservoir then lag"]


class Storms(unittest.TestCase):
    def test_special_storms_bring_out_every_sort_of_line(self):
        pages = b"".join(page(storm) for _, storm in special_storms())
        for refuser in REFUSERS:
            self.assertIn(b"place 0: " + refuser + LIMIT, pages)
        self.assertIn(b"no settings: ", pages)
        self.assertIn(b"not three numbers", pages)
        self.assertIn(b"takes a <= b <= 65535", pages)
        self.assertIn(b"takes n of 1 to 12", pages)
        self.assertIn(b"refused: not a number", pages)

    def test_each_reservoir_is_first_to_refuse_one_too_much(self):
        special = dict(special_storms())
        for storm_name, refuser in zip(
            ["limit from empty", "limit of the lag", "limit of the series"], REFUSERS
        ):
            lines = page(special[storm_name]).splitlines(keepends=True)
            last_refusals = [
                number
                for number, line in enumerate(lines[:-1])
                if line.endswith(b"place 0: " + refuser + LIMIT)
                and not lines[number + 1].startswith(b"line ")
            ]
            self.assertTrue(last_refusals, storm_name)

    def test_names_are_different(self):
        names = [name for name, _ in special_storms()]
        self.assertEqual(len(names), len(set(names)))

    def test_same_seed_gives_same_storm(self):
        for seed in range(1, 60):
            self.assertEqual(generated_storm(seed), generated_storm(seed))

    def test_generated_storms_bring_out_every_refuser(self):
        pages = b"".join(page(generated_storm(seed)[1]) for seed in range(1, 50))
        for refuser in REFUSERS:
            self.assertIn(b"place 0: " + refuser + LIMIT, pages)
        self.assertIn(b"refused: not a number", pages)


if __name__ == "__main__":
    unittest.main()
