# Holds the run sheets to their purpose: together they bring out every sort of
# line that a page can have, every cause that a sheet can meet, and the capacity
# of each place to the centilitre.
#
#     python3 reference/test_sheets.py

import unittest

from flood_sheets import brim_sheet
from node import PLACES
from reservoirs import CAPACITY
from sheet import LARGEST_SHEET, Run, lines_of, page
from sheets import generated_sheet
from special_sheets import special_sheets

# layer, cause and place of every refusal but cause 10, which no sheet meets
OF_THE_SHEET = ["1 13 0", "1 14 0"]
OF_THE_CARD = ["3 1 0", "3 2 0", "3 3 0", *(f"4 4 {place}" for place in range(1, 7))]
OF_THE_DISTRICT = ["2 6 0", "2 7 0", "2 8 0", "2 9 0", "2 11 0", "3 12 0"]
OF_THE_RESERVOIRS = [f"4 5 {place}" for place in range(1, 7)]
REFUSALS = OF_THE_SHEET + OF_THE_CARD + OF_THE_DISTRICT + OF_THE_RESERVOIRS


def sorts_of_lines(sheets):
    """The letters of all printed lines, and with X layer, cause and place too."""
    sorts = set()
    for sheet in sheets:
        for printed in page(sheet).decode("ascii").splitlines():
            letter, *numbers = printed.split(" ")
            sorts.add(" ".join(numbers[1:]) if letter == "X" else letter)
    return sorts


class Sheets(unittest.TestCase):
    def test_special_sheets_bring_out_every_sort_of_line(self):
        found = sorts_of_lines(sheet for _, sheet in special_sheets())
        self.assertEqual(found, {"O", "S", "W", "B", *REFUSALS})

    def test_generated_sheets_bring_out_every_sort_of_line(self):
        found = sorts_of_lines(generated_sheet(seed)[1] for seed in range(1, 151))
        self.assertEqual(found, {"O", "S", "W", "B", *REFUSALS})

    def test_every_reading_closes(self):
        generated = [generated_sheet(seed) for seed in range(1, 151)]
        for name, sheet in special_sheets() + generated:
            for printed in page(sheet).decode("ascii").splitlines():
                if printed.startswith("B "):
                    numbers = [int(number) for number in printed.split(" ")[1:9]]
                    self.assertEqual(sum(numbers[:3]), sum(numbers[3:]), name)

    def test_names_are_different_and_can_name_files(self):
        names = [name for name, _ in special_sheets()]
        self.assertEqual(len(names), len(set(names)))
        for name in names:
            self.assertRegex(name, "^[a-z0-9-]+$")

    def test_sizes(self):
        sizes = [len(sheet) for _, sheet in special_sheets()]
        self.assertEqual(sizes.count(LARGEST_SHEET), 3)
        self.assertEqual(sizes.count(LARGEST_SHEET + 1), 1)
        self.assertLess(sum(sizes), 400_000)

    def test_each_place_is_filled_to_the_centilitre(self):
        for place in range(6):
            printed = page(brim_sheet(PLACES[place])).decode("ascii").splitlines()
            refused = next(number for number, each in enumerate(printed) if each[0] == "X")
            run = Run()
            lines = lines_of(brim_sheet(PLACES[place]))
            for each in lines[: refused + 3]:  # as far as accepted; o, g and k print nothing
                run.do(each)
            before = run.district.nodes[1].reservoirs[place].held()
            self.assertEqual(printed[refused], f"X {refused + 4} 4 5 {place + 1}")
            self.assertEqual(printed[refused + 1][0], "S")
            rain = int(lines[refused + 4].split(b" ")[2])
            self.assertEqual(before + rain * 10**8, CAPACITY)

    def test_same_seed_gives_same_sheet(self):
        for seed in range(1, 60):
            self.assertEqual(generated_sheet(seed), generated_sheet(seed))


if __name__ == "__main__":
    unittest.main()
