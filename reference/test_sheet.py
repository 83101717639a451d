# Holds the page of a run sheet to figures worked by hand: every cause, every
# fault of form, each stage of a half-made card, and both sides of each limit.
#
#     python3 reference/test_sheet.py

import re
import unittest
from pathlib import Path

from command import read_command
from district import GRAM, MOST_INCOME
from sheet import LARGEST_SHEET, Run, page
from sheet_text import (
    AREAS,
    BROUGHT_IN,
    CLEAN,
    KEEPING_NOTHING,
    SOIL,
    line,
    opening,
    replaced,
    sheet_of,
)
from special_sheets import BAD_NUMBERS, COUNTS, WORKED

WORKED_PAGE = b"""\
O 7 3000000
S 7 25000 50000 0 50000 8400 8400 0
S 7 0 0 0 0 10050 10050 0
W 7 3000000
X 8 2 8 0
B 390000 0 3000000 47000 161900 181100 3000000 0 3 0 0
"""

DOCUMENT = Path(__file__).resolve().parent.parent / "docs" / "SHEETS.md"

OPENED = opening(1)
NOTHING_YET = "B 0 0 0 0 0 0 0 0 0 0 0"
ONE_OPENED = f"B 0 0 {BROUGHT_IN} 0 0 0 0 {BROUGHT_IN} 0 0 0"

LAKE = (100_000_000, 0, 0, 0)  # all open water, the largest area
KEEPING = (65_535,) * 12  # the most that linear reservoirs can keep


class SheetCase(unittest.TestCase):
    def assert_prints(self, sheet, *lines):
        """The sheet is its bytes, or a list of its lines."""
        if isinstance(sheet, list):
            sheet = sheet_of(sheet)
        expected = "".join(each + "\n" for each in lines).encode("ascii")
        self.assertEqual(page(sheet), expected)

    def assert_refused(self, lines, refusal):
        """The last line is refused, so that line and refusal are printed last."""
        printed = page(sheet_of(lines)).decode("ascii").splitlines()
        self.assertEqual(printed[-1], f"X {len(lines)} {refusal}")

    def assert_malformed(self, bad_line):
        """Alone, and in place of the letter that is due."""
        self.assert_prints([bad_line, b"r"], "X 1 1 13 0", NOTHING_YET)
        self.assert_prints(OPENED[:1] + [bad_line, b"r"], "X 2 1 13 0", NOTHING_YET)


class Worked(SheetCase):
    def test_the_worked_sheet(self):
        self.assertEqual(page(WORKED), WORKED_PAGE)
        self.assertEqual(page(WORKED[:-1]), WORKED_PAGE)

    def test_the_examples_of_the_document(self):
        """Its last four indented blocks are two sheets, each followed by its page."""
        blocks = re.findall(rb"(?:^    .*\n)+", DOCUMENT.read_bytes(), re.MULTILINE)
        texts = [re.sub(rb"^    ", b"", block, flags=re.MULTILINE) for block in blocks[-4:]]
        self.assertEqual(texts[0], WORKED)
        self.assertEqual(page(texts[0]), texts[1])
        self.assertEqual(page(texts[2]), texts[3])

    def test_remarks_and_empty_lines_count(self):
        remarked = WORKED.replace(b"\n", b"\n# a\n\n")
        self.assertEqual(page(remarked), WORKED_PAGE.replace(b"X 8", b"X 22"))

    def test_grams_are_rounded_down(self):
        # 4649 centilitres at 2151 carry a gram less a tenth of a microgram; twice that is 1 gram
        self.assertEqual(4649 * 2151, GRAM - 1)
        lines = opening(1, (1, 0, 0, 0), concentrations=replaced(CLEAN, 1, 2151))
        lines += [b"s 1 4649 0 0", b"r", b"s 1 4649 0 0", b"r", b"s 1 1 0 0", b"r"]
        books = page(sheet_of(lines)).decode("ascii").splitlines()[2::2]
        self.assertEqual([book.split(" ")[-3:] for book in books], [
            ["0", "0", "0"], ["0", "1", "0"], ["0", "2", "0"],
        ])

    def test_the_concentrations_stand_flow_by_flow(self):
        # flows 25000 50000 0 50000 8400 8400 and 130 of rising seepage, at 20,000 each
        flows = (25_000, 50_000, 0, 50_000, 8_400, 8_400, 130)
        for place in range(21):
            grams = ["0", "0", "0"]
            grams[place % 3] = str(flows[place // 3] * 20_000 // GRAM)
            card = opening(1, concentrations=replaced(CLEAN, place, 20_000))
            printed = page(sheet_of(card + [b"s 1 3000 400 1", b"r"]))
            self.assertEqual(printed.decode("ascii").split()[-3:], grams)

    def test_the_fractions_stand_place_by_place(self):
        # without recession, half of the inflow is kept until the next step
        areas, halves = (10, 20, 30, 100), (0, 32_768)
        first = [25_000, 50_000, 0, 50_000, 8_400, 8_400, 0]
        for place in range(6):
            fractions = KEEPING_NOTHING[: 2 * place] + halves + KEEPING_NOTHING[2 * place + 2 :]
            flows = list(first)
            flows[place] //= 2
            if place == 5:
                flows[place] //= 2  # two reservoirs in series
            lines = opening(1, areas, fractions=fractions) + [b"s 1 3000 400 0"]
            given = " ".join(str(flow) for flow in flows)
            self.assert_prints(lines, f"O 1 {BROUGHT_IN}", f"S 1 {given}")

    def test_the_sewer_lags_one_step(self):
        lines = opening(1, (0, 0, 10, 0), fractions=replaced(KEEPING_NOTHING, 5, 32_768))
        lines += [b"s 1 100 0 0", b"s 1 0 0 0", b"s 1 0 0 0", b"s 1 0 0 0"]
        steps = [f"S 1 0 0 {flow} 0 0 0 0" for flow in (0, 500, 500, 0)]
        self.assert_prints(lines, "O 1 0", *steps)

    def test_the_slow_place_has_two_equal_reservoirs(self):
        # 200 centilitres percolate, all slow; each reservoir gives half, rounded up
        soil = (0, 0, 1_000, 1_000, 1_000, 0, 0, 100)
        fractions = KEEPING_NOTHING[:10] + (32_768, 32_768)
        lines = opening(1, (0, 0, 0, 100), soil, fractions)
        lines += [b"s 1 2 0 0"] + [b"s 1 0 0 0"] * 3
        steps = [f"S 1 0 0 0 0 0 {flow} 0" for flow in (50, 50, 38, 25)]
        self.assert_prints(lines, "O 1 0", *steps)


class Form(SheetCase):
    def test_empty_sheets(self):
        for sheet in (b"", b"\n", b"\n\n\n", b"#", b"# r\n", b"\n#\n\n# r"):
            self.assert_prints(sheet)

    def test_the_last_line_need_not_end(self):
        self.assert_prints(b"r", NOTHING_YET)
        self.assert_prints(b"r\n", NOTHING_YET)
        self.assert_prints(b"r\n\n", NOTHING_YET)
        self.assert_prints(b"\n#\n\nx", "X 4 1 13 0")

    def test_letters(self):
        for bad in (b"q", b"q 1", b"R", b"W 1", b"O 1 10 20 0 100", b"rr", b"\xef\xbb\xbfr"):
            self.assert_malformed(bad)
        for bad in (b" r", b"r ", b"r 0", b"r#", b"r # a", b" #", b" ", b"7", b"-", b"w1", b"1 w"):
            self.assert_malformed(bad)

    def test_numbers(self):
        for bad in BAD_NUMBERS:
            for letter, count in COUNTS[:-1]:
                for place in (0, count // 2, count - 1):
                    numbers = [b"1"] * count
                    numbers[place] = bad
                    self.assert_malformed(letter.encode("ascii") + b" " + b" ".join(numbers))

    def test_a_minus_before_the_seepage_alone(self):
        for seepage in (b"-1", b"-10000", b"-999999999"):
            self.assertIsNotNone(read_command(b"s 1 0 0 " + seepage))
        for seepage in (b"-0", b"-01", b"--1", b"-", b"- 1", b"-1234567890", b"1-"):
            self.assert_malformed(b"s 1 0 0 " + seepage)
        for bad in (b"s -1 0 0 0", b"s 1 -1 0 0", b"s 1 0 -1 0", b"w -1", b"o 1 0 0 0 -1"):
            self.assert_malformed(bad)

    def test_nine_digits(self):
        self.assert_prints(b"w 999999999", "X 1 2 6 0")
        self.assert_prints(b"s 999999999 999999999 999999999 999999999", "X 1 2 6 0")
        self.assert_prints(b"w 1000000000", "X 1 1 13 0")

    def test_counts_of_numbers(self):
        for letter, count in COUNTS[:-1]:
            for wrong in {0, 1, count - 1, count + 1, 22} - {count}:
                self.assert_malformed(line(letter, *[1] * wrong))

    def test_spaces(self):
        for good in opening(1) + [b"s 1 0 0 0", b"w 1"]:
            self.assert_malformed(good.replace(b" ", b"  ", 1))
            self.assert_malformed(b"  ".join(good.rsplit(b" ", 1)))
            self.assert_malformed(good.replace(b" ", b"\t", 1))
            self.assert_malformed(good.replace(b" ", b"", 1))
            for around in (b" %s", b"%s ", b"\t%s", b"%s\t", b"%s\r", b"%s\0"):
                self.assert_malformed(around % good)

    def test_only_byte_10_ends_a_line(self):
        self.assert_prints(b"r\r\n", "X 1 1 13 0")
        self.assert_prints(b"r\rr\r", "X 1 1 13 0")
        self.assert_prints(b"#\rr\n\r\n", "X 2 1 13 0")
        for byte in (11, 12, 13, 28, 29, 30, 133):
            self.assert_prints(b"# a" + bytes([byte]) + b"r\nr", NOTHING_YET)
            self.assert_prints(b"r" + bytes([byte]) + b"r", "X 1 1 13 0")

    def test_every_byte_alone(self):
        sheet = b"".join(bytes([byte]) + b"\n" for byte in range(256))
        # byte 10 makes two empty lines, so that later bytes are one line further down
        refused = [byte + 1 + (byte > 10) for byte in range(256) if byte not in (10, ord("#"))]
        expected = [f"X {number} 1 13 0" for number in refused]
        expected[expected.index("X 116 1 13 0")] = NOTHING_YET  # the letter r
        self.assert_prints(sheet, *expected)


class Lengths(SheetCase):
    def test_remarks_of_200_bytes(self):
        self.assert_prints(b"#" * 200 + b"\nr", NOTHING_YET)
        self.assert_prints(b"#" * 201 + b"\nr", "X 1 1 13 0", NOTHING_YET)
        self.assert_prints(b"r\n" + b"#" * 200, NOTHING_YET)
        self.assert_prints(b"r\n" + b"#" * 201, NOTHING_YET, "X 2 1 13 0")

    def test_too_long_a_remark_drops_the_card(self):
        for length, printed in ((200, [f"O 1 {BROUGHT_IN}"]), (201, ["X 4 1 13 0", "X 5 1 14 0"])):
            self.assert_prints(OPENED[:3] + [b"#" * length] + OPENED[3:], *printed)

    def test_commands_of_200_bytes(self):
        # 21 numbers, 16 of nine digits: 1 + 16 x 10 + 4 x 8 + 7
        numbers = [999_999_999] * 16 + [1_000_000] * 4 + [100_000]
        just, above = line("c", *numbers), line("c", *numbers[:-1], 1_000_000)
        self.assertEqual((len(just), len(above)), (200, 201))
        self.assert_prints(just, "X 1 1 14 0")
        self.assert_prints(above, "X 1 1 13 0")
        self.assert_prints(OPENED[:3] + [just], "X 4 3 3 0")
        self.assert_prints(OPENED[:3] + [above], "X 4 1 13 0")

    def test_the_largest_sheet(self):
        filler = (b"#" * 127 + b"\n") * 512
        self.assertEqual(len(filler), LARGEST_SHEET)
        self.assert_prints(b"r\n" + filler[2:], NOTHING_YET)
        self.assert_prints(b"r\n" + filler[1:], "X 0 1 13 0")
        self.assert_prints(b"\n" * (LARGEST_SHEET - 1) + b"x", f"X {LARGEST_SHEET} 1 13 0")
        self.assert_prints(b"\n" * LARGEST_SHEET)
        self.assert_prints(b"\n" * (LARGEST_SHEET + 1), "X 0 1 13 0")
        self.assert_prints(b"#" * LARGEST_SHEET, "X 1 1 13 0")
        self.assert_prints(b"#" * (LARGEST_SHEET + 1), "X 0 1 13 0")


class Turns(SheetCase):
    def test_letters_that_only_follow_another(self):
        for due in OPENED[1:]:
            self.assert_prints([due, b"r"], "X 1 1 14 0", NOTHING_YET)
            after = OPENED + [due, b"r"]
            self.assert_prints(after, f"O 1 {BROUGHT_IN}", "X 5 1 14 0", ONE_OPENED)

    def test_every_other_letter_drops_a_half_made_card(self):
        every = OPENED + [b"s 1 0 0 0", b"w 1", b"r"]
        for stage in (1, 2, 3):
            for other in every:
                if other == OPENED[stage]:
                    continue
                lines = OPENED[:stage] + [other] + OPENED[stage:] + [b"r"]
                out_of_turn = [f"X {number} 1 14 0" for number in range(stage + 1, 6)]
                self.assert_prints(lines, *out_of_turn, NOTHING_YET)

    def test_a_refused_o_begins_no_card(self):
        expected = ["X 2 1 14 0", "X 3 1 14 0", f"O 1 {BROUGHT_IN}"]
        self.assert_prints(OPENED[:1] + OPENED[:2] + OPENED, *expected)

    def test_a_malformed_line_drops_a_half_made_card(self):
        for stage in (1, 2, 3):
            lines = OPENED[:stage] + [b"x"] + OPENED[stage:] + OPENED
            refused = [f"X {number} 1 14 0" for number in range(stage + 2, 6)]
            self.assert_prints(lines, f"X {stage + 1} 1 13 0", *refused, f"O 1 {BROUGHT_IN}")

    def test_form_is_tried_before_turn(self):
        for bad in (b"g", b"k 0", b"c 0 0", b"g 1 2 3 4 5 6 7 08"):
            self.assert_prints([bad], "X 1 1 13 0")
        for bad in (b"o 1", b"s 1 0 0 -0", b"w", b"r 0", b"k 1"):
            self.assert_prints(OPENED[:1] + [bad], "X 2 1 13 0")

    def test_remarks_and_empty_lines_keep_the_card(self):
        lines = [each for due in OPENED for each in (due, b"", b"# a", b"#r")]
        self.assert_prints(lines, f"O 1 {BROUGHT_IN}")

    def test_half_made_at_the_end(self):
        for stage in (1, 2, 3):
            half = sheet_of(OPENED[:stage])
            self.assert_prints(half, f"X {stage + 1} 1 14 0")
            self.assert_prints(half[:-1], f"X {stage + 1} 1 14 0")
            self.assert_prints(half + b"\n", f"X {stage + 2} 1 14 0")
            self.assert_prints(half + b"# a", f"X {stage + 2} 1 14 0")
            self.assert_prints(half + b"# a\n\n", f"X {stage + 3} 1 14 0")
            self.assert_prints(half + b"x", f"X {stage + 1} 1 13 0")
            self.assert_prints(half + b"r\n", f"X {stage + 1} 1 14 0")

    def test_a_spent_card_opens_no_second_node(self):
        lines = OPENED + [OPENED[3]]
        self.assert_prints(lines, f"O 1 {BROUGHT_IN}", "X 5 1 14 0")
        refused = opening(0) + [OPENED[3], b"r"]
        self.assert_prints(refused, "X 4 2 6 0", "X 5 1 14 0", NOTHING_YET)


class Causes(SheetCase):
    def test_1_areas(self):
        for areas in ((0, 0, 0, 0), (100_000_001, 0, 0, 0), (50_000_000, 0, 0, 50_000_001)):
            self.assert_refused(opening(1, areas), "3 1 0")
        self.assert_refused(opening(1, (999_999_999,) * 4), "3 1 0")
        self.assert_prints(opening(1, LAKE), "O 1 0")

    def test_2_soil(self):
        above = (30_001, 40_000, 200_001, 100_001, 10_001, 100_001, 201, 101)
        for place, number in enumerate(above):
            self.assert_refused(opening(1, soil=replaced(SOIL, place, number)), "3 2 0")
            self.assert_refused(opening(1, soil=replaced(SOIL, place, 999_999_999)), "3 2 0")

    def test_3_concentrations(self):
        for place in range(21):
            clean = opening(1, concentrations=replaced(CLEAN, place, 20_000))
            self.assert_prints(clean, f"O 1 {BROUGHT_IN}")
            self.assert_refused(opening(1, concentrations=replaced(CLEAN, place, 20_001)), "3 3 0")

    def test_4_fractions(self):
        for place in range(6):
            for a, b in ((0, 65_536), (2, 1), (999_999_999, 999_999_999)):
                fractions = replaced(replaced(KEEPING_NOTHING, 2 * place, a), 2 * place + 1, b)
                lines = OPENED[:2] + [line("k", *fractions)]
                self.assert_refused(lines, f"4 4 {place + 1}")
                later = replaced(fractions, 11, 65_536)  # the slow place as well
                self.assert_refused(OPENED[:2] + [line("k", *later)], f"4 4 {place + 1}")
        self.assert_prints(opening(1, fractions=KEEPING), f"O 1 {BROUGHT_IN}")

    def test_4_comes_before_the_card_is_checked_and_drops_it(self):
        lines = opening(257, (0, 0, 0, 0), fractions=replaced(KEEPING_NOTHING, 0, 1))
        self.assert_prints(lines, "X 3 4 4 1", "X 4 1 14 0")

    def test_5_no_room(self):
        # ten steps of 10^13 fit, since something leaves in each; an eleventh does not
        lines = opening(1, LAKE, fractions=KEEPING) + [b"s 1 100000 0 0"] * 10
        self.assert_refused(lines + [b"s 1 100000 0 0"], "4 5 1")
        self.assert_refused(lines + [b"s 1 100001 0 0"], "3 12 0")
        self.assertIn(b"S 1 ", page(sheet_of(lines)).splitlines()[-1])

    def test_6_no_such_number(self):
        for number in (0, 257, 999_999_999):
            self.assert_refused(opening(number), "2 6 0")
            self.assert_refused([line("s", number, 0, 0, 0)], "2 6 0")
            self.assert_refused([line("s", number, 100_001, 0, 0)], "2 6 0")
            self.assert_refused([line("w", number)], "2 6 0")
        for number in (1, 256):
            self.assert_prints(opening(number), f"O {number} {BROUGHT_IN}")

    def test_7_open(self):
        self.assert_refused(OPENED + OPENED, "2 7 0")

    def test_8_withdrawn(self):
        lines = OPENED + [b"w 1"]
        for again in (OPENED, [b"s 1 0 0 0"], [b"s 1 100001 0 0"], [b"w 1"]):
            self.assert_refused(lines + again, "2 8 0")

    def test_9_no_cell(self):
        lines = [each for number in range(1, 65) for each in opening(number)]
        self.assert_refused(lines + opening(65), "2 9 0")
        self.assert_refused(lines + opening(64), "2 7 0")
        lines += [b"w 3"] + opening(65)
        self.assertTrue(page(sheet_of(lines)).endswith(b"W 3 3000000\nO 65 3000000\n"))
        self.assert_refused(lines + opening(66), "2 9 0")
        self.assert_refused(lines + opening(3), "2 8 0")

    def test_10_too_much(self):
        # no sheet is long enough for this: see special_sheets.py
        run = Run()
        run.district.book.rain = MOST_INCOME - BROUGHT_IN - 130
        for each in opening(1):
            run.do(each)
        self.assertEqual(run.do(b"s 1 1 0 0").split(" ")[0], "S")
        for last in (b"s 1 1 0 0", b"s 1 0 0 1"):
            with self.assertRaisesRegex(Exception, r"\(10, 2, 0\)"):
                run.do(last)
        for each in opening(2)[:3]:
            run.do(each)
        with self.assertRaisesRegex(Exception, r"\(10, 2, 0\)"):
            run.do(opening(2)[3])

    def test_11_new(self):
        for lines in ([b"s 1 0 0 0"], [b"w 1"], OPENED + [b"w 2"], OPENED + [b"s 2 100001 0 0"]):
            self.assert_refused(lines, "2 11 0")

    def test_12_forcing(self):
        for forcing in (
            b"100001 0 0", b"0 10001 0", b"0 0 10001", b"0 0 -10001",
            b"999999999 0 0", b"0 999999999 0", b"0 0 999999999", b"0 0 -999999999",
        ):
            self.assert_refused(OPENED + [b"s 1 " + forcing], "3 12 0")
        for forcing in (b"100000 0 0", b"0 10000 0", b"0 0 10000", b"0 0 -10000"):
            self.assertIn(b"\nS 1 ", page(sheet_of(OPENED + [b"s 1 " + forcing])))

    def test_the_card_is_checked_before_the_number(self):
        bad_soil, bad_water = replaced(SOIL, 7, 101), replaced(CLEAN, 20, 20_001)
        self.assert_refused(opening(0, (0, 0, 0, 0), bad_soil, concentrations=bad_water), "3 1 0")
        self.assert_refused(opening(0, AREAS, bad_soil, concentrations=bad_water), "3 2 0")
        self.assert_refused(opening(0, AREAS, SOIL, concentrations=bad_water), "3 3 0")
        self.assert_refused(opening(0), "2 6 0")

    def test_a_refused_line_changes_nothing(self):
        refused = opening(1) + opening(257) + [b"s 1 100001 0 0", b"s 2 0 0 0", b"w 2", b"x", b"g"]
        printed = page(sheet_of(OPENED + refused + [b"r"])).decode("ascii").splitlines()
        self.assertEqual(len(printed), 1 + 7 + 1)
        self.assertEqual(printed[-1], ONE_OPENED)


if __name__ == "__main__":
    unittest.main()
