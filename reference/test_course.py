# Holds the course exercise to what docs/COURSE.md says of it: the sheet's size,
# that no line of it is refused, and every line that the document quotes, of the
# year and of the tasks.
#
#     python3 reference/test_course.py

import re
import unittest
from pathlib import Path

import course
from sheet import LARGEST_SHEET, LONGEST_LINE, page

ROOT = Path(__file__).resolve().parent.parent
YEAR = (ROOT / "sheets" / "year.sheet").read_text().splitlines()
DOCUMENT = (ROOT / "docs" / "COURSE.md").read_text()


def printed(lines):
    return page("".join(line + "\n" for line in lines).encode("ascii")).decode("ascii").splitlines()


def exchanged(line_number, old, new):
    """The year's sheet with one line changed."""
    lines = list(YEAR)
    assert old in lines[line_number - 1]
    lines[line_number - 1] = lines[line_number - 1].replace(old, new)
    return lines


def with_heath_withdrawn():
    place = YEAR.index("w 8") + 1
    return [*YEAR[:place], "w 5", *YEAR[place:]]


TASKS = [
    exchanged(3, "o 1 40000 100000 360000 700000", "o 1 40000 300000 360000 500000"),
    exchanged(5, " 1200 16083 ", " 39749 51572 "),
    with_heath_withdrawn(),
    exchanged(1234, "s 3", "s  3"),
    exchanged(19, "43600 51700", "51700 43600"),
]


def readings(page_lines):
    return [[int(word) for word in line.split()[1:]] for line in page_lines if line[0] == "B"]


def month_row(name, before, after):
    """A row of the document's table of months, in 1000 m3."""
    change = [(new - old) / 10**8 for old, new in zip(before, after)]
    rain, rise, _, evaporated, discharged, sunk, _, storage = change[:8]
    columns = [f"{volume:.0f}" for volume in (rain, rise, evaporated, discharged, sunk)]
    signed = f"{storage:+.0f}".replace("-", "−")
    return f"| {' | '.join([name, *columns, signed])} |"


class Course(unittest.TestCase):
    def test_sheet_is_what_the_script_prints(self):
        self.assertEqual(YEAR, course.sheet_lines())

    def test_sheet_is_within_the_limits(self):
        self.assertLess(sum(len(line) + 1 for line in YEAR), LARGEST_SHEET)
        self.assertLessEqual(max(len(line) for line in YEAR), LONGEST_LINE)

    def test_no_line_is_refused_and_every_reading_closes(self):
        lines = printed(YEAR)
        self.assertEqual([line for line in lines if line[0] == "X"], [])
        self.assertEqual(len(readings(lines)), 14)
        for reading in readings(lines):
            self.assertEqual(sum(reading[:3]), sum(reading[3:8]))

    def test_quoted_lines_are_printed(self):
        pages = {line for lines in [YEAR, *TASKS] for line in printed(lines)}
        quoted = re.findall(r"^    ([OSWBX] [0-9 ]+)$", DOCUMENT, re.MULTILINE)
        self.assertEqual(len(quoted), 15)
        for line in quoted:
            self.assertIn(line, pages)

    def test_months_are_as_tabled(self):
        ends = readings(printed(YEAR))
        after_withdrawals = ends.pop(course.LAST_WHOLE_MONTH + 1)
        for month, (name, _, _) in enumerate(course.MONTHS, start=1):
            start = ends[month - 1]
            if month == course.LAST_WHOLE_MONTH + 1:
                start = after_withdrawals
            self.assertIn(month_row(name, start, ends[month]), DOCUMENT)

    def test_weather_is_as_told(self):
        days = course.weather()
        self.assertEqual(sum(day.rain for day in days), 80_380)
        self.assertEqual(sum(day.evaporation for day in days), 57_440)
        self.assertEqual(sum(day.rain > 0 for day in days), 183)


if __name__ == "__main__":
    unittest.main()
