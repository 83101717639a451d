# The special run sheets: fixed ones, each made to meet one edge of the rules.
#
# special_sheets() gives them all, each a name that can name a file, and its bytes.

from __future__ import annotations

from flood_sheets import flood_sheets
from sheet import LARGEST_SHEET, LONGEST_LINE
from sheet_text import CLEAN, KEEPING_NOTHING, SOIL, line, opening, replaced, sheet_of

Sheet = tuple[str, bytes]

WORKED = b"""\
o 7 10 20 0 100
g 10000 30000 40000 2000 1000 500 80 50
k 0 0 0 0 0 0 0 0 0 0 0 0
c 0 0 0 690 0 0 0 0 0 0 0 0 0 0 0 0 0 0 0 0 0
s 7 3000 400 0
s 7 0 0 -2000
w 7
s 7 0 0 0
r
"""

BAD_NUMBERS = [
    b"01", b"00", b"-0", b"+1", b"+0", b"--1", b"1234567890", b"0123456789", b"4294967297", b"1.0",
    b"1e3", b"0x1", b"1,0", b"1_0", b"a", b"-", b"", b" 1", b"1 ", b"1\t", b"\t1", b"1\r", b"1\0",
    b"1\v", b"1\f", b"\xb2", b"1\xff", b"\xa01", b"\xd9\xa1", b"\xef\xbc\x91", b"1/", b":", b"1 #",
]

COUNTS = (("o", 5), ("g", 8), ("k", 12), ("c", 21), ("s", 4), ("w", 1), ("r", 0))

BAD_LINES = [
    b"q", b"q 1", b"R", b"W 1", b"S 7 1 0 0", b"rr", b"\xef\xbb\xbfr", b" r", b"r ", b"r 0",
    b"r#", b"r # a", b" #", b" ", b"  ", b"7", b"-", b"w1", b"w\t1", b"1 w", b"w  1", b"w 1 1",
    b"w", b"w ", b"\r", b"\t", b"\0", b"r\r", b"r\0", b"\xff", b"r\xa0",
    b"x" * LONGEST_LINE, b" " * LONGEST_LINE,
]

# Nodes: a town with every kind of surface, a meadow, and the worked one

TOWN_AREAS = (1_000, 2_500, 4_000, 12_500)
TOWN_SOIL = (12_000, 28_000, 45_000, 1_500, 700, 300, 110, 33)
TOWN_FRACTIONS = (
    30_000, 47_000, 12_345, 34_567, 20_000, 40_001, 5_000, 30_000, 44_000, 55_555, 60_000, 62_000,
)
TOWN_WATER = (
    240, 120, 11, 150, 90, 40, 600, 210, 130, 80, 310, 25, 45, 520, 17, 30, 260, 9, 310, 20, 52,
)
MEADOW_SOIL = (2_400, 16_080, 29_680, 2_500, 1_200, 800, 95, 70)


def town(number: int) -> list[bytes]:
    return opening(number, TOWN_AREAS, TOWN_SOIL, TOWN_FRACTIONS, TOWN_WATER)


TOWN = town(2)
MEADOW = opening(256, (400, 100, 0, 39_500), MEADOW_SOIL, TOWN_FRACTIONS, TOWN_WATER)
OPENED = opening(1)


def weather(step: int) -> tuple[int, int, int]:
    """Some days of rain and some dry ones; more evaporation in the middle of a year."""
    rain = max(step * 37 % 211 - 140, 0) * (step % 29 + 1)
    evaporation = abs((step + 182) % 365 - 182) * 2 + step % 5 * 7
    seepage = (step // 30 % 3 - 1) * (step * 13 % 40)
    return rain, evaporation, seepage


def steps(number: int, first: int, last: int) -> list[bytes]:
    return [line("s", number, *weather(step)) for step in range(first, last)]


# Plain sheets


def plain_sheets() -> list[Sheet]:
    days = [line("s", number, *weather(day)) for day in range(12) for number in (1, 2, 256)]
    three = OPENED + TOWN + MEADOW + days + [b"r", b"w 2", b"r"] + steps(256, 12, 20) + [b"r"]
    one_gram = opening(1, (1, 0, 0, 0), concentrations=replaced(CLEAN, 1, 2151))
    grams = one_gram + [b"s 1 4649 0 0", b"r", b"s 1 4649 0 0", b"r", b"s 1 1 0 0", b"r"]
    sewer = opening(1, (0, 0, 10, 0), fractions=replaced(KEEPING_NOTHING, 5, 32_768))
    slow_soil = (0, 0, 1_000, 1_000, 1_000, 0, 0, 100)
    slow = opening(1, (0, 0, 0, 100), slow_soil, KEEPING_NOTHING[:10] + (32_768, 32_768))
    drying = [b"s 1 2 0 0"] + [b"s 1 0 0 0"] * 12 + [b"r"]
    seepage = [b"s 1 0 0 10000", b"s 1 5000 0 -10000", b"s 1 100000 10000 10000", b"r"]
    return [
        ("worked", WORKED),
        ("worked-not-ended", WORKED[:-1]),
        ("worked-remarked", b"# a\n\n" + WORKED.replace(b"\n", b"\n\n#b\n") + b"# end"),
        ("three-nodes", sheet_of(three)),
        ("town-year", sheet_of(TOWN + steps(2, 0, 365) + [b"r"])),
        ("every-flow", sheet_of(TOWN + [b"s 2 9000 95 400"] * 3 + [b"r"])),
        ("grams", sheet_of(grams)),
        ("sewer-lag", sheet_of(sewer + drying)),
        ("slow-series", sheet_of(slow + drying)),
        ("seepage", sheet_of(OPENED + seepage)),
        ("readings", sheet_of([b"r", b"r", *OPENED, b"r", b"r", b"w 1", b"r"])),
    ]


# The form of lines


def numbers_sheet() -> bytes:
    """Every bad number after every letter, in the first, a middle or the last place."""
    lines = []
    for letter, count in COUNTS[:-1]:
        for bad in BAD_NUMBERS:
            numbers = [b"1"] * count
            numbers[(0, count // 2, count - 1)[len(lines) % 3]] = bad
            lines.append(letter.encode("ascii") + b" " + b" ".join(numbers))
    return sheet_of(lines)


def minus_sheet() -> bytes:
    seepages = [b"-1", b"-10000", b"-10001", b"-999999999"]
    seepages += [b"-0", b"-01", b"--1", b"-", b"- 1", b"-1234567890"]
    others = [b"s -1 0 0 0", b"s 1 -1 0 0", b"s 1 0 -1 0", b"w -1", b"o 1 0 0 0 -1"]
    return sheet_of(OPENED + [b"s 1 0 0 " + seepage for seepage in seepages] + others)


def counts_sheet() -> bytes:
    wrong = [
        line(letter, *[1] * given)
        for letter, count in COUNTS
        for given in (count - 1, count + 1, 22)
        if given >= 0
    ]
    return sheet_of(wrong)


def spaces_sheet() -> bytes:
    lines = []
    for good in OPENED + [b"s 1 0 0 0", b"w 1"]:
        lines += [good.replace(b" ", other, 1) for other in (b"  ", b"\t", b"", b"\0", b"\xa0")]
        lines += [b"  ".join(good.rsplit(b" ", 1))]
        lines += [around % good for around in (b" %s", b"%s ", b"\t%s", b"%s\r", b"%s\0")]
    return sheet_of(lines)


def lengths_sheet() -> bytes:
    """Remarks, letters and commands of just the longest line, and of one byte more."""
    longest_numbers = [999_999_999] * 16 + [1_000_000] * 4 + [100_000]
    just, above = line("c", *longest_numbers), line("c", *longest_numbers[:-1], 1_000_000)
    lines = [b"#" * 200, b"#" * 201, b"r" * 200, b"r" * 201, just, above]
    lines += [*OPENED[:3], just, *OPENED[:3], above, *OPENED[:3], b"#" * 200, OPENED[3], b"r"]
    return sheet_of(lines) + b"#" * 201


def form_sheets() -> list[Sheet]:
    each_byte = [bytes([value]) for value in range(256)]
    return [
        ("empty", b""),
        ("one-line-end", b"\n"),
        ("one-letter", b"r"),
        ("remarks-only", b"# a\n#\n\n# r\n#\xff\0\r\n\n"),
        ("bad-lines", sheet_of(BAD_LINES)),
        ("bad-numbers", numbers_sheet()),
        ("minus", minus_sheet()),
        ("counts", counts_sheet()),
        ("spaces", spaces_sheet()),
        ("line-ends", b"r\r\n\r\n#\rr\nr\rr\r\nr\n\n\n\vr\nr\x85r\nr\x1e\nr"),
        ("every-byte", sheet_of(each_byte)),
        ("every-byte-after", sheet_of([b"w 1" + byte for byte in each_byte])),
        ("every-byte-before", sheet_of([byte + b"r" for byte in each_byte])),
        ("lengths", lengths_sheet()),
        ("one-line", b"#" * 5_000),
    ]


# The turns of letters


def turn_sheets() -> list[Sheet]:
    others = OPENED + [b"s 1 0 0 0", b"w 1", b"r", b"x"]
    at_each_stage = [
        each
        for stage in range(4)
        for other in others
        for each in [*OPENED[:stage], other, *OPENED[stage:], b"#"]
    ]
    remarks = [each for due in TOWN for each in (due, b"", b"# a")]
    form_first = [b"g", b"k 0", OPENED[0], b"o 1", OPENED[1], OPENED[0], b"s 1 0 0 -0", b"c"]
    long_remark = OPENED[:3] + [b"#" * (LONGEST_LINE + 1), OPENED[3], b"r"]
    spent = OPENED + [OPENED[3]] + opening(0) + [OPENED[3]] + opening(2) + OPENED[1:] + [b"r"]
    sheets = [
        ("turns", sheet_of(at_each_stage)),
        ("remarks-in-a-card", sheet_of(remarks + [b"r"])),
        ("form-before-turn", sheet_of(form_first)),
        ("long-remark-in-a-card", sheet_of(long_remark)),
        ("spent-cards", sheet_of(spent)),
    ]
    for letter, stage in (("o", 1), ("g", 2), ("k", 3)):
        half = sheet_of(TOWN[:stage])
        sheets += [
            (f"half-made-{letter}", half),
            (f"half-made-{letter}-not-ended", half[:-1]),
            (f"half-made-{letter}-remarked", half + b"\n# a"),
        ]
    return [*sheets, ("half-made-dropped", sheet_of(OPENED[:3]) + b"x")]


# The causes of refusals


def areas_sheet() -> bytes:
    areas = [(0, 0, 0, 0), (100_000_001, 0, 0, 0), (50_000_000, 0, 0, 50_000_001)]
    areas += [(999_999_999,) * 4, (25_000_000,) * 4, (0, 0, 0, 1), (100_000_000, 0, 0, 0)]
    cards = [opening(number, each) for number, each in enumerate(areas, start=1)]
    return sheet_of(sum(cards, []))


def soils_sheet() -> bytes:
    """Each number of a soil just above its limit, then at it; then whole soils."""
    above = (30_001, 40_000, 200_001, 100_001, 10_001, 100_001, 201, 101)
    soils = [replaced(SOIL, place, number) for place, number in enumerate(above)]
    soils += [replaced(SOIL, place, number - 1) for place, number in enumerate(above)]
    soils += [(10_000, 39_999, 40_000, 2_000, percolation, 500, 80, 50) for percolation in (1, 2)]
    soils += [(0, 199_999, 200_000, 100_000, 1, 100_000, 200, 100), (0,) * 8, (999_999_999,) * 8]
    cards = [opening(number, soil=each) for number, each in enumerate(soils, start=1)]
    return sheet_of(sum(cards, []))


def waters_sheet() -> bytes:
    waters = [replaced(CLEAN, place, 20_001) for place in range(21)]
    waters += [(20_000,) * 21, (999_999_999,) * 18 + (0,) * 3]
    cards = [opening(number, concentrations=each) for number, each in enumerate(waters, start=1)]
    return sheet_of(sum(cards, []) + [b"s 22 3000 400 10", b"r"])


def fractions_sheet() -> bytes:
    """Bad fractions in each place by itself, and in several."""
    pairs = [(0, 65_536), (2, 1), (999_999_999, 999_999_999), (65_535, 65_535), (0, 65_535)]
    fractions = [
        KEEPING_NOTHING[:place] + pair + KEEPING_NOTHING[place + 2 :]
        for place in range(0, 12, 2)
        for pair in pairs
    ]
    fractions += [(1, 0) * 6, (0, 0) * 3 + (1, 0) * 3]
    cards = [opening(number, fractions=each) for number, each in enumerate(fractions, start=1)]
    return sheet_of(sum(cards, []))


def order_sheet() -> bytes:
    """Cards with every fault, and then with one less each time."""
    soil, water = replaced(SOIL, 7, 101), replaced(CLEAN, 20, 20_001)
    lines = opening(0, (0,) * 4, soil, (0, 65_536) * 6, water)
    lines += opening(0, (0,) * 4, soil, concentrations=water)
    lines += opening(0, soil=soil, concentrations=water)
    lines += opening(0, concentrations=water) + opening(0) + opening(1)
    return sheet_of([*lines, b"r"])


def card_sheets() -> list[Sheet]:
    return [
        ("areas", areas_sheet()),
        ("soils", soils_sheet()),
        ("waters", waters_sheet()),
        ("fractions", fractions_sheet()),
        ("order-of-checks", order_sheet()),
    ]


def number_lines(number: int) -> list[bytes]:
    calls = [line("s", number, 0, 0, 0), line("s", number, 100_001, 0, 0), line("w", number)]
    return calls + opening(number) + calls + opening(number)


def cells_sheet() -> bytes:
    """All 64 cells in use; two are given up by wet nodes and used again."""
    lines = [each for number in range(1, 64) for each in opening(number)]
    lines += town(64) + opening(65) + [b"s 3 5000 0 0", b"s 64 5000 0 0", b"s 64 700 10 0", b"r"]
    lines += [b"w 64", *town(66), *opening(65), *opening(64), b"w 3", *opening(3), *opening(65)]
    lines += [b"s 66 5000 0 0", b"s 66 700 10 0", b"s 65 5000 0 0", b"s 3 0 0 0", b"s 64 0 0 0"]
    return sheet_of([*lines, b"r"])


def district_sheets() -> list[Sheet]:
    limits = [each for number in (0, 1, 256, 257, 999_999_999) for each in number_lines(number)]
    every = [each for number in range(1, 257) for each in opening(number) + [line("w", number)]]
    forcings = [b"100000 0 0", b"0 10000 0", b"0 0 10000", b"0 0 -10000"]
    forcings += [b"100001 0 0", b"0 10001 0", b"0 0 10001", b"0 0 -10001"]
    forcings += [b"999999999 0 0", b"0 999999999 0", b"0 0 999999999", b"0 0 -999999999"]
    refused = opening(1) + opening(257) + [b"s 1 100001 0 0", b"s 2 0 0 0", b"w 2", b"x", b"g"]
    return [
        ("numbers", sheet_of([*limits, b"r"])),
        ("cells-64", cells_sheet()),
        ("every-number", sheet_of([*every, b"r"])),
        ("forcings", sheet_of(OPENED + [b"s 1 " + forcing for forcing in forcings] + [b"r"])),
        ("refusals-change-nothing", sheet_of(OPENED + [b"r"] + refused + [b"r"])),
    ]


# The size of sheets


def padded(sheet: bytes, size: int) -> bytes:
    """The sheet with remarks after it, up to a size that must be larger."""
    while len(sheet) < size:
        longest = min(size - len(sheet), LONGEST_LINE + 1)
        sheet += b"#" * (longest - 1) + b"\n"
    return sheet


def full_of_steps() -> bytes:
    """As many steps of a town and a meadow as the largest sheet has room for."""
    sheet, step = sheet_of(TOWN + MEADOW), 0
    while True:
        day = sheet_of(steps(2, step, step + 1) + steps(256, step, step + 1))
        if len(sheet) + len(day) + len(b"r") > LARGEST_SHEET:
            return padded(sheet, LARGEST_SHEET - 1) + b"r"
        sheet, step = sheet + day, step + 1


def size_sheets() -> list[Sheet]:
    return [
        ("largest-of-steps", full_of_steps()),
        ("largest-of-remarks", padded(WORKED, LARGEST_SHEET)),
        ("largest-of-lines", b"\n" * (LARGEST_SHEET - 1) + b"x"),
        ("too-large", padded(WORKED, LARGEST_SHEET + 1)),
    ]


def special_sheets() -> list[Sheet]:
    lines = plain_sheets() + form_sheets() + turn_sheets()
    return lines + card_sheets() + district_sheets() + flood_sheets() + size_sheets()
