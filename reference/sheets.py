# The generated run sheets: generated_sheet(seed) gives a short name and the bytes.
# The same seed always gives the same sheet. Most are small; one kind is about as
# large as a sheet may be.
#
# To see one:  python3 reference/sheets.py SEED

from __future__ import annotations

import sys
from random import Random

from card import LARGEST_AREA
from flood_sheets import card_for
from node import LARGEST_RAIN, PLACES
from random_lines import EDGE_NUMBERS, REMARKS, edge_opening, edge_step, plain_opening, plain_step
from reservoirs import CAPACITY
from sheet import LARGEST_SHEET, Run
from sheet_text import line, opening, sheet_of
from special_sheets import BAD_LINES, padded

# Whole sheets from lines


def ended(random: Random, lines: list[bytes]) -> bytes:
    """The lines as one sheet, its last line ended once, not at all, or often."""
    return b"\n".join(lines) + b"\n" * random.choice([1, 1, 1, 0, 3])


def with_remarks(random: Random, lines: list[bytes]) -> list[bytes]:
    """The same lines with remarks and empty lines anywhere among them."""
    mixed = []
    for each in lines:
        while random.random() < 0.1:
            mixed.append(random.choice(REMARKS))
        mixed.append(each)
    return mixed


# Kinds


def plain_lines(random: Random, length: int) -> list[bytes]:
    """A few nodes, stepped in any order and read; on average one is withdrawn."""
    numbers = random.sample(range(1, 257), random.randint(1, 5))
    lines = [each for number in numbers for each in plain_opening(random, number)]
    for _ in range(length):
        number = random.choice(numbers)
        lines.append(b"r" if random.random() < 0.1 else plain_step(random, number))
        if random.random() < 1 / length:
            lines.append(line("w", number))
    return [*lines, b"r"]


def plain_sheet(random: Random) -> bytes:
    return ended(random, with_remarks(random, plain_lines(random, random.randint(0, 150))))


def edge_sheet(random: Random) -> bytes:
    """Numbers at and about their limits, on cards and in steps."""
    lines = []
    for _ in range(random.randint(1, 25)):
        card = edge_opening(random)
        number = int(card[0].split(b" ")[1])
        lines += card + [edge_step(random, number) for _ in range(random.randint(0, 3))]
    return ended(random, [*lines, b"r"])


def flood_sheet(random: Random) -> bytes:
    """One place filled with rains about as large as the room that is left."""
    place = random.randrange(6)
    areas, soil = card_for(PLACES[place], LARGEST_AREA - random.choice([0, 1, 12_345]))
    keep = random.choice([61_440, 64_512, 65_535])
    lines = opening(1, areas, soil, (random.choice([keep, keep - 1]), keep) * 6)
    run = Run()
    for each in lines:
        run.do(each)
    node = run.district.nodes[1]
    for _ in range(random.randint(10, 60)):
        room = (CAPACITY - node.reservoirs[place].held()) // sum(areas)
        rain = random.choice([room, room + 1, room - 1, room // 2, LARGEST_RAIN, LARGEST_RAIN, 0])
        rain = min(max(rain, 0), LARGEST_RAIN)
        lines.append(line("s", 1, rain, 0, random.choice([0, 0, 10_000])))
        if rain <= room:
            run.do(lines[-1])
    return ended(random, [*lines, b"r", b"w 1", b"r"])


def crowded_sheet(random: Random) -> bytes:
    """More openings than there are cells, of few numbers, with withdrawals among them."""
    lines = []
    for _ in range(random.randint(70, 160)):
        number = random.randint(1, 130)
        call = random.choice([line("w", number), plain_step(random, number), b"r"])
        lines += [call] if random.random() < 0.15 else plain_opening(random, number)
    return ended(random, [*lines, b"r"])


def turns_sheet(random: Random) -> bytes:
    """Letters in any order, though often that of the next line of a card; some bad lines."""
    lines: list[bytes] = []
    due = list(plain_opening(random, 1))
    for _ in range(random.randint(1, 120)):
        number = random.choice([1, 2, 3, 4, random.choice(EDGE_NUMBERS)])
        if due and random.random() < 0.7:
            lines.append(due.pop(0))
            continue
        calls = [line("w", number), b"r", *[plain_step(random, number)] * 4]
        others = [*plain_opening(random, number), random.choice(BAD_LINES)]
        lines.append(random.choice(calls + others))
        due = plain_opening(random, number) if random.random() < 0.5 else due
    return ended(random, with_remarks(random, lines))


def half_made_sheet(random: Random) -> bytes:
    """Ends while a card is half made, mostly."""
    lines = plain_lines(random, random.randint(0, 5)) if random.random() < 0.5 else []
    lines += plain_opening(random, random.choice(EDGE_NUMBERS))[: random.randint(1, 3)]
    lines += [random.choice(REMARKS) for _ in range(random.randint(0, 3))]
    lines += [random.choice([b"x", b"r", b"#" * 201])] if random.random() < 0.2 else []
    return ended(random, lines)


def broken_sheet(random: Random) -> bytes:
    """A sheet of another kind in which some bytes were changed, lost or added."""
    makers = [plain_sheet, edge_sheet, flood_sheet, turns_sheet, half_made_sheet]
    sheet = bytearray(random.choice(makers)(random))
    for _ in range(random.randint(1, 12)):
        place = random.randrange(len(sheet) + 1)
        byte = random.choice([random.randrange(256), *b"\n\n\n\r\t  #0019--osgkcwr\0"])
        sheet[place : place + random.randint(0, 2)] = [byte] * random.randint(0, 2)
    return bytes(sheet)


def large_sheet(random: Random) -> bytes:
    """About as large as a sheet may be, and sometimes larger; it may end within a line."""
    size = LARGEST_SHEET + random.choice([-1, 0, 0, 0, 0, 0, 1, 100_000])
    sheet = sheet_of(plain_lines(random, random.choice([50, 6_000, 6_000])))
    return padded(sheet, size)[:size]


KINDS = [
    ("plain", plain_sheet),
    ("edges", edge_sheet),
    ("flood", flood_sheet),
    ("crowded", crowded_sheet),
    ("turns", turns_sheet),
    ("half made", half_made_sheet),
    ("broken", broken_sheet),
    ("broken", broken_sheet),
]
ONE_LARGE_IN = 25  # sheets


def generated_sheet(seed: int) -> tuple[str, bytes]:
    random = Random(seed)
    name, make = random.choice(KINDS) if seed % ONE_LARGE_IN else ("large", large_sheet)
    return f"{name}, seed {seed}", make(random)


if __name__ == "__main__":
    sys.stdout.buffer.write(generated_sheet(int(sys.argv[1]))[1])
