# A command: one line of a run sheet, read as a letter and its numbers.
#
# The letter comes first and each number after exactly one space; nothing else
# stands on the line. A number is decimal, without leading zeros and of at most
# nine digits. One number alone may be below 0: the seepage of a step.

from __future__ import annotations

import re
from dataclasses import dataclass

COUNTS = {  # how many numbers follow each letter
    b"o": 5,  # number, areas open, paved, sewer, unpaved
    b"g": 8,  # the soil
    b"k": 12,  # the recession and the retention of each of the six places
    b"c": 21,  # three concentrations in each of the seven flows
    b"s": 4,  # number, rain, evaporation, seepage
    b"w": 1,  # number
    b"r": 0,
}
SEEPAGE = (b"s", 3)  # the letter and the place among its numbers

NUMBER = re.compile(rb"0|[1-9][0-9]{0,8}")
NUMBER_OR_LESS = re.compile(rb"0|-?[1-9][0-9]{0,8}")


@dataclass(frozen=True)
class Command:
    letter: str
    numbers: tuple[int, ...]


def read_command(line: bytes) -> Command | None:
    """The command, or None if the line is not of its form."""
    letter, *words = line.split(b" ")
    if letter not in COUNTS or len(words) != COUNTS[letter]:
        return None
    for place, word in enumerate(words):
        form = NUMBER_OR_LESS if (letter, place) == SEEPAGE else NUMBER
        if form.fullmatch(word) is None:
            return None
    return Command(letter.decode("ascii"), tuple(int(word) for word in words))
