# The district example: a district of four node cells, its nodes opened, stepped
# and withdrawn, with refusals of the causes 6, 7, 8, 9, 11 and 12.
#
#     python3 reference/district_example.py
#
# What it prints, a line for each call:
#
#     open NUMBER brought in V
#     step NUMBER P E K: flows F1 F2 F3 F4 F5 F6 F7 evaporated V sunk V loads A N P
#     withdraw NUMBER ceded V
#     look NUMBER M B C1 C2 C3 C4 C5 C6
#     read rain R rise U brought in B evaporated E discharged D sunk S ceded C storage T grams A N P
#     closes R + U + B = E + D + S + C + T
#     refused CALL NUMBER cause C layer L place Q
#     balance rain R + rise U + brought in B
#         = evaporated E + discharged D + sunk S + ceded C + storage T      (on one line)
#
# A call that is refused has a refused line instead of its own; CALL is open,
# step, withdraw or look. Each read line is followed by a closes line, and the
# balance line is the last. All numbers are decimal, without signs but for K
# below 0; there is one space between words and no empty line; every line ends
# in one newline.
#
# open: the volume that opening brings in, field capacity times unpaved area.
# step: rain, evaporation and seepage in points; the seven flows, what
#   evaporated and what sank in centilitres; the loads of ammonium, nitrate and
#   phosphor in tenths of a microgram.
# withdraw: what the node stored, in centilitres.
# look: moisture and depression storage in points, then what the six reservoirs
#   hold in centilitres.
# read: the book in centilitres; then what the open nodes store, as they answer;
#   then ammonium, nitrate and phosphor in whole grams, their rests left out.
# closes: eight numbers of the reading, income on the left; both sides are equal.
# balance: the same of the last reading, in words.

from __future__ import annotations

import sys

from card import Card
from district import District
from example_nodes import MEADOW, TOWN, YARD, meadow_reservoirs, town_reservoirs, yard_reservoirs
from node import Forcing
from reservoirs import Refusal, Reservoir

def joined(numbers: tuple[int, ...]) -> str:
    return " ".join(str(number) for number in numbers)


class Told:
    """A district whose calls are told, a line for each."""

    def __init__(self, cells: int) -> None:
        self.district = District(cells)
        self.lines: list[str] = []

    def open(self, number: int, card: Card, reservoirs: list[Reservoir]) -> None:
        try:
            brought_in = self.district.open(number, card.check(), reservoirs)
        except Refusal as refusal:
            self.refused("open", number, refusal)
        else:
            self.lines.append(f"open {number} brought in {brought_in}")

    def step(self, number: int, rain: int, evaporation: int, seepage: int) -> None:
        try:
            answer = self.district.step(number, Forcing(rain, evaporation, seepage))
        except Refusal as refusal:
            self.refused("step", number, refusal)
        else:
            opening = f"step {number} {rain} {evaporation} {seepage}:"
            volumes = f"flows {joined(answer.flows)} evaporated {answer.evaporated}"
            loads = f"loads {joined(answer.loads)}"
            self.lines.append(f"{opening} {volumes} sunk {answer.sunk} {loads}")

    def withdraw(self, number: int) -> None:
        try:
            ceded = self.district.withdraw(number)
        except Refusal as refusal:
            self.refused("withdraw", number, refusal)
        else:
            self.lines.append(f"withdraw {number} ceded {ceded}")

    def look(self, number: int) -> None:
        try:
            look = self.district.look(number)
        except Refusal as refusal:
            self.refused("look", number, refusal)
        else:
            stores = f"{look.moisture} {look.depression} {joined(look.contents)}"
            self.lines.append(f"look {number} {stores}")

    def read(self) -> None:
        reading = self.district.read()
        book = reading.book
        came = f"rain {book.rain} rise {book.rise} brought in {book.brought_in}"
        went = f"evaporated {book.evaporated} discharged {book.discharged} sunk {book.sunk}"
        rest = f"ceded {book.ceded} storage {reading.storage}"
        grams = joined(tuple(grams for grams, _ in book.masses()))
        self.lines.append(f"read {came} {went} {rest} grams {grams}")
        came = f"{book.rain} + {book.rise} + {book.brought_in}"
        went = f"{book.evaporated} + {book.discharged} + {book.sunk} + {book.ceded}"
        self.lines.append(f"closes {came} = {went} + {reading.storage}")

    def balance(self) -> None:
        reading = self.district.read()
        book = reading.book
        came = f"rain {book.rain} + rise {book.rise} + brought in {book.brought_in}"
        went = f"evaporated {book.evaporated} + discharged {book.discharged} + sunk {book.sunk}"
        rest = f"ceded {book.ceded} + storage {reading.storage}"
        self.lines.append(f"balance {came} = {went} + {rest}")

    def refused(self, call: str, number: int, refusal: Refusal) -> None:
        where = f"layer {refusal.layer} place {refusal.place}"
        self.lines.append(f"refused {call} {number} cause {refusal.cause} {where}")


def page() -> bytes:
    """Everything that is printed."""
    told = Told(4)
    told.read()  # a new district: zero throughout

    told.open(1, YARD, yard_reservoirs())
    told.open(2, TOWN, town_reservoirs())
    told.open(256, MEADOW, meadow_reservoirs())
    told.read()

    told.step(1, 3_000, 400, 0)  # a shower over all three
    told.step(2, 3_470, 20, 15)
    told.step(256, 4_200, 30, 0)
    told.step(1, 0, 0, -2_000)  # a day later: dry, seepage of its own in each
    told.step(2, 0, 310, 15)
    told.step(256, 0, 450, -300)
    told.look(256)
    told.read()

    told.step(2, 5_000, 0, -40)  # a cloudburst that the yard does not get
    told.step(256, 9_000, 0, 12)
    told.step(2, 810, 95, -400)
    told.step(256, 0, 520, -10_000)
    told.read()

    told.look(2)
    told.withdraw(2)  # the town goes to the neighbour, with all that it holds
    told.read()

    told.step(2, 100, 0, 0)  # withdrawn
    told.look(2)
    told.withdraw(2)
    told.open(2, TOWN, town_reservoirs())
    told.step(3, 100, 0, 0)  # new
    told.look(3)
    told.open(1, YARD, yard_reservoirs())  # open already
    told.open(257, YARD, yard_reservoirs())  # no such number
    told.step(1, 0, 0, -10_001)  # more seepage than a step may have
    told.read()  # as before the refusals

    told.open(3, YARD, yard_reservoirs())  # two cells are unused, one of them the town's
    told.open(4, MEADOW, meadow_reservoirs())
    told.open(5, YARD, yard_reservoirs())  # and now none
    told.step(3, 3_000, 400, 0)  # answers what number 1 answered
    told.step(256, 700, 33, 7)
    told.read()
    told.balance()
    return "".join(line + "\n" for line in told.lines).encode("ascii")


if __name__ == "__main__":
    sys.stdout.buffer.write(page())
