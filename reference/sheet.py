# The run sheet: commands to a district of 64 node cells, one to a line, and the
# page that is printed for them.
#
# Lines end in byte 10. Those that are empty or open with # are passed over, but
# counted. A node is opened by the lines o, g, k and c, one after another: its
# number and areas, its soil, its reservoirs, its concentrations. Between o and c
# the card is half made, and every letter but the next of these is out of turn. A
# refused line changes nothing in the district and drops the half-made card.

from __future__ import annotations

from card import Areas, Card, Concentrations
from command import Command, read_command
from district import District
from node import PLACES, Forcing
from reservoirs import Lag, Linear, Refusal, Reservoir, Series
from soil import Soil

LARGEST_SHEET = 65_536  # in bytes
LONGEST_LINE = 200  # in bytes, without the byte 10 that ends it
CELLS = 64  # for nodes

SHEET_LAYER = 1  # the layer that refuses
WHOLE_SHEET = 0  # the line, where no line but the sheet is refused
NO_PLACE = 0  # the place of this layer's refusals

BAD_FORM = 13  # cause of a refusal: too large a sheet, too long a line, or no command
OUT_OF_TURN = 14  # cause of a refusal: this letter cannot come now

CARD_LETTERS = "ogkc"  # in the order in which they make a card
FREE_LETTERS = "oswr"  # in turn while no card is half made


# Doing what the lines say


class Run:
    """A district, and the card that is half made."""

    def __init__(self) -> None:
        self.district = District(CELLS)
        self.half_made: list[tuple[int, ...]] = []  # the numbers of o, g, k, as far as given

    def do(self, line: bytes) -> str | None:
        """Does what the line says and gives what is printed for it, if anything."""
        if len(line) > LONGEST_LINE:
            raise refused(BAD_FORM)
        if not line or line.startswith(b"#"):
            return None
        command = read_command(line)
        if command is None:
            raise refused(BAD_FORM)
        if command.letter not in self.letters_in_turn():
            raise refused(OUT_OF_TURN)
        return self.obey(command)

    def letters_in_turn(self) -> str:
        return CARD_LETTERS[len(self.half_made)] if self.half_made else FREE_LETTERS

    def obey(self, command: Command) -> str | None:
        letter, numbers = command.letter, command.numbers
        if letter == "c":
            return self.open(numbers)
        if letter == "s":
            return self.step(*numbers)
        if letter == "w":
            return self.withdraw(*numbers)
        if letter == "r":
            return self.read()
        if letter == "k":
            six_reservoirs(numbers)  # for its refusal; the node gets its own
        self.half_made.append(numbers)
        return None

    def open(self, concentrations: tuple[int, ...]) -> str:
        """Opens the node whose card is made whole by these concentrations."""
        (number, *areas), soil, fractions = self.half_made
        triples = zip(concentrations[0::3], concentrations[1::3], concentrations[2::3])
        checked = Card(Areas(*areas), Soil(*soil), Concentrations(*triples)).check()
        brought_in = self.district.open(number, checked, six_reservoirs(fractions))
        self.drop_card()
        return words("O", number, brought_in)

    def step(self, number: int, rain: int, evaporation: int, seepage: int) -> str:
        answer = self.district.step(number, Forcing(rain, evaporation, seepage))
        return words("S", number, *answer.flows)

    def withdraw(self, number: int) -> str:
        return words("W", number, self.district.withdraw(number))

    def read(self) -> str:
        reading = self.district.read()
        book = reading.book
        came = book.rain, book.rise, book.brought_in
        went = book.evaporated, book.discharged, book.sunk, book.ceded
        grams = [grams for grams, _ in book.masses()]
        return words("B", *came, *went, reading.storage, *grams)

    def drop_card(self) -> None:
        self.half_made = []


def six_reservoirs(fractions: tuple[int, ...]) -> list[Reservoir]:
    """Those of a node, or the refusal of the lowest place with bad fractions."""
    reservoirs = []
    for place, name in enumerate(PLACES, start=1):
        a, b = fractions[2 * place - 2 : 2 * place]
        try:
            reservoirs.append(reservoir_at(name, a, b))
        except Refusal as refusal:
            raise Refusal(refusal.cause, refusal.layer, place) from None
    return reservoirs


def reservoir_at(name: str, a: int, b: int) -> Reservoir:
    if name == "sewer":
        return Series(Linear(a, b), Lag(1))
    if name == "slow":
        return Series(Linear(a, b), Linear(a, b))
    return Linear(a, b)


# Refusing and printing


def refused(cause: int) -> Refusal:
    return Refusal(cause, SHEET_LAYER, NO_PLACE)


def words(letter: str, *numbers: int) -> str:
    return " ".join([letter, *(str(number) for number in numbers)])


def refusal_words(line_number: int, refusal: Refusal) -> str:
    return words("X", line_number, refusal.layer, refusal.cause, refusal.place)


# The whole sheet


def lines_of(sheet: bytes) -> list[bytes]:
    """All lines; a byte 10 at the very end begins none."""
    lines = sheet.split(b"\n")
    return lines[:-1] if lines[-1] == b"" else lines


def page_lines(sheet: bytes) -> list[str]:
    if len(sheet) > LARGEST_SHEET:
        return [refusal_words(WHOLE_SHEET, refused(BAD_FORM))]
    run = Run()
    lines = lines_of(sheet)
    printed = []
    for line_number, line in enumerate(lines, start=1):
        try:
            told = run.do(line)
        except Refusal as refusal:
            run.drop_card()
            told = refusal_words(line_number, refusal)
        if told is not None:
            printed.append(told)
    if run.half_made:
        printed.append(refusal_words(len(lines) + 1, refused(OUT_OF_TURN)))
    return printed


def page(sheet: bytes) -> bytes:
    """The whole page printed for a run sheet."""
    return "".join(line + "\n" for line in page_lines(sheet)).encode("ascii")
