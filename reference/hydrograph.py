# The hydrograph: routes a storm through three reservoirs and prints the page.
#
#     python3 reference/hydrograph.py < storm
#
# A storm is lines of bytes. Lines that are empty or open with # are passed
# over, but counted. The first other line gives the settings a, b and n; every
# later one gives a volume in centilitres. The three reservoirs are a linear
# reservoir a, b; a lag n; and such a linear reservoir followed by such a lag.
# A step is all or nothing: all three take the volume, or none does.

from __future__ import annotations

import sys

from reservoirs import CAPACITY, Lag, Linear, Refusal, Reservoir, Series

LONGEST_NUMBER = 18  # in digits
LINE_WIDTH = 8  # of the column with the line's number
VOLUME_WIDTH = 16  # of every other column


class Gauge:
    """A reservoir with its names on the page and the totals of its balance."""

    def __init__(self, short_name: str, long_name: str, reservoir: Reservoir) -> None:
        self.short_name = short_name
        self.long_name = long_name
        self.reservoir = reservoir
        self.taken = 0
        self.given = 0

    def take(self, inflow: int) -> int:
        outflow = self.reservoir.take(inflow)
        self.taken += inflow
        self.given += outflow
        return outflow

    def balance(self) -> str:
        held = self.reservoir.held()
        return f"{self.short_name}: taken {self.taken} = given {self.given} + held {held}"


# Reading


def counted_lines(storm: bytes) -> list[tuple[int, bytes]]:
    """The lines that are not passed over, each with its number from 1."""
    lines = enumerate(storm.split(b"\n"), start=1)
    return [(number, line) for number, line in lines if line and not line.startswith(b"#")]


def read_number(text: bytes) -> int | None:
    """The number, or None if the text is not one in decimal form."""
    if len(text) > LONGEST_NUMBER or not text.isdigit():  # of bytes: 0 to 9 only
        return None
    if text.startswith(b"0") and text != b"0":
        return None
    return int(text)


def read_settings(line: bytes) -> tuple[int, int, int] | None:
    """The numbers a, b and n, or None if the line is not three numbers."""
    numbers = [read_number(text) for text in line.split(b" ")]
    if len(numbers) != 3 or None in numbers:
        return None
    a, b, n = numbers
    return a, b, n


# Writing


def refused_line(line_number: int, reason: str) -> str:
    return f"line {line_number} refused: {reason}"


def reason_of(refusal: Refusal, explanation: str) -> str:
    where = f"layer {refusal.layer}, place {refusal.place}"
    return f"cause {refusal.cause}, {where}: {explanation}"


def heading() -> list[str]:
    pair_width = 2 * VOLUME_WIDTH
    reservoirs = " " * (LINE_WIDTH + VOLUME_WIDTH)
    for name in ("linear", "lag", "linear then lag"):
        reservoirs += name.rjust(pair_width)
    columns = "line".rjust(LINE_WIDTH) + "takes".rjust(VOLUME_WIDTH)
    for _ in range(3):
        columns += "gives".rjust(VOLUME_WIDTH) + "holds".rjust(VOLUME_WIDTH)
    return [reservoirs, columns]


def row(line_number: int, volumes: list[int]) -> str:
    columns = [str(volume).rjust(VOLUME_WIDTH) for volume in volumes]
    return str(line_number).rjust(LINE_WIDTH) + "".join(columns)


# Routing


def first_refusal(gauges: list[Gauge], inflow: int) -> str | None:
    """The reason of the first reservoir that would refuse the inflow, if any."""
    for gauge in gauges:
        try:
            gauge.reservoir.ask(inflow)
        except Refusal as refusal:
            limit = f"would hold more than {CAPACITY} centilitres"
            return reason_of(refusal, f"the {gauge.long_name} {limit}")
    return None


def step(gauges: list[Gauge], line_number: int, line: bytes) -> str:
    """Routes one line of the storm through all reservoirs, or through none."""
    inflow = read_number(line)
    if inflow is None:
        return refused_line(line_number, "not a number")
    reason = first_refusal(gauges, inflow)
    if reason is not None:
        return refused_line(line_number, reason)
    volumes = [inflow]
    for gauge in gauges:
        outflow = gauge.take(inflow)
        volumes += [outflow, gauge.reservoir.held()]
    return row(line_number, volumes)


def routed_page(
    linear: Linear, lag: Lag, series: Series, lines: list[tuple[int, bytes]]
) -> list[str]:
    gauges = [
        Gauge("linear", "linear reservoir", linear),
        Gauge("lag", "lag", lag),
        Gauge("linear then lag", "linear reservoir then lag", series),
    ]
    steps = [step(gauges, line_number, line) for line_number, line in lines]
    return heading() + steps + [gauge.balance() for gauge in gauges]


def page_lines(storm: bytes) -> list[str]:
    lines = counted_lines(storm)
    if not lines:
        return ["no settings: the first line gives a, b and n"]
    line_number, settings_line = lines[0]
    settings = read_settings(settings_line)
    if settings is None:
        return [refused_line(line_number, "not three numbers a, b and n")]
    a, b, n = settings
    try:
        linear = Linear(a, b)
    except Refusal as refusal:
        reason = reason_of(refusal, "the linear reservoir takes a <= b <= 65535")
        return [refused_line(line_number, reason)]
    try:
        lag = Lag(n)
    except Refusal as refusal:
        reason = reason_of(refusal, "the lag takes n of 1 to 12")
        return [refused_line(line_number, reason)]
    series = Series(Linear(a, b), Lag(n))
    return routed_page(linear, lag, series, lines[1:])


def page(storm: bytes) -> bytes:
    """The whole page printed for a storm."""
    return "".join(line + "\n" for line in page_lines(storm)).encode("ascii")


if __name__ == "__main__":
    sys.stdout.buffer.write(page(sys.stdin.buffer.read()))
