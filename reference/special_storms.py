# The special storms: fixed ones, each made to meet one edge of the rules.
#
# special_storms() gives them all, each a short name and its bytes.
# vast_storm() is apart because it is long: its totals pass 2**64.

from __future__ import annotations

from reservoirs import CAPACITY, Lag, Linear, Series

Storm = tuple[str, bytes]

GOOD_SETTINGS = b"55475 60365 2"
LONG_LINE = 5_000  # in bytes

MALFORMED_SETTINGS = [
    b"1", b"1 2", b"1 2 3 4", b"1 2 3 #", b"1,2,3",
    b"01 2 3", b"1 02 3", b"1 2 03", b"00 0 1", b"0 00 1",
    b"1  2 3", b"1 2  3", b" 1 2 3", b"1 2 3 ", b"1 2 ", b" 2 3", b"  ", b" ",
    b"1\t2\t3", b"1 2\t3", b"1 2 3\t", b"1 2 3\r", b"\r", b"\t",
    b"a b n", b"1 x 3", b"1 2 3n", b"-1 2 3", b"1 +2 3", b"1 2 -0", b"1 2 3.0", b"0x1 2 3",
    b"1000000000000000000 2 3", b"1 1000000000000000000 3", b"1 2 1000000000000000000",
    b"0 0 18446744073709551617", b"0 0 " + b"1" * LONG_LINE, b"1" * LONG_LINE,
    b"1 2 3\0", b"1\0002\0003", b"\0", b"1 2 \xb3", b"\xef\xbb\xbf1 2 3", b"1\xa02 3",
    b"1 2 \xd9\xa3", b" # 1 2 3", b"settings",
]

EDGE_SETTINGS = [
    # the linear reservoir
    b"65535 65535 1", b"65534 65535 1", b"65535 65534 1", b"65535 65536 1", b"65536 65536 1",
    b"0 65535 1", b"0 65536 1", b"65536 65535 1", b"0 0 1", b"0 1 1", b"1 1 1", b"1 0 1",
    b"65536 0 1", b"0 131071 1", b"65536 65537 1", b"131072 131073 1",
    b"4294967296 0 1", b"0 4294967296 1", b"4294967296 4294967297 1",
    b"999999999999999999 65535 1", b"0 999999999999999999 1",
    b"999999999999999999 999999999999999999 1", b"100000000000000000 100000000000000000 1",
    # the lag
    b"0 0 0", b"0 0 2", b"0 0 11", b"0 0 12", b"0 0 13", b"0 0 256", b"0 0 257", b"0 0 65537",
    b"0 0 4294967297", b"0 0 999999999999999999", b"65535 65535 12", b"65535 65535 13",
    # both: the linear reservoir is tried first
    b"1 0 0", b"0 65536 13", b"999999999999999999 999999999999999999 999999999999999999",
]

ODD_VOLUMES = [
    b"0", b"1", b"9", b"10", b"00", b"01", b"007", b"000000000000000000", b"-", b"+",
    b"-1", b"-0", b"+1", b"+0", b"--1", b"1-", b"1.0", b"1.", b".1", b"1e3", b"0x10", b"1_000",
    b"1,000", b"1'000", b"rain", b"O", b"l", b"1a", b"a1", b"1cl", b"nan", b"inf",
    b" ", b"  ", b" 1", b"1 ", b"1 2", b"1 2 3", b"\t", b"\t1", b"1\t", b"\r", b"1\r", b"\r1",
    b"1\v", b"1\f", b" #", b"1#", b"1 # remark", b"\t# remark", b"/", b":", b"1/", b"1:",
    b"\0", b"1\0", b"\0001", b"1\0002", b"\x80", b"\xff", b"1\xff", b"\xff1", b"\xa01", b"1\xa0",
    b"\xb2", b"\xd9\xa1", b"\xef\xbc\x91", b"\xef\xbb\xbf1", b"\xb1", b"1\xb1",
    b"99999999999999", b"100000000000000", b"100000000000001", b"999999999999999",
    b"100000000000000000", b"999999999999999999",  # 18 digits: numbers, but too much
    b"1000000000000000000", b"9999999999999999999",  # 19 digits: no numbers
    b"0999999999999999999", b"0000000000000000001",
    b"4294967296", b"4294967297", b"9223372036854775808", b"18446744073709551615",
    b"18446744073709551616", b"18446744073709551617",
    b"340282366920938463463374607431768211457",
    b"1" * LONG_LINE, b"0" * LONG_LINE, b"0" * LONG_LINE + b"1", b"9" * (LONG_LINE - 1) + b"a",
    b"x" * LONG_LINE, b" " * LONG_LINE, b"\xff" * LONG_LINE, b"#" * LONG_LINE,
]

PLACEMENTS = [
    ("empty input", b""),
    ("one empty line", b"\n"),
    ("empty lines only", b"\n\n\n"),
    ("one remark, not ended", b"#"),
    ("remarks only", b"# a\n#\n# 1 2 3\n#\xff\0\r\n"),
    ("remarks and empty lines only", b"\n# a\n\n\n#b"),
    ("settings only", b"0 0 1\n"),
    ("settings only, not ended", b"0 0 1"),
    ("settings, then remarks only", b"0 0 1\n\n# a\n\n"),
    ("settings after remarks", b"\n\n# a\n\n# b\n32768 49152 1\n100\n"),
    ("no settings but a volume", b"100\n0\n0\n"),
    ("bad settings after remarks", b"\n# a\n\n1 2\n1 2 3\n100\n"),
    ("settings twice", b"32768 49152 1\n32768 49152 1\n100\n"),
    ("bad settings, then good ones", b"0 65536 1\n0 0 1\n100\n"),
    ("not ended", b"32768 49152 1\n100\n0\n7"),
    ("not ended, malformed", b"32768 49152 1\n100\n0\n7 "),
    ("ends in a remark", b"32768 49152 1\n100\n# end"),
    ("ends in empty lines", b"32768 49152 1\n100\n0\n\n\n\n"),
    ("empty lines between", b"\n32768 49152 1\n\n\n100\n\n0\n\n\n\n0\n"),
    ("remarks between", b"#\n32768 49152 1\n#\n100\n# 5\n#5\n0\n##\n0\n#"),
    ("carriage returns everywhere", b"# a\r\n\r\n32768 49152 1\r\n100\r\n"),
    ("carriage returns after settings", b"32768 49152 1\n100\r\n\r\n0\r\n"),
    ("carriage returns for line ends", b"32768 49152 1\r100\r0\r"),
    ("long remark", b"#" + b"x" * 100_000 + b"\n0 0 1\n#" + b"1" * 100_000 + b"\n5\n"),
    ("many empty lines", b"\n" * 12_345 + b"0 0 1\n" + b"\n" * 100_000 + b"5\n"),
    ("long settings, not ended", b"1 " * LONG_LINE),
]


def joined(settings: bytes, volumes: list[int]) -> bytes:
    """A storm of these settings and volumes, every line ended."""
    return b"\n".join([settings, *(b"%d" % volume for volume in volumes), b""])


def short(line: bytes) -> str:
    text = ascii(line)[1:]
    return text if len(text) <= 40 else f"{text[:20]}... of {len(line)} bytes"


# Malformed lines and edges of the settings


def settings_storms() -> list[Storm]:
    later_lines = b"\n1000\n100000000000000\n0\n7\n0\n"
    lines = MALFORMED_SETTINGS + EDGE_SETTINGS
    return [(f"settings {short(line)}", line + later_lines) for line in lines]


def volume_storms() -> list[Storm]:
    before = GOOD_SETTINGS + b"\n1000\n"
    storms = [(f"volume {short(line)}", before + line + b"\n10\n0\n") for line in ODD_VOLUMES]
    every_line = before + b"\n".join(ODD_VOLUMES)
    storms += [("all odd volumes", every_line + b"\n"), ("all odd volumes, not ended", every_line)]
    return storms


def every_byte_storms() -> list[Storm]:
    """Each of the 256 bytes alone on a line, before a digit, and after one."""
    each_byte = [bytes([value]) for value in range(256)]
    sorts = [
        ("every byte alone", each_byte),
        ("every byte before a digit", [byte + b"1" for byte in each_byte]),
        ("every byte after a digit", [b"1" + byte for byte in each_byte]),
    ]
    return [(name, b"\n".join([GOOD_SETTINGS, *lines, b""])) for name, lines in sorts]


# The limit of what a reservoir may hold


def edge_storm(a: int, b: int, n: int, volumes: list[int]) -> bytes:
    """These volumes, then the room that each reservoir has left, and one more.

    One more than the least room is refused by the reservoir that has it; the
    least room itself is accepted; and after it the steps go on as they should.
    """
    reservoirs = [Linear(a, b), Lag(n), Series(Linear(a, b), Lag(n))]
    for volume in volumes:
        for reservoir in reservoirs:
            reservoir.take(volume)
    rooms = sorted((CAPACITY - reservoir.held() for reservoir in reservoirs), reverse=True)
    edges = [edge for room in rooms for edge in (room + 1, room)]
    return joined(b"%d %d %d" % (a, b, n), volumes + edges + [1, 0, 1] + [0] * (n + 3))


def limit_storms() -> list[Storm]:
    much = 10**13
    return [
        # from empty, all three have the same room: the linear reservoir refuses first
        ("limit from empty", edge_storm(32768, 49152, 1, [])),
        ("limit from empty, all kept", edge_storm(65535, 65535, 12, [])),
        ("limit from empty, none kept", edge_storm(0, 0, 12, [])),
        # the linear reservoir holds almost all, and the lag little
        ("limit of the linear reservoir", edge_storm(65535, 65535, 1, [much] * 9)),
        ("limit of the linear reservoir, slowly", edge_storm(65535, 65535, 1, [10**11] * 900)),
        # the linear reservoir keeps nothing, so the lag and the series hold the same
        ("limit of the lag", edge_storm(0, 0, 12, [much - 1] * 9)),
        ("limit of the lag, unequal", edge_storm(0, 0, 3, [much, 5, 2 * much])),
        # the linear reservoir and the lag hold something; the series holds more
        ("limit of the series", edge_storm(60000, 60000, 2, [much] * 5)),
        ("limit of the series, long lag", edge_storm(65535, 65535, 12, [much] * 3 + [0] * 11)),
        ("full lag", joined(b"0 0 1", [CAPACITY, 1, 0, CAPACITY, CAPACITY, 1, 0, 0, 1])),
        ("full again and again", joined(b"32768 32768 3", [CAPACITY, 1, 0, 0, 0] * 40)),
        ("all refused", joined(b"32768 32768 3", [CAPACITY + 1, 2 * CAPACITY, 10**18 - 1] * 5)),
    ]


# Plain storms


def plain_storms() -> list[Storm]:
    worked = [100, 0, 0, 0, 1, 0, 5, 7, 0, 0]
    return [
        ("worked figures", joined(b"32768 49152 1", worked)),
        ("worked figures, lag 2", joined(b"32768 49152 2", worked)),
        ("zeros only", joined(GOOD_SETTINGS, [0] * 50)),
        ("ones only, all kept", joined(b"65535 65535 12", [1] * 50)),
        ("ones only, none kept", joined(b"0 0 12", [1] * 50)),
        ("long zeros", joined(GOOD_SETTINGS, [0] * 20_000)),
        ("long rise", joined(b"65535 65535 12", [step * 7 for step in range(20_000)])),
        ("long recession", joined(b"65000 65535 5", [10**13] + [0] * 20_000)),
        ("long overflow", joined(b"65535 65535 1", [10**10 + 1] * 20_000)),
    ]


def special_storms() -> list[Storm]:
    storms = PLACEMENTS + plain_storms() + settings_storms() + volume_storms()
    return storms + every_byte_storms() + limit_storms()


def vast_storm() -> Storm:
    """Every other step fills the lag; everything taken comes to more than 2**64."""
    return "vast totals", joined(b"0 0 1", [CAPACITY, 0] * 184_500)
