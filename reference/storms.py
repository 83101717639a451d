# The generated storms: generated_storm(seed) gives a short name and the bytes.
# The same seed always gives the same storm. Most are small; one in fifty has
# 20,000 lines.
#
# To see one:  python3 reference/storms.py SEED

from __future__ import annotations

import sys
from random import Random

from reservoirs import CAPACITY, Lag, Linear, Series
from special_storms import EDGE_SETTINGS, MALFORMED_SETTINGS, ODD_VOLUMES

LONG_STORM = 20_000  # in lines
ONE_LONG_IN = 50  # storms


# Settings


def random_fractions(random: Random) -> tuple[int, int]:
    kind = random.randrange(4)
    if kind == 0:
        a, b = random.choice([(0, 0), (0, 65535), (65535, 65535), (32768, 32768)])
    elif kind == 1:  # slow: nearly all is kept
        a, b = sorted(random.randint(65000, 65535) for _ in range(2))
    else:
        a, b = sorted(random.randint(0, 65535) for _ in range(2))
    return a, b


def random_settings(random: Random) -> tuple[int, int, int]:
    a, b = random_fractions(random)
    return a, b, random.randint(1, 12)


def settings_line(settings: tuple[int, int, int]) -> bytes:
    return b"%d %d %d" % settings


# Volumes


def rain(random: Random, length: int) -> list[int]:
    """Bursts of rain and dry spells."""
    volumes: list[int] = []
    while len(volumes) < length:
        heaviest = 10 ** random.randint(0, 11)
        volumes += [random.randint(0, heaviest) for _ in range(random.randint(1, 12))]
        volumes += [0] * random.randint(0, 20)
    return volumes[:length]


def flood(random: Random, settings: tuple[int, int, int], length: int) -> list[int]:
    """Volumes about as large as the room that one of the reservoirs has left."""
    a, b, n = settings
    reservoirs = [Linear(a, b), Lag(n), Series(Linear(a, b), Lag(n))]
    volumes = []
    for _ in range(length):
        room = CAPACITY - random.choice(reservoirs).held()
        volume = random.choice(
            [0, room, room + 1, max(room - 1, 0), random.randint(0, room), room // 8, room // 2]
        )
        volumes.append(volume)
        if all(reservoir.held() + volume <= CAPACITY for reservoir in reservoirs):
            for reservoir in reservoirs:
                reservoir.take(volume)
    return volumes


def volume_lines(volumes: list[int]) -> list[bytes]:
    return [b"%d" % volume for volume in volumes]


# Whole storms


def ended(random: Random, lines: list[bytes]) -> bytes:
    """The lines as one storm, its last line ended once, not at all, or often."""
    return b"\n".join(lines) + b"\n" * random.choice([1, 1, 1, 0, 3])


def with_remarks(random: Random, lines: list[bytes]) -> list[bytes]:
    """The same lines with remarks and empty lines anywhere among them."""
    mixed = []
    for line in lines:
        while random.random() < 0.2:
            mixed.append(random.choice([b"", b"#", b"# dry", b"#12", b"# \xe9t\xe9 \0\r"]))
        mixed.append(line)
    return mixed


def ordinary_storm(random: Random, length: int) -> bytes:
    lines = [settings_line(random_settings(random)), *volume_lines(rain(random, length))]
    return ended(random, lines)


def remarked_storm(random: Random, length: int) -> bytes:
    lines = [settings_line(random_settings(random)), *volume_lines(rain(random, length))]
    return ended(random, with_remarks(random, lines))


def flood_storm(random: Random, length: int) -> bytes:
    settings = random_settings(random)
    lines = [settings_line(settings), *volume_lines(flood(random, settings, length))]
    return ended(random, lines)


def malformed_storm(random: Random, length: int) -> bytes:
    """Rain with odd lines among the volumes; now and then odd settings too."""
    settings = settings_line(random_settings(random))
    if random.random() < 0.2:
        settings = random.choice(MALFORMED_SETTINGS + EDGE_SETTINGS)
    lines = volume_lines(rain(random, length))
    for place in range(len(lines)):
        if random.random() < 0.3:
            lines[place] = random.choice(ODD_VOLUMES)
    return ended(random, with_remarks(random, [settings, *lines]))


def damaged_storm(random: Random, length: int) -> bytes:
    """A flood in which some bytes were changed, lost or added."""
    storm = bytearray(flood_storm(random, length))
    for _ in range(random.randint(1, 10)):
        place = random.randrange(len(storm))
        byte = random.choice([random.randrange(256), *b"\n\n\r\t #0019-\0"])
        storm[place : place + random.randint(0, 2)] = [byte] * random.randint(0, 2)
        storm = storm or bytearray(b"\n")
    return bytes(storm)


KINDS = [
    ("ordinary", ordinary_storm),
    ("remarked", remarked_storm),
    ("flood", flood_storm),
    ("malformed", malformed_storm),
    ("damaged", damaged_storm),
]


def generated_storm(seed: int) -> tuple[str, bytes]:
    random = Random(seed)
    is_long = seed % ONE_LONG_IN == 0
    if is_long:
        name, make = KINDS[seed // ONE_LONG_IN % 3]  # ordinary, remarked, flood in turn
        length = LONG_STORM
    else:
        name, make = random.choice(KINDS)
        length = random.randint(0, 150)
    long_name = "long " if is_long else ""
    return f"{long_name}{name}, seed {seed}", make(random, length)


if __name__ == "__main__":
    sys.stdout.buffer.write(generated_storm(int(sys.argv[1]))[1])
