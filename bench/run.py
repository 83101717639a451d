#!/usr/bin/env python3
# Times the proved program ram beside the same program in plain Rust.
#
#     python3 bench/run.py [--program crates/ram/out/ram] [--runs 200]
#
# It builds bench/plain.rs into target/bench/ (rustc --edition 2021 -O), checks
# that both programs print the same for each sheet, and times them: in turn, so
# that what else the machine does falls on both. A time is that of the wall, from
# starting the process to its end, with the sheet from a file and the page to
# /dev/null. Printed are the medians in microseconds and the ratio ram / plain,
# for four sheets:
#
#     empty     nothing: what it costs to start a process
#     year      sheets/year.sheet, the course exercise
#     steps     65,536 bytes: the nodes of the year, then steps only
#     readings  65,536 bytes: 64 nodes, then readings only

from __future__ import annotations

import argparse
import os
import subprocess
import sys
import time
from pathlib import Path
from statistics import median

ROOT = Path(__file__).resolve().parent.parent
WORK = ROOT / "target" / "bench"
RUSTC = ["rustc", "--edition", "2021", "-O"]
LARGEST_SHEET = 65_536  # in bytes
NODES = 64
WARM_UP = 5  # runs of each that are not counted

Line = bytes  # with the newline that ends it


# Sheets


def filled(lines: list[Line], more: list[Line]) -> bytes:
    """The lines, then the others over and over, as long as they fit a sheet."""
    sheet = b"".join(lines)
    place = 0
    while len(sheet) + len(more[place]) <= LARGEST_SHEET:
        sheet += more[place]
        place = (place + 1) % len(more)
    return sheet


def steps_sheet(year: bytes) -> bytes:
    """The year's openings, then its steps up to the first withdrawal."""
    lines = year.splitlines(keepends=True)
    lines = lines[: lines.index(b"w 7\n")]
    cards = [line for line in lines if line[:1] in b"ogkc"]
    return filled(cards, [line for line in lines if line[:1] == b"s"])


def readings_sheet() -> bytes:
    lines = []
    for number in range(1, NODES + 1):
        lines += [
            b"o %d 4000 10000 36000 70000\n" % number,
            b"g 11440 30160 35840 3000 2400 300 90 40\n",
            b"k 8869 28333 0 131 1200 16083 2 6553 46958 55732 63917 64723\n",
            b"c 240 120 11 80 70 25 130 40 60 0 0 0 60 150 40 450 40 150 0 0 0\n",
            b"s %d 4600 240 20\n" % number,
        ]
    return filled(lines, [b"r\n"])


def sheets() -> dict[str, bytes]:
    year = (ROOT / "sheets" / "year.sheet").read_bytes()
    return {
        "empty": b"",
        "year": year,
        "steps": steps_sheet(year),
        "readings": readings_sheet(),
    }


# Programs


def build_plain() -> Path:
    WORK.mkdir(parents=True, exist_ok=True)
    plain = WORK / "plain"
    subprocess.run([*RUSTC, "-o", str(plain), str(ROOT / "bench" / "plain.rs")], check=True)
    return plain


def page(program: Path, sheet: Path) -> bytes:
    with sheet.open("rb") as file:
        return subprocess.run([program], stdin=file, stdout=subprocess.PIPE, check=True).stdout


def run_time(program: str, sheet: str) -> float:
    """Of one run, in microseconds."""
    actions = [
        (os.POSIX_SPAWN_OPEN, 0, sheet, os.O_RDONLY, 0),
        (os.POSIX_SPAWN_OPEN, 1, os.devnull, os.O_WRONLY, 0),
    ]
    start = time.perf_counter_ns()
    process = os.posix_spawn(program, [program], os.environ, file_actions=actions)
    _, status = os.waitpid(process, 0)
    end = time.perf_counter_ns()
    if status != 0:
        sys.exit(f"{program} < {sheet} ended with status {status}")
    return (end - start) / 1000


def medians(programs: list[Path], sheet: Path, runs: int) -> list[float]:
    times: list[list[float]] = [[] for _ in programs]
    for run in range(WARM_UP + runs):
        for program, taken in zip(programs, times):
            took = run_time(str(program), str(sheet))
            if run >= WARM_UP:
                taken.append(took)
    return [median(taken) for taken in times]


def main() -> None:
    parser = argparse.ArgumentParser(description="times ram beside plain Rust")
    parser.add_argument("--program", type=Path, default=ROOT / "crates" / "ram" / "out" / "ram")
    parser.add_argument("--runs", type=int, default=200)
    given = parser.parse_args()
    ram, plain = given.program.resolve(), build_plain()
    print(f"{'sheet':<10}{'bytes':>8}{'page':>10}{'plain us':>12}{'ram us':>12}{'ram/plain':>12}")
    for name, text in sheets().items():
        sheet = WORK / f"{name}.sheet"
        sheet.write_bytes(text)
        printed = page(plain, sheet)
        if page(ram, sheet) != printed:
            sys.exit(f"{name}: the programs print different pages")
        plain_time, ram_time = medians([plain, ram], sheet, given.runs)
        sizes = f"{len(text):>8}{len(printed):>10}"
        ratio = ram_time / plain_time
        print(f"{name:<10}{sizes}{plain_time:>12.0f}{ram_time:>12.0f}{ratio:>12.2f}")


if __name__ == "__main__":
    main()
