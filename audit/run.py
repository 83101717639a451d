#!/usr/bin/env python3
# Plants bugs in the code, one at a time, and asks the prover about each.
#
#     python3 audit/run.py CRATE.. [--count N] [--labels LABEL..]
#
# The bugs of a crate stand in audit/CRATE.txt, a block of lines for each: its
# label, the file in the crate, a part of one line there, and what replaces it. Where
# a bug touches more than one place, further pairs follow, and each applies to what
# the earlier ones made. They are of the kinds that a tired programmer makes. Each
# goes to the prover as an edit that must fail, in a copy of the repository; with
# --count only so many of a crate are tried, spread over its list. For each crate it
# prints how many were refused, and names those that were not: a bug that survives,
# or an edit that does not compile and so tests nothing. It exits with 1 where a bug
# survives.

from __future__ import annotations

import argparse
import re
import shutil
import subprocess
import sys
import tempfile
from dataclasses import dataclass
from pathlib import Path

ROOT = Path(__file__).resolve().parent.parent
ANSWER = re.compile(r"^rt: must-fail \w+/(\S+)\.edit: (refused|NOT REFUSED|BAD EDIT|NOT TRIED)(.*)$", re.M)


@dataclass(frozen=True)
class Plant:
    label: str
    edit: str  # the lines that rt reads


def plants_of(crate: str) -> list[Plant]:
    blocks = (ROOT / "audit" / f"{crate}.txt").read_text().strip().split("\n\n")
    return [Plant(*block.split("\n", 1)) for block in blocks]


def chosen(plants: list[Plant], count: int | None, labels: list[str]) -> list[Plant]:
    """Those of the labels, or so many spread evenly, or all."""
    if labels:
        return [plant for plant in plants if plant.label in labels]
    if count is None or count >= len(plants):
        return plants
    return [plants[place * len(plants) // count] for place in range(count)]


def copied(folder: Path) -> None:
    """The repository without its own edits, and without what checks left behind."""
    ignored = shutil.ignore_patterns(".git", "must-fail", "out", "__pycache__")
    shutil.copytree(ROOT, folder, symlinks=True, ignore=ignored)
    subprocess.run(["git", "init", "-q", str(folder)], check=True)


def tried(crate: str, plants: list[Plant]) -> dict[str, tuple[str, str]]:
    """By label: what rt says of the edit, and the rest of its line."""
    with tempfile.TemporaryDirectory() as place:
        folder = Path(place) / "copy"
        copied(folder)
        edits = folder / "crates" / crate / "must-fail"
        edits.mkdir()
        for plant in plants:
            (edits / f"{plant.label}.edit").write_text(plant.edit + "\n")
        run = subprocess.run(["rt", "must-fail", crate], cwd=folder, capture_output=True, text=True)
        said = run.stdout + run.stderr
        return {label: (word, rest) for label, word, rest in ANSWER.findall(said)}


def report(crate: str, plants: list[Plant]) -> int:
    """Prints what came of the plants; gives the number of survivors."""
    answers = tried(crate, plants)
    by_word: dict[str, list[str]] = {"refused": [], "NOT REFUSED": [], "BAD EDIT": [], "NOT TRIED": []}
    for label, (word, _) in answers.items():
        by_word[word].append(label)
    by_code = [label for label in by_word["refused"] if "note: src/" in answers[label][1]]
    unanswered = [plant.label for plant in plants if plant.label not in answers]
    print(
        f"{crate}: {len(plants)} planted, {len(by_word['refused'])} refused"
        f" ({len(by_code)} first in the code), {len(by_word['NOT REFUSED'])} not refused,"
        f" {len(by_word['BAD EDIT'])} not compiled, {len(unanswered)} unanswered"
    )
    for word in ("NOT REFUSED", "BAD EDIT", "NOT TRIED"):
        for label in by_word[word]:
            print(f"  {word.lower()}: {label}")
    for label in unanswered:
        print(f"  unanswered: {label}")
    sys.stdout.flush()
    return len(by_word["NOT REFUSED"])


def main() -> int:
    parser = argparse.ArgumentParser()
    parser.add_argument("crates", nargs="+")
    parser.add_argument("--count", type=int)
    parser.add_argument("--labels", nargs="*", default=[])
    asked = parser.parse_args()
    survivors = 0
    for crate in asked.crates:
        survivors += report(crate, chosen(plants_of(crate), asked.count, asked.labels))
    return 1 if survivors else 0


if __name__ == "__main__":
    sys.exit(main())
