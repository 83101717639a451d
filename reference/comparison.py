# Compares what a built program prints with the reference, byte for byte, input
# after input, up to the first difference.

from __future__ import annotations

import subprocess
import tempfile
from collections.abc import Callable, Iterator
from dataclasses import dataclass
from pathlib import Path

PATIENCE = 120  # seconds for one input


@dataclass(frozen=True)
class Comparison:
    name: str  # of the program
    kind: str  # of its input, one of them: "storm"
    program: Path
    page: Callable[[bytes], bytes]  # the reference

    def of_all(self, inputs: Iterator[tuple[str, bytes]]) -> int:
        """Compares them one by one and gives the status to end with."""
        if not self.program.is_file():
            print(f"{self.name}: there is no program {self.program}")
            return 1
        agreeing = 0
        for name, content in inputs:
            found = self.difference(content)
            if found is not None:
                print(f"{self.name}: {self.kind} <{name}> differs: {found}")
                print(f"  {self.kind} kept in {self.kept(content)}")
                return 1
            agreeing += 1
        if agreeing == 0:
            print(f"{self.name}: no {self.kind} was compared")
            return 1
        print(f"{self.name}: {agreeing} {self.kind}s agree")
        return 0

    def difference(self, content: bytes) -> str | None:
        """What the program does otherwise than the reference, if anything."""
        program = self.program.resolve()
        try:
            run = subprocess.run([program], input=content, capture_output=True, timeout=PATIENCE)
        except OSError as error:
            return f"the program does not start: {error}"
        except subprocess.TimeoutExpired:
            return f"the program did not end within {PATIENCE} seconds"
        if run.returncode != 0:
            return f"the program ended with status {run.returncode}; it says {run.stderr[:1000]!r}"
        return first_difference(self.page(content), run.stdout)

    def kept(self, content: bytes) -> str:
        """Writes the input to a temporary file and gives its path."""
        prefix = f"{self.kind}_"
        with tempfile.NamedTemporaryFile(prefix=prefix, suffix=".txt", delete=False) as file:
            file.write(content)
        return file.name


def first_difference(expected: bytes, printed: bytes) -> str | None:
    """Words for the first line in which the two pages differ, if they do."""
    if expected == printed:
        return None
    expected_lines = expected.split(b"\n")
    printed_lines = printed.split(b"\n")
    number = 0
    while expected_lines[number : number + 1] == printed_lines[number : number + 1]:
        number += 1
    wanted = line_or_end(expected_lines, number)
    found = line_or_end(printed_lines, number)
    return f"line {number + 1} of the page\n  reference: {wanted}\n  program:   {found}"


def line_or_end(lines: list[bytes], number: int) -> str:
    return ascii(lines[number][:1000]) if number < len(lines) else "(the page has ended)"
