# The sheets that the program replay runs: its arguments, the files they name and
# the pages it has to print, one after another, each after a line # NAME.sheet.
#
#     python3 reference/replay.py            writes them
#     python3 reference/replay.py --check    writes nothing; status 1 where they differ

from __future__ import annotations

import argparse
import sys
from pathlib import Path

from sheet import page
from special_sheets import special_sheets

REPLAY = Path(__file__).resolve().parent.parent / "crates" / "replay"
DATA = REPLAY / "data"


def expected_files() -> dict[Path, bytes]:
    files = {}
    arguments = printed = b""
    for name, sheet in special_sheets():
        file_name = f"{name}.sheet"
        files[DATA / file_name] = sheet
        arguments += file_name.encode("ascii") + b"\n"
        printed += b"# " + file_name.encode("ascii") + b"\n" + page(sheet)
    files[REPLAY / "args"] = arguments
    files[REPLAY / "stdout"] = printed
    return files


def left_over(expected: dict[Path, bytes]) -> list[Path]:
    """Files among the data that no argument names."""
    return sorted(path for path in DATA.glob("*") if path not in expected)


def write(expected: dict[Path, bytes]) -> None:
    DATA.mkdir(parents=True, exist_ok=True)
    for path in left_over(expected):
        path.unlink()
    for path, content in expected.items():
        path.write_bytes(content)
    print(f"replay: {len(expected)} files written")


def check(expected: dict[Path, bytes]) -> int:
    faults = [f"{path} is left over" for path in left_over(expected)]
    for path, content in expected.items():
        if not path.is_file():
            faults.append(f"{path} is missing")
        elif path.read_bytes() != content:
            faults.append(f"{path} is not what the reference writes")
    for fault in faults:
        print(f"replay: {fault}")
    return 1 if faults else 0


def main() -> int:
    parser = argparse.ArgumentParser(description="Write or check the sheets of replay.")
    parser.add_argument("--check", action="store_true", help="write nothing, only compare")
    arguments = parser.parse_args()
    expected = expected_files()
    if arguments.check:
        return check(expected)
    write(expected)
    return 0


if __name__ == "__main__":
    sys.exit(main())
