#!/usr/bin/env python3
# Spells the repository's own names of definitions, fields, lemmas and local values in snake case.
#
#     python3 tools/snake_names.py [FOLDER]
#
# Run once, after port.py, on the repository in FOLDER or here. A name with a dash or in camel case stays as it is where it is
# imported from a library of the toolchain, and where the toolchain makes it: in the files of a function's proof only
# names that the repository declares, or that are bound there, are turned. Comments and strings are left alone.

from __future__ import annotations

import re
import sys
from pathlib import Path

DASHED = re.compile(r"(?<![\w'«-])[A-Za-z][\w']*(?:-[\w']+)+")
CAMEL = re.compile(r"(?<![\w'.«-])[a-z]+(?:[A-Z][a-z]+)+[\w']*(?![\w'-])")
DECLARED = re.compile(
    r"^\s*(?:(?:abbrev|unfoldable|irreducible|data|record)\s+)*(?:pub\s+)?"
    r"([A-Za-z][\w']*(?:-[\w']+)+|[a-z]+(?:[A-Z][a-z]+)+[\w']*)\s*:(?![:=])",
    re.M,
)
BOUND = re.compile(r"(?:\blet|λ|\[|\|)\s+((?:[A-Za-z_][\w'-]*\s+)*[A-Za-z_][\w'-]*)\s*(?:[:=.]|↦)")
IMPORTED = re.compile(r"^(?:ghost )?use (?:Rattle\.std|lib|native|mathlib|Prim|[\w.]+\.Goals)[\w.]*\.\{([^}]*)\}", re.M)
PROSE_ANTT = re.compile(r"--[^\n]*")
PROSE_RT = re.compile(r'//[^\n]*|"(?:\\.|[^"\\])*"|b?\'(?:\\.|[^\'\\\n])\'')


def parts(text: str, prose: re.Pattern[str]) -> list[tuple[bool, str]]:
    """The text in order, cut into prose, which is left alone, and the rest."""
    found, end = [], 0
    for match in prose.finditer(text):
        found += [(False, text[end : match.start()]), (True, match[0])]
        end = match.end()
    return found + [(False, text[end:])]


def code(text: str) -> str:
    return "".join(part for is_prose, part in parts(text, PROSE_ANTT) if not is_prose)


def in_a_function(path: Path) -> bool:
    """Whether a file belongs to the proof of one function, so that the toolchain makes names in it."""
    return path.parent.name != "specs" and path.parent.name != "proofs"


def kept(path: Path, text: str, own: set[str]):
    """Which dashed names of a file stay as they are."""
    imported = {name for line in IMPORTED.findall(text) for name in re.split(r"[,\s]+|\bas\b", line)}
    bound = {name for names in BOUND.findall(text) for name in names.split()}
    if path.suffix == ".antt" and in_a_function(path):
        return lambda name: name in imported or (name not in own and name not in bound)
    return lambda name: name in imported


def turned(path: Path, own: set[str]) -> str:
    text = path.read_text()
    stays = kept(path, code(text), own)
    prose = PROSE_RT if path.suffix == ".rt" else PROSE_ANTT

    def snake(match: re.Match[str]) -> str:
        return match[0] if stays(match[0]) else match[0].replace("-", "_")

    def words(match: re.Match[str]) -> str:
        return re.sub(r"[A-Z]", lambda letter: "_" + letter[0].lower(), match[0]) if match[0] in own else match[0]

    def spelled(part: str) -> str:
        return CAMEL.sub(words, DASHED.sub(snake, part))

    return "".join(part if is_prose else spelled(part) for is_prose, part in parts(text, prose))


def main() -> None:
    crates = Path(sys.argv[1] if len(sys.argv) > 1 else ".") / "crates"
    files = [path for path in sorted(crates.rglob("*")) if path.suffix in (".rt", ".antt") and "out" not in path.parts]
    own = {
        name
        for path in files
        if path.suffix == ".antt" and not in_a_function(path)
        for name in DECLARED.findall(code(path.read_text()))
    }
    for path in files:
        text = turned(path, own)
        if text != path.read_text():
            path.write_text(text)
    print(f"{len(own)} names declared with a dash or in camel case")


main()
