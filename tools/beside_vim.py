#!/usr/bin/env python3
"""beside_vim.py SYNTAX TEXT..: colours texts by vimsyn and by Vim, and tells where the two differ.

SYNTAX is the name of a syntax, or the path of a file (with a slash, or '.vim' at its end). For each text flatten.vim
makes a flat file, which vimsyn reads; Vim reads the syntax itself. Compared are the final groups of all characters.
Printed are the first three differences of each text, how many characters differ, and their share of all. The status is
0 where none does, 1 where some do, 2 where the words are wrong, and 3 where a text couldn't be coloured.

The program is that of the variable VIMSYN, of the path or of the checkout.
"""
from __future__ import annotations

import os
import shutil
import subprocess
import sys
import tempfile
from dataclasses import dataclass
from pathlib import Path

HERE = Path(__file__).resolve().parent
RESERVED = ("none", "all", "allbut", "top", "contained", "contains")
SHOWN = 3

Groups = list[list[str]]


class Failed(Exception):
    """A text couldn't be coloured."""


def program() -> str:
    for place in (os.environ.get("VIMSYN", ""), "vimsyn", str(HERE.parent / "crates" / "vimsyn" / "out" / "vimsyn")):
        if place and (found := shutil.which(place)):
            return found
    raise Failed("vimsyn isn't built and isn't on the path (VIMSYN names it)")


def run(words: list[str], **settings: str) -> subprocess.CompletedProcess[str]:
    environment = {**os.environ, "LC_ALL": "C.UTF-8", "TERM": "xterm", **settings}
    return subprocess.run(words, env=environment, stdin=subprocess.DEVNULL, capture_output=True, text=True)


def lines_of(text: str) -> list[str]:
    lines = Path(text).read_bytes().decode("utf-8").split("\n")
    return lines[:-1] if len(lines) > 1 and lines[-1] == "" else lines


def is_path(syntax: str) -> bool:
    return "/" in syntax or syntax.endswith(".vim")


def flat_file(syntax: str, text: str, folder: str) -> Path:
    """The flat file of a syntax for a text."""
    run(["vim", "-es", "-u", "NONE", "-S", str(HERE / "flatten.vim"), syntax, folder, text])
    made = Path(folder) / "syntax" / f"{Path(syntax).stem if is_path(syntax) else syntax}.vim"
    if not made.exists():
        raise Failed(f"{syntax}: flatten.vim made no file")
    return made


def groups_of_vimsyn(syntax: str, text: str) -> Groups:
    """The final group of each character of each line, as vimsyn shows it; '' where it shows none."""
    with tempfile.TemporaryDirectory() as folder:
        flat = flat_file(syntax, text, folder)
        ran = run([program(), "spans", f"--folder={folder}", str(flat), text])
    if ran.returncode:
        raise Failed(ran.stderr.strip())
    groups = [[""] * len(line) for line in lines_of(text)]
    for span in filter(lambda line: not line.endswith(":-"), ran.stdout.splitlines()):
        place, _, final = span.split(" ")
        line, columns = place.split(":")
        first, last = map(int, columns.split("-"))
        groups[int(line) - 1][first - 1 : last] = [final] * (last - first + 1)
    return groups


def groups_of_vim(syntax: str, text: str) -> Groups:
    """The same as Vim shows it."""
    with tempfile.TemporaryDirectory() as folder:
        told = Path(folder) / "groups"
        words = ["vim", "-u", "NONE", "-i", "NONE", "-n", "-N", "--not-a-term", "-S", str(HERE / "beside_vim.vim")]
        run(words, SYNTAX=syntax, TEXT=text, GROUPS=str(told))
        if not told.exists():
            raise Failed(f"{text}: Vim didn't colour it")
        rows = told.read_text(encoding="utf-8").split("\n")
    return [row.split("\t") if line else [] for row, line in zip(rows, lines_of(text))]


def same(vim: str, ours: str) -> bool:
    """A group with a reserved name has another one in a flat file."""
    return vim.lower() == ours.lower() or vim.lower() in RESERVED and ours.lower() == vim.lower() + "group"


@dataclass
class Difference:
    """Characters side by side of which Vim shows one group and vimsyn another."""

    line: int
    first: int
    last: int
    vim: str
    ours: str
    around: str

    def told(self, text: str) -> str:
        place = f"{text}:{self.line}:{self.first}-{self.last}"
        return f"{place}: Vim {self.vim or '-'}, vimsyn {self.ours or '-'}: {self.around}"

    def count(self) -> int:
        return self.last - self.first + 1


def line_differences(number: int, line: str, vim: list[str], ours: list[str]) -> list[Difference]:
    found: list[Difference] = []
    for column, (one, other) in enumerate(zip(vim, ours), 1):
        if same(one, other):
            continue
        if found and (found[-1].last, found[-1].vim, found[-1].ours) == (column - 1, one, other):
            found[-1].last = column
        else:
            around = f"{line[max(0, column - 21):column - 1]}>>{line[column - 1:column + 19]}"
            found.append(Difference(number, column, column, one, other, around))
    return found


def differences(syntax: str, text: str) -> list[Difference]:
    rows = zip(lines_of(text), groups_of_vim(syntax, text), groups_of_vimsyn(syntax, text))
    found = [line_differences(number, *row) for number, row in enumerate(rows, 1)]
    return [difference for row in found for difference in row]


def main(words: list[str]) -> int:
    if len(words) < 2:
        print("usage: beside_vim.py SYNTAX TEXT..", file=sys.stderr)
        return 2
    characters = wrong = 0
    for text in words[1:]:
        try:
            found = differences(words[0], text)
        except (Failed, OSError, UnicodeDecodeError) as failure:
            print(f"beside_vim.py: {failure}", file=sys.stderr)
            return 3
        for difference in found[:SHOWN]:
            print(difference.told(text))
        characters += sum(map(len, lines_of(text)))
        wrong += sum(difference.count() for difference in found)
    share = 100 * (characters - wrong) / max(characters, 1)
    print(f"{characters} characters, {wrong} differ, {share:.3f} % are as in Vim")
    return 1 if wrong else 0


if __name__ == "__main__":
    sys.exit(main(sys.argv[1:]))
