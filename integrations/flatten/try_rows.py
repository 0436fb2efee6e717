#!/usr/bin/env python3
"""try_rows.py ROWS: prints each row that isn't as it says, in vimsyn by a flat file or in Vim; nothing where all are.

A row begins with '== ' and a name. Behind it stand the lines of a syntax, then '--', and then pairs of a line of text and
its picture: for each character the first letter of the final group that it shows, '.' for none. '-- ' and a name before
the text begins the lines of another file beside the syntax. Remarks begin with '# '.
"""
from __future__ import annotations

import sys
import tempfile
from dataclasses import dataclass, field
from pathlib import Path

sys.path.insert(0, str(Path(__file__).resolve().parents[2] / "tools"))
import beside_vim  # noqa: E402


@dataclass
class Row:
    name: str
    files: dict[str, list[str]] = field(default_factory=lambda: {"row.vim": []})
    text: list[str] = field(default_factory=list)
    wanted: list[str] = field(default_factory=list)


def rows_of(path: str) -> list[Row]:
    rows: list[Row] = []
    name = "row.vim"
    for line in Path(path).read_text(encoding="utf-8").split("\n"):
        if line.startswith("== "):
            rows.append(Row(line[3:]))
            name = "row.vim"
        elif line == "--" or line.startswith("-- ") and name:
            name = line[3:]
        elif rows and not line.startswith("# "):
            row = rows[-1]
            pairs = row.text if len(row.text) == len(row.wanted) else row.wanted
            part = row.files.setdefault(name, []) if name else pairs
            part.append(line)
    for row in rows:
        while row.text and not row.text[-1] and len(row.text) > len(row.wanted):
            row.text.pop()
    return rows


def picture(groups: list[str]) -> str:
    return "".join(group[:1] or "." for group in groups)


def wrong(row: Row, folder: Path) -> list[str]:
    syntax, text = folder / "row.vim", folder / "row.txt"
    for name, lines in row.files.items():
        (folder / name).write_text("\n".join(lines) + "\n", encoding="utf-8")
    text.write_text("\n".join(row.text) + "\n", encoding="utf-8")
    found = []
    for who, colour in (("vimsyn", beside_vim.groups_of_vimsyn), ("Vim", beside_vim.groups_of_vim)):
        shown = [picture(groups) for groups in colour(str(syntax), str(text))]
        for line, wanted, given in zip(row.text, row.wanted, shown):
            if wanted != given:
                found += [f"{row.name}: {who}", f"  text:   {line}", f"  wanted: {wanted}", f"  given:  {given}"]
    return found


def main(words: list[str]) -> int:
    found = []
    for row in rows_of(words[0]):
        with tempfile.TemporaryDirectory() as folder:
            try:
                found += wrong(row, Path(folder))
            except beside_vim.Failed as failure:
                found.append(f"{row.name}: {failure}")
    print("\n".join(found), end="")
    return 1 if found else 0


if __name__ == "__main__":
    sys.exit(main(sys.argv[1:]))
