"""The colours of groups on a terminal: those that Vim's groups have by default, on a dark and on a light background."""
from __future__ import annotations

import re
from dataclasses import dataclass
from pathlib import Path


@dataclass(frozen=True)
class Style:
    """Colours as six hexadecimal digits ('' for none), and kinds of type."""

    front: str = ""
    back: str = ""
    bold: bool = False
    italic: bool = False
    underline: bool = False


# Of each group: on a dark background, on a light one, the kinds of type.
TABLE: dict[str, tuple[str, str, str]] = {
    "Comment": ("80a0ff", "0000ff", ""),
    "Constant": ("ffa0a0", "c000c0", ""),
    "Identifier": ("40ffff", "008b8b", ""),
    "Statement": ("ffff60", "a52a2a", "bold"),
    "PreProc": ("ff80ff", "a020f0", ""),
    "Type": ("60ff60", "2e8b57", "bold"),
    "Special": ("ffa500", "6a5acd", ""),
    "Underlined": ("80a0ff", "6a5acd", "underline"),
    "Ignore": ("808080", "a0a0a0", ""),
    "Error": ("ffffff on ff0000", "ffffff on ff0000", ""),
    "Todo": ("0000ff on ffff00", "0000ff on ffff00", ""),
    # groups of Vim's own messages and windows, which syntax files borrow
    "Title": ("ff80ff", "c000c0", "bold"),
    "Directory": ("40ffff", "0000ff", ""),
    "SpecialKey": ("40ffff", "0000ff", ""),
    "NonText": ("8080ff", "0000ff", "bold"),
    "Conceal": ("a0a0a0", "808080", ""),
    "LineNr": ("ffff60", "a52a2a", ""),
    "ModeMsg": ("", "", "bold"),
    "MoreMsg": ("60ff60", "2e8b57", "bold"),
    "Question": ("60ff60", "2e8b57", "bold"),
    "WarningMsg": ("ff6060", "ff0000", ""),
    "ErrorMsg": ("ffffff on ff0000", "ffffff on ff0000", ""),
}

# Groups that have a link by default. vimsyn follows links, so these are met only where a file took the link away.
KIN = {
    "Constant": "String Character Number Boolean Float",
    "Identifier": "Function",
    "Statement": "Conditional Repeat Label Operator Keyword Exception",
    "PreProc": "Include Define Macro PreCondit",
    "Type": "StorageClass Structure Typedef",
    "Special": "SpecialChar Tag Delimiter SpecialComment Debug",
}

HIGHLIGHT = re.compile(r"^hi(?:ghlight)?!?\s+(?:def(?:ault)?\s+)?(?!link\s|clear\s)(\S+)\s+(\S.*=.*)$")


def styles(background: str) -> dict[str, Style]:
    made = {}
    for group, (dark, light, kinds) in TABLE.items():
        front, _, back = (dark if background == "dark" else light).partition(" on ")
        made[group] = Style(front, back, bold="bold" in kinds, underline="underline" in kinds)
    for group, names in KIN.items():
        made.update({name: made[group] for name in names.split()})
    return made


def styles_of_file(syntax_folder: Path) -> dict[str, Style]:
    """The styles that flat files give groups of their own: 'guifg', 'guibg' and 'gui'."""
    made: dict[str, Style] = {}
    for part in sorted(syntax_folder.glob("*.vim")):
        for line in part.read_text(encoding="utf-8").split("\n"):
            found = HIGHLIGHT.match(line)
            if found:
                keys = dict(word.split("=", 1) for word in found[2].split() if "=" in word)
                kinds = keys.get("gui", "").split(",")
                front, back = colour_of(keys.get("guifg", "")), colour_of(keys.get("guibg", ""))
                made[found[1]] = Style(front, back, "bold" in kinds, "italic" in kinds, "underline" in kinds)
    return made


def colour_of(value: str) -> str:
    return value[1:] if re.fullmatch("#[0-9a-fA-F]{6}", value) else ""


def sequence(style: Style, depth: str) -> str:
    """The codes that begin a style on a terminal, without the frame of an escape sequence."""
    codes = [code for code, on in (("1", style.bold), ("3", style.italic), ("4", style.underline)) if on]
    for place, colour in (("38", style.front), ("48", style.back)):
        if colour:
            parts = [int(colour[i : i + 2], 16) for i in (0, 2, 4)]
            exact = ";".join(map(str, parts))
            codes.append(f"{place};2;{exact}" if depth == "24bit" else f"{place};5;{near(parts)}")
    return ";".join(codes)


def near(colour: list[int]) -> int:
    """The nearest of the 256 colours, of those that don't depend on the terminal's settings."""
    levels = [0, 95, 135, 175, 215, 255]
    cube = [min(range(6), key=lambda i: abs(levels[i] - part)) for part in colour]
    grey = min(range(24), key=lambda i: sum(abs(8 + 10 * i - part) for part in colour))
    as_cube = sum(abs(levels[i] - part) for i, part in zip(cube, colour))
    as_grey = sum(abs(8 + 10 * grey - part) for part in colour)
    return 232 + grey if as_grey < as_cube else 16 + 36 * cube[0] + 6 * cube[1] + cube[2]
