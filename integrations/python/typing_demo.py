#!/usr/bin/env python3
"""typing_demo.py FILE: a file in a terminal, coloured anew as one types. A demonstration: nothing is saved.

Arrows, Home, End and the page keys move; Enter, Backspace and letters change the text; Escape or Ctrl-C ends.
"""
from __future__ import annotations

import curses
import os
import subprocess
import sys
import time
import unicodedata
from pathlib import Path

PAINT = Path(__file__).resolve().parent.parent / "paint"
sys.path.insert(0, str(PAINT))

import palette  # noqa: E402
import programs  # noqa: E402
from vimsyn import Ended, Refused, Session  # noqa: E402


class Screen:
    def __init__(self, window: curses.window, session: Session, name: str):
        self.window, self.session, self.name = window, session, name
        self.row, self.column, self.top = 1, 0, 1
        self.said = "type; Escape ends, and nothing is saved"
        curses.raw()
        curses.set_escdelay(25)
        curses.use_default_colors()
        self.looks = {group: look(i, style) for i, (group, style) in enumerate(palette.styles("dark").items(), 1)}

    def draw(self) -> None:
        height, width = self.window.getmaxyx()
        self.top = max(1, min(self.top, self.row), self.row - height + 2)
        self.window.erase()
        for number in range(self.top, min(self.top + height - 1, len(self.session) + 1)):
            self.draw_line(number, number - self.top, width - 1)
        bar = f" {self.name}  {self.row}:{self.column + 1}  {self.said}"
        self.window.addnstr(height - 1, 0, bar, width - 1, curses.A_REVERSE)
        before = self.session.line(self.row)[: self.column]
        self.window.move(self.row - self.top, min(cells(before), width - 1))

    def draw_line(self, number: int, place: int, width: int) -> None:
        line, end, at = self.session.line(number), 0, 0
        for span in [*self.session.spans(number), None]:
            first, last, final = (span.first - 1, span.last, span.final) if span else (len(line), len(line), "")
            for piece, group in ((line[end:first], ""), (line[first:last], final)):
                shown = "".join(clean(character) for character in piece)
                while cells(shown) > max(0, width - at):
                    shown = shown[: max(0, width - at) if len(shown) > width else -1]
                self.window.addstr(place, min(at, width), shown, self.looks.get(group, curses.A_NORMAL))
                at, end = at + cells(piece), last

    def take(self, key: str | int) -> None:
        row, column, count = self.row, self.column, len(self.session)
        line = self.session.line(row)
        page = self.window.getmaxyx()[0] - 2
        steps: dict[str | int, int] = {curses.KEY_UP: -1, curses.KEY_DOWN: 1, curses.KEY_PPAGE: -page, curses.KEY_NPAGE: page}
        if key in steps:
            self.row = max(1, min(count, row + steps[key]))
        elif key in (curses.KEY_HOME, curses.KEY_END):
            self.column = 0 if key == curses.KEY_HOME else len(line)
        elif key == curses.KEY_LEFT and column > 0 or key == curses.KEY_RIGHT and column < len(line):
            self.column += 1 if key == curses.KEY_RIGHT else -1
        elif key in ("\n", "\r", curses.KEY_ENTER):
            self.change(row, row, [line[:column], line[column:]], row + 1, 0)
        elif key in (curses.KEY_BACKSPACE, "\x7f", "\b") and column > 0:
            self.change(row, row, [line[: column - 1] + line[column:]], row, column - 1)
        elif key in (curses.KEY_BACKSPACE, "\x7f", "\b") and row > 1:
            above = self.session.line(row - 1)
            self.change(row - 1, row, [above + line], row - 1, len(above))
        elif isinstance(key, str) and (key == "\t" or key.isprintable()):
            self.change(row, row, [line[:column] + key + line[column:]], row, column + 1)
        self.column = min(self.column, len(self.session.line(self.row)))

    def change(self, first: int, last: int, lines: list[str], row: int, column: int) -> None:
        begun = time.monotonic()
        try:
            told = self.session.replace(first, last, lines)
        except Refused as cause:
            self.said = f"refused: {cause}"
            return
        self.row, self.column = row, column
        self.said = f"{len(told)} lines told after {1000 * (time.monotonic() - begun):.0f} ms"


def clean(character: str) -> str:
    return "    " if character == "\t" else character if character.isprintable() else "?"


def cells(text: str) -> int:
    wide = sum(unicodedata.east_asian_width(character) in "WF" for character in text)
    flat = sum(unicodedata.combining(character) > 0 for character in text)
    return len(text) + wide - flat + 3 * text.count("\t")


def look(pair: int, style: palette.Style) -> int:
    numbers = []
    for colour in (style.front, style.back):
        parts = [int(colour[i : i + 2], 16) for i in (0, 2, 4)] if colour else []
        of_eight = sum(1 << i for i, part in enumerate(parts) if part > 127)
        numbers.append(-1 if not parts else palette.near(parts) if curses.COLORS >= 256 else of_eight)
    curses.init_pair(pair, *numbers)
    return curses.color_pair(pair) | style.bold * curses.A_BOLD | style.underline * curses.A_UNDERLINE


def show(window: curses.window, session: Session, name: str) -> None:
    screen = Screen(window, session, name)
    while True:
        screen.draw()
        key = window.get_wch()
        if key in ("\x1b", "\x03"):
            return
        screen.take(key)


def main() -> None:
    if len(sys.argv) != 2:
        sys.exit("usage: typing_demo.py FILE")
    name = sys.argv[1]
    try:
        lines = Path(name).read_bytes().decode("utf-8").removesuffix("\n").split("\n")
        asked = subprocess.run([PAINT / "vimsyn-paint", "--flat", "--", name], stdout=subprocess.PIPE, text=True)
        if asked.returncode != 0:
            sys.exit(asked.returncode)
        syntax = asked.stdout.strip()
        folder = os.path.dirname(os.path.dirname(syntax))
        with Session(syntax, lines, folder=folder, program=programs.vimsyn()) as session:
            curses.wrapper(show, session, name)
    except (OSError, UnicodeDecodeError, Refused, Ended, programs.Missing) as cause:
        sys.exit(f"typing_demo.py: {name}: {cause}")


if __name__ == "__main__":
    main()
