"""Texts with colours for a terminal, and the pager."""
from __future__ import annotations

import os
import re
import shlex
import subprocess
import sys

from palette import Style, sequence

SPAN = re.compile(r"(\d+):(\d+)-(\d+) \S+ (\S+)")


def coloured(content: bytes, spans: str, styles: dict[str, Style], depth: str) -> bytes:
    """A text whose spans, as `vimsyn spans` prints them, stand between escape sequences."""
    lines = content.decode("utf-8").split("\n")
    codes = {group: sequence(style, depth) for group, style in styles.items()}
    made: dict[int, list[tuple[int, int, str]]] = {}
    for line in spans.splitlines():
        found = SPAN.fullmatch(line)
        if found and codes.get(found[4]):
            made.setdefault(int(found[1]), []).append((int(found[2]), int(found[3]), codes[found[4]]))
    for number, pieces in made.items():
        if number <= len(lines):
            lines[number - 1] = coloured_line(lines[number - 1], pieces)
    return "\n".join(lines).encode("utf-8")


def coloured_line(line: str, pieces: list[tuple[int, int, str]]) -> str:
    made, end = [], 0
    for first, last, codes in pieces:
        made += [line[end : first - 1], "\x1b[", codes, "m", line[first - 1 : last], "\x1b[0m"]
        end = last
    return "".join(made) + line[end:]


def numbered(content: bytes, mark: tuple[bytes, bytes]) -> bytes:
    """Each line behind its number, which stands between two marks."""
    lines = content.split(b"\n")
    last = lines.pop() if lines[-1] == b"" else None
    width = len(str(len(lines)))
    made = [mark[0] + str(i).rjust(width).encode() + b" " + mark[1] + line for i, line in enumerate(lines, 1)]
    return b"\n".join(made) + (b"" if last is None or not made else b"\n")


def depth_of_terminal() -> str:
    return "24bit" if os.environ.get("COLORTERM", "") in ("truecolor", "24bit") else "256"


def show(content: bytes, paging: str) -> None:
    """Writes to standard output, through a pager where it is asked for or, by 'auto', on a terminal."""
    if paging == "always" or paging == "auto" and sys.stdout.isatty():
        if through_pager(content, paging):
            return
    sys.stdout.buffer.write(content)
    sys.stdout.buffer.flush()


def through_pager(content: bytes, paging: str) -> bool:
    words = shlex.split(os.environ.get("PAGER", "")) or ["less"]
    if os.path.basename(words[0]) == "less":
        words += ["-R", "-F"] if paging == "auto" else ["-R"]
    # (the pager must not paint once more what it is given)
    environment = {name: value for name, value in os.environ.items() if name != "LESSOPEN"}
    try:
        pager = subprocess.Popen(words, stdin=subprocess.PIPE, env=environment)
    except OSError as error:
        print(f"vimsyn-paint: {words[0]}: {error.strerror}; shown without a pager", file=sys.stderr)
        return False
    try:
        pager.communicate(content)
    except KeyboardInterrupt:
        pager.wait()
    return True
