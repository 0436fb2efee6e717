"""A session of `vimsyn edit`, kept open: the colours of a text while it is edited. Standard library alone.

    with Session("flat/syntax/c.vim", ["int x;", "/* a"], folder="flat") as session:
        told = session.replace(2, 2, ["/* a */"])  # the numbers of the lines that show something else now
        session.spans(2)  # [Span(first=1, last=2, group='cCommentStart', final='Comment'), ..]

Lines and columns count from 1, and columns count characters. ../PROTOCOL.md tells what goes to and fro.
"""
from __future__ import annotations

import os
import re
import subprocess
import tempfile
from types import TracebackType
from typing import NamedTuple

MOST_BYTES = 64 * 1024 * 1024  # of commands in one session
MARKER = b"?\n"  # no command: it changes nothing, and its answer is one line

HEAD = re.compile(r"@(\d+)(?: \? \d+ (.*))?")
SPAN = re.compile(r"(\d+):(?:-|(\d+)-(\d+) (\S+) (\S+))")


class Refused(Exception):
    """The change, or the text at the start, was refused; the cause is its text. A session is as it was before."""


class Ended(Exception):
    """The program has ended, for the cause that is its text."""


class Span(NamedTuple):
    first: int
    last: int
    group: str
    final: str


class Session:
    """A text, its syntax file, and the colours that the program told."""

    _process: subprocess.Popen[bytes]
    _lines: list[str]
    _spans: list[list[Span]]  # of each line
    _sent: int  # bytes of commands
    _commands: int  # how many, markers included

    def __init__(
        self,
        syntax: str,
        lines: list[str],
        folder: str | None = None,
        budget: int | None = None,
        program: str | None = None,
    ) -> None:
        options = [f"--folder={folder}"] if folder is not None else []
        options += [f"--budget={budget}"] if budget is not None else []
        self._words = [program or os.environ.get("VIMSYN") or "vimsyn", "edit", *options, "--", syntax]
        self._begin(list(lines) or [""])

    def __enter__(self) -> Session:
        return self

    def __exit__(self, kind: type | None, value: BaseException | None, trace: TracebackType | None) -> None:
        self.close()

    def __len__(self) -> int:
        return len(self._lines)

    def line(self, number: int) -> str:
        return self._lines[number - 1]

    def spans(self, number: int) -> list[Span]:
        """The coloured spans of a line, from left to right."""
        return list(self._spans[number - 1])

    def lines(self) -> list[str]:
        return list(self._lines)

    def replace(self, first: int, last: int, lines: list[str]) -> list[int]:
        """Lines `first` to `last` become these; where `last` is `first - 1`, these go before line `first`.

        Answers the numbers of the lines that are new or show other colours, as the text is afterwards. Where the
        program refuses the change, `Refused` is raised and nothing has changed.
        """
        if not (1 <= first <= len(self) + 1 and first - 1 <= last <= len(self)):
            raise ValueError(f"no lines {first} to {last}")
        changed = self._lines[: first - 1] + lines + self._lines[last:]
        command = command_bytes(first, last, lines)
        if not command:
            return []
        if "." in lines or self._sent + len(command) + len(MARKER) > MOST_BYTES:
            return self._begin_anew(changed)
        told = self._ask(command)
        self._lines = changed or [""]
        self._spans[first - 1 : last] = [[] for _ in lines]
        self._spans = self._spans or [[]]
        return self._take_in(told)

    def close(self) -> int:
        """Ends the program; answers its status, 0 or 1 where all went well."""
        finish(self._process)
        return self._process.wait()

    # === The program ===

    def _begin(self, lines: list[str]) -> None:
        """Starts the program on a text. Only where it paints it, the session becomes that of this text."""
        content = b"".join(text_bytes(line) for line in lines)
        with tempfile.TemporaryDirectory(prefix="vimsyn-") as room:
            path = os.path.join(room, "text")
            with open(path, "wb") as file:
                file.write(content)
            process = start([*self._words, path])
            try:
                told = exchange(process, b"%p\n" + MARKER, 1)
            except Ended as cause:
                raise Refused(str(cause).replace(path, "text")) from None
        self._process, self._sent, self._commands = process, len(b"%p\n" + MARKER), 2
        self._lines, self._spans = lines, [[] for _ in lines]
        self._take_in(told)

    def _begin_anew(self, lines: list[str]) -> list[int]:
        """A new program for what no command can say: a line that is a single dot, or bytes beyond the limit."""
        old = self._process
        self._begin(lines or [""])
        finish(old)
        return list(range(1, len(self) + 1))

    def _ask(self, command: bytes) -> list[str]:
        self._sent += len(command) + len(MARKER)
        self._commands += 2
        return exchange(self._process, command + MARKER, self._commands - 1)

    def _take_in(self, told: list[str]) -> list[int]:
        fresh: dict[int, list[Span]] = {}
        for line in told:
            found = SPAN.fullmatch(line)
            if not found:
                raise Ended(f"no line of spans: {line}")
            spans = fresh.setdefault(int(found[1]), [])
            if found[2]:
                spans.append(Span(int(found[2]), int(found[3]), found[4], found[5]))
        for number, spans in fresh.items():
            self._spans[number - 1] = spans
        return sorted(fresh)


def text_bytes(line: str) -> bytes:
    if "\n" in line:
        raise ValueError("a line holds a line end")
    return line.encode("utf-8") + b"\n"


def command_bytes(first: int, last: int, lines: list[str]) -> bytes:
    """The one command that replaces lines; nothing where nothing is to be done."""
    text = b"".join(text_bytes(line) for line in lines)
    if last < first:
        return b"%da\n%s.\n" % (first - 1, text) if lines else b""
    return b"%d,%dc\n%s.\n" % (first, last, text) if lines else b"%d,%dd\n" % (first, last)


def start(words: list[str]) -> subprocess.Popen[bytes]:
    try:
        return subprocess.Popen(words, stdin=subprocess.PIPE, stdout=subprocess.PIPE, stderr=subprocess.PIPE)
    except OSError as error:
        raise Ended(f"{words[0]}: {error.strerror}") from None


def exchange(process: subprocess.Popen[bytes], script: bytes, number: int) -> list[str]:
    """Sends a command and the marker; answers the lines between the head of the command, `number`, and the marker's."""
    assert process.stdin and process.stdout
    try:
        process.stdin.write(script)
        process.stdin.flush()
    except OSError:
        raise Ended(why(process)) from None
    told: list[str] = []
    cause = None
    while True:
        line = process.stdout.readline().decode("utf-8")
        if not line.endswith("\n"):
            raise Ended(why(process))
        head = HEAD.fullmatch(line[:-1])
        if not head:
            told.append(line[:-1])
        elif int(head[1]) == number:
            cause = head[2]
        elif cause is not None:
            raise Refused(cause)
        else:
            return told


def why(process: subprocess.Popen[bytes]) -> str:
    """What the program said when it ended."""
    assert process.stderr
    return finish(process) or f"the program ended with status {process.wait()}"


def finish(process: subprocess.Popen[bytes]) -> str:
    """Ends the script, waits for the program, and answers what it said on standard error."""
    assert process.stdin and process.stdout and process.stderr
    if process.stdout.closed:
        return ""
    try:
        process.stdin.close()
    except OSError:
        pass
    process.stdout.read()
    said = process.stderr.read().decode("utf-8", "replace").strip()
    process.stdout.close()
    process.stderr.close()
    process.wait()
    return said
