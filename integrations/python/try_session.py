#!/usr/bin/env python3
"""try_session.py CHECKOUT: tries the module on the example texts. The program is $VIMSYN.

After each of some edits that are drawn, the spans that the session has are those that `vimsyn spans` prints for the
text as it is then.
"""
from __future__ import annotations

import os
import random
import subprocess
import sys
import tempfile
from pathlib import Path

from vimsyn import Ended, Refused, Session

EDITS = 40
tried = 0


def check(well: bool, what: str) -> None:
    global tried
    tried += 1
    if not well:
        sys.exit(f"FAILED: {what}")


def spans_anew(session: Session, syntax: str, folder: str) -> list[str]:
    with tempfile.TemporaryDirectory() as room:
        path = Path(room, "text")
        path.write_bytes("".join(line + "\n" for line in session.lines()).encode())
        run = [os.environ["VIMSYN"], "spans", f"--folder={folder}", "--", syntax, str(path)]
        return subprocess.run(run, check=True, capture_output=True).stdout.decode().splitlines()


def spans_kept(session: Session) -> list[str]:
    return [
        f"{number}:{span.first}-{span.last} {span.group} {span.final}"
        for number in range(1, len(session) + 1)
        for span in session.spans(number)
    ]


def edit_at_random(session: Session, draw: random.Random, pool: list[str]) -> None:
    first = draw.randint(1, len(session) + 1)
    last = draw.randint(first - 1, min(len(session), first + 3))
    before = session.lines()
    new = [draw.choice(pool) for _ in range(draw.randint(0, 3))]
    told = session.replace(first, last, new)
    after = before[: first - 1] + new + before[last:] or [""]
    check(session.lines() == after, f"the lines after {first}, {last}, {new}")
    check(set(range(first, first + len(new))) <= set(told), f"new lines are told: {first}, {last}, {new}")


def try_language(top: Path, syntax_name: str, text_name: str, draw: random.Random) -> None:
    folder = str(top / "examples")
    syntax = f"{folder}/syntax/{syntax_name}.vim"
    lines = (top / "examples" / text_name).read_text(encoding="utf-8").splitlines()
    with Session(syntax, lines, folder=folder) as session:
        check(spans_kept(session) == spans_anew(session, syntax, folder), f"{text_name}: the spans at the start")
        for edit in range(EDITS):
            edit_at_random(session, draw, [*lines, "", ".", '"""', "(*", "*)", "~~~"])
            anew = spans_anew(session, syntax, folder)
            check(spans_kept(session) == anew, f"{text_name}: the spans after edit {edit}")
        check(session.close() in (0, 1), f"{text_name}: the status")


def try_refusals(room: str) -> None:
    syntax = Path(room, "c.vim")
    syntax.write_text('syn region C start="/\\*" end="\\*/"\nsyn match M "\\(x*\\)*y"\n', encoding="utf-8")
    with Session(str(syntax), ["a", "b */", "c"], budget=1000) as session:
        check(session.replace(1, 0, ["/*"]) == [1, 2, 3], "the lines that a comment reaches are told")
        kept = (session.lines(), spans_kept(session))
        for lines, cause in (["x" * 40], "too costly at line 1, column 1: M"), (["z" * 1000001], "line too long"):
            try:
                session.replace(1, 1, lines)
                check(False, f"it should be refused: {cause}")
            except Refused as refused:
                check(str(refused) == cause, f"{refused} instead of {cause}")
            check((session.lines(), spans_kept(session)) == kept, "after a refusal nothing has changed")
        try:
            session.replace(1, 1, ["x" * 40, "."])
            check(False, "a new session should be refused")
        except Refused as refused:
            check(str(refused) == "text:1:1: too costly: M", str(refused))
        check(session.replace(2, 4, []) == [] and session.lines() == ["/*"], "the session goes on")
        check(session.replace(1, 1, []) == [1] and session.lines() == [""], "a text without lines is one empty line")
        for bad in (lambda: session.replace(3, 3, []), lambda: session.replace(1, 1, ["a\nb"])):
            try:
                bad()
                check(False, "what is no change should raise")
            except ValueError:
                check(True, "")
    for program, syntax_name, kind in (None, "absent.vim", Refused), ("no-such-program", str(syntax), Ended):
        try:
            Session(syntax_name, ["a"], program=program)
            check(False, "it should not begin")
        except kind:
            check(True, "")


def main() -> None:
    top = Path(sys.argv[1])
    draw = random.Random(7)
    with tempfile.TemporaryDirectory() as room:
        try_refusals(room)
    for syntax, text in (("slate", "harbour.slate"), ("pebble", "queens.pebble"), ("quill", "handbook.quill")):
        try_language(top, syntax, text, draw)
    print(f"the module: {tried} checks; ", end="", flush=True)


if __name__ == "__main__":
    main()
