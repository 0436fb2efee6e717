"""The language of a text, by Vim's own detection of file types."""
from __future__ import annotations

import json
import os
import subprocess
import tempfile
from dataclasses import dataclass, field
from pathlib import Path

SCRIPT = Path(__file__).resolve().parent / "detect.vim"
SECONDS = 60


class VimFailed(Exception):
    """Vim ran and didn't do what it was asked."""


@dataclass(frozen=True)
class Language:
    """A syntax of Vim ('' if there is none), the type of file, and the variables that Vim's detection set."""

    syntax: str
    file_type: str = ""
    variables: dict[str, object] = field(default_factory=dict)


def run_vim(vim: str, words: list[str], room: str, variables: dict[str, str]) -> int:
    """Runs Vim once in an empty folder, without anyone's settings, modelines or terminal."""
    plain = [vim, "-N", "-u", "NONE", "-i", "NONE", "-n", "-es", "--cmd", "set nomodeline"]
    try:
        done = subprocess.run(
            plain + words,
            cwd=room,
            env={**os.environ, **variables},
            stdin=subprocess.DEVNULL,
            stdout=subprocess.DEVNULL,
            stderr=subprocess.DEVNULL,
            timeout=SECONDS,
        )
    except subprocess.TimeoutExpired:
        raise VimFailed(f"{vim} hadn't ended after {SECONDS} seconds") from None
    except OSError as error:
        raise VimFailed(f"{vim}: {error.strerror}") from None
    return done.returncode


def detect(vim: str, asked: list[tuple[str, str]]) -> list[Language]:
    """The languages of texts; each is asked for by a letter and a name, as detect.vim says."""
    with tempfile.TemporaryDirectory(prefix="vimsyn-") as room:
        lines = [kind + name.replace("\n", "?") for kind, name in asked]
        Path(room, "asked").write_bytes(b"".join(os.fsencode(line) + b"\n" for line in lines))
        answers = Path(room, "answers")
        run_vim(vim, ["-S", str(SCRIPT)], room, {"VIMSYN_ASKED": f"{room}/asked", "VIMSYN_ANSWERS": str(answers)})
        if not answers.exists():
            raise VimFailed(f"{vim} didn't run detect.vim: is it a small build, without Vim script?")
        told = answers.read_text(encoding="utf-8", errors="replace").splitlines()
    if len(told) != len(asked):
        raise VimFailed(f"{vim} didn't answer for each text")
    return [Language(*json.loads(line)) for line in told]
