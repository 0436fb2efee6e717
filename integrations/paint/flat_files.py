"""Flat syntax files, made by flatten.vim and kept in the user's cache.

A flat file is kept with what it was made of (the Vim that made it, flatten.vim, the runtime files) and with what these
files asked of the text: many ask for its name or its first line to tell dialects. It is used again for each text that
gives the same answers, as long as nothing that it was made of has changed.
"""
from __future__ import annotations

import fcntl
import hashlib
import json
import os
import re
import shutil
import tempfile
from dataclasses import dataclass
from pathlib import Path

from detection import Language, VimFailed, run_vim

MOST_OF_A_LANGUAGE = 20

# Variables of Vim's detection that syntax files also read as the user's own settings.
HANDED_ON = ("is_bash", "is_kornshell")

# What a syntax file may ask of the text that it colours. Whoever asks for more than a first line asks for all.
QUESTIONS = {
    "first line": re.compile(r"\bgetline\(\s*['\"]?1['\"]?\s*\)"),
    "ending": re.compile(r"\bexpand\(\s*['\"]%:e['\"]"),
    "name": re.compile(r"\bexpand\(\s*['\"]%(?!:e['\"])|\bbufname\("),
    "whole text": re.compile(r"\bgetline\((?!\s*['\"]?1['\"]?\s*\)|v:)|\bsearch(pos)?\(|\bline\(\s*['\"]\$"),
}
SYNTAX_NAME = re.compile(r"[A-Za-z0-9_+-][A-Za-z0-9_.+-]*")
COMMENT_OR_SETTING = re.compile(r"^\s*(\"|setl?(ocal)?\b)")


@dataclass(frozen=True)
class Text:
    """What a syntax file may see of a text: where it lies, under which name, and its bytes."""

    path: str
    name: str
    content: bytes

    def answer(self, question: str) -> str:
        if question == "first line":
            return self.content.split(b"\n", 1)[0][:200].decode("latin-1")
        if question == "ending":
            return os.path.splitext(self.name)[1]
        return self.name if question == "name" else hashlib.sha256(self.content).hexdigest()


NO_TEXT = Text("", "", b"")


@dataclass(frozen=True)
class Flat:
    """A flat file and the folder in which its includes stand."""

    folder: Path
    syntax: Path


def cache_folder() -> Path:
    base = os.environ.get("XDG_CACHE_HOME", "")
    return (Path(base) if os.path.isabs(base) else Path.home() / ".cache") / "vimsyn"


def stamp(path: str) -> list[int]:
    """What tells one state of a file from another; nothing where it is absent."""
    try:
        state = os.stat(path)
    except OSError:
        return []
    return [state.st_mtime_ns, state.st_size]


def questions_of(sources: list[str]) -> list[str]:
    asked: set[str] = set()
    for source in sources:
        for line in Path(source).read_text(encoding="latin-1").splitlines():
            if not COMMENT_OR_SETTING.match(line):
                asked.update(name for name, pattern in QUESTIONS.items() if pattern.search(line))
    return sorted(asked)


class FlatFiles:
    def __init__(self, cache: Path, vim: str, flatten: str):
        self.cache = cache
        self.vim = os.path.realpath(vim)
        self.flatten = flatten

    def find(self, language: Language, text: Text) -> Flat | None:
        """A kept flat file that fits."""
        if not SYNTAX_NAME.fullmatch(language.syntax):
            return None
        for record in sorted((self.cache / language.syntax).glob("*/made.json")):
            flat = Flat(record.parent, record.parent / "syntax" / f"{language.syntax}.vim")
            if flat.syntax.exists() and self.fits(record, language, text):
                return flat
        return None

    def fits(self, record: Path, language: Language, text: Text) -> bool:
        try:
            made = json.loads(record.read_text(encoding="utf-8"))
            return (
                made["vim"] == self.vim
                and made["variables"] == language.variables
                and all(text.answer(question) == answer for question, answer in made["answers"].items())
                and all(stamp(path) == state for path, state in made["stamps"].items())
            )
        except (OSError, ValueError, KeyError):
            return False

    def make(self, language: Language, text: Text, fresh: bool) -> Flat | None:
        """A new flat file; None where Vim has no syntax of this name.

        One run makes them at a time: another that waited takes what the first one made, unless it wants a fresh one.
        """
        home = self.cache / language.syntax
        home.mkdir(parents=True, exist_ok=True, mode=0o700)
        with open(home / ".lock", "w") as lock:
            fcntl.flock(lock, fcntl.LOCK_EX)
            kept = None if fresh else self.find(language, text)
            if kept:
                return kept
            room = Path(tempfile.mkdtemp(prefix=".new-", dir=home))
            try:
                return self.make_in(room, home, language, text)
            finally:
                shutil.rmtree(room, ignore_errors=True)

    def make_in(self, room: Path, home: Path, language: Language, text: Text) -> Flat | None:
        words = ["-S", self.flatten, language.syntax, str(room)] + ([text.path] if text.path else [])
        for name in HANDED_ON:
            if language.variables.get(name):
                words = ["--cmd", f"let g:{name} = 1", *words]
        status = run_vim(self.vim, words, str(room), {})
        if not (room / "syntax" / f"{language.syntax}.vim").exists():
            if status == 1:
                return None
            raise VimFailed(f"flatten.vim made no file of '{language.syntax}', and Vim ended with status {status}")
        place = home / self.record(room, language, text)
        shutil.rmtree(place, ignore_errors=True)
        room.rename(place)
        self.forget_oldest(home)
        return Flat(place, place / "syntax" / f"{language.syntax}.vim")

    def record(self, room: Path, language: Language, text: Text) -> str:
        """Writes what a flat file was made of and for, and answers a name for it."""
        found = set()
        for part in (room / "syntax").glob("*.vim"):
            found.update(re.findall(r'^" From (/.*)$', part.read_text(encoding="utf-8"), re.MULTILINE))
        sources = sorted(path for path in found if os.path.exists(path))
        answers = {question: text.answer(question) for question in questions_of(sources)}
        conditions = {"vim": self.vim, "variables": language.variables, "answers": answers}
        parts = map(str, sorted(Path(self.flatten).with_suffix("").glob("*.vim")))
        stamps = {path: stamp(path) for path in [self.vim, self.flatten, *parts, *sources]}
        made = json.dumps({**conditions, "stamps": stamps}, indent=1)
        (room / "made.json").write_text(made, encoding="utf-8")
        return hashlib.sha256(json.dumps(conditions, sort_keys=True).encode()).hexdigest()[:12]

    def forget_oldest(self, home: Path) -> None:
        kept = sorted(home.glob("*/made.json"), key=lambda record: stamp(str(record)), reverse=True)
        for record in kept[MOST_OF_A_LANGUAGE:]:
            shutil.rmtree(record.parent, ignore_errors=True)
