#!/usr/bin/env python3
"""beside_table.py [OPTION..] FOLDER..: how much of the texts of many languages vimsyn colours as Vim does.

Of each language of languages.py it takes some texts below the folders by their paths, has vimsyn and Vim colour them as
beside_vim.py does, and prints a table: language, texts, characters, those whose final group is the same, their share.
Texts that aren't UTF-8 or hold a zero byte are passed over; those that vimsyn refuses are told, and don't count.

    --languages=A,B   these alone
    --texts=N         so many of each language (5)
    --most=N          none of more bytes (40000)
    --seed=N          another choice (1)
    --shown=N         so many differences of each text, behind the table (0)

The status is 0 where no character differs, 1 where some do, and 2 where the words are wrong.
"""
from __future__ import annotations

import os
import random
import sys
from dataclasses import dataclass, field
from pathlib import Path

import beside_vim
from languages import PATHS, syntaxes_of

LEAST = 200


@dataclass
class Options:
    languages: list[str] = field(default_factory=lambda: list(PATHS))
    texts: int = 5
    most: int = 40000
    seed: int = 1
    shown: int = 0
    folders: list[str] = field(default_factory=list)


@dataclass
class Row:
    language: str
    texts: int = 0
    characters: int = 0
    wrong: int = 0

    def line(self) -> str:
        same = self.characters - self.wrong
        share = 100 * same / max(self.characters, 1)
        return f"| {self.language} | {self.texts} | {self.characters} | {same} | {share:.2f} % |"


def options_of(words: list[str]) -> Options:
    """The options that the words give; a ValueError where they are wrong."""
    options = Options()
    for word in words:
        name, equals, value = word.removeprefix("--").partition("=")
        if not word.startswith("--"):
            options.folders.append(word)
        elif name == "languages" and equals:
            options.languages = value.split(",")
        elif name in ("texts", "most", "seed", "shown"):
            setattr(options, name, int(value))
        else:
            raise ValueError(word)
    if not options.folders or not set(options.languages) <= set(PATHS):
        raise ValueError("no folder, or a language that isn't known")
    return options


def texts_below(folders: list[str]) -> dict[str, list[str]]:
    """The files below the folders by the syntaxes whose texts they are."""
    found: dict[str, list[str]] = {language: [] for language in PATHS}
    for folder in folders:
        for place, _, names in os.walk(folder):
            for path in (os.path.join(place, name) for name in names):
                for language in syntaxes_of(path):
                    found[language].append(path)
    return found


def is_text(path: str, most: int) -> bool:
    """Whether a file can be coloured by both."""
    try:
        content = Path(path).read_bytes() if os.path.isfile(path) and LEAST <= os.path.getsize(path) <= most else b"\0"
        content.decode("utf-8")
    except (OSError, UnicodeDecodeError):
        return False
    return b"\0" not in content and b"\r" not in content


def chosen(paths: list[str], options: Options) -> list[str]:
    """Some of the files that can be coloured, no two of them the same."""
    paths = sorted(paths)
    random.Random(options.seed).shuffle(paths)
    taken: dict[bytes, str] = {}
    for path in paths:
        if len(taken) < options.texts and is_text(path, options.most):
            taken.setdefault(Path(path).read_bytes(), path)
    return list(taken.values())


def row_of(language: str, texts: list[str], shown: list[str], options: Options) -> Row:
    """The row of a language. Differences and refused texts are added to what is shown behind the table."""
    row = Row(language)
    for text in texts:
        try:
            found = beside_vim.differences(language, text)
        except beside_vim.Failed as failure:
            shown.append(f"{language}: {failure}")
            continue
        row.texts += 1
        row.characters += sum(map(len, beside_vim.lines_of(text)))
        row.wrong += sum(difference.count() for difference in found)
        shown += [f"{language}: {difference.told(text)}" for difference in found[: options.shown]]
    return row


def main(words: list[str]) -> int:
    try:
        options = options_of(words)
    except ValueError as fault:
        print(f"beside_table.py: {fault}\nusage: beside_table.py [OPTION..] FOLDER..", file=sys.stderr)
        return 2
    found = texts_below(options.folders)
    whole, shown = Row("all"), []
    print("| language | texts | characters | same | share |\n|---|---|---|---|---|")
    for language in options.languages:
        row = row_of(language, chosen(found[language], options), shown, options)
        if row.texts:
            print(row.line(), flush=True)
        whole.texts += row.texts
        whole.characters += row.characters
        whole.wrong += row.wrong
    print(whole.line())
    print("".join(f"{line}\n" for line in shown), end="")
    return 1 if whole.wrong else 0


if __name__ == "__main__":
    sys.exit(main(sys.argv[1:]))
