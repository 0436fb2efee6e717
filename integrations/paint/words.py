"""The words of the command line."""
from __future__ import annotations

import argparse

WHEN = ["auto", "always", "never"]


def read(words: list[str] | None = None) -> argparse.Namespace:
    parser = argparse.ArgumentParser(
        prog="vimsyn-paint",
        description="Shows files in the colours of Vim's syntax files. '-' is standard input.",
        epilog="status: 0 all was shown, plain where standard error says so; 1 a file couldn't be read, or has no page "
        "or flat file; 2 wrong words; 3 vimsyn, Vim or flatten.vim isn't there; 4 it couldn't be written",
    )
    parser.add_argument("files", nargs="*", metavar="FILE")
    parser.add_argument("--language", metavar="NAME", help="a syntax of Vim, or the ending of its files")
    parser.add_argument("--color", choices=WHEN, default="auto", help="auto: on a terminal, unless NO_COLOR is set")
    parser.add_argument("--paging", choices=WHEN, default="auto", help="auto: on a terminal")
    parser.add_argument("--depth", choices=["auto", "256", "24bit"], default="auto", help="auto: as COLORTERM says")
    parser.add_argument("--background", choices=["dark", "light"], default="dark")
    parser.add_argument("-n", "--number", action="store_true", help="begin each line with its number")
    parser.add_argument("--html", action="store_true", help="print a page of one file")
    parser.add_argument("--flat", action="store_true", help="print the name of the flat syntax file, and paint nothing")
    parser.add_argument("--fresh", action="store_true", help="make the flat syntax file anew")
    parser.add_argument("-q", "--quiet", action="store_true", help="say nothing of what is shown plain")
    asked = parser.parse_args(words)
    if asked.flat and asked.language and not asked.files:
        return asked
    if not asked.files:
        parser.error("no file is named ('-' is standard input)")
    if asked.files.count("-") > 1:
        parser.error("standard input is named twice")
    if (asked.html or asked.flat) and len(asked.files) > 1:
        parser.error("--html and --flat take one file")
    if asked.html and asked.flat:
        parser.error("--html and --flat exclude each other")
    return asked
