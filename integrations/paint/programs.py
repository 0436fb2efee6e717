"""Where the programs and files stand that vimsyn-paint needs."""
from __future__ import annotations

import os
import shutil
from pathlib import Path

HERE = Path(__file__).resolve().parent


class Missing(Exception):
    """A program isn't there."""


def vimsyn() -> str:
    """$VIMSYN, or the one on the path, or the one that belongs to this file: installed, or built in the checkout."""
    named = os.environ.get("VIMSYN", "")
    if named:
        found = shutil.which(named)
        if not found:
            raise Missing(f"there is no program '{named}', which the variable VIMSYN names")
        return found
    beside = [HERE.parents[2] / "bin" / "vimsyn", HERE.parents[1] / "crates" / "vimsyn" / "out" / "vimsyn"]
    for place in ["vimsyn", *map(str, beside)]:
        found = shutil.which(place)
        if found:
            return os.path.abspath(found)
    raise Missing("vimsyn isn't on the path (and the variable VIMSYN names none): its README says how it is built")


def vim() -> str:
    """$VIMSYN_VIM, or `vim` on the path."""
    named = os.environ.get("VIMSYN_VIM", "") or "vim"
    found = shutil.which(named)
    if not found:
        raise Missing(f"'{named}' isn't on the path: Vim tells languages, and its runtime files have the syntax")
    return os.path.abspath(found)


def flatten() -> str:
    """flatten.vim, installed or in the checkout."""
    for place in (HERE.parent / "flatten.vim", HERE.parents[1] / "tools" / "flatten.vim"):
        if place.exists():
            return str(place)
    raise Missing("flatten.vim is neither installed beside vimsyn-paint nor in its checkout")
