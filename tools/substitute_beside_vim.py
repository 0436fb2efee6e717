#!/usr/bin/env python3
"""substitute_beside_vim.py [--count=N] [--seed=N] TEXT..: random substitutions by vimsyn and by Vim.

Each command of a session of `vimsyn edit` and the same command of Vim is carried out on the same lines of one of the
texts, which are put in place anew before it. Compared is the text afterwards, or, with flag `n`, the count. Told are how
many commands there were, how many changed something and how many differ, by what is known to differ
(docs/DECISIONS.md, "Substitutions"), and the first that differ without that. The status is 0 where all such are known, 1
where some aren't, 2 where the words are wrong, and 3 where a program couldn't be run.

The commands are made of words of the text.
The program is that of the variable VIMSYN, of the path or of the checkout.
"""
from __future__ import annotations

import html
import os
import random
import re
import subprocess
import sys
import tempfile
from collections import Counter
from dataclasses import dataclass
from pathlib import Path

from beside_vim import Failed, lines_of, program

SHOWN = 5
MOST_LINES = 60
SYNTAX = "syn match Number /[0-9]/\n"
ATOMS = [".", r"\w", r"\d", r"\s", "[aeiou]", "[^ ]", r"\a", r"\l", r"\u", r"\k", "x", "e", " ", r"\_s", r"\n", r"[^a-m]"]
COUNTS = ["", "", "", "*", r"\+", r"\=", r"\{2}", r"\{1,3}", r"\{-1,}", r"\{-}"]
ENDS = [("", ""), ("", ""), ("", ""), (r"\<", ""), ("", r"\>"), ("^", ""), ("", "$"), (r"\<", r"\>")]
PIECES = ["&", r"\0", r"\1", r"\2", "-", "<&>", r"\r", r"\t", r"\\", r"\/", r"\&", r"\~", "x", "", r"\u", r"\l", r"\U", r"\L", r"\E", r"\e", "Ab"]
FLAGS = ["", "", "g", "g", "gi", "i", "I", "gI", "n", "gn", "iI", "Ii"]


@dataclass
class Case:
    lines: list[str]
    command: str


def literal(word: str) -> str:
    return re.sub(r"[\\/~.*\[\]^$]", lambda found: "\\" + found[0], word)


def part(chance: random.Random, words: list[str]) -> str:
    kind = chance.randrange(6)
    if kind < 2:
        return literal(chance.choice(words))
    if kind < 5:
        return chance.choice(ATOMS) + chance.choice(COUNTS)
    return r"\(" + chance.choice(ATOMS) + chance.choice(COUNTS) + r"\)"


def pattern(chance: random.Random, words: list[str]) -> str:
    before, behind = chance.choice(ENDS)
    parts = [part(chance, words) for _ in range(chance.choice([1, 1, 1, 2, 2, 3]))]
    if chance.random() < 0.15:
        parts.insert(chance.randrange(len(parts)), r"\ze")
    if chance.random() < 0.15:
        parts.insert(0, part(chance, words) + r"\zs")
    made = before + "".join(parts) + behind
    if chance.random() < 0.15:
        made += r"\|" + part(chance, words)
    return chance.choice(["", "", "", "", r"\c", r"\C"]) + made


def lines_named(chance: random.Random, count: int) -> str:
    first = chance.randint(1, count)
    return chance.choice(["%", "%", f"{first}", f"{first},{chance.randint(first, count)}", f"{first},$", "$"])


def command(chance: random.Random, lines: list[str], words: list[str]) -> str:
    at = lines_named(chance, len(lines))
    if chance.random() < 0.15:
        return f"{at}{chance.choice('gv')}/{pattern(chance, words)}/d"
    string = "".join(chance.choice(PIECES) for _ in range(chance.randint(0, 4)))
    return f"{at}s/{pattern(chance, words)}/{string}/{chance.choice(FLAGS)}"


def cases(texts: list[str], count: int, seed: int) -> list[Case]:
    chance, made = random.Random(seed), []
    read = [lines_of(text) for text in texts]
    while len(made) < count:
        whole = chance.choice(read)
        start = chance.randrange(len(whole))
        lines = [line for line in whole[start : start + chance.randint(1, MOST_LINES)] if line != "."] or [""]
        words = re.findall(r"\w+|[^\w\s]+", " ".join(lines)) or ["a"]
        made.append(Case(lines, command(chance, lines, words)))
    return made


def told_by_vimsyn(made: list[Case]) -> list[str]:
    """Of each command the text afterwards, a line that begins with `=`; or its count, or its refusal."""
    script = "".join("%c\n" + "".join(line + "\n" for line in it.lines) + ".\n" + it.command + "\nH\n" for it in made)
    with tempfile.TemporaryDirectory() as folder:
        Path(folder, "s.vim").write_text(SYNTAX)
        Path(folder, "t.txt").write_text("a\n")
        words = [program(), "edit", f"{folder}/s.vim", f"{folder}/t.txt"]
        ran = subprocess.run(words, input=script.encode(), capture_output=True)
    if ran.returncode not in (0, 1):
        raise Failed(ran.stderr.decode())
    parts = re.split(r"^@(\d+)(.*)\n", ran.stdout.decode(), flags=re.M)
    heads = {int(number): (head, body) for number, head, body in zip(parts[1::3], parts[2::3], parts[3::3])}
    told = []
    for number in range(len(made)):
        head, body = heads[3 * number + 2]
        page = heads[3 * number + 3][1]
        text = re.sub(r"<[^>]*>", "", re.search(r"<pre>\n(.*)\n</pre>", page, re.S)[1])
        if head:
            told.append("refused: " + re.sub(r"^ \? \d+ ", "", head))
        elif re.fullmatch(r"\d+ matches\n", body):
            told.append(body.strip())
        else:
            told.append("=" + html.unescape(text))
    return told


VIM = r"""
set nocompatible cpo&vim encoding=utf-8 magic noignorecase nogdefault noedcompatible undolevels=-1 nomore report=99999
let s:told = []
for s:case in json_decode(join(readfile($CASES), ''))
  %delete _
  call setline(1, s:case[0])
  let v:errmsg = ''
  let s:said = execute('silent! ' . s:case[1], 'silent!')
  if v:errmsg != ''
    call add(s:told, 'refused: ' . v:errmsg)
  elseif s:case[1] =~# '/[giI]*n[giI]*$' && s:case[1] =~# '^[0-9,$%]*s'
    redir => s:said
    execute s:case[1]
    redir END
    call add(s:told, matchstr(s:said, '\d\+') . ' matches')
  else
    call add(s:told, '=' . join(getline(1, '$'), "\n"))
  endif
endfor
call writefile([json_encode(s:told)], $TOLD)
qall!
"""


def told_by_vim(made: list[Case]) -> list[str]:
    import json

    with tempfile.TemporaryDirectory() as folder:
        Path(folder, "run.vim").write_text(VIM)
        Path(folder, "cases").write_text(json.dumps([[it.lines, it.command] for it in made]))
        settings = {**os.environ, "CASES": f"{folder}/cases", "TOLD": f"{folder}/told", "LC_ALL": "C.UTF-8"}
        subprocess.run(["vim", "-es", "-u", "NONE", "-S", f"{folder}/run.vim"], env=settings, stdin=subprocess.DEVNULL, capture_output=True)
        try:
            return json.loads(Path(folder, "told").read_text())
        except OSError as fault:
            raise Failed(f"vim told nothing: {fault}") from fault


def is_same(case: Case, one: str, other: str) -> bool:
    """Refusals are worded differently, and Vim's `:g` and `:v` without a line to take are none."""
    if one == "refused: no match" and re.match(r"[0-9,$%]*[gv]/", case.command):
        return other == "=" + "\n".join(case.lines)
    return one == other or one.startswith("refused") and other.startswith("refused")


def known(case: Case) -> str:
    """Why the two may differ (docs/DECISIONS.md, "Substitutions"), or nothing."""
    parts = [*re.findall(r"((?:\\.|[^\\/])*)(?:/|$)", case.command), ""]
    string, flags = (parts[2], parts[3]) if re.match(r"[0-9,$%]*s/", case.command) else ("", "")
    if re.search(r"\\[ul](\\[ULul0-9]|&)*(\\[Ee]|\\r)", string):
        return "a change of the next letter before \\E or a break"
    if re.search(r"\\n|\\_", parts[1]):
        return "a line's end in the pattern"
    if "g" in flags:
        return "an empty match at a line's end"
    if re.search(r"\\ze.*\\\|", parts[1]):
        return "a branch that ends at \\ze before another"
    return ""


def main(words: list[str]) -> int:
    settings = {"count": 1000, "seed": 1}
    texts = []
    for word in words:
        found = re.fullmatch(r"--(count|seed)=(\d+)", word)
        if found:
            settings[found[1]] = int(found[2])
        else:
            texts.append(word)
    if not texts:
        print(__doc__, file=sys.stderr)
        return 2
    try:
        made = cases(texts, settings["count"], settings["seed"])
        ours, theirs = told_by_vimsyn(made), told_by_vim(made)
    except (Failed, OSError) as fault:
        print(f"substitute_beside_vim.py: {fault}", file=sys.stderr)
        return 3
    other = [it for it in zip(made, ours, theirs) if not is_same(*it)]
    unknown = [it for it in other if not known(it[0])]
    for it, one, two in unknown[:SHOWN]:
        print(f"{it.command}\n on  {it.lines!r}\n us  {one!r}\n Vim {two!r}")
    changed = sum(one.startswith("=") and one[1:] != "\n".join(it.lines) for it, one in zip(made, ours))
    print(f"{len(made)} commands, {changed} of which changed the text; {len(other)} differ, {len(unknown)} of them unknown")
    for why, count in Counter(known(it[0]) for it in other).most_common():
        print(f"{count:5} {why or 'unknown'}")
    return 1 if unknown else 0


if __name__ == "__main__":
    sys.exit(main(sys.argv[1:]))
