#!/bin/sh
# Tries all doors from where install.sh puts them.
set -eu
. "$(dirname "$0")/../trying.sh"
need python3 vim vimsyn
to=$room/stage/usr/local
DESTDIR=$room/stage "$top/install.sh" "$VIMSYN"
unset VIMSYN
PATH=$to/bin:$PATH
export PATH
escape=$(printf '\033')
cd "$room"
printf 'if x\n' > a.tiny
same "vimsyn-paint" "${escape}[1;38;5;227mif${escape}[0m x" "$(vimsyn-paint --color=always a.tiny)"
same "the module" "[Span(first=1, last=2, group='tinyWord', final='Statement')]" "$(
  PYTHONPATH=$to/share/vimsyn/python python3 -c "import sys, vimsyn
with vimsyn.Session(sys.argv[1], ['if']) as session:
    print(session.spans(1))" "$(vimsyn-paint --flat a.tiny)")"
has "the demonstration finds its parts" "usage" "$(python3 "$to/share/vimsyn/python/typing_demo.py" 2>&1 || true)"
if command -v pandoc > found; then
  has "the filter" '<span class="Statement">if</span>' \
    "$(printf '~~~ tiny\nif\n~~~\n' | pandoc --lua-filter="$to/share/vimsyn/pandoc/vimsyn.lua")"
fi
PREFIX=$room/elsewhere
export PREFIX
has "no program" "isn't there" "$("$top/install.sh" "$room/absent" 2>&1 || true)"
same "and nothing is installed" 0 "$(find "$PREFIX" 2> found | wc -l | tr -d ' ')"
ended
