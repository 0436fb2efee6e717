#!/bin/sh
# Tries the Python module, and the demonstration of it in a terminal.
set -eu
. "$(dirname "$0")/../trying.sh"
need python3 vimsyn
"$here/try_session.py" "$top" || failed=1
tried=1
if command -v vim > "$room/found"; then
  printf 'x\n' > "$room/a.tiny"
  # 'if ' is typed in front of 'x', then Escape ends it
  keys="if $(printf '\033')"
  shown=$(TERM=xterm-256color "$here/../on_terminal.py" "$keys" "$here/typing_demo.py" "$room/a.tiny") || failed=1
  has "a word that is typed is coloured" "38;5;227" "$shown"
  has "a bad name" "No such file" "$(python3 "$here/typing_demo.py" "$room/absent" 2>&1 || true)"
else
  echo "skipped: vim isn't here, so the demonstration wasn't tried"
fi
ended
