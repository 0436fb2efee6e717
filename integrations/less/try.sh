#!/bin/sh
# Tries less with vimsyn-paint in front of it.
set -eu
. "$(dirname "$0")/../trying.sh"
need python3 vim vimsyn less
PATH=$here/../paint:$PATH
export PATH
export LESSOPEN="|vimsyn-paint --quiet --color=always %s"
escape=$(printf '\033')
cd "$room"
printf 'if x\n' > "with a blank.tiny"
printf 'a\n' > unknown.kind
same "a file" "${escape}[1;38;5;227mif${escape}[0m x" "$(less "with a blank.tiny")"
same "an unknown one" "a" "$(less unknown.kind 2>&1)"
same "where Vim isn't there less shows the file itself" "if x" "$(VIMSYN_VIM=none less "with a blank.tiny" 2> said)"
# (a pager of vimsyn-paint itself isn't coloured twice)
shown=$(PAGER=less "$here/../on_terminal.py" "" vimsyn-paint "with a blank.tiny")
has "as a pager of vimsyn-paint" "${escape}[1;38;5;227mif${escape}[0m" "$shown"
ended
