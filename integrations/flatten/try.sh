#!/bin/sh
# Tries flatten.vim: that vimsyn colours by its flat files as Vim does by the syntax itself, row by row of `rows`, and
# what it says where it makes none.
set -eu
. "$(dirname "$0")/../trying.sh"
need python3 vim vimsyn
cd "$room"
same "rows" "" "$(python3 "$here/try_rows.py" "$here/rows" 2>&1)"
tried=$((tried + $(grep -c '^== ' "$here/rows")))

awk '/^#/ || !NF { next } ++n % 2 { print "syn match M \"" $0 "\"" > "given.vim"; next } { print "syn match M \"" $0 "\"" }' "$here/spelled" > wanted
vim -es -u NONE -S "$top/tools/flatten.vim" ./given.vim flat < /dev/null > told || true
same "patterns as they are spelled" "" "$(grep '^syn match' flat/syntax/given.vim | diff wanted -)"
tried=$((tried + $(grep -c . wanted)))
same "a look behind is told once" 1 "$(grep -c "gets a limit: \\\\%(::" told)"

flatten() {
  { vim -es -u NONE -S "$top/tools/flatten.vim" "$@" < /dev/null && echo "status 0"; } || echo "status $?"
}

has "no words" "usage: vim -es -u NONE -S flatten.vim SYNTAX [FOLDER [TEXT]]
status 1" "$(flatten)"
has "a syntax that isn't there" "no-such: no such syntax file
status 1" "$(flatten no-such flat)"
printf 'syn sync minlines=10\nsyn keyword A if\n' > a.vim
same "what is left out is told" "a.vim:1: painting starts from the first line: syn sync minlines=10
status 0" "$(flatten ./a.vim flat)"
same "and stands in the flat file" '" a.vim:1: painting starts from the first line: syn sync minlines=10' "$(tail -n 1 flat/syntax/a.vim)"
same "texts beside Vim" "2 characters, 0 differ, 100.000 % are as in Vim" "$(echo if > a && "$top/tools/beside_vim.py" ./a.vim a)"
ended
