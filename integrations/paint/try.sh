#!/bin/sh
# Tries vimsyn-paint.
set -eu
. "$(dirname "$0")/../trying.sh"
need python3 vim vimsyn
paint=$here/vimsyn-paint
escape=$(printf '\033')
cd "$room"
word="${escape}[1;38;5;227mif${escape}[0m"
printf 'if x\nshout\n' > quiet.tiny
printf 'if loud\nshout\n' > loud.tiny
printf 'if \377\n' > bytes.tiny
printf 'if aaaaaaaaaaaaaaaaaaaaaaaaaaaaaaaaaaaaaaaa\n' > costly.tiny
printf 'if\n' > text.unheard-of

# what it says on standard error, and its status
said() {
  { "$@" 2>&1 > "$room/out" && echo "status 0"; } || echo "status $?"
}

same "colours" "$word x
shout" "$("$paint" --color=always quiet.tiny)"
same "24 bits, light" "${escape}[1;38;2;165;42;42mif${escape}[0m x
shout" "$("$paint" --color=always --depth=24bit --background=light quiet.tiny)"
same "a syntax file that asks for the first line" "$word loud
${escape}[1;38;5;227mshout${escape}[0m" "$("$paint" --color=always loud.tiny)"
same "the flat files of both are kept" 2 "$(find "$XDG_CACHE_HOME/vimsyn/tiny" -name made.json | wc -l | tr -d ' ')"
same "no terminal, no colours" "$(cat quiet.tiny)" "$("$paint" quiet.tiny)"
same "a terminal" "$word x
shout" "$(PAGER=cat "$here/../on_terminal.py" "" "$paint" quiet.tiny)"
same "NO_COLOR" "$(cat quiet.tiny)" "$(NO_COLOR=1 PAGER=cat "$here/../on_terminal.py" "" "$paint" quiet.tiny)"
same "24 bits by COLORTERM" "${escape}[1;38;2;255;255;96mif${escape}[0m x
shout" "$(COLORTERM=truecolor "$here/../on_terminal.py" "" "$paint" --paging=never quiet.tiny)"
same "several files" "==> quiet.tiny <==
$word x
shout

==> text.unheard-of <==
if" "$("$paint" --color=always -q quiet.tiny text.unheard-of)"
same "numbers" "1 if x
2 shout" "$("$paint" -n quiet.tiny)"
same "standard input with a language" "$word" "$(echo if | "$paint" --color=always --language=tiny -)"
printf '#!/bin/bash\nfor\n' > script
same "a language by the ending of its files" "$("$paint" --color=always --language=sh - < script)" \
  "$("$paint" --color=always --language=bash - < script)"
has "standard input by its first line" "${escape}[" "$("$paint" --color=always - < script)"
has "C" "${escape}[1;38;5;83mint${escape}[0m" "$(echo 'int x;' | "$paint" --color=always --language=c -)"

has "a language that isn't known" "shown plain
status 0" "$(said "$paint" --color=always text.unheard-of)"
same "is shown plain" "if" "$(cat out)"
has "another that isn't known" "no syntax 'nonsense'" "$(said "$paint" --color=always --language=nonsense quiet.tiny)"
has "bad bytes" "bytes.tiny:1: bad utf-8; shown plain
status 0" "$(said "$paint" --color=always bytes.tiny)"
same "are shown as they are" "$(cat bytes.tiny)" "$(cat out)"
has "a costly text" "costly.tiny:1:4: too costly: tinyCostly; shown plain" "$(said "$paint" --color=always costly.tiny)"
same "quiet" "status 0" "$(said "$paint" -q --color=always costly.tiny)"
has "an absent file" "absent: No such file or directory
status 1" "$(said "$paint" absent quiet.tiny)"
has "the other one is shown" "if x" "$(cat out)"
has "no words" "status 2" "$(said "$paint")"
has "no Vim" "'no-such-vim' isn't on the path" "$(VIMSYN_VIM=no-such-vim said "$paint" --color=always quiet.tiny)"
has "its status" "status 3" "$(VIMSYN_VIM=no-such-vim said "$paint" --color=always quiet.tiny)"
has "no vimsyn" "status 3" "$(VIMSYN=no-such-vimsyn said "$paint" --color=always quiet.tiny)"
same "without colours neither is needed" "status 0" "$(VIMSYN=no-such-vimsyn VIMSYN_VIM=none said "$paint" quiet.tiny)"
has "no pager" "shown without a pager" "$(PAGER=no-such-pager said "$paint" --paging=always quiet.tiny)"
same "a pager" "IF X
SHOUT" "$(PAGER='tr a-z A-Z' "$paint" --paging=always quiet.tiny)"
yes 'if x' | head -50000 > long.tiny
same "a reader that has seen enough" "if x" "$("$paint" long.tiny 2>&1 | head -1)"

has "a page" '<span class="Statement">if</span> x' "$("$paint" --html quiet.tiny)"
has "a page with numbers" '<span class="LineNr">1 </span>' "$("$paint" --html -n quiet.tiny)"
has "a page without colours" "if aaaa" "$("$paint" -q --html costly.tiny)"
has "no page" "bytes.tiny:1: bad utf-8
status 1" "$(said "$paint" -q --html bytes.tiny)"
has "one page at a time" "status 2" "$(said "$paint" --html quiet.tiny loud.tiny)"

flat=$("$paint" --flat quiet.tiny)
has "the name of a flat file" "$XDG_CACHE_HOME/vimsyn/tiny/" "$flat"
echo '" kept' >> "$flat"
"$paint" --flat quiet.tiny > out
has "it is kept" '" kept' "$(cat "$flat")"
echo 'syn keyword tinyWord while' >> "$HOME/.vim/syntax/tiny.vim"
has "it is made anew where its runtime file has changed" "while" "$(cat "$("$paint" --flat quiet.tiny)")"
echo '" kept' >> "$flat"
"$paint" --fresh --flat quiet.tiny > out
same "and where that is asked for" 0 "$(grep -c '" kept' "$flat")"
ended
