# trying.sh: what the scripts that try a door share. Each of them is a script of its own, run by try.sh; its status is
# 0 where all went well, 1 on a failure, and 77 where a tool isn't here.

here=$(cd "$(dirname "$0")" && pwd)
top=$(cd "$here" && while [ ! -f tools/flatten.vim ] && [ "$PWD" != / ]; do cd ..; done && pwd)
room=$(mktemp -d)
trap 'rm -rf "$room"' EXIT
failed=0
tried=0

# A user of its own, whose Vim knows a language of three words: what is wanted doesn't hang on Vim's version.
export HOME="$room/home" XDG_CACHE_HOME="$room/cache" LC_ALL=C.UTF-8
unset NO_COLOR COLORTERM PAGER LESS LESSOPEN VIMSYN_VIM || true
export TERM=xterm
mkdir -p "$HOME/.vim/syntax" "$HOME/.vim/ftdetect"
cat > "$HOME/.vim/ftdetect/tiny.vim" <<'END'
autocmd BufRead *.tiny setfiletype tiny
END
cat > "$HOME/.vim/syntax/tiny.vim" <<'END'
syn keyword tinyWord if
if getline(1) =~ 'loud'
  syn keyword tinyWord shout
endif
syn match tinyCostly "\(a\|a\)*b"
hi def link tinyWord Statement
hi def link tinyCostly Error
END

# Where the program stands: the variable VIMSYN, the path, or the checkout.
find_vimsyn() {
  for place in "${VIMSYN-}" vimsyn "$top/crates/vimsyn/out/vimsyn"; do
    if [ -n "$place" ] && found=$(command -v "$place"); then
      VIMSYN=$found
      export VIMSYN
      return 0
    fi
  done
  return 1
}

skip() {
  echo "skipped: $1"
  exit 77
}

need() {
  for tool in "$@"; do
    if [ "$tool" = vimsyn ]; then
      find_vimsyn || skip "vimsyn isn't built and isn't on the path (VIMSYN names it)"
    else
      command -v "$tool" > "$room/found" || skip "$tool isn't here"
    fi
  done
}

# same NAME WANTED GIVEN
same() {
  tried=$((tried + 1))
  if [ "$2" != "$3" ]; then
    failed=1
    printf 'FAILED: %s\n  wanted: %s\n  given:  %s\n' "$1" "$2" "$3"
  fi
}

# has NAME PART WHOLE
has() {
  tried=$((tried + 1))
  case $3 in
    *"$2"*) ;;
    *)
      failed=1
      printf 'FAILED: %s\n  wanted in it: %s\n  given:        %s\n' "$1" "$2" "$3"
      ;;
  esac
}

ended() {
  echo "$tried tried"
  exit "$failed"
}
