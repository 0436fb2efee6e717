#!/bin/sh
# install.sh [PROGRAM]: puts the program (the proved one, unless another is named), its page, its completions and the
# doors of integrations/ where they belong, below PREFIX (/usr/local where it isn't set). DESTDIR stands before it, for
# those who make packages.
set -eu
from=$(dirname "$0")
program=${1:-$from/crates/vimsyn/out/vimsyn}
to=${DESTDIR-}${PREFIX:-/usr/local}
if [ ! -f "$program" ]; then
  echo "install.sh: $program isn't there: the README says how it is built" >&2
  exit 1
fi
put() {
  mkdir -p "$(dirname "$3")"
  install -m "$1" "$2" "$3"
}
put 755 "$program" "$to/bin/vimsyn"
put 644 "$from/man/vimsyn.1" "$to/share/man/man1/vimsyn.1"
put 644 "$from/completions/vimsyn.bash" "$to/share/bash-completion/completions/vimsyn"
put 644 "$from/completions/_vimsyn" "$to/share/zsh/site-functions/_vimsyn"
put 644 "$from/completions/vimsyn.fish" "$to/share/fish/vendor_completions.d/vimsyn.fish"
put 644 "$from/tools/flatten.vim" "$to/share/vimsyn/flatten.vim"
for part in "$from"/tools/flatten/*.vim; do
  put 644 "$part" "$to/share/vimsyn/flatten/${part##*/}"
done

# vimsyn-paint finds its parts beside the file that the link leads to
for part in detect.vim detection.py flat_files.py palette.py programs.py terminal.py words.py; do
  put 644 "$from/integrations/paint/$part" "$to/share/vimsyn/paint/$part"
done
put 755 "$from/integrations/paint/vimsyn-paint" "$to/share/vimsyn/paint/vimsyn-paint"
ln -sf ../share/vimsyn/paint/vimsyn-paint "$to/bin/vimsyn-paint"
put 644 "$from/integrations/python/vimsyn.py" "$to/share/vimsyn/python/vimsyn.py"
put 755 "$from/integrations/python/typing_demo.py" "$to/share/vimsyn/python/typing_demo.py"
put 644 "$from/integrations/pandoc/vimsyn.lua" "$to/share/vimsyn/pandoc/vimsyn.lua"
