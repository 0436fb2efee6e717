#!/bin/sh
# try.sh [DOOR..]: tries each door, or those that are named, as far as its tools are here. It says how much was tried
# and what was skipped, and its status is 1 where something failed. The program is that of the variable VIMSYN, of the
# path or of the checkout.
set -eu
cd "$(dirname "$0")"
[ $# -gt 0 ] || set -- flatten paint python less pandoc installed
status=0
for door in "$@"; do
  printf '%s: ' "$door"
  result=0
  "./$door/try.sh" || result=$?
  case $result in
    0 | 77) ;;
    *) status=1 ;;
  esac
done
exit "$status"
