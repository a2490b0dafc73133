#!/bin/sh
# Installs fwtk, its manual pages, what these call "of the sources", an example table and the words of one-time passwords under a
# prefix. The program is built if it isn't yet or a source is newer, or is the one that FWTK_PROGRAM names. DESTDIR, if it is set,
# stands before the prefix. No permission table is written or changed.
set -eu

if [ $# -ne 1 ]; then
  echo 'usage: ./install.sh PREFIX' >&2
  exit 2
fi
case $1 in
  /*) prefix=${1%/} ;;
  *) echo 'usage: ./install.sh PREFIX, which begins with /' >&2; exit 2 ;;
esac
top=$(CDPATH='' cd -- "$(dirname -- "$0")" && pwd)
under=${DESTDIR:-}$prefix
crate=$top/crates/fwtk
program=${FWTK_PROGRAM:-$crate/out/fwtk}

# Whether the program is there and no source is newer.
is_new() {
  [ -x "$program" ] || return 1
  newer=$(find "$top/crates.txt" "$top/crates" -name out -prune -o -type f -newer "$program" -print | head -n 1)
  [ -z "$newer" ]
}

if [ -z "${FWTK_PROGRAM:-}" ] && ! is_new; then
  echo "building $program"
  (CDPATH='' cd -- "$crate" && rt run -- --version </dev/null)
fi
if [ ! -f "$program" ] || [ ! -x "$program" ]; then
  echo "install.sh: there is no program at $program" >&2
  exit 1
fi

# put MODE FILE TO: a copy of the file, in place of one that is there. The old one is whole until the new one is.
put() {
  mkdir -p -- "$(dirname -- "$3")"
  rm -f -- "$3.new"
  cp -- "$2" "$3.new"
  chmod "$1" "$3.new"
  mv -f -- "$3.new" "$3"
  echo "$3"
}

umask 022
put 755 "$program" "$under/sbin/fwtk"
put 644 "$top/docs/man/otp-calc.1" "$under/share/man/man1/otp-calc.1"
for page in netperm-table spool; do
  put 644 "$top/docs/man/$page.5" "$under/share/man/man5/$page.5"
done
for page in authsrv ftp-gw fwtk netacl plug-gw serve smap smapd tn-gw; do
  put 644 "$top/docs/man/$page.8" "$under/share/man/man8/$page.8"
done
# The other pages and the files for operators, in the folders in which the manual has them, with one line for all.
(CDPATH='' cd -- "$top" && find README.md CHANGELOG.md LICENSE SECURITY.md docs contrib -type f) | while read -r file; do
  if [ -x "$top/$file" ]; then mode=755; else mode=644; fi
  put "$mode" "$top/$file" "$under/share/doc/fwtk/$file" >/dev/null
done
echo "$under/share/doc/fwtk"
put 644 "$top/contrib/otp-words" "$under/share/fwtk/otp-words"
put 644 "$crate/data/site-table" "$under/etc/netperm-table.example"
