#!/bin/sh
# Tries edits of crates. The prover must refuse each.
#
#   dev/check/edits/run.sh [NAME..]         the edits of crates/NAME/edits/, which the gate does not try; with no NAME, of all crates that have such a folder
#   dev/check/edits/run.sh --all [NAME..]   the edits of must-fail/ too, with no NAME of all crates that have some. That takes hours. Writes a row for each
#                                           crate to the table of docs/develop/GATE.md, with the date and the commit, as soon as its edits have been tried
#   dev/check/edits/run.sh --help           prints this
#
# It works on a scratch clone of what is committed, and removes the clone at the end. In the clone, a crate's edits/ replaces its must-fail/, or is added
# to it. Libraries that were built in this checkout (crates/NAME/out/rlib) are used again if rt finds that they fit. rt proves and builds the others first.
# There is one line for each edit, after all edits of its crate. Status 0: each was refused; 1: one was not, or could not be tried; 2: an argument is wrong.
set -e
here=$(cd "$(dirname "$0")" && pwd)
top=$(cd "$here/../../.." && pwd)
all=
case ${1-} in
  -h | --help) sed -n '2,/^set -e/{ /^set -e/d; s/^# \{0,1\}//; p; }' "$0"; exit 0 ;;
  --all) all=yes; shift ;;
esac
# The folders of a crate whose edits are tried.
folders() {
  for folder in ${all:+"$1/must-fail"} "$1/edits"; do
    [ ! -d "$folder" ] || echo "$folder"
  done
}
if [ $# = 0 ]; then
  for crate in "$top"/crates/*; do
    [ -z "$(folders "$crate")" ] || set -- "$@" "${crate##*/}"
  done
fi
for name; do
  case $name in '' | -* | */*) found= ;; *) found=$(folders "$top/crates/$name") ;; esac
  if [ -z "$found" ]; then
    echo "dev/check/edits/run.sh: no crate $name has a folder edits/${all:+ or must-fail/}" >&2
    exit 2
  fi
done
room=$(mktemp -d)
trap 'rm -rf "$room"' EXIT
trap 'exit 1' HUP INT TERM
git clone -q "$top" "$room/clone"
cd "$room/clone"
commit=$(git rev-parse --short=8 HEAD)
# The libraries below these crates, by crates.txt.
below() {
  awk -v wanted="$*" '
    /^[^#]/ { name = $1; sub(":.*", "", name); uses = $0; sub("^[^:]*:", "", uses); below[name] = uses }
    END {
      while (wanted != "") {
        n = split(wanted, all, " ")
        wanted = ""
        for (i = 1; i <= n; i++) if (!(all[i] in seen)) { seen[all[i]]; wanted = wanted " " below[all[i]] }
      }
      for (name in seen) print name
    }' crates.txt
}
for crate in $(below "$@"); do
  built=$top/crates/$crate/out/rlib
  if [ -d "$built" ]; then
    mkdir "crates/$crate/out"
    cp -R "$built" "crates/$crate/out/"
  fi
done
# gathered CRATE: puts the edits that are to be tried into its must-fail/. Fails if there are none, as for a crate that is named twice.
gathered() {
  [ -n "$(folders "$1")" ] && [ ! -e "$room/${1##*/}.tried" ] || return 1
  [ -n "$all" ] || rm -rf "$1/must-fail"
  mkdir -p "$1/must-fail"
  for edit in "$1"/edits/*.edit; do
    [ -e "$edit" ] || continue
    [ ! -e "$1/must-fail/${edit##*/}" ] || return 1
    mv "$edit" "$1/must-fail/"
  done
  touch "$room/${1##*/}.tried"
}
status=0
for name; do
  if ! gathered "crates/$name"; then
    echo "$name: NOT TRIED: nothing of its edits is committed, or it was named twice, or an edit has the name of another"
    status=1
    continue
  fi
  rt must-fail "$name" >"$room/log" 2>&1 || status=1
  sed -n 's/^rt: must-fail \([^ ]*\)\.edit: /\1: /p' "$room/log" >"$room/lines"
  untried=
  for edit in crates/"$name"/must-fail/*.edit; do
    edit=$name/$(basename "$edit" .edit)
    grep -q "^$edit: " "$room/lines" || { echo "$edit: NOT TRIED" >>"$room/lines"; status=1; untried=yes; }
  done
  cat "$room/lines"
  if [ -n "$untried" ]; then
    echo "the last lines of the output of rt must-fail $name:"
    tail -n 5 "$room/log"
  fi
  [ -z "$all" ] || python3 -B "$here/table.py" "$top/docs/develop/GATE.md" "$name" "$(date +%Y-%m-%d)" "$commit" <"$room/lines" || status=1
done
[ "$status" = 0 ] && echo "dev/check/edits/run.sh: each edit was refused" || echo "dev/check/edits/run.sh: FAILED"
exit "$status"
