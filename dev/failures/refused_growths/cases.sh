#!/bin/sh
# Runs a built program of cases with each growth of memory refused in turn. It is not a proof, and not part of the gate. It
# needs a C compiler.
#
#   dev/failures/refused_growths/cases.sh NAME_cases
#
# Each line that the program writes must be one that it is to write, or report that it ran out of memory. If its status says that it had no memory for its
# own work, the line may also report a row for which it had begun to print.
set -eu
here=$(cd "$(dirname "$0")" && pwd)
crate=$here/../../../crates/$1
folder=$(mktemp -d)
trap 'rm -rf "$folder"' EXIT
cc -O1 -shared -fPIC -o "$folder/refuse.so" "$here/refuse.c" -ldl
cd "$crate/data"
told=0
for growth in $(seq 1 4000); do
    REFUSE=$growth LD_PRELOAD=$folder/refuse.so ../out/"$1" >"$folder/out" 2>"$folder/err" || true
    ended=$(grep -c OutOfMemory "$folder/err" || true)
    if ! awk -v ended="$ended" '
        NR == FNR { want[$0]; next }
        $0 in want || /:[0-9]+: wanted = / || (/:[0-9]+: got/ && (ended || /out of memory/)) { next }
        { exit 1 }' ../stdout "$folder/out"; then
        echo "growth $growth: wrote an unexpected line"
        exit 1
    fi
    cmp -s ../stdout "$folder/out" || told=$((told + 1))
done
echo "$told growths refused and reported; every other run wrote the expected lines"
