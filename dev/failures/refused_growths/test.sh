#!/bin/sh
# Runs the built program with each growth of memory refused in turn, on all rows of rows.txt:   dev/failures/refused_growths/test.sh [PROGRAM]
#
# PROGRAM is the built rncv, else crates/rncv/out/rncv. The C library runs the same rows (by_library.c); RNCV_LIBRARY names it, else it is in
# build/library. The programs of cases that `rt ci` built make the public calls of the crates (calls.txt). rncv-xml, rng2rnc and xml2pyx run cases of
# their own (xml.py); RNCV_XML_PROGRAMS names their folder, else it is build/xml. It needs Python 3, and a C compiler and glibc for the shim (refuse.c).
# What is missing is reported and skipped. If the variable RNCV_REQUIRED is set, a missing rncv is a failure. If RNCV_AFTER_CI is set, as in .ci/run, so is
# a missing C compiler, library or program of cases.
set -eu
here=$(cd "$(dirname "$0")" && pwd)
program=${1:-$here/../../../crates/rncv/out/rncv}
library=${RNCV_LIBRARY:-$here/../../../build/library}
xml=${RNCV_XML_PROGRAMS:-$here/../../../build/xml}
cc=${CC:-cc}
status=0

if ! command -v "$cc" > /dev/null; then
    echo "dev/failures/refused_growths: no C compiler '$cc' is installed: no growth is refused"
    [ -z "${RNCV_AFTER_CI:-}" ]
    exit
fi
room=$(mktemp -d)
trap 'rm -rf "$room"' EXIT
compiled() {
    "$cc" -std=c11 -D_GNU_SOURCE -Wall -Wextra -Wconversion -Werror -O1 "$@"
}
compiled -shared -fPIC -o "$room/refuse.so" "$here/refuse.c"

# beside NAME COMMAND..: runs a command beside the others. What it prints goes to the file NAME, and its status to NAME.status
beside() {
    name=$1
    shift
    { status=0; "$@" > "$room/$name" 2>&1 || status=$?; echo "$status" > "$room/$name.status"; } &
}
if [ -x "$program" ]; then
    beside program python3 -B "$here/rows.py" "$program" "$room/refuse.so"
else
    echo "dev/failures/refused_growths: no program at $program"
    [ -z "${RNCV_REQUIRED:-}" ] || status=1
fi
if [ -f "$library/lib/librncv.a" ]; then
    compiled -I"$library/include" -o "$room/by_library" "$here/by_library.c" "$library/lib/librncv.a" -lpthread
    beside library python3 -B "$here/rows.py" "$room/by_library" "$room/refuse.so"
else
    echo "dev/failures/refused_growths: no librncv in $library: it does not run the rows"
    [ -z "${RNCV_AFTER_CI:-}" ] || status=1
fi
if [ -x "$xml/rncv-xml" ] && [ -x "$xml/rng2rnc" ] && [ -x "$xml/xml2pyx" ]; then
    beside xml python3 -B "$here/xml.py" "$xml" "$room/refuse.so"
else
    echo "dev/failures/refused_growths: no rncv-xml, rng2rnc and xml2pyx in $xml: their growths are not refused"
fi
beside cases python3 -B "$here/calls.py" "$here/../../../crates" "$room/refuse.so"
wait
for name in program library xml cases; do
    if [ -f "$room/$name.status" ]; then
        cat "$room/$name"
        [ "$(cat "$room/$name.status")" = 0 ] || status=1
    fi
done
exit "$status"
