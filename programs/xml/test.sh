#!/bin/sh
# Tests of rncv-xml and xml2pyx, in some minutes:   programs/xml/test.sh [PROGRAM]     (PROGRAM: the built rncv, else crates/rncv/out/rncv)
#
# It builds the programs into a temporary folder, unless RNCV_XML_PROGRAMS names one where they are. They need a C compiler, the headers of libxml2, and
# librncv (RNCV_LIBRARY, by default build/library). What is missing is reported and skipped. With the variable RNCV_REQUIRED set that is a failure.
# RNCV_XML_DOCUMENTS says on how many generated documents, and mutants of them, the converters in C and in Python are compared, by default 300.
here=$(cd "$(dirname "$0")" && pwd)
program=${1:-$here/../../crates/rncv/out/rncv}
if [ -n "$RNCV_REQUIRED" ] && [ ! -x "$program" ]; then echo "test.sh: no program at $program" >&2; exit 1; fi
room=$(mktemp -d)
trap 'rm -rf "$room"' EXIT

if [ -z "$RNCV_XML_PROGRAMS" ]; then
    RNCV_XML_PROGRAMS=$room/programs
    "$here/build.sh" "$RNCV_XML_PROGRAMS"
fi
RNCV_PROGRAM=$program
export RNCV_XML_PROGRAMS RNCV_PROGRAM

# one side: the two converters
converters() {
    python3 -B "$here/converter/test_converter.py" || return 1
    if [ -x "$RNCV_XML_PROGRAMS/xml2pyx" ]; then
        for part in conversion nesting sections shortening choices inclusions wide references declaration; do
            python3 -B "$here/tests/${part}_test.py" || return 1
        done
    else
        echo "test.sh: no xml2pyx: the conversion in C is not tested"
        [ -z "$RNCV_REQUIRED" ]
    fi
}

# the other side: the judge
judge() {
    if [ ! -x "$RNCV_XML_PROGRAMS/rncv-xml" ]; then
        echo "test.sh: no rncv-xml: judging is not tested"
        [ -z "$RNCV_REQUIRED" ]
        return
    fi
    status=0
    python3 -B "$here/tests/library_test.py" >"$room/library" 2>&1 & library=$!
    python3 -B "$here/tests/ids_test.py" >"$room/ids" 2>&1 & ids=$!
    for part in judging blanks messages lists faults datatypes schema merging annotations rng hints robust models recipes cases; do
        python3 -B "$here/tests/${part}_test.py" || status=1
    done
    wait "$library" || status=1
    wait "$ids" || status=1
    cat "$room/library" "$room/ids"
    return "$status"
}

converters >"$room/converters" 2>&1 & side=$!
judge; judged=$?
wait "$side"; converted=$?
cat "$room/converters"
[ "$judged" = 0 ] && [ "$converted" = 0 ]
