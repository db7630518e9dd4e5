#!/bin/sh
# Tests of the programs with standard streams, files and arguments that fail:   dev/failures/streams/test.sh [PROGRAM]
#
# PROGRAM is the built rncv, else crates/rncv/out/rncv. program_test.py tests it. around_test.py tests the programs around it: RNCV_XML_PROGRAMS names the
# folder with rncv-xml and xml2pyx, else build/xml. A shim makes calls fail; it needs a C compiler (calls.c). What is missing is reported and skipped. If
# the variable RNCV_REQUIRED is set, a missing rncv is a failure, and if RNCV_AFTER_CI is set, as in .ci/run, a missing C compiler. The tests take less
# than half a minute.
here=$(cd "$(dirname "$0")" && pwd)
RNCV_PROGRAM=${1:-$here/../../../crates/rncv/out/rncv}
RNCV_CALLS=
room=$(mktemp -d)
trap 'rm -rf "$room"' EXIT
status=0

if ! command -v "${CC:-cc}" > /dev/null; then
    echo "dev/failures/streams: no C compiler is installed: calls that fail are skipped"
    [ -z "${RNCV_AFTER_CI:-}" ] || status=1
elif "${CC:-cc}" -std=c11 -D_GNU_SOURCE -Wall -Wextra -Wconversion -Werror -O1 -shared -fPIC -o "$room/calls.so" "$here/calls.c"; then
    RNCV_CALLS=$room/calls.so
else
    status=1
fi
export RNCV_PROGRAM RNCV_CALLS
if [ -x "$RNCV_PROGRAM" ]; then
    python3 -B "$here/program_test.py" || status=1
else
    echo "dev/failures/streams: no program at $RNCV_PROGRAM"
    [ -z "${RNCV_REQUIRED:-}" ] || status=1
fi
python3 -B "$here/around_test.py" || status=1
exit "$status"
