#!/bin/sh
# Tests of the Python package:   programs/python/test.sh [LIBRARY]     (LIBRARY: the built librncv.so, else that of build/library)
# They need Python 3.9 or newer and no package. Without the library they are skipped with a message. If the variable RNCV_REQUIRED is set, that is a
# failure. Those of XML are skipped if librncv_xml.so is not beside it; programs/xml/tests/library_test.py builds it and runs them. If there is a program `rncv` (the variable RNCV names it, else crates/rncv/out/rncv), its answers are compared too.
here=$(cd "$(dirname "$0")" && pwd)
library=${1:-$here/../../build/library/lib/librncv.so}
if [ ! -f "$library" ]; then
    echo "programs/python/test.sh: skipped, no library at $library (programs/library/build.sh builds it)"
    [ -z "${RNCV_REQUIRED:-}" ]
    exit
fi
RNCV_LIBRARY=$(cd "$(dirname "$library")" && pwd)/$(basename "$library")
export RNCV_LIBRARY
program=${RNCV:-$here/../../crates/rncv/out/rncv}
[ -x "$program" ] || echo "programs/python/test.sh: no program at $program: its answers are not compared"
cd "$here" && exec "${PYTHON:-python3}" -B -m unittest discover -s tests -t tests -p "test_*.py"
