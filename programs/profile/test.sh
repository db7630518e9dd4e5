#!/bin/sh
# Tests of rncv-profile:   programs/profile/test.sh [PROGRAM]     (PROGRAM: the built rncv, else crates/rncv/out/rncv)
# Without a program, the parts that need none are tested, and the skipped parts are reported. If the variable RNCV_REQUIRED is set, that is a failure.
here=$(cd "$(dirname "$0")" && pwd)
program=${1:-$here/../../crates/rncv/out/rncv}
if [ ! -x "$program" ]; then
    if [ -n "$RNCV_REQUIRED" ]; then echo "test.sh: no program at $program" >&2; exit 1; fi
    echo "test.sh: no program at $program; skipped: that rncv accepts the copies" >&2
fi
exec python3 -B "$here/test_profile.py" "$here" "$program"
