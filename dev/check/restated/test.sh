#!/bin/sh
# Checks that no new lemma states what another states, of the kit or of this repository, and that planted ones are reported:   dev/check/restated/test.sh
here=$(cd "$(dirname "$0")" && pwd)
python3 -B "$here/test.py"; planted=$?
python3 -B "$here/run.py" && exit "$planted"
