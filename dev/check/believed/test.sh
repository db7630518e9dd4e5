#!/bin/sh
# Checks that the believed definitions are in their places and that docs/proof/NOTATION.md has their words, and that planted faults are reported:
#
#   dev/check/believed/test.sh
here=$(cd "$(dirname "$0")" && pwd)
status=0
for part in test notation_test notation run; do
    python3 -B "$here/$part.py" || status=1
done
exit "$status"
