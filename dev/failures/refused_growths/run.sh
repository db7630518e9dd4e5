#!/bin/sh
# Runs the built program on schema files and a document with each growth of memory refused in turn:
#
#   dev/failures/refused_growths/run.sh valid|check|simple DOCUMENT FILE..
#
# The answer must be the answer of a run in which nothing is refused, or `rncv: out of memory` with status 4 and nothing on standard output. test.sh does
# the same for stored schemas. It is not part of the gate, and needs Python 3 and a C compiler.
set -eu
here=$(cd "$(dirname "$0")" && pwd)
folder=$(mktemp -d)
trap 'rm -rf "$folder"' EXIT
cc -O1 -shared -fPIC -o "$folder/refuse.so" "$here/refuse.c"
python3 -B "$here/rows.py" "$here/../../../crates/rncv/out/rncv" "$folder/refuse.so" "$@"
