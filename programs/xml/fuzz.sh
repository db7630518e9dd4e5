#!/bin/sh
# Gives generated documents and mutants of them to the programs, built with the sanitizers of the compiler:   programs/xml/fuzz.sh [SECONDS]
#
# It takes 60 seconds if no number is given. FUZZ_SEED says where to begin. rncv-xml is among the programs if the library is built (RNCV_LIBRARY). For each
# document a program has to end with one of its statuses, without a message of the sanitizers. It has to call the document well-formed exactly if the
# converter in Python does, but for the reasons that docs/use/XML.md lists. rncv-xml has to say what `rncv` says of the PYX. RNCV_PROGRAM names the built
# `rncv`, by default that of crates/rncv.
set -eu
here=$(cd "$(dirname "$0")" && pwd)
room=$(mktemp -d)
trap 'rm -rf "$room"' EXIT
CFLAGS="-g -O1 -fsanitize=address,undefined -fno-sanitize-recover=all"
export CFLAGS
"$here/build.sh" "$room/programs" || [ -x "$room/programs/xml2pyx" ]
RNCV_XML_PROGRAMS=$room/programs python3 -B "$here/tests/fuzz.py" "${1:-60}" "$room"
