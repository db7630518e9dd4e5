#!/bin/sh
# Tests of the language server, in less than 30 seconds:   programs/lsp/test.sh [LIBRARY]     (LIBRARY: the built librncv.so, else the one that the
# variable RNCV_LIBRARY names, else that of build/library)
# They need Python 3.9 or newer and no package. Without the library they are skipped with a message, and without librncv_xml.so beside it those of XML are.
# If the variable RNCV_REQUIRED is set, that is a failure.
here=$(cd "$(dirname "$0")" && pwd)
library=${1:-${RNCV_LIBRARY:-$here/../../build/library/lib/librncv.so}}
[ -d "$library" ] && library=$library/lib/librncv.so
if [ ! -f "$library" ]; then
    echo "programs/lsp/test.sh: skipped, no library at $library (programs/library/build.sh builds it)"
    [ -z "${RNCV_REQUIRED:-}" ]
    exit
fi
RNCV_LIBRARY=$(cd "$(dirname "$library")" && pwd)/$(basename "$library")
export RNCV_LIBRARY
parts="rpc schemas names parts xml answers declared reading units speed editors"
if [ ! -f "$(dirname "$RNCV_LIBRARY")/librncv_xml.so" ]; then
    echo "programs/lsp/test.sh: XML is not tested, no librncv_xml.so beside the library (programs/xml/library.sh builds it)"
    [ -z "${RNCV_REQUIRED:-}" ] || exit 1
    parts="rpc schemas names parts declared units"
fi
room=$(mktemp -d)
trap 'rm -rf "$room"' EXIT
cd "$here" || exit 1
for editor in nvim emacs; do
    command -v "$editor" >"$room/editor" || echo "programs/lsp/test.sh: the settings for $editor are not tested, it is not installed"
done
if command -v emacs >"$room/editor" && ! emacs --batch --eval "(require 'eglot)" >"$room/editor" 2>&1; then
    echo "programs/lsp/test.sh: the settings for emacs are not tested, it has no eglot (Debian 12: elpa-eglot)"
fi

# The parts run in parallel, and their output is printed in order.
for part in $parts; do
    (
        "${PYTHON:-python3}" -m unittest discover -s tests -t tests -p "test_$part.py" >"$room/$part" 2>&1
        echo $? >"$room/$part.status"
    ) &
done
wait
status=0
for part in $parts; do
    cat "$room/$part"
    [ "$(cat "$room/$part.status")" = 0 ] || status=1
done
exit "$status"
