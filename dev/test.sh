#!/bin/sh
# Tests of all that is around the program:   dev/test.sh [PROGRAM]     (PROGRAM: the built rncv, else crates/rncv/out/rncv, where `rt ci` and `rt run`
# leave it). RNCV_LIBRARY names the folder of the built library, else build/library.
#
# They want Python 3 and no package; programs/xml wants a C compiler, the headers of libxml2 and the library. What is not installed is reported, and what wants
# it is skipped. If RNCV_AFTER_CI is set, as in .ci/run, a missing C compiler is a failure. The parts run side by side, in some two minutes, and what they
# print comes in order. The tests of the library come after them: they build it once more, by the other compiler, which takes minutes and wants `rt`.
# RNCV_SKIP=library leaves them out.
here=$(cd "$(dirname "$0")" && pwd)
programs=$here/../programs
program=${1:-$here/../crates/rncv/out/rncv}
RNCV_LIBRARY=${RNCV_LIBRARY:-$(cd "$here/.." && pwd)/build/library}
RNCV_REQUIRED=1
export RNCV_LIBRARY RNCV_REQUIRED
room=$(mktemp -d)
trap 'rm -rf "$room"' EXIT
RNCV_XML_PROGRAMS=$room/programs
export RNCV_XML_PROGRAMS
failed=

# what wants libxml2, the library or a C compiler is skipped where these are missing; the script says which
"$programs/xml/build.sh" "$RNCV_XML_PROGRAMS"
case $? in
  0) built=1 ;;
  2) built='' && echo "dev/test.sh: rncv-xml is not built, and what wants it is skipped" ;;
  *) built=1 && failed=' xml/build.sh' ;;
esac

# tests PART COMMAND..: what the command prints goes to the file PART, and its status to PART.status
tests() {
  part=$1
  shift
  "$@" >"$room/$part" 2>&1
  echo $? >"$room/$part.status"
}
tests profile "$programs/profile/test.sh" "$program" &
tests clauses python3 -B "$here/check/clauses/clauses_test.py" "$program" &
tests cost python3 -B "$here/cost_test.py" &
tests bench python3 -B "$here/bench/test.py" &
tests transcripts python3 -B "$here/check/transcripts/test.py" "$program" &
tests believed "$here/check/believed/test.sh" &
tests restated "$here/check/restated/test.sh" &
tests pages python3 -B "$here/check/pages/test.py" &
tests edits python3 -B "$here/check/edits/test.py" &
tests xml env RNCV_REQUIRED=$built "$programs/xml/test.sh" "$program" &
tests packaging env RNCV_REQUIRED=$built "$programs/packaging/test.sh" "$program" &
tests lsp env RNCV_REQUIRED=$built "$programs/lsp/test.sh" &
tests site python3 -B "$programs/site/test.py" &
tests prove python3 -B "$programs/prove_test.py" &
tests refused_growths "$here/failures/refused_growths/test.sh" "$program" &
tests streams "$here/failures/streams/test.sh" "$program" &
tests fuzz python3 -B "$here/search/fuzz/test.py" "$program" &
tests limits python3 -B "$here/search/limits/test.py" "$program" &
tests datatypes env -u RNCV_REQUIRED ${built:+RNCV_REQUIRED=1} python3 -B "$here/check/datatypes/run.py" --program "$RNCV_XML_PROGRAMS/rncv-xml" &
tests patterns env -u RNCV_REQUIRED ${built:+RNCV_REQUIRED=1} python3 -B "$here/check/patterns/run.py" --program "$RNCV_XML_PROGRAMS/rncv-xml" &
tests shipped env -u RNCV_REQUIRED ${built:+RNCV_REQUIRED=1} python3 -B "$here/search/shipped/test.py" &
tests conformance env -u RNCV_REQUIRED ${built:+RNCV_REQUIRED=1} python3 -B "$here/search/conformance/test.py" &
wait
for part in profile clauses cost bench transcripts believed restated pages edits xml packaging lsp site prove refused_growths streams fuzz limits datatypes patterns shipped conformance; do
  cat "$room/$part"
  [ "$(cat "$room/$part.status")" = 0 ] || failed="$failed $part"
done

if [ "${RNCV_SKIP-}" = library ]; then
  echo "programs/library: left out"
elif command -v "${CC:-cc}" >/dev/null; then
  "$programs/library/test.sh" || failed="$failed library"
else
  echo "programs/library: not tested, since no C compiler is installed"
  [ -z "${RNCV_AFTER_CI-}" ] || failed="$failed library"
fi
if [ -n "$failed" ]; then
  echo "dev/test.sh: FAILED:$failed"
  exit 1
fi
echo "dev/test.sh: ok"
