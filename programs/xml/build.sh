#!/bin/sh
# Builds rncv-xml, rng2rnc and xml2pyx:   programs/xml/build.sh [FOLDER]
#
# FOLDER, by default build/xml at the top of the repository, then has the three programs. They need a C compiler, the headers of libxml2 (2.9.10 to 2.11)
# and, but for xml2pyx, the library. RNCV_LIBRARY names its folder, by default build/library, where programs/library/build.sh leaves it. If something is
# missing, the script says what, and ends with status 2. It uses CC and CFLAGS. ONLY=xml2pyx builds that program alone, which needs no library.
set -eu

here=$(cd "$(dirname "$0")" && pwd)
top=$(cd "$here/../.." && pwd)
folder=${1:-$top/build/xml}
library=${RNCV_LIBRARY:-$top/build/library}
cc=${CC:-cc}
flags="-std=c17 -Wall -Wextra -Wconversion -Werror -pedantic -D_XOPEN_SOURCE=700 -D_FILE_OFFSET_BITS=64"

missing() { echo "programs/xml/build.sh: $1" >&2; exit 2; }

command -v "$cc" > /dev/null || missing "no C compiler '$cc': install gcc or clang (Debian: apt-get install gcc libc6-dev), or name one by CC"

mkdir -p "$folder"
folder=$(cd "$folder" && pwd)
[ ! -d "$library" ] || library=$(cd "$library" && pwd)
work=$(mktemp -d "$folder/objects.XXXXXX")
trap 'rm -rf "$work"' EXIT

. "$here/parser.sh"
has_parser "$work" ||
    missing "no libxml2 2.9.10 to 2.11: install its headers (Debian: apt-get install libxml2-dev; Fedora: libxml2-devel; Homebrew: libxml2)"

flags="$flags $("$top/programs/packaging/hardening.sh" objects)"
linked=$("$top/programs/packaging/hardening.sh" program)

compile() {
    for source in "$@"; do
        (cd "$here/src" && $cc $flags ${CFLAGS:--O2} -I"$library/include" $headers $parser_flags -c -o "$work/$source.o" */"$source.c")
    done
}

# Makes a program of these sources. Names of folders may have blanks.
link_program() {
    program=$1
    shift
    count=$#
    for source in "$@"; do set -- "$@" "$work/$source.o"; done
    shift "$count"
    [ "$program" = xml2pyx ] || set -- "$@" "$library/lib/librncv.a"
    $cc $linked ${CFLAGS:--O2} -o "$work/$program" "$@" $parser_libs -lpthread ${LIBS:-}
    mv "$work/$program" "$folder/$program"
}

shared="$parser_parts program"
rng="rng_tree rng_namespaces rng_grammar rng_uri rng_prefixes rng_words rng_patterns rng_writer"
hints="schema_asked schema_types schema_tree schema_grammars schema_words schema_restrictions schema_hints schema_datatypes"
telling="finding expected scope declared near lists list_fault telling alone_schema contexts alone second_reading"
merging="schema_walk schema_merging schema_merged_text"
reading="paths schema_tokens annotation_names schema_annotations origins $rng catalogs schema_files schema_xml $merging"
ids="text_table id_form id_types id_check schema_ids schema_context"
judging="$reading $ids $hints options clause_page documents event_log library_calls judging $telling progress formats source_line report jobs"
converting="$reading $ids schema_asked event_log library_calls judging $telling"

compile $shared xml2pyx
link_program xml2pyx $shared xml2pyx
[ "${ONLY:-}" != xml2pyx ] || exit 0

[ -f "$library/include/rncv.h" ] && [ -f "$library/lib/librncv.a" ] ||
    missing "no librncv in $library: build it by programs/library/build.sh, or name its folder by RNCV_LIBRARY"
compile $judging rncv-xml rng2rnc
link_program rncv-xml $shared $judging rncv-xml
link_program rng2rnc $shared $converting rng2rnc
