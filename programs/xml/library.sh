#!/bin/sh
# Builds the C library that judges XML:   programs/xml/library.sh [FOLDER]
#
# FOLDER, by default build/library at the top of the repository, then has include/rncv_xml.h, lib/librncv_xml.a, lib/librncv_xml.so and
# lib/pkgconfig/rncv_xml.pc. RNCV_LIBRARY names the folder that has librncv, by default FOLDER, where programs/library/build.sh leaves it. PREFIX says where the
# files will be installed. Without it rncv_xml.pc names FOLDER. The script needs a C compiler, binutils and what programs/xml/build.sh needs. If something is
# missing, it says what, and ends with status 2. It uses CC, CFLAGS and LIBS.
set -eu

here=$(cd "$(dirname "$0")" && pwd)
top=$(cd "$here/../.." && pwd)

folder=${1:-$top/build/library}
library=${RNCV_LIBRARY:-$folder}
cc=${CC:-cc}
flags="-std=c17 -Wall -Wextra -Wconversion -Werror -pedantic -D_XOPEN_SOURCE=700 -D_FILE_OFFSET_BITS=64 -fPIC -ffunction-sections -fdata-sections"
. "$here/parser.sh"
rng="rng_tree rng_namespaces rng_grammar rng_uri rng_prefixes rng_words rng_patterns rng_writer"
hints="schema_asked schema_types schema_tree schema_grammars schema_words schema_restrictions schema_hints schema_datatypes"
telling="finding expected scope declared near lists list_fault telling alone_schema contexts alone second_reading"
merging="schema_walk schema_merging schema_merged_text"
schemas="schema_tokens annotation_names schema_annotations origins $rng catalogs $hints schema_files schema_xml $merging"
ids="text_table id_form id_types id_check schema_ids"
parts="$parser_parts program paths $schemas $ids event_log library_calls judging $telling library"

missing() { echo "programs/xml/library.sh: $1" >&2; exit 2; }

command -v "$cc" > /dev/null || missing "no C compiler '$cc': install gcc or clang (Debian: apt-get install gcc libc6-dev), or name one by CC"
for tool in ld ar objcopy; do
    command -v "$tool" > /dev/null || missing "no $tool: install binutils"
done
if [ ! -f "$library/include/rncv.h" ] || [ ! -f "$library/lib/librncv.so" ]; then
    missing "no librncv in $library: build it by programs/library/build.sh, or name its folder by RNCV_LIBRARY"
fi

mkdir -p "$folder/include" "$folder/lib/pkgconfig"
folder=$(cd "$folder" && pwd)
library=$(cd "$library" && pwd)
prefix=${PREFIX:-$folder}
work=$(mktemp -d "$folder/objects.XXXXXX")
trap 'rm -rf "$work"' EXIT

has_parser "$work" || missing "no libxml2 2.9.10 to 2.11: install its headers (Debian: apt-get install libxml2-dev)"

number() { sed -n "s/^#define RNCV_VERSION_$1 //p" "$library/include/rncv.h"; }
major=$(number MAJOR)
version=$major.$(number MINOR).$(number PATCH)

# The library stays where it is once it is loaded: it gives libxml2 functions for memory, which another user of libxml2 in the process may call.
flags="$("$top/programs/packaging/hardening.sh" objects) $flags"
linked="$("$top/programs/packaging/hardening.sh" library) -Wl,-z,nodelete"
set -- # the objects
for part in $parts; do
    # shellcheck disable=SC2086
    (cd "$here/src" && $cc $flags $headers $parser_flags ${CFLAGS:--O2} -I"$here/include" -I"$library/include" -c -o "$work/$part.o" */"$part.c")
    set -- "$@" "$work/$part.o"
done

# One object, with what the functions of the header need: none of what a program does at its start and its end. It exports only their names.
roots=
for name in $(grep -oE '\brncv_xml_[a-z_]+\(' "$here/include/rncv_xml.h" | tr -d '(' | sort -u); do
    roots="$roots -u $name"
done
# shellcheck disable=SC2086
ld -r --gc-sections $roots -o "$work/rncv_xml.o" "$@"
objcopy --wildcard --keep-global-symbol='rncv_xml_*' "$work/rncv_xml.o"
case " ${CFLAGS:-} " in
*" -g"*) ;; # who debugs it needs the names
*) objcopy --strip-unneeded "$work/rncv_xml.o" ;; # also the names that only the parts that were left out use
esac

cp "$here/include/rncv_xml.h" "$folder/include/rncv_xml.h"
rm -f "$folder/lib/librncv_xml.a"
ar rcs "$folder/lib/librncv_xml.a" "$work/rncv_xml.o"
# shellcheck disable=SC2086
$cc -shared $linked ${CFLAGS:--O2} -o "$folder/lib/librncv_xml.so.$version" "$work/rncv_xml.o" -Wl,-soname,"librncv_xml.so.$major" -Wl,-z,defs -Wl,-z,text \
    -L"$library/lib" -lrncv $parser_libs -lpthread ${LIBS:-}
ln -sf "librncv_xml.so.$version" "$folder/lib/librncv_xml.so.$major"
ln -sf "librncv_xml.so.$major" "$folder/lib/librncv_xml.so"
sed -e "s|@prefix@|$prefix|" -e "s|@version@|$version|" -e "s|@parser@|$parser_libs|" "$here/rncv_xml.pc.in" > "$folder/lib/pkgconfig/rncv_xml.pc"
