#!/bin/sh
# Builds the C library:   programs/library/build.sh [FOLDER] [BACKEND]
#
# FOLDER, by default build/library at the top of the repository, then has include/rncv.h, lib/librncv.a, lib/librncv.so and lib/pkgconfig/rncv.pc.
# BACKEND is `llvm` or `rattle`, the compiler of the proved code. PREFIX says where the files will be installed. Without it rncv.pc names FOLDER.
# The script needs `rt`, a C compiler and binutils. What has changed is proved (archive.sh). A library of an archive that unproved.sh built says in its
# version that it is not proved.
set -eu

here=$(cd "$(dirname "$0")" && pwd)
top=$(cd "$here/../.." && pwd)
folder=${1:-$top/build/library}
backend=${2:-llvm}
cc=${CC:-cc}
kit=$(dirname "$(rt doc)")

# RNCV_ARCHIVE names a built librncv_c.a, and then nothing is proved here.
archive=${RNCV_ARCHIVE:-}
[ -z "$archive" ] || archive=$(cd "$(dirname "$archive")" && pwd)/$(basename "$archive")

rm -rf "$folder"
mkdir -p "$folder/include" "$folder/lib/pkgconfig" "$folder/objects"
folder=$(cd "$folder" && pwd)
prefix=${PREFIX:-$folder}

number() { sed -n "s/^#define RNCV_VERSION_$1 //p" "$here/include/rncv.h"; }
version=$(number MAJOR).$(number MINOR).$(number PATCH)

if [ -z "$archive" ]; then
    archive=$folder/librncv_c.a
    "$here/archive.sh" "$backend" "$archive" > "$folder/archive.log" 2>&1 || { cat "$folder/archive.log"; exit 1; }
fi

# One object: the proved code, the kit's three functions over malloc, realloc and free, the titles of the clauses, and the version. It exports only the
# names of the header.
(cd "$folder/objects" && ar x "$archive" && ar x "$kit/c/liblibc_c.a" heap.pic.o)
python3 -B "$here/clause_titles.py" "$top/docs/use/CLAUSES.md" > "$folder/clause_titles.c"
mark=
! nm "$archive" | grep -q ' unproved_rncv_c$' || mark=-DRNCV_NOT_PROVED
flags="-std=c11 -Wall -Wextra -Wconversion -Werror -O2 -fPIC"
# shellcheck disable=SC2086  # flags are words
$cc $flags -I"$here/include" -c -o "$folder/objects/clause_titles.o" "$folder/clause_titles.c"
# shellcheck disable=SC2086
$cc $flags $mark -I"$here/include" -c -o "$folder/objects/version.o" "$here/version.c"
ld -r -o "$folder/rncv.o" "$folder/objects"/*.o
objcopy --wildcard --keep-global-symbol='rncv_*' "$folder/rncv.o"

cp "$here/include/rncv.h" "$folder/include/rncv.h"
ar rcs "$folder/lib/librncv.a" "$folder/rncv.o"
major=$(number MAJOR)
# shellcheck disable=SC2046  # flags are words
$cc -shared -o "$folder/lib/librncv.so.$version" "$folder/rncv.o" -Wl,-soname,"librncv.so.$major" -Wl,-z,defs -Wl,-z,text \
    $("$top/programs/packaging/hardening.sh" library)
ln -sf "librncv.so.$version" "$folder/lib/librncv.so.$major"
ln -sf "librncv.so.$major" "$folder/lib/librncv.so"
sed -e "s|@prefix@|$prefix|" -e "s|@version@|$version|" ${mark:+-e "s|A proved .*|& (not proved)|" -e "s|A proved|A|"} "$here/rncv.pc.in" \
    > "$folder/lib/pkgconfig/rncv.pc"
rm -rf "$folder/objects" "$folder/rncv.o" "$folder/librncv_c.a"
