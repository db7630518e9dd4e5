#!/bin/sh
# Makes a Debian package of what is built:   programs/packaging/deb.sh [FOLDER]      (`make deb`; FOLDER, else build/package)
#
# It needs dpkg-deb and no network, and builds nothing. The variables PROGRAM, LIBRARY and XML_PROGRAMS are those of install.sh. Each date in the
# package is that of date.sh, so the same files make the same package. MAINTAINER names the package's maintainer. What was built without proofs is packaged
# only if the variable RNCV_NOT_PROVED is set. Then the version ends with `~unproved`, so a proved package of that version replaces it.
set -eu
umask 022

top=$(cd "$(dirname "$0")/../.." && pwd)
folder=${1:-$top/build/package}
version=$(cat "$top/VERSION")
for tool in dpkg dpkg-deb; do
    command -v "$tool" > /dev/null || { echo "deb.sh: no $tool: packages are made on Debian and its kin" >&2; exit 2; }
done
architecture=$(dpkg --print-architecture)
maintainer=${MAINTAINER:-rncv maintainers <maintainers@users.noreply.pamstwier.example>}
date=$("$top/programs/packaging/date.sh")
SOURCE_DATE_EPOCH=$date
export SOURCE_DATE_EPOCH

mkdir -p "$folder"
folder=$(cd "$folder" && pwd)
room=$(mktemp -d)
trap 'rm -rf "$room"' EXIT
root=$room/root

# Libraries are in a folder of their architecture, as far as someone knows its name. The Python package is where Debian's python3 finds it.
multiarch=$(dpkg-architecture -q DEB_HOST_MULTIARCH 2> "$room/log" || "${CC:-cc}" -print-multiarch 2> "$room/log" || true)
libdir=lib${multiarch:+/$multiarch}
python=lib/python3/dist-packages

RNCV_REQUIRED=1 PREFIX=/usr DESTDIR=$root LIBDIR=$libdir PYTHONDIR=$python ZSHDIR=share/zsh/vendor-completions PYTHON=/usr/bin/python3 \
    "$top/programs/packaging/install.sh" install 2> "$room/log" || {
    cat "$room/log" >&2
    # a package without the language server is still a package
    [ "$(grep -c '^  ' "$room/log")" = 1 ] && grep -q '^  rncv-lsp:' "$room/log" || exit 1
}

release=$version
title="proved RELAX NG validator"
claim=" It is written in Rattle, which is Rust with contracts, and its answers are
 proved to be those of the standard."
if grep -qF ' (not proved)' "$root/usr/$libdir/librncv.so.$version"; then
    if [ -z "${RNCV_NOT_PROVED:-}" ]; then
        echo "deb.sh: the library was built without proofs (make try), and the package says that it is proved. Run \`make\` first," \
            "or set RNCV_NOT_PROVED=1 for a package that says that it is not" >&2
        exit 1
    fi
    release=$version~unproved
    title="RELAX NG validator, built without proofs"
    claim=" It is written in Rattle, which is Rust with contracts. This package was built
 without the proofs of these contracts, to try it."
fi

# only those who build need symbols, and pages are compressed
elf() { [ "$(head -c 4 "$1" | tr -d '\177')" = ELF ]; }
if command -v strip > /dev/null; then
    for file in "$root"/usr/bin/* "$root/usr/$libdir/librncv.so.$version" "$root/usr/$libdir/librncv_xml.so.$version"; do
        if [ ! -L "$file" ] && elf "$file"; then
            strip --strip-unneeded --remove-section=.comment --remove-section=.note "$file"
        fi
    done
    strip --strip-debug --remove-section=.comment --enable-deterministic-archives "$root/usr/$libdir/librncv.a" "$root/usr/$libdir/librncv_xml.a"
fi
find "$root/usr/share/man" -type f -exec gzip -9n {} +

# what Debian needs to know about every package
doc=$root/usr/share/doc/rncv
if [ -f "$top/LICENSE" ]; then
    mv "$doc/LICENSE" "$doc/copyright"
else
    cat > "$doc/copyright" << END
rncv, a RELAX NG validator.

Copyright $(date -u -d "@$date" +%Y) The rncv authors

This version names no licence: its repository has no file LICENSE.
Ask the owner of the repository before you pass the package on.
END
fi
printf 'rncv (%s) unstable; urgency=medium\n\n  * Version %s.\n\n -- %s  %s\n' "$release" "$release" "$maintainer" \
    "$(LC_ALL=C date -u -d "@$date" '+%a, %d %b %Y %H:%M:%S +0000')" | gzip -9nc > "$doc/changelog.gz"

# What is intended, and lintian would warn of: programs, the library and what is needed to link it are in one small package.
overrides=$root/usr/share/lintian/overrides/rncv
mkdir -p "${overrides%/*}"
cat > "$overrides" << END
# one small package has the programs and the library with what is needed to build with it
rncv: package-name-doesnt-match-sonames librncv-xml${version%%.*} librncv${version%%.*}
rncv: link-to-shared-library-in-wrong-package usr/$libdir/librncv.so.$version [usr/$libdir/librncv.so]
rncv: link-to-shared-library-in-wrong-package usr/$libdir/librncv_xml.so.$version [usr/$libdir/librncv_xml.so]
END
# The toolchain decides how the proved program is linked, and may link it without any library.
if command -v readelf > /dev/null && elf "$root/usr/bin/rncv" && ! LC_ALL=C readelf -l "$root/usr/bin/rncv" | grep -q INTERP; then
    printf '# the toolchain of the proved program links it so\nrncv: statically-linked-binary [usr/bin/rncv]\n' >> "$overrides"
fi

mkdir -p "$root/DEBIAN"
for name in librncv librncv_xml; do
    echo "$name ${version%%.*} rncv (>= $release)"
done > "$root/DEBIAN/shlibs"

# The packages from which the programs load libraries. dpkg-shlibdeps knows which versions are needed. Without it, the oldest that work are named.
depends=
if command -v dpkg-shlibdeps > /dev/null; then
    mkdir -p "$room/source/debian"
    printf 'Source: rncv\n\nPackage: rncv\nArchitecture: any\n' > "$room/source/debian/control"
    set --
    for file in "$root"/usr/bin/* "$root/usr/$libdir/librncv.so.$version" "$root/usr/$libdir/librncv_xml.so.$version"; do
        if [ ! -L "$file" ] && elf "$file"; then
            set -- "$@" "-e$file"
        fi
    done
    # one library of the package uses the other: the package does not depend on itself
    depends=$(cd "$room/source" && dpkg-shlibdeps -O -xrncv "-S$root" "-l$root/usr/lib" "$@" 2> "$room/log" | sed -n 's/^shlibs:Depends=//p')
    [ -n "$depends" ] || cat "$room/log" >&2
fi
[ -n "$depends" ] || depends="libc6 (>= 2.36), libxml2 (>= 2.9.10), libxml2 (<< 2.12)"

# in KiB, as Debian counts it: file systems count otherwise
size=$(find "$root/usr" \( -type f -printf '%s\n' -o -printf '1\n' \) | awk '{ sum += int(($1 + 1023) / 1024) } END { print sum }')
cat > "$root/DEBIAN/control" << END
Package: rncv
Version: $release
Architecture: $architecture
Maintainer: $maintainer
Installed-Size: $size
Depends: $depends, python3 (>= 3.9)
Section: text
Priority: optional
Description: $title
 rncv validates documents by RELAX NG schemas in the compact syntax.
$claim
 .
 The package has rncv, rncv-xml for XML documents, rng2rnc, xml2pyx,
 rncv-profile, the language server rncv-lsp, and the libraries librncv and
 librncv_xml for C and Python.
END
echo "activate-noawait ldconfig" > "$root/DEBIAN/triggers"
cat > "$root/DEBIAN/prerm" << END
#!/bin/sh
set -e
# what Python wrote beside its modules
for folder in /usr/share/rncv /usr/$python/rncv; do
    [ ! -d "\$folder" ] || find "\$folder" -depth -type d -name __pycache__ -exec rm -rf {} \\;
done
END
chmod 755 "$root/DEBIAN/prerm"
(cd "$root" && find usr -type f | LC_ALL=C sort | while IFS= read -r file; do md5sum "$file"; done > DEBIAN/md5sums)

# dpkg-deb changes only those dates that are later
find "$root" -exec touch -h -d "@$date" {} +
package=$folder/rncv_${release}_$architecture.deb
dpkg-deb --root-owner-group -Zxz --build "$root" "$package" > "$room/log" || { cat "$room/log" >&2; exit 1; }
echo "$package"
