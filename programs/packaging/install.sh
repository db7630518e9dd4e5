#!/bin/sh
# Installs what is built, or removes it:   programs/packaging/install.sh install|uninstall      (`make install`, `make uninstall`)
#
# It builds nothing. What is not built is left out, and reported at the end. That is a failure if the variable RNCV_REQUIRED is set, or if nothing is
# built. If nothing is at the default places, what `make try` built is installed, and a line says that it is not proved. Variables, each with its default:
#   PREFIX        /usr/local
#   DESTDIR       empty; it comes before each path, and is in no file
#   PROGRAM       crates/rncv/out/rncv, the built program
#   LIBRARY       build/library, the folder of the built library
#   XML_PROGRAMS  build/xml, the folder of rncv-xml, rng2rnc and xml2pyx
#   PYTHON        the interpreter in the first line of the Python programs; by default what they name, the python3 of PATH
#   LIBDIR        lib, below PREFIX, where the library is
#   PYTHONDIR     share/rncv/python, below PREFIX, where the Python package is
#   ZSHDIR        share/zsh/site-functions, below PREFIX
#
# To uninstall is to remove the same files, and each folder that is empty then. The folders that every PREFIX has are left, such as bin and share.
set -eu
umask 022

top=$(cd "$(dirname "$0")/../.." && pwd)
action=${1:-}
case $action in
install | uninstall) ;;
*) echo "usage: programs/packaging/install.sh install|uninstall" >&2; exit 2 ;;
esac

# Relative paths of the caller begin at the top of the repository, where `make` runs.
cd "$top"
prefix=${PREFIX:-/usr/local}
case $prefix in
/*) ;;
*) echo "install.sh: PREFIX is an absolute path, and not '$prefix'" >&2; exit 2 ;;
esac
prefix=${prefix%/}
root=${DESTDIR:-}$prefix
program=${PROGRAM:-crates/rncv/out/rncv}
library=${LIBRARY:-build/library}
xml=${XML_PROGRAMS:-build/xml}
share=share/rncv
libdir=${LIBDIR:-lib}
python=${PYTHONDIR:-$share/python}
zsh=${ZSHDIR:-share/zsh/site-functions}
version=$(cat VERSION)
doc=share/doc/rncv
lacking=

is_built() { [ -f "$program" ] || [ -f "$xml/xml2pyx" ] || [ -f "$library/lib/librncv.a" ]; }

tried=build/unproved
if [ "$program $library $xml" = "crates/rncv/out/rncv build/library build/xml" ] && ! is_built && [ -f "$tried/rncv" ]; then
    program=$tried/rncv
    library=$tried/library
    xml=$tried/xml
fi
if [ "$action" = install ] && ! is_built; then
    echo "install.sh: nothing is built: no $program, no $xml/xml2pyx, no $library/lib/librncv.a. Run \`make\` first. Nothing was installed" >&2
    exit 1
fi

lacks() {
    [ "$action" = uninstall ] || lacking="$lacking
  $1"
}

# Removes a folder if it is empty, and then the one around it, up to a folder that every PREFIX has.
leave() {
    folder=$1
    while [ "$folder" != "$root" ]; do
        case ${folder#"$root"/} in
        bin | include | lib | share | share/man | "$libdir") return 0 ;;
        esac
        rmdir "$folder" 2> /dev/null || return 0
        folder=${folder%/*}
    done
}

# Removes an old file, and makes the folder for a new one. False: it is only to be removed, and is.
room_for() {
    # the caller tests the status, so `set -e` does not end this function
    if [ -e "$1" ] || [ -L "$1" ]; then
        rm -f "$1" || exit 1
        [ "$action" = install ] || leave "${1%/*}"
    fi
    [ "$action" = install ] || return 1
    [ -d "${1%/*}" ] || mkdir -p "${1%/*}" || exit 1
}

# put MODE SOURCE TARGET: a file, with TARGET below PREFIX
put() {
    room_for "$root/$3" || return 0
    cp "$2" "$root/$3"
    chmod "$1" "$root/$3"
}

# link TEXT TARGET: a symbolic link
link() {
    room_for "$root/$2" || return 0
    ln -s "$1" "$root/$2"
}

# page TARGET NAME: another name for a man page
page() {
    room_for "$root/share/man/$2" || return 0
    printf '.so %s\n' "$1" > "$root/share/man/$2"
    chmod 644 "$root/share/man/$2"
}

# python_program SOURCE TARGET NAME: a program in Python, beside its modules, and a link to it in bin. Python looks for modules where the link leads.
python_program() {
    link "../$2" "bin/$3"
    room_for "$root/$2" || return 0
    if [ -n "${PYTHON:-}" ]; then
        { printf '#!%s\n' "$PYTHON"; tail -n +2 "$1"; } > "$root/$2"
    else
        cp "$1" "$root/$2"
    fi
    chmod 755 "$root/$2"
}

# modules FOLDER TARGET: the modules of a folder and of its packages, without tests
modules() {
    find "$1" -type f -name '*.py' ! -name 'test_*' ! -name '*_test.py' ! -path '*/tests/*' | while IFS= read -r module; do
        put 644 "$module" "$2/${module#"$1"/}"
    done
}

# what Python wrote beside its modules, which would keep their folders
if [ "$action" = uninstall ]; then
    for folder in "$share" "$python/rncv"; do
        [ ! -d "$root/$folder" ] || find "$root/$folder" -depth -type d -name __pycache__ -exec rm -rf {} \;
    done
fi

# a program that was compiled
if [ "$action" = uninstall ] || [ -f "$program" ]; then
    put 755 "$program" bin/rncv
else
    lacks "rncv: not at $program"
fi
for name in rncv-xml rng2rnc xml2pyx; do
    if [ "$action" = uninstall ] || [ -f "$xml/$name" ]; then
        put 755 "$xml/$name" "bin/$name"
    else
        lacks "$name: not in $xml"
    fi
done

# for_pkg_config TEXT: as a replacement of sed, where \, & and the | between its parts are special characters; in a path of rncv.pc a blank is one
for_pkg_config() { printf '%s\n' "$1" | sed -e 's/ /\\ /g' -e 's/[\\&|]/\\&/g'; }

# the library, its header, and what pkg-config says about it
if [ "$action" = uninstall ] || [ -f "$library/lib/librncv.so.$version" ]; then
    put 644 "$library/lib/librncv.so.$version" "$libdir/librncv.so.$version"
    link "librncv.so.$version" "$libdir/librncv.so.${version%%.*}"
    link "librncv.so.${version%%.*}" "$libdir/librncv.so"
    put 644 "$library/lib/librncv.a" "$libdir/librncv.a"
    put 644 "$library/include/rncv.h" include/rncv.h
    if room_for "$root/$libdir/pkgconfig/rncv.pc"; then
        sed -e "s|^prefix=.*|prefix=$(for_pkg_config "$prefix")|" -e "s|^\(libdir=.*/\)lib\$|\1$(for_pkg_config "$libdir")|" \
            "$library/lib/pkgconfig/rncv.pc" > "$root/$libdir/pkgconfig/rncv.pc"
        chmod 644 "$root/$libdir/pkgconfig/rncv.pc"
    fi
elif [ -f "$library/lib/librncv.a" ]; then
    lacks "librncv: what is in $library is not of version $version"
else
    lacks "librncv: not in $library"
fi

# the library that judges XML, which uses the other one
if [ "$action" = uninstall ] || [ -f "$library/lib/librncv_xml.so.$version" ]; then
    put 644 "$library/lib/librncv_xml.so.$version" "$libdir/librncv_xml.so.$version"
    link "librncv_xml.so.$version" "$libdir/librncv_xml.so.${version%%.*}"
    link "librncv_xml.so.${version%%.*}" "$libdir/librncv_xml.so"
    put 644 "$library/lib/librncv_xml.a" "$libdir/librncv_xml.a"
    put 644 "$library/include/rncv_xml.h" include/rncv_xml.h
    if room_for "$root/$libdir/pkgconfig/rncv_xml.pc"; then
        sed -e "s|^prefix=.*|prefix=$(for_pkg_config "$prefix")|" -e "s|^\(libdir=.*/\)lib\$|\1$(for_pkg_config "$libdir")|" \
            "$library/lib/pkgconfig/rncv_xml.pc" > "$root/$libdir/pkgconfig/rncv_xml.pc"
        chmod 644 "$root/$libdir/pkgconfig/rncv_xml.pc"
    fi
else
    lacks "librncv_xml: not in $library (programs/xml/library.sh builds it)"
fi

# the programs and the packages in Python, which are not built. They find each other in share as they do in programs
python_program programs/profile/rncv-profile "$share/schema/rncv-profile" rncv-profile
modules programs/profile "$share/schema"
if [ "$action" = uninstall ] || [ -f programs/lsp/rncv-lsp ]; then
    python_program programs/lsp/rncv-lsp "$share/lsp/rncv-lsp" rncv-lsp
    modules programs/lsp "$share/lsp"
else
    lacks "rncv-lsp: there is no programs/lsp/rncv-lsp"
fi
for name in __init__.py _events.py _expected.py _reasons.py _schema_files.py _xml.py py.typed; do
    put 644 "programs/python/rncv/$name" "$python/rncv/$name"
done
modules programs/xml/converter "$share/xml/converter"

# man pages; those with several names have a file for each
for source in man/*.[1-8] programs/*/*.[1-8]; do
    [ -f "$source" ] || continue
    put 644 "$source" "share/man/man${source##*.}/${source##*/}"
done
page man1/rncv-xml.1 man1/rng2rnc.1
page man1/rncv-xml.1 man1/xml2pyx.1
sed -n 's/^[a-z].*[ *]\(rncv_[a-z_]*\)(.*/\1/p' programs/library/include/rncv.h | while IFS= read -r name; do
    page man3/rncv.3 "man3/$name.3"
done

# completions
bash=share/bash-completion/completions
put 644 programs/packaging/completions/rncv.bash "$bash/rncv"
for name in rncv-xml rng2rnc xml2pyx rncv-profile rncv-lsp; do
    link rncv "$bash/$name"
done
put 644 programs/packaging/completions/_rncv "$zsh/_rncv"
for source in programs/packaging/completions/*.fish; do
    put 644 "$source" "share/fish/vendor_completions.d/${source##*/}"
done

# editors
put 644 programs/packaging/editors/rncv.vim share/vim/vimfiles/compiler/rncv.vim
put 644 programs/packaging/editors/rncv.el share/emacs/site-lisp/rncv.el

# pages and examples
for source in README.md CHANGELOG.md LICENSE docs/use/*.md docs/proof/GLOSSARY.md docs/proof/PROVED.md docs/develop/ways.svg; do
    if [ -f "$source" ]; then
        put 644 "$source" "$doc/$source"
    fi
done
find examples -type f | while IFS= read -r source; do
    put 644 "$source" "$doc/$source"
done

# the version of the library says so, whoever names its place
if [ "$action" = install ] && { [ "$program" = "$tried/rncv" ] || grep -qsF ' (not proved)' "$library/lib/librncv.so.$version"; }; then
    echo "install.sh: what is installed was built without proofs (make try)" >&2
fi
if [ -n "$lacking" ]; then
    echo "install.sh: not built, and so not installed:$lacking" >&2
    [ -z "${RNCV_REQUIRED:-}" ] || exit 1
fi
