#!/bin/sh
# Tests of what is installed, in less than a minute:   programs/packaging/test.sh [PROGRAM]     (PROGRAM: the built rncv, else crates/rncv/out/rncv)
#
# It installs into empty folders, some with a blank in their names, and uses what is there. It makes, checks and unpacks the Debian package, the wheel and
# the source tarball, each of them twice, since they are to be the same.
# RNCV_LIBRARY names the folder of the library, by default build/library or build/library-tests/llvm. RNCV_XML_PROGRAMS names that of rncv-xml and
# xml2pyx. Without it they are built. If the program is not built, a stub replaces it, and what needs its answers is skipped with a message. So is what
# needs another program that is not installed. If the variable RNCV_REQUIRED is set, a missing program or library is a failure.
# The image of the Dockerfile is built only if RNCV_BUILDER names a builder (docker, podman), since that needs the network. If RNCV_IMAGE_STEPS is set instead,
# image_steps.py runs its instructions.
set -eu

here=$(cd "$(dirname "$0")" && pwd)
top=$(cd "$here/../.." && pwd)
room=$(mktemp -d)
trap 'rm -rf "$room"' EXIT
status=0
version=$(cat "$top/VERSION")

fail() { echo "programs/packaging/test.sh: $*"; status=1; }
skip() { echo "programs/packaging/test.sh: skipped: $*"; }
has() { command -v "$1" > /dev/null; }
# same WHAT WANTED FOUND
same() { [ "$2" = "$3" ] || fail "$1: wanted '$2', and not '$3'"; }
# absolute PATH: the path of a file or folder, from the top
absolute() { (cd "$(dirname "$1")" && printf '%s/%s\n' "$(pwd)" "$(basename "$1")"); }

# --- what there is to install

program=${1:-$top/crates/rncv/out/rncv}
real=1
if [ ! -x "$program" ]; then
    [ -z "${RNCV_REQUIRED:-}" ] || { echo "programs/packaging/test.sh: no program at $program" >&2; exit 1; }
    program=$room/stub
    printf '#!/bin/sh\nexit 4\n' > "$program"
    chmod 755 "$program"
fi
if [ "$(head -c 4 "$program" | tr -d '\177')" != ELF ]; then
    real=0
    echo "programs/packaging/test.sh: rncv is a stub here"
fi
program=$(absolute "$program")

library=${RNCV_LIBRARY:-}
if [ -z "$library" ]; then
    library=$top/build/library
    [ -f "$library/lib/librncv.so.$version" ] || library=$top/build/library-tests/llvm
fi
built=1
has_xml_library=0
if [ ! -f "$library/lib/librncv.so.$version" ]; then
    [ -z "${RNCV_REQUIRED:-}" ] || { echo "programs/packaging/test.sh: no library of version $version in $library" >&2; exit 1; }
    built=0
    skip "what wants the library, since there is none of version $version in $library (programs/library/build.sh builds it)"
else
    library=$(absolute "$library")
fi

xml=${RNCV_XML_PROGRAMS:-}
if [ "$built" = 1 ] && [ -z "$xml" ]; then
    xml=$room/xml
    RNCV_LIBRARY=$library "$top/programs/xml/build.sh" "$xml" || { [ -z "${RNCV_REQUIRED:-}" ] || exit 1; }
fi
xml=${xml:-$room/xml}
if [ "$built" = 1 ] && [ ! -f "$library/lib/librncv_xml.so.$version" ]; then
    # the library for XML is made beside a copy of the other one
    cp -R "$library" "$room/library"
    env -u RNCV_LIBRARY -u PREFIX "$top/programs/xml/library.sh" "$room/library" || { [ -z "${RNCV_REQUIRED:-}" ] || exit 1; }
    library=$room/library
fi
if [ -f "$library/lib/librncv_xml.so.$version" ]; then
    has_xml_library=1
else
    skip "what wants the library for XML, since it is not built"
fi
[ -x "$xml/rncv-xml" ] || { built=0; skip "what wants rncv-xml, since it is not in $xml"; }
[ ! -d "$xml" ] || xml=$(absolute "$xml")

# what the version of a library that was built without proofs has behind its number
mark=
! grep -qsF ' (not proved)' "$library/lib/librncv.so.$version" || mark=' (not proved)'

# The variables of the Makefile and of install.sh are those that a test gives, and none of the environment.
unset PREFIX DESTDIR PROGRAM LIBRARY XML_PROGRAMS LIBDIR PYTHONDIR ZSHDIR

# make TARGET [VARIABLE=VALUE..]: the Makefile, with what is built; what it says is in `said`
makes() {
    env -u MAKEFLAGS -u MAKELEVEL -u RNCV_REQUIRED make -s -C "$top" "$@" PROGRAM="$program" LIBRARY="$library" XML_PROGRAMS="$xml" > "$room/said" 2>&1
}

# runs_judges NAME.md HOME [ROOT]: the two programs of README.md and the commands for them, where rncv is installed
runs_judges() {
    if has cc && has pkg-config; then
        python3 -B "$here/judge_example.py" "$@"
    else
        skip "judge.c and judge.py of README.md, since pkg-config or cc is not installed"
    fi
}

# left_in PREFIX: what is there beside the folders that every PREFIX has, without `./`
left_in() { (cd "$1" && find . -mindepth 1 | LC_ALL=C sort | sed -E -e 's|^\./||' -e '/^(bin|include|lib|share|share\/man)$/d'); }

# --- the Debian package, beside what follows

# installs_in ROOT: dpkg installs the package in an empty root with its own list of packages, which has none of those that the package depends on
installs_in() {
    mkdir -p "$1/var/lib/dpkg/info" "$1/var/lib/dpkg/updates"
    : > "$1/var/lib/dpkg/status"
    if ! dpkg --root="$1" --force-depends --install "$package" > "$room/dpkg.log" 2>&1; then
        fail "dpkg --root: $(cat "$room/dpkg.log")"
        return 1
    fi
    # shellcheck disable=SC2016  # dpkg-query reads this
    same "what dpkg says of the package" "install ok installed" "$(dpkg-query --admindir="$1/var/lib/dpkg" -W -f '${Status}' rncv)"
}

debian_package() {
    if [ "$built" = 0 ] || [ "$has_xml_library" = 0 ] || ! has dpkg-deb; then
        skip "the Debian package, since dpkg-deb or what is to be in it is not there"
        return
    fi
    # packs FOLDER: makes the package there; its path is in `name`
    packs() {
        env -u MAKEFLAGS -u MAKELEVEL RNCV_NOT_PROVED="$mark" PROGRAM="$program" LIBRARY="$library" XML_PROGRAMS="$xml" "$here/deb.sh" "$1" \
            > "$room/name" 2> "$room/deb.log" || { fail "programs/packaging/deb.sh fails: $(cat "$room/deb.log")"; return 1; }
    }
    packs "$room/deb" || return 0
    package=$(cat "$room/name")
    same "the name of the package" "rncv_${version}${mark:+~unproved}_$(dpkg --print-architecture).deb" "$(basename "$package")"
    (umask 077; TZ=Asia/Tokyo; export TZ; packs "$room/deb again") || { status=1; return 0; }
    cmp "$package" "$room/deb again/$(basename "$package")" || fail "a second package of the same files is another one"
    for name in libc6 libxml2 python3; do
        dpkg-deb -f "$package" Depends | grep -qE "(^|, )$name( |,|\$)" || fail "the package does not depend on $name"
    done
    if has lintian; then
        if [ "$(id -u)" = 0 ]; then set -- --allow-root; else set --; fi
        lintian --no-cfg --fail-on error,warning "$@" "$package" > "$room/lintian" 2>&1 || fail "lintian: $(cat "$room/lintian")"
    else
        skip "lintian, which is not installed"
    fi
    mkdir "$room/unpacked"
    dpkg-deb -x "$package" "$room/unpacked"
    same "the first line of rncv-profile" "#!/usr/bin/python3" "$(sed -n 1p "$room/unpacked/usr/share/rncv/schema/rncv-profile")"
    [ -f "$room/unpacked/usr/lib/python3/dist-packages/rncv/__init__.py" ] || fail "the Python package is not where Debian's python3 finds it"
    mkdir "$room/someone"
    runs_judges "$room/unpacked/usr/share/doc/rncv/README.md" "$room/someone" "$room/unpacked" || fail "the programs of README.md behind the package"
    same "the page that rncv-xml names" "$room/unpacked/usr/share/doc/rncv/docs/use/CLAUSES.md" \
        "$("$room/unpacked/usr/bin/rncv-xml" "$top/examples/broken/s.rnc" | sed 's/.*, see //')"
    roots=$room/unpacked
    if [ "$(id -u)" = 0 ]; then
        installs_in "$room/empty root" && roots="$roots
$room/empty root"
    else
        skip "dpkg --root, since this is not root"
    fi
    if [ "$real" = 1 ]; then
        printf '%s\n' "$roots" | while IFS= read -r root; do
            python3 -B "$here/first_example.py" "$root" || exit 1
        done || fail "the first example"
    else
        skip "the first example of README.md, since rncv is a stub"
    fi
    if [ -n "${RNCV_BUILDER:-}" ]; then
        "$RNCV_BUILDER" build -t rncv-test -f "$here/Dockerfile" "$room/deb" || fail "the image is not built"
    elif [ -n "${RNCV_IMAGE_STEPS:-}" ]; then
        "$here/image_steps.py" "$room/deb" || fail "the instructions of Dockerfile"
    else
        skip "the image of Dockerfile, since RNCV_BUILDER names no builder"
    fi
}

# --- the wheel, beside what follows

wheel() {
    if [ ! -f "$library/lib/librncv.so.$version" ]; then
        skip "the wheel, since the library is not built"
        return
    fi
    if ! LIBRARY=$library "$here/wheel.py" "$room/wheel" > "$room/wheel.name" 2> "$room/wheel.log"; then
        fail "programs/packaging/wheel.py fails: $(cat "$room/wheel.log")"
        return
    fi
    wheel=$(cat "$room/wheel.name")
    (umask 077; TZ=Asia/Tokyo LIBRARY=$library "$here/wheel.py" "$room/wheel again") > "$room/wheel.log" 2>&1 ||
        fail "a second wheel: $(cat "$room/wheel.log")"
    cmp "$wheel" "$room/wheel again/$(basename "$wheel")" || fail "a second wheel of the same files is another one"
    # pip can be outside the environment, which is quicker than a pip inside
    if ! python3 -m venv --without-pip "$room/venv" > "$room/venv.log" 2>&1 ||
        ! python3 -m pip --python "$room/venv/bin/python" --version >> "$room/venv.log" 2>&1; then
        skip "the installation of the wheel, since venv, or pip 22.3 or later, is not installed"
        return
    fi
    # pips WORD..: pip, for that environment and without the network
    pips() {
        env -u PYTHONPATH PIP_NO_INDEX=1 PIP_DISABLE_PIP_VERSION_CHECK=1 python3 -m pip --python "$room/venv/bin/python" "$@" > "$room/pip" 2>&1 ||
            fail "pip $1: $(cat "$room/pip")"
    }
    pips install "$wheel"
    wanted="$version$mark valid"
    [ "$has_xml_library" = 0 ] || wanted="$wanted valid"
    same "the Python package of the wheel" "$wanted" "$(cd "$top/examples/letter" && env -i PATH=/usr/bin:/bin XML="$has_xml_library" "$room/venv/bin/python" -c '
import os, rncv
schema, xml = rncv.compile("s.rnc"), os.environ["XML"] == "1"
print(rncv.version(), schema.validate(open("document.pyx", "rb")), *([schema.validate_xml("letter.xml")] if xml else []))' 2>&1)"
    pips uninstall -y rncv
    same "what pip uninstall leaves" "" "$(find "$room/venv" -name '*rncv*')"
}

(debian_package; exit "$status") > "$room/debian" 2>&1 & debian=$!
(wheel; exit "$status") > "$room/wheel.said" 2>&1 & packing=$!
# ends the two above, and prints what they said
beside() {
    wait "$debian" || status=1
    wait "$packing" || status=1
    cat "$room/debian" "$room/wheel.said"
}

# --- the source tarball, of this checkout and of a clone

if [ -e "$top/.git" ] && has git; then
    git clone -q --shared --no-checkout "$top" "$room/clone"
    mkdir "$room/clone/programs"
    cp -R "$here" "$room/clone/programs/"
    "$here/dist.sh" "$room/dist" > "$room/said" 2>&1 || fail "programs/packaging/dist.sh fails: $(cat "$room/said")"
    (umask 077; TZ=Asia/Tokyo "$room/clone/programs/packaging/dist.sh" "$room/dist again") > "$room/said" 2>&1 ||
        fail "dist.sh in a clone fails: $(cat "$room/said")"
    tarball=rncv-$(git -C "$top" show HEAD:VERSION).tar.gz
    cmp "$room/dist/$tarball" "$room/dist again/$tarball" || fail "the tarball of a clone is another one"
    git -C "$top" -c core.quotePath=false ls-tree -r --name-only HEAD | LC_ALL=C sort > "$room/wanted"
    tar --quoting-style=literal -tzf "$room/dist/$tarball" | sed -n "/[^/]\$/s|^${tarball%.tar.gz}/||p" | LC_ALL=C sort > "$room/found"
    diff "$room/wanted" "$room/found" || fail "the tarball does not have the files of the commit"
    "$here/sums.sh" "$room/dist"
    same "the files of SHA256SUMS" "$tarball" "$(sed 's/^[0-9a-f]*  //' "$room/dist/SHA256SUMS")"
    (cd "$room/dist" && sha256sum -c --quiet SHA256SUMS) || fail "SHA256SUMS"
else
    skip "the source tarball, since this is no checkout, or there is no git"
fi

# --- one version

header=$top/programs/library/include/rncv.h
number() { sed -n "s/^#define RNCV_VERSION_$1 //p" "$header"; }
same "the numbers of rncv.h" "$version" "$(number MAJOR).$(number MINOR).$(number PATCH)"
same "RNCV_VERSION of rncv.h" "\"$version\"" "$(sed -n 's/^#define RNCV_VERSION //p' "$header")"
same "__version__ of the Python package" "$version" "$(sed -n 's/^__version__ = "\(.*\)"$/\1/p' "$top/programs/python/rncv/__init__.py")"
if [ -f "$top/programs/lsp/rncv_lsp/__init__.py" ]; then
    same "__version__ of the language server" "$version" "$(sed -n 's/^__version__ = "\(.*\)"$/\1/p' "$top/programs/lsp/rncv_lsp/__init__.py")"
fi
same "PROGRAM_VERSION of programs/xml" "\"$version\"" "$(sed -n 's/^#define PROGRAM_VERSION //p' "$top/programs/xml/src/program/program.h")"
for page in "$top"/man/*.[1-8]; do
    sed -n 's/\\-/-/g; 1p' "$page" | grep -q "^\.TH .* \"rncv[a-z-]* $version\" " || fail "$page: its first line does not have version $version"
done

# --- make install

if ! has make; then
    beside
    skip "all that \`make install\` installs, since there is no make"
    exit "$status"
fi

if env -u MAKEFLAGS -u MAKELEVEL make -s -C "$top" install DESTDIR="$room/nothing" PROGRAM="$room/none" LIBRARY="$room/none" XML_PROGRAMS="$room/none" \
    > "$room/said" 2>&1; then
    fail "make install with nothing built ends well"
fi
grep -q "nothing is built" "$room/said" || fail "make install with nothing built does not say so"
[ ! -e "$room/nothing" ] || fail "make install with nothing built installs something"

if env -u MAKEFLAGS -u MAKELEVEL -u RNCV_REQUIRED make -s -C "$top" install DESTDIR="$room/some" PROGRAM="$program" LIBRARY="$room/none" XML_PROGRAMS="$room/none" \
    > "$room/said" 2>&1 && [ -x "$room/some/usr/local/bin/rncv" ]; then
    for name in rncv-xml rng2rnc xml2pyx librncv librncv_xml; do
        grep -q "^  $name: not in" "$room/said" || fail "make install does not say that $name is missing"
    done
else
    fail "make install of the program alone fails: $(cat "$room/said")"
fi

if makes install DESTDIR="$room/said/root"; then
    fail "make install ends well where no folder can be made"
fi

root="$room/root of rncv"
makes install DESTDIR="$root" || fail "make install fails: $(cat "$room/said")"
installed=$root/usr/local
while IFS= read -r path; do
    case $path in
    *rncv_xml.*) [ "$has_xml_library" = 1 ] || continue ;;
    lib/* | include/* | bin/rncv-xml | bin/rng2rnc | bin/xml2pyx) [ "$built" = 1 ] || continue ;;
    esac
    [ -f "$installed/$path" ] || fail "not installed: $path"
done << END
bin/rncv
bin/rncv-profile
bin/rncv-xml
bin/rng2rnc
bin/xml2pyx
include/rncv.h
include/rncv_xml.h
lib/librncv.a
lib/librncv.so
lib/librncv.so.${version%%.*}
lib/librncv.so.$version
lib/librncv_xml.a
lib/librncv_xml.so
lib/librncv_xml.so.${version%%.*}
lib/librncv_xml.so.$version
lib/pkgconfig/rncv_xml.pc
lib/pkgconfig/rncv.pc
share/bash-completion/completions/rncv
share/bash-completion/completions/rncv-lsp
share/bash-completion/completions/rncv-profile
share/bash-completion/completions/rncv-xml
share/bash-completion/completions/rng2rnc
share/bash-completion/completions/xml2pyx
share/doc/rncv/README.md
share/doc/rncv/docs/use/CLAUSES.md
share/doc/rncv/docs/use/EDITORS.md
share/doc/rncv/docs/use/INSTALL.md
share/doc/rncv/docs/use/LANGUAGE.md
share/doc/rncv/docs/use/LIBRARY.md
share/doc/rncv/docs/use/MIGRATING.md
share/doc/rncv/docs/proof/PROVED.md
share/doc/rncv/docs/use/XML.md
share/doc/rncv/examples/letter/letter.xml
share/doc/rncv/examples/letter/s.rnc
share/emacs/site-lisp/rncv.el
share/fish/vendor_completions.d/rncv-lsp.fish
share/fish/vendor_completions.d/rncv-profile.fish
share/fish/vendor_completions.d/rncv-xml.fish
share/fish/vendor_completions.d/rncv.fish
share/fish/vendor_completions.d/rng2rnc.fish
share/fish/vendor_completions.d/xml2pyx.fish
share/man/man1/rncv-lsp.1
share/man/man1/rncv-profile.1
share/man/man1/rncv-xml.1
share/man/man1/rncv.1
share/man/man1/rng2rnc.1
share/man/man1/xml2pyx.1
share/man/man3/rncv.3
share/man/man3/rncv_compile.3
share/man/man3/rncv_document_feed.3
share/man/man5/rncv-pyx.5
share/rncv/python/rncv/__init__.py
share/rncv/python/rncv/_events.py
share/rncv/python/rncv/_expected.py
share/rncv/python/rncv/_reasons.py
share/rncv/python/rncv/_schema_files.py
share/rncv/python/rncv/_xml.py
share/rncv/python/rncv/py.typed
share/rncv/schema/compact_tokens.py
share/rncv/schema/rncv-profile
share/rncv/xml/converter/pyx_writer.py
share/vim/vimfiles/compiler/rncv.vim
share/zsh/site-functions/_rncv
END
if [ -f "$top/programs/lsp/rncv-lsp" ] && [ ! -x "$installed/bin/rncv-lsp" ]; then
    fail "not installed: bin/rncv-lsp"
fi
# no file names the folder of DESTDIR
if grep -rIlF "$room" "$root" > "$room/found"; then
    fail "DESTDIR is in $(cat "$room/found")"
fi
if [ "$built" = 1 ]; then
    same "the prefix of rncv.pc" "prefix=/usr/local" "$(sed -n 1p "$installed/lib/pkgconfig/rncv.pc")"
    same "the version of rncv.pc" "Version: $version" "$(grep '^Version' "$installed/lib/pkgconfig/rncv.pc")"
    wanted="Description: A proved RELAX NG validator"
    [ -z "$mark" ] || wanted="Description: A RELAX NG validator$mark"
    same "the description of rncv.pc" "$wanted" "$(grep '^Description' "$installed/lib/pkgconfig/rncv.pc")"
fi

# --- variables in the environment, as packagers write them: DESTDIR=/stage make install

# The Makefile first calls a stand-in for install.sh. If it took no variable from the environment, an installation would change the machine.
mkdir -p "$room/makefile/programs/packaging"
cp "$top/Makefile" "$room/makefile"
cat > "$room/makefile/programs/packaging/install.sh" << 'END'
#!/bin/sh
printf '%s|' "$1" "$PREFIX" "$DESTDIR" "$PROGRAM" "$LIBRARY" "$XML_PROGRAMS"
END
chmod 755 "$room/makefile/programs/packaging/install.sh"
# taken MAKE-VARIABLE.. -- NAME=VALUE..: what the Makefile takes, by these words of its command line and this environment
taken() {
    words=
    while [ "$1" != -- ]; do words="$words $1"; shift; done
    shift
    # shellcheck disable=SC2086  # the variables have no blanks here
    env -u MAKEFLAGS -u MAKELEVEL "$@" make -s -C "$room/makefile" install $words
}
before=$status
same "what make install takes by default" "install|/usr/local||crates/rncv/out/rncv|build/library|build/xml|" "$(taken --)"
same "what make install takes from the environment" "install|/a prefix|/a stage|/a program|/a library|/the xml|" \
    "$(taken -- PREFIX="/a prefix" DESTDIR="/a stage" PROGRAM="/a program" LIBRARY="/a library" XML_PROGRAMS="/the xml")"
same "what make install takes from its command line" "install|/right|/stage|here/rncv|here/library|here/xml|" \
    "$(taken PREFIX=/right DESTDIR=/stage PROGRAM=here/rncv LIBRARY=here/library XML_PROGRAMS=here/xml -- \
        PREFIX=/wrong DESTDIR=/wrong PROGRAM=/wrong LIBRARY=/wrong XML_PROGRAMS=/wrong)"
if [ "$status" = "$before" ]; then
    stage="$room/a stage"
    live=$room/live
    # by_environment TARGET NAME=VALUE..: without a word on the command line
    by_environment() {
        target=$1
        shift
        env -u MAKEFLAGS -u MAKELEVEL -u RNCV_REQUIRED DESTDIR="$stage" PROGRAM="$program" LIBRARY="$library" XML_PROGRAMS="$xml" "$@" \
            make -s -C "$top" "$target" > "$room/said" 2>&1 || fail "make $target by the environment fails: $(cat "$room/said")"
    }
    touch "$room/mark"
    by_environment install PREFIX="$live"
    [ ! -e "$live" ] || fail "make install with DESTDIR and PREFIX in the environment writes outside DESTDIR"
    [ -x "$stage$live/bin/rncv" ] || fail "make install with DESTDIR and PREFIX in the environment installs nothing there"
    by_environment uninstall PREFIX="$live"
    same "what make uninstall leaves in DESTDIR" "" "$(left_in "$stage$live")"
    by_environment install
    [ -x "$stage/usr/local/bin/rncv" ] || fail "make install with DESTDIR in the environment does not install to /usr/local there"
    same "what make install with DESTDIR in the environment writes outside" "" "$(find /usr/local -name '*rncv*' -newer "$room/mark" 2> "$room/log")"
    # what `make` builds for a checkout names the checkout, wherever it is installed later
    same "PREFIX where the library is built" "RNCV_PROVED=build/proved PREFIX= programs/library/build.sh \"\$LIBRARY\"" \
        "$(PREFIX=$live env -u MAKEFLAGS -u MAKELEVEL make -n -C "$top" build | grep library/build.sh)"
fi

# --- the programs that are installed

find "$installed" -name '*test*' > "$room/found"
[ ! -s "$room/found" ] || fail "tests are installed: $(cat "$room/found")"
examples=$installed/share/doc/rncv/examples
inside() { env -i PATH="$installed/bin:/usr/bin:/bin" LC_ALL=C "$@"; }
for name in rncv-profile rncv-lsp; do
    [ -e "$installed/bin/$name" ] || continue
    inside "$name" --help > "$room/help" 2>&1 || fail "the installed $name --help: status $?"
    grep -q "$name" "$room/help" || fail "the installed $name does not answer --help: $(cat "$room/help")"
done
inside rncv-profile "$examples/letter/s.rnc" > "$room/out" 2>&1 || fail "the installed rncv-profile: $(cat "$room/out")"
if [ -e "$installed/bin/rncv-lsp" ]; then
    for body in '{"jsonrpc":"2.0","id":1,"method":"initialize","params":{"processId":null,"rootUri":null,"capabilities":{}}}' \
        '{"jsonrpc":"2.0","id":2,"method":"shutdown"}' '{"jsonrpc":"2.0","method":"exit"}'; do
        printf 'Content-Length: %d\r\n\r\n%s' "${#body}" "$body"
    done > "$room/asked"
    inside rncv-lsp < "$room/asked" > "$room/out" 2>&1 || fail "the installed rncv-lsp ends with status $?"
    grep -q '"capabilities"' "$room/out" || fail "the installed rncv-lsp does not answer: $(cat "$room/out")"
fi
if [ "$built" = 1 ]; then
    same "rncv-xml --version" "rncv-xml $version (librncv $version$mark)" "$(inside rncv-xml --version)"
    same "rng2rnc --version" "rng2rnc $version" "$(inside rng2rnc --version)"
    same "xml2pyx --version" "xml2pyx $version" "$(inside xml2pyx --version)"
    same "rncv-xml" "letter.xml: valid" "$(cd "$examples/letter" && inside rncv-xml --all s.rnc letter.xml)"
fi

# --- the C programs and the library are hardened, as far as the compiler has flags for it

# hardened FILE KIND: whether what is compiled or linked shows each flag of hardening.sh
hardened() {
    LC_ALL=C readelf -hldW --dyn-syms "$1" > "$room/parts"
    for flag in $("$here/hardening.sh" "$2"); do
        case $flag in
        -D_FORTIFY_SOURCE=2) shown='__[a-z]+_chk(@|$)' ;;
        -fstack-protector-strong) shown='__stack_chk_fail' ;;
        -fPIE | -pie) shown='Type: +DYN' ;;
        -Wl,-z,relro) shown='GNU_RELRO' ;;
        -Wl,-z,now) shown='\(FLAGS\).*NOW' ;;
        *) shown="a sign of $flag" ;;
        esac
        grep -qE "$shown" "$room/parts" || fail "$1 does not show $flag: was it built by these scripts?"
    done
}
if [ "$built" = 1 ] && has readelf && has "${CC:-cc}"; then
    for name in rncv-xml rng2rnc xml2pyx; do
        hardened "$installed/bin/$name" objects
        hardened "$installed/bin/$name" program
    done
    hardened "$installed/lib/librncv.so.$version" library
else
    skip "what hardens the C programs, since they, readelf or a C compiler are not there"
fi

# --- a prefix with a blank: C and Python use what is there

if [ "$built" = 1 ]; then
    prefix="$room/a prefix"
    makes install PREFIX="$prefix" || fail "make install PREFIX= fails: $(cat "$room/said")"
    cat > "$room/judge.c" << 'END'
#include <rncv.h>
#include <stdio.h>

int main(void) {
    rncv_file file = {(const uint8_t *)"s.rnc", 5, (const uint8_t *)"element a { text }", 18};
    rncv_schema schema = RNCV_NOTHING;
    rncv_fault fault;
    rncv_verdict verdict;
    if (rncv_compile(&file, 1, &schema, &fault) != RNCV_DONE || rncv_document_begin(&schema) != RNCV_DONE ||
        rncv_document_feed(&schema, (const uint8_t *)"(a\n)a\n", 6) != RNCV_DONE || rncv_document_end(&schema, &verdict) != RNCV_DONE) {
        return 1;
    }
    rncv_schema_free(&schema);
    printf("%s %d\n", RNCV_VERSION, (int)verdict.kind);
}
END
    if has pkg-config && has "${CC:-cc}"; then
        flags=$(PKG_CONFIG_PATH="$prefix/lib/pkgconfig" pkg-config --cflags --libs rncv)
        # pkg-config writes blanks for a shell
        if eval "\"\${CC:-cc}\" -o \"\$room/judge\" \"\$room/judge.c\" $flags" 2> "$room/log"; then
            same "a program in C" "$version 0" "$(LD_LIBRARY_PATH="$prefix/lib" "$room/judge")"
        else
            fail "a program in C is not compiled by the flags $flags: $(cat "$room/log")"
        fi
    else
        skip "a program in C, since pkg-config or a C compiler is not installed"
    fi
    same "the Python package" "$version valid" "$(env -i PATH=/usr/bin:/bin PYTHONPATH="$prefix/share/rncv/python" python3 -c '
import rncv
print(rncv.__version__, rncv.compile({"s.rnc": b"element a { text }"}).validate(b"(a\n)a\n"))' 2>&1)"
    if [ "$has_xml_library" = 1 ]; then
        same "the Python package, for XML" "valid" "$(env -i PATH=/usr/bin:/bin PYTHONPATH="$prefix/share/rncv/python" python3 -c '
import rncv
print(rncv.compile({"s.rnc": b"element a { text }"}).validate_xml(b"<a/>"))' 2>&1)"
        same "the prefix of rncv_xml.pc" "prefix=$room/a\\ prefix" "$(sed -n 1p "$prefix/lib/pkgconfig/rncv_xml.pc")"
    fi
    makes uninstall PREFIX="$prefix" || fail "make uninstall fails: $(cat "$room/said")"
    same "what make uninstall leaves" "" "$(left_in "$prefix")"

    # README's lines, behind its own installation
    mkdir "$room/home"
    makes install PREFIX="$room/home/.local" || fail "make install PREFIX=\$HOME/.local fails: $(cat "$room/said")"
    runs_judges "$room/home/.local/share/doc/rncv/README.md" "$room/home" || fail "the programs of README.md behind make install PREFIX=\$HOME/.local"
fi

# --- what is not proved: a library that says so, in a checkout where only `make try` has built

# marked_library FOLDER: a copy of the library, whose version says that it is not proved
marked_library() {
    cp -R "$library" "$1"
    ar p "$library/lib/librncv.a" rncv.o > "$room/rncv.o"
    objcopy --localize-symbol=rncv_version "$room/rncv.o"
    "${CC:-cc}" -DRNCV_NOT_PROVED -fPIC -I"$library/include" -c -o "$room/version.o" "$top/programs/library/version.c"
    ld -r -o "$room/both.o" "$room/rncv.o" "$room/version.o"
    "${CC:-cc}" -shared -o "$1/lib/librncv.so.$version" "$room/both.o" -Wl,-soname,"librncv.so.${version%%.*}"
}

if [ "$built" = 1 ] && has "${CC:-cc}" && has objcopy; then
    checkout=$room/checkout
    mkdir -p "$checkout/build/unproved"
    for name in Makefile VERSION README.md CHANGELOG.md docs examples man programs; do
        cp -R "$top/$name" "$checkout/"
    done
    marked_library "$checkout/build/unproved/library"
    cp "$program" "$checkout/build/unproved/rncv"
    cp -R "$xml" "$checkout/build/unproved/xml"
    prefix=$room/tried
    if env -u MAKEFLAGS -u MAKELEVEL make -s -C "$checkout" install PREFIX="$prefix" > "$room/said" 2>&1; then
        same "what make install says behind make try" "install.sh: what is installed was built without proofs (make try)" "$(cat "$room/said")"
        same "rncv-lsp --version, not proved" "rncv-lsp $version (not proved)" "$(env -i PATH=/usr/bin:/bin "$prefix/bin/rncv-lsp" --version)"
        same "rncv.version, not proved" "$version (not proved)" \
            "$(env -i PATH=/usr/bin:/bin PYTHONPATH="$prefix/share/rncv/python" python3 -c 'import rncv; print(rncv.version())' 2>&1)"
    else
        fail "make install behind make try fails: $(cat "$room/said")"
    fi
    if has dpkg-deb; then
        if env -u MAKEFLAGS -u MAKELEVEL make -s -C "$checkout" deb > "$room/said" 2>&1; then
            fail "make deb makes a package of what is not proved"
        fi
        grep -q "was built without proofs" "$room/said" || fail "make deb does not say that the library is not proved: $(cat "$room/said")"
        env -u MAKEFLAGS -u MAKELEVEL make -s -C "$checkout" deb RNCV_NOT_PROVED=1 > "$room/said" 2>&1 || fail "make deb RNCV_NOT_PROVED=1: $(cat "$room/said")"
    fi
    env -u MAKEFLAGS -u MAKELEVEL make -s -C "$checkout" wheel > "$room/said" 2>&1 || fail "make wheel behind make try: $(cat "$room/said")"
    wanted="rncv-$version.dev0+unproved-py3-none-*.whl"
    ! has dpkg-deb || wanted="$wanted rncv_$version~unproved_$(dpkg --print-architecture).deb"
    same "what SHA256SUMS has behind make try" "$wanted" \
        "$(sed -e 's/^[0-9a-f]*  //' -e 's/none-.*\.whl$/none-*.whl/' "$checkout/build/package/SHA256SUMS" | xargs)"
    # what `make` has built comes first
    mkdir -p "$checkout/build/xml"
    cp "$xml/xml2pyx" "$checkout/build/xml/"
    env -u MAKEFLAGS -u MAKELEVEL -u RNCV_REQUIRED make -s -C "$checkout" install PREFIX="$room/proved" > "$room/said" 2>&1 ||
        fail "make install where make has built: $(cat "$room/said")"
    same "what make install takes where make has built" "rncv-lsp rncv-profile xml2pyx" "$(cd "$room/proved/bin" && echo *)"
else
    skip "what make install says of what is not proved, since no library, C compiler or objcopy is there"
fi

# `make try` has the functions of rncv.h, but for two that are C
same "what programs/library/calls.py calls" "$(grep -oE '\brncv_[a-z_]+\(' "$header" | grep -vxE 'rncv_(clause_title|version)\(' | LC_ALL=C sort -u)" \
    "$(python3 -B "$top/programs/library/calls.py" "$top/crates/rncv_c/src/lib.rt" | grep -oE '\brncv_[a-z_]+\(' | LC_ALL=C sort)"

# a machine without the toolchain, or with one that compiles nothing without proofs
mkdir -p "$room/few" "$room/kit/bin"
ln -s "$(command -v dirname)" "$room/few/dirname"
shell=$(command -v sh)
# refuses WORDS: unproved.sh ends with status 2 and one line with these words
refuses() {
    ended=0
    PATH=$room/few "$shell" "$top/programs/library/unproved.sh" "$room/unproved" > "$room/said" 2>&1 || ended=$?
    same "the status of unproved.sh: $1" 2 "$ended"
    same "the lines of unproved.sh: $1" 1 "$(wc -l < "$room/said" | tr -d ' ')"
    grep -qF "$1" "$room/said" || fail "unproved.sh does not say '$1': $(cat "$room/said")"
    [ ! -e "$room/unproved" ] || fail "unproved.sh leaves a folder: $1"
}
refuses "no rt: install the toolchain"
printf '#!%s\necho "%s"\n' "$shell" "$room/kit/PAGE.md" > "$room/few/rt"
chmod 755 "$room/few/rt"
refuses "no $room/kit/bin/rt"

# --- make uninstall, where others have files and folders

prefix="$room/shared prefix"
mkdir -p "$prefix"
# shared_files: what others have, below PREFIX
shared_files() {
    cat << 'END'
lib/pkgconfig/other.pc
share/bash-completion/completions/other
share/doc/other/README.md
share/doc/rncv/examples/mine/own.xml
share/emacs/site-lisp/other.el
share/fish/vendor_completions.d/other.fish
share/man/man1/other.1
share/rncv/schema/mine.txt
share/vim/vimfiles/compiler/other.vim
share/zsh/site-functions/_other
END
}
shared_files | while IFS= read -r path; do
    mkdir -p "$prefix/${path%/*}"
    echo other > "$prefix/$path"
done
mkdir "$prefix/share/applications"
makes install PREFIX="$prefix" || fail "make install where others have files fails: $(cat "$room/said")"
mkdir -p "$prefix/share/rncv/schema/__pycache__" "$prefix/share/rncv/python/rncv/__pycache__"
touch "$prefix/share/rncv/schema/__pycache__/compact_tokens.pyc" "$prefix/share/rncv/python/rncv/__pycache__/__init__.pyc"
makes uninstall PREFIX="$prefix" || fail "make uninstall where others have files fails: $(cat "$room/said")"
same "the files of others that make uninstall leaves" "$(shared_files)" "$(cd "$prefix" && find . ! -type d | LC_ALL=C sort | sed 's|^\./||')"
same "the folders that make uninstall leaves, without their files" "share/applications" "$(cd "$prefix" && find share lib -type d -empty)"
# a second time there is nothing to remove, and a folder that was empty before is not the installation's
mkdir -p "$prefix/share/zsh/empty" "$prefix/lib/empty"
rm -r "$prefix/share/zsh/site-functions" "$prefix/lib/pkgconfig/other.pc"
makes uninstall PREFIX="$prefix" || fail "a second make uninstall fails: $(cat "$room/said")"
for folder in share/zsh/empty lib/empty lib/pkgconfig share/applications bin; do
    [ -d "$prefix/$folder" ] || fail "a second make uninstall removes $folder, which is not of the installation"
done

# --- man pages

pages=$installed/share/man
if has mandoc; then
    for page in "$top"/man/*.[1-8]; do
        mandoc -Tlint -Wwarning "$page" > "$room/out" 2>&1 || fail "$(cat "$room/out")"
    done
elif has man; then
    for page in "$top"/man/*.[1-8]; do
        man --warnings -l "$page" 2>&1 > /dev/null | grep . > "$room/out" && fail "$page: $(cat "$room/out")"
    done
else
    skip "the man pages, since neither mandoc nor man is installed"
fi
# see_also PAGE: the pages that it names at its end, as NAME.SECTION
see_also() { sed -n -e '1,/^\.SH SEE ALSO$/d' -e 's/\\-/-/g' -e 's/^\.BR \([a-z0-9-]*\) (\([1-8]\)).*/\1.\2/p' "$1"; }
# each page names that of the proved program, which names it
see_also "$pages/man1/rncv.1" > "$room/named"
for page in "$pages"/man[1-8]/*; do
    name=${page##*/}
    case $name in
    rncv.1 | rncv_*) continue ;;
    rng2rnc.1 | xml2pyx.1) ;; # they are rncv-xml(1)
    *) see_also "$page" | grep -qxF rncv.1 || fail "$name does not name rncv(1) under SEE ALSO" ;;
    esac
    grep -qxF "$name" "$room/named" || fail "rncv(1) does not name $name under SEE ALSO"
done
while IFS= read -r name; do
    [ -f "$pages/man${name##*.}/$name" ] || fail "rncv(1) names $name, and there is no such page"
done < "$room/named"
for clause in 1 2 3 4 5 6 7 8 9 10 11 12 13; do
    grep -q "^\.B P$clause\$" "$pages/man5/rncv-pyx.5" || fail "rncv-pyx(5) does not have P$clause"
done
same "the number of clauses of documents" 13 "$(grep -c '^### P[0-9]*:' "$top/docs/use/CLAUSES.md")"
for name in $(grep -oE '\brncv_[a-z_]+\(' "$header" | tr -d '(' | sort -u); do
    grep -q "$name(" "$pages/man3/rncv.3" || fail "rncv(3) does not have $name"
    [ -f "$pages/man3/$name.3" ] || fail "there is no page $name(3)"
done
tr '\n' ' ' < "$pages/man3/rncv.3" > "$room/page"
grep -oE 'RNCV_[A-Z]+ = [0-9]' "$header" > "$room/numbers"
while IFS=' =' read -r name number; do
    grep -qE "${name}[ \"]*\($number\)" "$room/page" || fail "rncv(3) does not have $name = $number"
done < "$room/numbers"

mkdir "$room/editing"
cp "$examples/letter/s.rnc" "$examples/letter/untitled.xml" "$room/editing"

# --- completions: each option of each program

shells=$installed/share
for name in rncv-xml rng2rnc xml2pyx rncv-profile rncv-lsp; do
    [ -e "$installed/bin/$name" ] || continue
    page=$pages/man1/$name.1
    if grep -q '^\.so ' "$page"; then page=$pages/$(sed 's/^\.so //' "$page"); fi
    sed 's/\\-/-/g' "$page" > "$room/page"
    for option in $(inside "$name" --help | grep -oE '(^|[ ,[])--[a-z][a-z0-9-]+' | tr -d ' ,[' | sort -u); do
        grep -qF -e "$option" "$room/page" || fail "$name(1) does not have $option"
        grep -qF -e "$option" "$shells/bash-completion/completions/rncv" || fail "the completion for bash does not have $option of $name"
        grep -qF -e "$option" "$shells/zsh/site-functions/_rncv" || fail "the completion for zsh does not have $option of $name"
        grep -qE -e "-l ${option#--}( |\$)" "$shells/fish/vendor_completions.d/$name.fish" || fail "the completion for fish does not have $option of $name"
    done
done
if has bash; then
    # completed COMMAND WORD..: how bash completes the last word, where only s.rnc and untitled.xml are; `compopt` needs a line that is edited
    completed() {
        # shellcheck disable=SC2016  # bash reads this
        (cd "$room/editing" && bash -c 'compopt() { :; }; . "$1"; shift; COMP_WORDS=("$@"); COMP_CWORD=$(($# - 1)); call=$(complete -p "$1"); call=${call#*-F };
            "${call% *}" "$1" "${*: -1}" "${*: -2:1}"; echo "${COMPREPLY[@]}"' bash "$shells/bash-completion/completions/rncv" "$@" 2>&1)
    }
    same "an option in bash" "--format" "$(completed rncv-xml --fo)"
    same "a schema in bash" "s.rnc" "$(completed rncv-xml "")"
    same "a document in bash" "untitled.xml s.rnc" "$(completed rncv-xml s.rnc "")"
    same "a command in bash" "check" "$(completed rncv c)"
    same "a file in bash" "s.rnc" "$(completed rncv check "")"
else
    skip "the completion for bash, which is not installed"
fi
if has zsh; then
    zsh -n "$shells/zsh/site-functions/_rncv" || fail "the completion for zsh is not read"
    # shellcheck disable=SC2016  # zsh reads this
    same "what zsh finds" "_rncv" "$(zsh -fc 'fpath=("$1" $fpath); autoload -Uz compinit; compinit -D -u; print -r -- $_comps[rncv-xml]' zsh "$shells/zsh/site-functions")"
else
    skip "the completion for zsh, which is not installed"
fi
if has fish; then
    # shellcheck disable=SC2016  # fish reads this
    same "what fish completes" "--format" "$(HOME=$room fish --no-config -c 'source $argv[1]; complete -C "rncv-xml --form"' "$shells/fish/vendor_completions.d/rncv-xml.fish" | cut -f 1)"
else
    skip "the completion for fish, which is not installed"
fi

# --- editors

if [ "$built" = 1 ] && has vim && vim --version | grep -q '+quickfix' && vim --version | grep -q '+eval'; then
    (cd "$room/editing" && env PATH="$installed/bin:$PATH" vim -Nu NONE -i NONE -es -c "let &runtimepath .= ',' . escape('$shells/vim/vimfiles', ' ')" \
        -c 'compiler rncv' -c 'silent make! s.rnc' -c 'call writefile(map(getqflist(), "bufname(v:val.bufnr) . v:val.lnum . \":\" . v:val.col"), "found")' \
        -c 'qall!' untitled.xml < /dev/null > "$room/out" 2>&1) || true
    same "the place that Vim finds" "untitled.xml3:3" "$(cat "$room/editing/found" 2> /dev/null)"
else
    skip "the settings for Vim, since it (with quickfix) or rncv-xml is not there"
fi
if has emacs; then
    same "the place that Emacs finds" "untitled.xml 3 3" "$(cd "$room/editing" && emacs -Q --batch -L "$shells/emacs/site-lisp" --eval "
(progn
  (require 'rncv)
  (let ((pattern (cadr (assq 'rncv compilation-error-regexp-alist-alist)))
        (line \"untitled.xml:3:3: invalid: <subject> is not allowed here; expected <title>\"))
    (when (string-match pattern line)
      (princ (format \"%s %s %s\" (match-string 1 line) (match-string 2 line) (match-string 3 line))))))" 2>&1)"
    cp "$shells/emacs/site-lisp/rncv.el" "$room/rncv.el"
    emacs -Q --batch --eval '(setq byte-compile-error-on-warn t)' -f batch-byte-compile "$room/rncv.el" > "$room/out" 2>&1 || fail "rncv.el: $(cat "$room/out")"
else
    skip "the settings for Emacs, which is not installed"
fi

# --- what is written for a shell

if has shellcheck; then
    shellcheck "$top/dev/setup.sh" "$here"/*.sh || fail "shellcheck"
    shellcheck -s bash "$here/completions/rncv.bash" || fail "shellcheck"
else
    skip "shellcheck, which is not installed"
fi

# --- dev/setup.sh, with stand-ins for what would change the machine

mkdir "$room/standins"
cat > "$room/standins/apt-get" << 'END'
#!/bin/sh
echo "apt-get $*" >> "$STANDIN_ASKED"
exit 100
END
cat > "$room/standins/id" << 'END'
#!/bin/sh
echo "$STANDIN_ID"
END
chmod 755 "$room/standins/apt-get" "$room/standins/id"
# sets_up ID CC: its output is in `said`
sets_up() {
    rm -f "$room/asked"
    STANDIN_ASKED=$room/asked STANDIN_ID=$1 CC=$2 PATH=$room/standins:$PATH "$top/dev/setup.sh" > "$room/said" 2>&1 ||
        fail "dev/setup.sh fails: $(cat "$room/said")"
}
sets_up 0 "${CC:-cc}"
if [ -s "$room/said" ]; then
    skip "dev/setup.sh where all is there: $(cat "$room/said")"
else
    [ ! -e "$room/asked" ] || fail "dev/setup.sh asks apt-get where all is there"
fi
sets_up 1000 "$room/none"
[ ! -e "$room/asked" ] || fail "dev/setup.sh asks apt-get without being root"
for word in "this is not root" "a C compiler"; do
    grep -q "$word" "$room/said" || fail "dev/setup.sh does not say what is missing: $(cat "$room/said")"
done
sets_up 0 "$room/none"
same "what dev/setup.sh asks of apt-get" "install update" "$(grep -oE '(install|update)( |$)' "$room/asked" | tr -d ' ' | tr '\n' ' ' | sed 's/ $//')"
grep -q "apt-get did not install it" "$room/said" || fail "dev/setup.sh does not say that apt-get failed: $(cat "$room/said")"

beside
[ "$status" = 0 ] && echo "programs/packaging/test.sh: ok" || echo "programs/packaging/test.sh: FAILED"
exit "$status"
