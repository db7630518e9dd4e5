#!/bin/sh
# Installs what the tools want, on Debian and its kin:   dev/setup.sh
#
# That is a C compiler, binutils, make, Python 3, and the headers of libxml2. What is there is left alone. It prints the command that it runs, and
# changes nothing else. Where it cannot install (it is not root, there is no apt-get, or no network), it says what is missing. Its status is 0 then too.
set -eu

room=$(mktemp -d)
trap 'rm -rf "$room"' EXIT
cc=${CC:-cc}

# Sets `missing`, as words for people, and `packages`, as those of Debian.
look() {
    missing=
    packages=
    printf '#include <stdio.h>\nint main(void) { return puts("") < 0; }\n' > "$room/c.c"
    if command -v "$cc" > /dev/null && $cc -o "$room/c" "$room/c.c" 2> "$room/log"; then
        :
    else
        missing="$missing
  a C compiler with its headers ($cc)"
        packages="$packages gcc libc6-dev"
    fi
    for tool in ar ld nm objcopy; do
        command -v "$tool" > /dev/null && continue
        missing="$missing
  binutils ($tool)"
        packages="$packages binutils"
        break
    done
    command -v make > /dev/null || {
        missing="$missing
  make"
        packages="$packages make"
    }
    python3 -c 'import sys; sys.exit(sys.version_info < (3, 9))' 2> "$room/log" || {
        missing="$missing
  Python 3.9 or later (python3)"
        packages="$packages python3"
    }
    printf '#include <libxml/parser.h>\n#if LIBXML_VERSION < 20910 || LIBXML_VERSION >= 21200\n#error\n#endif\nint main(void) { xmlInitParser(); return 0; }\n' > "$room/xml.c"
    # shellcheck disable=SC2046  # these are words
    if command -v "$cc" > /dev/null && $cc $(xml2-config --cflags 2> "$room/log" || echo -I/usr/include/libxml2) -o "$room/xml" "$room/xml.c" -lxml2 2> "$room/log"; then
        :
    else
        missing="$missing
  libxml2 2.9.10 to 2.11, with its headers"
        packages="$packages libxml2-dev"
    fi
}

# Prints a command and runs it.
run() {
    echo "dev/setup.sh: $*"
    "$@"
}

install() {
    # no question is asked, and a network that is not there is no long wait
    # shellcheck disable=SC2086  # the packages are words
    run env DEBIAN_FRONTEND=noninteractive apt-get -q -o Acquire::Retries=0 -o Acquire::http::Timeout=20 install -y --no-install-recommends $packages
}

look
[ -n "$missing" ] || exit 0
if [ "$(id -u)" != 0 ]; then
    why="this is not root"
elif ! command -v apt-get > /dev/null; then
    why="there is no apt-get"
else
    why="apt-get did not install it"
    install || {
        run env DEBIAN_FRONTEND=noninteractive apt-get -q -o Acquire::Retries=0 -o Acquire::http::Timeout=20 update && install
    } || true
    look
    [ -n "$missing" ] || exit 0
fi
echo "dev/setup.sh: missing, and not installed, since $why:$missing"
echo "dev/setup.sh: on Debian: apt-get install$packages"
