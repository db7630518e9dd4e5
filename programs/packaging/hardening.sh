#!/bin/sh
# Prints the flags that harden what is compiled, as far as the C compiler takes them:   programs/packaging/hardening.sh objects|program|library
#
# `objects` are for compiling a program, `program` for linking it, and `library` for linking a shared library. They are the flags that Debian asks for.
# Each is tried on a few lines of C, by CC and with CFLAGS (else -O2), since linkers differ, and since checked calls of the libc need -O. A caller puts
# them before its CFLAGS, which then have the last word.
set -eu

cc=${CC:-cc}
room=$(mktemp -d)
trap 'rm -rf "$room"' EXIT
cat > "$room/try.c" << 'END'
#include <stdio.h>
#include <string.h>

static char text[80];

int main(int count, char **words) {
    strncpy(text, words[count - 1], sizeof text - 1);
    return puts(text) < 0;
}
END

# takes FLAG..: whether the lines are compiled and linked with these flags, without a warning
takes() {
    # shellcheck disable=SC2086  # a compiler and flags are words
    $cc -Werror "$@" ${CFLAGS:--O2} -o "$room/try" "$room/try.c" 2> "$room/log"
}

# offers FLAG [FLAG..]: prints the first flag if it is taken with the others
offers() { ! takes "$@" || echo "$1"; }

asked=" ${CFLAGS:-} ${LIBS:-} "
case ${1:-} in
objects)
    case $asked in
    *" -fsanitize="*) ;; # a sanitizer itself checks the calls of the libc
    *) offers -D_FORTIFY_SOURCE=2 ;;
    esac
    offers -fstack-protector-strong
    offers -fPIE
    ;;
program)
    case $asked in
    *" -static "* | *" -no-pie "* | *" -fno-pie "*) ;;
    *) offers -pie -fPIE ;;
    esac
    offers -Wl,-z,relro
    offers -Wl,-z,now
    ;;
library)
    offers -Wl,-z,relro -shared -fPIC
    offers -Wl,-z,now -shared -fPIC
    ;;
*) echo "usage: programs/packaging/hardening.sh objects|program|library" >&2; exit 2 ;;
esac
