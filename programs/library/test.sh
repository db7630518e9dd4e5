#!/bin/sh
# Builds the C library and tests it:   programs/library/test.sh
#
# LLVM builds it once, and Rattle's own compiler once. For each build the script tests: each test program, alone, under valgrind and with the sanitizers
# of the C compiler; the names that the shared object exports against those of the header; the header as C and as C++; and the shared object from Python.
# What is not installed is reported and skipped.
# It writes below build/library-tests/. RNCV_LIBRARY names a folder where build.sh has built the library by LLVM. That is then not built again.
# RNCV_ARCHIVE names a built librncv_c.a to test instead, and then nothing is proved here.
set -eu

here=$(cd "$(dirname "$0")" && pwd)
top=$(cd "$here/../.." && pwd)
cc=${CC:-cc}
warnings="-std=c11 -Wall -Wextra -Wconversion -Werror -pedantic"
status=0

run() {
    echo "$*"
    "$@" || status=1
}

for backend in ${BACKENDS:-llvm rattle}; do
    build=$top/build/library-tests/$backend
    if [ "$backend" = llvm ] && [ -n "${RNCV_LIBRARY:-}" ] && [ -f "$RNCV_LIBRARY/lib/librncv.a" ]; then
        build=$(cd "$RNCV_LIBRARY" && pwd)
    else
        "$here/build.sh" "$build" "$backend"
    fi
    mkdir -p "$build/tests"

    # the header alone, as C and as C++
    echo '#include "rncv.h"' > "$build/tests/header.c"
    $cc $warnings -I"$build/include" -fsyntax-only "$build/tests/header.c"
    if command -v "${CXX:-c++}" > /dev/null; then
        "${CXX:-c++}" -x c++ -std=c++11 -Wall -Wextra -Werror -I"$build/include" -fsyntax-only "$build/tests/header.c"
    else
        echo "no C++ compiler: the header is not read as C++"
    fi

    # the names that both libraries export are those of the header, and no other
    nm -D --defined-only "$build/lib/librncv.so" | sed 's/.* //' | sort > "$build/tests/exported"
    grep -oE '\brncv_[a-z_]+\(' "$here/include/rncv.h" | tr -d '(' | sort -u > "$build/tests/declared"
    diff "$build/tests/declared" "$build/tests/exported"
    nm -g --defined-only "$build/lib/librncv.a" | awk 'NF == 3 { print $3 }' | sort > "$build/tests/exported"
    diff "$build/tests/declared" "$build/tests/exported"

    for source in "$here"/tests/*_test.c; do
        name=$(basename "$source" .c)
        wraps=
        if grep -q __wrap_malloc "$source"; then
            wraps="-Wl,--wrap=malloc,--wrap=realloc"
        elif grep -q __wrap_free "$source"; then
            wraps="-Wl,--wrap=realloc,--wrap=free"
        fi
        $cc $warnings -O2 -I"$build/include" $wraps -o "$build/tests/$name" "$source" "$build/lib/librncv.a" -lpthread
        run "$build/tests/$name"
        if command -v valgrind > /dev/null; then
            RNCV_QUICK=1 run valgrind --quiet --leak-check=full --show-leak-kinds=all --error-exitcode=9 "$build/tests/$name"
            if grep -q pthread_create "$source"; then
                RNCV_QUICK=1 run valgrind --quiet --tool=helgrind --error-exitcode=9 "$build/tests/$name"
            fi
        else
            echo "no valgrind: $name is not run under it"
        fi
        $cc $warnings -g -O1 -fsanitize=address,undefined -fno-sanitize-recover=all -I"$build/include" $wraps \
            -o "$build/tests/$name.sanitized" "$source" "$build/lib/librncv.a" -lpthread
        RNCV_QUICK=1 run "$build/tests/$name.sanitized"
    done

    # the shared object, called from Python
    run python3 -B "$here/tests/library_test.py" "$build/lib/librncv.so"
    run python3 -B "$here/tests/rows_test.py" "$build/lib/librncv.so"
    run "$top/programs/python/test.sh" "$build/lib/librncv.so"

    # the programs of README and of docs/use/LIBRARY.md
    run python3 -B "$here/tests/readme_test.py" "$build"

    # a program that is linked as pkg-config says, with the shared object
    if command -v pkg-config > /dev/null; then
        found=$(PKG_CONFIG_PATH="$build/lib/pkgconfig" pkg-config --cflags --libs rncv)
        $cc $warnings -O2 -o "$build/tests/shared" "$here/tests/judging_test.c" $found
        LD_LIBRARY_PATH="$build/lib" run "$build/tests/shared"
    else
        echo "no pkg-config: the shared object is not linked by it"
    fi
done

[ "$status" = 0 ] && echo "programs/library/test.sh: ok" || echo "programs/library/test.sh: FAILED"
exit "$status"
