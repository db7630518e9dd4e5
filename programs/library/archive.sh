#!/bin/sh
# Makes librncv_c.a, the static library of the crate rncv_c:   programs/library/archive.sh BACKEND FILE      (BACKEND: llvm or rattle)
#
# `rt lib` makes it, and proves what has changed since its last run. Without such a run that is all crates below, one after the other. If `rt ci` has just
# passed on these sources, only rncv_c is checked once more, over the libraries that `rt ci` left in crates/*/out/rlib, which `rt lib` does not take. The
# variable RNCV_AFTER_CI says so of this checkout, and RNCV_PROVED names the folder where programs/prove.py had it. This script does not check that.
set -eu

here=$(cd "$(dirname "$0")" && pwd)
top=$(cd "$here/../.." && pwd)
backend=$1
file=$2
kit=$(dirname "$(rt doc)")
proved=${RNCV_PROVED:-$top}
proved=$(cd "$proved" && pwd)
crate=$top/crates/rncv_c

if [ -z "${RNCV_AFTER_CI:-}${RNCV_PROVED:-}" ]; then
    (cd "$crate" && rt lib --backend "$backend")
    cp "$crate/out/librncv_c.a" "$file"
    exit
fi

set -- --crate-name rncv_c src/lib.rt --crate-type staticlib --extern "std=$kit/rlibs/std.rlib"
for library in $(sed -n 's/^rncv_c staticlib://p' "$top/crates.txt"); do
    if [ -d "$proved/crates/$library" ]; then
        set -- "$@" --extern "$library=$proved/crates/$library/out/rlib/$library.rlib"
    else
        set -- "$@" --extern "$library=$kit/rlibs/$library.rlib"
    fi
done
set -- "$@" -L "dependency=$kit/rlibs"
for folder in "$proved"/crates/*/out/rlib; do
    set -- "$@" -L "dependency=$folder"
done
set -- "$@" --antt-project "$kit/rattle/logic/antt-project.json" --links rncv_c=

# one check serves both compilers
checked=$top/build/library-checked
[ -z "${RNCV_PROVED:-}" ] || checked=$proved/library-checked
mkdir -p "$top/build"
cd "$crate"
[ -d "$checked" ] || "$kit/bin/rattle" check "$@" --logic-built "$kit/logic_built" --jobs 2 -o "$checked"
"$kit/bin/rattle" build "$@" --crate-checked "$checked" --toolchain "$kit/toolchain" --backend "$backend" -o "$file"
