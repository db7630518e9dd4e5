#!/bin/sh
# Writes SHA256SUMS of the other files in a folder:   programs/packaging/sums.sh [FOLDER]      (FOLDER, else build/package)
#
# `make dist`, `make deb` and `make wheel` end with it. `sha256sum -c SHA256SUMS` in that folder checks the files.
set -eu

top=$(cd "$(dirname "$0")/../.." && pwd)
cd "${1:-$top/build/package}"
find . -maxdepth 1 -type f ! -name 'SHA256SUMS*' | sed 's|^\./||' | LC_ALL=C sort | while IFS= read -r file; do sha256sum "$file"; done > SHA256SUMS.new
mv SHA256SUMS.new SHA256SUMS
