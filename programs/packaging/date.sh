#!/bin/sh
# Prints the date that packages have, in seconds since 1970:   programs/packaging/date.sh
#
# It is SOURCE_DATE_EPOCH, else the date of the last commit. What is no checkout, as the unpacked source tarball, has the date of its file VERSION.
set -eu

top=$(cd "$(dirname "$0")/../.." && pwd)
if [ -n "${SOURCE_DATE_EPOCH:-}" ]; then
    echo "$SOURCE_DATE_EPOCH"
elif [ -e "$top/.git" ]; then
    git -C "$top" log -1 --format=%ct
else
    stat -c %Y "$top/VERSION"
fi
