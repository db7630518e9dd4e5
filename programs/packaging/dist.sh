#!/bin/sh
# Makes a tarball of the sources:   programs/packaging/dist.sh [FOLDER]      (`make dist`; FOLDER, else build/package)
#
# It needs git, GNU tar and gzip, and no network. The tarball has what the last commit has, without .git, in one folder rncv-VERSION. What is not committed is
# not in it. Names are sorted, the owner is 0, who may write is the owner, and each date is that of date.sh. So a commit has one tarball, as long as tar and
# gzip are the same.
set -eu
umask 022

top=$(cd "$(dirname "$0")/../.." && pwd)
folder=${1:-$top/build/package}
for tool in git tar gzip; do
    command -v "$tool" > /dev/null || { echo "dist.sh: no $tool" >&2; exit 2; }
done
[ -e "$top/.git" ] || { echo "dist.sh: $top is no checkout of git" >&2; exit 2; }
date=$("$top/programs/packaging/date.sh")
version=$(git -C "$top" show HEAD:VERSION)
name=rncv-$version
[ -z "$(git -C "$top" status --porcelain 2>&1 | head -n 1)" ] || echo "dist.sh: what is not committed is not in the tarball" >&2

mkdir -p "$folder"
folder=$(cd "$folder" && pwd)
room=$(mktemp -d)
trap 'rm -rf "$room"' EXIT

# in steps, since a pipe of sh hides what fails before its end
git -C "$top" archive --format=tar --prefix="$name/" -o "$room/commit.tar" HEAD
tar -C "$room" -xf "$room/commit.tar"
tar -C "$room" --format=gnu --sort=name --owner=0 --group=0 --numeric-owner --mode=go=u,go-w --mtime="@$date" -cf "$room/$name.tar" "$name"
gzip -9n "$room/$name.tar"
mv "$room/$name.tar.gz" "$folder/$name.tar.gz"
echo "$folder/$name.tar.gz"
