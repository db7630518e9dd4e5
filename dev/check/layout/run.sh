#!/bin/sh
# Finds in some seconds what the gate refuses before it proves anything. It writes the layout of each crate's files. Then it reports which must-fail edits
# cannot be applied, which sources are outside the crates, and which files changed. It is not part of the gate.
#
#   dev/check/layout/run.sh
cd "$(dirname "$0")/../../.." || exit
for crate in crates/*/; do
  (cd "$crate" && rt fmt)
done
git ls-files '*.rt' '*.antt' | grep -v '^crates/' && echo "these are outside the crates: the gate refuses that"
git status --short
