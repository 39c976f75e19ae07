#!/bin/sh
# Tries the edits (wrong bodies) in crates/NAME/more-must-fail, of these crates or of all. Each must
# be refused. The gate leaves them out to save time. It works on a copy of the repository.
#
#   tools/more_must_fail.sh [CRATE..]
set -eu

top=$(cd "$(dirname "$0")/.." && pwd)
[ $# -gt 0 ] || set -- $(cd "$top/crates" && ls -d */more-must-fail | cut -d/ -f1)

copy=$(mktemp -d)
trap 'rm -rf "$copy"' EXIT
cp -a "$top/." "$copy/"
for crate in "$@"; do
    folder=$copy/crates/$crate
    mkdir -p "$folder/must-fail"
    rm -f "$folder"/must-fail/*.edit
    cp "$folder"/more-must-fail/*.edit "$folder/must-fail/"
done
cd "$copy"
rt must-fail "$@"
