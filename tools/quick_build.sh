#!/bin/sh
# Builds a program without any proof, in a minute or some.
#
#   tools/quick_build.sh [NAME] [OUT]      NAME is a program of crates/, pimtree unless given, or a
#                                          folder of benches/; OUT is the program to write, out/NAME
#                                          unless given
set -eu
top=$(cd "$(dirname "$0")/.." && pwd)
name=${1:-pimtree}
out=${2:-$top/out/$name}
mkdir -p "$(dirname "$out")"
python3 "$top/tools/unproved_build.py" "$name" "$out"
echo "built $out: not proved"
