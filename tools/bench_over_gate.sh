#!/bin/sh
# Builds and runs the Rattle program of a bench over the libraries that `rt ci` proved on this
# machine from the same sources. This takes some minutes, since no library is proved again.
#
#   tools/bench_over_gate.sh NAME FOLDER [ARGUMENT..]
#
# NAME is a folder of benches/. FOLDER is new: a clone of the last commit, which is left in place.
# Its crates/bench_NAME/out/bench_NAME can be run again, by turns with others or on one processor.
set -eu
name=$1
folder=$2
shift 2
here=$(cd "$(dirname "$0")/.." && pwd)
git clone -q "$here" "$folder"
mkdir -p "$folder/crates/bench_$name/src"
cp "$here/benches/$name/main.rt.in" "$folder/crates/bench_$name/src/main.rt"
echo "bench_$name: $(cat "$here/benches/$name/libraries")" >> "$folder/crates.txt"
cd "$folder/crates/bench_$name"
python3 ../../tools/over_gate.py libraries
python3 ../../tools/over_gate.py stamps
rt run -- "$@" 2> "$folder/log" || { tail -20 "$folder/log"; exit 1; }
