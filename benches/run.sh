#!/bin/sh
# Measures a part of the engine and plain Rust of the same steps, in one run. First it runs the
# Rattle program, which is proved and then built by LLVM. Then it runs plain.rs, if there is one,
# built by rustc. It works on a copy of the repository. What earlier checks left in crates/*/out
# makes it quicker.
#
#   benches/run.sh NAME [ARGUMENT..]        NAME is a folder beside this script; replay has its own
#                                           run.sh
#   benches/run.sh --allocations NAME ARGUMENT..
#                                           runs the Rattle program alone, once for each ARGUMENT,
#                                           and prints the number of allocations of each run
#
# The Rattle source is called main.rt.in, since the gate takes each file that ends in .rt for a
# source of a crate.
set -eu

counts=no
if [ "$1" = --allocations ]; then
    counts=yes
    shift
fi
name=$1
shift
here=$(cd "$(dirname "$0")" && pwd)
copy=$(mktemp -d)
trap 'rm -rf "$copy"' EXIT

cp -a "$here/../crates" "$here/../crates.txt" "$here/../HANDLES" "$copy/"
mkdir -p "$copy/crates/bench_$name/src"
cp "$here/$name/main.rt.in" "$copy/crates/bench_$name/src/main.rt"
echo "bench_$name: $(cat "$here/$name/libraries")" >> "$copy/crates.txt"
if [ "$counts" = no ] && [ -e "$here/$name/plain.rs" ]; then
    rustc --edition 2021 -O -C target-cpu=x86-64-v2 -o "$copy/plain" "$here/$name/plain.rs"
fi

cd "$copy/crates/bench_$name"
if [ "$counts" = yes ]; then
    cc -O1 -shared -fPIC -o "$copy/count.so" "$here/../tools/refuse_memory.c"
    rt run -- "$1" > "$copy/log" 2>&1 || { tail -20 "$copy/log"; exit 1; }
    for argument in "$@"; do
        env ALLOCATIONS="$copy/count" LD_PRELOAD="$copy/count.so" "out/bench_$name" "$argument"
        echo "$name $argument: $(cat "$copy/count") allocations"
    done
    exit 0
fi
echo "Rattle:"
rt run -- "$@" 2> "$copy/log" || { tail -20 "$copy/log"; exit 1; }
[ -e "$copy/plain" ] || exit 0
echo "plain Rust:"
"$copy/plain" "$@"
