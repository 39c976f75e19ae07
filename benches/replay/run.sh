#!/bin/sh
# Replays one capture by pimtree and by plain Rust, five times each and by turns. It stops if the
# reports differ. It prints how many Join/Prune packets a second each handles in its fastest run.
# capture.rs describes the capture.
#
#   benches/replay/run.sh PIMTREE [PACKETS [STATES [turns|bursts [4|6]]]]
#
# PIMTREE is the built program. Unless given, there are 100,000 PACKETS that refresh 10,000 STATES
# over IPv4, with the neighbours by turns.
set -eu

pimtree=$1
packets=${2:-100000}
states=${3:-10000}
order=${4:-turns}
family=${5:-4}
here=$(cd "$(dirname "$0")" && pwd)
work=$(mktemp -d)
trap 'rm -rf "$work"' EXIT

for program in capture plain; do
    rustc --edition 2021 -O -C target-cpu=x86-64-v2 -o "$work/$program" "$here/$program.rs"
done
"$work/capture" "$packets" "$work/bench.pcap" "$states" "$order" "$family"
if [ "$family" = 6 ]; then
    rp=2001:db8::9
    router=fe80::2
else
    rp=10.9.9.9
    router=10.0.0.2
fi

# Runs a program, and keeps its report and its time in nanoseconds: run NAME PROGRAM
run() {
    start=$(date +%s%N)
    "$2" replay --rp "$rp" --limit 100000 "$router@$work/bench.pcap" > "$work/$1.report"
    end=$(date +%s%N)
    echo $((end - start)) >> "$work/$1.times"
}

for turn in 1 2 3 4 5; do
    run pimtree "$pimtree"
    run plain "$work/plain"
    cmp "$work/pimtree.report" "$work/plain.report"
done
echo "reports of $(wc -l < "$work/plain.report") lines, byte-equal"

# Prints the times of a program: tell NAME
tell() {
    awk -v name="$1" -v packets="$packets" '
        NR == 1 || $1 < best { best = $1 }
        { runs = runs sprintf(" %.2f", $1 / 1e9) }
        END { printf "%s: %d packets a second, runs of%s s\n", name, packets * 1e9 / best, runs }' "$work/$1.times"
}

tell pimtree
tell plain
awk 'FNR == 1 || $1 < best[FILENAME] { best[FILENAME] = $1 }
    END { printf "pimtree takes %.2f times as long as plain Rust\n", best[ARGV[1]] / best[ARGV[2]] }' \
    "$work/pimtree.times" "$work/plain.times"
