#!/bin/sh
# The gate, `rt ci`, and then the tests of the Python package over the program that it built. The last
# line is 'N passed, M failed' of both together.
#
#   tools/test.sh
#
# There is one check for each processor. Without RT_JOBS, rt guesses by their lines that the large
# crates need most of the memory, and runs each of them alone.
set -u
cd "$(dirname "$0")/.." || exit 2
RT_JOBS=${RT_JOBS-$(nproc)}
export RT_JOBS

# Runs a command, shows its lines, and keeps the last one in the file `last`.
shown() {
    { "$@"; echo "status $?"; } 2>&1 | awk -v last="$last" '
        /^status [0-9]+$/ { exit substr($0, 8) }
        { print; fflush(); line = $0 }
        END { print line > last }'
}

# The number before a word in the last line.
number() {
    sed -n "s/.*\b\([0-9][0-9]*\) $1.*/\1/p" "$last"
}

last=$(mktemp)
trap 'rm -f "$last"' EXIT
shown rt ci
gate=$?
passed=$(number passed) failed=$(number failed)

PIMTREE=$PWD/crates/pimtree/out/pimtree
export PIMTREE
shown python3 python/tests/run.py
tests=$?
echo "$((${passed:-0} + $(number passed))) passed, $((${failed:-1} + $(number failed))) failed"
[ "$gate" -eq 0 ] && [ "$tests" -eq 0 ]
