#!/bin/sh
# Runs a built program, or a built test, once for each of its allocations, with that allocation
# refused. It prints the results and the number of runs with each: the status, and the error that
# was printed, otherwise the last line of output. A run of more than 60 s has status 124. Each run
# reads the same standard input. Examples, at the top of the repository:
#
#   tools/refuse_memory.sh crates/pimtree/out/pimtree check < examples/join-star.pim
#   tools/refuse_memory.sh crates/pim_down_tests/out/pim_down_tests_tests tests::hello::neighbours::refusals_change_nothing
#
# each_growth_refused.sh does this for all tests of refused memory.
set -eu
folder=$(mktemp -d)
trap 'rm -r "$folder"' EXIT
cc -O1 -shared -fPIC -o "$folder/refuse.so" "$(dirname "$0")/refuse_memory.c"
cat > "$folder/input"

# the result of a run in which allocation number $1 is refused, or none if it is 0
answer() {
    number=$1
    shift
    status=0
    timeout 60 env REFUSED="$number" ALLOCATIONS="$folder/count" LD_PRELOAD="$folder/refuse.so" \
        "$@" < "$folder/input" > "$folder/said" 2>&1 || status=$?
    error=$(sed -n '/^error: /{p;q;}' "$folder/said")
    echo "status $status: ${error:-$(tail -n 1 "$folder/said")}"
}

echo "none refused: $(answer 0 "$@")"
allocations=$(cat "$folder/count")
echo "each of $allocations refused in turn:"
for number in $(seq 1 "$allocations"); do
    answer "$number" "$@"
done | sort | uniq -c
