#!/bin/sh
# Tests what calls do when memory is refused. It runs each built test of the list below once for
# each of its allocations, with that allocation refused (refuse_memory.sh), and prints the results.
# The list names the tests and the calls that they make.
#
#   tools/each_growth_refused.sh             all tests, and all scenarios
#   tools/each_growth_refused.sh CRATE..     the tests of these crates
#   tools/each_growth_refused.sh scenarios   the scenarios
#
# The test checks what the call returned when memory was refused, and what it left or wrote. It also
# checks what the same call then returns with memory. A run is right if the test passes, or ends for
# want of memory ("error: AllocError"). A test ends so where it was refused memory itself. Most also
# do so at the end where the call was: without a refusal they pass only if the call succeeds at once.
# Any other run is wrong, such as one that aborts, ends by a signal, or takes more than 60 s. Then the
# last line says so, and the status is 1. The status is also 1 if a test isn't built, fails with
# memory, or allocates nothing.
#
# A scenario is a session with its answers. A command that is answered `fault memory` is given
# again, and then all answers must be as expected; scenarios_refused.py says the rest.
#
# The built tests are in crates/NAME/out/NAME_tests, the program in crates/pimtree/out/pimtree.
# `rt ci` at the top of the repository leaves them there. So do `rt test` and `rt build` in the
# folder of a crate, which they prove first.
set -eu
here=$(cd "$(dirname "$0")" && pwd)
said=$(mktemp)
trap 'rm "$said"' EXIT
wrong=0
ran=0

# whether the results in $said are right
is_right() {
    [ "$(head -n 1 "$said")" = "none refused: status 0: test result: ok" ] || return 1
    [ "$(wc -l < "$said")" -gt 2 ] || return 1
    ! sed 1,2d "$said" | grep -qvE ' status (0: test result: ok|101: error: AllocError)$'
}

# runs the test $2 of the crate $1
refuse() {
    built=$here/../crates/$1/out/$1_tests
    if [ ! -x "$built" ]; then
        echo "  isn't built"
        wrong=1
        return
    fi
    "$here/refuse_memory.sh" "$built" "tests::$2" < /dev/null > "$said" 2>&1 || true
    sed 's/^/  /' "$said"
    is_right || { echo "  wrong"; wrong=1; }
}

# runs all scenarios
refuse_in_scenarios() {
    built=$here/../crates/pimtree/out/pimtree
    if [ ! -x "$built" ]; then
        echo "pimtree isn't built"
        wrong=1
        return
    fi
    "$here/scenarios_refused.py" "$built" "$here/../crates/pimtree_cases/data/scenarios" \
        "$here/../examples/"*.session || wrong=1
}

while read -r crate name calls; do
    case " ${*:-$crate} " in
        *" $crate "*) ;;
        *) continue ;;
    esac
    echo "$crate $name: $calls"
    refuse "$crate" "$name"
    ran=1
done << 'LIST'
pim_down_tests addr::routes::refusals_change_nothing Routes::add_via
pim_down_tests hello::neighbours::refusals_change_nothing Neighbours::hear
pim_down_tests limits::refusals_change_nothing Ports::hear
pim_router_tests form::forms::refusals_leave_the_ports NormalForm::of
pim_router_tests form::toward::refusals_of_toward_change_nothing NormalForm::toward
pim_router_tests form::kept::refusals_leave_the_form normal_again
pim_router_tests form::packing::refusals_change_nothing pack
pim_router_tests change::refusals_leave_the_change changed, triggered
pim_router_tests router::memory::refusals_change_nothing Router::new, take_packet of Hellos and of Join/Prunes
pim_router_tests router::refused::calls_are_made_again Router::canonical, same_wants
pim_router_tests mirror::mirrored::messages_make_mirrors mirror
pim_down_tests capture::refused_growth Capture::next
pim_down_tests fragments::refusals_change_nothing Fragments::take
pimtree_tests refused::replay_leaves_a_front replay
pimtree_tests refused::trace_leaves_a_front trace
pimtree_tests refused::trace_as_json_leaves_a_front trace
pimtree_tests refused::same_leaves_nothing same
pimtree_tests refused::mirror_leaves_whole_lines mirror
pimtree_tests refused::emit_leaves_nothing emit
pimtree_tests refused::change_leaves_whole_lines change
LIST
case " ${*:-scenarios} " in
    *" scenarios "*)
        refuse_in_scenarios
        ran=1
        ;;
esac
if [ "$ran" = 0 ]; then
    echo "no test of $*"
    exit 1
fi
[ "$wrong" = 0 ] || echo "some runs were wrong"
exit "$wrong"
