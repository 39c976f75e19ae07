#!/bin/sh
# Finds in a few minutes, without any proof, much of what `rt ci` refuses after an hour: tools/precheck.py says what.
#
#   tools/precheck.sh [BASE]     tests the crates that differ from the commit BASE, HEAD unless given
exec python3 "$(dirname "$0")/precheck.py" "$@"
