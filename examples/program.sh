#!/bin/sh
# Says where a program lies that can be run: the one that `sh examples/build.sh` has built, where there is one, and else a
# copy of the program as it is written, which is kept (`examples/trial.sh`). The place is all that goes to standard output:
#
#     pool=$(sh examples/program.sh)
set -eu
cd "$(dirname "$0")/.."

exec 3>&1 >&2
. examples/trial.sh

# shellcheck disable=SC2154
case $program in
    "$work"/*) fail "the copy isn't kept: not all of crates is committed" ;;
esac
echo "$program" >&3
