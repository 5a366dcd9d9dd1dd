#!/bin/sh
# Lists the frames of a captured session, one line each; then the same with the last frame cut off, and with a
# payload that is no message of its kind.
#
# It takes the program that `sh examples/build.sh` has built, where there is one, and else the program as it is written
# (`examples/trial.sh`).
set -eu
cd "$(dirname "$0")/.."

. examples/trial.sh

bytes() { tr -d ' \n' | sed 's/../\\x&/g' | xargs -0 printf '%b'; }
captured() { grep -v '^#' examples/session.hex; }
listed() { "$program" frames && echo "status 0" || echo "status $?"; }

echo "the session:"
captured | bytes | listed
echo "the session, with the last byte cut off:"
captured | bytes | head -c -1 | listed
echo "a NewMiningJob whose optional time has a count of 2:"
printf '008015090000010000000100000002' | bytes | listed
