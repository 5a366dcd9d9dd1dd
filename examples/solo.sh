#!/bin/sh
# Serves the worked session: a template provider and a miner on one connection. Lists what they sent, what the pool
# answered, and the ledger that it kept, which has to be examples/worked.ledger.
#
# It takes the program that `sh examples/build.sh` has built, where there is one, and else the program as it is written
# (`examples/trial.sh`).
set -eu
cd "$(dirname "$0")/.."

. examples/trial.sh

bytes() { tr -d ' \n' | sed 's/../\\x&/g' | xargs -0 printf '%b'; }

cat > "$work/settings.json" <<'JSON'
{"pool_script":"51","least_class":0,"fee":100,"rule":"proportional","ntime_window":600,"credit_limit":3}
JSON

# The frames of the miner and the provider come first in the captured session.
sed -n '/^# The miner/,/^# The pool/p' examples/session.hex | grep -v '^#' | bytes > "$work/input"

echo "what comes:"
"$program" frames < "$work/input"
status=0
"$program" solo "$work/settings.json" "$work/ledger" < "$work/input" > "$work/output" || status=$?
echo "what is answered, status $status:"
"$program" frames < "$work/output"
echo "the ledger:"
python3 operate/read-ledger.py "$work/ledger"
cmp "$work/ledger" examples/worked.ledger && echo "it is examples/worked.ledger, byte for byte"
