#!/bin/sh
# A farm behind one channel, over loopback TCP: a template provider (`feed`), the pool (`serve`), a proxy (`proxy`), all of
# them the one program, and two miners of Stratum V1 at the proxy's doors that are no part of it (`examples/v1-farm.py`);
# then an audit of the ledger that was left.
#
# It takes the program that `sh examples/build.sh` has built, where there is one, and else the program as it is written
# (`examples/trial.sh`).
#
# Status 0: all that was seen is what the rules say. Else 1, with what failed. Everything that it starts has a limit of
# time, and is ended with it, also where it is interrupted. It keeps nothing.
set -eu
cd "$(dirname "$0")/.."

. examples/trial.sh

cat > "$work/settings.json" <<JSON
{
  "pool_script": "51", "least_class": 0, "fee": 100, "rule": "proportional", "ntime_window": 600,
  "workers": 1, "address": "$pool", "feed": "$feed", "idle_turns": 100, "door_turns": 50
}
JSON

echo
echo "feed, the template provider, at $feed, and serve, the pool, with one door at $pool"
start feed 120 "$program" feed "$work/script" "$feed"
feeding=$pid
heard "$feed_port" "$feeding" 30 || fail "feed didn't listen at $feed"
start serve 90 "$program" serve "$work/settings.json" "$work/ledger"
serving=$pid
heard "$pool_port" "$serving" 30 || fail "serve didn't listen at $pool"
kept Tip "$serving" 30 || fail "serve kept no tip in its ledger"

echo "proxy: it dials the pool's one door, opens one channel there for the account farm, and two doors at $trial"
start proxy 90 "$program" proxy "$pool" farm.hall "$trial" 2
proxying=$pid
heard "$trial_port" "$proxying" 30 || fail "proxy didn't listen at $trial; a program that was built before it had this command doesn't know it"

echo "dora and emil, two miners of Stratum V1 at the proxy's doors. What they say (>) and are told (<):"
start v1-farm 60 python3 examples/v1-farm.py "$trial"
farming=$pid
done_well v1-farm "$farming"
cat "$work/v1-farm.out"
echo "    each has a lead of its own behind the pool's four bytes, so neither searches what the other does; and each"
echo "    was told its own answers: a credit, and then a refusal"

echo
echo "the proxy is ended here, since it would wait an hour for more miners. With its connection the pool's session is"
echo "    over, and serve ends by itself once nobody came for 5 seconds, and the provider said nothing for 10:"
kill "$proxying"
ended "$proxying" 2> /dev/null
done_well serve "$serving"
shown serve.out
for line in served 'feed idle-out' 'sessions 2' 'events 10' 'credits 2' 'blocks 2' 'pool 20' 'account farm 8589934592 1980'; do
    says serve.out "$line"
done
echo "    both shares are the account farm's, 2^32 of work each"
done_well feed "$feeding"

echo
echo "audit:"
start audit 60 "$program" audit "$work/ledger"
done_well audit "$pid"
shown audit.out
says audit.out legal

echo
echo "all is as the rules say; it took $(($(date +%s) - began)) seconds"
