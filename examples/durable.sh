#!/bin/sh
# A pool over loopback TCP whose ledger no crash breaks (`durable serve`): it is killed in the midst of a miner's shares,
# its ledger is audited (`durable audit`), and it goes on with the same ledger, for another miner. Then it refuses the
# ledger under other settings.
#
# It takes the program that `sh examples/build.sh` has built, where there is one, and else the program as it is written
# (`examples/trial.sh`).
#
# Status 0: all that was seen is what the rules say. Else 1, with what failed. Everything that it starts has a limit of
# time, and is ended with it, also where it is interrupted. It keeps nothing.
set -eu
cd "$(dirname "$0")/.."

. examples/trial.sh

# settings FILE FEE: with this fee in basis points
settings() {
    cat > "$1" <<JSON
{
  "pool_script": "51", "least_class": 0, "fee": $2, "rule": "proportional", "ntime_window": 600,
  "workers": 2, "address": "$pool", "feed": "$feed", "idle_turns": 100, "door_turns": 50
}
JSON
}

# counted NAME FILE: the number that stands behind this name in a file
counted() { sed -n "s/^$1 //p" "$work/$2"; }

# audited NAME: audits the ledger; what is printed goes to a file of this name
audited() {
    start "$1" 60 "$program" durable audit "$work/ledger"
    done_well "$1" "$pid" "a program that was built before it had this command doesn't know it"
    says "$1.out" legal
}

# serves NAME SCRIPT: begins a feed with this script and a pool; both go on
serves() {
    start "feed-$1" 120 "$program" feed "$2" "$feed"
    feeding=$pid
    heard "$feed_port" "$feeding" 30 || fail "feed didn't listen at $feed"
    start "serve-$1" 90 "$program" durable serve "$work/settings.json" "$work/ledger"
    serving=$pid
    heard "$pool_port" "$serving" 30 || fail "durable serve didn't listen at $pool"
}

settings "$work/settings.json" 100
settings "$work/other.json" 200

echo
echo "durable audit, of a ledger that isn't there: it is made, and has no event"
audited audit-none
[ "$(counted events audit-none.out)" = 0 ] || fail "there are events in a new ledger"

echo "durable serve, the pool: it begins the history, dials a provider, and opens two doors at $pool"
serves first "$work/script"
kept Tip "$serving" 30 || fail "serve kept no tip in its ledger"

echo "mine: alice hashes for as long as the pool answers. Each share is credited, and is there for good before she is"
echo "    told; once there are fifty credits the pool is killed (kill -9)"
start mine-alice 60 "$program" mine "$pool" alice.rig1 4 1000000
alice=$pid
last=$(($(date +%s) + 40))
until [ "$(python3 operate/read-ledger.py "$work/ledger" | grep -c ': Credit ')" -ge 50 ]; do
    [ "$(date +%s)" -le "$last" ] || fail "there were no fifty credits within 40 seconds"
    sleep 0.1
done
# The pool's own process, and not the one that limits its time.
pkill -9 -P "$serving" || fail "the pool wasn't there to be killed"
ended "$serving"
ended "$alice"
# Where the pool hadn't read her last share, the system breaks the connection off: a read of it fails then (4), and
# nothing is printed.
case $status in
    3) told=$(sed -n 's/^mined //p' "$work/mine-alice.out") ;;
    4) told= ;;
    *) fail "mine ended with status $status, and not as one whose pool has gone" ;;
esac
kill "$feeding" 2> /dev/null || :
ended "$feeding"

echo
echo "durable audit, of what was left: every credit that alice was told of is there, and at most one more, which was"
echo "    being answered"
audited audit-killed
shown audit-killed.out
credits=$(counted credits audit-killed.out)
if [ -n "$told" ]; then
    echo "    alice was told of $told"
    [ "$told" -le "$credits" ] || fail "alice was told of $told credits, and the ledger has $credits"
    [ "$credits" -le $((told + 1)) ] || fail "the ledger has $credits credits, and alice was told of $told"
else
    echo "    alice's connection was broken off, so she doesn't say how many she was told of"
fi
python3 operate/read-ledger.py "$work/ledger" > "$work/events-killed"

echo
echo "durable serve, with the same words: it goes on with that history. The sessions that were under way are over, and"
echo "    the provider has a next template (id 6) and tip"
write_script "$work/next" 06 22
serves second "$work/next"
kept "Tip session 2" "$serving" 30 || fail "the pool that went on kept no tip"
start mine-bob 60 "$program" mine "$pool" bob.rig1 4 3
done_well mine-bob "$pid"
echo "    bob: $(cat "$work/mine-bob.out")"
says mine-bob.out "mined 3"
done_well serve-second "$serving"
shown serve-second.out
says serve-second.out "credits $((credits + 3))"
says serve-second.out "account alice $((credits * 16)) $((credits * 990))"
says serve-second.out "account bob 48 2970"
kill "$feeding" 2> /dev/null || :
ended "$feeding"

echo
echo "the ledger: its events from before are all there, and then a Leave for each of the two sessions"
python3 operate/read-ledger.py "$work/ledger" > "$work/events"
count=$(($(wc -l < "$work/events-killed") - 1))
head -n "$count" "$work/events-killed" > "$work/front-killed"
head -n "$count" "$work/events" > "$work/front"
cmp -s "$work/front-killed" "$work/front" || fail "the events from before aren't the first of the ledger"
sed -n "$count,$((count + 6))p" "$work/events" | cut -c 1-100 | sed 's/^/    /'
[ "$(sed -n "$((count + 1)),$((count + 2))p" "$work/events" | grep -c ': Leave ')" -eq 2 ] \
    || fail "the sessions from before didn't leave first"
audited audit-both
says audit-both.out "credits $((credits + 3))"

echo
echo "durable serve, with another fee in its settings: a history has one Start, so this ledger is refused (status 11),"
echo "    and stays as it is"
cp "$work/ledger" "$work/copy"
start serve-other 30 "$program" durable serve "$work/other.json" "$work/ledger"
ended "$pid"
[ "$status" -eq 11 ] || fail "durable serve ended with status $status, and not 11"
cmp -s "$work/copy" "$work/ledger" || fail "the refused ledger was changed"

echo
echo "all of it is as the rules say, after $(($(date +%s) - began)) seconds"
