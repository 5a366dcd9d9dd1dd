#!/bin/sh
# A pool as an operator has it, over loopback, with each tool of `operate`: a template provider over a node (`node.py`,
# whose node is a file of answers), the pool kept running (`keep.py`), a relay that asks for difficulties (`vardiff.py`),
# and a page (`watch.py`); miners of Stratum V1; a provider that goes away and comes back; and then the books: `payouts.py`,
# `solution.py`, `receipts.py`, `report.py`, `read-ledger.py`, and an audit.
#
# It takes the program that `sh examples/build.sh` has built, where there is one, and else the program as it is written
# (`examples/trial.sh`). Nothing of the tools is proved.
#
# Status 0: all that was seen is what was said before. Else 1, with what failed. Everything that it starts has a limit of
# time, and is ended with it, also where it is interrupted. It keeps nothing.
set -eu
cd "$(dirname "$0")/.."

. examples/trial.sh

tool() {
    script=$1
    shift
    python3 "operate/$script.py" "$@"
}

# settings FILE FEE: difficulty 1 of Stratum V1 is class 8 here, which one hash of 256 meets
settings() {
    cat > "$1" <<JSON
{
  "pool_script": "0014751e76e8199196d454941c45d1b3a323f1433bd6", "least_class": 8, "fee": $2,
  "rule": "proportional", "ntime_window": 600, "v1_base": 8, "workers": 8, "address": "$pool", "feed": "$feed",
  "idle_turns": 600, "door_turns": 600
}
JSON
}

# heard_of FILE WORDS SECONDS: waits until a file of what was printed has these words
heard_of() {
    last=$(($(date +%s) + $3))
    until grep -qsF -- "$2" "$work/$1"; do
        [ "$(date +%s)" -le "$last" ] || fail "$1 doesn't say '$2'"
        sleep 0.1
    done
}

# provides NAME: begins the provider over the node
provides() {
    start "$1" 150 python3 operate/node.py "127.0.0.1:$(cat "$work/node-port")" "$feed" --cookie "$work/cookie" \
        --blocks "$work/blocks"
    providing=$pid
    heard_of "$1.out" "pools are served at" 20
}

# mines NAME ADDRESS USER COUNT: mines so many shares by Stratum V1
mines() {
    start "$1" 60 python3 examples/v1-miner.py "$2" "$3" 1 "$4" 8
    done_well "$1" "$pid"
    says "$1.out" "mined $4"
}

# now KEY: what watch.py's page says of it
now() {
    python3 - "$page" "$1" <<'PY'
import json, sys, urllib.request

with urllib.request.urlopen(sys.argv[1] + "now.json", timeout=10) as answer:
    said = json.load(answer)
for key in sys.argv[2].split("."):
    said = said[key]
print(said)
PY
}

# shows KEY VALUE SECONDS: waits until the page says this
shows() {
    last=$(($(date +%s) + $3))
    until [ "$(now "$1")" = "$2" ]; do
        [ "$(date +%s)" -le "$last" ] || fail "the page says $(now "$1") of $1, and not $2"
        sleep 0.2
    done
}

settings "$work/settings.json" 100
settings "$work/other.json" 200
mkdir "$work/blocks"
printf '__cookie__:secret' > "$work/cookie"
# The node's answers, with a target that one share of 64 meets.
python3 - operate/tests/data/node.json "$work/answers.json" <<'PY'
import json, sys

with open(sys.argv[1]) as file:
    answers = json.load(file)
for template in answers["templates"]:
    template.update(bits="1f03ffff", target="0003ffff" + "00" * 28)
with open(sys.argv[2], "w") as file:
    json.dump(answers, file)
PY

echo
echo "check.py, before there is a provider: why the pool wouldn't begin"
status=0
tool check "$work/settings.json" "$work/ledger" > "$work/check-early.out" || status=$?
[ "$status" -eq 3 ] || fail "check.py ended with status $status, and not 3"
grep '^7' "$work/check-early.out" | sed 's/^/    /'
says check-early.out "7: the provider isn't reached at $feed: Connection refused"

echo "node.py, the provider, over a node that is a file of answers"
start node 200 python3 operate/tests/recorded_node.py "$work/answers.json" "$work/cookie" "$work/node-port" "$work"
last=$(($(date +%s) + 20))
until [ -e "$work/node-port" ]; do
    [ "$(date +%s)" -le "$last" ] || fail "the recorded node doesn't listen"
    sleep 0.1
done
provides provider

echo "check.py again"
tool check "$work/settings.json" "$work/ledger" > "$work/check.out" || fail "check.py found something"
shown check.out
says check.out "well: the provider at $feed answers, and gives a template and its tip"

echo
echo "keep.py begins the pool; watch.py makes a page of its ledger; vardiff.py stands before its doors"
start keep 150 python3 operate/keep.py -- "$program" durable serve "$work/settings.json" "$work/ledger"
keeping=$pid
heard "$pool_port" "$keeping" 30 || fail "the pool didn't listen at $pool"
heard_of keep.out "a new tip" 20
start watch 150 python3 operate/watch.py "$work/ledger" --serve 127.0.0.1:0
heard_of watch.out "the page is at" 20
page=$(sed -n 's/^the page is at //p' "$work/watch.out")
start vardiff 150 python3 operate/vardiff.py "$trial" "$pool" --shares-a-minute 60 --receipts "$work/receipts"
relaying=$pid
heard "$trial_port" "$relaying" 20 || fail "vardiff.py doesn't listen at $trial"
shows pool_runs True 10
shows provider.here True 10

echo "alice mines by the relay until it has asked for another difficulty, and the ledger has a block; bob mines at the"
echo "    pool itself"
start alice 120 python3 examples/v1-miner.py "$trial" alice.rig 1 1000000 8
alice=$pid
heard_of vardiff.out "alice.rig: difficulty" 60
last=$(($(date +%s) + 60))
until [ "$(now blocks)" -gt 0 ]; do
    [ "$(date +%s)" -le "$last" ] || fail "no share of a minute was a block"
    sleep 0.2
done
kill "$alice"
ended "$alice" 2> /dev/null
heard_of vardiff.out "has left, after" 10
mines bob "$pool" bob.rig 3
grep -m 2 'is authorized\|is asked for' "$work/vardiff.out" | sed 's/^/    /'
tool payouts "$work/ledger" > "$work/payouts.out"
heard_of keep.out "A BLOCK at height 100001 of alice" 5
heard_of provider.out "the node accepts the block" 10
grep -m 1 'the node accepts' "$work/provider.out" | sed 's/^/    /'
shows miners 0 10
before=$(now credits)
echo "    the page has $before credits, and $(now blocks) blocks"

echo
echo "the provider goes away. keep.py ends the pool, whose miners would search on an old tip for nobody, and begins it"
echo "    anew until the provider is back"
kill "$providing"
ended "$providing" 2> /dev/null
heard_of keep.out "THE PROVIDER IS GONE" 10
heard_of keep.out "the program ended with 7" 20
shows provider.here False 10
provides provider-again
back=$(date +%s)
heard_of provider-again.out "is here, and is given templates" 10
mines carol "$pool" carol.rig 3
[ "$(($(date +%s) - back))" -le 10 ] || fail "the miners were served $(($(date +%s) - back)) seconds after the provider was back"
shows credits "$((before + 3))" 10
sed 's/^/    /' "$work/keep.out" | grep -v 'A BLOCK' | tail -n 7 | cut -c 1-118

echo
echo "a new tip: the node's answers go two steps on"
for _ in 1 2; do
    : > "$work/next"
    while [ -e "$work/next" ]; do sleep 0.1; done
done
shows tip.previous 00000000000000001e8d6829a8a21adc5d38d0a473b144b6765798e61f98bd1d 10
shows template.height 125553 10

echo "check.py while the pool runs, and of settings with another fee: why it would be refused"
status=0
tool check "$work/other.json" "$work/ledger" --no-dial > "$work/check-other.out" || status=$?
[ "$status" -eq 3 ] || fail "check.py ended with status $status, and not 3"
grep '^[0-9]' "$work/check-other.out" | sed 's/^/    /'
says check-other.out "7: another process has the ledger open: a pool runs with it already"
says check-other.out "11: the ledger was begun with other settings: fee is 200, and was 100"

echo
echo "solution.py: the first block, as it has to be handed in; it is sent to the provider once more"
event=$(sed -n 2p "$work/payouts.out" | cut -d , -f 4)
block=$(sed -n 2p "$work/payouts.out" | cut -d , -f 1)
tool solution "$work/ledger" "$event" > "$work/solution.out"
cut -c 1-100 "$work/solution.out" | sed 's/^/    /'
header=$(sed -n 's/^header //p' "$work/solution.out")
coinbase=$(sed -n 's/^coinbase //p' "$work/solution.out")
case $(cat "$work/blocks/$block.block") in
    "$header"05"$coinbase"*) echo "    it is what the provider kept in $block.block" ;;
    *) fail "the provider kept another block" ;;
esac
tool solution "$work/ledger" "$event" --to "$feed" > "$work/solution-sent.out"
says solution-sent.out "sent to $feed"
heard_of provider-again.out "A SOLUTION for template" 10
echo "    the provider that came back doesn't know the template of the one before: it says so, and the file is there"

echo
echo "keep.py is ended, and the pool with it"
kill "$relaying"
ended "$relaying" 2> /dev/null
kill "$keeping"
done_well keep "$keeping"
says keep.out "$(tail -n 1 "$work/keep.out")"
tail -n 1 "$work/keep.out" | grep -q ' ended$' || fail "keep.py doesn't say that it ended"
shows pool_runs False 10

echo "durable audit, and payouts.py, whose totals are the same"
start audit 60 "$program" durable audit "$work/ledger"
done_well audit "$pid"
shown audit.out
says audit.out legal
{ sed -n 's/^pool /the pool,,/p' "$work/audit.out"; sed -n 's/^account \(.*\) \(.*\) \(.*\)$/\1,\2,\3/p' "$work/audit.out"; } \
    | sort > "$work/audited"
tool payouts "$work/ledger" --totals > "$work/totals.out"
tail -n +2 "$work/totals.out" | sort | cmp -s - "$work/audited" || fail "the totals are others than those of the audit"

echo "payouts.py, with what was paid, and without a block that was orphaned"
printf 'account,satoshis\nalice,1000\n' > "$work/paid.csv"
tool payouts "$work/ledger" --paid "$work/paid.csv" | sed 's/^/    /'
tool payouts "$work/ledger" --totals --without "$block" > "$work/without.out"
cmp -s "$work/without.out" "$work/totals.out" && fail "a block that counts nothing changes nothing"

echo
echo "receipts.py: each share that alice was told of is in the ledger"
tool receipts "$work/receipts" "$work/ledger" --missing > "$work/receipts.out" || fail "receipts.py misses a share"
shown receipts.out
echo "    and of a ledger of which one credit was taken out, and all hashes computed again:"
python3 - "$work/ledger" "$work/cheating" <<'PY'
import hashlib, sys

whole = open(sys.argv[1], "rb").read()
records, at = [], 8
while whole[at:at + 1] == b"\1":
    end = at + 5 + int.from_bytes(whole[at + 1:at + 5], "little")
    records.append(whole[at + 5 + (8 if not records else 0):end - 32])
    at = end
records.pop(next(place for place, one in enumerate(records) if one[0] == 9))
chain = hashlib.sha256(b"SV2LEDG2").digest()
with open(sys.argv[2], "wb") as file:
    file.write(b"SV2LEDG2")
    for one in records:
        chain = hashlib.sha256(chain + one).digest()
        file.write(one + chain)
PY
status=0
tool receipts "$work/receipts" "$work/cheating" --missing > "$work/cheated.out" || status=$?
[ "$status" -eq 4 ] || fail "receipts.py ended with status $status, and not 4"
head -n 1 "$work/cheated.out" | cut -c 1-118 | sed 's/^/    /'
grep -q '^share 1 of alice.rig, .*: NOT THERE' "$work/cheated.out" || fail "receipts.py doesn't name the share"

echo
echo "report.py and read-ledger.py: both have the head"
tool report "$work/ledger" > "$work/report.html"
tool read-ledger "$work/ledger" > "$work/words"
head=$(sed -n '$s/.*the head is //p' "$work/words")
[ "${#head}" -eq 64 ] || fail "read-ledger.py says no head"
grep -qF "$head" "$work/report.html" || fail "the page of report.py doesn't have the head"
tail -n 1 "$work/words" | sed 's/^/    /'

echo
echo "all is as it was said; it took $(($(date +%s) - began)) seconds"
