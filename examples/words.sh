#!/bin/sh
# Runs the program on lines of words, each with its input, and compares the status, what is printed and the files that are
# left: that all words reach the command, whatever their number and length, that its status is the program's, that it is
# done once, and that what one command leaves in a file another reads.
#
# It takes the program that `sh examples/build.sh` has built, where there is one, and else the program as it is written
# (`examples/trial.sh`).
#
# Status 0: all that was seen is what the rules say. Else 1, with what differs. It keeps nothing, and stays on loopback.
set -eu
cd "$(dirname "$0")/.."

. examples/trial.sh

# shellcheck disable=SC2154
python3 - "$program" "$work" "$pool" "$feed" <<'PY' || fail "not all is as the rules say"
import json
import os
import socket
import subprocess
import sys
import threading

program, pool, feed = os.path.abspath(sys.argv[1]), sys.argv[3], sys.argv[4]
os.mkdir(f"{sys.argv[2]}/words")
os.chdir(f"{sys.argv[2]}/words")

SETTINGS = {"pool_script": "51", "least_class": 0, "fee": 100, "rule": "proportional", "ntime_window": 600,
            "credit_limit": 3, "workers": 1, "feed": feed}

# The Start of these settings, as a ledger, and on a disk.
BEGUN = b"SV2LEDG2\0\x19\0\0\x01\x51\0\x64\0\0\0\0\0\0\0\0\0\0\x58\x02\0\0\x03\0\0\0\x01\0\0" + bytes.fromhex(
    "54d7355056aed444ba9a96e3a9171de3b176a1bbbbe9d92c9881349ae570faae")
KEPT = b"SV2DISK1\x01\x45\0\0\0" + BEGUN + b"\0"

# A SetupConnection of versions 2 and 2, and the answer to it.
SETUP = bytes.fromhex("000000100000" "00" "0200" "0200" "00000000" "00" "0000" "00" "00" "00" "00")
ACCEPTED = bytes.fromhex("000001060000" "0200" "00000000")

# The job of Bitcoin's first block, its header as SubmitSharesStandard, and the Success.
JOB = "00" * 32 + "3ba3edfd7a7b12b27ac72c3e67768f617fc81bc3888a51323a9fb8aa4b1e5e4affff001d"
SHARE = bytes.fromhex("00801a180000" "01000000" "00000000" "01000000" "1dac2b7c" "29ab5f49" "01000000")
CREDITED = bytes.fromhex("00801c140000" "01000000" "00000000" "01000000" "0000000000080000")

wrong = 0


def check(is_right, what):
    global wrong
    wrong += not is_right
    print(f"{'ok' if is_right else 'WRONG'} {what}", flush=True)


def audited(sessions, events):
    return f"legal\nsessions {sessions}\nevents {events}\ncredits 0\nblocks 0\npool 0\n".encode()


def run(words, given=b""):
    """The status and the output, or None where the program hasn't ended after half a minute."""
    try:
        ran = subprocess.run([program, *words], input=given, capture_output=True, timeout=30)
    except subprocess.TimeoutExpired:
        return None, b""
    return ran.returncode, ran.stdout + ran.stderr


def long_name(name, length):
    """A name of so many bytes that leads to the same file."""
    return "./" * ((length - len(name)) // 2) + name


for name, text in (("none", b"SV2LEDG2"), ("settings", json.dumps(SETTINGS).encode())):
    with open(name, "wb") as file:
        file.write(text)

for words, given, status, output in [
    ([], b"", 2, b""),
    ([b"\xff"], b"", 2, b""),
    (["frames"], SETUP, 0, b"frame 0 ext 0000 kind 00 length 16 SetupConnection\n"),
    (["audit", "none"], b"", 0, audited(0, 0)),
    (["migrate", "none", "copy"], b"", 0, b"migrated 0\n"),
    (["migrate", "none", "copy"], b"", 7, b""),
    (["solo", "settings", "begun"], b"", 0, b""),
    (["audit", "begun"], b"", 0, audited(0, 1)),
    (["serve", "settings", "unserved"], b"", 7, b""),
    (["durable", "solo", "settings"], b"", 2, b""),
    (["durable", "solo", "settings", "kept"], b"", 0, b""),
    (["durable", "serve", "settings", "kept"], b"", 7, b""),
    (["durable", "solo", "settings", "session"], SETUP, 0, ACCEPTED),
    (["durable", "solo", "settings", "session"], b"", 0, b""),
    (["durable", "audit", "session"], b"", 0, audited(1, 3)),
    (["durable", "audit", "new"], b"", 0, audited(0, 0)),
    (["durable", "solo", "settings", "begun"], SETUP, 11, b""),
    (["audit", ""], b"", 7, b""),
    (["audit", "\u00e9"], b"", 7, b""),
    (["solo", "fixed", "43", JOB], SHARE, 0, CREDITED),
    (["solo", "fixed", "43", JOB, "more"], SHARE, 2, b""),
    # A word may be long: a name leads through folders.
    (["audit", long_name("begun", 161)], b"", 0, audited(0, 1)),
    (["durable", "solo", "settings", long_name("begun", 301)], SETUP, 11, b""),
    (["audit", long_name("begun", 3_001)], b"", 0, audited(0, 1)),
]:
    found = run(words, given)
    line = " ".join(str(word) if len(word) < 150 else f"({len(word)} bytes)" for word in words)
    check(found == (status, output), f"{status} where the words are: {line}")
    if found != (status, output):
        print(f"    it ended with {found[0]}, and wrote {found[1]}")

for name, held in [("copy", b"SV2LEDG2"), ("begun", BEGUN), ("unserved", BEGUN), ("new", b"SV2DISK1\0"), ("kept", KEPT)]:
    with open(name, "rb") as file:
        check(file.read() == held, f"the file {name}")

# A pipe that has a name gives its settings once, so whoever reads them again waits for ever.
os.mkfifo("once")


def give_once():
    with open("once", "wb") as pipe:
        pipe.write(json.dumps(SETTINGS).encode())


threading.Thread(target=give_once, daemon=True).start()
check(run(["serve", "once", "unserved-again"]) == (7, b""), "a command that ends with 7 is done once")

# A provider that says nothing, and doors to which nobody comes.
provider = socket.create_server((feed.split(":")[0], int(feed.split(":")[1])))
waiting = SETTINGS | {"workers": 64, "idle_turns": 1, "door_turns": 1, "address": pool}
with open("waiting", "w") as file:
    json.dump(waiting, file)
report = b"served\nfeed idle-out\nsessions 0\nevents 1\ncredits 0\nblocks 0\npool 0\n"
check(run(["serve", "waiting", "ledger"]) == (0, report), "serve, with 64 doors and a provider that says nothing")
with open("ledger", "rb") as file:
    check(file.read() == BEGUN, "its ledger")
sys.exit(wrong > 0)
PY
echo "all of it is as the rules say, after $(($(date +%s) - began)) seconds"
