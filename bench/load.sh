#!/bin/sh
# Shares a second of a generated session: by `load`, in memory, and by `solo`, which is fed the same frames from a file
# and keeps its ledger in one. Both print what they left; the ledger's audit has to say the same. All in one run on one
# machine.
set -eu
cd "$(dirname "$0")/.."
number=${1:-7}
work=$(mktemp -d)
trap 'rm -rf "$work"' EXIT

sh examples/build.sh
python3 examples/load.py "$number" frames > "$work/frames"
cat > "$work/settings" <<'SETTINGS'
{"pool_script":"51","least_class":0,"fee":200,"rule":"pplns","window":1000,"ntime_window":600}
SETTINGS

python3 - "$number" "$work" <<'PY'
import os, subprocess, sys, time

number, work = sys.argv[1], sys.argv[2]
POOL = "crates/pool_cli/out/pool_cli"
SHARES = 20_000

def loaded():
    """How long `load` took, and what it printed."""
    start = time.monotonic()
    said = subprocess.run([POOL, "load", number], stdout=subprocess.PIPE, check=True).stdout.decode()
    return time.monotonic() - start, said

def served():
    """How long `solo` took for the same frames."""
    ledger = f"{work}/ledger"
    if os.path.exists(ledger):
        os.remove(ledger)
    with open(f"{work}/frames", "rb") as frames:
        start = time.monotonic()
        subprocess.run([POOL, "solo", f"{work}/settings", ledger], stdin=frames, stdout=subprocess.DEVNULL, check=True)
        return time.monotonic() - start

# Each is timed five times, in turns, and the least time counts.
rounds = [(loaded()[0], served()) for _ in range(5)]
load, solo = (min(times[which] for times in rounds) for which in range(2))
summary = loaded()[1].split("\n", 4)[4]
audit = subprocess.run([POOL, "audit", f"{work}/ledger"], stdout=subprocess.PIPE, check=True).stdout.decode()
if audit != "legal\n" + summary:
    sys.exit("load and solo left different histories")
print(f"shares of load  {SHARES / load:>10,.0f} a second")
print(f"shares of solo  {SHARES / solo:>10,.0f} a second")
print(f"ratio {solo / load:.2f}, shares a second of load to those of solo, fed the same frames")
PY
