#!/bin/sh
# How many messages are read a second: SubmitSharesStandard (24 bytes of payload), and NewTemplate with a path of
# 12 hashes. The same frames are split without reading them, which shows the share of the time that splitting
# costs. Reading copies no byte and takes no memory.
set -eu
cd "$(dirname "$0")/.."
work=$(mktemp -d)
trap 'rm -rf "$work"' EXIT

echo "proving and building the benchmarks of hashes and frames"
(cd crates/bench && rt run -- messages < /dev/null > "$work/build" 2>&1) || { cat "$work/build"; exit 1; }

share=0100000009000000010000000000000040420f0000000020
template=0500000000000000010000002002000000025151ffffffffe803000000000000000000000000000000000c
python3 bench/stream-of-frames.py 00801a "$share" 0 6000000 "$work/1a"
python3 bench/stream-of-frames.py 000071 "$template" 384 600000 "$work/71"

python3 - "$work" <<'PY'
import subprocess, sys, time
def run(word, path):
    best = None
    for _ in range(3):
        with open(path, "rb") as stream:
            start = time.monotonic()
            said = subprocess.run(["crates/bench/out/bench", word], stdin=stream, capture_output=True,
                                  check=True).stdout.decode()
            took = time.monotonic() - start
        best = took if best is None else min(best, took)
    return best, said
for kind in ("71", "1a"):
    path = f"{sys.argv[1]}/{kind}"
    split, _ = run("frames", path)
    read, said = run("messages", path)
    count = int(said.split()[1].rstrip(","))
    print(f"kind {kind}: {count / read:>12,.0f} messages a second ({said.strip()})")
    print(f"ratio {split / read:.2f}, time of splitting alone to splitting and reading, kind {kind}")
PY
