#!/bin/sh
# Pushes of credits a second into a tally of 10,000 accounts, with a window of 1,000 and of 1,000,000 units.
# Each push has the work 1, and the accounts take turns: in the small window each push brings one account in
# and takes one out, in the large one all stay. All in one run on one machine. The seconds are the
# processor's, so that other programs that run meanwhile count little.
set -eu
cd "$(dirname "$0")/.."
count=${1:-4000000}

bench=$(bench/build)

python3 - "$bench" "$count" <<'PY'
import resource, subprocess, sys
bench, count = sys.argv[1], int(sys.argv[2])

def seconds(window):
    start = resource.getrusage(resource.RUSAGE_CHILDREN).ru_utime
    subprocess.run([bench, "payouts", str(window), str(count)],
                   stdout=subprocess.DEVNULL, check=True)
    return resource.getrusage(resource.RUSAGE_CHILDREN).ru_utime - start

# Each is timed five times, in turns, and the least time counts.
windows = [1_000, 1_000_000]
took = {window: min(times) for window, times in
        zip(windows, zip(*[[seconds(window) for window in windows] for _ in range(5)]))}
for window in windows:
    print(f"window of {window:>9,} units      {count / took[window]:>10,.0f} pushes a second")
slower, faster = max(took.values()), min(took.values())
print(f"ratio {slower / faster:.2f}, the slower of the two windows to the faster")
PY
