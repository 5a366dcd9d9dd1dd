#!/bin/sh
# Openings of channels a second beside few and beside many open ones, each closed again, in one run
# on one machine, and the bytes that an open channel takes. An opening finds its lead in as many steps
# whatever is open, and closing a channel moves no more than the last one into its place.
set -eu
cd "$(dirname "$0")/.."
few=${1:-1000}
many=${2:-100000}

bench=$(bench/build)

python3 - "$bench" "$few" "$many" <<'PY'
import subprocess, sys, time

bench = sys.argv[1]

def memory_of(program):
    """The memory of a running program that is in use, in bytes."""
    with open(f"/proc/{program.pid}/status") as lines:
        return next(1024 * int(line.split()[1]) for line in lines if line.startswith("VmRSS:"))

def run(held, count):
    """How long so many openings took beside the held ones, and the memory in bytes before them."""
    program = subprocess.Popen(
        [bench, "channels", str(held), str(count)], stdout=subprocess.PIPE)
    assert program.stdout.readline() == b"open %d\n" % held
    memory = memory_of(program)
    start = time.monotonic()
    assert program.stdout.readline() == b"last %d\n" % (held + count)
    end = time.monotonic()
    assert program.wait() == 0
    return end - start, memory

few, many = int(sys.argv[2]), int(sys.argv[3])
times, memories = [], []
for held, count in [(few, 200_000), (many, 2_000)]:
    spent, memory = run(held, count)
    times.append(spent / count)
    memories.append(memory)
    print(f"beside {held:>7,} open channels {count / spent:>12,.0f} openings a second")
print(f"{(memories[1] - memories[0]) / (many - few):,.0f} bytes held a channel")
print(f"ratio {times[0] / times[1]:.4f}, openings a second beside {many:,} to those beside {few:,} open channels")
PY
