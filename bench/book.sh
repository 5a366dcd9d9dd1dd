#!/bin/sh
# Credits a second of one book, whose records are kept in memory, beside 2^12 and beside 2^18 credits that it has
# already, and the bytes that it holds a credit, its records with them. Each share goes its whole way: the brief, the
# coinbase's and the header's double hash, the booking, the record and its hash. Beside it the same two double hashes
# alone. All in one run on one machine.
set -eu
cd "$(dirname "$0")/.."
few=${1:-4096}
many=${2:-262144}
count=${3:-65536}
work=$(mktemp -d)
trap 'rm -rf "$work"' EXIT

bench=$(bench/build)
echo "proving and building the benchmarks of hashes and frames"
(cd crates/bench && rt run -- shares 0 1 < /dev/null > "$work/build" 2>&1) || { cat "$work/build"; exit 1; }

python3 - "$bench" "$few" "$many" "$count" <<'PY'
import subprocess, sys, time

bench = sys.argv[1]

def memory_of(program):
    """The memory of a running program that is in use, in bytes."""
    with open(f"/proc/{program.pid}/status") as lines:
        return next(1024 * int(line.split()[1]) for line in lines if line.startswith("VmRSS:"))

def credits(held, count):
    """How long so many credits took beside the held ones, and the memory in bytes before them."""
    program = subprocess.Popen(
        [bench, "book", str(held), str(count)], stdout=subprocess.PIPE)
    assert program.stdout.readline() == b"credits %d\n" % held
    memory = memory_of(program)
    start = time.monotonic()
    assert program.stdout.readline() == b"events %d\n" % (held + count + 5)
    end = time.monotonic()
    assert program.wait() == 0
    return end - start, memory

def hashes(count):
    """How long the double hashes of so many coinbases and headers took."""
    start = time.monotonic()
    subprocess.run(["crates/bench/out/bench", "shares", "0", str(count)], stdout=subprocess.DEVNULL, check=True)
    return time.monotonic() - start

few, many, count = map(int, sys.argv[2:])
# Each is timed five times, in turns, and the least time counts.
rounds = [(credits(few, count), credits(many, count), hashes(count)) for _ in range(5)]
at_few, at_many = (min(times[which][0] for times in rounds) for which in (0, 1))
bare = min(times[2] for times in rounds)
print(f"beside {few:>9,} credits {count / at_few:>12,.0f} credits a second")
print(f"beside {many:>9,} credits {count / at_many:>12,.0f} credits a second")
print(f"the two double hashes alone {count / bare:>10,.0f} a second")
print(f"{(rounds[0][1][1] - rounds[0][0][1]) / (many - few):,.0f} bytes held a credit")
print(f"ratio {at_many / at_few:.2f}, credits a second beside {few:,} to those beside {many:,} credits")
print(f"ratio {bare / at_many:.2f}, credits a second beside {many:,} credits to bare double hashes of their coinbases and headers")
PY
