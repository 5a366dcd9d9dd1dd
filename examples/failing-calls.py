#!/usr/bin/env python3
"""Commands at which one call of the system fails, for examples/failing-calls.sh. Plain Python, and strace.

    failing-calls.py PROGRAM FOLDER

Has strace refuse one call of a command with an error, or let it say that it did nothing, and compares the status with
what docs/COMMANDS.md says of such a failure, what is printed, and the file that is left: a front of the one that is
left where nothing fails. Status 1, with what was seen, where it isn't so.
"""
import json
import os
import pathlib
import socket
import subprocess
import sys
import threading
import time
from dataclasses import dataclass

program, folder = os.path.abspath(sys.argv[1]), pathlib.Path(sys.argv[2])
examples = pathlib.Path(__file__).resolve().parent
ACCEPTED = bytes.fromhex("000001060000020000000000")
OF_VERSION_3 = bytes.fromhex("000001060000030000000000")


@dataclass(frozen=True)
class Command:
    """Words, the file that is written, and the status where nothing fails."""

    words: tuple[str, ...]
    written: str | None
    status: int


DURABLE = Command(("durable", "solo", "settings", "disk"), "disk", 0)
MIGRATE = Command(("migrate", "worked", "new"), "new", 0)
SOLO = Command(("solo", "settings", "new"), "new", 0)
AUDIT = Command(("audit", "worked"), None, 0)
MINE = Command(("mine", "POOL", "a", "0", "1"), None, 3)

# The command, the call, the path that it is of (none: whichever), which of its calls of that name fails, how, and the
# status that is to come. A status of a command where nothing fails means that all is done, and printed, as there.
ROWS = [
    # Opening a durable ledger syncs its file and its folder; what can't be synced isn't opened.
    *((DURABLE, "fsync", None, when, error, 7) for when in (1, 2) for error in ("EIO", "EINVAL", "EOPNOTSUPP")),
    *((DURABLE, "fsync", None, when, error, 7) for when in (1, 2) for error in ("ENOSPC", "EDQUOT")),
    (DURABLE, "flock", None, 1, "EAGAIN", 7), (DURABLE, "flock", None, 1, "ENOLCK", 7),
    # Then each event has two syncs and two writes, behind those that begin the ledger. What a signal breaks off is done
    # again.
    *((DURABLE, "fsync", None, when, "EIO", 6) for when in (3, 4, 5, 6)),
    *((DURABLE, "fsync", None, 5, error, 6) for error in ("EINVAL", "EOPNOTSUPP", "ENOSPC", "EDQUOT")),
    *((DURABLE, "fsync", None, when, "EINTR", 0) for when in (1, 2, 3, 4, 5, 6)),
    *((DURABLE, "pwrite64", None, when, "EIO", 6) for when in (1, 2, 3, 4)),
    *((DURABLE, "pwrite64", None, 3, error, 6) for error in ("ENOSPC", "EDQUOT", "EFBIG")),
    (DURABLE, "pwrite64", None, 3, 0, 6), (DURABLE, "pwrite64", None, 3, "EINTR", 0),
    (DURABLE, "ftruncate", None, 1, "EIO", 6), (DURABLE, "ftruncate", None, 1, "EINTR", 0),
    # A plain ledger.
    *((MIGRATE, "pwrite64", None, 3, error, 6) for error in ("EIO", "ENOSPC", "EDQUOT", "EFBIG")),
    (MIGRATE, "pwrite64", None, 3, 0, 6), (MIGRATE, "pwrite64", None, 3, "EINTR", 0),
    *((SOLO, "pwrite64", None, 1, error, 6) for error in ("EIO", "ENOSPC", "EDQUOT", "EFBIG")),
    (MIGRATE, "openat", "new", 1, "EACCES", 7), (MIGRATE, "openat", "worked", 1, "EMFILE", 7),
    # What is read and printed.
    (AUDIT, "read", "worked", 1, "EIO", 4), (AUDIT, "read", "worked", 1, "EINTR", 0),
    (AUDIT, "read", "worked", 2, "EIO", 4),
    *((AUDIT, "write", None, 1, error, 5) for error in ("EIO", "ENOSPC", "EPIPE", "EBADF")),
    (AUDIT, "write", None, 1, "EINTR", 0), (AUDIT, "write", None, 1, "EAGAIN", 0),
    *((AUDIT, "openat", "/dev/null", when, "EMFILE", 7) for when in (1, 2, 3)),
    # A connection.
    (MINE, "connect", None, 1, "ECONNREFUSED", 7), (MINE, "sendto", None, 1, "EINTR", 3),
    *((MINE, "sendto", None, 1, error, 5) for error in ("EPIPE", "ECONNRESET", "ENETUNREACH")),
    (MINE, "recvfrom", None, 1, "EINTR", 3), (MINE, "recvfrom", None, 1, "EAGAIN", 3),
    *((MINE, "recvfrom", None, 1, error, 4) for error in ("ECONNRESET", "ECONNABORTED", "EHOSTUNREACH", "ENETUNREACH")),
]


def peer(said):
    """Who says this to its first caller, and no more; its address."""
    server = socket.create_server(("127.0.0.1", 0))
    server.settimeout(30)

    def answer():
        try:
            connection, _ = server.accept()
            with connection:
                connection.settimeout(30)
                connection.sendall(said)
                connection.shutdown(socket.SHUT_WR)
                while connection.recv(4096):
                    pass
        except OSError:
            pass
        server.close()

    threading.Thread(target=answer, daemon=True).start()
    return f"127.0.0.1:{server.getsockname()[1]}"


def write_settings(place, **more):
    (place / "settings").write_text(json.dumps({
        "pool_script": "51", "least_class": 0, "fee": 100, "rule": "proportional", "ntime_window": 600, "workers": 1,
        "address": "127.0.0.1:1", "feed": "127.0.0.1:1",
    } | more))


def ran(command, place, strace):
    """Runs a command in a folder of its own: its status, what it printed, and the file that it left."""
    place.mkdir()
    write_settings(place)
    (place / "worked").write_bytes((examples / "worked.ledger").read_bytes())
    words = [peer(OF_VERSION_3) if word == "POOL" else word for word in command.words]
    run = subprocess.run(
        [*strace, program, *words], cwd=place, stdin=subprocess.DEVNULL, stdout=subprocess.PIPE, stderr=subprocess.PIPE,
        timeout=120,
    )
    written = place / command.written if command.written else None
    left = written.read_bytes() if written and written.is_file() else None
    return run.returncode, run.stdout, left


def wrong_of(row, place, good):
    """What isn't as the rules say, where a call fails so; none where all is."""
    command, call, path, when, how, wanted = row
    fault = "retval=0" if how == 0 else f"error={how}"
    strace = ["strace", "-f", "-o", f"{place}.calls", "-e", f"trace={call}", "-e", f"inject={call}:{fault}:when={when}"]
    if path:
        # A name is what is opened, a path what a descriptor leads to.
        strace += ["-P", path, "-P", str(place / path)]
    status, printed, left = ran(command, place, strace)
    calls = pathlib.Path(f"{place}.calls")
    if not calls.is_file() or "(INJECTED)" not in calls.read_text():
        return "no such call was made"
    if status != wanted:
        return f"status {status}, and not {wanted}"
    if status == command.status:
        return None if (printed, left) == good else f"it printed {printed} and left {left}"
    if left is not None and good[1] is not None and command.words[0] != "durable" and not good[1].startswith(left):
        return f"what is left is no front of the ledger: {left}"
    return None


def wrong_of_doors(place):
    """What isn't so where no caller can be let in for want of descriptors: a door asks again a turn later, and is given
    up after `door_turns` of them."""
    place.mkdir()
    with socket.create_server(("127.0.0.1", 0)) as free:
        address = f"127.0.0.1:{free.getsockname()[1]}"
    write_settings(place, feed=peer(ACCEPTED), address=address, idle_turns=10, door_turns=10)
    calls = place / "calls"
    strace = ["strace", "-f", "-o", str(calls), "-e", "trace=accept4", "-e", "inject=accept4:error=EMFILE"]
    began = time.monotonic()
    run = subprocess.run(
        [*strace, program, "serve", "settings", "ledger"], cwd=place, stdin=subprocess.DEVNULL, stdout=subprocess.PIPE,
        timeout=120,
    )
    took, asked = time.monotonic() - began, calls.read_text().count("(INJECTED)")
    if run.returncode != 0 or asked != 10 or took < 0.9:
        return f"status {run.returncode}, {asked} times asked within {took:.1f} s"
    return None


def can_trace():
    """Whether strace is there, and may look at a process."""
    try:
        ran = subprocess.run(["strace", "-o", os.devnull, "true"], stdout=subprocess.DEVNULL, stderr=subprocess.DEVNULL)
    except FileNotFoundError:
        return False
    return ran.returncode == 0


if not can_trace():
    print("nothing was tried: strace isn't there, or may trace nothing")
    sys.exit(0)
goods, wrong = {}, 0
for number, row in enumerate(ROWS):
    command = row[0]
    if command not in goods:
        status, printed, left = ran(command, folder / f"good-{len(goods)}", [])
        if status != command.status:
            sys.exit(f"{' '.join(command.words)} ends with {status} where nothing fails")
        goods[command] = printed, left
    if why := wrong_of(row, folder / f"{number}", goods[command]):
        wrong += 1
        print(f"WRONG: {' '.join(command.words)}, call {row[3]} of {row[1]} {row[2] or ''}: {row[4]}: {why}")
if why := wrong_of_doors(folder / "doors"):
    wrong += 1
    print(f"WRONG: serve, where no caller can be let in for want of descriptors: {why}")
print(f"{len(ROWS) + 1} calls failed, {wrong} wrong")
sys.exit(wrong > 0)
