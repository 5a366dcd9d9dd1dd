#!/usr/bin/env python3
"""Writes a stream of equal frames, as input for the benchmarks.

    stream-of-frames.py START PAYLOAD FILL COUNT FILE

START is the extension type and the message type in hex, as they stand in a frame. The payload is the bytes of
PAYLOAD, in hex, and then FILL bytes 11. The frame is written COUNT times.
"""
import sys

start, payload, fill, count, path = sys.argv[1:]
payload = bytes.fromhex(payload) + b"\x11" * int(fill)
frame = bytes.fromhex(start) + len(payload).to_bytes(3, "little") + payload
count = int(count)
many = max(1, 3_000_000 // len(frame))
with open(path, "wb") as stream:
    for written in range(0, count, many):
        stream.write(frame * min(many, count - written))
