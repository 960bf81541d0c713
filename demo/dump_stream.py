#!/usr/bin/env python3
"""Prints a stream frame by frame: dump_stream.py STREAM. It judges nothing; it shows where frames begin and what they
hold."""
import struct, sys

KINDS = ["?", "Open", "Poke", "Read", "Insert", "Write", "Bypass", "Retire", "Squash", "End"]

with open(sys.argv[1], "rb") as file:
    stream = file.read()
at, number = 0, 1
while at + 20 <= len(stream):
    length, kind, hart, time, tag = struct.unpack_from("<HBBQQ", stream, at)
    if at + 2 + length > len(stream):
        break
    name = KINDS[kind] if kind < len(KINDS) else f"kind {kind}"
    print(f"message={number} offset={at} length={length} {name} hart={hart} time={time} tag={tag}",
          stream[at + 20:at + 2 + length].hex(" "))
    at, number = at + 2 + length, number + 1
if at != len(stream):
    print(f"no whole frame, from offset {at} on: {stream[at:].hex(' ')}")
