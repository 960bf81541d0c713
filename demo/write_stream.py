#!/usr/bin/env python3
"""Writes an image and the stream of a hart that runs it: write_stream.py IMAGE STREAM. A testbench does the same with
what its design did; the functions below are all that it needs for instructions that access no memory."""
import struct, sys

OPEN, POKE, RETIRE, END = 1, 2, 7, 9


def frame(kind, fields=b"", hart=0, time=0, tag=0):
    """One message: the length of what follows the first two bytes, kind, hart, time, tag, and the fields."""
    return struct.pack("<HBBQQ", 18 + len(fields), kind, hart, time, tag) + fields


def open_stream(harts=1, flags=0):
    return frame(OPEN, struct.pack("<BBBBI", 1, harts, flags, 0, 0))


def poke_register(number, value, hart=0, time=0):
    return frame(POKE, struct.pack("<BBHQ", 1, 0, number, value), hart, time)


def retire(hart, time, tag, pc, word, next_pc, rd=None, value=0, cause=None, csrs=()):
    """An instruction that ended: it wrote `value` to register `rd`, or nothing; or it trapped with `cause`."""
    flags = (cause is not None) + 2 * (rd is not None)
    fields = struct.pack("<QIQBBBBQ", pc, word, next_pc, flags, cause or 0, rd or 0, len(csrs), value)
    return frame(RETIRE, fields + b"".join(struct.pack("<HQ", n, v) for n, v in csrs), hart, time, tag)


def end(time):
    return frame(END, time=time)


if __name__ == "__main__":
    words = [0x00500093, 0x00208133, 0x0000006F]  # addi x1,x0,5; add x2,x1,x2; jal x0,0
    with open(sys.argv[1], "wb") as image:
        image.write(b"".join(struct.pack("<I", word) for word in words))
    with open(sys.argv[2], "wb") as stream:
        stream.write(open_stream() + poke_register(2, 7))
        stream.write(retire(0, 1, 1, 0x80000000, words[0], 0x80000004, rd=1, value=5))
        stream.write(retire(0, 2, 2, 0x80000004, words[1], 0x80000008, rd=2, value=12))
        stream.write(retire(0, 3, 3, 0x80000008, words[2], 0x80000008) + end(4))
