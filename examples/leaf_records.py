#!/usr/bin/env python3
"""Lists the records of a journal's leaf: the place of each gate, and its body in hexadecimal.

    examples/leaf_records.py FILE

FILE is JOURNAL, or JOURNAL.1 if the first byte of JOURNAL.s is odd.
"""
import sys

if len(sys.argv) != 2:
    sys.exit("usage: examples/leaf_records.py FILE")

leaf = open(sys.argv[1], "rb").read()
if len(leaf) <= 9:
    sys.exit(0)
kinds = {b"AS4JNL1\n": (4, 1 << 30), b"AS4JNL2\n": (8, 1 << 32)}
if leaf[:8] not in kinds:
    sys.exit("not a journal at 0")
width, limit = kinds[leaf[:8]]
gate = 8
while leaf[gate] == 1:
    start = gate + 1 + width
    end = start + int.from_bytes(leaf[gate + 1 : start], "big")
    if start > len(leaf) or end >= min(len(leaf), limit):
        sys.exit(f"not a journal at {gate}")
    print(gate, leaf[start:end].hex())
    gate = end
