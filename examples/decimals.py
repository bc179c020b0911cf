#!/usr/bin/env python3
"""Print a description, or remyline's lines, with each double as a decimal number.

    remyline < one-gateway.txt | decimals.py
"""
import re
import struct
import sys

if len(sys.argv) > 1:
    sys.exit(__doc__.strip())
for line in sys.stdin:
    if not line.startswith(("limit=", "bits=", "seed=")):  # whole numbers, which may have 16 digits too
        line = re.sub(r"\b[0-9a-f]{16}\b", lambda m: repr(struct.unpack(">d", bytes.fromhex(m[0]))[0]), line)
    print(line, end="")
