#!/usr/bin/env python3
"""A table as a recording, worked out from the format alone.

  tools/tables.py record < TABLE > RECORDING

The table is read as docs/OUTPUT.md says, and the bytes are put together as
docs/RECORDINGS.md says, by nothing in crates/. Only good tables are taken.
"""
import struct
import sys


def record(text):
    note, moduli, bounds, rows = b"", [], [], []
    for line in text.split(b"\n"):
        words = line.split(b" ")
        words = [w for w in words if w]
        if line[:1] == b"#" or not words:
            continue
        if words[0] == b"note":
            note = line.lstrip(b" ")[5:]
        elif words[0] == b"moduli":
            moduli = [int(w) for w in words[1:]]
        elif words[0] == b"bounds":
            bounds = [int(w) for w in words[1:]]
        else:
            row = [2**32 - 1 if w == b"-" else int(w) for w in words]
            assert len(row) == len(moduli)
            rows += row
    assert len(moduli) == len(bounds) and 1 <= len(moduli) <= 8
    assert all(1 <= m <= 2**31 and 4 * b < m for m, b in zip(moduli, bounds))
    numbers = rows + [n for pair in zip(moduli, bounds) for n in pair]
    numbers += [len(note) + 4 * len(rows), len(rows) // len(moduli), len(moduli), 1]
    return note + b"".join(struct.pack("<I", n) for n in numbers)


if sys.argv[1:] == ["record"]:
    sys.stdout.buffer.write(record(sys.stdin.buffer.read()))
else:
    print(__doc__)
