#!/usr/bin/env python3
"""What the program `damage` must print, worked out a second time.

An oracle in plain Python, written from docs/RECORDINGS.md and from nothing in
crates/.

  tools/recordings.py damage          what the program `damage` must print
  tools/recordings.py example         the worked example of docs/RECORDINGS.md, in hexadecimal
  tools/recordings.py self-check [N]  N random recordings (default 2000): written, checked, and damaged
                                      at random, where the check must give back what was recorded or
                                      refuse what no note, rows and entries would give
"""
import random
import struct
import sys


class Refused(Exception):
    """A numbered refusal with its channel; the depth is 0."""

    def __init__(self, number, channel=0):
        super().__init__(number)
        self.number, self.channel = number, channel

    def line(self):
        return f"refused {self.number} channel {self.channel} depth 0"


def fit(modulus, bound):
    return 1 <= modulus <= 2**31 and 4 * bound < modulus


def number(n):
    return struct.pack("<I", n)


def encode(note, rows, entries):
    """rows: the numbers of all rows, one row after another."""
    place = len(note) + 4 * len(rows)
    out = note + b"".join(number(x) for x in rows)
    for modulus, bound in entries:
        out += number(modulus) + number(bound)
    return out + number(place) + number(len(rows) // len(entries)) + number(len(entries)) + number(1)


def check(data):
    """The note, the rows and the entries, or Refused."""
    if len(data) < 16:
        raise Refused(45)
    place, count, channels, edition = struct.unpack("<4I", data[-16:])
    if edition != 1:
        raise Refused(46)
    if not 1 <= channels <= 8:
        raise Refused(47)
    if place + 8 * channels + 16 != len(data) or 4 * count * channels > place:
        raise Refused(48)
    entries = list(struct.iter_unpack("<2I", data[place:-16]))
    for channel, entry in enumerate(entries):
        if not fit(*entry):
            raise Refused(43, channel)
    start = place - 4 * count * channels
    rows = [x for (x,) in struct.iter_unpack("<I", data[start:place])]
    return data[:start], rows, entries


def write(room, note, rows, entries):
    """The buffer of `room` bytes, all FREE before, after the writer; and the length."""
    if not 1 <= len(entries) <= 8:
        raise Refused(47)
    if len(rows) % len(entries):
        raise Refused(42)
    for channel, entry in enumerate(entries):
        if not fit(*entry):
            raise Refused(43, channel)
    data = encode(note, rows, entries)
    if len(data) > room or len(data) > 2**31:
        raise Refused(44)
    return data + bytes([FREE] * (room - len(data))), len(data)


# ---- the program `damage`

FREE = 238
NOTE = b"lab 7"
ROWS = [19, 36, 37, 19, 4294967295, 37, 30, 40, 4294967294]
FIT, WIDE = (30, 2), (40, 10)
ENTRIES = [FIT, (2147483648, 3), (50, 12)]


def spaced(numbers):
    return "".join(f" {n}" for n in numbers)


def told(data):
    try:
        note, rows, entries = check(data)
    except Refused as r:
        return r.line()
    line = f"note {len(note)} rows {len(rows) // len(entries)} channels {len(entries)}"
    return line + (" last" + spaced(rows[-len(entries):]) if rows else "")


def damage():
    room, length = write(84, NOTE, ROWS, ENTRIES)
    yield "bytes" + spaced(room)
    good = room[:length]
    note, rows, entries = check(good)
    yield "note bytes" + spaced(note)
    for channel, (modulus, bound) in enumerate(entries):
        yield f"channel {channel} modulus {modulus} bound {bound}"
    for row in range(len(rows) // len(entries)):
        yield f"row {row}" + spaced(rows[row * len(entries):(row + 1) * len(entries)])
    yield f"row {len(rows) // len(entries)}" + " none" * len(entries)
    for count in range(length):
        yield f"first {count}: {told(good[:count])}"
    for place in range(41, length):
        for value in (0, 255) if place < 65 else (0, 1, 2, 3, 8, 9, 128, 255):
            form = bytearray(good)
            form[place] = value
            yield f"byte {place} is {value}: {told(bytes(form))}"
    for size, note, rows, entries in (
            (84, NOTE, ROWS, []), (84, NOTE, ROWS, [FIT] * 9), (84, NOTE, [1, 2, 3, 4], ENTRIES),
            (84, NOTE, [1, 2, 3, 4], [FIT, WIDE]), (80, NOTE, ROWS, ENTRIES), (81, NOTE, ROWS, ENTRIES),
            (84, NOTE, [], ENTRIES), (84, b"", [7], [FIT])):
        room = bytes([FREE] * size)
        try:
            room, length = write(size, note, rows, entries)
            said = f"wrote {length}"
        except Refused as r:
            said = r.line()
        yield f"{said}, {room.count(FREE)} bytes free"


# ---- the page's example

def example():
    data = encode(b"A", [19, 36, 37, 19, 4294967295, 37], [(30, 2), (40, 2), (50, 2)])
    for at in range(0, len(data), 16):
        yield f"{at:3}  " + " ".join(f"{b:02x}" for b in data[at:at + 16])


# ---- self-check

def self_check(times):
    rng = random.Random(1)
    for _ in range(times):
        channels = rng.randint(1, 8)
        note = rng.randbytes(rng.randint(0, 9))
        rows = [rng.choice((0, 1, 255, 256, 2**32 - 1, rng.getrandbits(32))) for _ in range(channels * rng.randint(0, 4))]
        entries = []
        while len(entries) < channels:
            modulus = rng.choice((1, 2**31, rng.randint(1, 2**31)))
            entries.append((modulus, rng.randint(0, (modulus - 1) // 4)))
        data = encode(note, rows, entries)
        assert check(data) == (note, rows, entries)
        form = bytearray(data)
        form[rng.randrange(len(form))] = rng.choice((0, 1, 2, 255, rng.getrandbits(8)))
        form = bytes(form[:rng.choice((len(form), rng.randint(0, len(form))))])
        try:
            again = check(form)
        except Refused:
            continue
        assert encode(*again) == form
    return f"{times} recordings, all as they must be"


def main(words):
    if words[:1] == ["damage"]:
        print("\n".join(damage()))
    elif words[:1] == ["example"]:
        print("\n".join(example()))
    elif words[:1] == ["self-check"]:
        print(self_check(int(words[1]) if words[1:] else 2000))
    else:
        print(__doc__)


if __name__ == "__main__":
    main(sys.argv[1:])
