#!/usr/bin/env python3
"""Makes the messages of samples/ anew. What amfrows has to print of each, NAME.txt beside NAME.amf, is kept by hand.

    python3 tools/samples.py samples
"""
import os
import struct
import sys


def u29(n):
    """The shortest form of a number below 2^21: more is not needed here."""
    if n < 0x80:
        return bytes([n])
    if n < 0x4000:
        return bytes([n >> 7 | 0x80, n & 0x7F])
    return bytes([n >> 14 | 0x80, n >> 7 & 0x7F | 0x80, n & 0x7F])


def new(n):
    """A size word: a length."""
    return u29(n << 1 | 1)


def old(i):
    """A size word: a reference."""
    return u29(i << 1)


def text(s):
    return new(len(s)) + s


def trait(names, dynamic=0):
    """An object word with a trait of so many names."""
    return u29(names << 4 | dynamic << 3 | 3)


def known(i):
    """An object word with a trait by its number."""
    return u29(i << 2 | 1)


def double(x):
    return struct.pack(">d", x)


EMPTY = new(0)
UNDEFINED, NULL, FALSE, TRUE = b"\x00", b"\x01", b"\x02", b"\x03"
INTEGER, DOUBLE, STRING, XML_DOCUMENT, DATE, ARRAY, OBJECT = b"\x04", b"\x05", b"\x06", b"\x07", b"\x08", b"\x09", b"\x0a"
XML, BYTE_ARRAY, INT_VECTOR, UINT_VECTOR, DOUBLE_VECTOR, OBJECT_VECTOR, DICTIONARY = b"\x0b", b"\x0c", b"\x0d", b"\x0e", b"\x0f", b"\x10", b"\x11"

# An order to a crane: a box, when it was issued, and two moves. The second move has the trait and the texts of the first.
ORDER = [
    OBJECT + trait(4) + text(b"yard.Order") + text(b"crane") + text(b"box") + text(b"issued") + text(b"moves"),
    INTEGER + u29(7),
    STRING + text(b"MSKU1234565"),
    DATE + new(0) + double(1763208000000),
    ARRAY + new(2) + EMPTY,
    OBJECT + trait(2) + text(b"yard.Move") + text(b"from") + text(b"to"),
    STRING + text(b"A1"),
    STRING + text(b"B2"),
    OBJECT + known(1),
    STRING + old(10),
    STRING + old(9),
]

# An array with a row of every kind, keys, classes, and references to a text, a trait and an object.
KINDS = [
    ARRAY + new(22),
    text(b"on") + TRUE,
    EMPTY,
    UNDEFINED,
    NULL,
    FALSE,
    INTEGER + b"\xff\xff\xff\xff",
    INTEGER + u29(300),
    DOUBLE + double(-1.5),
    STRING + old(0),
    STRING + EMPTY,
    XML_DOCUMENT + text(b"<a/>"),
    DATE + new(0) + double(1000.75),
    OBJECT + trait(0, dynamic=1) + EMPTY + text(b"x") + INTEGER + u29(5) + EMPTY,
    OBJECT + trait(1) + text(b"C") + old(1) + NULL,
    OBJECT + known(1) + UNDEFINED,
    XML + text(b"<b/>"),
    BYTE_ARRAY + new(3) + b"\x01\x80\xff",
    BYTE_ARRAY + new(0),
    INT_VECTOR + new(2) + b"\x01" + struct.pack(">ii", 1, -1),
    UINT_VECTOR + new(1) + b"\x00" + struct.pack(">I", 0x80000000),
    DOUBLE_VECTOR + new(1) + b"\x07" + double(0.5),
    OBJECT_VECTOR + new(1) + b"\x00" + old(2) + NULL,
    OBJECT_VECTOR + new(0) + b"\x01" + text(b"*"),
    DICTIONARY + new(1) + b"\x01" + (STRING + old(1)) + (DATE + old(2)),
]

# A box built before 1970, and an array of when it was seen: that day again, parts of a millisecond, -0.0, the earliest date that is listed, past both ends.
BUILT = [
    OBJECT + trait(3) + text(b"yard.Box") + text(b"box") + text(b"built") + text(b"seen"),
    STRING + text(b"MSKU1234565"),
    DATE + new(0) + double(-31536000000),
    ARRAY + new(7) + EMPTY,
    DATE + old(1),
    DATE + new(0) + double(-1.5),
    DATE + new(0) + double(-0.75),
    DATE + new(0) + double(-0.0),
    DATE + new(0) + double(-(2.0**63)),
    DATE + new(0) + double(-1e300),
    DATE + new(0) + double(1e300),
]

SAMPLES = {
    "order": ORDER,
    "kinds": KINDS,
    "built": BUILT,
    "pieces": [BYTE_ARRAY + new(5000), bytes(i % 251 for i in range(5000)), b"not taken"],
    "none": [],
    "marker": [ARRAY + new(1) + EMPTY + b"\x12"],
    "date": [DATE + new(0) + double(float("-inf"))],
    "deep": [64 * (ARRAY + new(1) + EMPTY) + NULL],
    "rows": [ARRAY + new(512) + EMPTY + 512 * NULL],
}

for name, parts in SAMPLES.items():
    with open(os.path.join(sys.argv[1], name + ".amf"), "wb") as out:
        out.write(b"".join(parts))
