#!/usr/bin/env python3
"""Writes the image of a canteen's till box, 64 blocks with five purses, to each file named.

    python3 samples/make.py samples/canteen.img crates/purselist/stdin

The layout is document 01's. Each purse is named by its card number and holds lines of sales.
The second file is the same image as the input on which the gate runs purselist.
"""
import struct
import sys

BLOCK, BLOCKS = 512, 64
BITMAP, INODES, DATA = 33, 34, 42

# record, card number, size in bytes, extents (first block, count), extent block where there are more than four extents
PURSES = [
    (0, "5010260000000417", 1300, [(42, 3)], None),
    (1, "5010260000000425", 1480, [(45, 1), (47, 2)], None),
    (2, "5010260000000433", 0, [], None),
    (3, "5010260000000441", 2900, [(49, 1), (51, 1), (53, 1), (55, 1), (57, 2)], 60),
    (17, "50102600000004AF", 512, [(46, 1)], None),
]


def sales(card, size):
    """The lines of a purse, as many bytes as it has."""
    lines, balance = b"", 5000
    while len(lines) < size:
        balance = balance - 420 if balance >= 420 else balance + 5000
        lines += b"card %s meal 4.20 balance %d.%02d\n" % (card[-4:].encode(), balance // 100, balance % 100)
    return lines[:size]


def slots(extents, room):
    return b"".join(struct.pack("<HH", *e) for e in extents).ljust(room, b"\0")


def put(image, at, data):
    image[at:at + len(data)] = data


def make():
    image = bytearray(BLOCK * BLOCKS)
    used = set(range(DATA)) | set(range(BLOCKS, 8 * BLOCK))
    for record, card, size, extents, node in PURSES:
        blocks = [first + k for first, count in extents for k in range(count)]
        top = extents if node is None else [(node, len(blocks))]
        inode = bytes.fromhex(card) + struct.pack("<IB3x", size, node is not None) + slots(top, 16)
        put(image, BLOCK * INODES + 32 * record, inode)
        if node is not None:
            put(image, BLOCK * node, slots(extents, BLOCK))
            used.add(node)
        text = sales(card, size)
        for k, block in enumerate(blocks):
            put(image, BLOCK * block, text[BLOCK * k:BLOCK * (k + 1)])
        used.update(blocks)
    for block in used:
        image[BLOCK * BITMAP + block // 8] |= 1 << block % 8
    return image


if __name__ == "__main__":
    for path in sys.argv[1:]:
        with open(path, "wb") as out:
            out.write(make())
