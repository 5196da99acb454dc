#!/usr/bin/env python3
"""Writes crates/cases/stdin and crates/cases/stdout: stored calls of the doors and what they return.

The calls are the cases below and those of cases_random.py. What they return is computed by model.py, which
is a second opinion and not derived from the definitions of this repository. The shapes that the rules print
for P1 to P10 are asserted here too. Run without arguments: python3 tools/cases.py
"""
import os
import random
import struct
import sys

sys.dont_write_bytecode = True

from cases_random import large, random_pools
from cases_script import COMMIT, MARK, RESET, ROLLBACK, Script, adds, leaf, op, remove
from model import BATCH, COMMAND, LAST_STAMP, TOP


def printed_shapes(s):
    """P1 to P10, with the shapes as the rules print them."""
    three = (2, 0, leaf(1), leaf(3))
    s.start("P1", 4, 1, 16)
    s.batch(*adds(1, 2, 3))
    s.listing()
    assert s.shape() == three
    assert s.lines[-4:] == ["pool 4 1 3 3 4", "1 1 1 1 2 0 61", "1 2 2 2 0 0 62", "1 3 3 3 2 0 63"]
    for title, n, keys, gone, expected in [
            ("P2", 4, (3, 1, 2), None, three),
            ("P3", 5, (2, 1, 4, 3, 5), 1, (4, 2, (2, 1, None, leaf(3)), leaf(5))),
            ("P4", 4, (2, 1, 3), 2, (1, 1, None, leaf(3))),
            ("P5", 4, (2, 1, 3, 4), 2, (3, 0, leaf(1), leaf(4))),
            ("P6", 5, (4, 2, 5, 1, 3), 4, (3, 2, (2, 2, leaf(1), None), leaf(5)))]:
        s.start(title, n, 1, 16)
        s.batch(*adds(*keys), *([remove(gone)] if gone else []))
        s.listing()
        assert s.shape() == expected, title
    s.start("P7", 4, 1, 16)
    a = s.batch(*adds(10, 20, 30), remove(20), op(1, 25, b"d"), op(5, slot=2, stamp=2))
    assert a[4][:4] == (0, 0, 2, 4) and a[5][0] == 15
    s.listing()
    s.start("P8", 4, 1, 16)
    s.batch(*adds(1, 2))
    s.listing()
    assert s.shape() == (1, 1, None, leaf(2))
    a = s.batch(MARK, remove(1), ROLLBACK, op(5, slot=1, stamp=1))
    assert a[3] == (0, 0, 2, 2, 2, 1, 1) and s.shape() == (2, 2, leaf(1), None)
    s.name(1, 1, 1)
    s.listing()
    s.start("P9", 4, 1, 16)
    a = s.batch(*adds(10), MARK, remove(10), op(1, 30, b"b"), ROLLBACK, op(1, 40, b"c"), op(4, slot=1, stamp=2))
    assert a[3][2:4] == (1, 2) and a[5][2:4] == (2, 3) and a[6][0] == 15
    s.listing()
    s.start("P10", 4, 1, 16)
    a = s.batch(*adds(5), op(11), op(24, 5, b"b"))
    assert a[1][:2] == (0, 4) and a[2][:2] == (18, 0)
    s.listing()
    s.start("An add under a mark and its removal are undone one by one", 4, 1, 16)
    s.batch(*adds(11, 4), MARK, op(1, 20, b"c"), remove(20), op(1, 9, b"d"), ROLLBACK)
    assert s.shape() == (11, 2, leaf(4), None)
    s.listing()


def sizes(s):
    s.title("Before any create the buffer in use is empty")
    s.check()
    s.name(1, 1, 1)
    s.batch()
    s.listing()
    s.start("Sizes at their limits", 1024, 8, 8192)
    s.check()
    s.batch()
    s.listing()
    for n, t, x, length in [
            (1025, 1, 0, None), (0, 1, 0, None), (1, 8, 0, None), (1, 9, 0, None), (1, 0, 0, None),
            (1, 1, 8192, None), (1, 1, 8193, None), (4, 1, 16, 183), (4, 1, 16, 185), (4, 1, 16, 0),
            (65540, 1, 16, 184), (4, 65537, 16, 184), (2**32 - 1, 2**32 - 1, 2**32 - 1, 184), (4, 1, 16, 184)]:
        s.create(n, t, x, length)
    s.title("A refused create leaves the buffer as it was")
    s.batch(*adds(1, 2, 3))
    s.create(1025, 1, 16, 184)
    s.listing()
    s.create(4, 1, 16, 183)
    s.check()
    s.listing()
    s.create(0, 1, 16, 184)
    s.check()


def batches(s):
    s.start("A batch's header and length", 4, 1, 16)
    s.batch(*adds(1))
    get = struct.pack(COMMAND, 2, 1, 0, 0, 1, 0, 0, 0)
    good = struct.pack(BATCH, 1, 1, 16, 40, 3) + get + b"xyz"
    for w in [good, b"", good[:15], good[:16], good[:-1], good + b"x"]:
        s.raw(w, 24)
    for head in [(0, 1, 16, 40, 3), (257, 1, 16, 40, 3), (1, 0, 16, 40, 3), (1, 2, 16, 64, 3), (1, 1, 17, 40, 3),
                 (1, 1, 16, 41, 2), (1, 1, 16, 40, 2), (1, 1, 16, 40, 4), (1, 1, 65552, 40, 3),
                 (1, 1, 16, 40 + 65536, 3), (1, 1, 16, 40, 3 + 65536), (1, 1, 16, 40, 2**32 - 1)]:
        s.raw(struct.pack(BATCH, *head) + get + b"xyz", 24)
    s.title("No commands; with names; with a whole pool's length of names, and one byte more")
    s.batch(room=0)
    s.batch(names=b"abc", room=5)
    s.batch(op(2, 1), names=bytes(16384))
    s.batch(op(2, 1), names=bytes(16385))
    s.title("256 commands, and 257")
    s.batch(*[op(2, i % 3) for i in range(256)])
    s.batch(*[op(2, i % 3) for i in range(257)])
    s.title("Answers one byte short, just long enough, and longer")
    s.batch(op(2, 1), op(1, 2, b"b"), room=47)
    s.batch(op(2, 1), op(2, 2), room=48)
    s.batch(op(2, 1), op(1, 2, b"b"), room=200)
    s.listing()


def names_and_slots(s):
    s.start("Names", 8, 1, 1000)
    s.batch(op(1, 1, bytes(range(1, 256))), op(1, 2, bytes(256)), op(1, 3, b""))
    s.batch(op(1, 4, (2, 3)), op(1, 5, (2, 4)), op(1, 6, (5, 1)), op(1, 7, (2**32 - 1, 1)), op(1, 8, (9, 0)),
            op(1, 9, (4, 1), spare=65535), op(1, 4, (5, 1)), op(1, 4, (0, 65535)), names=b"abcde")
    for slot, stamp in [(1, 1), (2, 2), (3, 3), (1, 2), (0, 1), (9, 1), (4, 4), (65535, 1)]:
        s.name(1, slot, stamp)
    s.name(0, 1, 1)
    s.name(2, 1, 1)
    s.listing()
    s.start("A full pool, then one freed slot", 4, 2, 64)
    s.batch(*adds(1, 2, 3, 4), op(1, 5, b"e"), op(1, 5, b"e", tree=2), op(1, 3, b"f"), op(1, 3, (0, 0)), remove(2),
            op(1, 9, b"g", tree=2), op(1, 8, b"h"), op(4, slot=2, stamp=2), op(4, slot=2, stamp=5),
            op(4, tree=2, slot=2, stamp=5), op(6, tree=2, slot=1, stamp=1), op(6, tree=2, slot=1, stamp=9),
            op(4, slot=2, stamp=5), op(4, slot=5, stamp=1), op(4, tree=3, slot=5))
    s.listing()
    s.start("No text: every well-formed add is refused", 4, 1, 0)
    s.batch(op(1, 1, b"a"), op(9, 1), op(20, 1, b"a"), op(20, 2, b"a"), op(20, 1, b""), op(10), op(25, 1, b"a"),
            op(25, 1, b""), op(11), op(24, 1, b"a"), op(16, 1, b"a"), MARK, op(1, 1, b"abc"), COMMIT)
    s.listing()
    s.start("Text to the last byte", 4, 1, 5)
    s.batch(op(1, 1, b"abc"), op(1, 2, b"def"), op(1, 2, b"de"), op(1, 3, b"f"), remove(2), op(1, 3, b"f"))
    s.listing()
    s.start("The last stamp is never given", 4, 1, 16)
    s.batch(*adds(1))
    for i, byte in enumerate(struct.pack("<I", LAST_STAMP - 1)):
        s.damage(28 + i, byte)
    s.batch(op(1, 2, b"b"), op(1, 3, b"c"), op(9, 3), op(20, 3, b"c"), MARK, remove(1), op(1, 4, b"d"), ROLLBACK,
            op(4, slot=2, stamp=LAST_STAMP - 1))
    s.listing()


def damaged(s):
    s.start("Every bit of a small pool turned over, one at a time", 5, 2, 12)
    s.batch(*adds(5, 3), op(1, 5, b"cc", tree=2), remove(3), op(1, 9, b"d"), op(1, 2, b"e"))
    s.listing()
    for place in range(s.used):
        was = s.space[place]
        for bit in range(8):
            s.damage(place, was ^ 1 << bit)
            s.check()
        s.damage(place, was)
    s.title("A damaged pool: batch (after 2 and 3), check, name, listing")
    s.name(1, 1, 1)
    s.damage(0, 2)
    s.batch(op(2, 5))
    s.batch(op(2, 5), room=23)
    s.raw(b"short", 0)
    s.batch()
    s.check()
    s.name(1, 1, 1)
    s.listing()
    s.damage(0, 1)
    s.listing()


def refusals(s):
    """Each adding op with a good and a bad key and name, in pools short of slots, text or stamps: the first
    number in the order of the checks is given."""
    adding = [([], 1, 15, 10), ([op(9, 20)], 16, 15, 10), ([op(9, 10)], 17, 15, 20), ([op(9, 20)], 18, 15, 20),
              ([op(9, 10)], 19, 15, 10), ([op(9, 15)], 20, 15, 16), ([op(11)], 24, 30, 20), ([op(10)], 25, 5, 10),
              ([op(11, tree=2)], 24, 0, 7), ([op(10, tree=2)], 25, TOP, 7)]
    for n, x, stamp in [(n, x, stamp) for n in (8, 2) for x in (9, 2) for stamp in (3, LAST_STAMP)]:
        s.start("Adding ops with %d slots, %d bytes of text, next stamp %d" % (n, x, stamp), n, 2, x)
        s.batch(*adds(10, 20))
        for i, byte in enumerate(struct.pack("<I", stamp)):
            s.damage(28 + i, byte)
        for name in (b"n", b""):
            s.batch(*[c for before, number, good, bad in adding for key in (good, bad)
                      for c in [MARK, *before, op(number, key, name), ROLLBACK]])
        s.listing()
    s.start("Ops 1 to 11 with a bad tree, a bad slot, a stale handle and another tree's record", 4, 2, 16)
    s.batch(*adds(1, 2))
    s.batch(*[op(i, 1, b"", tree=t) for i in range(1, 12) for t in (0, 3, 255)])
    s.batch(*[op(i, 1, tree=t, slot=x, stamp=g) for i in (5, 6, 4) for t in (0, 2, 1)
              for x, g in [(0, 1), (5, 1), (65535, 1), (3, 0), (1, 2), (1, 0), (2, 2)]])
    s.listing()


def cursors(s):
    s.start("Refused cursor commands that keep the cursor, and those that lose it", 8, 2, 64)
    s.batch(*[op(i, 1, b"x") for i in range(12, 26)])
    s.batch(*adds(10, 20, 30))
    s.batch(op(9, 20), op(16, 20, b"a"), op(16, 10, b"a"), op(16, 15, b""), op(20, 20, b"a"), op(24, 40, b"a"),
            op(16, 15, b"p", tree=255), op(17, 25, b"q", tree=0), op(12), op(13), op(18, 17, b"r"), op(19, 18, b"s"),
            op(19, 18, b"s"), op(22), op(23), op(14), op(14), op(14), op(14))
    s.listing()
    s.batch(op(9, 12), op(12), op(13), op(21), op(22), op(16, 11, b"a"), op(20, 13, b"a"), op(20, 12, b""),
            op(20, 12, b"t"), op(21), op(21), op(9, 12), op(15), op(15), op(12), op(9, 5), op(13), op(15), op(14))
    s.batch(op(10), op(13), op(22), op(25, 10, b""), op(25, 9, b"a"), op(12), op(16, 8, b"b"), op(25, 7, b"c"), op(14),
            op(10), op(25, 8, b"d"), op(25, 1, b"d"), op(11), op(12), op(23), op(24, 99, b"e"), op(24, 99, b"f"),
            op(24, 100, b"f"), op(11), op(15), op(24, 101, b"f"))
    s.listing()
    s.batch(op(10, tree=2), op(12), op(13), op(21), op(16, 1, b"a"), op(22), op(24, 1, b"a"), op(14), op(12),
            op(11, tree=2), op(15), op(9, 4, tree=2), op(12), op(15), op(9, 4, tree=2), op(14), op(9, 4, tree=0),
            op(12), op(11), op(9, tree=3), op(12), op(10), op(2, 0), op(12), op(11), op(0), op(12), op(11), op(30),
            op(12), op(11), op(27), op(12), op(11), op(255), op(7, tree=2), op(8, tree=2), op(7), op(8))
    s.title("Keys at both ends")
    s.batch(RESET, op(11), op(24, TOP, b"a"), op(24, TOP, b"b"), op(10), op(25, 0, b"c"), op(16, 0, b"d"),
            op(17, TOP, b"d"), op(17, 1, b"d"), op(11), op(17, TOP, b"e"), op(16, TOP - 1, b"e"), op(13), op(12))
    s.listing()


def marks(s):
    s.start("A mark open at the end of a batch is rolled back", 6, 2, 32)
    s.batch(*adds(4, 2), MARK, op(1, 6, b"c"), remove(4), op(1, 4, b"d", tree=2))
    s.listing()
    s.batch(op(4, slot=3, stamp=3), op(4, slot=1, stamp=1), op(27), op(28))
    s.listing()
    s.title("Commit; a second mark; a nested mark and a reset under a mark refused; rollback and commit with none")
    s.batch(MARK, op(1, 7, b"e"), COMMIT, COMMIT, ROLLBACK, MARK, op(11), MARK, op(12), op(1, 8, b"f"), RESET, ROLLBACK,
            MARK, op(11), op(24, 9, b"g"), op(22), op(16, 8, b"h"), COMMIT)
    s.listing()
    s.title("Handles after a rollback and after a reset, in the same batch and in later ones")
    a = s.batch(MARK, op(1, 1, b"i", tree=2), ROLLBACK, op(1, 1, b"j", tree=2))
    assert a[1][2] == a[3][2] and a[1][3] + 1 == a[3][3]
    s.batch(*[op(i, tree=2, slot=a[1][2], stamp=a[1][3]) for i in (4, 5, 6)])
    s.name(2, a[1][2], a[1][3])
    s.name(2, a[3][2], a[3][3])
    s.batch(RESET, op(4, tree=2, slot=a[3][2], stamp=a[3][3]), op(1, 1, b"k"))
    s.batch(*[op(4, slot=1, stamp=i) for i in range(a[3][3] + 3)])
    s.name(2, a[3][2], a[3][3])
    s.listing()


def main():
    s, rng = Script(), random.Random(20261107)
    sizes(s)
    printed_shapes(s)
    batches(s)
    names_and_slots(s)
    damaged(s)
    refusals(s)
    cursors(s)
    marks(s)
    random_pools(s, rng)
    large(s, rng)
    crate = os.path.join(os.path.dirname(os.path.dirname(os.path.abspath(__file__))), "crates", "cases")
    for name, content in [("stdin", bytes(s.calls)), ("stdout", "".join(line + "\n" for line in s.lines).encode())]:
        with open(os.path.join(crate, name), "wb") as file:
            file.write(content)
        print(name, len(content))


if __name__ == "__main__":
    main()
