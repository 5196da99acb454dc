#!/usr/bin/env python3
"""Pools and their listings, written from docs/REFERENCE.md and from nothing else: a second opinion on the
listing programs. Writes crates/listing/stdin and crates/listing_run/{stdin,stdout}; crates/listing/stdout
is the text that docs/REFERENCE.md prints and is compared here with what this script says. Run from the repository's root:

    python3 tools/pools.py
"""
import struct


class Record:
    def __init__(self, slot, key, stamp, start, name):
        self.slot, self.key, self.stamp, self.start, self.name = slot, key, stamp, start, name
        self.left = self.right = self.parent = self.balance = 0


def hang(records, parent):
    """Links records of rising keys as a tree below a slot. Gives back its root slot and its height."""
    if not records:
        return 0, 0
    middle = len(records) // 2
    top = records[middle]
    top.parent = parent
    top.left, left_height = hang(records[:middle], top.slot)
    top.right, right_height = hang(records[middle + 1:], top.slot)
    top.balance = {0: 0, 1: 1, -1: 2}[right_height - left_height]
    return top.slot, 1 + max(left_height, right_height)


class Pool:
    """N slots, the records of each tree, the text in use, the text's size, the next stamp."""

    def __init__(self, slots, trees, text, size, stamp):
        self.slots, self.trees, self.text, self.size, self.stamp = slots, trees, text, size, stamp
        for tree in trees:
            tree.sort(key=lambda r: r.key)
        self.roots = [hang(tree, 0)[0] for tree in trees]

    def live(self):
        return sum(len(tree) for tree in self.trees)

    def bytes(self):
        count = len(self.trees)
        header = struct.pack('<HHHHIIIIII', 1, self.slots, count, self.live(), 32, 32 + 8 * count,
                             32 + 8 * count + 32 * self.slots, self.size, len(self.text), self.stamp)
        entries = b''.join(struct.pack('<HHI', root, len(tree), 0) for root, tree in zip(self.roots, self.trees))
        rows = [bytes(32)] * self.slots
        for number, tree in enumerate(self.trees, 1):
            for r in tree:
                rows[r.slot - 1] = struct.pack('<QHHHBBIIH6x', r.key, r.left, r.right, r.parent, r.balance,
                                               number, r.stamp, r.start, len(r.name))
                assert self.text[r.start:r.start + len(r.name)] == r.name
        return header + entries + b''.join(rows) + self.text + bytes(self.size - len(self.text))

    def listing(self):
        lines = ['pool %d %d %d %d %d' % (self.slots, len(self.trees), self.live(), len(self.text), self.stamp)]
        for number, tree in enumerate(self.trees, 1):
            for r in tree:
                lines.append('%d %d %d %d %d %d %s' % (number, r.key, r.slot, r.stamp, r.parent, r.balance, r.name.hex()))
        return '\n'.join(lines) + '\n'


REFUSED = 'refused 1\n'


def first_example():
    """P1: keys 1, 2, 3 with the names a, b, c."""
    return Pool(4, [[Record(k, k, k, k - 1, b'abc'[k - 1:k]) for k in (1, 2, 3)]], b'abc', 16, 4)


class Numbers:
    """Numbers that look random, the same on every machine."""

    def __init__(self):
        self.state = 1

    def below(self, n):
        value = 0
        for _ in range(3):
            self.state = (self.state * 6364136223846793005 + 1442695040888963407) % 2 ** 64
            value = value * 2 ** 32 + self.state // 2 ** 32
        return value % n

    def pick(self, values):
        return values[self.below(len(values))]

    def distinct(self, count, low, high, rest):
        """`count` numbers from low to below high, with those of the rest among them."""
        found = dict.fromkeys(rest)
        while len(found) < count:
            found[low + self.below(high - low)] = None
        return list(found)


def full():
    """8 trees of 128 records each, every slot and all of the text in use, the largest numbers there are."""
    numbers = Numbers()
    text = bytes(numbers.below(256) for _ in range(8192))
    slots = numbers.distinct(1024, 1, 1025, [])
    stamps = numbers.distinct(1024, 1, 4294967295, [1, 4294967294])
    trees = []
    for _ in range(8):
        tree = []
        for key in numbers.distinct(128, 0, 2 ** 64, [0, 2 ** 64 - 1]):
            length = numbers.pick([1, 2, 7, 16, 100, 254, 255])
            start = numbers.pick([0, 8192 - length, numbers.below(8193 - length)])
            tree.append(Record(slots.pop(), key, stamps.pop(), start, text[start:start + length]))
        trees.append(tree)
    return Pool(1024, trees, text, 8192, 4294967295)


def sparse():
    """A pool with free slots, an empty tree between others, and the same keys in two trees."""
    text = b'onetwothree'
    one = [Record(7, 10, 3, 0, b'one'), Record(2, 20, 1, 3, b'two')]
    other = [Record(4, 20, 2, 6, b'three'), Record(9, 10, 9, 0, b'onetwothree'), Record(1, 0, 5, 10, b'e')]
    return Pool(9, [one, [], other], text, 20, 12)


def damaged(at, value):
    """P1's pool with another byte at a place."""
    b = bytearray(first_example().bytes())
    assert b[at] != value
    b[at] = value
    return bytes(b)


def cases():
    yield bytes(range(100)), REFUSED
    yield b'', REFUSED
    fresh = Pool(5, [[], [], []], b'', 16, 1)
    yield fresh.bytes(), fresh.listing()
    for pool in (full(), sparse()):
        yield pool.bytes(), pool.listing()
    yield first_example().bytes(), first_example().listing()
    yield damaged(40 + 14, 1), REFUSED  # slot 1's balance
    yield damaged(40 + 12, 3), REFUSED  # slot 1's parent
    yield damaged(40 + 128 + 3, 1), REFUSED  # the text behind what is used
    yield damaged(40 + 128, 0x7a), first_example().listing().replace(' 61\n', ' 7a\n')  # a letter of a name: no damage
    yield first_example().bytes() + b'\0', REFUSED  # a byte too many
    yield first_example().bytes()[:-1], REFUSED  # a byte too few


def write(path, content):
    with open(path, 'wb') as f:
        f.write(content)


def main():
    write('crates/listing/stdin', first_example().bytes())
    with open('crates/listing/stdout') as f:
        assert f.read() == first_example().listing(), 'crates/listing/stdout is not the listing of P1'
    given, expected = b'', ''
    for number, (pool, text) in enumerate(cases(), 1):
        given += struct.pack('<I', len(pool)) + pool
        expected += 'case %d\n%s' % (number, text)
    assert len(given) <= 65536
    write('crates/listing_run/stdin', given)
    write('crates/listing_run/stdout', expected.encode())


if __name__ == '__main__':
    main()
