"""A model of the pool and its doors, for tools/cases.py.

A second opinion on the rules of the build: it is written from the rules' text (pool, doors, cursor, numbers
returned) and from the Rust source of the tree (avl/src/lib.rs, entry.rs), and not from the definitions, the
models or the code of this repository. Only the signatures of the doors were read off the code.
"""
import struct

from model_tree import LEFT, RIGHT, Node, Trees

LAST_STAMP = 2**32 - 1
TOP = 2**64 - 1
HEADER, ENTRY, RECORD, BATCH = "<HHHHIIIIII", "<HHI", "<QHHHBBIIH6s", "<HHIII"
COMMAND, ANSWER = "<BBHIQIHH", "<BBHIQIH2x"


class Refused(Exception):
    """A command's refusal; the number is its argument."""


def need(holds, number):
    if not holds:
        raise Refused(number)


# The pool: its bytes, whether they are sound, and what they say.

def fresh(slots, trees, text):
    records = 32 + 8 * trees
    head = struct.pack(HEADER, 1, slots, trees, 0, 32, records, records + 32 * slots, text, 0, 1)
    return head + bytes(8 * trees + 32 * slots + text)


class Unsound(Exception):
    pass


def insist(holds):
    if not holds:
        raise Unsound


class Pool(Trees):
    """A pool read from bytes; raises Unsound if they are not a sound pool."""

    def __init__(self, b):
        insist(len(b) >= 32)
        edition, n, t, live, table, records, text, size, self.used, self.next = struct.unpack_from(HEADER, b)
        insist(edition == 1 and 1 <= n <= 1024 and 1 <= t <= 8 and size <= 8192)
        insist((table, records, text) == (32, 32 + 8 * t, 32 + 8 * t + 32 * n) and len(b) == text + size)
        insist(self.used <= size and self.next >= 1)
        super().__init__(n, t)
        self.slots, self.trees, self.text = n, t, bytearray(b[text:])
        insist(not any(self.text[self.used:]))
        for x in range(1, n + 1):
            self.read_record(x, b[records + 32 * (x - 1):records + 32 * x])
        seen = set()
        for i in range(1, t + 1):
            self.root[i], self.count[i], zeros = struct.unpack_from(ENTRY, b, 32 + 8 * (i - 1))
            insist(zeros == 0 and (self.root[i] == 0) == (self.count[i] == 0))
            keys = []
            self.read_tree(i, self.root[i], 0, seen, keys)
            insist(len(keys) == self.count[i] and all(a < b for a, b in zip(keys, keys[1:])))
        insist(live == self.live() == len(seen))

    def read_record(self, x, b):
        key, left, right, parent, balance, tree, stamp, start, length, zeros = struct.unpack(RECORD, b)
        if tree == 0:
            insist(not any(b))
            return
        insist(balance <= 2 and tree <= self.trees and 1 <= stamp < self.next and not any(zeros))
        insist(1 <= length <= 255 and start + length <= self.used)
        self.node[x] = Node(key, tree, stamp, start, length)
        self.node[x].child, self.node[x].parent, self.node[x].balance = [left, right], parent, balance

    def read_tree(self, t, x, parent, seen, keys):
        """The height; every record of the tree once, and its key in the walk's order."""
        if x == 0:
            return 0
        insist(x <= self.slots and x not in seen and self.node[x] is not None)
        node = self.node[x]
        insist(node.tree == t and node.parent == parent)
        seen.add(x)
        left = self.read_tree(t, node.child[LEFT], x, seen, keys)
        keys.append(node.key)
        right = self.read_tree(t, node.child[RIGHT], x, seen, keys)
        insist({0: 0, 1: 1, -1: 2}.get(right - left) == node.balance)
        return 1 + max(left, right)

    def live(self):
        return sum(x is not None for x in self.node)

    def bytes(self):
        b = bytearray(fresh(self.slots, self.trees, len(self.text)))
        struct.pack_into("<H", b, 6, self.live())
        struct.pack_into("<II", b, 24, self.used, self.next)
        for t in range(1, self.trees + 1):
            struct.pack_into(ENTRY, b, 24 + 8 * t, self.root[t], self.count[t], 0)
        for x, r in enumerate(self.node):
            if r:
                struct.pack_into(RECORD, b, 8 * self.trees + 32 * x, r.key, *r.child, r.parent, r.balance,
                                 r.tree, r.stamp, r.start, r.length, bytes(6))
        return bytes(b[:len(b) - len(self.text)] + self.text)

    def name(self, x):
        return bytes(self.text[self.node[x].start:self.node[x].start + self.node[x].length])

    def handle(self, t, x, stamp):
        need(1 <= t <= self.trees, 11)
        need(1 <= x <= self.slots, 14)
        need(self.node[x] is not None and self.node[x].stamp == stamp, 15)
        need(self.node[x].tree == t, 16)

    def listing(self):
        lines = ["pool %d %d %d %d %d" % (self.slots, self.trees, self.live(), self.used, self.next)]
        for t in range(1, self.trees + 1):
            x = self.end(t, LEFT)
            while x:
                r = self.node[x]
                lines.append("%d %d %d %d %d %d %s" % (t, r.key, x, r.stamp, r.parent, r.balance, self.name(x).hex()))
                x = self.walk_dir(x, RIGHT)
        return lines

    def shape(self, x):
        """Key, balance, left, right, from the record down; None for a missing child."""
        r = self.node[x]
        return (r.key, r.balance, self.shape(r.child[LEFT]), self.shape(r.child[RIGHT])) if x else None


# A batch: one cursor, at most one mark, and the commands.

class Run:
    def __init__(self, pool, names):
        self.pool, self.names = pool, names
        self.drop()
        self.journal = None

    def drop(self):
        self.place(0, 0, 0)

    def place(self, kind, tree, slot, side=RIGHT, key=0):
        self.kind, self.tree, self.slot, self.side, self.key = kind, tree, slot, side, key

    def answer(self, command):
        op = command[0]
        if not 12 <= op <= 25:
            self.drop()
        try:
            need(1 <= op <= 29, 10)
            shown = (self.on_tree if op <= 11 else self.at_cursor if op <= 25 else self.on_mark)(*command)
            slot, r = shown if shown else (0, Node(0, 0, 0, 0, 0))
            return 0, self.kind, slot, r.stamp, r.key, r.start, r.length
        except Refused as refusal:
            return refusal.args[0], self.kind, 0, 0, 0, 0, 0

    def shown(self, x):
        return (x, self.pool.node[x]) if x else None

    def good_name(self, start, length):
        need(1 <= length <= 255 and start + length <= len(self.names), 13)

    def add(self, t, key, start, length, hang):
        """A new record, linked by hang(slot), after 20, 21, 22."""
        p = self.pool
        free = [x for x in range(1, p.slots + 1) if p.node[x] is None]
        need(free, 20)
        need(p.used + length <= len(p.text), 21)
        need(p.next < LAST_STAMP, 22)
        x = free[0]
        p.node[x] = Node(key, t, p.next, p.used, length)
        p.text[p.used:p.used + length] = self.names[start:start + length]
        p.used, p.next = p.used + length, p.next + 1
        hang(x)
        if self.journal is not None:
            self.journal.append((x, None))
        return x

    def remove(self, x):
        """Takes the record out and shows it as it was."""
        p, r = self.pool, self.pool.node[x]
        p.remove(r.tree, x)
        p.node[x] = None
        if self.journal is not None:
            self.journal.append((x, r))
        return x, r

    def on_tree(self, op, t, slot, stamp, key, start, length, _):
        p = self.pool
        need(1 <= t <= p.trees, 11)
        found, side = p.search(t, key)
        if op == 1:
            self.good_name(start, length)
            need(side is not None, 17)
            return self.shown(self.add(t, key, start, length, lambda x: p.insert(t, x, found, side)))
        if op in (2, 3):
            need(found and side is None, 19)
            return self.shown(found) if op == 2 else self.remove(found)
        if op in (4, 5, 6):
            p.handle(t, slot, stamp)
            if op == 4:
                return self.remove(slot)
            other = p.walk_dir(slot, RIGHT if op == 5 else LEFT)
            need(other, 19)
            return self.shown(other)
        if op == 9:
            self.place(1 if found and side is None else 2, t, found, side, key)
            return self.shown(found)
        end = p.end(t, LEFT if op in (7, 10) else RIGHT)
        if op in (7, 8):
            need(end, 19)
        else:
            self.place(3 if op == 10 else 4, t, end)
        return self.shown(end)

    def beside(self, side):
        """The record on that side of the cursor, 0 for none."""
        if self.kind == 2 and self.side != side:
            return self.slot
        return self.pool.walk_dir(self.slot, side) if self.slot else 0

    def at_cursor(self, op, _t, _slot, _stamp, key, start, length, _):
        p, t, here = self.pool, self.tree, self.slot
        kinds = {20: [2], 24: [4], 25: [3]}.get(op, [1, 2, 3, 4] if op <= 15 else [1, 3, 4])
        need(self.kind in kinds and (here or op <= 15 or op in (20, 24, 25)), 12)
        if op <= 15:
            other = self.beside(RIGHT if op in (12, 14) else LEFT)
            if op >= 14:
                self.place(1, t, other) if other else self.drop()
            need(other, 19)
            return self.shown(other)
        if op == 21:
            self.drop()
            return self.remove(here)
        if op in (22, 23):
            other = p.walk_dir(here, LEFT if op == 22 else RIGHT)
            need(other, 19)
            self.place(1, t, here)
            return self.remove(other)
        self.good_name(start, length)
        if op == 20:
            need(key == self.key, 18)
            new = self.add(t, key, start, length, lambda x: p.insert(t, x, here, self.side))
            self.place(1, t, new)
            return self.shown(new)
        side = LEFT if op in (16, 18, 25) else RIGHT
        if here:
            other = p.walk_dir(here, side)
            beyond = p.node[other].key if other else (-1 if side == LEFT else TOP + 1)
            low, high = sorted((p.node[here].key, beyond))
            if op >= 24 and not low < key < high:
                self.drop()
            need(low < key < high, 18)
        new = self.add(t, key, start, length,
                       lambda x: p.insert_here(t, x, here, side) if here else p.insert(t, x, 0, side))
        if op >= 24:
            self.place(self.kind, t, new)
        else:
            self.place(1, t, new if op >= 18 else here)
        return self.shown(new)

    def on_mark(self, op, *_):
        p = self.pool
        if op in (26, 29):
            need(self.journal is None, 24)
        else:
            need(self.journal is not None, 23)
        if op == 26:
            self.journal, self.used_at_mark = [], p.used
        elif op == 27:
            self.rollback()
        elif op == 28:
            self.journal = None
        else:
            Trees.__init__(p, p.slots, p.trees)
            p.text, p.used = bytearray(len(p.text)), 0

    def rollback(self):
        p = self.pool
        for x, removed in reversed(self.journal):
            if removed is None:
                p.remove(p.node[x].tree, x)
                p.node[x] = None
            else:
                p.node[x] = removed
                place, side = p.search(removed.tree, removed.key)
                p.insert(removed.tree, x, place, side)
        p.used, self.journal = self.used_at_mark, None
        p.text[p.used:] = bytes(len(p.text) - p.used)


def batch(b, w, room):
    """The code, the answers, and the pool's bytes afterwards."""
    if len(w) < 16:
        return 2, [], b
    edition, count, commands, names, length = struct.unpack_from(BATCH, w)
    if (edition, commands, names) != (1, 16, 16 + 24 * count) or count > 256 or length > 16384:
        return 2, [], b
    if len(w) != names + length:
        return 2, [], b
    if room < 24 * count:
        return 3, [], b
    try:
        run = Run(Pool(b), w[names:])
    except Unsound:
        return 1, [], b
    answers = [run.answer(struct.unpack_from(COMMAND, w, 16 + 24 * i)) for i in range(count)]
    if run.journal is not None:
        run.rollback()
    return 0, answers, run.pool.bytes()
