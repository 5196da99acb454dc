"""Calls of the doors as tools/cases.py writes them, each with the lines that it prints by tools/model.py."""
import struct

from model import BATCH, COMMAND, Pool, Refused, Unsound, batch, fresh

LARGEST = 41056         # bytes of the largest pool
ANSWERS = 8192          # the most room for answers that the program has


class Script:
    """The calls so far, the lines that they print, and the program's pool."""

    def __init__(self):
        self.calls, self.lines = bytearray(), []
        self.space, self.used = bytearray(LARGEST), 0

    def bytes(self):
        return bytes(self.space[:self.used])

    def pool(self):
        try:
            return Pool(self.bytes())
        except Unsound:
            return None

    def title(self, text):
        self.calls += struct.pack("<BH", 6, len(text)) + text.encode()
        self.lines.append(text)

    def create(self, n, t, x, length=None):
        size = 32 + 8 * t + 32 * n + x
        self.used = size if length is None else length
        assert self.used <= LARGEST
        self.calls += struct.pack("<BIIII", 1, n, t, x, self.used)
        good = 1 <= n <= 1024 and 1 <= t <= 8 and x <= 8192 and self.used == size
        if good:
            self.space[:size] = fresh(n, t, x)
        self.lines.append("create %d" % (0 if good else 4))

    def raw(self, w, room):
        """The batch of the bytes w, with so much room for answers; the answers."""
        assert len(w) <= 65536 and room <= ANSWERS
        self.calls += struct.pack("<BII", 2, len(w), room) + w
        code, answers, self.space[:self.used] = batch(self.bytes(), w, room)
        self.lines.append("batch %d %d" % (code, len(answers)))
        self.lines += [" ".join(map(str, a)) for a in answers]
        self.lines.append("rest %d" % (room - 24 * len(answers)))
        assert code != 0 or self.pool() is not None
        return code if code else answers

    def batch(self, *commands, names=b"", room=None):
        """A batch of commands, with the room that its answers take and 8 bytes if none is given."""
        body, blob = b"", bytearray(names)
        for op, tree, slot, stamp, key, name, spare in commands:
            if isinstance(name, bytes):
                name, blob = (len(blob), len(name)), blob + name
            body += struct.pack(COMMAND, op, tree, slot, stamp, key, *name, spare)
        w = struct.pack(BATCH, 1, len(commands), 16, 16 + len(body), len(blob)) + body + blob
        return self.raw(w, 24 * len(commands) + 8 if room is None else room)

    def check(self):
        self.calls += b"\3"
        self.lines.append("check %d" % (self.pool() is None))

    def name(self, tree, slot, stamp):
        self.calls += struct.pack("<BBHI", 4, tree, slot, stamp)
        pool = self.pool()
        try:
            if pool is None:
                raise Refused
            pool.handle(tree, slot, stamp)
            self.lines.append("name " + pool.name(slot).hex())
        except Refused:
            self.lines.append("name")

    def listing(self):
        self.calls += b"\5"
        pool = self.pool()
        self.lines += pool.listing() if pool else ["refused 1"]

    def damage(self, place, byte):
        self.calls += struct.pack("<BIB", 7, place, byte)
        self.space[place] = byte

    def start(self, text, n, t, x):
        self.title(text)
        self.create(n, t, x)

    def shape(self, tree=1):
        pool = self.pool()
        return pool.shape(pool.root[tree])


def op(number, key=0, name=(0, 0), tree=1, slot=0, stamp=0, spare=0):
    return number, tree, slot, stamp, key, name, spare


def adds(*keys):
    """Adds with the names a, b, c and so on."""
    return [op(1, k, bytes([97 + i % 26])) for i, k in enumerate(keys)]


def remove(key):
    return op(3, key)


def leaf(key):
    return key, 0, None, None


MARK, ROLLBACK, COMMIT, RESET = op(26), op(27), op(28), op(29)
