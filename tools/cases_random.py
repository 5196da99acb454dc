"""The random cases of tools/cases.py: batches over small keys, chosen to suit the state often."""
from cases_script import MARK, ROLLBACK, op
from model import TOP, Run
from model_tree import LEFT, RIGHT


def gap(rng, low, high):
    return rng.randint(low + 1, high - 1) if high - low > 1 else low


def chosen(rng, run, keys):
    """A command that suits the state often and not always, with bad fields among them."""
    p = run.pool
    at = run.slot and p.node[run.slot].key
    number = rng.choices(range(1, 30), [30, 3, 9, 6, 2, 2, 1, 1, 18, 7, 7] + [0] * 14 + [4, 3, 2, 0.4])[0]
    if run.kind and rng.random() < 0.75:
        number = rng.choice([12, 13, 14, 15, 16, 17, 18, 19, 18, 19, 20, 21, 22, 23, 24, 25])
        number = {2: rng.choice([20, 20, number]), 3: rng.choice([25, number]), 4: rng.choice([24, number])}.get(
            run.kind, number)
    live = [x for x in range(1, p.slots + 1) if p.node[x]]
    if len(live) == p.slots and rng.random() < 0.25:
        number = rng.choice([3, 4])
    key = rng.choice([0, TOP]) if rng.random() < 0.02 else rng.randrange(keys)
    if number == 20 and rng.random() < 0.8:
        key = run.key
    if 16 <= number <= 19 or number >= 24 and run.slot and rng.random() < 0.85:
        if run.slot and number % 2 == (1 if number < 20 else 0):
            after = p.walk_dir(run.slot, RIGHT)
            key = gap(rng, at, p.node[after].key if after else at + 4)
        elif run.slot:
            before = p.walk_dir(run.slot, LEFT)
            key = gap(rng, p.node[before].key if before else at - 4, at)
    slot = rng.choice(live) if live and rng.random() < 0.8 else rng.randrange(p.slots + 2)
    node = p.node[slot] if slot <= p.slots else None
    if node and number in (2, 3, 9) and rng.random() < 0.5:
        key = node.key
    tree = node.tree if node and number in (2, 3, 4, 5, 6, 9) and rng.random() < 0.9 else rng.randint(1, p.trees)
    stamp = node.stamp if node and rng.random() < 0.9 else rng.randrange(p.next + 1)
    length = rng.randint(1, 3)
    name = (rng.randint(0, len(run.names) - length), length)
    if rng.random() < 0.05:
        tree, name, number = rng.choice([(0, name, number), (p.trees + 1, name, number), (tree, (0, 0), number),
                                         (tree, (len(run.names), 1), number), (tree, name, rng.choice([0, 30, 200]))])
    if 12 <= number <= 25:
        tree = rng.randrange(256)
    return number, tree, slot, stamp, max(0, min(TOP, key)), name, rng.randrange(65536)


def random_batch(s, rng, most, keys):
    names = bytes(rng.randrange(256) for _ in range(12))
    run, commands = Run(s.pool(), names), []
    for _ in range(rng.randint(1, most)):
        c = chosen(rng, run, keys)
        run.answer(c[:5] + c[5] + c[6:])
        commands.append(c)
    s.batch(*commands, names=names, room=24 * len(commands) + rng.choice([0, 0, 1, 30]))


def random_pools(s, rng, pools=42, each=8):
    for i in range(pools):
        n, t = rng.choice([1, 2, 3, 5, 8, 13, 20, 30, 40]), rng.randint(1, 3)
        s.start("Random batches %d" % (i + 1), n, t, rng.choice([20, 200, 600, 1500]))
        keys = rng.choice([n + 2, 2 * n + 3, 4 * n + 5])
        for _ in range(each):
            random_batch(s, rng, 48, keys)
            s.listing()
            pool = s.pool()
            slot = rng.randint(1, n)
            if pool.node[slot]:
                s.name(pool.node[slot].tree, slot, pool.node[slot].stamp)
        s.check()


def large(s, rng):
    s.start("A large pool", 1024, 8, 8192)
    keys = rng.sample(range(3000), 900)
    for i in range(0, 600, 200):
        s.batch(*[op(1, k, bytes([97 + k % 26]) * (1 + k % 5), tree=1 + k % 5 // 2) for k in keys[i:i + 200]])
    s.batch(op(11, tree=7), *[op(24, 5 * k, b"up") for k in range(200)])
    s.batch(op(10, tree=8), *[op(25, 9000 - k, b"dn") for k in range(200)], op(21))
    s.listing()
    for i in range(4):
        random_batch(s, rng, 200, 3000)
    s.batch(*[op(3, k, tree=1 + k % 5 // 2) for k in keys[:250]])
    s.batch(MARK, *[op(3, k, tree=1 + k % 5 // 2) for k in keys[250:350]],
            *[op(1, k, b"m", tree=1 + k % 5 // 2) for k in keys[600:750]], ROLLBACK)
    s.listing()
    for i in range(600, 900, 150):
        s.batch(*[op(1, k, b"z", tree=1 + k % 8) for k in keys[i:i + 150]])
    s.batch(*[op(1, 10000 + k, b"y", tree=6) for k in range(200)])
    s.check()
    s.listing()
