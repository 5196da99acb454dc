"""The tree of tools/model.py: avl/src/lib.rs, with slot numbers for pointers and 0 for null."""

LEFT, RIGHT = 0, 1


class Node:
    def __init__(self, key, tree, stamp, start, length):
        self.key, self.tree, self.stamp, self.start, self.length = key, tree, stamp, start, length
        self.detach()

    def detach(self):
        self.child, self.parent, self.balance = [0, 0], 0, 0


def to_balance(side):
    return 2 - side


class Trees:
    """The records by slot and the trees by number; both lists have nothing at 0."""

    def __init__(self, slots, trees):
        self.node = [None] * (slots + 1)
        self.root = [0] * (trees + 1)
        self.count = [0] * (trees + 1)

    def set_child2(self, parent, side, child):
        self.node[parent].child[side] = child
        if child:
            self.node[child].parent = parent

    def parent_direction(self, x):
        parent = self.node[x].parent
        return RIGHT if parent and self.node[parent].child[RIGHT] == x else LEFT

    def bottom_child(self, x, side):
        while self.node[x].child[side]:
            x = self.node[x].child[side]
        return x

    def end(self, t, side):
        return self.bottom_child(self.root[t], side) if self.root[t] else 0

    def walk_dir(self, x, side):
        if self.node[x].child[side]:
            return self.bottom_child(self.node[x].child[side], 1 - side)
        parent, from_side = self.node[x].parent, self.parent_direction(x)
        while parent and from_side != 1 - side:
            from_side, parent = self.parent_direction(parent), self.node[parent].parent
        return parent

    def search(self, t, key):
        """The record with the key and None, or the record to hang it on and the side."""
        x, side = self.root[t], RIGHT
        while x:
            if self.node[x].key == key:
                return x, None
            side = RIGHT if key > self.node[x].key else LEFT
            if not self.node[x].child[side]:
                break
            x = self.node[x].child[side]
        return x, side

    def insert(self, t, new, parent, side):
        self.count[t] += 1
        if not parent:
            self.root[t] = new
            return
        self.set_child2(parent, side, new)
        x = parent
        while True:
            node, heavy = self.node[x], to_balance(side)
            if node.balance == 0:
                node.balance = heavy
                if not node.parent:
                    return
                side, x = self.parent_direction(x), node.parent
            elif node.balance != heavy:
                node.balance = 0
                return
            else:
                self.rotate(t, x, side, node.parent, self.parent_direction(x))
                return

    def insert_here(self, t, new, here, side):
        if self.node[here].child[side]:
            here, side = self.bottom_child(self.node[here].child[side], 1 - side), 1 - side
        self.insert(t, new, here, side)

    def rotate(self, t, x, side, parent, parent_side):
        other = 1 - side
        side_bal, other_bal = to_balance(side), to_balance(other)
        node, c = self.node[x], self.node[x].child[side]
        child = self.node[c]
        if child.balance != other_bal:
            is_diff = child.balance != side_bal
            node.balance = child.balance ^ side_bal
            child.balance = other_bal if is_diff else 0
            middle = child.child[other]
            self.set_child2(c, other, x)
            self.set_child2(x, side, middle)
            return self.hang(t, c, parent, parent_side) or is_diff
        g = child.child[other]
        grand = self.node[g]
        g_near, g_far, g_bal = grand.child[side], grand.child[other], grand.balance
        self.set_child2(x, side, g_far)
        node.balance = other_bal if g_bal == side_bal else 0
        self.set_child2(c, other, g_near)
        child.balance = side_bal if g_bal == other_bal else 0
        grand.balance = 0
        self.set_child2(g, side, c)
        self.set_child2(g, other, x)
        return self.hang(t, g, parent, parent_side)

    def hang(self, t, x, parent, side):
        """The end of a rotation: x under the parent, or as the root, and whether as the root."""
        if parent:
            self.set_child2(parent, side, x)
            return False
        self.node[x].parent, self.root[t] = 0, x
        return True

    def remove(self, t, x):
        gone, parent, side = self.node[x], self.node[x].parent, self.parent_direction(x)
        left, right = gone.child
        if not left or not right:
            if parent:
                self.set_child2(parent, side, left or right)
            else:
                self.root[t] = left or right
                if self.root[t]:
                    self.node[self.root[t]].parent = 0
        else:
            way = RIGHT if gone.balance == 1 else LEFT
            first = gone.child[way]
            c = self.bottom_child(first, 1 - way)
            child = self.node[c]
            if parent:
                self.node[parent].child[side] = c
            else:
                self.root[t] = c
            if c != first:
                child_side, child_parent, rest = self.parent_direction(c), child.parent, child.child[way]
                child.child, child.parent, child.balance = [left, right], parent, gone.balance
                self.node[left].parent = self.node[right].parent = c
                parent, side = child_parent, child_side
                self.set_child2(parent, side, rest)
            else:
                child.parent, child.balance = parent, gone.balance
                self.set_child2(c, 1 - way, gone.child[1 - way])
                parent, side = c, way
        self.count[t] -= 1
        gone.detach()
        if parent:
            self.post_remove(t, parent, side)

    def post_remove(self, t, parent, side):
        while True:
            x, node = parent, self.node[parent]
            delta = to_balance(1 - side)
            parent = node.parent
            if delta == node.balance:
                parent_side = self.parent_direction(x)
                if self.rotate(t, x, 1 - side, parent, parent_side):
                    return
                side = parent_side
            elif node.balance == 0:
                node.balance = delta
                return
            else:
                node.balance = 0
                if not parent:
                    return
                side = self.parent_direction(x)
