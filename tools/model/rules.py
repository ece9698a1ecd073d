"""The rules as an abstract instance: what each call answers and changes, by docs/RULES.md. No bytes of storage here.

Every rule takes an instance and a request, changes the instance, and gives the number of the answer and its values in
the order in which crates/calls_test writes them. A value that may be none is two: whether it is there, and it or 0.
"""
import struct

MAX_INO = 2**56 - 1
TOP = 2**56
ROOT = 1
DIR_MODE = 0o40777
DONE, NOENT, INVAL, TOOLONG, INODE, FULL, NOROOM, NOTFOUND, BADINDEX, BADMAP, BADSAVE, NOTFRESH, SMALL, BADOPT = range(14)


class Mount:
    def __init__(self, index, root, uid, gid, mode):
        self.index, self.root, self.uid, self.gid, self.mode = index, root, uid, gid, mode


class Node:
    def __init__(self, number, parent, name, mount=None):
        self.number, self.parent, self.name, self.mount = number, parent, name, mount


class Instance:
    """The tables. `slots` has None for an empty slot, or its tag; `nodes` are the rows, the root left out."""

    def __init__(self, capacity, known, in_opts, out_opts, flags, mapping):
        self.capacity, self.known = capacity, known
        self.in_opts, self.out_opts, self.flags = in_opts, out_opts, flags
        self.mapping, self.own = mapping, mapping
        self.removes = self.initialized = False
        self.counter, self.next = 1, 2
        self.slots = [None] * 256
        self.root_mount = None
        self.nodes = []
        self.forget()

    # Finding by number and by name goes through two tables of the first rows, made anew where rows have changed.
    def forget(self):
        self._by_number = self._by_name = None

    def _index(self):
        self._by_number, self._by_name = {}, {}
        for n in self.nodes:
            self._by_number.setdefault(n.number, n)
            self._by_name.setdefault((n.parent, n.name), n.number)

    def row(self, x):
        if self._by_number is None:
            self._index()
        return self._by_number.get(x)

    def child(self, x, name):
        if self._by_name is None:
            self._index()
        return self._by_name.get((x, name))

    def make(self, x, name):
        n = Node(self.next, x, name)
        self.next += 1
        self.nodes.append(n)
        if self._by_number is not None:
            self._by_number.setdefault(n.number, n)
            self._by_name.setdefault((x, name), n.number)
        return n.number

    def unmake(self, count):
        for _ in range(count):
            self.nodes.pop()
            self.next -= 1
        self.forget()

    def is_known(self, x):
        return x == ROOT or self.row(x) is not None

    def parent(self, x):
        if x == ROOT:
            return ROOT
        n = self.row(x)
        return n.parent if n else ROOT

    def mount_of(self, x):
        if x == ROOT:
            return self.root_mount
        n = self.row(x)
        return n.mount if n else None

    def set_mount(self, x, m):
        if x == ROOT:
            self.root_mount = m
        elif self.row(x):
            self.row(x).mount = m


# ---- paths and names

def is_utf8(b):
    try:
        b.decode("utf-8")
        return True
    except UnicodeDecodeError:
        return False


def is_rooted(path):
    return path[:1] == b"/"


def is_too_long(path):
    return len(path) > 4096 or max(map(len, path.split(b"/"))) > 255


def components(path):
    return [c for c in path.split(b"/") if c not in (b"", b".")]


# ---- ids

def bad_mapping(m):
    internal, external, count = m
    return internal + count > 2**32 - 1 or external + count > 2**32 - 1


def outward(m, i):
    internal, external, count = m
    return i - internal + external if internal <= i < internal + count else i


def back(m, i):
    internal, external, count = m
    return outward((external, internal, count), i)


# ---- creation and settings

def size(n):
    """The bytes that an instance of capacity n takes."""
    return 512 * n + 8192


def refuses_creation(length, n, known, in_opts, out_opts, flags, mapping):
    if not 1 <= n <= 1024 or length < size(n):
        return SMALL
    if in_opts & ~known or out_opts & ~known or flags > 63:
        return BADOPT
    return BADMAP if bad_mapping(mapping) else DONE


def remove(i):
    i.removes = True
    return DONE, []


def init(i):
    return DONE, [int(i.initialized)]


def options(i):
    return DONE, [i.in_opts, i.out_opts, *i.own, i.flags]


# ---- the tree

def reach(i, path):
    here = ROOT
    for c in components(path):
        here = i.parent(here) if c == b".." else i.child(here, c)
        if here is None:
            return None
    return here


def bad_path(path):
    return not is_utf8(path) or not is_rooted(path)


def walk(i, path):
    if bad_path(path):
        return INVAL, [0, 0]
    x = reach(i, path)
    return DONE, [0, 0] if x is None else [1, x]


def find(i, x, name):
    """The number of the answer, and the node."""
    if not i.is_known(x):
        return NOENT, None
    if b"\0" in name or not is_utf8(name):
        return INVAL, None
    if name == b".":
        return DONE, x
    if name == b"..":
        return DONE, i.parent(x)
    if b"/" in name:
        return NOENT, None
    y = i.child(x, name)
    return (NOENT, None) if y is None else (DONE, y)


def full(index, number):
    return index * 2**56 + number if number else 0


def pseudo_entry(i, x):
    nobody = outward(i.mapping, 0)
    return [full(0, x), DIR_MODE, nobody, nobody, 4096]


def record(number, offset, name):
    b = struct.pack("<QQII", number, offset, len(name), 0) + name
    return b + bytes(-len(b) % 8)


def readdir(i, x, size, offset, out):
    """`out` is a bytearray, the lent output."""
    if size == 0:
        return DONE, [0]
    if not i.is_known(x):
        return NOENT, [0]
    at = 0
    children = [n for n in i.nodes if n.parent == x]
    for place in range(min(offset, len(children)), len(children)):
        n = children[place]
        b = record(n.number, place + 1, n.name)
        if at + len(b) > min(size, len(out)):
            break
        out[at:at + len(b)] = b
        at += len(b)
    return DONE, [at]


# ---- the mount tables

def search(i):
    """The index found or None, and how many were visited; the counter moves."""
    start, count = i.counter, 0
    while True:
        k = i.counter
        i.counter = (k + 1) % 256
        count += 1
        if k == start and count > 1:
            return None, count
        if k != 0 and i.slots[k] is None:
            return k, count


def walk_making(i, path):
    """Where the mount walk ends; its nodes are made."""
    here = ROOT
    for c in components(path):
        if c == b"..":
            here = i.parent(here)
        else:
            y = i.child(here, c)
            here = i.make(here, c) if y is None else y
    return here


def has_room(i, path):
    next_before, before = i.next, len(i.nodes)
    walk_making(i, path)
    needed = len(i.nodes) - before
    if needed:
        i.unmake(needed)
    return 1 + before + needed <= i.capacity and next_before + needed <= TOP


def tag(t):
    return [0, 0] if t is None else [1, t]


def place(i, x, k, request):
    """The tag replaced and the tag displaced, or none for each."""
    t, root, uid, gid, mode = request
    replaced = None
    old = i.mount_of(x)
    if old:
        replaced, i.slots[old.index] = i.slots[old.index], None
    displaced, i.slots[k] = i.slots[k], t
    i.set_mount(x, Mount(k, root, uid, gid, mode))
    return replaced, displaced


def mount(i, path, t, root, largest, uid, gid, mode):
    if is_too_long(path):
        return TOOLONG, [0] * 4
    if not is_utf8(path):
        return INVAL, [0] * 4
    if largest > MAX_INO:
        return INODE, [0] * 4
    if is_rooted(path) and not has_room(i, path):
        return NOROOM, [0] * 4
    k, count = search(i)
    if k is None:
        return FULL, [0, count, 0, 0]
    if not is_rooted(path):
        return INVAL, [0, count, 0, 0]
    x = walk_making(i, path)
    if root > MAX_INO:
        return INODE, [0, count, 0, 0]
    replaced, _ = place(i, x, k, (t, root, uid, gid, mode))
    return DONE, [k, count] + tag(replaced)


def restore_mount(i, path, k, t, root, largest, uid, gid, mode):
    if is_too_long(path):
        return TOOLONG, [0] * 4
    if not is_utf8(path):
        return INVAL, [0] * 4
    if k == 0:
        return BADINDEX, [0] * 4
    if largest > MAX_INO:
        return INODE, [0] * 4
    if not is_rooted(path):
        return INVAL, [0] * 4
    if not has_room(i, path):
        return NOROOM, [0] * 4
    x = walk_making(i, path)
    if root > MAX_INO:
        return INODE, [0] * 4
    replaced, displaced = place(i, x, k, (t, root, uid, gid, mode))
    return DONE, tag(replaced) + tag(displaced)


def umount(i, path):
    if bad_path(path):
        return INVAL, [0] * 4
    x = reach(i, path)
    m = None if x is None else i.mount_of(x)
    if m is None:
        return NOTFOUND, [0] * 4
    up = i.parent(x)
    released, i.slots[m.index] = i.slots[m.index], None
    i.set_mount(x, None)
    if i.removes and x != ROOT:
        i.nodes.remove(i.row(x))
        i.forget()
    return DONE, [x, up] + tag(released)


# ---- queries

def root(i, path):
    if bad_path(path):
        return INVAL, [0] * 3
    x = reach(i, path)
    m = None if x is None else i.mount_of(x)
    if m is None:
        return DONE, [0] * 3
    t = i.slots[m.index]
    return (NOTFOUND, [0] * 3) if t is None else (DONE, [1, t, m.index])


def route(i, x):
    index, number = x >> 56, x & MAX_INO
    if index == 0:
        if number != ROOT or i.root_mount is None:
            return DONE, [0, 0, 0, number]
        index, number = i.root_mount.index, i.root_mount.root
    t = i.slots[index]
    return (NOENT, [0] * 4) if t is None else (DONE, [1, t, index, number])


def lookup(i, x, name):
    code, y = find(i, x, name)
    if code:
        return code, [0] * 5
    m = i.mount_of(y)
    if m is None:
        return DONE, pseudo_entry(i, y)
    ids = [outward(i.mapping, outward(i.mapping, n)) for n in (m.uid, m.gid)]
    return DONE, [full(m.index, m.root), m.mode, *ids, 0]


def ids(i, uid, gid, out):
    f = outward if out else back
    return DONE, [f(i.mapping, uid), f(i.mapping, gid)]
