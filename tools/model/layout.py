"""The lent bytes: what they stand for, and an instance's fields written back, by docs/LAYOUT.md."""
import struct
import zlib

from model import rules

MARK = b"GALDOVAR"


class Columns:
    """Where the cells of row i stand, of N rows."""

    def __init__(self, n):
        self.n = n

    def number(self, i):
        return 8192 + 8 * i

    def parent(self, i):
        return 8192 + 8 * self.n + 8 * i

    def mount(self, i):
        return 8192 + 16 * self.n + 8 * i

    def name(self, i):
        return 8192 + 24 * self.n + 8 * i

    def uid(self, i):
        return 8192 + 32 * self.n + 4 * i

    def gid(self, i):
        return 8192 + 36 * self.n + 4 * i

    def mode(self, i):
        return 8192 + 40 * self.n + 4 * i

    def long(self, i):
        return 8192 + 44 * self.n + 248 * i


def u64(b, at):
    return struct.unpack_from("<Q", b, at)[0]


def u32(b, at):
    return struct.unpack_from("<I", b, at)[0]


def keeps_rule(b, length):
    """The mark, a count of rows below N, a next number within its limits; and a creation with the other fields is not refused."""
    n, count, following, known, in_opts, out_opts = struct.unpack_from("<QQQQQQ", b, 8)
    if b[0:8] != MARK or count >= n or not 2 <= following <= rules.TOP:
        return False
    return rules.refuses_creation(length, n, known, in_opts, out_opts, b[80], struct.unpack_from("<III", b, 56)) == rules.DONE


def mount_in(b, cell, uid, gid, mode):
    v = u64(b, cell)
    if v >> 56 == 0:
        return None
    return rules.Mount(v >> 56, v & rules.MAX_INO, u32(b, uid), u32(b, gid), u32(b, mode))


def name_in(b, c, i):
    at = c.name(i)
    n = b[at]
    head = bytes(b[c.long(i):c.long(i) + max(n - 7, 0)])
    return head + bytes(b[at + 1:at + 1 + min(n, 7)])


def view(b):
    """The instance that bytes stand for which keep the rule."""
    n = u64(b, 8)
    i = rules.Instance(n, u64(b, 32), u64(b, 40), u64(b, 48), b[80], struct.unpack_from("<III", b, 56))
    i.own = struct.unpack_from("<III", b, 68)
    i.counter, i.removes, i.initialized, i.next = b[81], b[82] != 0, b[83] != 0, u64(b, 24)
    i.root_mount = mount_in(b, 88, 96, 100, 104)
    i.slots = [u32(b, 512 + 4 * k) if b[256 + k] else None for k in range(256)]
    c = Columns(n)
    for r in range(u64(b, 16)):
        m = mount_in(b, c.mount(r), c.uid(r), c.gid(r), c.mode(r))
        number, parent = u64(b, c.number(r)) & rules.MAX_INO, u64(b, c.parent(r)) & rules.MAX_INO
        i.nodes.append(rules.Node(number, parent, name_in(b, c, r), m))
    return i


def put_mount(b, m, cell, uid, gid, mode):
    if m is None:
        if b[cell + 7]:
            struct.pack_into("<Q", b, cell, 0)
        return
    struct.pack_into("<Q", b, cell, m.index << 56 | m.root)
    for at, v in ((uid, m.uid), (gid, m.gid), (mode, m.mode)):
        struct.pack_into("<I", b, at, v)


def put_number(b, at, v):
    if u64(b, at) & rules.MAX_INO != v:
        struct.pack_into("<Q", b, at, v)


def write(b, i):
    """Puts the instance into its bytes; a cell that means the same already keeps its bytes."""
    struct.pack_into("<QQ", b, 16, len(i.nodes), i.next)
    struct.pack_into("<QQ", b, 40, i.in_opts, i.out_opts)
    struct.pack_into("<IIIBB", b, 68, *i.own, i.flags, i.counter)
    b[83] = b[83] if i.initialized == (b[83] != 0) else int(i.initialized)
    if i.removes and not b[82]:
        b[82] = 1
    put_mount(b, i.root_mount, 88, 96, 100, 104)
    for k, t in enumerate(i.slots):
        if t is None:
            if b[256 + k]:
                b[256 + k] = 0
                struct.pack_into("<I", b, 512 + 4 * k, 0)
        else:
            b[256 + k] = b[256 + k] or 1
            struct.pack_into("<I", b, 512 + 4 * k, t)
    c = Columns(i.capacity)
    for r, n in enumerate(i.nodes):
        put_number(b, c.number(r), n.number)
        put_number(b, c.parent(r), n.parent)
        put_mount(b, n.mount, c.mount(r), c.uid(r), c.gid(r), c.mode(r))
        if name_in(b, c, r) != n.name:
            at, tail = c.name(r), n.name[-7:]
            b[at:at + 1 + len(tail)] = bytes([len(n.name)]) + tail
            b[c.long(r):c.long(r) + len(n.name) - len(tail)] = n.name[:len(n.name) - len(tail)]


def write_new(b, n, known, in_opts, out_opts, flags, mapping):
    b[0:56] = MARK + struct.pack("<QQQQQQ", n, 0, 2, known, in_opts, out_opts)
    b[56:84] = struct.pack("<IIIIII", *mapping, *mapping) + bytes([flags, 1, 0, 0])
    b[88:96] = bytes(8)
    b[256:1536] = bytes(1280)


def mount_bytes(m):
    if m is None:
        return b"\0"
    return b"\1" + struct.pack("<QIII", m.index << 56 | m.root, m.uid, m.gid, m.mode)


def summed(i):
    """Adler-32 of the tables, in the order that docs/TESTS.md gives."""
    head = struct.pack("<QQQQQQ", i.capacity, len(i.nodes), i.next, i.known, i.in_opts, i.out_opts)
    head += struct.pack("<IIIIII", *i.mapping, *i.own) + bytes([i.flags, i.counter, i.removes, i.initialized])
    parts = [head, mount_bytes(i.root_mount)]
    parts += [b"\0" if t is None else b"\1" + struct.pack("<I", t) for t in i.slots]
    for n in i.nodes:
        parts.append(struct.pack("<Q", n.number)[:7] + struct.pack("<Q", n.parent)[:7])
        parts.append(mount_bytes(n.mount) + bytes([len(n.name)]) + n.name)
    return zlib.adler32(b"".join(parts))
