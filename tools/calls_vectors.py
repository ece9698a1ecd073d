#!/usr/bin/env python3
"""Writes the script of crates/calls_test and what the program must answer.

    python3 tools/calls_vectors.py

The script is made here; the answers come from tools/model, which follows docs/RULES.md and, for what damaged bytes
mean, docs/LAYOUT.md. Nothing comes from the port. docs/TESTS.md says what the script covers and how it is written.
"""
import itertools
import os
import random
import sys

sys.path.insert(0, os.path.dirname(os.path.abspath(__file__)))
sys.dont_write_bytecode = True

from model import saved, script  # noqa: E402
from model.rules import DIR_MODE, TOP, size  # noqa: E402

MAX64 = 2**64 - 1
SAVED = script.PLACE      # the place of the first saved byte
A, B, C, D, E, F, G, H = range(8)      # the cells of the variables $a to $h
KEPT = None      # in the place of a text: the line has none, and the text stays as it is


class Script:
    def __init__(self):
        self.lines = []
        self.put = {}      # what `put` has left in the saved bytes, eight at a place

    def __call__(self, *words):
        self.lines.append(" ".join(str(w) for w in words if w is not KEPT))

    def source(self):
        return ("\n".join(self.lines) + "\n").encode()


def text(b):
    """A word that stands for bytes."""
    if isinstance(b, str):
        b = b.encode()
    plain = set(b"abcdefghijklmnopqrstuvwxyzABCDEFGHIJKLMNOPQRSTUVWXYZ0123456789/._-+")
    return '"' + "".join(chr(c) if c in plain else "%%%02x" % c for c in b)


def create(s, n=64, known=0, in_opts=0, out_opts=0, flags=0, mapping=(0, 0, 0)):
    s("create", n, known, in_opts, out_opts, flags, *mapping)


def mount(s, path, tag=7, root=1, largest=1000, uid=0, gid=0, mode=DIR_MODE):
    s("mount", path, tag, root, largest, uid, gid, mode)


def mount_at(s, k, path, tag=7, root=1, largest=1000, uid=0, gid=0, mode=DIR_MODE):
    s("mountat", path, k, tag, root, largest, uid, gid, mode)


def poke4(s, at, v):
    for k in range(4):
        s("poke1", at + k, v >> 8 * k & 255)


def fresh(s, n=64, watch=True, views=True, **kw):
    s("length", size(n))
    s("watch", size(n) + 64 if watch else 0)
    s("views", int(views))
    create(s, n, **kw)


# ---- the session and the edges of the rules

def session(s):
    s(": the eight lines of a session")
    fresh(s)
    s("walk", '"/a')
    mount(s, '"/a/b', 7)
    mount(s, '"a', 8)
    mount(s, '"/a/b', 9)
    s("umount", '"/a/b')
    s("umount", '"/a/b')
    mount(s, '"/c/../a', 7)
    s("lookup", 1, '"a')


def edges(s):
    s(": the five edges")
    fresh(s)
    s("fill", 256, 256, 1)
    s("poke1", 257, 0)
    s("poke1", 81, 255)
    mount(s, '"/x')
    fresh(s)
    s("fill", 257, 254, 1)
    s("poke1", 81, 0)
    mount(s, '"/x')
    fresh(s)
    s("fill", 257, 255, 9)
    s("poke1", 81, 255)
    mount(s, '"/x')
    fresh(s)
    mount(s, '"/x', root=TOP - 1)
    mount(s, '"/y', root=TOP)
    fresh(s, 1)
    mount(s, '"/a')
    mount(s, '"/')


# ---- creation

BAD_MAP = (2**32 - 1, 0, 1)


def creation_limits(s):
    s(": creation at the limits of N and of the bytes")
    s("views", 1)
    for n in (1, 2, 64, 1024):
        room = size(n) + 64
        s("scatter", 0, room, n)
        s("keep", room)
        s("watch", room)
        for length in (0, 8191, 8192, size(n) - 1, size(n), size(n) + 64):
            s("length", length)
            create(s, n, 7, 5, 3, 63, (1, 2, 3))
            for verb in ("laid", "init", "options", 'walk "/', "list 1 4096 0 4096"):
                s(verb)
        for at, end in ((84, 88), (96, 256), (1536, room)):
            s("same", at, end - at)


def creation_order(s):
    s(": creation refuses in order: SMALL, BADOPT, BADMAP")
    s("scatter", 0, size(64) + 64, 5)
    s("watch", size(64) + 64)
    for length in (size(64) - 1, size(64)):
        s("length", length)
        for known in (1, 0):
            for mapping in (BAD_MAP, (0, 0, 1)):
                create(s, 64, known, 1, 0, 0, mapping)
    s("length", 600000)
    for n in (0, 1025, 2**16, 2**32 + 64, 2**55 + 64, 2**63, MAX64):
        create(s, n, 0, 1, 1, 64, BAD_MAP)
    s("length", size(64))


def creation_options(s):
    s(": option bits, flags and mappings")
    for bit in range(0, 64, 7):
        word = 1 << bit
        for known, in_opts, out_opts in ((word, word, word), (MAX64 - word, word, 0), (MAX64 - word, 0, word), (MAX64, word, MAX64)):
            create(s, 64, known, in_opts, out_opts)
            s("options")
    for flags in (0, 1, 32, 63, 64, 65, 127, 128, 255):
        create(s, 64, 0, 0, 0, flags)
        s("options")
    top = 2**32 - 1
    for mapping in ((0, 0, top), (1, 0, top), (0, 1, top), (top, top, 0), (top, 0, 0), (0, top, 0), (top, 0, 1), (0, top, 1),
                    (top - 1, 5, 1), (5, top - 1, 1), (1000, 5, top - 1000), (1000, 5, top - 999), (5, 1000, top - 999), (top, top, top)):
        create(s, 64, 0, 0, 0, 0, mapping)
        s("options")
        s("ids", 0, top, 1)
        s("ids", 0, top, 0)


def settings(s):
    s(": settings, initialized and the options on storage that is short or whole")
    fresh(s, 2, known=MAX64, in_opts=MAX64, out_opts=1, flags=21, mapping=(10, 20, 30))
    for v in (0, 1, 2, 128, 255):
        s("poke1", 83, v)
        s("init")
        s("options")
    for v in (0, 1, 7):
        s("poke1", 82, v)
        s("remove")
        s("remove")
    s("length", size(2) - 1)
    every_call(s)
    s("length", 0)
    every_call(s)


def every_call(s):
    """Each call at least once, some with a request that is refused."""
    for line in ("laid", "init", "options", 'walk "/', 'walk "a', "list 1 0 0 64", "list 1 4096 0 4096", "route 1", f"route {2 * TOP + 5}",
                 'root "/', 'lookup 1 "..', "ids 1 2 1", "ids 1 2 0", f"save {H} 4096", "restore 56", "remove"):
        s(line)
    mount(s, '"/')
    mount(s, '"a')
    mount_at(s, 3, '"/')
    mount_at(s, 0, '"/')
    s("umount", '"/')
    s("umount", '"a')


# ---- the tree

PATHS = ["/", "//", "/.", "/..", "/../..", "/a", "/a/", "//a", "/./a/.", "/a/b", "/a/b/c", "/a/b/../b", "/a/../a/b", "/a/b/../../x", "/x/..",
         "/missing", "/a/missing/..", "/missing/..", "/...", "/..a", "/a..", "/a/./b/", "/A", "/a b", "/\u00e9", "/e\u0301", "a", "", ".", "..", "a/b",
         b"/a\0b", b"/\0", b"/a/\xff", b"\xff", b"a\xff", b"/\xc3\xa9/..", b"/\xed\xa0\x80", b"/\xf4\x90\x80\x80", b"/\xc0\x80", b"/a\xe2\x82"]
NAMES = ["a", "b", ".", "..", "...", "", "/", "a/", "/a", "a/b", "A", "x", "\u00e9", b"a\0", b"\0", b"\xff", b"a\xc3", b"\0\xff", "a" * 255, "a" * 256, "missing"]


def tree(s):
    s(": walks and lookups in a tree")
    fresh(s, 64, mapping=(0, 100000, 65536))
    for p in ("/a/b/c", "/a/x", "/e\u0301/\u00e9", "/a b", "/" + "a" * 255, "/x/../y/./z//", "/..a/...", b"/a\0b"):
        mount(s, text(p), uid=1, gid=65536)
    for p in PATHS:
        s("walk", text(p))
        s("root", text(p))
    for node in (1, 2, 3, 4, 0, 13, 14, 1000, TOP - 1, TOP, TOP + 1, MAX64):
        for name in NAMES:
            s("lookup", node, text(name))
    s(": walks of long paths and names")
    s("text", '"/')
    s("more", 255, 97)
    s("walk", KEPT)
    s("more", 1, 97)
    s("walk", KEPT)
    s("root", KEPT)
    s("umount", KEPT)
    s("text", '"')
    s("loop", A, 0, 2700)
    s("more", 1, 47)
    s("more", 2, 46)
    s("end")
    s("walk", KEPT)
    s("more", 1, 47)
    s("more", 1, 97)
    for verb in ("walk", "root", "umount"):
        s(verb, KEPT)


def listings_cut(s):
    s(": listings cut at every size, offset and buffer")
    fresh(s, 16)
    for k in (1, 7, 8, 9, 6, 15, 16, 17, 3, 31, 32, 33):
        mount(s, text("/" + "n" * k))
    mount(s, text("/n/below"))
    s("umount", text("/nnnnnnn"))
    whole = sum(24 + -(-k // 8) * 8 for k in (1, 7, 8, 9, 6, 15, 16, 17, 3, 31, 32, 33))
    for room in (whole + 9, 100):
        s("loop", A, 0, whole + 10)
        s("list", 1, "$a", 0, room)
        s("end")
    s("fold")
    s("watch", 0)
    s("views", 0)
    s("loop", B, 0, 15)
    s("loop", A, 0, whole + 10)
    s("list", 1, "$a", "$b", whole)
    s("list", 1, 4096, "$b", "$a")
    s("end")
    s("end")
    s("plain")
    s("watch", size(16) + 64)
    s("views", 1)
    for node in (0, 1, 2, 3, 14, 15, 99, TOP - 1, TOP, TOP + 1, MAX64):
        for offset in (0, 1, 11, 12, 13, 2**32, 2**63, MAX64):
            for n in (0, 1, 32, 2**32 - 1):
                s("list", node, n, offset, 64)


def listings_long(s):
    s(": a directory with names of every length, and a full one")
    fresh(s, 1024, watch=False)
    s("views", 0)
    s("text", '"/d/')
    s("loop", A, 1, 255)
    s("more", 1, 120)
    mount(s, KEPT)
    s("umount", KEPT)
    s("end")
    s("views", 1)
    s("list", 2, 65536, 0, 65536)
    s("views", 0)
    s("set", B, 0)
    s("loop", A, 0, 30)
    s("list", 2, 65536, "$b", 40960)
    s("add", B, 9)
    s("end")
    s("loop", A, 250, 8)
    s("list", 2, 65536, "$a", 4096)
    s("end")
    s("set", B, 0)
    s("fold")
    s("loop", A, 0, 40)
    s("list", 2, "$b", 0, 40960)
    s("list", 2, 65536, 0, "$b")
    s("add", B, 1027)
    s("end")
    s("plain")
    s("loop", A, 0, 767)
    mount(s, '"/d/k$a')
    s("umount", '"/d/k$a')
    s("end")
    s("views", 1)
    mount(s, '"/d/more')
    for offset in (0, 1, 255, 1000, 1020, 1021, 1022, 1023):
        s("list", 2, 65536, offset, 65536)


# ---- damaged storage

def header_bytes(s):
    s(": every byte of the header changed, to 52 values")
    fresh(s, 2, known=0xFF, in_opts=0x0F, out_opts=0xF0, flags=5, mapping=(7, 9, 11), watch=False)
    s("views", 0)
    s("scatter", 84, 4, 1)
    s("scatter", 96, 160, 2)
    s("scatter", 1536, size(2) - 1536 + 64, 3)
    mount(s, '"/a', 77, 5)
    s("keep", size(2) + 64)
    s("watch", size(2) + 64)
    s("loop", A, 0, 256)
    s("set", B, 0)
    s("fold")
    s("loop", C, 0, 52)
    s("poke1", "$a", "$b")
    s("options")
    s("walk", '"/a')
    mount(s, '"/a', "$b", "$a")
    s("back", 1536)
    s("add", B, 5)
    s("end")
    s("plain")
    s("end")


def header_bytes_called(s):
    s(": a byte of the header changed, and every call")
    s("views", 1)
    s("fold")
    s("loop", A, 0, 108)
    for v in (0, 1, 255):
        s("back", size(2) + 64)
        s("poke1", "$a", v)
        every_call(s)
    s("end")
    s("plain")
    s("back", size(2) + 64)


def header_limits(s):
    s(": the limits of the fields that the rule tests")
    for at, values in ((8, (0, 1, 2, 3, 1024, 1025, 2**63, MAX64)), (16, (0, 1, 2, 3, 2**32, MAX64)), (24, (0, 1, 2, 3, TOP - 1, TOP, TOP + 1, MAX64)),
                       (32, (0, 0xFF, 0x0F, 0xF0, MAX64)), (40, (0, 0xFF, 0x100)), (48, (0, 0xFF, 1 << 63))):
        for v in values:
            s("back", size(2) + 64)
            s("poke8", at, v)
            s("laid")
            mount(s, '"/b')
    top = 2**32 - 1
    for at, values in ((56, (top, top - 11, top - 10)), (60, (top, top - 11, top - 10)), (64, (0, top, top - 9, top - 8)), (68, (top,)), (76, (top,))):
        for v in values:
            s("back", size(2) + 64)
            poke4(s, at, v)
            s("laid")
            s("options")
            s("ids", 7, v, 1)
            s("ids", 9, v, 0)


def random_bytes(s):
    s(": random bytes, and random bytes behind a good header")
    s("watch", 0)
    s("loop", A, 0, 20)
    s("length", size(16))
    s("scatter", 0, size(16), "$a")
    s("views", 1)
    s("watch", size(16) + 64)
    s("fold")
    every_call(s)
    s("plain")
    s("end")
    for n in (1, 2, 16, 64, 1024):
        random_tables(s, n)


def random_tables(s, n):
    s("length", size(n))
    s("watch", size(n) + 64)
    s("loop", A, 0, 4 if n == 1024 else 30)
    s("scatter", 0, size(n), "$a")
    create(s, n, MAX64, 3, 5, 7, (0, 1000, 500))
    s("scatter", 84, size(n) - 84, "$a")
    s("poke8", 16, n - 1)
    s("random", B, 1000)
    s("add", B, 2)
    s("poke8", 24, "$b")
    s("random", B, 256)
    s("poke1", 81, "$b")
    s("fold")
    for line in ('walk "/', 'walk "/..', 'lookup 1 ".', 'lookup 1 "..', 'lookup 1 "', 'root "/', 'route 1', "list 1 65536 0 4096",
                 "list 0 65536 0 4096", "init", "options"):
        s(line)
    random_tables_routed(s, n)
    random_tables_mounted(s)
    s("plain")
    s("end")


def random_tables_routed(s, n):
    """Number 1 of every index."""
    s("watch", 0)
    s("views", 0)
    s("set", D, 1)
    s("loop", C, 0, 256)
    s("route", "$d")
    s("add", D, TOP)
    s("end")
    s("watch", size(n) + 64)
    s("views", 1)


def random_tables_mounted(s):
    for p in ("/", "/new", "/new/er", "/x/../y", "/new", "x"):
        mount(s, text(p), 5, 3)
        mount_at(s, 200, text(p), 6, 3)
    s("umount", '"/')
    s("umount", '"/new')
    s("remove")
    mount_at(s, 1, '"/new')
    s("umount", '"/new')
    s("umount", '"/new/er')
    s("list", 1, 65536, 0, 4096)


ODD_PATHS = ["/a", "/b", "/c", "/a/b", "/a/..", "/a/../b", "/b/../..", "/c/c/c/c", "/a/b/c/d/../..", "/d/a/../e"]


def odd_tables(s):
    s(": rows with equal numbers, numbers 0, 1, next and above, circles, own parents")
    n = 16
    s("length", size(n))
    s("watch", size(n) + 64)
    s("views", 1)
    s("seed", 2024)
    s("loop", A, 0, 150)
    s("watch", size(n) + 64)
    s("views", 1)
    odd_rows(s, n)
    s("fold")
    s("watch", 0)
    s("views", 0)
    odd_rows_asked(s)
    s("watch", size(n) + 64)
    s("views", 1)
    odd_rows_mounted(s)
    s("plain")
    s("end")


def odd_rows(s, n):
    """A new instance whose rows and two slots are drawn."""
    s("fill", 8192, 512 * n, 0)
    create(s, n, 0, 0, 0, 0, (0, 7, 3))
    s("random", B, n)
    s("poke8", 16, "$b")
    s("random", B, 10)
    s("add", B, 2)
    s("poke8", 24, "$b")
    s("set", E, 8192)
    s("set", F, 8192 + 8 * n)
    s("set", G, 8192 + 16 * n)
    s("set", H, 8192 + 24 * n)
    s("loop", C, 0, n - 1)
    odd_row(s)
    s("end")
    s("loop", C, 0, 6)
    s("random", D, 3)
    s("poke1", 258, "$d")
    s("poke1", 261, "$d")
    s("end")


def odd_row(s):
    """Number, parent, mount and name of the row whose cells the variables e to h lead to, which go on to the next row."""
    for v, cell, limit, top in (("$e", E, 12, 3), ("$f", F, 12, 3), ("$g", G, 9, 6)):
        s("random", D, limit)
        s("poke8", v, "$d")
        s("add", cell, 7)
        s("random", D, top)
        s("poke1", v, "$d")
        s("add", cell, 1)
    s("poke1", "$h", 1)
    s("add", H, 1)
    s("random", D, 4)
    s("add", D, 97)
    s("poke1", "$h", "$d")
    s("add", H, 7)


def odd_rows_asked(s):
    s("loop", C, 0, 13)
    for name in ("a", "b", "c", "d", ".", ".."):
        s("lookup", "$c", text(name))
    s("list", "$c", 4096, 0, 4096)
    s("list", "$c", 100, 1, 300)
    s("end")
    for p in ODD_PATHS:
        s("walk", text(p))
        s("root", text(p))


def odd_rows_mounted(s):
    rng = random.Random(5)
    for turn in range(3):
        for p in ODD_PATHS:
            what = rng.randrange(4)
            if what == 0:
                mount(s, text(p), rng.randrange(9), rng.randrange(9))
            elif what == 1:
                mount_at(s, rng.randrange(1, 7), text(p), rng.randrange(9), rng.randrange(9))
            elif what == 2:
                s("umount", text(p))
            else:
                mount(s, text(p), rng.randrange(9), TOP)
        if turn == 1:
            s("remove")


def odd_names(s):
    s(": rows whose names no call makes")
    n = 16
    for name in (b"/", b"a/b", b"a/", b"/b", b".", b"..", b"", b"\0", b"a\0b", b"\xff", b"a\xc3", b"a"):
        fresh(s, n)
        mount(s, '"/a/b', 5, 9)
        mount(s, '"/c', 6, 8)
        s("umount", '"/c')
        for row in (0, 2):
            s("poke8", 8192 + 24 * n + 8 * row, int.from_bytes(bytes([len(name)]) + name, "little"))
        for node in (1, 2, 4, 9):
            s("lookup", node, text(name))
        for path in (b"/" + name, b"/" + name + b"/b", b"/" + name + b"/.."):
            s("walk", text(path))
            s("root", text(path))
        s("list", 1, 4096, 0, 4096)
        mount(s, text(b"/" + name), 7)
        s("lookup", 1, text(name))
        s("save", H, 4096)
        s("umount", text(b"/" + name))
        create(s, n)
        s("restore", "$h")


# ---- the mount tables

def order(s):
    """Every set of faults that a mount may have, on tables with and without room and a free index."""
    s(": the order of the refusals of a mount")
    fresh(s, 4, watch=False, views=False)
    mount(s, '"/a/b')
    s("watch", size(4) + 64)
    s("views", 1)
    s("keep", size(4) + 64)
    for room, full in itertools.product((1, 0), (0, 1)):
        s(f": room {room}, full {full}")
        for long, bad, rooted in itertools.product((0, 1), (0, 1), (1, 0)):
            for largest, root, k in itertools.product((TOP - 1, TOP), (TOP - 1, TOP), (None, 1, 0)):
                s("back", size(4) + 64)
                if full:
                    s("fill", 257, 255, 1)
                faulty_path(s, room, long, bad, rooted)
                if k is None:
                    mount(s, KEPT, 3, root, largest)
                else:
                    mount_at(s, k, KEPT, 3, root, largest)


def faulty_path(s, room, long, bad, rooted):
    s("text", '"/x/../n/' if rooted else '"n/')
    if not room:
        s("more", 1, 47)
        s("more", 1, 46)
        s("more", 1, 47)
        s("more", 1, 98)
    if bad:
        s("more", 1, 255)
    if long:
        s("more", 256, 99)


def path_limits(s):
    s(": paths at their limits")
    s("back", size(4) + 64)
    s("text", '"/')
    s("more", 255, 113)
    mount(s, KEPT)
    mount_at(s, 9, KEPT)
    s("more", 1, 113)
    mount(s, KEPT)
    mount_at(s, 9, KEPT)
    for start, count in (("", 2048), ("a", 2047)):
        s("back", size(4) + 64)
        s("text", '"' + start)
        s("loop", A, 0, count)
        s("more", 1, 47)
        s("more", 1, 46)
        s("end")
        mount(s, KEPT)
        mount_at(s, 9, KEPT)
        s("more", 1, 47)
        mount(s, KEPT)
        mount_at(s, 9, KEPT)
        s("more", 1, 46)
        mount(s, KEPT)
        mount_at(s, 9, KEPT)
    for p in PATHS:
        s("back", size(4) + 64)
        mount(s, text(p), 11)
        mount_at(s, 200, text(p), 12)
        s("umount", text(p))
        s("root", text(p))


def numbers(s):
    s(": root numbers and largest numbers at their limits")
    fresh(s)
    for root in (0, 1, 2, TOP - 1, TOP, TOP + 1, MAX64):
        for largest in (0, TOP - 1, TOP, MAX64):
            mount(s, '"/p', 1, root, largest)
            mount_at(s, 250, '"/q', 2, root, largest)
            mount(s, '"/', 3, root, largest)
        for name in ("p", "q", ".", ".."):
            s("lookup", 1, text(name))
        s("route", 1)
        s("root", '"/')
        s("root", '"/q')
    s(": the next number at its limit")
    for following in (TOP - 3, TOP - 2, TOP - 1, TOP):
        fresh(s)
        s("poke8", 24, following)
        for p in ("/x/..", "/x/y", "/z/w/v", "/z", "/", "/w"):
            mount(s, text(p))
            mount_at(s, 7, text(p))
        s("list", 1, 4096, 0, 4096)


def tags(s):
    s(": tags replaced, displaced and released, shared indexes")
    for removes in (0, 1):
        fresh(s)
        if removes:
            s("remove")
        top = 2**32 - 1
        mount(s, '"/a', 0)
        mount(s, '"/a', top)
        mount(s, '"/a', 5)
        mount_at(s, 3, '"/a', 6)
        mount_at(s, 3, '"/b', 7)
        mount_at(s, 3, '"/b', 8)
        s("root", '"/a')
        s("umount", '"/a')
        s("root", '"/b')
        s("lookup", 1, '"b')
        mount(s, '"/b', 9)
        mount_at(s, 200, '"/', 10)
        mount_at(s, 200, '"/c', 11)
        s("route", 1)
        s("umount", '"/c')
        s("route", 1)
        s("root", '"/')
        s("lookup", 1, '".')
        s("umount", '"/')
        s("umount", '"/')
        mount(s, '"/', 12, 33)
        s("route", 1)
        s("route", 2)
        s("route", TOP)
        mount(s, '"/', 13, 0)
        s("route", 1)
        s("lookup", 1, '"..')
        shared_index(s)


def shared_index(s):
    """Two nodes at each of the indexes 0 to 7, of which 0 is refused."""
    s("loop", A, 0, 8)
    mount_at(s, "$a", '"/s$a', "$a")
    mount_at(s, "$a", '"/t$a', 100)
    s("umount", '"/s$a')
    s("umount", '"/t$a')
    s("end")


def removal(s):
    s(": removed nodes, their children, and their room")
    fresh(s, 8)
    s("remove")
    mount(s, '"/a/b/c')
    mount(s, '"/a')
    mount(s, '"/a/b', 21, 55)
    s("umount", '"/a')
    for line in ('walk "/a/b', 'lookup 3 "..', 'lookup 2 ".', 'lookup 3 ".', "list 2 4096 0 4096", "list 1 4096 0 4096", "list 3 4096 0 4096"):
        s(line)
    mount(s, '"/a/b')
    s("list", 1, 4096, 0, 4096)
    s("umount", '"/')
    mount(s, '"/')
    s("umount", '"/')
    s(": room is used again")
    fresh(s, 3)
    s("remove")
    s("loop", A, 0, 40)
    mount(s, '"/m$a/n', "$a")
    mount(s, '"/k$a', "$a")
    s("umount", '"/m$a/n')
    mount(s, '"/m$a', "$a")
    s("umount", '"/m$a')
    s("end")
    s("list", 1, 4096, 0, 4096)


def kept_numbers(s):
    s(": kept numbers, routed after unmounts and mounts")
    fresh(s)
    for k in range(6):
        mount(s, text("/k%d" % k), 100 + k, 40 + k)
    s("umount", '"/k2')
    s("umount", '"/k4')
    mount(s, '"/k2', 200)
    s("fold")
    s("watch", 0)
    s("views", 0)
    s("loop", A, 0, 8)
    s("set", B, "$a")
    s("loop", C, 0, 256)
    s("route", "$b")
    s("add", B, TOP)
    s("end")
    s("end")
    s("plain")
    s("watch", size(64) + 64)
    s("views", 1)
    for index in (0, 1, 2, 3, 4, 5, 6, 7, 8, 255):
        for number in (0, 1, 2, 3, 40, TOP - 1):
            s("route", index * TOP + number)
    s(": each index goes round")
    s("views", 0)
    s("watch", 0)
    s("loop", A, 0, 600)
    s("umount", '"/k1')
    mount(s, '"/k1', "$a")
    s("end")
    s("views", 1)
    s("laid")


def mapped(s):
    s(": ids out and back, and twice in a lookup")
    top = 2**32 - 1
    for mapping in ((0, 0, 0), (1000, 2000, 500), (2000, 1000, 1500), (0, 1, top - 1), (1, 0, top - 1), (top - 10, 5, 10), (5, top - 10, 10), (7, 7, 7), (9, 4, 0)):
        fresh(s, 8, mapping=mapping)
        internal, external, count = mapping
        ids = sorted({max(0, min(top, v + d)) for v in (0, internal, external, internal + count, external + count, top) for d in (-1, 0, 1)})
        for i in ids:
            s("ids", i, top - i, 1)
            s("ids", i, top - i, 0)
        for i in ids:
            mount(s, '"/a', 1, 1, 1, i, top - i, i)
            s("lookup", 1, '"a')
        s("lookup", 1, '".')


def full_table(s, removes):
    s(f": a full table of 255, from every counter; removal {removes}")
    n = 1024
    fresh(s, n, watch=False, views=False)
    if removes:
        s("remove")
    mount(s, '"/', 1000, 77)
    s("fold")
    s("loop", A, 2, 254)
    mount(s, '"/m$a', "$a", "$a")
    s("end")
    s("plain")
    s("views", 1)
    mount(s, '"/one/more')
    s("keep", size(n))
    s("views", 0)
    from_every_counter(s, n, removes)


def from_every_counter(s, n, removes):
    rng = random.Random(17 + removes)
    block = [block_line(rng) for _ in range(150)]
    s("seed", 99 + removes)
    for first, turns, folded in ((0, 2, False), (254, 2, False), (0, 256, True)):
        s("loop", A, first, turns)
        s("back", size(n))
        s("poke1", 81, "$a")
        if folded:
            s("fold")
        mount(s, '"/one/more')
        mount(s, '"/m9')
        mount(s, '"nine')
        s("poke1", 81, "$a")
        for verb, words in block:
            s("random", B, 300)
            s("random", C, 255)
            s("add", C, 1)
            s(verb, *words)
        s("views", 1)
        s("laid")
        s("views", 0)
        if folded:
            s("plain")
        s("end")


def block_line(rng):
    """A line with the variables b, a node below 300, and c, an index."""
    what = rng.randrange(100)
    path = rng.choice(['"/m$b'] * 12 + ['"/', '"/m$b/in', '"/m$b/../m$c', '"/new$b/..', '"/m$c/./'])
    if what < 34:
        root = rng.choice([0, 1, 5, TOP - 1, TOP, "$b"])
        largest = rng.choice([TOP - 1] * 8 + [TOP])
        bad = rng.choice([None] * 12 + ['"m$b', '"', '"/%ff', '"/m$b/%e2%82'])
        return "mount", (bad or path, "$b", root, largest, "$b", "$c", DIR_MODE)
    if what < 48:
        root = rng.choice([0, 1, TOP - 1, TOP, "$c"])
        k = rng.choice(["$c"] * 9 + [0])
        return "mountat", (path, k, "$c", root, rng.choice([5] * 8 + [TOP]), "$c", "$b", 1)
    if what < 72:
        return "umount", (path,)
    if what < 80:
        return "root", (path,)
    if what < 88:
        return "lookup", (rng.choice([1, 1, "$b"]), rng.choice(['"m$b', '".', '"..', '"in']))
    if what < 94:
        return "walk", (path,)
    return "route", (rng.choice([1, "$b"]),)


def no_room(s):
    s(": a full tree of 1,024 nodes")
    fresh(s, 1024, watch=False, views=False)
    s("loop", A, 0, 340)
    mount(s, '"/p$a/q/r')
    s("umount", '"/p$a/q/r')
    s("end")
    s("watch", size(1024) + 64)
    s("views", 1)
    for p in ("/a/b/c/d", "/a/b/c/../../b/d", "/a/b/c", "/a/b/d", "/a/b", "/p3/q/r", "/p3/q/s", "/", "/zz/..", "zz"):
        mount(s, text(p))
        mount_at(s, 77, text(p))
    s("remove")
    s("umount", '"/a/b')
    mount(s, '"/a/b/d')
    mount(s, '"/a/b')
    mount(s, '"/a/b/d')


# ---- sessions at random

def sessions(s):
    rng = random.Random(20240)
    for n, count, removes in ((2, 60, 0), (4, 150, 1), (12, 300, 0), (24, 400, 1)):
        s(f": a session at random, N {n}, removal {removes}")
        s("scatter", 0, size(n), n)
        fresh(s, n, mapping=(rng.randrange(20), rng.randrange(20), rng.randrange(40)))
        names = ["a", "b", "c", "de", "longer-name", ".", "..", "n" * 40]
        for turn in range(count):
            if removes and turn == count // 3:
                s("remove")
            path = "/" + "/".join(rng.choice(names) for _ in range(rng.randrange(4)))
            if rng.randrange(30) == 0:
                path = path[1:]
            node = rng.randrange(n + 4)
            name = rng.choice(names)
            what = rng.randrange(16)
            root = rng.choice([0, 1, 9, 9, TOP - 1, TOP])
            ids = (rng.randrange(50), rng.randrange(50), rng.randrange(2**32))
            if what < 5:
                mount(s, text(path), rng.randrange(2**32), root, rng.choice([9] * 9 + [TOP]), *ids)
            elif what < 7:
                mount_at(s, rng.randrange(6), text(path), rng.randrange(2**32), root, rng.choice([9] * 9 + [TOP]), *ids)
            elif what < 10:
                s("umount", text(path))
            elif what == 10:
                s("walk", text(path))
            elif what == 11:
                s("root", text(path))
            elif what < 14:
                s("lookup", node, text(name))
            elif what == 14:
                s("list", node, rng.choice([0, 50, 100, 4096]), rng.randrange(4), rng.choice([40, 90, 4096]))
            else:
                s("route", rng.choice([1, rng.randrange(8) * TOP + rng.randrange(3)]))


# ---- saved state

def put(s, b):
    """Bytes become the saved ones, eight at a time; those that stand there already are left."""
    for at in range(0, len(b), 8):
        eight = int.from_bytes(b[at:at + 8].ljust(8, b"\0"), "little")
        if s.put.get(at) != eight:
            s("poke8", SAVED + at, eight)
        s.put[at] = eight


def record(number, parent=1, name=b"n"):
    return number, parent, name


def state(nodes=(), options=(0, 0, 0, 0, 0, 0), following=None, counter=1):
    if following is None:
        following = min(max([number for number, _, _ in nodes], default=1) + 1, MAX64)
    return saved.encode(nodes, options, following, counter)


def grown(s, n, count, long):
    """An instance of n with so many nodes: names of 255 bytes with a common start under the root, or of one byte, each below the last."""
    fresh(s, n, watch=False, views=False, known=0xFF, in_opts=5, out_opts=0x81, flags=9, mapping=(3, 4, 5))
    if not count:
        return
    if long:
        s("loop", A, 1000, count)
        mount(s, '"/' + "x" * 251 + "$a")
        s("umount", KEPT)
        s("end")
    else:
        s("text", '"')
        s("loop", A, 0, count)
        s("more", 1, 47)
        s("more", 1, 49)
        s("end")
        mount(s, KEPT)
        s("umount", KEPT)


def saved_trees(s):
    s(": trees of 0, 1, 63 and 1,023 nodes saved and restored")
    for count, long in ((0, 0), (1, 0), (1, 1), (63, 0), (63, 1), (1023, 0), (1023, 1)):
        saved_tree(s, count, long)


def saved_tree(s, count, long):
    length = 56 + count * (18 + (255 if long else 1))
    s(f": {count} nodes, {length} bytes")
    n = count + 1
    s("fold")
    grown(s, n, count, long)
    s("plain")
    s("watch", size(n) + 64)
    s("views", 1)
    s("fill", SAVED, length + 128, 165)
    for room in (0, 55, length - 1, length, length + 7, length + 64):
        s("save", B, room)
    s("restore", "$b")
    for capacity in (n, count, 1024):
        if not capacity:
            continue
        s("scatter", 0, min(size(capacity) + 64, 60000), count)
        fresh(s, capacity, known=0x85, mapping=(7, 8, 9))
        for at, turns in (("$b", 1), (length - 1, 1), (length + 1, 1), ("$b", 2)):
            for _ in range(turns):
                s("restore", at)
        for line in ("init", "options", 'walk "/1', "ids 3 7 1", "list 1 65536 0 4096"):
            s(line)
        s("save", C, length)
        mount(s, '"/1')
    s("views", 0)


def deep_tree(s):
    s(": a deep tree, names that differ late, and mounts that are not saved")
    fresh(s, 64, known=1, in_opts=1)
    for p in ("/a/b/c/d/e/f", "/a/b/c/\u00e9\u20ac\U0001f600", "/a/..b/.c/...", "/a/b/x1234567y", "/a/b/x1234567z", b"/a/nul\0nul", "/"):
        mount(s, text(p), 9, 77)
    s("save", B, 1000)
    s("restore", "$b")
    for line in ('umount "/', 'umount "/a/b/c/d/e/f'):
        s(line)
    s("save", B, 1000)
    for n in (14, 15, 64):
        fresh(s, n, known=1)
        s("remove")
        s("poke1", 260, 1)
        poke4(s, 512 + 4 * 4, 1234)
        s("restore", "$b")
        for p in ("/a/b/c/d/e/f", "/a/b/c/\u00e9\u20ac\U0001f600", "/a/..b/.c/...", "/a/b/x1234567z", b"/a/nul\0nul"):
            s("walk", text(p))
            s("root", text(p))
        s("save", B, 1000)
        mount(s, '"/a/b')
        s("route", 4 * TOP + 9)


def small_state():
    return state([record(2, 1, b"a"), record(3, 2, b"a"), record(5, 2, "\u00e9".encode()), record(6, 1, b"..b"), record(9, 5, b"a.")],
                 (5, 1, 2, 3, 4, 33), 12, 200)


def changed_bytes(s):
    good = small_state()
    s(f": a state of {len(good)} bytes, each byte changed to each of the other 255 values")
    fresh(s, 7, known=0x85, watch=False, views=False)
    s.put.clear()
    put(s, good)
    s("views", 1)
    s("restore", len(good))
    s("save", B, len(good))
    s("loop", A, SAVED, len(good))
    s("fold")
    s("loop", B, 0, 256)
    s("raise", "$a", 1)
    s("watch", 0)
    s("views", 0)
    create(s, 7, 0x85)
    s("watch", size(7))
    s("views", 1)
    s("restore", len(good))
    s("end")
    s("plain")
    s("end")


def cut_bytes(s):
    good = small_state()
    s(": the same state cut at every length, with bytes behind, and bytes taken out or put in")
    for n in (7, 6, 5):
        s("fill", SAVED + len(good), 100, 0)
        s("fold")
        s("loop", A, 0, len(good) + 80)
        create(s, n, 0x85)
        s("restore", "$a")
        s("end")
        s("plain")
    for put_in in (b"", b"\0", b"a"):
        s("fold")
        for at in range(len(good) + len(put_in)):
            b = good[:at] + put_in + good[at + 1 - len(put_in):]
            moved(s, b, at)
            s("restore", len(b))
            if not saved.faults(b):
                create(s, 7, 0x85)
        s("plain")


def moved(s, b, at):
    """The saved bytes become b, which differs from what they were only in two places, at most `at`."""
    if at == 0:
        s.put.clear()
        put(s, b)
        s.put.clear()
    else:
        for k in (at - 1, at):
            if k < len(b):
                s("poke1", SAVED + k, b[k])


def each_fault(s):
    s(": each fault of saved bytes alone, and those beside it that are none")
    a, b, c = record(2, 1, b"a"), record(3, 2, b"b"), record(7, 3, b"c")
    names = [b"", b"/", b"a/b", b".", b"..", b"...", b".a", b"a.", b"\0", b" ", b"\x7f", b"\x80", b"\xc2\x80", b"\xc1\xbf", b"\xe0\x9f\xbf", b"\xe0\xa0\x80",
             b"\xed\x9f\xbf", b"\xed\xa0\x80", b"\xf0\x8f\xbf\xbf", b"\xf4\x8f\xbf\xbf", b"\xf4\x90\x80\x80", b"\xe2\x82", b"x" * 255, b"x" * 256, b"x" * 254 + b"\xc3\xa9"]
    cases = [state([a, record(3, 2, name), c]) for name in names]
    cases += [state([a, record(number, 1, b"b"), c]) for number in (0, 1, 2, 3, 6, 7, 8, TOP - 1, TOP, MAX64)]
    cases += [state([record(number)]) for number in (0, 1, 2, 3, TOP - 1, TOP)]
    cases += [state([a, record(3, parent, b"b"), c]) for parent in (0, 1, 2, 3, 4, 7, TOP + 1, TOP + 2, MAX64)]
    cases += [state([a, b, c], following=v) for v in (0, 1, 2, 7, 8, 9, TOP - 1, TOP, TOP + 1, MAX64)]
    cases += [state([], following=v) for v in (0, 1, 2, 3, TOP, TOP + 1)]
    cases += [state([record(TOP - 1)], following=v) for v in (TOP - 1, TOP, TOP + 1)]
    for x in (1, 2, 3):
        for y in (1, 2, 3):
            for name in (b"same", b"longer name!", b"longer nama!", b"Longer name!"):
                cases.append(state([a, b, record(4, x, b"longer name!"), record(5, y, name), record(6, 5, b"same")]))
    whole = state([a, b, c], (1, 4, 0, 2**32 - 1, 2**32 - 1, 63), counter=0)
    t = len(whole) - 24
    for at, width, values in ((t, 4, (0, t - 33, t - 31, t - 32 + 2**31)), (t + 4, 4, (0, 2, 4, 2**16 + 3, 2**32 - 1)), (t + 17, 1, (0, 2, 255)),
                              (t - 4, 1, (0, 31, 64, 128, 192, 255)), (t + 16, 1, (0, 1, 255))):
        for v in values:
            cases.append(whole[:at] + v.to_bytes(width, "little") + whole[at + width:])
    for at in (*range(t - 3, t), *range(t + 18, t + 24)):
        cases += [whole[:at] + bytes([v]) + whole[at + 1:] for v in (1, 128, 255)]
    cases += [b"", bytes(55), bytes(56), bytes(57), whole, whole[1:], whole + b"\0", b"\0" + whole, whole[-56:], state()]
    alone = {saved.faults(case) for case in cases}
    assert alone >= set("abcdefghijk") | {""}, alone
    s.put.clear()
    fresh(s, 8, watch=True)
    for case in cases:
        put(s, case)
        create(s, 8, 0xFF, mapping=(1, 2, 3))
        s("restore", len(case))
        if not saved.faults(case):
            s("save", B, len(case))


SAVED_NODES = [record(2, 1, b"a"), record(3, 1, b"b")]


def order_of_restore(s):
    s(": the order of the refusals of a restore: SMALL, NOTFRESH, BADSAVE, BADOPT, NOROOM")
    s.put.clear()
    masked = ((2, 0, 0, 0, 0, 0), (0, 2, 0, 0, 0, 0), (1, 1, 0, 0, 0, 0))
    for small, stale, bad, options, n in itertools.product((1, 0), (0, 1, 2, 3), (1, 0), masked, (2, 3)):
        b = state(SAVED_NODES + [record(4, 9)] if bad else SAVED_NODES, options)
        put(s, b)
        fresh(s, n, known=1)
        if stale & 1:
            mount(s, '"/kept')
            s("umount", '"/kept')
        if stale & 2:
            mount(s, '"/')
        if small:
            s("length", size(n) - 1)
        s("restore", len(b))


def no_fault_of_freshness(s):
    s(": what is no fault of freshness: counter, next number, held slots, options, a node that was removed")
    put(s, state(SAVED_NODES, (0, 0, 9, 9, 9, 1), TOP, 255))
    for in_opts in (0, 1):
        fresh(s, 3, known=3, in_opts=1, out_opts=2, flags=4, mapping=(5, 6, 7))
        s("poke8", SAVED + 38, in_opts)
        s("remove")
        mount(s, '"/gone')
        s("umount", '"/gone')
        s("poke1", 81, 77)
        s("poke1", 83, 9)
        s("fill", 300, 7, 5)
        s("restore", 94)
        for line in ("init", "options", "ids 5 6 1", "ids 5 6 0", 'umount "/a', 'walk "/a'):
            s(line)
        mount(s, '"/c')
        mount(s, '"/a')
        s("umount", '"/a')
        s("save", B, 200)
        s("save", B, "$b")


def initialized(s):
    s(": initialized by a restore, from each of in_opts and out_opts")
    for was in (0, 1):
        for in_opts, out_opts in ((0, 0), (1, 0), (0, 1), (1, 1), (TOP, 0), (0, TOP)):
            s.put.clear()
            put(s, state([], (in_opts, out_opts, 0, 0, 0, 0)))
            fresh(s, 1, known=TOP + 1, in_opts=was)
            s("poke1", 83, was)
            s("restore", 56)
            s("init")
            s("options")


def removed_parents(s):
    s(": a state with a removed parent is saved, and refused by a restore")
    fresh(s, 8, known=1)
    s("remove")
    for p in ("/a/b", "/a", "/c"):
        mount(s, text(p))
    s("umount", '"/a/b')
    s("umount", '"/a')
    s("save", B, 500)
    fresh(s, 8, known=1)
    s("restore", "$b")
    fresh(s, 8, known=1)
    s("remove")
    mount(s, '"/a/b')
    mount(s, '"/a')
    s("umount", '"/a')
    s("save", B, 500)
    fresh(s, 8, known=1)
    s("restore", "$b")
    s("poke8", SAVED + 8, 1)
    s("restore", "$b")


def many_records(s):
    s(": 1,023 records and more, whole and damaged")
    each = 20
    for columns, rows in ((31, 33), (32, 32), (25, 41), (34, 33)):
        total = columns * rows
        s(f": {total} records")
        s("set", C, SAVED)
        s("set", D, 2)
        s("loop", A, 64, columns)
        s("loop", B, 64, rows)
        for what, step in ((("poke8", "$d"), 8), (("poke8", 1), 8), (("poke1", 2), 1), (("poke1", 0), 1), (("poke1", "$a"), 1), (("poke1", "$b"), 1)):
            s(what[0], "$c", what[1])
            s("add", C, step)
        s("add", D, 1)
        s("end")
        s("end")
        tail = state(following=total + 2)[:-24] + (each * total).to_bytes(4, "little") + total.to_bytes(4, "little") + state(following=total + 2)[-16:]
        for at in range(0, 56, 8):
            s("poke8", SAVED + each * total + at, int.from_bytes(tail[at:at + 8], "little"))
        length = each * total + 56
        for n in (1024, 1023, 64):
            fresh(s, n)
            s("restore", length)
        fresh(s, 1024, watch=False)
        s("fold")
        places = [(each * row + place, v) for place in (0, 8, 16, 18, 19) for row in (0, 1, total // 2, total - 2, total - 1) for v in (1, 255)]
        for at, v in places + [(at, 1) for at in range(length - 24, length)]:
            s("raise", SAVED + at, v)
            create(s, 1024)
            s("restore", length)
            s("raise", SAVED + at, 256 - v)
        s("plain")
        fresh(s, 1024)
        s("restore", length)


def random_states(s):
    s(": random bytes, random trailers behind random records, and states of sessions at random")
    rng = random.Random(77)
    fresh(s, 16, known=0xFF)
    s("fold")
    s("loop", A, 0, 200)
    s("scatter", SAVED, 200, "$a")
    s("restore", 56)
    s("restore", 200)
    s("end")
    s("plain")
    for _ in range(30):
        s("fold")
        for _ in range(5):
            b = drawn_state(rng)
            s.put.clear()
            put(s, b)
            create(s, 6, 0xFF)
            s("restore", len(b))
            s("save", B, 400)
        s("plain")
    for turn in range(8):
        saved_session(s, rng, turn % 2)


def drawn_state(rng):
    """A state made at random, with some faults."""
    names = [b"a", b"b", b"ab", b"..a", "\u00e9".encode(), b"\xff", b"a/b", b".."]
    nodes, number = [], 1
    for _ in range(rng.randrange(7)):
        number += rng.choice([1] * 9 + [2, 5, 0])
        parents = [1] + [k for k, _, _ in nodes]
        nodes.append(record(number, rng.choice(parents * 4 + [number]), rng.choice(names[:5] * 6 + names[5:])))
    return state(nodes, (rng.choice([0, 1, 256]), 0, rng.randrange(2**32), rng.randrange(2**32), rng.randrange(2**32), rng.randrange(66)),
                 number + rng.randrange(8) if rng.randrange(9) else number, rng.randrange(256))


def saved_session(s, rng, removes):
    """A session at random, saved, restored and saved again now and then."""
    n = rng.choice([4, 8, 16])
    fresh(s, n, known=0xFF, in_opts=rng.randrange(256), mapping=(rng.randrange(9), rng.randrange(9), rng.randrange(9)))
    s("fold")
    for step in range(60):
        path = "/" + "/".join(rng.choice(["a", "b", "c", "..", "long-name"]) for _ in range(rng.randrange(1, 4)))
        if rng.randrange(3):
            mount(s, text(path), rng.randrange(99))
        else:
            s("umount", text(path))
        if step == 20 and removes:
            s("remove")
        if step % 12 == 11:
            s("keep", size(n))
            s("save", H, 2000)
            s("restore", "$h")
            create(s, n, 0xFF)
            s("restore", "$h")
            s("save", G, 2000)
            if rng.randrange(2):
                s("back", size(n))
    s("plain")


def odd_lines(s):
    s(": verbs that are none, numbers and texts that are none or too many, loops that are not open")
    fresh(s, 2)
    for line in ("bogus", "bogus 1", "Laid", "options7", 'walk', 'walk 3', 'walk "/ 3', "route", "route x", "route 18446744073709551616", "route  1", "route -1",
                 "route 1 2 3 4 5 6 7 8 9", "end", "laid", "random 0 0", "route $a", "set 9 3", "route $b", 'walk "/%zz', 'walk "/%2', 'walk "/%', 'walk "/$', 'walk "/$i',
                 'walk "/%24a', "save", "save 1 2 3", "restore", "raise 1", "# laid", ""):
        s(line)
    s("laid")


def places_past_the_ends(s):
    s(": places past the ends")
    room = script.ROOM
    s("scatter", 0, room, 3)
    s("scatter", SAVED, room, 4)
    fresh(s, 2)
    s("keep", room)
    for end in (room, SAVED + room):
        for at in (end, end + 7, end + 2**40):
            s("poke1", at, 5)
            s("raise", at, 5)
            s("fill", at, 9, 5)
            s("scatter", at, 9, 5)
        for at in range(end - 7, end + 2):
            s("poke8", at, MAX64 // 3)
        s("same", 0, room)
        s("save", H, room)
    for at in (room, SAVED + room):
        s("poke8", at - 8, MAX64 // 3)
        s("raise", at - 1, 300)
        s("fill", at - 20, 100, 7)
        s("scatter", at - 30, 15, 8)
        s("same", 0, room - 30)
        s("same", room - 30, 1)
        s("same", room - 1, 2**40)
        s("same", room, 5)
        s("save", H, room)
    for n in (room + 1, 2**40):
        s("back", n)
        s("same", 0, room)
        s("keep", n)


PARTS = [session, edges, creation_limits, creation_order, creation_options, settings, tree, listings_cut, listings_long,
         header_bytes, header_bytes_called, header_limits, random_bytes, odd_tables, odd_names, order, path_limits, numbers, tags, removal,
         kept_numbers, mapped, lambda s: full_table(s, 0), lambda s: full_table(s, 1), no_room, sessions, saved_trees, deep_tree,
         changed_bytes, cut_bytes, each_fault, order_of_restore, no_fault_of_freshness, initialized, removed_parents, many_records,
         random_states, odd_lines, places_past_the_ends]


def main():
    s = Script()
    for part in PARTS:
        part(s)
    source = s.source()
    answers = script.Run().run(source)
    here = os.path.join(os.path.dirname(os.path.dirname(os.path.abspath(__file__))), "crates", "calls_test")
    with open(os.path.join(here, "stdin"), "wb") as f:
        f.write(source)
    with open(os.path.join(here, "stdout"), "wb") as f:
        f.write(answers)


if __name__ == "__main__":
    main()
