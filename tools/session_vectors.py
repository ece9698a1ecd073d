#!/usr/bin/env python3
"""Writes the script of crates/session and what the program must write for it.

    python3 tools/session_vectors.py                crates/session/stdin and stdout
    python3 tools/session_vectors.py answer FILE    what a session on FILE must write, to standard output
    python3 tools/session_vectors.py lines N        N lines to time a session with, to standard output

Here a line is read and its answer written; what a call answers comes from tools/model, which follows docs/RULES.md. Nothing
comes from the port.
"""
import os
import random
import sys

sys.path.insert(0, os.path.dirname(os.path.abspath(__file__)))
sys.dont_write_bytecode = True

from model import rules  # noqa: E402

NODES = 64
PIECE = 65536  # the program reads so many bytes at a time, and has as many for answers
ACROSS = [(b"walk /a", b"/b"), (b"walk /a/b", b"/.."), (b"walk /../a", b"/b")]  # lines with a cut: the front has a form too, the rest has none
IDS_AND_MODE = 0, 0, rules.DIR_MODE
EIGHT = b"""walk /a
mount /a/b 7 1 1000
mount a 8 1 1000
mount /a/b 9 1 1000
umount /a/b
umount /a/b
mount /c/../a 7 1 1000
look 1 a
"""
EIGHT_ANSWERS = b"""0 0
0 1 1
2 0 1
0 3 1
0 3 2
7 0 0
0 4 1
0 288230376151711745
"""


def number(word, bits):
    """A decimal below that power of two, of any length; else a ValueError."""
    digits = word.lstrip(b"0")
    if word.strip(b"0123456789") or len(digits) > 20 or int(digits or b"0") >= 2**bits:
        raise ValueError
    return int(digits or b"0")


class Session:
    """One instance of 64 nodes, no mapping, nodes kept (R137)."""

    def __init__(self):
        self.instance = rules.Instance(NODES, 0, 0, 0, 0, (0, 0, 0))

    def mount(self, path, tag, root, largest):
        code, (k, count, *_) = rules.mount(self.instance, path, number(tag, 32), number(root, 64), number(largest, 64), *IDS_AND_MODE)
        return code, k, count

    def umount(self, path):
        code, (node, parent, *_) = rules.umount(self.instance, path)
        return code, node, parent

    def walk(self, path):
        code, (_, node) = rules.walk(self.instance, path)
        return code, node

    def look(self, full, name):
        code, (to_backend, tag, _, node) = rules.route(self.instance, number(full, 64))
        if code or to_backend:
            return (code, 0) if code else ("r", tag, node)
        code, (inode, *_) = rules.lookup(self.instance, node, name)
        return code, inode

    def line(self, line):
        """The fields of the answer (R137 to R152)."""
        fields = line.split(b" ")
        forms = {(b"mount", 5): self.mount, (b"umount", 2): self.umount, (b"walk", 2): self.walk, (b"look", 3): self.look}
        form = forms.get((fields[0], len(fields)))
        if form is None or len(line) > 8192 or b"" in fields:
            return ("?",)
        try:
            return form(*fields[1:])
        except ValueError:
            return ("?",)


def answers(data):
    s = Session()
    lines = data.split(b"\n")
    if lines[-1] == b"":
        lines.pop()
    return b"".join(b" ".join(str(f).encode() for f in s.line(l)) + b"\n" for l in lines)


# ---- the stored script

def kept(index, number):
    return index * 2**56 + number


class Lines:
    """The lines so far, how many bytes they have, and the session that they make."""

    def __init__(self):
        self.lines = []
        self.at = 0
        self.session = Session()

    def say(self, *lines):
        """Lines more; the answer of the last. A line that would come near the end of a piece is put behind it."""
        for l in lines:
            l = l if isinstance(l, bytes) else l.encode()
            if len(l) + 1 > PIECE - self.at % PIECE - 64:
                self.cross()
            answer = self.add(l)
        return answer

    def add(self, line):
        self.lines.append(line)
        self.at += len(line) + 1
        return self.session.line(line)

    def cross(self):
        """A short line across the end of the piece, behind one of slashes that fills the piece up to it."""
        front, rest = ACROSS[self.at // PIECE % len(ACROSS)]
        self.add(b"walk /" + b"/" * (PIECE - self.at % PIECE - len(front) - 7))
        told = [self.session.line(l) for l in (front, rest, front + rest)]
        assert self.at % PIECE == PIECE - len(front) and len(set(told)) == 3
        self.add(front + rest)


def forms(w):
    # lines of no form: other verbs, fields missing, empty or too many, signs, numbers too big
    w.say("", " ", "walk", "walk ", " walk /a", "walk  /a", "walk /a ", "Walk /a", "walk /a b", "mount /a 7 1", "mount /a 7 1 1000 5",
          "umount", "umount /a b", "look 1", "look a a", "look -1 a", "look +1 a", "look 1  a", "walks /a", "mount /x -7 1 1000",
          "mount /x 4294967296 1 1000", "mount /x 7 18446744073709551616 1000", "mount /x 7 1 18446744073709551616",
          "mount bad 4294967296 1 1000", "look 18446744073709551616 a", "?", "walk /x")
    # numbers by value: leading zeros, the largest
    w.say("mount /n 4294967295 72057594037927935 72057594037927935", "look 1 n", "mount /n 0000000000000000000000000000000000000007 01 0001000", "umount /n")
    # walk: root, missing names, dots, `..` above the root; not UTF-8, without slash, empty parts
    w.say("walk /", "walk /a", "walk /a/b", "walk //a/./b/", "walk /a/b/..", "walk /../../a", "walk /a/../zz", "walk a", b"walk /\xff", b"walk \xc0\xaf", "walk .")
    # other bytes are ordinary bytes of a path
    w.say(b"mount /t\tab 3 5 9", b"walk /t\tab", b"mount /cr\r 3 5 9", b"walk /cr\r", b"walk /cr", b"mount /nul\0x 3 5 9", b"walk /nul\0x", "mount /größe 3 5 9", "walk /größe")


def calls(w):
    # umount: unknown, nothing mounted, bad paths
    w.say("umount /zz", "umount /a/b", "umount b", b"umount /\xfe", b"umount /t\tab", b"umount /cr\r", b"umount /nul\0x", "umount /größe")
    # mount: too long, not UTF-8, numbers above 2^56 - 1, no leading slash; each but the last two leaves the counter
    w.say("mount /" + "n" * 256 + " 1 1 1", "mount /" + "n" * 255 + " 1 1 1", "mount " + "/m" * 2049 + " 1 1 1", "mount " + "/./." * 1024 + " 1 1 1", "umount /",
          b"mount /\xed\xa0\x80 1 1 1", "mount /i 1 1 72057594037927936", "mount i 1 1 1", "mount /i 1 72057594037927936 5", "walk /i", "mount /i 1 1 72057594037927935")
    # mounts over each other: a new index each time, the old one freed
    w.say("mount /a/b 11 1 9", "mount /a/b 12 1 9", "mount /a/b 0 1 9", "look 2 b", "umount /a/b")
    # lookups: by `.` and `..`, by a name with `/`, of the root number 0; not UTF-8, byte 0; unknown node
    w.say("look 1 .", "look 1 ..", "look 2 .", "look 2 ..", "look 3 ..", "look 2 b", "look 1 a/b", "look 1 zz", b"look 1 \xff", b"look 1 a\0", "look 999 a", b"look 999 \xff",
          "mount /z 5 0 9", "look 1 z", "umount /z")
    # a mount on the root diverts number 1; its own numbers go to the backend
    w.say("mount / 70 41 1000", "look 1 a", "look 2 .", "look 3 ..", "look 2 ..", "umount /", "look 1 .")


def kept_numbers(w):
    """Numbers that a host keeps: routed while their index is held, refused once it is free, and alive again only when the index has come round."""
    _, k, _ = w.say("mount /lab 90 1 1000")
    w.say(f"look {kept(k, 5)} x", "mount /lab 91 1 1000", f"look {kept(k, 5)} x", f"look {kept(k + 1, 1)} {'x' * 300}", f"look {kept(k + 1, 0)} x")
    seen = 0
    while w.session.instance.slots[k] is None:
        seen += 1
        w.say(f"mount /round/{seen % 3} {1000 + seen} {seen} 5000")
        if seen % 40 == 0:
            w.say(f"look {kept(k, 5)} x")
    w.say(f"look {kept(k, 5)} x", f"look {kept(k, 5)} .", f"look {2**64 - 1} x", f"look {kept(255, 1)} x")


def full_tree(w):
    """64 nodes: the last that fits, then none; what needs no node still goes."""
    room = NODES - 1 - len(w.session.instance.nodes)
    w.say("mount /" + "/".join(f"d{n}" for n in range(room + 1)) + " 2 2 2")
    w.say("mount /" + "/".join(f"d{n}" for n in range(room)) + " 2 2 2", "mount /more 2 2 2", "mount /d0/d1/../x 2 2 2", "mount more 2 2 2", "mount /more 2 72057594037927936 2",
          "mount /d0 2 2 2", "mount /d0/d1 3 3 3", "walk /d0/d1", "umount /d0", "umount /d0/d1", "look 1 d0", "mount / 4 4 4", "umount /")


def long_lines(w):
    # the limit of a line: 8,192 bytes are answered, 8,193 are `?`, and so is far more
    w.say("walk /" + "w" * 8186, "walk /" + "w" * 8187, "mount / " + "0" * 8178 + "7 1 9", "mount / " + "0" * 8179 + "7 1 9", "walk /" + "/" * 8186, "x" * 8192, "x" * 8193)
    # far over the limit; then a piece that begins inside a short line, and has more answers than an output of as many bytes holds
    w.say("walk /" + "/" * 40000)
    w.cross()
    w.say(*[""] * 33000)


def drawn(w):
    """A mixed tail, drawn by a fixed seed."""
    draw = random.Random(20260)
    names = ["a", "b", "lab", "round", "1", "d0", "d1", "..", ".", "zz"]
    for _ in range(150):
        path = "".join("/" + draw.choice(names) for _ in range(draw.randint(1, 4)))
        w.say(draw.choice([f"walk {path}", f"umount {path}", f"mount {path} {draw.randrange(9)} {draw.randrange(9)} 9",
                           f"look {draw.choice([0, 1, 2, 3, 5, kept(draw.randrange(256), 1)])} {draw.choice(names)}"]))


def script():
    """The last line has no line end."""
    w = Lines()
    w.say(*EIGHT.rstrip(b"\n").split(b"\n"))
    for part in (forms, calls, kept_numbers, full_tree, long_lines, drawn):
        part(w)
    w.say("walk /a/b")
    return b"\n".join(w.lines)


def write(name, b):
    here = os.path.join(os.path.dirname(os.path.dirname(os.path.abspath(__file__))), "crates", "session")
    with open(os.path.join(here, name), "wb") as f:
        f.write(b)


def main(words):
    if words[:1] == ["answer"]:
        sys.stdout.buffer.write(answers(open(words[1], "rb").read()))
    elif words[:1] == ["lines"]:
        forms = [b"mount /lab/%d 7 1 1000", b"walk /lab/%d", b"look 2 %d", b"umount /lab/%d"]
        lines = [forms[n % 4] % (n // 4 * 7 % (40 if n % 4 == 0 else 50)) for n in range(800)]
        want = int(words[1])
        sys.stdout.buffer.write(b"".join(lines[n % 800] + b"\n" for n in range(want)))
    else:
        assert answers(EIGHT) == EIGHT_ANSWERS
        data = script()
        write("stdin", data)
        write("stdout", answers(data))


if __name__ == "__main__":
    main(sys.argv[1:])
