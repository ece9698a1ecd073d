"""Runs a script of crates/calls_test over the model, and gives what the program must write.

docs/TESTS.md has the language. This is the second reading of it; the first is the program's.
"""
import re
import zlib

from model import layout, rules, saved

ROOM = 851968      # of the lent bytes, and of the saved ones
PLACE = 1114112      # of the first saved byte
BEHIND = 64
VARIABLE = re.compile(rb"\$[a-h]")
MARKED = re.compile(rb"%[0-9a-f]{2}")
UNKNOWN = 99
LONGEST = 8192      # of a line with its variables put in, and of a text
LISTED = 65536      # bytes that are lent to a listing at most
DEEPEST = 4      # loops, one inside the other
WRITES = {"create", "remove", "mount", "mountat", "umount", "restore"}
NUMBERS = {
    "loop": 3, "end": 0, "set": 2, "add": 2, "random": 2, "seed": 1, "text": 0, "more": 2, "fold": 0, "plain": 0, "watch": 1, "views": 1,
    "length": 1, "fill": 3, "scatter": 3, "poke1": 2, "poke8": 2, "raise": 2, "keep": 1, "back": 1, "same": 2,
    "create": 8, "laid": 0, "remove": 0, "init": 0, "options": 0, "walk": 0, "list": 4, "mount": 6, "mountat": 7, "umount": 0,
    "route": 1, "root": 0, "lookup": 1, "ids": 3, "save": 2, "restore": 1,
}
TEXTS = {"walk", "mount", "mountat", "umount", "root"}
ZEROS = {"init": 1, "options": 6, "walk": 2, "mount": 4, "mountat": 4, "umount": 4, "route": 4, "root": 3,
         "lookup": 5, "ids": 2, "remove": 0, "restore": 0}


def following(x):
    return (x * 1664525 + 1013904223) % 2**32


class Run:
    def __init__(self):
        self.variables = [0] * 8
        self.seed = self.lent = self.watch = self.views = 0
        self.bytes = bytearray(ROOM)
        self.kept = bytearray(ROOM)
        self.saved = bytearray(ROOM)
        self.instance = None      # what the bytes stand for, where it is known
        self.changed = False      # the instance has changed since it was written to the bytes
        self.text = b""
        self.out = []
        self.folding = False
        self.sum, self.calls = 1, 0

    # ---- bytes and instance

    def to_bytes(self):
        """The bytes, to be changed: the instance is not known any more."""
        if self.changed:
            layout.write(self.bytes, self.instance)
        self.instance, self.changed = None, False
        return self.bytes

    def tables(self):
        """The instance, or None where the lent bytes break the rule."""
        if self.instance is None and layout.keeps_rule(self.bytes, self.lent):
            self.instance = layout.view(self.bytes)
        return self.instance

    def counter(self):
        return self.instance.counter if self.instance else self.bytes[81]

    # ---- words

    def words(self, line):
        """The verb and its numbers; zeros in the place of those that are not there. The text is set where the line has one."""
        if b'"' in line:
            spelt = line.split(b'"', 1)[1].split(b" ")[0]
            self.text = MARKED.sub(lambda m: bytes([int(m[0][1:], 16)]), spelt)[:LONGEST]
        words = line.split(b" ")
        numbers = [int(w) for w in words if w.isdigit() and int(w) < 2**64]
        verb = words[0].decode()
        return verb, (numbers + [0] * 8)[:NUMBERS.get(verb, 0)]

    def expanded(self, line):
        return VARIABLE.sub(lambda m: str(self.variables[m[0][1] - 97]).encode(), line)[:LONGEST]

    # ---- output

    def say(self, s):
        b = s if isinstance(s, bytes) else s.encode()
        if self.folding:
            self.sum = zlib.adler32(b + b"\n", self.sum)
        else:
            self.out.append(b)

    # ---- a script

    def run(self, source):
        lines = source.split(b"\n")
        loops, at = [], 0
        while at < len(lines):
            line = self.expanded(lines[at])
            at += 1
            if line[:1] in (b"", b"#"):
                continue
            if line[:1] == b":":
                self.say(line)
                continue
            verb, numbers = self.words(line)
            if verb == "loop":
                v, first, turns = numbers
                assert len(loops) < DEEPEST
                self.variables[v % 8] = first
                loops.append([at, v % 8, turns])
            elif verb == "end":
                if not loops:
                    continue
                loop = loops[-1]
                if loop[2] > 1:
                    loop[2] -= 1
                    self.variables[loop[1]] = (self.variables[loop[1]] + 1) % 2**64
                    at = loop[0]
                else:
                    loops.pop()
            elif hasattr(self, "do_" + verb):
                getattr(self, "do_" + verb)(*numbers)
            else:
                self.call(verb, numbers)
        return b"\n".join(self.out) + b"\n"

    # ---- what steers the run

    def do_set(self, v, n):
        self.variables[v % 8] = n

    def do_add(self, v, n):
        self.variables[v % 8] = (self.variables[v % 8] + n) % 2**64

    def do_random(self, v, limit):
        self.seed = following(self.seed)
        if limit:
            self.variables[v % 8] = self.seed // 256 % limit

    def do_seed(self, n):
        self.seed = n

    def do_text(self):
        pass

    def do_more(self, count, b):
        self.text = (self.text + bytes([b % 256]) * count)[:LONGEST]

    def do_fold(self):
        self.folding, self.sum, self.calls = True, 1, 0

    def do_plain(self):
        self.folding = False
        self.say(f"plain {self.calls} {self.sum}")

    def do_watch(self, n):
        self.watch = n

    def do_views(self, n):
        self.views = n

    def do_length(self, n):
        self.to_bytes()
        self.lent = n

    # ---- what sets bytes

    def place(self, at):
        return (self.to_bytes(), at) if at < PLACE else (self.saved, at - PLACE)

    def put(self, at, new):
        """Bytes are put at a place, as many as there are behind it."""
        b, at = self.place(at)
        b[at:at + len(new)] = new[:max(0, len(b) - at)]

    def do_fill(self, at, n, v):
        self.put(at, bytes([v % 256]) * n)

    def do_scatter(self, at, n, seed):
        new, x = bytearray(n), seed
        for i in range(n):
            x = following(x)
            new[i] = x // 65536 % 256
        self.put(at, new)

    def do_poke1(self, at, v):
        self.put(at, bytes([v % 256]))

    def do_poke8(self, at, v):
        b, place = self.place(at)
        if place + 8 <= len(b):
            self.put(at, v.to_bytes(8, "little"))

    def do_raise(self, at, n):
        b, place = self.place(at)
        if place < len(b):
            b[place] = (b[place] + n) % 256

    def do_keep(self, n):
        self.kept[:n] = self.to_bytes()[:n]

    def do_back(self, n):
        self.to_bytes()[:n] = self.kept[:n]

    def do_same(self, at, n):
        """Scripts ask this only of bytes that no call writes."""
        self.say(f"same {int(self.to_bytes()[at:at + n] != self.kept[at:at + n])}")

    # ---- calls

    def call(self, verb, numbers):
        i = None if verb == "create" else self.tables()
        before = (i.counter, len(i.nodes)) if i else None
        if verb == "create":
            code, values = self.create(*numbers)
        elif verb not in NUMBERS:
            code, values = UNKNOWN, []
        elif verb == "laid":
            code, values = rules.DONE, [int(i is not None)]
        elif verb == "list":
            code, values = self.list(i, *numbers)
        elif verb == "save":
            code, values = self.save(i, *numbers)
        elif i is None:
            code, values = rules.SMALL, [0] * ZEROS[verb]
        elif verb == "restore":
            code, values = saved.restore(i, bytes(self.saved[:numbers[0]])), []
            self.changed = self.changed or not code
        else:
            f = getattr(rules, {"mountat": "restore_mount"}.get(verb, verb))
            if verb == "lookup":
                code, values = f(i, numbers[0], self.text)
            elif verb in TEXTS:
                code, values = f(i, self.text, *numbers)
            else:
                code, values = f(i, *numbers)
            self.changed = self.changed or verb in WRITES
        words = [verb, code, *values, self.counter()]
        if self.watch:
            words.append(self.mark(verb, code, i, before))
        if self.views:
            words.append(layout.summed(self.tables()) if self.tables() else 0)
        self.say(" ".join(map(str, words)))
        self.calls += 1

    def mark(self, verb, code, i, before):
        if code == rules.DONE and verb in WRITES:
            return "."
        if i is None or before == (i.counter, len(i.nodes)):
            return "="
        return "c" if before[1] == len(i.nodes) else "*"

    def create(self, n, known, in_opts, out_opts, flags, internal, external, count):
        mapping = (internal, external, count)
        code = rules.refuses_creation(self.lent, n, known, in_opts, out_opts, flags, mapping)
        if not code:
            layout.write_new(self.to_bytes(), n, known, in_opts, out_opts, flags, mapping)
        return code, []

    def list(self, i, node, size, offset, room):
        out = bytearray([165]) * min(room, LISTED)
        code, values = rules.readdir(i, node, size, offset, out) if i else (rules.SMALL, [0])
        return code, values + [zlib.adler32(out)]

    def save(self, i, v, room):
        b = saved.save(i) if i else None
        fits = i is not None and len(b) <= room
        if fits:
            self.saved[:len(b)] = b
        self.variables[v % 8] = len(b) if fits else 0
        return rules.DONE if fits else rules.SMALL, [self.variables[v % 8], zlib.adler32(self.saved[:room + BEHIND])]
