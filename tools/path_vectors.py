#!/usr/bin/env python3
"""Writes the vectors of crates/path_test and the answers that it must give.

    python3 tools/path_vectors.py

crates/path_test/stdin has one byte string to a line, in hex digits. crates/path_test/stdout has the line that the
program must write for each. The answers come from here and from Python's own strict UTF-8 decoder, never from the
port: UTF-8 by `bytes.decode`, components by what the documentation of Rust's `std::path` says of `Path::components`.
"""
import os
import re

# Table 3-7 of the Unicode standard: the ranges of the first to fourth byte. Only vectors are made of it.
TABLE = [
    [(0x00, 0x7F)],
    [(0xC2, 0xDF), (0x80, 0xBF)],
    [(0xE0, 0xE0), (0xA0, 0xBF), (0x80, 0xBF)],
    [(0xE1, 0xEC), (0x80, 0xBF), (0x80, 0xBF)],
    [(0xED, 0xED), (0x80, 0x9F), (0x80, 0xBF)],
    [(0xEE, 0xEF), (0x80, 0xBF), (0x80, 0xBF)],
    [(0xF0, 0xF0), (0x90, 0xBF), (0x80, 0xBF), (0x80, 0xBF)],
    [(0xF1, 0xF3), (0x80, 0xBF), (0x80, 0xBF), (0x80, 0xBF)],
    [(0xF4, 0xF4), (0x80, 0x8F), (0x80, 0xBF), (0x80, 0xBF)],
]

# The Unicode standard, section 3.9: sequences of the text and of tables 3-8 to 3-11, most of them ill-formed.
UNICODE = [
    "4D D0 B0 E4 BA 8C F0 90 8C 82",
    "41 C3 B1 42",
    "C2 41 42",
    "C0 AF",
    "E0 9F 80",
    "ED A0 80",
    "F4 90 80 80",
    "F0 80 80 41",
    "C0 AF E0 80 BF F0 81 82 41",
    "ED A0 80 ED BF BF ED AF 41",
    "F4 91 92 93 FF 41 80 BF 42",
    "E1 80 E2 F0 91 92 F1 BF 41",
    "61 F1 80 80 E1 80 C2 62 80 63 80 BF 64",
]

# Paths of the documentation of `std::path`, and the rooted form of those that are relative.
RUST = [
    "/tmp/foo.txt", "/tmp/foo/bar.txt", "/tmp/foo/bar", "/foo/bar", "foo/bar", "/", "/etc/passwd", "/etc/resolv.conf",
    "/usr/bin/", "tmp/foo.txt", "foo.txt/.", "foo.txt/.//", "foo.txt/..", "/foo.txt/.", "/foo.txt/.//", "/foo.txt/..",
    "a/b", "a//b", "a/./b", "a/b/", "a/b/.", "a/c", "a/b/../c",
    "/a/b", "/a//b", "/a/./b", "/a/b/", "/a/b/.", "/a/c", "/a/b/../c", "/./a/b",
    "../foo/bar", "/../foo/bar", "/test/haha/foo.txt", "C:\\windows", "/C:\\windows\\..",
]

# Names and paths around the rules: dots, slashes, byte 0.
EDGES = [
    b"", b".", b"..", b"...", b".a", b"a.", b"..a", b"a..", b".. ", b"//", b"///", b"/.", b"/..", b"/...", b"/./.", b"/../..",
    b"/.//..//.", b"/..a/a../...", b"/.a/a.", b"a/", b"a/b", b"/a", b"\0", b"a\0b", b"/a\0b/c", b"/\0/..", b"/a/../b/./c//",
    b"/c/../a//./b..", b"/\xc3\xb1/..", b"/\xff/a", b"/a/\xe2\x82", "/\u20ac/\U0001f600".encode(),
]

# Around the limits of 255 bytes between slashes and 4,096 in all.
LIMITS = [
    b"a" * 255, b"a" * 256, b"/" + b"a" * 255, b"/" + b"a" * 256, b"/b/" + b"a" * 255 + b"/c", b"/b/" + b"a" * 256 + b"/c",
    b"." * 256, b"/" * 300, (b"/" + b"a" * 15) * 256, (b"/" + b"a" * 15) * 256 + b"/",
]


def at_the_limits():
    """Each row of the table at its limits and one beside them, whole and cut short."""
    for row in TABLE:
        low = [r[0] for r in row]
        high = [r[1] for r in row]
        yield bytes(low)
        yield bytes(high)
        yield bytes(high) + b"a"
        yield b"a" + bytes(low[:-1])
        for k, (least, most) in enumerate(row):
            for beside in (least - 1, most + 1):
                if 0 <= beside <= 255:
                    yield b"ab" + bytes(low[:k] + [beside] + low[k + 1:]) + b"c"


def vectors():
    yield from at_the_limits()
    for text in UNICODE:
        yield bytes.fromhex(text)
    for text in RUST:
        yield text.encode()
    yield from EDGES
    yield from LIMITS


def utf8_end(s):
    try:
        s.decode("utf-8", "strict")
        return len(s)
    except UnicodeDecodeError as e:
        return e.start


def components(s):
    """Repeated separators and a trailing one are ignored, `.` is normalized away, `..` is the parent directory."""
    for m in re.finditer(rb"[^/]+", s):
        if m.group() == b"..":
            yield f"{m.start()}^"
        elif m.group() != b".":
            yield f"{m.start()}+{len(m.group())}"


def answer(s):
    end = utf8_end(s)
    too_long = len(s) > 4096 or max(map(len, s.split(b"/"))) > 255
    bad = s in (b".", b"..") or b"/" in s or b"\0" in s
    fields = [end, int(end == len(s)), int(s[:1] == b"/"), int(too_long), 2 if bad else 0]
    return " ".join([str(f) for f in fields] + list(components(s)))


def main():
    all_vectors = list(dict.fromkeys(vectors()))
    stdin = "".join(s.hex() + "\n" for s in all_vectors)
    assert len(stdin) < 65536 and max(map(len, all_vectors)) <= 8192, "the program reads no more"
    where = os.path.join(os.path.dirname(os.path.abspath(__file__)), "..", "crates", "path_test")
    for name, text in ("stdin", stdin), ("stdout", "".join(answer(s) + "\n" for s in all_vectors)):
        with open(os.path.join(where, name), "w", encoding="ascii", newline="\n") as f:
            f.write(text)
    print(len(all_vectors), "vectors")


main()
