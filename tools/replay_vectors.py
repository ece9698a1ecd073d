#!/usr/bin/env python3
"""Writes what crates/replay_test reads, from the Rust's recorded answers, which are what it must write.

    python3 tools/replay_vectors.py

crates/replay_test/stdout is the recorded list: the program must write each call with the answer that the Rust gave.
crates/replay_test/stdin has its calls, one to a line, without their answers. Nothing here asks the port or the model. Each line is
held to its form (oracle/README.md) first, so that the program need not judge one.
"""
import os
import re

# The fields of a call and of its answer by its letter: the bits of a number, or x for a byte string.
FORMS = {
    "n": ("64 64 64 64 8 32 32 32", "32"),
    "p": ("", "32"),
    "m": ("x 32 64 64 32 32 32", "32 32 32 1 32"),
    "r": ("8 x 32 64 64 32 32 32", "32 1 32 1 32"),
    "u": ("x", "32 64 64 1 32"),
    "q": ("x", "32 1 32 8"),
    "w": ("x", "32 1 64"),
    "t": ("64", "32 1 32 8 64"),
    "l": ("64 x", "32 64 32 32 32 32"),
    "d": ("64 32 64 64", "32 64 x"),
    "c": ("8 64", "32 64"),
    "o": ("32 32", "32 32 32"),
    "b": ("32 32", "32 32 32"),
    "k": ("x", "32"),
    "s": ("", "32 64 x"),
    "a": ("x", "32"),
    "i": ("", "32 1 64 64 8 32 32 32"),
}

# What the program has room for: all calls, nodes of an instance, a call's byte string, bytes written.
CALLS, NODES, BYTES, WRITTEN = 851968, 1024, 8192, 65536


def fits(field, form):
    if form == "x":
        return re.fullmatch("x([0-9a-f]{2})*", field) and len(field) <= 1 + 2 * BYTES
    return re.fullmatch("0|[1-9][0-9]*", field) and int(field) < 2 ** int(form)


def has_form(fields, form):
    forms = form.split()
    return len(fields) == len(forms) and all(map(fits, fields, forms))


def has_room(call):
    if call[0] == "n":
        return int(call[1]) <= NODES
    if call[0] == "d":
        return int(call[4]) <= WRITTEN
    return True


def call_of(line):
    """The call of a line, or None where the line is not of the list's form."""
    words = line.split(" ")
    if words[0] not in FORMS or words.count("=") != 1:
        return None
    at = words.index("=")
    call, answer = words[:at], words[at + 1:]
    given, told = FORMS[words[0]]
    if not has_form(call[1:], given) or not has_form(answer, told):
        return None
    if "x" in told and 2 * int(answer[1]) + 1 != len(answer[2]):
        return None
    return " ".join(call) if has_room(call) else None


def main():
    root = os.path.join(os.path.dirname(os.path.abspath(__file__)), "..")
    with open(os.path.join(root, "crates", "replay", "stdout"), encoding="ascii", newline="") as f:
        listed = f.read()
    assert listed[:2] == "n " and listed[-1:] == "\n", "the list begins with a creation and ends with a line end"
    calls = []
    for k, line in enumerate(listed[:-1].split("\n"), 1):
        call = call_of(line)
        assert call is not None, f"line {k} of the list has another form, or needs more room than the program has"
        calls.append(call + "\n")
    stdin = "".join(calls)
    assert len(stdin) < CALLS, "the program reads no more"
    with open(os.path.join(root, "crates", "replay", "stdin"), "w", encoding="ascii", newline="\n") as f:
        f.write(stdin)
    print(len(calls), "calls")


main()
