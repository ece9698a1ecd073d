"""Saved state: the bytes of an instance, which bytes are refused and why, and a restore, by R119 to R136 of docs/RULES.md."""
import struct

from model import rules

TRAILER = 24
TAIL = 32 + TRAILER      # the options and the trailer


def encode(nodes, options, following, counter):
    """`nodes` are (number, parent, name); `options` are in_opts, out_opts, internal, external, range, flags."""
    records = b"".join(struct.pack("<QQH", number, parent, len(name)) + name for number, parent, name in nodes)
    return (records + struct.pack("<QQIIIB3x", *options)
            + struct.pack("<IIQBB6x", len(records), len(nodes), following, counter, 1))


def save(i):
    nodes = [(n.number, n.parent, n.name) for n in i.nodes]
    return encode(nodes, (i.in_opts, i.out_opts, *i.own, i.flags), i.next, i.counter)


def records(b):
    """The records that stand one behind the other in bytes, and how many bytes are left over behind the last whole one."""
    out, at = [], 0
    while at + 18 <= len(b):
        number, parent, size = struct.unpack_from("<QQH", b, at)
        if at + 18 + size > len(b):
            break
        out.append((number, parent, b[at + 18:at + 18 + size]))
        at += 18 + size
    return out, len(b) - at


def is_bad_name(name):
    return not 1 <= len(name) <= 255 or b"/" in name or name in (b".", b"..") or not rules.is_utf8(name)


def faults(b):
    """The letters of R129 that hold of the bytes; of (g) to (k) only where the records fill their place."""
    if len(b) < TAIL:
        return "a"
    options, trailer = b[-TAIL:-TRAILER], b[-TRAILER:]
    offset, count, following = struct.unpack_from("<IIQ", trailer)
    nodes, left = records(b[:-TAIL])
    found = {
        "b": offset != len(b) - TAIL,
        "c": left != 0 or count != len(nodes),
        "d": trailer[17] != 1,
        "e": any(options[29:]) or any(trailer[18:]),
        "f": options[28] >= 64,
        "h": not 2 <= following <= rules.TOP,
    }
    if left == 0:
        numbers = [number for number, _, _ in nodes]
        found["g"] = numbers != sorted(set(numbers)) or (nodes and numbers[0] < 2)
        found["h"] = found["h"] or any(number >= following for number in numbers)
        first = {number: at for at, number in reversed(list(enumerate(numbers)))}
        found["i"] = any(parent != 1 and first.get(parent, at) >= at for at, (_, parent, _) in enumerate(nodes))
        found["j"] = any(is_bad_name(name) for _, _, name in nodes)
        found["k"] = len({(parent, name) for _, parent, name in nodes}) < len(nodes)
    return "".join(letter for letter in sorted(found) if found[letter])


def refuses(i, b):
    """The first refusal of a restore, or done."""
    if i.nodes or i.root_mount:
        return rules.NOTFRESH
    if faults(b):
        return rules.BADSAVE
    in_opts, out_opts = struct.unpack_from("<QQ", b, len(b) - TAIL)
    if in_opts & ~i.known or out_opts & ~i.known:
        return rules.BADOPT
    count = struct.unpack_from("<4xI", b, len(b) - TRAILER)[0]
    return rules.NOROOM if count + 1 > i.capacity else rules.DONE


def restore(i, b):
    code = refuses(i, b)
    if code:
        return code
    i.nodes = [rules.Node(*node) for node in records(b[:-TAIL])[0]]
    i.forget()
    i.in_opts, i.out_opts, *own, i.flags = struct.unpack_from("<QQIIIB", b, len(b) - TAIL)
    i.own = tuple(own)
    i.next, i.counter = struct.unpack_from("<8xQB", b, len(b) - TRAILER)
    i.initialized = i.in_opts != 0
    return rules.DONE
