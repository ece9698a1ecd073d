#!/usr/bin/env python3
"""Draws docs/pictures/*.svg from docs/pictures/*.picture. Who rests on whom is read from crates.txt.

    python3 tools/draw.py            writes each picture anew
    python3 tools/draw.py --check    writes nothing; says which picture is not what its text and crates.txt give

A text has a line for each thing: a word, then its parts between `|`. `#` begins a line that is not drawn. Each picture is 900
wide, with letters that can be read at that width, and has a ground of its own, so that it can be read on a light page and on a dark one.
Exit status 0 if all is well. 1 if a picture is stale, a crate has no line or no place, a line no crate, words do not fit into
their box, or a crate rests on one that stands in a group above it, where no arrow can go."""
import glob
import math
import os
import sys

sys.dont_write_bytecode = True
from crates_list import ROOT, dependencies

FONT = "font-family='Helvetica, Arial, sans-serif'"
WIDTH, MARGIN = 900, 16
GROUND, INK, SOFT, LINE, THICK = "#fbfaf5", "#1d2733", "#46535f", "#5d6b79", "#8fa0b1"
GREEN, YELLOW, SALMON = "#cfeccf", "#ffdf94", "#f6c6b4"
FILLS = {"blank": "#ffffff", "outside": SALMON, "read": YELLOW, "call": GREEN, "inner": "#d8e6f5", "program": "#e8d9f4"}
EDGES = {"outside": "#d9623b", "read": "#e0a100"}
RED, BLUE, BROWN = "#b3261e", "#1f5fa8", "#6b5900"


# ---- pieces of a picture


def escaped(s):
    return s.replace("&", "&amp;").replace("<", "&lt;").replace(">", "&gt;")


def text(x, y, words, size=13, anchor="middle", fill=INK, weight="normal"):
    return (f"<text x='{x:.1f}' y='{y:.1f}' font-size='{size}' text-anchor='{anchor}' fill='{fill}' font-weight='{weight}' "
            f"{FONT}>{escaped(words)}</text>")


def room_for(words, size, bold=False):
    """How wide the words are, about, in a wide font."""
    ems = sum(0.3 if c in "ijl.,:;'| " else 0.41 if c in "frt()-" else 0.9 if c in "mwMW" else 0.7 if c.isupper() else 0.61 for c in words)
    return size * ems * (1.14 if bold else 1)


def box(x, y, w, h, fill, stroke=SOFT, round_=6):
    return (f"<rect x='{x:.1f}' y='{y:.1f}' width='{w:.1f}' height='{h:.1f}' rx='{round_}' fill='{fill}' stroke='{stroke}' "
            f"stroke-width='1'/>")


def path(d, stroke=LINE, width=1.4, fill="none", dash=""):
    broken = f" stroke-dasharray='{dash}'" if dash else ""
    return f"<path d='{d}' fill='{fill}' stroke='{stroke}' stroke-width='{width}'{broken}/>"


def head(x, y, u, v, size=7, fill=LINE):
    """The head of an arrow that ends at a point and comes along (u, v)."""
    a, b = x - size * u, y - size * v
    half = size * 0.6
    return path(f"M {x:.1f} {y:.1f} L {a - half * v:.1f} {b + half * u:.1f} L {a + half * v:.1f} {b - half * u:.1f} Z", fill, 0.5, fill)


def picture(height, title, parts):
    opening = f"<svg xmlns='http://www.w3.org/2000/svg' width='{WIDTH}' height='{height:.0f}' viewBox='0 0 {WIDTH} {height:.0f}' role='img'>"
    ground = f"<rect width='{WIDTH}' height='{height:.0f}' rx='10' fill='{GROUND}'/>"
    parts = [text(WIDTH / 2, 34, title, 20, weight="bold")] + parts
    return "\n".join([opening, f"<title>{escaped(title)}</title>", ground] + parts + ["</svg>", ""])


# ---- what is read


def lines_of(name):
    """The lines of a text: for each word the list of its parts, in their order."""
    out = {}
    with open(name, encoding="utf-8") as f:
        for line in f:
            word, _, rest = line.strip().partition(" ")
            if word and not word.startswith("#"):
                out.setdefault(word, []).append([p.strip() for p in rest.split("|")])
    return out


def own_dependencies():
    """The crates of the repository, each with those of the repository that it rests on."""
    out = dependencies()
    return {name: [d for d in deps if d in out] for name, deps in out.items()}


def reach(deps, name):
    """All that a crate rests on, at one remove or more."""
    out = set()
    for d in deps[name]:
        out |= {d} | reach(deps, d)
    return out


def needed(deps):
    """Who rests on whom, without what follows from the others."""
    far = {n: set().union(*(reach(deps, d) for d in deps[n])) if deps[n] else set() for n in deps}
    return [(n, d) for n in deps for d in deps[n] if d not in far[n]]


# ---- crates in groups


BOX_H, GAP, PAD, HEADING, BETWEEN, LANE = 44, 24, 12, 28, 24, 22
NAME, WORDS = 14.5, 12.5


class Place:
    """A crate's box: its row and its place in the row, its left upper corner and its width."""

    def __init__(self, row, column, x, y, w):
        self.row, self.column, self.x, self.y, self.w = row, column, x, y, w

    def clamp(self, x):
        return min(max(x, self.x + 16), self.x + self.w - 16)


class Groups:
    """The groups of the text, from above, with what crates.txt says of their crates."""

    def __init__(self, told):
        self.deps, self.told = own_dependencies(), told
        self.said = {p[0]: (p[1].split(), p[2]) for p in told["crate"]}
        self.rows = [[row.split() for row in p[2:]] for p in told["group"]]
        self.of = {n: i for i, rows in enumerate(self.rows) for row in rows for n in row}
        below = {i: [] for i in range(len(self.rows))}
        for n, ds in self.deps.items():
            for d in ds:
                a, b = self.of.get(n), self.of.get(d)
                if a is not None and b is not None and a < b and b not in below[a]:
                    below[a].append(b)
        self.thick = needed(below)

    def thin(self, i):
        """The arrows within a group."""
        inside = {n: [d for d in self.deps[n] if self.of.get(d) == i] for n in self.deps if self.of.get(n) == i}
        return needed(inside)

    def faults(self):
        placed = [n for rows in self.rows for row in rows for n in row]
        out = [f"no line for the crate {n}" for n in self.deps if n not in self.said]
        out += [f"the crate {n} stands in no group" for n in self.deps if n not in placed]
        out += [f"{n} is named here and is no crate" for n in dict.fromkeys([*self.said, *placed]) if n not in self.deps]
        out += [f"the crate {n} stands in two places" for n in dict.fromkeys(placed) if placed.count(n) > 1]
        out += [f"{n} rests on {d}, whose group stands above its own" for n in self.deps for d in self.deps[n]
                if n in self.of and d in self.of and self.of[n] > self.of[d]]
        return out


def brick_width(groups, row, room):
    most = (room - GAP * (len(row) - 1)) / len(row)
    said = [(n, groups.said.get(n, ([], ""))[1]) for n in row]
    want = max(max(room_for(n, NAME, True), room_for(w, WORDS)) for n, w in said) + 26
    return min(most, max(want, 176)), want <= most


def place_rows(groups, i, left, top, room):
    """The boxes of a group, where its last line ends, and the crates whose words do not fit."""
    rows, out, tight = groups.rows[i], {}, []
    thin = groups.thin(i)
    y = top + HEADING
    for k, row in enumerate(rows):
        w, fits = brick_width(groups, row, room)
        tight += [] if fits else row
        gap = min((room - w * len(row)) / max(1, len(row) - 1), 56)
        x = left + (room - w * len(row) - gap * (len(row) - 1)) / 2
        for j, n in enumerate(row):
            out[n] = Place(k, j, x + j * (w + gap), y, w)
        arcs = [abs(row.index(a) - row.index(b)) for a, b in thin if a in row and b in row]
        y += BOX_H + (8 + 4 * max(arcs) if max(arcs, default=0) > 1 else 0) + (26 if k < len(rows) - 1 else 0)
    return out, y + PAD, tight


def crossing_gap(places, row, x):
    """The place between the boxes of a row that is nearest to x, and the row's upper end."""
    boxes = sorted((p for p in places.values() if p.row == row), key=lambda p: p.x)
    free = [boxes[0].x - 9] + [(p.x + p.w + q.x) / 2 for p, q in zip(boxes, boxes[1:])] + [boxes[-1].x + boxes[-1].w + 9]
    return min(free, key=lambda f: abs(f - x)), boxes[0].y


def thin_arrow(places, a, b):
    """An arrow from a box to one that it rests on: straight to a neighbour, below its row to another, else between the rows."""
    p, q = places[a], places[b]
    if p.row == q.row:
        right = 1 if q.x > p.x else -1
        if abs(p.column - q.column) == 1:
            x, u, y = (p.x + p.w, q.x, p.y + BOX_H / 2) if right == 1 else (p.x, q.x + q.w, p.y + BOX_H / 2)
            return [path(f"M {x:.1f} {y:.1f} L {u - 3 * right:.1f} {y:.1f}"), head(u, y, right, 0)]
        x, u, y = p.x + p.w / 2 + 12 * right, q.x + q.w / 2 - 12 * right, p.y + BOX_H
        dip = y + 14 + 5 * abs(p.column - q.column)
        return [path(f"M {x:.1f} {y:.1f} C {x:.1f} {dip:.1f} {u:.1f} {dip:.1f} {u:.1f} {y + 4:.1f}"), head(u, y, 0, -1)]
    down = 1 if q.row > p.row else -1
    low, high = max(p.x, q.x), min(p.x + p.w, q.x + q.w)
    near = abs(p.row - q.row) == 1 and high - low > 32
    x = (low + high) / 2 if near else p.clamp(p.x + p.w / 2 + 0.2 * (q.x + q.w / 2 - p.x - p.w / 2))
    points = [(x, p.y + (BOX_H if down == 1 else 0))]
    for row in range(p.row + down, q.row, down):
        x, y = crossing_gap(places, row, x)
        points += [(x, y), (x, y + BOX_H)][::down]
    end = (q.clamp(x), q.y + (0 if down == 1 else BOX_H))
    return [curve(points + [(end[0], end[1] - 4 * down)]), head(*end, 0, down)]


def curve(points):
    d = f"M {points[0][0]:.1f} {points[0][1]:.1f}"
    for (x, y), (u, v) in zip(points, points[1:]):
        m = (y + v) / 2
        d += f" C {x:.1f} {m:.1f} {u:.1f} {m:.1f} {u:.1f} {v:.1f}"
    return path(d)


def edged(x, y, w, h, colours):
    """A box in its colour, and on its left the edge in another, if it has one."""
    edge = [f"<rect x='{x + 1:.1f}' y='{y + 1:.1f}' width='9' height='{h - 2:.1f}' rx='4' fill='{EDGES[c]}'/>" for c in colours[1:]]
    return [box(x, y, w, h, FILLS[colours[0]])] + edge


def crate_box(groups, name, p):
    colours, words = groups.said.get(name, (["call"], ""))
    x = p.x + p.w / 2 + (4 if len(colours) > 1 else 0)
    return edged(p.x, p.y, p.w, BOX_H, colours) + [text(x, p.y + 18, name, NAME, weight="bold"), text(x, p.y + 36, words, WORDS)]


def legend(told):
    """What the colours mean, in two columns; and where it ends."""
    parts, top = [], 54
    entries = [([kind], means) for kind, means in told["kind"]] + [(["blank", kind], means) for kind, means in told["edge"]]
    half = (len(entries) + 1) // 2
    for i, (colours, means) in enumerate(entries):
        x, y = MARGIN + (i // half) * 430, top + 26 * (i % half)
        parts += edged(x, y, 30, 18, colours) + [text(x + 40, y + 14, means, 13, "start")]
    return parts, top + 26 * half + 12


def draw_host(told, left, right, span, called):
    """The host beside the group of the crate that it calls, and its arrow into it."""
    _, name, *words = told["host"][0]
    x, y = called.x + called.w, called.y + BOX_H / 2
    parts = [box(left, span[0], right - left, span[1] - span[0], SALMON), text((left + right) / 2, span[0] + 20, name, NAME, weight="bold")]
    parts += [text((left + right) / 2, span[0] + 39 + 17 * i, w, WORDS) for i, w in enumerate(words)]
    return parts + [path(f"M {left:.1f} {y:.1f} L {x + 3:.1f} {y:.1f}", LINE, 2), head(x, y, -1, 0, 8)]


def thick_arrows(groups, spans, left, lanes):
    """Arrows between groups: in the space between two neighbours, and on the left past others."""
    parts, lane = [], 0
    for a, b in groups.thick + [(len(spans) - 2, len(spans) - 1)]:
        bottom, low = spans[a][1], spans[b][0]
        if b == a + 1:
            parts += [path(f"M {left + 56} {bottom:.1f} L {left + 56} {low - 8:.1f}", THICK, 6), head(left + 56, low - 1, 0, 1, 13, THICK)]
            continue
        x, y, v = left - LANE * (lanes - lane) + 8, bottom - 20 - 14 * lane, low + 18 + 14 * lane
        parts += [path(f"M {left} {y:.1f} L {x} {y:.1f} L {x} {v:.1f} L {left - 8} {v:.1f}", THICK, 6), head(left - 1, v, 1, 0, 13, THICK)]
        lane += 1
    return parts


def draw_group(groups, i, left, right, top):
    """A group's frame, heading, arrows and boxes; where it ends; where its boxes stand; and the crates whose words do not fit."""
    name, words = groups.told["group"][i][:2]
    places, bottom, tight = place_rows(groups, i, left + PAD, top, right - left - 2 * PAD)
    parts = [box(left, top, right - left, bottom - top, "#ffffff", LINE, 9), text(left + PAD, top + 19, name, NAME, "start", BLUE, "bold")]
    parts.append(text(left + PAD + 14 + room_for(name, NAME, True), top + 19, words, WORDS, "start", SOFT))
    for a, b in groups.thin(i):
        parts += thin_arrow(places, a, b)
    for n, p in places.items():
        parts += crate_box(groups, n, p)
    return parts, bottom, places, tight


def draw_bands(told):
    groups = Groups(told)
    faults = groups.faults()
    lanes = sum(b > a + 1 for a, b in groups.thick)
    left, right, spans = MARGIN + LANE * lanes, WIDTH - MARGIN, []
    parts, y = legend(told)
    for i in range(len(groups.rows)):
        called = groups.of.get(told["host"][0][0]) == i
        end = right - 250 if called else right
        drawn, bottom, places, tight = draw_group(groups, i, left, end, y)
        parts += drawn
        faults += [f"the words of {n} do not fit into its box" for n in tight]
        if called:
            parts += draw_host(told, end + 34, right, (y, bottom), places[told["host"][0][0]])
        spans.append((y, bottom))
        y = bottom + BETWEEN
    spans.append((y, y + BOX_H))
    name, words = told["kit"][0]
    parts += [box(left, y, right - left, BOX_H, SALMON, LINE, 9), text(left + PAD, y + 27, name, NAME, "start", weight="bold")]
    parts.append(text(left + PAD + 14 + room_for(name, NAME, True), y + 27, words, WORDS, "start"))
    parts += thick_arrows(groups, spans, left, lanes)
    for i, (words,) in enumerate(told["note"]):
        parts.append(text(left, y + BOX_H + 24 + 19 * i, words, WORDS, "start", SOFT))
    return picture(y + BOX_H + 24 + 19 * len(told["note"]) + 4, told["title"][0][0], parts), faults


# ---- the ring


class Ring:
    """Places on a circle, 0 at the top, going round as a clock does."""

    def __init__(self, n, cx, cy, r):
        self.n, self.cx, self.cy, self.r = n, cx, cy, r

    def at(self, k, out):
        a = 2 * math.pi * k / self.n - math.pi / 2
        return self.cx + (self.r + out) * math.cos(a), self.cy + (self.r + out) * math.sin(a)

    def line(self, k, from_, to, stroke, width, shift=0):
        (x, y), (u, v) = self.at(k, from_), self.at(k, to)
        return path(f"M {x:.1f} {y:.1f} L {u + shift:.1f} {v:.1f}", stroke, width)

    def label(self, k, far, shift, words, fill):
        """A line out of a place, and words at its end: what it is, and below that what is said of it."""
        x, y = self.at(k, far)
        side = "end" if shift < 0 else "start"
        parts = [self.line(k, 14, far, fill, 1.2, shift)]
        for i, part in enumerate(words.split(" / ")):
            parts.append(text(x + shift + (-6 if shift < 0 else 6), y + 4 + 17 * i, part, 13.5, side, fill, "bold" if i == 0 else "normal"))
        return parts

    def way(self, first, last, out, dash=""):
        """An arrow along the circle."""
        (x, y), (u, v), tip = self.at(first, out), self.at(last - 4, out), self.at(last, out)
        r, far = self.r + out, 1 if last - first > self.n / 2 else 0
        a = 2 * math.pi * (last - 2) / self.n
        return [path(f"M {x:.1f} {y:.1f} A {r} {r} 0 {far} 1 {u:.1f} {v:.1f}", BLUE, 2.2, dash=dash),
                head(*tip, math.cos(a), math.sin(a), 12, BLUE)]


def draw_ring(told):
    ring = Ring(int(told["places"][0][0]), 222, 262, 128)
    used = [int(k) for k in told["used"][0][0].split()]
    kept, skipped, counter = (int(told[w][0][0]) for w in ("kept", "skipped", "counter"))
    parts = []
    for k in range(ring.n):
        parts.append(ring.line(k, -6, 6, BROWN if k in used else THICK, 3 if k in used else 1.1))
    for k, stroke, width in ((skipped, SOFT, 2.4), (kept, RED, 4), (counter, BLUE, 4)):
        parts.append(ring.line(k, -10, 14, stroke, width))
    parts += ring.label(skipped, 46, -26, told["skipped"][0][1], SOFT)
    parts += ring.label(kept, 46, 24, told["kept"][0][1], RED)
    parts += ring.label(used[len(used) // 2], 24, 1, told["used"][0][1], BROWN)
    parts += ring.label(counter, 30, 1, told["counter"][0][1], BLUE)
    parts += ring.way(kept + 4, counter, -26) + ring.way(counter + 3, ring.n + kept, -26, "5 5")
    for i, (words,) in enumerate(told["inside"]):
        parts.append(text(ring.cx, ring.cy - 14 + 20 * i, words, 14, fill=BLUE))
    cards, y = draw_cards(told, 486, 66)
    lives, y = draw_lives(told, y + 44)
    notes = [(words, "bold") for (words,) in told["above-all"]] + [(words, "normal") for (words,) in told["below"]]
    for i, (words, weight) in enumerate(notes):
        parts.append(text(MARGIN + 8, y + 26 + 20 * i, words, 13, "start", weight=weight))
    return picture(y + 26 + 20 * len(notes) + 2, told["title"][0][0], parts + cards + lives), []


def draw_cards(told, x, y):
    """The kept number in its two parts, and what it leads to at each sum; and where they end."""
    index, rest, one, other, words = told["number"][0]
    parts = [text(x, y + 12, words, 14, "start", weight="bold")]
    for at, w, n, what, fill in ((x, 120, index, one, RED), (x + 120, 180, rest, other, INK)):
        parts += [box(at, y + 24, w, 28, "#ffffff", round_=0), text(at + w / 2, y + 43, n, 15, fill=fill, weight="bold")]
        parts.append(text(at + w / 2, y + 68, what, 12.5, fill=fill))
    y += 96
    for i, words in enumerate(told["sum"][0]):
        parts.append(text(x, y + 17 * i, words, 13, "start"))
    y += 17 * len(told["sum"][0]) + 2
    for fill, (when, *words) in zip((GREEN, YELLOW, SALMON), told["stage"]):
        parts += [box(x, y, WIDTH - MARGIN - x, 68, fill), text(x + 12, y + 20, f"sum {when}", 14, "start", weight="bold")]
        parts += [text(x + 12, y + 40 + 18 * k, w, 13, "start", RED if fill == SALMON and k else INK) for k, w in enumerate(words)]
        y += 76
    return parts, y


def draw_lives(told, y):
    """Lives of a mount along the sum: what its number leads to, part after part; and where they end."""
    heading, unit, *marks = told["scale"][0]
    left, right, last = 226, WIDTH - MARGIN - 24, int(marks[-1])
    at = [left + (right - left) * int(m) / last for m in marks]
    parts = [text(MARGIN + 8, y, heading, 14, "start", weight="bold")]
    y += 24
    parts += [text(left - 12, y, unit, 13, "end")] + [text(x, y, m, 13, weight="bold") for x, m in zip(at, marks)]
    top, bottom = y + 8, y + 12 + 38 * len(told["life"])
    parts += [path(f"M {x:.1f} {top:.1f} L {x:.1f} {bottom:.1f}", INK, 1.2, dash="3 3") for x in at]
    for i, (name, *stages) in enumerate(told["life"]):
        y, begin = top + 4 + 38 * i, left
        parts.append(text(left - 12, y + 19, name, 13, "end", weight="bold"))
        for stage, fill in zip(stages, (GREEN, YELLOW, SALMON)):
            words, _, till = stage.rpartition(" ") if stage[-1].isdigit() and fill != SALMON else (stage, "", str(last))
            end = left + (right - left) * int(till) / last
            parts.append(box(begin, y, end - begin, 28, fill, round_=0))
            if room_for(words, 13) < end - begin:
                parts.append(text((begin + end) / 2, y + 19, words, 13, fill=RED if fill == SALMON else INK))
            begin = end
    return parts, bottom


DRAWN = {"bands": draw_bands, "ring": draw_ring}


def main():
    check = sys.argv[1:] == ["--check"]
    if sys.argv[1:] and not check:
        print(__doc__)
        return 2
    bad = 0
    for name in sorted(glob.glob(os.path.join(ROOT, "docs", "pictures", "*.picture"))):
        told = lines_of(name)
        svg, faults = DRAWN[told["picture"][0][0]](told)
        out = os.path.splitext(name)[0] + ".svg"
        old = open(out, encoding="utf-8").read() if os.path.exists(out) else ""
        if check and old != svg:
            faults.append("the picture is stale: run python3 tools/draw.py")
        if not check and old != svg:
            with open(out, "w", encoding="utf-8") as f:
                f.write(svg)
        for fault in faults:
            print(f"{os.path.relpath(name, ROOT)}: {fault}")
        bad += len(faults)
    print("pictures: " + ("all as their texts" if not bad else f"{bad} faults"))
    return 1 if bad else 0


if __name__ == "__main__":
    sys.exit(main())
