#!/usr/bin/env python3
"""Spells the definitions, fields and lemmas of crates/*/specs and crates/*/proofs in snake case, as today's Rattle has them.

usage: python3 tools/snake_names.py [--list] [FOLDER]

Run once, right behind the kit's port.py, at the top of the repository (or of FOLDER). A name that begins with a small letter and has a
capital or a dash inside turns: `heldIn` to `held_in`, `ends-full` to `ends_full`. Types and modules, which begin with a capital, stay;
so do the names of goals in proofs/F/Proof.antt, which are the kit's. Texts that turn: .antt files, .rt files but for strings,
and the pages README.md and docs/*.md, these only between backquotes. --list writes nothing and lists the names that
would meet a name that is there already; these get `_lem` behind them.
"""
import collections
import os
import re
import sys

NAME = r'[^\s(){}.;,@"«»:]+'
TOKEN = re.compile(r'[^\s(){}.;,@"«»]+')
DECLARED = re.compile(rf'(?m)^ *(?:pub )?(?:abbrev |unfoldable )?(?:pub )?({NAME})(?: [({{][^\n]*?[)}}])* : *(\S*)')
# Where a definition and a lemma would fall together: the definition keeps the plain word.
CHOSEN = {
    'inOpts': 'in_opts', 'outOpts': 'out_opts', 'toBackend': 'to_backend', 'handedOut': 'indexes_handed_out',
    'laidBy': 'laid_by', 'laid_by': 'laid_by_lem', 'laidOut': 'laid_out', 'laid_out': 'laid_out_lem',
    'listedBack': 'listed_back', 'listed_back': 'listed_back_lem', 'noRoom': 'no_room', 'no_room': 'no_room_lem',
    'nodeIn': 'node_in', 'node_in': 'node_in_lem', 'tooLong': 'too_long', 'too_long': 'too_long_lem',
    'tooSmall': 'too_small', 'too_small': 'too_small_lem',
}
GOALS = re.compile(r'(?:tie|goal)\.')


def snake(name):
    words = re.sub(r'(?<=[a-z0-9])[A-Z]', lambda m: '_' + m.group(0).lower(), name)
    words = re.sub(r"(?<=[A-Z])-|-(?=[A-Z])", '-', words)
    return words.replace('-', '_')


def files(root, endings):
    for folder, dirs, names in os.walk(root):
        dirs[:] = sorted(d for d in dirs if d not in ('out', '.git', 'target'))
        for f in sorted(names):
            if f.endswith(endings):
                yield os.path.join(folder, f)


def read(path):
    with open(path, encoding='utf-8') as f:
        return f.read()


def is_walk(path):
    return os.path.basename(path) == 'Proof.antt'


def members(text):
    """The fields and constructors that a file declares."""
    found, depth = set(), None
    for line in text.split('\n'):
        here = len(line) - len(line.lstrip())
        if re.match(r'\s*(?:pub )?(?:record|data) ', line):
            depth = here
        elif depth is not None and line.strip() and here <= depth:
            depth = None
        elif depth is not None:
            m = DECLARED.match(line)
            if m:
                found.add(m.group(1))
    return found


def bare(text):
    """The words that stand behind no dot and before none, and are no item of a module path."""
    return {m.group(0) for m in TOKEN.finditer(text) if not (m.start() and text[m.start() - 1] == '.') and text[m.end():m.end() + 1] != '.'}


def table(root):
    """The names to turn, and what is in the way of each."""
    texts = {p: read(p) for p in files(os.path.join(root, 'crates'), ('.antt', '.rt'))}
    declared, goals, parts, labels = set(), set(), set(), set()
    for p, t in texts.items():
        if p.endswith('.rt'):
            labels |= set(re.findall(r'(?m)^ *(?:pub )?(?:const |static |type )?(\w+): ', t))
            continue
        parts |= members(t)
        for m in DECLARED.finditer(t):
            (goals if is_walk(p) and GOALS.match(m.group(2)) else declared).add(m.group(1))
    turn = {n for n in declared - goals if re.match(r'[a-z]', n) and re.search(r'[A-Z-]', n)}
    turn = {n for n in turn if not re.search(r'-\d+$', n)}
    words = {p: bare(t) for p, t in texts.items() if p.endswith('.antt')}
    everywhere = set().union(*words.values())
    new = collections.defaultdict(list)
    for n in sorted(turn, key=lambda n: ('-' in n, n)):
        new[snake(n)].append(n)
    rows, met = {}, []
    for s, olds in new.items():
        for k, n in enumerate(olds):
            near = [os.path.relpath(p, root) for p, ws in words.items() if s in ws and n in ws]
            lemma = '-' in n and n not in parts
            taken = k > 0 or bool(near) or (lemma and s in everywhere) or (n not in parts and s in labels)
            if taken or len(olds) > 1:
                met.append((n, s, len(olds), near[:4]))
            rows[n] = s + ('_lem' if taken else '')
    rows.update(CHOSEN)
    return rows, met


def lent(text, own):
    """The names that a file imports from a library of the kit."""
    found = set()
    for m in re.finditer(r'(?m)^(?:ghost )?use ([^\s;{]+?)\.\{([^}]*)\}', text):
        steps = m.group(1).split('.')
        if not (steps[0] == 'Rattle' and len(steps) > 1 and steps[1] in own):
            found |= {w.split(' as ')[0].strip() for w in m.group(2).split(',')}
    return found


def turned(text, rows, after_dot=True):
    out, last = [], 0
    for m in TOKEN.finditer(text):
        w = m.group(0)
        if w not in rows:
            continue
        if not after_dot and '-' in w and m.start() and text[m.start() - 1] == '.':
            continue
        out += [text[last:m.start()], rows[w]]
        last = m.end()
    return ''.join(out) + text[last:]


def outside_strings(text, rows):
    parts = re.split(r'("(?:[^"\\\n]|\\.)*")', text)
    return ''.join(p if k % 2 else re.sub(r'[\w\'-]+', lambda m: rows.get(m.group(0), m.group(0)), p) for k, p in enumerate(parts))


def in_backquotes(text, rows):
    one = lambda m: re.sub(r"[\w'-]+", lambda w: rows.get(w.group(0), w.group(0)), m.group(0))
    return re.sub(r'`[^`\n]+`', one, text)


def main(argv):
    listing = '--list' in argv
    rest = [a for a in argv if a != '--list']
    root = os.path.abspath(rest[0] if rest else '.')
    rows, met = table(root)
    if listing:
        for n, s, k, near in met:
            print(f'{n} -> {rows[n]} ({s}: {k} of that spelling; stands in {", ".join(near) or "no file"})')
        print(f'{len(rows)} names, {len(met)} in the way')
        return 0
    camel = {n: s for n, s in rows.items() if '_' not in n}
    own = set(os.listdir(os.path.join(root, 'crates')))
    for p in files(os.path.join(root, 'crates'), ('.antt', '.rt')):
        t = read(p)
        if p.endswith('.antt'):
            kept = lent(t, own)
            n = turned(t, {o: s for o, s in rows.items() if o not in kept}, not is_walk(p))
        else:
            n = outside_strings(t, camel)
        if n != t:
            with open(p, 'w', encoding='utf-8') as f:
                f.write(n)
    pages = [os.path.join(root, 'README.md')] + sorted(files(os.path.join(root, 'docs'), ('.md',)))
    for p in pages:
        t = read(p)
        n = in_backquotes(t, camel)
        if n != t:
            with open(p, 'w', encoding='utf-8') as f:
                f.write(n)
    return 0


if __name__ == '__main__':
    raise SystemExit(main(sys.argv[1:]))
