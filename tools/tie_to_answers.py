#!/usr/bin/env python3
"""Turns proofs/F/Proof.antt of the older form (`tie.spec`) to Invariants.antt and Answers.antt.

usage: python3 tools/tie_to_answers.py CRATE NAMES.json [FUNCTION ..]

NAMES.json is what `rt check --generated DIR --old-names` writes in the crate. A goal that the old proof left to the search has no answer
any more. What the script cannot follow it marks by a word `«?NAME»`, which no check accepts. The old file goes.
"""
import json
import os
import re
import sys

NAME = r'[^\s(){}.;,@"«»:]+'


def norm(name):
    return re.sub(r'[-_]', '', name)


def clause_names(root):
    """The names of the clauses of each function that has two or more of a kind: {'c::m::f': {'ensures': [..], 'requires': [..]}}."""
    out = {}
    for folder, _, fs in os.walk(os.path.join(root, 'crates')):
        if os.path.basename(folder) != 'src':
            continue
        crate = os.path.basename(os.path.dirname(folder))
        for f in fs:
            if not f.endswith('.rt'):
                continue
            mod = '' if f in ('lib.rt', 'main.rt') else f[:-3] + '::'
            text = open(os.path.join(folder, f), encoding='utf-8').read()
            for m in re.finditer(r'\bfn (\w+)', text):
                end = text.find('\n{', m.start())
                head = text[m.start():end if end > 0 else m.start()]
                nxt = re.search(r'\bfn ', head[3:])
                if nxt:
                    head = head[:nxt.start() + 3]
                out[f'{crate}::{mod}{m.group(1)}'] = {k: re.findall(rf'(?m)^\s*{k} (\w+) ', head) for k in ('ensures', 'requires')}
    return out


CLAUSES = {}


def pieces(text):
    """The parts of a tuple, or None."""
    t = text.strip()
    if not (t.startswith('(') and t.endswith(')')):
        return None
    depth, parts, word = 0, [], ''
    for ch in t[1:-1]:
        depth += ch in '([{'
        depth -= ch in ')]}'
        if depth < 0:
            return None
        if ch == ',' and depth == 0:
            parts.append(word)
            word = ''
        else:
            word += ch
    return parts + [word] if parts else None


def named(text, names):
    """A tuple, or pairs in pairs, as a record of the clauses' names; behind `let`s too."""
    m = re.match(r'(\s*let .* in\s+)(\(.*\)\s*)$', text, re.S)
    if m and pieces(m.group(2)):
        return m.group(1) + named(m.group(2), names).strip()
    parts = pieces(text)
    while parts and len(parts) < len(names):
        last = pieces(parts[-1])
        if not last:
            return text
        parts = parts[:-1] + last
    if not parts or len(parts) != len(names):
        return text
    return ' record { ' + '; '.join(f'{n} = {p.strip()}' for n, p in zip(names, parts)) + ' }'


def picked(rest, names):
    """A path into pairs in pairs, `1.0.x`, as `NAME.x`."""
    k = 0
    while rest and rest[0] == '1' and k < len(names) - 1:
        k += 1
        rest = rest[1:]
    if k < len(names) - 1:
        if rest[:1] != ['0']:
            return None
        rest = rest[1:]
    return [names[k]] + rest


class Walk:
    def __init__(self, e):
        self.callee = {p[0]: p[3] for p in e['places']}
        self.fields = {p[0]: (c or {}).get('fields') or [] for p, c in zip(e['places'], e.get('clauses') or [])}
        self.helpers = {}
        self.pre = (e.get('pre') or {}).get('fields') or []
        self.asked = e.get('asked') or {}
        self.places = {p[0]: (p[1], p[2]) for p in e['places']}
        self.order = [p[0] for p in e['places']]
        self.arms = dict(zip(self.order, e.get('arms') or []))
        self.typed = dict(zip(self.order, e.get('typed') or []))
        self.needs = e['needs']
        self.at = [a[0] for a in e['asked_at']]
        self.loops = e['loops']
        self.changed = e['changed']

    def above(self, place):
        out = []
        while place is not None:
            out.append(place)
            place = self.places[place][0] if place in self.places else None
        return out


class Lost(Exception):
    pass


def path(walk, place, n, parts):
    """The path of today for n steps up and then the parts."""
    if not parts:
        return 'c'
    chain = walk.above(place)
    head, rest = parts[0], [re.sub(r'-(?!\d)', '_', p) for p in parts[1:]]
    if head in ('args', 'requires', 'ranges', 'lifetimes', 'utf8', 'pre'):
        if head in ('requires', 'pre'):
            head = 'requires'
            if len(walk.pre) > 1 and rest and rest[0].isdigit():
                rest = picked(rest, walk.pre) or rest
        return 'c.' + '.'.join([head] + rest)
    for q in chain:
        arm = walk.arms.get(q)
        for field, step, old in (arm[2] if arm else []):
            if norm(step) == norm(head) and old and rest[:len(old)] == old:
                return 'c.' + '.'.join([arm[0], field] + rest[len(old):])
    hit = None
    if head.endswith('_lem') and not any(norm(walk.places[p][1][0]) == norm(head) for p in chain):
        head = head[:-4]
    if n < len(chain) and norm(walk.places[chain[n]][1][0]) == norm(head):
        hit = chain[n]
    if hit is None:
        near = [p for p in chain if norm(walk.places[p][1][0]).lower() == norm(head).lower()]
        if not near:
            near = [p for p in chain if re.sub(r'\d+$', '', norm(walk.places[p][1][0])) == re.sub(r'\d+$', '', norm(head))]
        if not near:
            raise Lost(head)
        hit = min(near, key=lambda p: abs(chain.index(p) - n))
    new = walk.places[hit][1][1]
    if rest and rest[0] == 'ensures':
        callee = walk.callee.get(hit) or ''
        names = walk.fields.get(hit) or CLAUSES.get(callee, {}).get('ensures') or []
        if rest[1:2] and rest[1].isdigit() and len(names) > 1:
            rest = ['ensures'] + (picked(rest[1:], names) or rest[1:])
        elif len(names) == 1:
            rest = ['ensures', names[0]] + rest[1:]
    if rest and rest[0] == 'given':
        for var, step in walk.typed.get(place) or []:
            if norm(step) == norm(walk.places[hit][1][0]):
                return 'c.' + '.'.join(['type_inv', var] + rest[1:])
        if rest[1:2] in (['1'], ['0']) and walk.arms.get(hit):
            return 'c.' + '.'.join([new, 'is'] + rest[2:])
    if new.startswith('if-not-') and rest in (['true'], ['false']):
        return '(ap not c.' + '.'.join([new] + rest) + ')'
    return 'c.' + '.'.join([new] + rest)


def turned(expr, walk, place):
    """The expression with today's paths."""
    alias = {'c': 0}
    lost, held = [], []

    def strip(m):
        alias[m.group(1)] = alias[m.group(2)] + m.group(3).count('.before')
        return ''

    while True:
        pat = re.compile(r'let (\w+) = (' + '|'.join(map(re.escape, alias)) + r')((?:\.before)+) in\s+')
        new = pat.sub(strip, expr, count=1)
        if new == expr:
            break
        expr = new

    if len(walk.pre) > 1:
        needs = {}

        def drop_needs(m):
            needs[m.group(1)] = True
            return ''

        expr = re.sub(r'let (\w+) = (?:' + '|'.join(map(re.escape, alias)) + r')(?:\.before)*\.requires in\s+', drop_needs, expr)
        for a in needs:
            expr = re.sub(rf"(?<![\w.'-]){re.escape(a)}(?=\.|[^\w'-])", 'c.requires', expr)

    for name, (where, kind, params, body) in walk.helpers.items():
        pat = re.compile(rf"(\()?(?<![\w.'-]){re.escape(name)} (" + '|'.join(map(re.escape, alias)) + r")((?:\.before)*)(?![\w.'-])(\))?")

        def put(m, where=where, kind=kind, params=params, body=body, name=name):
            inner, gone = turned(body, walk, where)
            lost.extend(gone)
            if kind is not None:
                said, gone = turned(kind, walk, where)
                lost.extend(gone)
                lam = f'λ {" ".join(params)}. ' if params else ''
                inner = f'let it : {said.strip()} = {lam}{inner.strip()} in it'
            elif params:
                inner = f'λ {" ".join(params)}. {inner.strip()}'
            inner = '(' + inner.strip() + ')' if ' ' in inner.strip() else inner.strip()
            held.append(inner)
            mark = f'\x00{len(held) - 1}\x00'
            if m.group(1) and m.group(4):
                return mark if inner.startswith('(') else '(' + mark + ')'
            return (m.group(1) or '') + mark + (m.group(4) or '')

        expr = pat.sub(put, expr)

    def one(m):
        n, parts = alias[m.group(1)], m.group(2)[1:].split('.')
        while parts and parts[0] == 'before':
            n += 1
            parts = parts[1:]
        try:
            return path(walk, place, n, parts)
        except Lost as e:
            lost.append(str(e))
            return 'c.«?' + str(e) + '»' + ''.join('.' + p for p in parts[1:])

    expr = re.sub(r"(?<![\w.'])(" + '|'.join(map(re.escape, alias)) + r")((?:\.[^\s.(){},;]+)+)", one, expr)
    expr = re.sub(r'\x00(\d+)\x00', lambda m: held[int(m.group(1))], expr)
    expr = re.sub(r', c\.known_told[\w.-]*\.is(?=[,)])', '', expr)

    def plain(m):
        if m.group(1) == 'c' or m.group(1) == 'goal':
            return m.group(0)
        return m.group(1) + re.sub(r'-(?=[a-z])', '_', m.group(2))

    expr = re.sub(r"(?<![\w.'«-])([\w']+|\))((?:\.[a-z][\w'-]*)+)", plain, expr)
    return expr, lost


def blocks(text):
    """The head comment, the use lines and the declarations of a file."""
    lines = text.split('\n')
    k = 0
    head = []
    while k < len(lines) and lines[k].startswith('--'):
        head.append(lines[k])
        k += 1
    uses = []
    while k < len(lines) and (lines[k].startswith('use ') or not lines[k].strip()):
        if lines[k].strip():
            uses.append(lines[k])
        k += 1
    rest = '\n'.join(lines[k:])
    parts = [b for b in re.split(r'\n{2,}(?=\S)', rest.strip('\n')) if b.strip()]
    return head, uses, parts


def arguments(text):
    """The arguments of a call, as written."""
    out, depth, word = [], 0, ''
    for ch in text:
        if ch in '([{':
            depth += 1
        if ch in ')]}':
            depth -= 1
        if ch.isspace() and depth == 0:
            if word:
                out.append(word)
            word = ''
        else:
            word += ch
    if word:
        out.append(word)
    return out


def spec_arguments(block):
    k = block.index('tie.spec') + len('tie.spec')
    depth, end = 0, k
    while end < len(block):
        if block[end] == '(':
            depth += 1
        if block[end] == ')':
            if depth == 0:
                break
            depth -= 1
        end += 1
    return arguments(block[k:end])


def signature(block):
    """name, type, comments before, whether abbrev, the lines after the signature"""
    lines = block.split('\n')
    k = 0
    while k < len(lines) and lines[k].lstrip().startswith('--'):
        k += 1
    m = re.match(rf'((?:pub |abbrev |unfoldable )*)({NAME}) : (.*)', lines[k]) if k < len(lines) else None
    if not m:
        return None
    return m.group(2), m.group(3), lines[:k], m.group(1), lines[k + 1:]


def imports(uses, body, own, drop):
    """The use lines that the body wants."""
    words = set(re.findall(r'[^\s(){}.;,@"«»]+', body))
    out = []
    for u in uses:
        m = re.match(r'use (\S+?)\.\{(.*)\}$', u)
        if not m:
            if u.split(' as ')[-1] in words:
                out.append(u)
            continue
        if any(m.group(1).endswith(d) for d in drop):
            continue
        keep = []
        for it in m.group(2).split(','):
            it = it.strip()
            w = it.split(' as ')[-1]
            bare = w.replace('◌', '')
            if w in words or ('◌' in w and all(p in words or p in body for p in w.split('◌') if p)):
                keep.append(it)
        if keep:
            out.append(f'use {m.group(1)}.{{{", ".join(keep)}}}')
    had = {w.strip() for u in out for w in re.findall(r'\{(.*)\}', u)[:1] for w in w.split(',')}
    if 'ap not c.' in body:
        out += [] if 'ap' in had else ['use mathlib.Core.Path.{ap}']
        out += [] if 'not' in had else ['use mathlib.Core.Bool.{not}']
    return out


def convert(folder, module, e, stem):
    p = os.path.join(folder, 'Proof.antt')
    text = open(p, encoding='utf-8').read()
    head, uses, parts = blocks(text)
    walk = Walk(e)
    notes0 = []
    invs, answers, locals_, spec = [], {}, [], None
    for b in parts:
        if 'tie.spec' in b and re.search(r'tie\.close', b):
            spec = b
            continue
        s = signature(b)
        if s and re.match(r'tie\.(invariant|decreases|ghost|InvT|MeasureT)', s[1]):
            invs.append(s)
        elif s and s[1].startswith('tie.Need'):
            answers[s[0]] = s
        else:
            locals_.append((s[0] if s else None, b))
    if spec is None:
        raise Lost('no tie.spec')
    unfolded = {}
    spread = []
    for name, b in locals_:
        m = re.match(r"((?:--[^\n]*\n)*)module _ \((\w+) : (tie\.[^)]*)\) where\n(.*)", b, re.S)
        if not m:
            spread.append((name, b))
            continue
        inner = [q for q in re.split(r'\n{2,}(?=  \S)', re.sub(r'(?m)^  ', '', m.group(4)).strip('\n').replace('\n\n', '\n\n  ')) if q.strip()]
        inner = [re.sub(r'(?m)^  (?=\S)', '', q, count=0) if q.startswith('  ') else q for q in inner]
        ways = {}
        for q in inner:
            s = signature(q)
            w = s and s[1].startswith('tie.') and re.match(rf"{re.escape(s[0])} = ({re.escape(m.group(2))}(?:\.before)*)$", '\n'.join(s[4]).strip())
            if w:
                ways[s[0]] = w.group(1)
        inner = [q for q in inner if not (signature(q) and signature(q)[0] in ways)]
        for a, w in ways.items():
            inner = [re.sub(rf"(?<![\w.'-]){re.escape(a)}(?![\w'-])", w, q) for q in inner]
        mine = [signature(q)[0] for q in inner if signature(q)]
        for q in inner:
            s = signature(q)
            if not s:
                notes0.append(f'{module}: in a module, not read: {q[:60]}')
                continue
            lines = [l for l in q.split('\n') if not l.startswith('--')]
            kind = 'abbrev ' if 'abbrev' in s[3] else ''
            text = '\n'.join(lines)
            text = re.sub(rf'^((?:pub |abbrev |unfoldable )*){re.escape(s[0])} : ', lambda w: f'{kind}{s[0]} : ({m.group(2)} : {m.group(3)}) → ', text)
            text = re.sub(rf'(?m)^{re.escape(s[0])}(?=(?: [^:=\s]+)* =)', f'{s[0]} {m.group(2)}', text)
            for other in mine:
                text = re.sub(rf"(?<![\w.'-]){re.escape(other)}(?![\w'-])(?! {re.escape(m.group(2))}(?![\w.'-]))(?! :)", f'({other} {m.group(2)})', text) if other != s[0] else text
            spread.append((s[0], text))
    locals_ = spread
    kept = []
    for name, b in locals_:
        s = signature(b) if name else None
        m = s and re.match(r"(?:\((\w+) : )?tie\.([^\s(){}.;,]+)([^→)]*)\)? → ?(.*)", s[1], re.S)
        if not m:
            kept.append((name, b))
            continue
        lines = s[4]
        more = []
        while lines and not lines[0].startswith(name + ' ') and not lines[0].startswith('unfolding'):
            more.append(lines[0])
            lines = lines[1:]
        unf = []
        while lines and lines[0].startswith('unfolding'):
            unf += lines[0].split()[1:]
            lines = lines[1:]
        eq = re.match(rf'{re.escape(name)}((?: [^=\s]+)*) =(.*)', '\n'.join(lines), re.S)
        where = next((q for q in walk.order if norm(q) == norm(m.group(2))), None)
        if not eq or where is None:
            kept.append((name, b))
            notes0.append(f'{module}: helper {name} at {m.group(2)} not read')
            continue
        params = eq.group(1).split()
        body, kind = eq.group(2), (m.group(4) + '\n' + '\n'.join(more)).strip()
        if params and params[0] != 'c':
            body = re.sub(rf"(?<![\w.'])" + re.escape(params[0]) + r"(?![\w'])", 'c', body)
        if m.group(1) and m.group(1) != 'c':
            kind = re.sub(rf"(?<![\w.'])" + re.escape(m.group(1)) + r"(?![\w'])", 'c', kind)
        if 'abbrev' in s[3]:
            kind = None
        walk.helpers[name] = (where, kind, params[1:], body)
        if unf:
            unfolded[name] = unf
    locals_ = kept
    args = spec_arguments(spec)
    count = 2 * len(walk.loops) if invs else 0
    lead = 0
    names = {s[0] for s in invs}
    while lead < len(args) and args[lead] in names:
        lead += 1
    goals = args[lead:]
    notes = notes0
    if len(goals) != len(walk.needs):
        notes.append(f'{module}: {len(goals)} goals then, {len(walk.needs)} now')
    out_inv, out_ans = [], []
    # invariants, by the loop's number
    order = args[:lead]
    which = {}
    seen_i, seen_d = 0, 0
    for a in order:
        s = next(x for x in invs if x[0] == a)
        if 'invariant' in s[1] or 'InvT' in s[1]:
            which[a] = ('invariant', seen_i)
            seen_i += 1
        else:
            which[a] = ('decreases', seen_d)
            seen_d += 1
    rename = {}
    for s in invs:
        if s[0] not in which:
            locals_.append((s[0], '\n'.join(s[2] + [f'{s[3]}{s[0]} : {s[1]}'] + s[4])))
            continue
        kind, k = which[s[0]]
        (oldloop, newloop), variables = walk.loops[k]
        changed = walk.changed[k]
        params = [(v, 'l.initial.' + v if ch else 'l.' + v) for v, ch in zip(variables, changed)]
        params += [(v, 'l.' + v) for v, ch in zip(variables, changed) if ch]
        body = '\n'.join(s[4])
        m = re.match(rf'((?:unfolding .*\n)?){re.escape(s[0])}((?: [^=\s]+)*) =(.*)', body, re.S)
        new = f'{kind}-{newloop}'
        rename[s[0]] = new
        if not m:
            notes.append(f'{module}: {s[0]} not read')
            continue
        mine = m.group(2).split()
        if len(mine) != len(params):
            notes.append(f'{module}: {s[0]} has {len(mine)} arguments, now {len(params)}: {params}')
        table = {a: q for a, (v, q) in zip(mine, params) if a != '_'}
        expr = re.sub(r"(?<![\w.'«])([^\s(){}.;,@\"«»:\d][^\s(){}.;,@\"«»:]*)", lambda w: table.get(w.group(1), w.group(1)), m.group(3))
        out_inv.append('\n'.join(s[2] + [f'abbrev pub {new} : goal.{new}'] + ([m.group(1).rstrip()] if m.group(1) else []) + [f'{new} l ={expr}']))
    by_name = {norm(o): k for k, (o, _) in enumerate(walk.needs)}
    rows = list(enumerate(goals))
    if len(goals) != len(walk.needs):
        rows = []
        for a in goals:
            if a in answers:
                want = norm(re.match(r'tie\.Need-(\S+)', answers[a][1]).group(1))
                if want in by_name:
                    rows.append((by_name[want], a))
                else:
                    notes.append(f'{module}: {a} ({want}) has no goal now')
            elif not re.match(r'\(λ [^.]*\. search rules\)$', a):
                notes.append(f'{module}: left: {a[:80]}')
    for k, a in rows:
        if k >= len(walk.needs):
            notes.append(f'{module}: goal {k} left: {a[:80]}')
            continue
        old, new = walk.needs[k]
        place = walk.at[k]
        if a in answers:
            s = answers[a]
            body = '\n'.join(s[4])
            m = re.match(rf'((?:unfolding .*\n)*){re.escape(s[0])}((?: [^=\s]+)*) =(.*)', body, re.S)
            if not m:
                notes.append(f'{module}: {a} not read')
                continue
            var = m.group(2).split()
            expr = m.group(3)
            if var and var[0] != 'c':
                expr = re.sub(rf"(?<![\w.']){re.escape(var[0])}(?![\w'])", 'c', expr)
            unf = m.group(1)
            said = s[2]
        else:
            m = re.match(r'\(λ ([^.]*)\. (.*)\)$', a, re.S)
            if not m:
                if a not in (x[0] for x in locals_ if x[0]):
                    notes.append(f'{module}: goal {new} answered by {a[:60]}')
                expr, unf, said = ' ' + a + ' c', '', []
            else:
                expr, unf, said = ' ' + m.group(2), '', []
                if re.fullmatch(r'\s*search rules\s*', expr) or re.fullmatch(r'\s*search needs\s*', expr):
                    continue
        if not unf and re.fullmatch(r'\s*search rules\s*', expr):
            continue
        for name, un in unfolded.items():
            if re.search(rf"(?<![\w.'-]){re.escape(name)} c", expr):
                had = unf.split() if unf else []
                unf = 'unfolding ' + ' '.join((had[1:] if had else []) + [u for u in un if u not in had]) + '\n'
        expr, lost = turned(expr, walk, place)
        fs = walk.asked.get(old) or walk.asked.get(new)
        if fs:
            was = expr
            expr = named(expr, fs)
            if expr == was and len(fs) > 1 and not re.match(r'\s*(search|omega|record|grind|let .*\brecord\b|let .* in search)', expr, re.S):
                way = ['all' + '.1' * k + ('.0' if k < len(fs) - 1 else '') for k in range(len(fs))]
                expr = f'\n    let all ={expr} in record {{ ' + '; '.join(f'{f} = {w}' for f, w in zip(fs, way)) + ' }'
        if new.startswith('returns'):
            mine = CLAUSES.get(stem + '::' + module.replace('.', '::'), {}).get('ensures') or []
            if len(mine) > 1:
                expr = named(expr, mine)
        if lost:
            notes.append(f'{module}: {new}: lost {", ".join(lost)}')
        out_ans.append('\n'.join(said + [f'pub {new} : goal.{new}'] + ([unf.rstrip()] if unf else []) + [f'{new} c ={expr}']))
    # what is local goes where it is used
    inv_text = '\n\n'.join(out_inv)
    ans_text = '\n\n'.join(out_ans)

    def uses_of(t):
        return set(re.findall(r'[^\s(){}.;,@"«»]+', t))

    in_inv = []
    want = uses_of(inv_text)
    for name, b in reversed(locals_):
        if name and name in want:
            in_inv.insert(0, (name, b))
            want |= uses_of(b)
    rest = [(n, b) for n, b in locals_ if (n, b) not in in_inv]
    drop = ('.Tie', '.Statement')
    base = f'use Rattle.{stem}.proofs.{module}'
    made = []
    if out_inv:
        body = '\n\n'.join([b for _, b in in_inv] + out_inv)
        lines = imports([u for u in uses if not u.endswith('.Tie as tie') and '.Statement.{' not in u], body, stem, drop)
        pubbed = body
        for n, b in in_inv:
            pubbed = re.sub(rf'(?m)^(abbrev |unfoldable )?{re.escape(n)} :', lambda m: (m.group(1) or '') + 'pub ' + n + ' :', pubbed)
        t = '\n'.join(head + lines + [f'{base}.Given as goal']) + '\n\n' + pubbed + '\n'
        made.append(('Invariants.antt', t))
    if out_ans or rest:
        body = '\n\n'.join([b for _, b in rest] + out_ans)
        lines = imports([u for u in uses if not u.endswith('.Tie as tie') and '.Statement.{' not in u], body, stem, drop)
        names = [n for n, _ in in_inv if n in uses_of(body)]
        if names:
            lines.append(f'{base}.Invariants.{{{", ".join(names)}}}')
        goal = [f'{base}.Goals as goal'] if out_ans else []
        t = '\n'.join((head if not out_inv else head) + lines + goal) + '\n\n' + body + '\n'
        if out_ans:
            made.append(('Answers.antt', t))
        else:
            notes.append(f'{module}: local lemmas without use: {[n for n, _ in rest]}')
    return made, notes


def main(argv):
    crate, names = argv[0], argv[1]
    only = set(argv[2:])
    stem = os.path.basename(os.path.abspath(crate))
    d = json.load(open(names, encoding='utf-8'))
    CLAUSES.update(clause_names(os.path.dirname(os.path.dirname(os.path.abspath(crate)))))
    root = os.path.join(crate, 'proofs')
    for folder, dirs, fs in os.walk(root):
        if 'Proof.antt' not in fs:
            continue
        module = os.path.relpath(folder, root).replace(os.sep, '.')
        if only and module not in only:
            continue
        p = os.path.join(folder, 'Proof.antt')
        if 'Tie as tie' not in open(p, encoding='utf-8').read():
            print(f'by hand: {module}: no tie')
            continue
        key = f'Rattle-{stem}-proofs.{module}.Lts'
        if key not in d:
            print(f'by hand: {module}: not in {names}')
            continue
        try:
            made, notes = convert(folder, module, d[key], stem)
        except Lost as e:
            print(f'by hand: {module}: {e}')
            continue
        for n in notes:
            print('look: ' + n)
        os.remove(p)
        for name, t in made:
            with open(os.path.join(folder, name), 'w', encoding='utf-8') as f:
                f.write(t)
        if not made:
            print(f'nothing is left to say: {module}')
            try:
                os.removedirs(folder)
            except OSError:
                pass


if __name__ == '__main__':
    main(sys.argv[1:])
