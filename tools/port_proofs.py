#!/usr/bin/env python3
"""Turns the Proof.antt files of a crate from the older form (tie.spec with one argument for each goal, in order) into
today's Invariants.antt and Answers.antt. Answers that the check finds alone are left out.

usage, in the crate's folder, when every crate below it proves:
    rt check --generated DIR --old-names        lists each goal's older and today's name, in DIR/names.json
    ROOT/tools/port_proofs.py . DIR/names.json [-n]        -n: shows the files and writes nothing

A line 'left:' names a proof that is no list of arguments, or whose arguments are not the goals: it is done by hand.
A line 'whole:' names an answer that proves several clauses together, which is a record of them today: then write
`let all = .. in record { first = all.0; second = all.1 }`. A loop's invariant is a function of `l` now, `c κs` is `c`,
`.before` is gone, and a step has its name from the source: all that is turned here. A fact of a branch that was
`.came` is `.branch` (an `elim`), and the facts of a `match` are `.is`: look at what `rt check` says.
"""
import glob
import json
import os
import re
import sys

WORD = r'[^\s(){}.;,@"«»\[\]◌`]+'

def norm(s): return s.replace('-', '_')

def split_args(text):
    """The parenthesised or bare arguments of tie.spec, at depth 0."""
    args, i, n = [], 0, len(text)
    while i < n:
        if text[i].isspace(): i += 1; continue
        if text[i] == '(':
            d, j = 0, i
            while j < n:
                if text[j] == '(': d += 1
                if text[j] == ')':
                    d -= 1
                    if d == 0: break
                j += 1
            args.append(text[i+1:j]); i = j+1
        else:
            m = re.match(r'\S+', text[i:]); args.append(m[0]); i += len(m[0])
    return args

def blocks(text):
    """Top-level declarations of a file: list of (kind, name, text)."""
    out, cur = [], []
    for l in text.split('\n'):
        if l and not l[0].isspace() and not l.startswith('--') and not re.match(r'unfolding ', l):
            m = re.match(r'((?:abbrev|pub|unfoldable) )*(%s)' % WORD, l)
            name = re.sub(r'^(?:(?:abbrev|pub|unfoldable) )*', '', l).split()[0] if not l.startswith('use ') else 'use'
            if cur and (name == 'use' or cur[-1][0] != name):
                cur.append((name, [l]))
            elif not cur: cur.append((name, [l]))
            else: cur[-1][1].append(l)
        elif cur:
            cur[-1][1].append(l)
        else:
            cur.append(('head', [l]))
    return [(n, '\n'.join(ls)) for n, ls in cur]

class Fail(Exception): pass

def clauses():
    """For each function by crate and last name: the names of its requires and of its ensures clauses."""
    out = {}
    root = os.path.dirname(os.path.dirname(os.path.realpath(__file__)))
    for f in glob.glob(root + '/crates/*/src/*.rt'):
        crate = os.path.relpath(f, root).split('/')[1]
        fn = None
        for l in open(f):
            m = re.match(r'\s*(?:pub )?fn (\w+)', l)
            if m: fn = (crate, m[1]); out.setdefault(fn, ([], []))
            m = re.match(r'\s*(requires|ensures) (?:(\w+) )?\{', l)
            if m and fn: out[fn][m[1] == 'ensures'].append(m[2])
    return out

CLAUSES = clauses()

def split_commas(b):
    out, d, cur = [], 0, ''
    for ch in b:
        if ch in '({[': d += 1
        if ch in ')}]': d -= 1
        if ch == ',' and d == 0: out.append(cur.strip()); cur = ''
        else: cur += ch
    if cur.strip(): out.append(cur.strip())
    return out

def parts_of(b, n):
    """The parts of a tuple, nested to the right, as n parts."""
    b = b.strip()
    if n == 1: return [b]
    if not (b.startswith('(') and closes(b) == len(b) - 1): return None
    ps = split_commas(b[1:-1])
    if len(ps) == n: return ps
    if len(ps) < 2 or len(ps) > n: return None
    rest = parts_of(ps[-1], n - len(ps) + 1)
    return None if rest is None else ps[:-1] + rest

def align(lam, needs):
    """The arguments without those that today's check settles by itself: of no lifetimes, and by search rules."""
    def kind(a): return 'κs' in a.split('.')[0]
    def trivial(a): return a.split('.', 1)[1].strip() == 'search rules'
    n, m = len(lam), len(needs)
    from functools import lru_cache
    sys.setrecursionlimit(10000)
    @lru_cache(None)
    def go(i, j):
        if i == n: return () if j == m else None
        if n - i < m - j: return None
        if j < m:
            want = '-requires' in needs[j][0]
            if kind(lam[i]) == want:
                r = go(i + 1, j + 1)
                if r is not None: return (lam[i],) + r
        if trivial(lam[i]) and not kind(lam[i]):
            return go(i + 1, j)
        return None
    return go(0, 0)

def closes(b):
    d = 0
    for i, ch in enumerate(b):
        if ch in '(': d += 1
        if ch in ')':
            d -= 1
            if d == 0: return i
    return -1

def convert(crate, path, names, generated):
    text = open(path).read()
    text = re.sub(r'(?m)^(use [^\s{]+\{)\n((?:  .*\n)+)\}', lambda m: m[1] + ' '.join(x.strip() for x in m[2].split('\n')).strip().rstrip(',') + '}', text)
    F = os.path.relpath(os.path.dirname(path), os.path.join(crate, 'proofs'))
    cname = os.path.basename(os.path.abspath(crate))
    key = f'Rattle-{cname}-proofs.' + F.replace('/', '.') + '.Lts'
    if key not in names: raise Fail(f'no key {key}')
    info = names[key]
    callee = {}
    own = CLAUSES.get((cname, os.path.basename(F).lstrip('+')), ([], []))
    by_place = {pl[0]: pl for pl in info['places']}
    def chain(place):
        """The steps from the start to a place, by their older names; the nearest wins."""
        steps, seen = {}, set()
        callee.clear()
        while place in by_place and place not in seen:
            seen.add(place)
            pl = by_place[place]
            old, new = pl[2]
            if old: steps.setdefault(norm(old), new)
            if pl[3]: callee.setdefault(new, (pl[3].split('::')[0], pl[3].split('::')[-1]))
            place = pl[1]
        return steps
    bl = blocks(text)
    uses = [t for n, t in bl if n == 'use']
    head = ''.join(t for n, t in bl if n == 'head')
    spec_name = os.path.basename(F).lstrip('+') + '_spec'
    spec = [t for n, t in bl if n == spec_name]
    if not spec: raise Fail('no spec block')
    spec = spec[0]
    comment = ''
    # comments that stand before spec belong to the previous block; leave them
    unfolding = re.findall(r'(?m)^unfolding .*$', spec)
    m = re.search(r'tie\.spec\b', spec)
    if not m: raise Fail('no tie.spec')
    body = spec[m.end():].rstrip()
    # strip the outer parens: '(tie.spec ...)' after tie.close
    d, j = 0, 0
    while j < len(body):
        if body[j] == '(': d += 1
        if body[j] == ')':
            d -= 1
            if d < 0: break
        j += 1
    tail = body[j:]
    body = body[:j]
    args = split_args(body)
    loops = info['loops']
    nl = len(loops)
    needs = info['needs']
    bare = [a for a in args if not a.lstrip().startswith('λ')]
    lam = [a for a in args if a.lstrip().startswith('λ')]
    if len(lam) > len(needs):
        found = align(lam, needs)
        if found is not None: lam = found
    if len(lam) != len(needs): raise Fail(f'{len(lam)} arguments, {len(needs)} goals; bare {bare} loops {loops}')
    helpers = [(n, t) for n, t in bl if n not in ('use', 'head', spec_name)]
    inv = []   # (goal name, text)
    rest = []
    loop_names = {}
    for lp, ch in zip(loops, info['changed']):
        (old, new), vs = lp
        loop_names[norm(old)] = (new, vs, ch)
    def terms(t, positional, var):
        # names of the positional variables become fields of l
        def w(m):
            return positional.get(m[0], m[0]) if not (m.start() and t[m.start()-1] == '.') else m[0]
        # names that a λ binds in its brackets stay
        bound = []
        for mm in re.finditer(r'λ ((?:%s ?)+)\.' % WORD, t):
            d, j = 0, mm.end()
            while j < len(t):
                if t[j] in '({': d += 1
                if t[j] in ')}':
                    d -= 1
                    if d < 0: break
                j += 1
            bound.append((mm.start(), j, set(mm[1].split())))
        def w2(m):
            if any(a <= m.start() < b and m[0] in names for a, b, names in bound): return m[0]
            return w(m)
        return re.sub(WORD, w2, t)
    for n, t in helpers:
        mm = re.match(r'(invariant|decreases)_(.+)$', norm(n))
        if mm and norm(mm[2]) in loop_names:
            new, vs, ch = loop_names[norm(mm[2])]
            defn = re.search(r'(?m)^%s ([^=\n]*?)\s*= ?((?:.|\n)*)$' % re.escape(n), t)
            ps = defn[1].split()
            want = [f'l.initial.{v}' if c else f'l.{v}' for v, c in zip(vs, ch)] + [f'l.{v}' for v, c in zip(vs, ch) if c]
            if len(ps) != len(want): raise Fail(f'{n}: {ps} {vs} {ch}')
            pos = dict(zip(ps, want))
            note = ''
            b = defn[2].rstrip()
            # a comment behind belongs to the next
            b = re.sub(r'\n\n--(.|\n)*$', '', b).rstrip()
            unf = re.findall(r'(?m)^unfolding .*$', t)
            u = ''.join(x + '\n' for x in unf)
            gname = f'{mm[1]}-{new}'
            inv.append(f'abbrev pub {gname} : goal.{gname}\n{u}{gname} l = {terms(b, pos, "l")}')
        else:
            rest.append(t.rstrip())
    answers = []
    for a, (old, new), at in zip(lam, needs, info['asked_at']):
        steps = chain(at[0])
        mm = re.match(r'\s*λ (c(?: κs)?(?: ' + WORD + r')*)\.\s*((?:.|\n)*)$', a)
        if not mm: raise Fail(f'argument {a[:60]}')
        ps, b = [p for p in mm[1].split() if p != 'κs'], mm[2].strip()
        b = re.sub(r'(?<![\w.])κs(?![\w])', 'c.lifetimes', b)
        if unfolding and b == 'search rules' and new.startswith('returns'):
            answers.append((new, ps, b)); continue
        if b == 'search rules' or re.fullmatch(r'\(?(search rules(, )?)+\)?', b): continue
        b = path_terms(b, steps, callee, own)
        asked = info['asked'].get(old) or info['asked'].get(new)
        if asked and len(asked) > 1:
            pieces = parts_of(b, len(asked))
            if pieces:
                for p, name in zip(pieces, asked):
                    if p != 'search rules': answers.append((f'{new}-clause-{name}', ps, p))
                continue
            print('whole:', path, new, asked, b[:80].replace('\n', ' '))
        answers.append((new, ps, b))
    gpath = f'Rattle.{cname}.proofs.' + F.replace('/', '.')
    def header(kind, bodytext):
        us = []
        for u in uses:
            u = u.strip()
            if u.endswith('.Statement.{statement}') or u.endswith('Tie as tie'): continue
            u = re.sub(r'\n\n--(.|\n)*$', '', u)
            mm = re.match(r'use (\S+?)\.\{((?:.|\n)*)\}\s*$', u)
            if not mm:
                us.append(u); continue
            items = [x.strip() for x in mm[2].split(',') if x.strip()]
            keep = [x for x in items if used(x, bodytext)]
            if keep: us.append(f'use {mm[1]}.{{' + ', '.join(keep) + '}')
        us.append(f'use {gpath}.{kind} as goal')
        return '\n'.join(us) + '\n\n'
    out = {}
    head = head.strip()
    head = re.sub(r' meets its contract\b', ' meets its contract', head)
    if inv:
        b = '\n\n'.join(inv)
        # helpers that only the invariant cites
        out['Invariants.antt'] = (head + '\n' if head else '') + header('Given', b) + b + '\n'
    if answers:
        parts = []
        for new, ps, b in answers:
            u = ''.join(x + '\n' for x in unfolding)
            sig = f'pub {new} : goal.{new}\n{u}{new} {" ".join(ps)} ='
            if '\n' in b or len(sig.split('\n')[-1]) + len(b) > 118: parts.append(sig + '\n    ' + b)
            else: parts.append(sig + ' ' + b)
        b = '\n\n'.join(rest + parts)
        out['Answers.antt'] = (head + '\n' if head else '') + header('Goals', b) + b + '\n'
    elif rest:
        out['REST'] = '\n\n'.join(rest)
    return out

def used(item, text):
    n = item.split(' as ')[-1].strip()
    if n in ('arith',): return re.search(r'(?<![\w-])arith(?![\w-])', text) is not None
    if '◌' in n:
        syms = [s for s in n.split('◌') if s]
        return all(s in text for s in syms)
    return re.search(r'(?<![^\s(){}.;,@"«»\[\]◌`])' + re.escape(n) + r'(?![^\s(){}.;,@"«»\[\]◌`])', text) is not None

def named(field, fields, callee, own):
    """The clause that numbers name, and how many of them were read."""
    if field == 'requires' and callee is None: names = own[0]
    elif callee: names = CLAUSES.get(callee, ([], []))[field == 'ensures']
    else: return None
    if len(names) < 2 or not all(names): return None
    n = 0
    while n < len(fields) and fields[n].isdigit():
        f = int(fields[n]); n += 1
        if f == 1 and len(names) > 2 and n < len(fields) and fields[n].isdigit():
            names = names[1:]
            continue
        return (names[f], n) if f < len(names) else None
    return None

def path_terms(b, steps, callee, own):
    aliases = {'c'}
    # let V = c.before.before in
    while True:
        m = re.search(r'let (%s) = (%s)((?:\.before)+) in\s*' % (WORD, WORD), b)
        if not m or m[2] not in aliases: break
        v = m[1]
        b = b[:m.start()] + b[m.end():]
        aliases.add(v)
        b = re.sub(r'(?<![^\s(){}.;,@"«»\[\]◌`])(?<!\.)' + re.escape(v) + r'(?=\.)', 'c', b)
    def path(m):
        parts = m[0].split('.')
        head, fields = parts[0], parts[1:]
        fields = [f for f in fields if f != 'before']
        if fields and norm(fields[0]) in steps: fields[0] = steps[norm(fields[0])]
        if len(fields) > 2 and fields[1] == 'ensures' and fields[2].isdigit():
            n = named('ensures', fields[2:], callee.get(fields[0]), own)
            if n: fields[2:2 + n[1]] = [n[0]]
        if len(fields) > 1 and fields[0] == 'requires' and fields[1].isdigit():
            n = named('requires', fields[1:], None, own)
            if n: fields[1:1 + n[1]] = [n[0]]
        fields = ['is' if re.fullmatch(r'keys\d*', f) else f for f in fields]
        if len(fields) > 1 and fields[0] == 'in_default' and fields[1] == 'rest': fields.insert(1, 'in_default-own')
        return '.'.join([head] + fields)
    return re.sub(r'(?<![^\s(){};,@"«»\[\]◌`])c(?:\.' + WORD + ')+', path, b)

def main():
    crate, generated = sys.argv[1:3]
    names = json.load(open(generated))
    for p in sorted(glob.glob(os.path.join(crate, 'proofs/**/Proof.antt'), recursive=True)):
        try:
            out = convert(crate, p, names, generated)
        except Fail as e:
            print('left:', p, e); continue
        except Exception as e:
            print('left (error):', p, type(e).__name__, e); continue
        if '-n' in sys.argv:
            for k, v in out.items(): print('=====', p, k); print(v)
            continue
        if 'REST' in out:
            print('rest:', p); print(out.pop('REST')[:400])
        os.remove(p)
        for k, v in out.items(): open(os.path.join(os.path.dirname(p), k), 'w').write(v)
        if not out:
            d = os.path.dirname(p)
            while d != os.path.join(crate, 'proofs') and not os.listdir(d):
                os.rmdir(d); d = os.path.dirname(d)
main()
