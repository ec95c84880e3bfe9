#!/usr/bin/env python3
"""Turns the Proof.antt files of a crate, as the older Rattle had them, into Invariants.antt and Answers.antt, and removes them.

usage: answers.py CRATE NAMES [--keep-trivial] [FUNCTION ..]

CRATE is the crate's folder, NAMES the file names.json that `rt check --generated DIR --old-names` writes in it, FUNCTION a folder below proofs/.
A goal and a step get today's name, a chain of `.before` becomes the step that it led to, a loop's parameters become fields of `l`, and a place that
was handed to a lemma is named by `goal.at`. An answer that is one call of a tactic is left out unless --keep-trivial says otherwise: the check finds
it. What a line below a function's name says is to be looked at by hand. A file that walks the code by hand (no tie.close) is left alone. Commit first.
"""
import json, os, re, sys
W = r'[^\s(){}.;,@"\[\]|]+'
CHAIN = re.compile(r'(?<![^\s(){};,\[\]|])(' + W + r')((?:\.' + W + r')*)')
TRIVIAL = re.compile(r'^(omega arith|search rules|refl|tt)$')

def norm(s):
    s = s.replace('-', '_').lower()
    return {'spot_of_lem': 'spot_of', 'type_size': 'size_of'}.get(s, s)

def nneed(s):
    s = norm(s)
    if s.startswith('overflow_'): s = s[9:]
    if s.startswith('slice_bounds_'): s = s[13:]
    elif s.startswith('part_') and s.endswith(('_start', '_end')): s = s[5:]
    return s

class Fn:
    def __init__(self, j):
        self.j = j
        self.places = {}
        for k, p in enumerate(j['places']):
            self.places[p[0]] = dict(name=p[0], parent=p[1], old=p[2][0], new=p[2][1], newplace=j['places_by_name'][k])
        self.needs = [(o, n) for o, n in j['needs']]
        self.at = [a[0] for a in j['asked_at']]
        self.loops = j['loops']
        self.changed = j['changed']

def blocks(text):
    """[(kind, comments, lines)]"""
    out = []; pend = []; cur = None
    for line in text.split('\n'):
        if line.startswith('--'):
            pend.append(line)
            if cur is not None: out.append(cur); cur = None
            continue
        if line.strip() == '':
            if cur is not None:
                cur['lines'].append(line)
            else:
                pend.append(line)
            continue
        if line[0] in ' \t':
            if cur is None:
                cur = dict(c=pend, lines=[]); pend = []
            cur['lines'].append(line); continue
        m = re.match(r'((?:pub |abbrev |unfoldable )*)(' + W + r')((?: \{[^{}\n]*\})*) :(?: |$)', line)
        new = bool(m) or re.match(r'(pub )?(use|module|record|data|infix[lr]?)\s', line)
        if new:
            if cur is not None: out.append(cur)
            cur = dict(c=pend, lines=[line]); pend = []
        else:
            if cur is None:
                cur = dict(c=pend, lines=[]); pend = []
            cur['lines'].append(line)
    if cur is not None: out.append(cur)
    for b in out:
        while b['lines'] and b['lines'][-1].strip() == '': b['lines'].pop()
        b['c'] = [x for x in b['c'] if x.strip() != '']
    if pend: out.append(dict(c=[x for x in pend if x.strip()], lines=[]))
    return out

class Conv:
    def __init__(self, fn, goal, path):
        self.fn, self.goal, self.path = fn, goal, path
        self.warn = []
        self.need_goals = set()

    def joins(self, s, ctx):
        def paren(i):
            d = 0
            for k in range(i, len(s)):
                if s[k] in '([': d += 1
                elif s[k] in ')]':
                    d -= 1
                    if d == 0: return k + 1
        pos = 0
        while True:
            i = s.find('⊎_elim', pos)
            if i < 0: return s
            pos = i + 6
            a = re.compile(r'\s*(?=\()').match(s, i + 6)
            if not a: continue
            e1 = paren(a.end())
            b = re.compile(r'\s*(?=\()').match(s, e1)
            if not b: continue
            e2 = paren(b.end())
            c = re.compile(r'\s*(' + re.escape(ctx) + r'\.(' + W + r')\.branch)(?![\w-])').match(s, e2)
            if not c: continue
            A, B = s[a.end() + 1:e1 - 1], s[b.end() + 1:e2 - 1]
            x = c[2][3:] if c[2].startswith('if-') else c[2]
            def arm(t, con, side):
                m = re.match(r'λ (' + W + r')\.\s*', t)
                if not m: return f'{con} w ↦ ({t}) w'
                body = re.sub(r'(?<![\w.])' + re.escape(m[1]) + r'\.0\.(taken|left)', lambda mm: f'{m[1]}.{c[2]}.' + ('true' if mm[1] == 'taken' else 'false'), t[m.end():])
                return f'{con} {m[1]} ↦ {body}'
            self.need_goals |= {'then-' + x, 'else-' + x}
            r = f'elim {c[1]} [ {arm(A, "then-" + x, 0)} | {arm(B, "else-" + x, 1)} ]'
            s = s[:i] + r + s[c.end():]
            pos = i + 4

    def arg(self, a):
        m = re.fullmatch(r't(\d+)', a)
        if m and int(m[1]) <= len(self.fn.params) and a not in self.fn.params:
            n = self.fn.params[int(m[1]) - 1]
            return '«data»' if n == 'data' else n
        return a

    def place_expr(self, goalname, ctx, place, top):
        p = self.fn.places[place]
        self.need_goals.add(p['newplace'])
        if goalname: return f'(goal.at.{goalname} {ctx}).{p["newplace"]}'
        if place == top: return ctx
        q, n = top, 0
        while q is not None and q != place: q = self.fn.places[q]['parent']; n += 1
        self.warn.append(f'place {place} passed from helper at {top}')
        return ctx + '.before' * n

    def body(self, text, ctx, place, goalname):
        """rewrites chains of ctx (at old place) in text"""
        env = {ctx: place}
        out = []; pos = 0
        while True:
            m = CHAIN.search(text, pos)
            if not m: out.append(text[pos:]); break
            name, rest = m[1], m[2]
            if name not in env:
                out.append(text[pos:m.end()]); pos = m.end(); continue
            fields = rest[1:].split('.') if rest else []
            # a binder of the same name: λ name.
            pre = text[max(0, m.start()-3):m.start()]
            if re.search(r'λ $', pre) and name != ctx:
                out.append(text[pos:m.end()]); pos = m.end(); del env[name]; continue
            pl = env[name]; k = 0; bad = False
            while k < len(fields) and fields[k] == 'before':
                par = self.fn.places.get(pl, {}).get('parent')
                if par is None: bad = True; break
                pl = par; k += 1
            out.append(text[pos:m.start()])
            pos = m.end()
            if bad:
                self.warn.append(f'{m[0]}: no parent'); out.append('?!' + m[0]); continue
            restf = fields[k:]
            if not restf:
                # a place
                lm = re.search(r'let (' + W + r') = $', ''.join(out))
                after = re.match(r' in\s*', text[pos:])
                if lm and after:
                    s = ''.join(out)[:lm.start()]
                    env[lm[1]] = pl
                    out = [s]; pos += after.end()
                    continue
                if name == ctx and k == 0 and goalname is None:
                    out.append(ctx)
                else:
                    out.append(self.place_expr(goalname, ctx, pl, place))
                continue
            f = restf[0]; p = self.fn.places[pl]
            tail = restf[1:]
            if p['parent'] is None and f in ('args', 'requires', 'pre', 'ranges', 'initial', 'well_formed', 'well-formed'):
                nf = 'requires' if f == 'pre' else f.replace('-', '_')
                if f == 'args' and tail: tail = [self.arg(tail[0])] + tail[1:]
            elif norm(f) == norm(p['old']):
                nf = p['new']
                if f.startswith('match') and tail and re.fullmatch(r'keys\d+', tail[0]): tail = ['is'] + tail[1:]
                if f.startswith('match') and tail and tail[0] == 'rest': nf += '.in_default-own'
                if norm(f).startswith('enum_told') and tail[:2] == ['given', '1']:
                    q = p['parent']
                    while q is not None and not self.fn.places[q]['new'].startswith('in'): q = self.fn.places[q]['parent']
                    if q is not None: nf = self.fn.places[q]['new']; tail = ['is'] + tail[2:]
            elif f in ('requires', 'pre', 'args'):
                nf = 'requires' if f == 'pre' else f
                self.warn.append(f'{m[0]}: {f} at {pl}')
            else:
                nf = None
                # perhaps the step of an ancestor
                q = pl
                while q is not None:
                    if norm(self.fn.places[q]['old']) == norm(f): nf = self.fn.places[q]['new']; break
                    q = self.fn.places[q]['parent']
                self.warn.append(f'{m[0]}: {f} is not the step {p["old"]} of {pl}' + (f', took {nf}' if nf else ''))
                if nf is None: nf = '?!' + f
            out.append('.'.join([ctx, nf] + tail))
        res = ''.join(out)
        res = re.sub(r'not-(true|false) (' + W + r'(?:\.' + W + r')*|\([^()]*\)) (' + re.escape(ctx) + r'\.if-not-\S+\.\1)(?![\w-])', r'\3', res)
        res = self.joins(res, ctx)
        for m in re.finditer(r'let (' + W + r') = ' + re.escape(ctx) + r'\.args in', res):
            res = re.sub(r'(?<![^\s(){};,\[\]|])' + re.escape(m[1]) + r'\.(t\d+)(?![\w-])', lambda mm: m[1] + '.' + self.arg(mm[1]), res)
        return res

def clause_split(lines, name):
    """signature lines, unfolding lines, clause text lines"""
    i = 1
    while i < len(lines) and lines[i].startswith((' ', '\t')): i += 1
    sig = lines[:i]
    unf = []
    while i < len(lines) and lines[i].startswith('unfolding'):
        unf.append(lines[i]); i += 1
        while i < len(lines) and lines[i].startswith((' ', '\t')): unf.append(lines[i]); i += 1
    return sig, unf, lines[i:]

def invariant(fn, text_lines, loop):
    """the clause 'invariant-loop a b .. = body' as a function of l"""
    (oldn, newn), vars_ = loop[0], loop[1]
    changed = fn.changed[fn.loops.index(loop)]
    text = '\n'.join(text_lines)
    m = re.match(r'(' + W + r')((?:\s+' + W + r')*)\s*=', text)
    params = m[2].split(); body = text[m.end():]
    order = []
    for v, ch in zip(vars_, changed): order.append(('initial.' if ch else '') + v)
    for v, ch in zip(vars_, changed):
        if ch: order.append(v)
    if len(params) != len(order):
        return None, f'{len(params)} params, {len(order)} live: {params} {order}'
    sub = {p: 'l.' + o for p, o in zip(params, order)}
    def rep(mm):
        n = mm[1]
        if n in sub: return sub[n] + mm[2]
        return mm[0]
    # binders
    bad = [b for b in re.findall(r'(?:λ |λ \(|\()(' + W + r')(?:\.| :)', body) if b in sub]
    new = CHAIN.sub(rep, body)
    return (newn, new), (f'binder {bad}' if bad else None)

def own_params(crate, rel):
    """parameter names of a function by its path below proofs/"""
    parts = rel.split('/'); name = parts[-1].strip('+')
    best = None
    for d, ds, fs in os.walk(os.path.join(crate, 'src')):
        for f in fs:
            if not f.endswith('.rt'): continue
            s = re.sub(r'//[^\n]*', '', open(os.path.join(d, f)).read())
            for m in re.finditer(r'\bfn ' + re.escape(name) + r'\s*(?:<[^>]*>)?\(', s):
                k = m.end(); depth = 1; cur = ''; ps = []
                while depth:
                    ch = s[k]; k += 1
                    if ch in '([<': depth += 1
                    elif ch in ')]>' and s[k-2:k] != '->': depth -= 1
                    if depth == 0: break
                    if ch == ',' and depth == 1: ps.append(cur); cur = ''
                    else: cur += ch
                if cur.strip(): ps.append(cur)
                ps = [re.sub(r'^(mut|&mut|&)\s*', '', x.strip().split(':')[0].strip()) for x in ps]
                stem = os.path.splitext(f)[0]
                score = (stem in parts) + (stem in ('lib', 'main') and len(parts) == 1)
                if best is None or score > best[0]: best = (score, ps)
    return best[1] if best else []

def main():
    args = [a for a in sys.argv[1:] if not a.startswith('--')]
    keep = '--keep-trivial' in sys.argv
    crate, names = args[0], args[1]
    only = args[2:]
    js = json.load(open(names))
    cname = os.path.basename(os.path.abspath(crate))
    root = os.path.join(crate, 'proofs')
    for d, ds, fs in os.walk(root):
        if 'Proof.antt' not in fs: continue
        rel = os.path.relpath(d, root)
        if only and rel not in only: continue
        key = f'Rattle-{cname}-proofs.' + rel.replace('/', '.') + '.Lts'
        path = os.path.join(d, 'Proof.antt')
        text = open(path).read()
        if key not in js:
            print(f'{rel}: no names ({key})'); continue
        if 'tie.close' not in text:
            print(f'{rel}: by hand, left'); continue
        fn = Fn(js[key])
        fn.params = own_params(crate, rel)
        mod = f'Rattle.{cname}.proofs.' + rel.replace('/', '.')
        bl = blocks(text)
        uses, helpers, answers, invs = [], [], [], []
        warn = []
        head = []
        cv = Conv(fn, None, path)
        for bi, b in enumerate(bl):
            L = b['lines']
            if not L: continue
            if re.match(r'(pub )?use ', L[0]):
                if bi == 0: head = b['c']
                u = L
                # several use lines may be in one block
                cur = []
                for ln in u:
                    if ln.startswith('use '):
                        if cur: uses.append('\n'.join(cur))
                        cur = [ln]
                    elif ln.strip(): cur.append(ln)
                if cur: uses.append('\n'.join(cur))
                continue
            m = re.match(r'((?:pub |abbrev |unfoldable )*)(' + W + r')((?: \{[^{}\n]*\})*) :(.*)', L[0])
            full = '\n'.join(L)
            if re.search(r'tie\.close', full) and re.match(r'(pub )?' + W + 'spec', L[0]):
                continue
            mm = m and re.match(r'\s*tie\.Need-(' + W + r')', m[4] + (' ' + L[1] if len(L) > 1 and L[1].startswith(' ') and not m[4].strip() else ''))
            if mm:
                want = nneed(mm[1])
                idx = [i for i, (o, n) in enumerate(fn.needs) if nneed(o) == want]
                if not idx:
                    warn.append(f'need {mm[1]} is gone'); continue
                i = idx[0]
                new = fn.needs[i][1]
                sig, unf, cl = clause_split(L, m[2])
                place = fn.at[i]
                # clauses
                text2 = '\n'.join(cl)
                parts = re.split(r'(?m)^(?=' + re.escape(m[2]) + r'(?:\s|$))', text2)
                parts = [p for p in parts if p.strip()]
                outcl = []
                for p in parts:
                    pm = re.match(re.escape(m[2]) + r'((?:\s+[^=]*?)?)\s*=(?=\s)', p)
                    if not pm:
                        warn.append(f'{m[2]}: clause?'); outcl.append(p); continue
                    ps = pm[1].split()
                    ctx = ps[0] if ps else 'c'
                    if 'κs' in ps: ps.remove('κs')
                    body = p[pm.end():]
                    nb = cv.body(body, ctx, place, new)
                    outcl.append(new + ' ' + ' '.join(ps) + ' =' + nb)
                triv = len(outcl) == 1 and TRIVIAL.match(outcl[0].split('=', 1)[1].strip()) and not unf
                answers.append(dict(i=i, name=new, c=b['c'], unf=unf, cl=outcl, triv=triv))
                continue
            mi = m and re.match(r'\s*tie\.(invariant|decreases)-(' + W + r')', m[4])
            if mi:
                loop = [lp for lp in fn.loops if norm(lp[0][0]) == norm(mi[2])]
                if not loop:
                    warn.append(f'loop {mi[2]} is gone'); continue
                sig, unf, cl = clause_split(L, m[2])
                r, e = invariant(fn, cl, loop[0])
                if e: warn.append(f'{mi[1]}-{mi[2]}: {e}')
                if r and mi[1] == 'decreases' and any(n == 'overflow_step-' + r[0].split('-', 1)[1] for o, n in fn.needs if '-' in r[0]): continue
                if r: invs.append(dict(kind=mi[1], name=f'{mi[1]}-{r[0]}', body=r[1], unf=unf, c=b['c']))
                continue
            # a helper
            helpers.append(b)
        # helpers with contexts
        hout = []
        for b in helpers:
            full = '\n'.join(b['lines'])
            if 'tie.' in full:
                # (c : tie.PLACE args)
                pm = re.search(r'\((' + W + r') : tie\.(' + W + r')((?: ' + W + r')*)\)', full)
                if pm:
                    pl = [p for p in fn.places if norm(p) == norm(pm[2])]
                    if pl:
                        np_ = fn.places[pl[0]]['newplace']; cv.need_goals.add(np_)
                        full = full[:pm.start()] + f'({pm[1]} : {np_})' + full[pm.end():]
                        full = cv.body(full, pm[1], pl[0], None)
                    else: warn.append(f'place {pm[2]} unknown')
                if 'tie.' in full: warn.append('helper with tie: ' + b['lines'][0][:60])
            hout.append((b['c'], full))
        warn += cv.warn
        # which helpers do the invariants need
        def names_of(full):
            ns = set()
            for ln in full.split('\n'):
                mm = re.match(r'\s*(?:(?:pub|abbrev|unfoldable|record|data) )*(' + W + r')((?: \{[^{}\n]*\})*(?: \((?:[^()\n]|\([^()\n]*\))*\))*) :', ln)
                if mm: ns.add(mm[1])
            return ns
        defs = [(names_of(f), c, f) for c, f in hout]
        need = set(re.findall(W, ' '.join(re.sub(r'\.', ' ', v['body']) for v in invs)))
        inv_h = set(); grown = True
        while grown:
            grown = False
            for k, (ns, c, f) in enumerate(defs):
                if k in inv_h or f.startswith('module'): continue
                if ns & need and re.match(r'(pub )?(abbrev|unfoldable|record|data)\s', f):
                    inv_h.add(k); need |= set(re.findall(W, f)); grown = True
        us = [u for u in uses if 'Statement.{statement}' not in u and not re.search(r'\.Tie as tie', u)]
        res = []
        if invs:
            t = '\n'.join(head) + ('\n' if head else '')
            t += '\n'.join(u for u in us) + ('\n' if us else '')
            t += f'use {mod}.Given as goal\n'
            for k in sorted(inv_h):
                ns, c, f = defs[k]
                f = re.sub(r'^abbrev (?!pub)', 'abbrev pub ', f); f = re.sub(r'^unfoldable (?!pub)', 'unfoldable pub ', f)
                f = re.sub(r'^(record|data) ', r'pub \1 ', f)
                f = re.sub(r'(?m)^  (?=' + W + r' :)', '  pub ', f) if f.startswith('pub record') else f
                t += '\n' + ''.join(x + '\n' for x in c) + f + '\n'
            for v in invs:
                t += '\n' + ''.join(x + '\n' for x in v['c']) + f'abbrev pub {v["name"]} : goal.{v["name"]}\n' + ''.join(x + '\n' for x in v['unf']) + f'{v["name"]} l ={v["body"]}\n'
            open(os.path.join(d, 'Invariants.antt'), 'w').write(t)
        kept = [a for a in answers if keep or not a['triv']]
        rest = [k for k in range(len(defs)) if k not in inv_h]
        if kept:
            t = '\n'.join(head) + ('\n' if head else '')
            t += '\n'.join(us) + ('\n' if us else '')
            if inv_h:
                top = []
                for k in sorted(inv_h):
                    mm = re.match(r'(?:(?:pub|abbrev|unfoldable|record|data) )*(' + W + ')', defs[k][2]); top.append(mm[1])
                t += f'use {mod}.Invariants.{{{", ".join(top)}}}\n'
            if cv.need_goals: t += f'use {mod}.Goals.{{{", ".join(sorted(cv.need_goals))}}}\n'
            t += f'use {mod}.Goals as goal\n'
            for k in rest:
                ns, c, f = defs[k]
                t += '\n' + ''.join(x + '\n' for x in c) + f + '\n'
            for a in kept:
                t += '\n' + ''.join(x + '\n' for x in a['c']) + f'pub {a["name"]} : goal.{a["name"]}\n' + ''.join(x + '\n' for x in a['unf']) + '\n'.join(x.rstrip('\n') for x in a['cl']) + '\n'
            open(os.path.join(d, 'Answers.antt'), 'w').write(t)
        elif rest and any(defs[k][2].strip() for k in rest):
            warn.append(f'{len(rest)} helpers were dropped with the answers')
        os.remove(path)
        print(f'{rel}: {len(invs)} invariants, {len(kept)} of {len(answers)} answers' + (', ' if warn else ''), *warn, sep='\n    ' if warn else '')
main()
