"""A small reader of the scripts: exact truth of a script at a point, and the least
loosening at which a point satisfies it. It knows no interval, clause, box or tree."""
from fractions import Fraction as F
import re

TOK = re.compile(r';[^\n\r]*|"(?:[^"]|"")*"|\|[^|]*\||[()]|[^\s()|";]+')


def sexps(text):
    stack = [[]]
    for t in TOK.findall(text):
        if t[0] in ';"':
            continue
        if t == '(':
            stack.append([])
        elif t == ')':
            x = stack.pop()
            stack[-1].append(x)
            if len(stack) == 1 and x[:1] == ['exit']:
                break
        else:
            stack[-1].append(t[1:-1] if t[0] == '|' else t)
    return stack[0]


NUM = re.compile(r'^\d+(\.\d*)?$')


class Script:
    def __init__(self, text):
        self.axes, self.macros, self.asserts = [], {}, []
        self.info = {}
        for c in sexps(text):
            if c[0] in ('declare-const', 'declare-fun'):
                self.axes.append((c[1], c[-1]))
            elif c[0] == 'define-fun':
                self.macros[c[1]] = ([p[0] for p in c[2]], c[4])
            elif c[0] == 'assert':
                self.asserts.append(c[1])
            elif c[0] == 'set-info' and len(c) > 2:
                self.info[c[1]] = c[2]
        self.code = None

    # ---- compiled to Python source: `num` is how a literal is written
    def real_or_bool(self, s, env, out, num):
        """Returns ('r', source) or ('b', pos source, neg source): a Bool is its least loosenings."""
        if isinstance(s, str):
            if s in env:
                return env[s]
            if NUM.match(s):
                return ('r', num(F(s.rstrip('.'))), F(s.rstrip('.')))
            if s == 'true':
                return ('b', '0', 'BIG')
            if s == 'false':
                return ('b', 'BIG', '0')
            if s in self.macros:
                return self.real_or_bool(self.macros[s][1], self.top, out, num)
            raise KeyError(s)
        h, a = s[0], s[1:]
        if h == '!':
            return self.real_or_bool(a[0], env, out, num)
        if h == 'let':
            e = dict(env)
            for n, t in a[0]:
                e[n] = self.real_or_bool(t, env, out, num)
            return self.real_or_bool(a[1], e, out, num)
        if h in self.macros:
            ps, body = self.macros[h]
            e = dict(self.top)
            for p, t in zip(ps, a):
                e[p] = self.real_or_bool(t, env, out, num)
            return self.real_or_bool(body, e, out, num)
        v = [self.real_or_bool(t, env, out, num) for t in a]

        def name(src):
            n = 't%d' % len(out)
            out.append('%s = %s' % (n, src))
            return n

        if h in '+-*/' and v[0][0] == 'r':
            cs = [x[2] for x in v]
            if all(c is not None for c in cs):
                c = cs[0]
                if len(cs) == 1:
                    c = -c if h == '-' else c
                for d in cs[1:]:
                    c = c + d if h == '+' else c - d if h == '-' else c * d if h == '*' else c / d
                return ('r', num(c), c)
            if len(v) == 1:
                return ('r', name('-' + v[0][1]), None) if h == '-' else v[0]
            return ('r', name((' %s ' % h).join(x[1] for x in v)), None)

        def mx(l):
            return name('max(%s)' % ', '.join(l)) if len(l) > 1 else l[0]

        def mn(l):
            return name('min(%s)' % ', '.join(l)) if len(l) > 1 else l[0]

        def xor(a, b):
            return (mn([mx([a[1], b[2]]), mx([a[2], b[1]])]), mn([mx([a[1], b[1]]), mx([a[2], b[2]])]))

        if h == 'not':
            return ('b', v[0][2], v[0][1])
        if h == 'and':
            return ('b', mx([x[1] for x in v]), mn([x[2] for x in v]))
        if h == 'or':
            return ('b', mn([x[1] for x in v]), mx([x[2] for x in v]))
        if h == '=>':
            r = v[-1]
            for x in reversed(v[:-1]):
                r = ('b', mn([x[2], r[1]]), mx([x[1], r[2]]))
            return r
        if h == 'xor':
            r = v[0]
            for x in v[1:]:
                p, n = xor(r, x)
                r = ('b', p, n)
            return r
        if h == 'ite':
            c, x, y = v
            return ('b', mn([mx([c[1], x[1]]), mx([c[2], y[1]])]), mn([mx([c[1], x[2]]), mx([c[2], y[2]])]))
        if h in ('<', '<=', '>', '>=', '=', 'distinct'):
            if h == 'distinct':
                pairs = [(i, j) for i in range(len(v)) for j in range(i + 1, len(v))]
            else:
                pairs = [(i, i + 1) for i in range(len(v) - 1)]
            ps, ns = [], []
            for i, j in pairs:
                if v[i][0] == 'b':
                    p, n = xor(v[i], v[j])
                    if h == '=':
                        p, n = n, p
                else:
                    d = name('%s - (%s)' % (v[i][1], v[j][1]))
                    le, ge = name('max(0, %s)' % d), name('max(0, -%s)' % d)
                    if h[0] == '<':
                        p, n = le, ge
                    elif h[0] == '>':
                        p, n = ge, le
                    elif h == '=':
                        p, n = name('abs(%s)' % d), '0'
                    else:
                        p, n = '0', name('abs(%s)' % d)
                ps.append(p)
                ns.append(n)
            return ('b', mx(ps), mn(ns))
        raise KeyError(h)

    def compile(self, exact):
        num = (lambda c: 'F(%d, %d)' % (c.numerator, c.denominator)) if exact else (lambda c: repr(float(c)))
        self.top = {}
        for i, (n, s) in enumerate(self.axes):
            self.top[n] = ('r', 'x[%d]' % i, None) if s == 'Real' else ('b', 'x[%d][0]' % i, 'x[%d][1]' % i)
        out, parts = [], []
        for s in self.asserts:
            parts.append(self.real_or_bool(s, self.top, out, num)[1])
        body = '\n'.join('    ' + l for l in out)
        src = 'def f(x):\n%s\n    return max(0, %s)\n' % (body, ', '.join(parts + ['0']))
        g = {'F': F, 'BIG': 10 ** 9}
        exec(src, g)
        return g['f']

    def bounds(self):
        """Declared interval of each Real axis, an end is None where it is missing."""
        names = {n for n, s in self.axes if s == 'Real'}
        self.top = {}
        for i, (n, s) in enumerate(self.axes):
            self.top[n] = ('r', n, None) if s == 'Real' else ('b', n, n)
        lo, hi = {}, {}

        def side(s):
            try:
                r = self.real_or_bool(s, self.top, [], repr)
            except KeyError:
                return None
            if r[0] != 'r':
                return None
            return (r[1], None) if isinstance(s, str) and r[1] in names else (None, r[2])

        def walk(s):
            if not isinstance(s, list):
                return
            if s[0] == '!':
                walk(s[1])
            elif s[0] == 'and':
                for t in s[1:]:
                    walk(t)
            elif s[0] in ('<', '<=', '>', '>=', '='):
                v = [side(t) for t in s[1:]]
                for a, b in zip(v, v[1:]):
                    if not a or not b:
                        continue
                    for p, q, flip in ((a, b, False), (b, a, True)):
                        if p[0] and q[1] is not None:
                            up = (s[0][0] == '<') != flip
                            if up or s[0] == '=':
                                hi[p[0]] = min(hi.get(p[0], q[1]), q[1])
                            if not up or s[0] == '=':
                                lo[p[0]] = max(lo.get(p[0], q[1]), q[1])

        for s in self.asserts:
            walk(s)
        return {n: (lo.get(n), hi.get(n)) for n in names}

    def point(self, values):
        """values: name -> Fraction or bool, in the compiled form's order."""
        x = []
        for n, s in self.axes:
            v = values[n]
            x.append(v if s == 'Real' else ((0, 10 ** 9) if v else (10 ** 9, 0)))
        return x


def dyadic(t):
    if t == '0':
        return F(0)
    if 'b' in t:
        m, e = t.split('b')
        return F(int(m)) * (F(2) ** int(e))
    return F(t)


def answer_point(lines, axes):
    """Point lines `NAME V` of an answer."""
    d = {}
    for l in lines:
        w = l.rsplit(' ', 1)
        if len(w) == 2:
            n = w[0].strip('|')
            d[n] = {'true': True, 'false': False}.get(w[1], w[1])
    return {n: (d[n] if s == 'Bool' else dyadic(d[n])) for n, s in axes}


def check_point(script, values, delta=F(1, 1024)):
    """Least loosening at the point (exact), and how far it lies outside the declared box."""
    f = script.compile(True)
    loosen = f(script.point(values))
    out = F(0)
    for n, (lo, hi) in script.bounds().items():
        v = values[n]
        if lo is not None:
            out = max(out, lo - v)
        if hi is not None:
            out = max(out, v - hi)
    return loosen, out
