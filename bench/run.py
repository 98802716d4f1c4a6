#!/usr/bin/env python3
"""Runs dpoly, the plain twin and other solvers on the scripts, one after another, and prints a table.

  run.py [--dpoly PATH] [--only TEXT] [--names NAME,NAME..] [--timeout 20] [--repeat 3]
         [--solvers dpoly,twin,twinf,twinmax,z3,cvc5] [--json OUT] [--md OUT] [--callgrind NAME,NAME..]
         [--from JSON..] (no run: tables from saved results)

Times and timeouts are CPU seconds (user + system) of the process, the least of the repeats. Means floor them at --floor,
since starting a process costs a few milliseconds. `twinf` is the twin with f64, `twinmax` has a budget of 1,048,576.

Reported as a contradiction: an unsat where another solver or the construction of the script says sat; a delta-sat whose
point, put exactly into the script (smt.py), is not within delta; solvers that differ; a certificate that `check` refuses.
Reported as `delta`, and no contradiction: a delta-sat whose point is within delta where another solver says unsat. Both
are true, since delta-sat speaks of the loosened script.
"""
import argparse
import json
import math
import os
import re
import resource
import signal
import subprocess
import sys
import tempfile
import time
from fractions import Fraction as F

HERE = os.path.dirname(os.path.abspath(__file__))
sys.path.insert(0, HERE)
import smt

SCRIPTS = os.path.join(HERE, 'scripts')
TWIN = os.path.join(HERE, 'twin', 'target', 'release', 'twin')


def run(cmd, timeout):
    """(status or None, stdout, stderr, cpu seconds, wall seconds). The limit is CPU time; ten times as much on the wall."""
    def limits():
        resource.setrlimit(resource.RLIMIT_AS, (6 << 30, 6 << 30))
        resource.setrlimit(resource.RLIMIT_CPU, (math.ceil(timeout), math.ceil(timeout) + 1))

    with tempfile.TemporaryFile() as out, tempfile.TemporaryFile() as err:
        t0 = time.monotonic()
        p = subprocess.Popen(cmd, stdout=out, stderr=err, stdin=subprocess.DEVNULL, preexec_fn=limits)
        end = t0 + 10 * timeout
        pause = 0.0005
        while True:
            pid, st, ru = os.wait4(p.pid, os.WNOHANG)
            if pid:
                break
            if time.monotonic() > end:
                p.kill()
                _, st, ru = os.wait4(p.pid, 0)
                st = None
                break
            time.sleep(pause)
            pause = min(pause * 1.5, 0.02)
        p.returncode = 0
        wall = time.monotonic() - t0
        out.seek(0)
        err.seek(0)
        code = None if st is None else os.waitstatus_to_exitcode(st)
        if code in (-signal.SIGXCPU, -signal.SIGKILL):
            code = None
        return code, out.read().decode('utf8', 'replace'), err.read().decode('utf8', 'replace'), ru.ru_utime + ru.ru_stime, wall


def verdict(text, code):
    l = text.split('\n')[0].strip()
    if code is None:
        return 'timeout'
    if l in ('sat', 'unsat', 'delta-sat', 'unknown'):
        return l
    if l.startswith('unknown '):
        return 'unknown ' + l.split()[1]
    if l == 'timeout' or 'timeout' in text[:200]:
        return 'timeout'
    if 'not supported' in text or 'fault' in l or 'error' in text[:300].lower():
        return 'refused'
    return 'error %s' % code


SOLVED = ('sat', 'unsat', 'delta-sat')


def command(s, script, a, cert):
    k = str(a.workers)
    if s == 'dpoly':
        c = [a.dpoly, 'solve', script, cert]
        return c + (['--workers', k] if a.workers > 1 else [])
    if s == 'twin':
        return [TWIN, script, '--workers', k, '--seconds', str(a.timeout)]
    if s == 'twinf':
        return [TWIN, script, '--num', 'f64', '--workers', k, '--seconds', str(a.timeout)]
    if s == 'twinmax':
        return [TWIN, script, '--workers', k, '--seconds', str(a.timeout), '--budget', '1048576']
    if s == 'z3':
        return ['z3', script]
    if s in ('cvc5', 'cvc4'):
        return [s, script]
    raise KeyError(s)


def index():
    with open(os.path.join(SCRIPTS, 'INDEX.tsv')) as f:
        head = f.readline().rstrip('\n').split('\t')
        rows = [dict(zip(head, l.rstrip('\n').split('\t'))) for l in f]
    return {r['script']: r for r in rows}


def point_of(text, script, num):
    v = {}
    vals = {}
    for l in text.split('\n')[2:]:
        if l.startswith(';') or ' ' not in l:
            continue
        n, x = l.rsplit(' ', 1)
        vals[n.strip('|')] = x
    for n, s in script.axes:
        x = vals[n]
        if s == 'Bool':
            v[n] = x == 'true'
        else:
            v[n] = F(float(x)) if num == 'f64' else smt.dyadic(x)
    return v


def measure(names, rows, a):
    res = {}
    solvers = [s for s in a.solvers if s != 'dpoly' or a.dpoly]
    with tempfile.TemporaryDirectory() as tmp:
        for n in names:
            path = os.path.join(SCRIPTS, n + '.smt2')
            with open(path) as f:
                script = smt.Script(f.read())
            res[n] = {}
            cert = os.path.join(tmp, 'cert')
            for rep in range(a.repeat):
                for s in solvers:
                    old = res[n].get(s)
                    if old and (old['cpu'] > a.once or old['verdict'] == 'timeout'):
                        continue
                    code, out, err, cpu, wall = run(command(s, path, a, cert), a.timeout + (1 if s[:4] == 'twin' else 0))
                    v = verdict(out, code)
                    if v.startswith('error') and 'timeout' in err or v == 'unknown time':
                        v = 'timeout'
                    r = {'verdict': v, 'cpu': cpu, 'wall': wall}
                    if old:
                        if old['verdict'] != v:
                            r['changed'] = old['verdict']
                        r['cpu'] = min(cpu, old['cpu'])
                        r['wall'] = min(wall, old['wall'])
                    m = re.search(r'^; (.*)$', out, re.M)
                    if m:
                        w = m.group(1).split()
                        st = dict(zip(w[::2], w[1::2]))
                        for k in ('boxes', 'branches', 'pulls', 'fwd', 'bwd', 'solve_s', 'nodes', 'atoms'):
                            r[k] = float(st[k])
                        if old:
                            r['solve_s'] = min(r['solve_s'], old['solve_s'])
                    if s[:4] in ('twin', 'dpol') and v == 'delta-sat' and rep == 0:
                        pt = point_of(out, script, 'f64' if s == 'twinf' else 'dyadic')
                        loosen, off = smt.check_point(script, pt)
                        r['loosen'], r['off'] = float(loosen), float(off)
                        r['point_ok'] = bool(loosen <= F(1, 1024) and off <= F(1, 1024))
                    elif old and 'point_ok' in old:
                        for k in ('loosen', 'off', 'point_ok'):
                            r[k] = old[k]
                    if s == 'dpoly' and code == 0:
                        r['cert'] = os.path.getsize(cert)
                        c2, o2, _, cpu2, _ = run([a.dpoly, 'check', path, cert], a.timeout * 3)
                        r['check'] = o2.split('\n')[0]
                        r['check_cpu'] = min(cpu2, old['check_cpu']) if old and 'check_cpu' in old else cpu2
                        want = {'unsat': 'confirmed unsat', 'delta-sat': 'confirmed delta-sat'}.get(v, 'open')
                        r['check_ok'] = c2 == 0 and r['check'].startswith(want)
                    res[n][s] = r
            print('%-32s %s' % (n, '  '.join('%s %s %.3f' % (s, r['verdict'], r['cpu']) for s, r in res[n].items())), file=sys.stderr, flush=True)
            if a.json:
                json.dump(res, open(a.json, 'w'), indent=0)
    return res


def flags(n, r, row):
    hard, soft = [], []
    peers = {s: r[s]['verdict'] for s in ('z3', 'cvc5', 'cvc4') if s in r and r[s]['verdict'] in SOLVED}
    if len(set(peers.values())) > 1:
        hard.append('peers differ ' + str(peers))
    said = set(peers.values()) | ({row['status']} if row['status'] in SOLVED else set())
    if len(said) > 1 and len(set(peers.values())) <= 1:
        hard.append('index says %s, peers %s' % (row['status'], peers))
    for s in ('dpoly', 'twin', 'twinf', 'twinmax'):
        if s not in r:
            continue
        v = r[s]['verdict']
        if v == 'unsat' and 'sat' in said:
            hard.append(s + ' unsat against sat')
        if v == 'delta-sat':
            if not r[s].get('point_ok', True):
                hard.append('%s point is not within delta: loosen %.3g, off %.3g' % (s, r[s]['loosen'], r[s]['off']))
            elif 'unsat' in said:
                soft.append('%s delta-sat, exactly unsat (delta)' % s)
                if row['margin_at_least'] and float(row['margin_at_least']) > 2 ** -10:
                    hard.append('index margin is wrong')
        if s == 'dpoly' and 'check_ok' in r[s] and not r[s]['check_ok']:
            hard.append('dpoly check: ' + r[s]['check'])
        if 'changed' in r[s]:
            soft.append('%s also answered %s' % (s, r[s]['changed']))
    return hard, soft


def gmean(l):
    return math.exp(sum(map(math.log, l)) / len(l)) if l else float('nan')


def tables(res, rows, a):
    o = []
    solvers = [s for s in ('dpoly', 'twin', 'twinf', 'twinmax', 'z3', 'cvc5', 'cvc4') if any(s in r for r in res.values())]
    short = {'delta-sat': 'dsat', 'timeout': 't/o', 'unknown budget': 'budget', 'unknown width': 'width', 'unknown time': 't/o'}

    def t(n, s):
        return max(res[n][s]['cpu'], a.floor)

    def ok(n, s):
        return s in res[n] and res[n][s]['verdict'] in SOLVED

    def best(n):
        l = [t(n, s) for s in ('z3', 'cvc5', 'cvc4') if ok(n, s)]
        return min(l) if l else None

    mine = 'dpoly' if 'dpoly' in solvers else 'twin'
    o.append('## Scripts\n')
    head = ['script', 'status', 'margin'] + ['%s' % s for s in solvers] + ['boxes', 'boxes/s']
    if mine == 'dpoly':
        head += ['dpoly/twin']
    head += [mine + '/best peer'] + (['cert bytes', 'check s'] if mine == 'dpoly' else []) + ['notes']
    o.append('| ' + ' | '.join(head) + ' |')
    o.append('|' + '---|' * len(head))
    hard_all = []
    for n in res:
        r, row = res[n], rows[n]
        hard, soft = flags(n, r, row)
        hard_all += ['%s: %s' % (n, h) for h in hard]
        c = [n, row['status'], row['margin_at_least'] or ('~' + row['least_loosening_found'] if row['status'] == 'unsat' else '')]
        for s in solvers:
            c.append('%s %.3f' % (short.get(r[s]['verdict'], r[s]['verdict']), r[s]['cpu']) if s in r else '')
        w = r.get('twin')
        c += ['%d' % w['boxes'] if w and 'boxes' in w else '', '%.0fk' % (w['boxes'] / max(w['solve_s'], 1e-6) / 1e3) if w and w.get('boxes', 0) >= 1000 else '']
        if mine == 'dpoly':
            c.append('%.2f' % (t(n, 'dpoly') / t(n, 'twin')) if ok(n, 'dpoly') and ok(n, 'twin') else '')
        if ok(n, mine):
            c.append('%.3g' % (t(n, mine) / best(n)) if best(n) else 'alone')
        else:
            c.append('peer alone' if best(n) else 'none')
        if mine == 'dpoly':
            c += [str(r['dpoly'].get('cert', '')), '%.3f' % r['dpoly']['check_cpu'] if 'check_cpu' in r['dpoly'] else '']
        c.append('; '.join(['**%s**' % h for h in hard] + soft))
        o.append('| ' + ' | '.join(c) + ' |')
    o.append('\n## Families: solved of all\n')
    fams = {}
    for n in res:
        fams.setdefault(rows[n]['family'], []).append(n)
    o.append('| family | scripts | ' + ' | '.join(solvers) + ' |')
    o.append('|' + '---|' * (len(solvers) + 2))
    for f in sorted(fams):
        o.append('| %s | %d | %s |' % (f, len(fams[f]), ' | '.join(str(sum(ok(n, s) for n in fams[f])) for s in solvers)))
    o.append('| all | %d | %s |' % (len(res), ' | '.join(str(sum(ok(n, s) for n in res)) for s in solvers)))
    o.append('| of these alone | | %s |' % ' | '.join(
        str(sum(ok(n, s) and not any(ok(n, q) for q in solvers if q != s and not (q[:4] == s[:4] == 'twin')) for n in res)) for s in solvers))
    o.append('\n## Means\n')
    o.append('Geometric means of CPU-time ratios over scripts that both solve (times floored at %.0f ms), and the number of scripts.\n' % (a.floor * 1e3))
    o.append('| ratio | mean | scripts | mean over scripts where either takes 50 ms or more | scripts |')
    o.append('|---|---|---|---|---|')
    pairs = [('dpoly', 'twin'), ('dpoly', 'twinf'), ('dpoly', 'z3'), ('dpoly', 'cvc5'), ('twin', 'twinf'), ('twin', 'z3'), ('twin', 'cvc5'), ('z3', 'cvc5')]
    for x, y in pairs:
        both = [n for n in res if ok(n, x) and ok(n, y)]
        if not both:
            continue
        big = [n for n in both if max(t(n, x), t(n, y)) >= .05]
        o.append('| %s/%s | %.3g | %d | %.3g | %d |' % (x, y, gmean([t(n, x) / t(n, y) for n in both]), len(both), gmean([t(n, x) / t(n, y) for n in big]), len(big)))
    both = [n for n in res if 'twin' in res[n] and 'twinf' in res[n] and res[n]['twin'].get('boxes', 0) >= 1000 and res[n]['twinf'].get('boxes', 0) >= 1000]
    if both:
        rate = lambda s, k: [res[n][s][k] / max(res[n][s]['solve_s'], 1e-6) for n in both]
        o.append('\nOver the %d scripts with 1,000 boxes or more, of one thread: the dyadic twin works on %.3g boxes/s (geometric mean; least %.3g, most %.3g), '
                 'the f64 twin on %.3g; node steps (forward and backward) %.3g/s and %.3g/s.' % (
                     len(both), gmean(rate('twin', 'boxes')), min(rate('twin', 'boxes')), max(rate('twin', 'boxes')), gmean(rate('twinf', 'boxes')),
                     gmean([(res[n]['twin']['fwd'] + res[n]['twin']['bwd']) / max(res[n]['twin']['solve_s'], 1e-6) for n in both]),
                     gmean([(res[n]['twinf']['fwd'] + res[n]['twinf']['bwd']) / max(res[n]['twinf']['solve_s'], 1e-6) for n in both])))
    o.append('\n## Contradictions\n')
    o.append('\n'.join('- ' + h for h in hard_all) or 'None.')
    return '\n'.join(o) + '\n'


def callgrind(names, rows, a):
    o = ['\n## Instructions (callgrind, millions, whole process)\n']
    solvers = [s for s in a.solvers if (s != 'dpoly' or a.dpoly) and s != 'twinmax']
    o.append('| script | ' + ' | '.join(solvers) + ' | twin per box | twin per node step |')
    o.append('|' + '---|' * (len(solvers) + 3))
    with tempfile.TemporaryDirectory() as tmp:
        for n in names:
            path = os.path.join(SCRIPTS, n + '.smt2')
            c = [n]
            extra = ['', '']
            for s in solvers:
                b = argparse.Namespace(**vars(a))
                b.timeout = 3000
                code, out, err, cpu, _ = run(['valgrind', '--tool=callgrind', '--callgrind-out-file=' + os.path.join(tmp, 'cg')] + command(s, path, b, os.path.join(tmp, 'cert')), a.cgtime)
                m = re.search(r'Collected : (\d+)', err)
                c.append('%s %.1f' % (verdict(out, code), int(m.group(1)) / 1e6) if m else 'stopped')
                if s == 'twin' and m:
                    w = re.search(r'^; (.*)$', out, re.M).group(1).split()
                    st = dict(zip(w[::2], w[1::2]))
                    extra = ['%.0f' % (int(m.group(1)) / float(st['boxes'])), '%.0f' % (int(m.group(1)) / (float(st['fwd']) + float(st['bwd'])))]
            o.append('| ' + ' | '.join(c + extra) + ' |')
            print(o[-1], file=sys.stderr, flush=True)
    return '\n'.join(o) + '\n'


def main():
    p = argparse.ArgumentParser()
    p.add_argument('--dpoly')
    p.add_argument('--only', default='', help='part of the name')
    p.add_argument('--names', default='', help='names separated by commas')
    p.add_argument('--timeout', type=float, default=20)
    p.add_argument('--repeat', type=int, default=3)
    p.add_argument('--once', type=float, default=1.0, help='what took longer than this is not repeated')
    p.add_argument('--workers', type=int, default=1)
    p.add_argument('--floor', type=float, default=0.005)
    p.add_argument('--solvers', default='dpoly,twin,twinf,z3,cvc5')
    p.add_argument('--json')
    p.add_argument('--from', dest='frm', nargs='*')
    p.add_argument('--md')
    p.add_argument('--callgrind', default='')
    p.add_argument('--cgtime', type=float, default=120)
    a = p.parse_args()
    a.solvers = a.solvers.split(',')
    rows = index()
    text = ''
    if a.callgrind:
        text = callgrind(a.callgrind.split(','), rows, a)
    else:
        if a.frm:
            res = {}
            for f in a.frm:
                for n, r in json.load(open(f)).items():
                    res.setdefault(n, {}).update(r)
            res = {n: r for n, r in res.items() if a.only in n}
        else:
            names = a.names.split(',') if a.names else [n for n in rows if a.only in n]
            res = measure(names, rows, a)
        text = tables(res, rows, a)
    if a.md:
        open(a.md, 'a').write(text)
    else:
        print(text)


if __name__ == '__main__':
    main()
