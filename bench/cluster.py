#!/usr/bin/env python3
"""One question by `dpoly-cluster --jobs 4` of this machine, against `dpoly solve --workers 4` and `dpoly-check`, by the clock.

    bench/cluster.py PROGRAM CHECKER NAME..

NAME is `scheduling:WORKS:PART` (jobs with these works, as 11,9,8, on one machine within time 10, whose speeds take this part of the least
energy) or `trid:N:BELOW` (the function trid of N variables, so far below its least value). A table on standard output."""
import itertools
import os
import subprocess
import sys
import tempfile
import time

TOP = os.path.dirname(os.path.dirname(os.path.abspath(__file__)))
sys.path.insert(1, os.path.join(TOP, 'checker'))
from dpoly_lines import SPLITS  # noqa: E402

MOST = 1048576  # the greatest budget of one call


def real(name, low, high):
    return f'(declare-const {name} Real)\n(assert (<= {low} {name} {high}))\n'


def scheduling(works, part):
    """Each job i starts at s, takes d and has the speed v; the least energy of all is that of one constant speed."""
    works = [int(it) for it in works.split(',')]
    text = ''
    for i, w in enumerate(works):
        text += real(f's{i}', 0, 10) + real(f'd{i}', f'(/ {w} 10)', 10) + real(f'v{i}', f'(/ {w} 10)', 10)
        text += f'(assert (= (* d{i} v{i}) {w}))\n(assert (<= (+ s{i} d{i}) 10))\n'
    for i, j in itertools.combinations(range(len(works)), 2):
        text += f'(assert (or (<= (+ s{i} d{i}) s{j}) (<= (+ s{j} d{j}) s{i})))\n'
    energy = ' '.join(f'(* {w} v{i} v{i})' for i, w in enumerate(works))
    return text + f'(assert (<= (+ {energy}) (* {part} (/ {sum(works) ** 3} 100))))\n(check-sat)\n'


def trid(count, below):
    n = int(count)
    text = ''.join(real(f'x{i}', f'(- {n * n})', n * n) for i in range(n))
    squares = ' '.join(f'(* (- x{i} 1) (- x{i} 1))' for i in range(n))
    products = ' '.join(f'(* x{i} x{i - 1})' for i in range(1, n))
    least = n * (n + 4) * (n - 1) // 6
    return text + f'(assert (<= (- (+ {squares}) (+ {products})) (- (- {least}) {below})))\n(check-sat)\n'


def timed(*words):
    begin = time.time()
    text = subprocess.run(words, stdout=subprocess.PIPE, stderr=subprocess.DEVNULL, text=True).stdout
    return time.time() - begin, text.split('\n')[0]


def splits(cert):
    with open(cert) as file:
        return sum(line.startswith(SPLITS) for line in file)


def by_cluster(program, checker, script, cert):
    """Seconds of the whole run, of its search, and the first line of the answer."""
    begin, search = time.time(), None
    words = [os.path.join(TOP, 'cluster', 'dpoly-cluster'), '--jobs', '4', script, cert]
    with tempfile.TemporaryDirectory() as folder:
        os.symlink(program, os.path.join(folder, 'dpoly'))
        os.symlink(checker, os.path.join(folder, 'dpoly-check'))
        driver = subprocess.Popen(words, stdout=subprocess.PIPE, stderr=subprocess.PIPE, text=True, env={**os.environ, 'PATH': folder + ':' + os.environ['PATH']})
        for line in driver.stderr:
            search = time.time() - begin if 'are joined' in line else search
        text = driver.stdout.read()
    return time.time() - begin, search, text.split('\n')[0]


def row(program, checker, name, folder):
    family, *words = name.split(':')
    script, cert = os.path.join(folder, 'script.smt2'), os.path.join(folder, 'cert')
    with open(script, 'w') as file:
        file.write({'scheduling': scheduling, 'trid': trid}[family](*words))
    solve, said = timed(program, 'solve', '--workers', '4', '--budget', str(MOST), script, cert)
    alone = splits(cert)
    check, _ = timed(checker, script, cert)
    whole, search, answer = by_cluster(program, checker, script, cert)
    many = splits(cert)
    print(f'| {name} | {said} | {alone} | {solve:.1f} | {check:.1f} | {answer} | {many} | {whole:.1f} | {search or 0:.1f} '
          f'| {whole / (solve + check):.2f} | {(search or 0) / solve:.2f} | {(search or 0) * alone / (solve * max(many, 1)):.2f} |', flush=True)


def main(program, checker, *names):
    print('| script | `solve` | splits | seconds | check | `dpoly-cluster` | splits | seconds | search | whole/(solve+check) | search/solve | a split |')
    print('|' + '---|' * 12)
    for name in names:
        with tempfile.TemporaryDirectory() as folder:
            row(os.path.abspath(program), os.path.abspath(checker), name, folder)


if __name__ == '__main__':
    main(*sys.argv[1:])
