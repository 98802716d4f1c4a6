#!/usr/bin/env python3
"""Runs provers of Why3 on the goals of why3/examples and prints a table: `bench/why3.py [--seconds S] [PROVER ..]`.

Provers are dpoly (DPOLY names the folder of its programs, or they are on the path), z3, cvc5 and gappa, those that are there.
cvc5 has no section in Why3 1.5: it gets the driver of CVC4.
"""
import os
import re
import shutil
import subprocess
import sys
import tempfile

TOP = os.path.dirname(os.path.dirname(os.path.abspath(__file__)))
EXAMPLES = os.path.join(TOP, 'why3', 'examples')
CVC5 = '\n[prover]\nname = "cvc5"\nshortcut = "cvc5"\nversion = "1"\ncommand = "cvc5 --tlimit=%t000 --lang=smt2 %f"\ndriver = "cvc4_16"\n'
# Of each its word for Why3.
PROVERS = {'dpoly': 'dpoly', 'z3': 'Z3', 'cvc5': 'cvc5', 'gappa': 'Gappa'}


def main():
    words = sys.argv[1:]
    seconds = words[1] if words[:1] == ['--seconds'] else '10'
    asked = words[2 if words[:1] == ['--seconds'] else 0:] or [it for it in PROVERS if it == 'dpoly' or shutil.which(it)]
    table = {}
    with tempfile.TemporaryDirectory() as folder:
        env = dict(os.environ, WHY3CONFIG=os.path.join(folder, 'why3.conf'))

        def call(*command):
            return subprocess.run(command, env=env, stdin=subprocess.DEVNULL, stdout=subprocess.PIPE, stderr=subprocess.STDOUT, text=True).stdout

        call('why3', 'config', 'detect')
        with open(env['WHY3CONFIG'], 'a') as file:
            file.write(CVC5)
        listed = call('why3', 'config', 'list-provers')
        if 'dpoly' in asked:
            print(call(os.path.join(TOP, 'why3', 'dpoly-why3'), 'install').strip(), file=sys.stderr)
        for name in sorted(it for it in os.listdir(EXAMPLES) if it.endswith('.mlw')):
            for prover in asked:
                version = re.search(r'^%s (\S+)$' % PROVERS[prover], listed, re.M)
                word = '%s,%s,' % (PROVERS[prover], version[1]) if version else PROVERS[prover]
                said = call('why3', 'prove', '-t', seconds, '-P', word, os.path.join(EXAMPLES, name))
                for goal, result, time in re.findall(r'Goal (\S+)\.\nProver result is: (\w+)[^G]*?\((\d+\.\d+)s', said):
                    table.setdefault((name, goal), {})[prover] = '%s s' % time if result == 'Valid' else '-'
    print('| goal | %s |\n|---%s|' % (' | '.join(asked), '|---' * len(asked)))
    for (name, goal), found in table.items():
        print('| `%s` %s | %s |' % (name, goal, ' | '.join(found.get(it, '?') for it in asked)))
    print('| proved, of %d | %s |' % (len(table), ' | '.join(str(sum(found.get(it, '?')[-1] == 's' for found in table.values())) for it in asked)))


main()
