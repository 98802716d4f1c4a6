"""The section of dpoly in the configuration of Why3."""
import os
import re
import subprocess
import sys

import runs
from runs import Ended, failure

HERE = os.path.dirname(os.path.realpath(__file__))
USAGE = 'usage: dpoly-why3 install [--workers K] [CONFIG], or uninstall [CONFIG]'
SECTION = '''
[prover]
name = "dpoly"
shortcut = "dpoly"
version = "%s"
command = "'%s' -t %%t -m %%m%s %%f"
driver = "%s"
'''
# A section of Why3's file with this name in it, up to the next section.
FOUND = re.compile(r'\n*^\[prover\]\n(?:(?!\[).*\n)*?name = "dpoly"\n(?:(?!\[).*\n?)*', re.M)


def change(command, words):
    """Adds the section, or takes it away. Ends with what is to be printed."""
    words, workers = list(words), ''
    if command == 'install' and words[:1] == ['--workers']:
        if not re.fullmatch('[0-9]{1,2}', ''.join(words[1:2])) or not 1 <= int(words[1]) <= 64:
            raise Ended('Failure: --workers takes a number from 1 to 64', 3)
        workers, words = ' --workers %d' % int(words[1]), words[2:]
    if len(words) > 1 or words and words[0].startswith('-'):
        raise Ended('Failure: ' + USAGE, 3)
    path = words[0] if words else os.environ.get('WHY3CONFIG') or os.path.expanduser('~/.why3.conf')
    if command == 'install' and not os.path.exists(path):
        why3(path, 'detect')
    try:
        with open(path, encoding='utf-8') as file:
            text = file.read()
    except (OSError, UnicodeDecodeError) as error:
        raise Ended('Failure: %s: %s' % (path, getattr(error, 'strerror', None) or error), 4) from None
    kept = FOUND.sub('\n', text).rstrip('\n') + '\n'
    if command == 'install':
        kept += SECTION % (version(), in_quotes(own_path()), workers, in_quotes(os.path.join(HERE, 'dpoly.drv')))
    replace(path, kept)
    if command == 'install' and 'dpoly ' not in why3(path, 'list-provers'):
        raise failure('why3 does not list dpoly with the section in %s' % path)
    raise Ended('%s: dpoly is %s' % (path, 'a prover' if command == 'install' else 'no prover'))


def own_path():
    """Where this program was called, which may be a link that stays when the package is renewed."""
    called = os.path.abspath(sys.argv[0])
    return called if os.path.realpath(called) == os.path.realpath(os.path.join(HERE, 'dpoly-why3')) else os.path.join(HERE, 'dpoly-why3')


def version():
    """What the program says of itself, on standard error."""
    said = subprocess.run([runs.program('dpoly'), '--version'], stdin=subprocess.DEVNULL, stdout=subprocess.DEVNULL, stderr=subprocess.PIPE, text=True).stderr
    found = re.fullmatch(r'dpoly (\S+)\n', said)
    if not found:
        raise failure('dpoly --version says %r' % said[:40])
    return found[1]


def in_quotes(path):
    if re.search(r'["\'\\\n%]', path):
        raise failure('Why3 cannot call a program whose path has quotes, %% or backslashes: %s' % path)
    return path


def why3(path, command):
    try:
        done = subprocess.run(['why3', 'config', '-C', os.path.abspath(path), command], stdin=subprocess.DEVNULL, stdout=subprocess.PIPE, stderr=subprocess.STDOUT, text=True)
    except OSError:
        raise failure('there is no why3 on the path') from None
    if done.returncode:
        raise failure('why3 config %s: %s' % (command, done.stdout.strip().split('\n')[-1]))
    return done.stdout


def replace(path, text):
    path = os.path.realpath(path)
    draft = '%s.%d' % (path, os.getpid())
    try:
        with open(draft, 'x', encoding='utf-8') as file:
            file.write(text)
        if os.path.exists(path):
            os.chmod(draft, os.stat(path).st_mode & 0o777)
        os.replace(draft, path)
    except OSError as error:
        if os.path.exists(draft):
            os.remove(draft)
        raise Ended('Failure: %s: %s' % (path, error.strerror), 5) from None
