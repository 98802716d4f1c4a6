"""SMT-LIB text as nested lists of words."""
import re

TOKEN = re.compile(r'[ \t\r\n]+|;[^\n]*|(\|[^|\\]*\||"(?:[^"]|"")*"|[()]|[^\s()|";]+)')


class Fault(Exception):
    """The text is no SMT-LIB, or none of Why3."""


def commands(text):
    """The commands of the text with the line of each, one after the other. A list has its words and lists; a quoted symbol
    keeps its bars."""
    stack, at, begin = [], 0, 0
    for found in TOKEN.finditer(text):
        if found.start() != at:
            break
        at = found.end()
        word = found[1]
        if word is None:
            continue
        if word == '(':
            if not stack:
                begin = found.start()
            stack.append([])
        elif not stack:
            raise Fault('%s: a command is wanted, and not %s' % (line_of(text, found.start()), shown(word)))
        elif word == ')':
            done = stack.pop()
            if stack:
                stack[-1].append(done)
            else:
                yield line_of(text, begin), done
        else:
            stack[-1].append(word)
    if at != len(text):
        raise Fault('%s: no token of SMT-LIB begins with %s' % (line_of(text, at), shown(text[at:at + 10])))
    if stack:
        raise Fault('%s: a parenthesis is not closed' % line_of(text, begin))


def line_of(text, at):
    return 'line %d' % (text.count('\n', 0, at) + 1)


def shown(text, most=60):
    """The text on one line, without control characters, and not longer than `most`."""
    text = ''.join(it if it.isprintable() else ' ' for it in text)
    return text if len(text) <= most else text[:most - 3] + '...'
