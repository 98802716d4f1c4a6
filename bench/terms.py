"""Expressions of scripts, and their products written in other ways."""
from __future__ import annotations

import re
from typing import Union

Tree = Union[str, list]


def parse(text: str) -> list[Tree]:
    text = re.sub(r';[^\n]*', '', text)
    stack: list[list[Tree]] = [[]]
    for token in re.findall(r'\(|\)|\|[^|]*\||"[^"]*"|[^\s()]+', text):
        if token == '(':
            stack.append([])
        elif token == ')':
            done = stack.pop()
            stack[-1].append(done)
        else:
            stack[-1].append(token)
    return stack[0]


def spelled(tree: Tree) -> str:
    return tree if isinstance(tree, str) else '(' + ' '.join(map(spelled, tree)) + ')'


def has_power(tree: Tree) -> bool:
    """Whether a factor stands three times or more, or twice but not as the first two."""
    if isinstance(tree, str):
        return False
    behind = range(3, len(tree) if tree[:1] == ['*'] else 0)
    return any(tree[it] in tree[1:it] for it in behind) or any(map(has_power, tree))


def in_twos(tree: Tree) -> Tree:
    """The same with products of two factors alone, from left to right."""
    if isinstance(tree, str):
        return tree
    tree = [in_twos(it) for it in tree]
    while tree[:1] == ['*'] and len(tree) > 3:
        tree = ['*', ['*', tree[1], tree[2]], *tree[3:]]
    return tree


def in_squares(tree: Tree) -> Tree:
    """The same with each power as a square of a square, for programs that read none."""
    if isinstance(tree, str):
        return tree
    tree = [in_squares(it) for it in tree]
    if tree[:1] != ['*']:
        return tree
    texts = [spelled(it) for it in tree[1:]]
    firsts = [at for at, it in enumerate(texts) if it not in texts[:at]]
    factors = [power(tree[1 + at], texts.count(texts[at])) for at in firsts]
    return ['*', *factors] if len(factors) > 1 else factors[0]


def power(factor: Tree, times: int) -> Tree:
    if times == 1:
        return factor
    half = power(factor, times // 2)
    square: Tree = ['*', half, half]
    return square if times % 2 == 0 else ['*', square, factor]
