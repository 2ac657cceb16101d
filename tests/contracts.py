"""What the scripts of this folder read of the code's contracts: the calls of a text, where each stands, and its clauses."""

import pathlib
import re

TOP = pathlib.Path(__file__).resolve().parent.parent
CLAUSE = re.compile(r'(ensures|requires)\s+(\w+)?\s*\{')
CALL = re.compile(r'^ *(pub |pub\(crate\) )?(?:const )?fn (\w+)', re.MULTILINE)
HOME = re.compile(r'^(?:pub |pub\(crate\) )?(impl|trait)\b([^{]*)\{', re.MULTILINE)


def behind(text, at):
    """The place behind the brace that closes the one at a place."""
    depth = 0
    for place in range(at, len(text)):
        depth += {'{': 1, '}': -1}.get(text[place], 0)
        if depth == 0:
            return place + 1
    return len(text)


def contract(text, at):
    """The end of the signature that begins at a place, with its clauses, and these: of each its kind, its name (that of its kind, where it has none),
    and what it says."""
    found = []
    while text[at] not in '{;':
        clause = CLAUSE.match(text, at)
        if clause:
            at = behind(text, clause.end() - 1)
            found.append((clause[1], clause[2] or clause[1], text[clause.end():at - 1].strip()))
        elif text[at] == '[':
            at = text.index(']', at)
        elif text.startswith('//', at):
            at = text.index('\n', at)
        else:
            at += 1
    return at, found


def clauses(text, at, kinds=('ensures',)):
    """The names of the clauses of these kinds of a call, whose signature begins at a place."""
    return [name for kind, name, _ in contract(text, at)[1] if kind in kinds]


def home(text, at):
    """The type or trait in which a call stands at a place, and whether all calls of it are public; none of a function."""
    for block in HOME.finditer(text):
        if block.start() <= at < behind(text, block.end() - 1):
            words = re.sub(r'^\s*<(?:[^<>]|<[^<>]*>)*>', '', block[2])
            return re.match(r'\s*(\w+)', words)[1], block[1] == 'trait'
    return None, False
