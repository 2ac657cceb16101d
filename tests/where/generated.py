#!/usr/bin/env python3
"""Draws files for ten small schemas that have every form that rules are made of, and says which rules they break:

    tests/where/generated.py SEED COUNT FOLDER [--only SCHEMA,..]              writes them
    tests/where/generated.py SEED COUNT FOLDER [--only SCHEMA,..] PROGRAM      runs PROGRAM over them too, and compares

FOLDER gets a folder for each, with schema.exp, file.stp, and in `expected` the lines of the report that begin with `fault`, as the evaluator beside this
script finds them; `undecided` has the rules that it does not decide, with why. The files have no other fault. The schemas are those of schemas.py, by
name: logic, simple, aggregates, types, graph, derived, steps, made, whole, and rare, which has what a program may leave out: LIKE, parts of strings,
procedures, functions in functions, real powers .. . Some rules are drawn too.

PROGRAM is run as `PROGRAM schema.exp file.stp --rules --all --explain=1000`. It must print the lines of `expected` and no other that begins with `fault`, but
for a rule of which it says that it is not checked, and for an instance of which it says that the rule is not decided. What differs is printed, and the status
is 1 if something does."""

import concurrent.futures
import pathlib
import random
import re
import subprocess
import sys
import threading

sys.dont_write_bytecode = True
sys.path.append(str(pathlib.Path(__file__).resolve().parent))
import rules
import schema_text
from schema_text import Collection, Enumeration, Named, Select, Simple
from schemas import SCHEMAS
from world import Dictionary

sys.setrecursionlimit(100000)
threading.stack_size(2 ** 29)
HEADER = "ISO-10303-21;HEADER;FILE_DESCRIPTION((''),'2;1');FILE_NAME('','',(''),(''),'','','');FILE_SCHEMA(('%s'));ENDSEC;DATA;\n"
TAIL = 'ENDSEC;END-ISO-10303-21;\n'
SECONDS = 60

SPELLED = {
    'INTEGER': ['-2', '-1', '0', '1', '1', '2', '2', '3', '4', '7'],
    'REAL': ['-1.5', '0.', '0.5', '1.', '1.', '1.', '2.', '2.', '1.E1'],
    'STRING': ["''", "'a'", "'a'", "'b'", "'abc'", "'abc'", "'a b'", "'bc'", "'ABC'", "'it''s'", "'12'", "'-1.5'", "'*'", "'a\\X\\E4'"],
    'BOOLEAN': ['.T.', '.F.'],
    'LOGICAL': ['.T.', '.F.', '.U.'],
    'BINARY': ['"0"', '"15"', '"16"', '"05"', '"37"', '"0A3"'],
}
SPELLED['NUMBER'] = SPELLED['INTEGER'] + SPELLED['REAL']

# An entity of which there is one instance for each of another, which it names by its last attribute.
ONE_FOR_EACH = {'NAMED': ('ABOUT', 'NODE')}

# What expressions are drawn of, by schema: operands of each kind, which are L logical, I integer, N number, S string, A list, B bag and T set of integers,
# P a point or a node, Q a list of these; and what `x` behind QUERY over a Q has.
OPERANDS = {
    'logic': {'L': ['b', 'c', 'l', 'm', 'a', 'd', 'n', 'p.b', 'p.m', 'UNKNOWN', 'TRUE', 'FALSE', 'i > 1', 'same(m)', 'TRUE IN ls'], 'I': ['i', 'p.i', '1', 'count(ls)']},
    'simple': {'L': ['b', 'l', 'UNKNOWN'], 'I': ['i', 'j', '0', '1', '2', '-3'], 'N': ['r', 'n', 'p.x', 'p.y', '1.5', '0.25'], 'S': ['s', 'z', "'a'", "'abc'"],
               'A': ['li'], 'B': ['ba'], 'T': ['se'], 'P': ['p', 'ps[1]', 'ps[2]'], 'Q': ['ps'], 'x': ['x.x', 'x.y']},
    'aggregates': {'I': ['i', 'j', 'li[1]', 'lu[1]', 'ar[0]', 'tr[2]', '1', '2'], 'N': ['p.x', 'p.y', 'ro[1]', '0.5'], 'A': ['li', 'no', 'lu', 'gr[1]', 'gr[2]', 'tr'],
                   'B': ['ba', 'bb'], 'T': ['se', 'su'], 'P': ['p', 'ps[1]'], 'Q': ['ps', 'q'], 'x': ['x.x', 'x.y']},
    'graph': {'I': ['w', 'next.w', 'one.about.w', 'outs[1].head.w', '1'], 'P': ['SELF', 'next', 'next.next', 'outs[1].head', 'one.about'],
              'Q': ["USEDIN(SELF, 'GRAPH.NODE.NEXT')", "USEDIN(next, 'GRAPH.NODE.NEXT')"], 'x': ['x.w', 'x.next.w', 'SIZEOF(x.ins)']},
}
# How each kind may be made of others.
MADE = {
    'L': ['(L) AND (L)', '(L) OR (L)', '(L) XOR (L)', 'NOT (L)', '(L) = (L)', '(L) <> (L)', '(L) < (L)', '(N) = (N)', '(N) < (N)', '(N) >= (N)', '(N) <> (N)', '(I) = (I)',
          '{(N) < (N) <= (N)}', '{(I) <= (I) < (I)}', '(S) = (S)', '(S) < (S)', '(S) >= (S)', '(I) IN (A)', '(I) IN (B)', '(I) IN (T)', 'EXISTS(I)', 'EXISTS(S)',
          'EXISTS(A)', 'EXISTS(L)', 'EXISTS(P)', '(A) = (A)', '(B) = (B)', '(T) = (T)', '(T) <= (T)', '(B) >= (B)', '(P) = (P)', '(P) :=: (P)', '(P) :<>: (P)',
          '(P) IN (Q)', 'VALUE_IN(Q, P)', 'VALUE_UNIQUE(A)', 'VALUE_UNIQUE(Q)', 'ODD(I)', 'NVL(L, L)', '(A) <> (A)', "'REAL' IN TYPEOF(N)", "'INTEGER' IN TYPEOF(I)"],
    'I': ['SIZEOF(A)', 'SIZEOF(B)', 'SIZEOF(T)', 'SIZEOF(Q)', '(I) + (I)', '(I) - (I)', '(I) * (I)', '(I) DIV (I)', '(I) MOD (I)', 'ABS(I)', '-(I)', 'NVL(I, I)',
          'LENGTH(S)', 'HIINDEX(A)', 'LOINDEX(T)', 'SIZEOF(TYPEOF(P))', "SIZEOF(USEDIN(P, ''))"],
    'N': ['(I)', '(N) + (N)', '(N) - (N)', '(N) * (N)', '(N) / (N)', 'ABS(N)', '-(N)', 'SQRT(N)', 'NVL(N, N)'],
    'S': ['(S) + (S)', 'NVL(S, S)'],
    'A': ['(A) + (A)', '(A) + (I)', '(I) + (A)', 'QUERY(x <* A | x > I)', '[I, I] + (A)', 'NVL(A, A)'],
    'B': ['(B) + (B)', '(B) + (I)', '(B) - (B)', '(B) * (B)', '(B) - (I)', '(B) + (T)', 'QUERY(x <* B | x <> I)'],
    'T': ['(T) + (T)', '(T) + (I)', '(T) - (T)', '(T) * (T)', '(T) - (I)', '(T) + (B)', 'QUERY(x <* T | x < I)', '(T) * [I, I]'],
    'P': ['NVL(P, P)'],
    'Q': ['QUERY(x <* Q | %s > I)', 'QUERY(x <* Q | x :<>: P)', '(Q) + (P)'],
}


class Expressions:
    """Draws expressions over the operands of a schema."""

    def __init__(self, chance, operands):
        self.chance = chance
        self.operands = {**operands, 'N': operands.get('N', []) + operands.get('I', [])}

    def can(self, form):
        """Whether the schema has operands of each kind that a form needs."""
        return all(self.operands.get(it) for it in kinds_in(form))

    def draw(self, kind, depth):
        forms = [it for it in MADE[kind] if self.can(it)] if depth or not self.operands.get(kind) else []
        if not forms or self.operands.get(kind) and self.chance.random() < 0.25:
            return self.chance.choice(self.operands[kind])
        form = self.chance.choice(forms)
        if '%s' in form:
            form = form % self.chance.choice(self.operands['x'])
        return ''.join(self.draw(it, max(depth - 1, 0)) if it in kinds_in(form) and is_kind(form, place) else it for place, it in enumerate(form))


def is_kind(form, place):
    """Whether a capital stands alone, and so for an operand."""
    around = form[max(place - 1, 0):place] + form[place + 1:place + 2]
    return form[place] in MADE and not any(it.isalnum() or it in "_'" for it in around)


def kinds_in(form):
    return {it for place, it in enumerate(form) if is_kind(form, place)}


class Drawn:
    """A file for a schema, drawn by chance."""

    def __init__(self, text, complex_sets, chance):
        self.schema, self.chance = schema_text.read(text), chance
        self.dictionary = Dictionary(self.schema)
        self.entities_of = self.drawn_entities(complex_sets)

    def drawn_entities(self, complex_sets):
        """For each instance its entities: of each that can have instances one at least, and for each set of several."""
        single = [(it.name,) for it in self.schema.entities.values() if not it.abstract and it.name not in ONE_FOR_EACH]
        found = single + complex_sets + [self.chance.choice(single + complex_sets) for _ in range(self.chance.randrange(3, 9))]
        found = [it for it in found if self.chance.random() < 0.9 or it in single]
        self.chance.shuffle(found)
        for entity, (_, other) in ONE_FOR_EACH.items():
            if entity in self.schema.entities:
                found += [(entity,)] * sum(other in self.dictionary.closed(it) for it in found)
        return found

    def text(self):
        names = range(1, len(self.entities_of) + 1)
        self.left = {entity: [name for name in names if other in self.dictionary.closed(self.entities_of[name - 1])] for entity, (_, other) in ONE_FOR_EACH.items()}
        body = ''.join('#%d=%s;\n' % (name, self.instance(self.entities_of[name - 1])) for name in names)
        return HEADER % self.schema.name + body + TAIL

    def instance(self, entities):
        closed = self.dictionary.closed(entities)
        if len(entities) == 1:
            return self.record(entities[0], self.dictionary.row(entities[0]), closed)
        return '(%s)' % ''.join(self.record(it, [one for one in self.dictionary.row(it) if one.entity == it], closed) for it in sorted(closed))

    def record(self, entity, origins, closed):
        return '%s(%s)' % (entity, ','.join(self.attribute(it, closed) for it in origins))

    def attribute(self, origin, closed):
        declared = self.dictionary.in_force(closed, origin)[1]
        if declared.kind != 'explicit':
            return '*'
        if ONE_FOR_EACH.get(origin.entity, ('',))[0] == origin.name:
            return '#%d' % self.left[origin.entity].pop()
        if declared.optional and self.chance.random() < 0.3:
            return '$'
        return self.value(declared.type)

    def value(self, declared):
        """A value of a type as it is spelled; below a SELECT with the name of its type."""
        if isinstance(declared, Simple):
            return self.chance.choice(SPELLED[declared.name])
        if isinstance(declared, Collection):
            return self.aggregate(declared)
        if declared.name in self.schema.entities:
            return '#%d' % self.chance.choice([place + 1 for place, it in enumerate(self.entities_of) if declared.name in self.dictionary.closed(it)])
        under = self.dictionary.under(declared)
        if isinstance(under, Enumeration):
            return '.%s.' % self.chance.choice(under.items)
        if isinstance(under, Select):
            member = self.chance.choice(under.members)
            value = self.value(Named(member))
            return value if member in self.schema.entities or self.dictionary.is_select(member) else '%s(%s)' % (member, value)
        return self.value(under)

    def aggregate(self, declared):
        low, high = self.dictionary.bounds(declared)
        if declared.kind == 'ARRAY':
            low = high = high - low + 1
        size = self.chance.randint(low, low + 3 if high is None else min(high, low + 4))
        found, tries = [], 0
        while len(found) < size and (tries < 40 or len(found) < low):
            tries += 1
            value = '$' if declared.optional and self.chance.random() < 0.3 else self.value(declared.element)
            if value not in found or not (declared.unique or declared.kind == 'SET'):
                found.append(value)
        return '(%s)' % ','.join(found)


def drawn(seed, place, only):
    """The schema and the file at a place in what a seed gives, and what is expected: lines, and rules that are not decided."""
    chance = random.Random('%s %s' % (seed, place))
    names = [it for it in SCHEMAS if not only or it in only]
    name = names[place % len(names)]
    text, complex_sets = SCHEMAS[name]
    expressions = Expressions(chance, OPERANDS.get(name, {}))
    while ': @;' in text:
        text = text.replace(': @;', ': %s;' % expressions.draw('L', chance.randint(1, 4)), 1)
    file = Drawn(text, complex_sets, chance).text()
    checker = rules.checker_of(text, file)
    return text, file, rules.lines(checker.run()), checker


# What a program says of a rule that it does not check, or does not decide of an instance.
LEFT = re.compile(r'(?:(?:: (#\d+) )?was not decided by rule (\S+) of ([^\s:]+):|: rule (\S+) of (\S+) was not checked:)')


def left(text, places):
    """What a program's explanations say is left: lines as of faults, of a rule that is not checked its name alone, in capitals."""
    found = set()
    for instance, label, owner, another, other in LEFT.findall(text):
        rule = '.'.join([owner or other, label or another]).upper()
        found.add('fault 18 RuleBroken at %d rule %s' % (places[instance], rule) if instance else rule)
    return found


def is_left(line, leaves):
    """Whether a line is of what is left."""
    return line in leaves or line.split()[-1] in leaves


def places_of(file):
    """Where each instance of a drawn file stands."""
    return {it.group(1): it.start() for it in re.finditer(r'(#\d+)=', file)}


def faults_of(program, folder):
    """The lines of a program's report that begin with `fault`, or what is wrong with how it ended, and what it leaves."""
    try:
        words = [program, folder / 'schema.exp', folder / 'file.stp', '--rules', '--all', '--explain=1000']
        ran = subprocess.run(words, stdin=subprocess.DEVNULL, capture_output=True, timeout=SECONDS)
    except subprocess.TimeoutExpired:
        return ['it does not end within %d s' % SECONDS], set()
    if ran.returncode not in (0, 1):
        return ['status %d: %s' % (ran.returncode, ran.stderr[:200].decode('latin-1'))], set()
    lines = ran.stdout.decode('latin-1').split('\n')
    return [it for it in lines if it.startswith('fault')], left(ran.stderr.decode('latin-1'), places_of((folder / 'file.stp').read_text()))


def differences(program, folder):
    """What a program reports that is not expected, and what it does not, but for what it leaves; and what that is."""
    wanted, (found, leaves) = (folder / 'expected').read_text().splitlines(), faults_of(program, folder)
    missing = [it for it in wanted if it not in found]
    kept = [it for it in wanted if it in found]
    if sorted(kept) == sorted(found) and kept != found:
        return ['%s: in another order' % folder], leaves
    differ = ['%s: not expected: %s' % (folder, it) for it in found if it not in wanted]
    return differ + ['%s: missing: %s' % (folder, it) for it in missing if not is_left(it, leaves)], leaves


def write(seed, count, into, only):
    """The folders that are written."""
    folders = []
    for place in range(count):
        text, file, lines, checker = drawn(seed, place, only)
        folder = into / ('%s-%05d' % (checker.schema.name.lower(), place))
        folder.mkdir(parents=True, exist_ok=True)
        (folder / 'schema.exp').write_text(text)
        (folder / 'file.stp').write_text(file)
        (folder / 'expected').write_text(''.join(it + '\n' for it in lines))
        (folder / 'undecided').write_text(''.join('%s: %s\n' % it for it in checker.undecided.items()))
        folders.append(folder)
    return folders


def main(words, ended):
    only = []
    if '--only' in words:
        at = words.index('--only')
        only = words[at + 1].split(',')
        words = words[:at] + words[at + 2:]
    folders = write(words[0], int(words[1]), pathlib.Path(words[2]), only)
    found = []
    if len(words) > 3:
        with concurrent.futures.ThreadPoolExecutor(2) as pool:
            found = [it for them, _ in pool.map(lambda folder: differences(words[3], folder), folders) for it in them]
    for it in found:
        print(it)
    print('%d files, %d lines expected%s' % (len(folders), sum(len((it / 'expected').read_text().splitlines()) for it in folders),
                                              ', %d differences' % len(found) if len(words) > 3 else ''))
    ended.append(1 if found else 0)


if __name__ == '__main__':
    ended = []
    runner = threading.Thread(target=main, args=(sys.argv[1:], ended))
    runner.start()
    runner.join()
    sys.exit(ended[0] if ended else 2)
