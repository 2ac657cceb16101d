"""An independent reading of the rules UNIQUE and the INVERSE attributes of a schema, and of the instances that break them: slow, and by other means
than the program's."""

import collections
import decimal
import re

from part21 import NAME, Schema

TOKEN = re.compile(r"""\s+|/\*.*?\*/|(?P<string>'(?:[^']|'')*')|(?P<binary>"[^"]*")|(?P<name>\#\d+)|(?P<item>\.[A-Z_][A-Z0-9_]*\.)|(?P<real>[+-]?\d+\.\d*(?:E[+-]?\d+)?)|(?P<integer>[+-]?\d+)|(?P<keyword>!?[A-Z_][A-Z0-9_-]*)|(?P<symbol>.)""", re.DOTALL)
PASSED = object()
FAR = 10 ** 17


def of_part(part, code):
    """The character of this number in a part of ISO 8859; none where it has none."""
    try:
        return bytes([code]).decode('iso8859_%d' % part)
    except UnicodeDecodeError:
        return None


def characters(body):
    """The characters of a string, whatever directives spell them: one that is none is None."""
    found, part, at = [], 1, 0
    while at < len(body):
        rest = body[at:]
        if rest.startswith("''"):
            found.append("'")
            at += 2
        elif rest.startswith('\\\\'):
            found.append('\\')
            at += 2
        elif rest.startswith('\\S\\'):
            found.append(of_part(part, 128 + ord(rest[3])))
            at += 4
        elif match := re.match(r'\\P([A-I])\\', rest):
            part = ord(match[1]) - 64
            at += 4
        elif match := re.match(r'\\X\\([0-9A-Fa-f]{2})', rest):
            found.append(chr(int(match[1], 16)))
            at += 5
        elif match := re.match(r'\\X2\\((?:[0-9A-Fa-f]{4})+)\\X0\\', rest):
            text = bytes.fromhex(match[1]).decode('utf-16-be', 'surrogatepass')
            found += [None if 0xd800 <= ord(it) < 0xe000 else it for it in text]
            at += match.end()
        elif match := re.match(r'\\X4\\((?:[0-9A-Fa-f]{8})+)\\X0\\', rest):
            codes = [int(match[1][i:i + 8], 16) for i in range(0, len(match[1]), 8)]
            found += [None if 0xd800 <= it < 0xe000 or it > 0x10ffff else chr(it) for it in codes]
            at += match.end()
        elif rest[0] in '\t\n\r':
            at += 1
        else:
            # The text was read byte by byte.
            size = next((n for n in (2, 3, 4) if ord(rest[0]) > 127 and is_utf8(rest[:n])), 1)
            found.append(rest[:size].encode('latin-1').decode() if size > 1 else rest[0])
            at += size
    return found


def is_utf8(text):
    """Whether bytes, each as a character, are one character in UTF-8."""
    try:
        return len(text.encode('latin-1').decode()) == 1
    except UnicodeDecodeError:
        return False


def compared_string(body):
    """A string by its characters; by what is written where one is none, or is the one that stands for such."""
    found = characters(body)
    return ('written', body) if None in found or '\ufffd' in found else ('string', ''.join(found))


def number(text):
    """The value of an integer or a real, or that its exponent is too far from 0."""
    exponent = re.search(r'E[+-]?(\d+)$', text)
    return PASSED if exponent and int(exponent[1]) >= FAR else ('number', decimal.Decimal(text))


def bits(body):
    """The bits of a binary."""
    return ''.join(format(int(it, 16), '04b') for it in body[1:])[int(body[0]):]


class Reader:
    """The data section of a file without faults."""

    def __init__(self, text):
        self.tokens = [(it.lastgroup, it[0], it.start()) for it in TOKEN.finditer(text) if it.lastgroup]
        self.at = next(i for i, it in enumerate(self.tokens) if it[1] == 'DATA') + 2

    def take(self, text=None):
        token = self.tokens[self.at]
        assert text is None or token[1] == text, (token, text)
        self.at += 1
        return token

    def instances(self):
        while self.tokens[self.at][0] == 'name':
            _, name, place = self.take()
            self.take('=')
            if self.tokens[self.at][1] == '(':
                self.take()
                records = []
                while self.tokens[self.at][1] != ')':
                    records.append(self.record())
                self.take()
                yield int(name[1:]), place, True, records
            else:
                yield int(name[1:]), place, False, [self.record()]
            self.take(';')

    def record(self):
        return self.take()[1], self.values()

    def values(self):
        self.take('(')
        found = []
        while self.tokens[self.at][1] != ')':
            if self.tokens[self.at][1] == ',':
                self.take()
            found.append(self.value())
        self.take()
        return found

    def value(self):
        """A value, or that it is none that is compared or refers."""
        if self.tokens[self.at][1] == '(':
            return 'list', self.values()
        kind, text, _ = self.take()
        if kind == 'string':
            return compared_string(text[1:-1])
        if kind in ('integer', 'real'):
            return number(text)
        if kind == 'binary':
            return 'binary', bits(text[1:-1])
        if kind == 'item':
            return 'item', text
        if kind == 'name':
            return 'name', int(text[1:])
        if kind == 'keyword':
            self.take('(')
            inner = self.value()
            self.take(')')
            return 'typed', text, inner
        return PASSED


def compared(schema, value, declared):
    """A value of a type as it is compared, or that it is none."""
    if value is PASSED:
        return PASSED
    if value[0] == 'list':
        base, element = schema.base(declared)
        elements = [compared(schema, it, element) for it in value[1]] if element else [PASSED]
        if PASSED in elements:
            return PASSED
        return ('elements', frozenset(collections.Counter(elements).items())) if re.match(r'SET|BAG', base) else ('list', tuple(elements))
    if value[0] == 'typed':
        inner = compared(schema, value[2], value[1])
        return PASSED if inner is PASSED else ('typed', value[1], inner)
    return value


def names(value):
    """The instances to which a value refers."""
    if value is PASSED:
        return []
    if value[0] == 'list':
        return [name for it in value[1] for name in names(it)]
    return names(value[2]) if value[0] == 'typed' else [value[1]] if value[0] == 'name' else []


def statements(body):
    """The statements of an entity's body, each with the section that it stands in."""
    section = ''
    for statement in body.split(';'):
        while match := re.match(r'\s*(DERIVE|INVERSE|UNIQUE|WHERE)\b', statement):
            if section == 'WHERE' or match[1] == 'DERIVE' and section:
                break
            section, statement = match[1], statement[match.end():]
        if statement.strip():
            yield section, statement.strip()


class Rules:
    """The rules UNIQUE of a schema's text: entity, label, and attributes as they are newly declared; and its INVERSE attributes: entity, name, whether each
    reference counts, bounds, the entity that refers, and its attribute."""

    def __init__(self, text):
        self.schema = Schema(text)
        plain = re.sub(r"'[^']*'", "''", re.sub(r'--[^\n]*', '', re.sub(r'\(\*.*?\*\)', '', Schema.innermost(text), flags=re.DOTALL))).upper()
        bodies = {entity: list(statements(body)) for entity, _, body in re.findall(r'\bENTITY\s+(%s)([^;]*);(.*?)\bEND_ENTITY\b' % NAME, plain, re.DOTALL)}
        # What each entity declares: newly, explicit or not; and again, by the entity behind SELF, with its type, which one in DERIVE has not.
        self.explicit, self.others, self.again = {}, {}, {}
        for entity, body in bodies.items():
            self.explicit[entity], self.others[entity], self.again[entity] = {}, set(), []
            for section, statement in body:
                if section in ('UNIQUE', 'WHERE'):
                    continue
                names, declared = statement.split(':', 1)
                for name in names.split(','):
                    if match := re.match(r'\s*SELF\s*\\\s*(%s)\s*\.\s*(%s)' % (NAME, NAME), name):
                        if section != 'INVERSE':
                            self.again[entity].append((*match.groups(), None if section else re.sub(r'^\s*OPTIONAL\b', '', declared).strip()))
                    elif section:
                        self.others[entity].add(name.strip())
                    else:
                        self.explicit[entity][name.strip()] = re.sub(r'^\s*OPTIONAL\b', '', declared).strip()
        self.rules, self.inverse = [], []
        for entity, body in bodies.items():
            for number, clause in enumerate((it for section, it in body if section == 'UNIQUE'), 1):
                label, _, names = clause.rpartition(':')
                attributes = [self.resolve(entity, it) for it in names.split(',')]
                if None not in attributes:
                    self.rules.append((entity, label.strip() or str(number), attributes))
            self.inverse += [self.bounds(entity, it) for section, it in body if section == 'INVERSE']
        self.inverse = [it for it in self.inverse if it]

    def bounds(self, entity, clause):
        """The bounds of an INVERSE attribute; none where they are no numbers, or it is FOR no explicit attribute, or for one that another entity derives."""
        name, declared = clause.split(':', 1)
        kind, low, high, source, attribute = re.fullmatch(r'\s*(?:(SET|BAG)\s*(?:\[([^:]*):([^]]*)\])?\s*OF\s)?\s*(%s)\s+FOR\s+(.*)' % NAME, declared, re.DOTALL).groups()
        low, high = (low.strip(), high.strip()) if low else ('0', '?') if kind else ('1', '1')
        attribute = [it.strip() for it in attribute.split('.')]
        found = self.resolve(source, attribute[0]) if len(attribute) == 1 else self.resolve(source, 'SELF\\%s.%s' % tuple(attribute))
        if not found or not low.isdigit() or not (high == '?' or high.isdigit()):
            return None
        if any(declared is None for _, declared in self.declarations(found)):
            return None
        return entity, re.findall(NAME, name)[-1], kind == 'BAG', int(low), float('inf') if high == '?' else int(high), source, found

    def declarations(self, attribute):
        """All declarations of an attribute, each by its entity and its type; one in DERIVE has none."""
        owner, name = attribute
        again = [(entity, declared) for entity in self.again for of, it, declared in self.again[entity] if it == name and owner in self.schema.ancestors(of)]
        return [(owner, self.explicit[owner][name]), *again]

    def resolve(self, entity, text):
        """The explicit attribute of a name, or that it is derived or inverse."""
        names = re.findall(NAME, text)
        name, above = names[-1], self.schema.ancestors(entity)
        if names[0] == 'SELF':
            owner = names[1]
        else:
            having = [it for it in self.explicit if it in above and (name in self.explicit[it] or name in self.others[it])]
            owner = next(it for it in having if not any(it in self.schema.ancestors(other) for other in having if other != it))
        found = (owner, name) if name in self.explicit[owner] else None
        if not found and name not in self.others[owner] and any(it == name and declared for _, it, declared in self.again[owner]):
            found = next((it, name) for it in self.explicit if it in self.schema.ancestors(owner) and name in self.explicit[it] and (owner, True) in [(by, bool(declared)) for by, declared in self.declarations((it, name))])
        return None if found and any(declared is None and by in above for by, declared in self.declarations(found)) else found

    def is_of(self, instance, entity):
        return any(entity in self.schema.ancestors(keyword) for keyword, _ in instance[3])

    def parameters(self, instance):
        """The values of an instance by their attributes."""
        _, _, complex_, records = instance
        found = {}
        for keyword, values in records:
            row = [(keyword, it[0]) for it in self.schema.own[keyword]] if complex_ else [(it[0], it[1]) for it in self.schema.row(keyword)]
            for attribute, value in zip(row, values):
                found.setdefault(attribute, value)
        return found

    def values(self, instance, rule):
        """The values of the rule's attributes in an instance, or that it is passed over."""
        entity, _, attributes = rule
        if not self.is_of(instance, entity):
            return PASSED
        found = self.parameters(instance)
        values = [self.value(instance, it, found.get(it, PASSED)) for it in attributes]
        return PASSED if PASSED in values else tuple(values)

    def value(self, instance, attribute, given):
        """The value of an attribute in an instance by each of its declarations that count there, or that it is passed over."""
        _, _, complex_, records = instance
        entities = {it for keyword, _ in records for it in ([keyword] if complex_ else self.schema.ancestors(keyword))}
        own = [(by, declared) for by, declared in self.declarations(attribute) if by in entities]
        if any(declared is None for _, declared in own):
            return PASSED
        last = [declared for by, declared in own if not any(by != other and by in self.schema.ancestors(other) for other, _ in own)]
        values = {compared(self.schema, given, declared) for declared in last}
        return values.pop() if len(values) == 1 else PASSED

    def counts(self, instances):
        """How many refer to each instance, by the number of the INVERSE attribute and the instance's name."""
        counts = collections.Counter()
        for instance in instances:
            found = self.parameters(instance)
            for number, (_, _, is_bag, _, _, source, attribute) in enumerate(self.inverse):
                if self.is_of(instance, source):
                    referred = names(found.get(attribute, PASSED))
                    counts.update((number, name) for name in (referred if is_bag else set(referred)))
        return counts

    def faults(self, text):
        """The lines of the report of a file without other faults."""
        first, lines = {}, []
        instances = list(Reader(text).instances())
        counts = self.counts(instances)
        for instance in instances:
            for number, rule in enumerate(self.rules):
                values = self.values(instance, rule)
                if values is PASSED:
                    continue
                if (number, values) in first:
                    lines.append('fault 16 NotUnique at %d rule %s.%s name #%d' % (instance[1], *rule[:2], first[number, values]))
                else:
                    first[number, values] = instance[0]
            for number, (entity, name, _, low, high, _, _) in enumerate(self.inverse):
                count = counts[number, instance[0]]
                if self.is_of(instance, entity) and not low <= count <= high:
                    lines.append('fault 17 InverseCount at %d inverse %s.%s count %d' % (instance[1], entity, name, count))
        return lines
