"""Builds a Part 21 file out of an export and the EXPRESS schema that it was made by: what `tests/run_export` and `tests/export_of` compare exports
of such files by. Only what is lost to spelling may differ from the file that was exported."""

import functools
import json
import re

NAME = r'[A-Za-z]\w*'


class Numeral(str):
    """A number as the JSON spells it."""


class Schema:
    """What the text of a schema says of the attributes of entities, and of what stands under types."""

    def __init__(self, text):
        text = re.sub(r"'[^']*'", "''", re.sub(r'--[^\n]*', '', re.sub(r'\(\*.*?\*\)', '', self.innermost(text), flags=re.DOTALL))).upper()
        self.types = {name: under.strip() for name, under in re.findall(r'\bTYPE\s+(%s)\s*=([^;]*);' % NAME, text)}
        self.supers, self.own, self.again = {}, {}, {}
        for name, head, body in re.findall(r'\bENTITY\s+(%s)([^;]*);(.*?)\bEND_ENTITY\b' % NAME, text, re.DOTALL):
            above = re.search(r'SUBTYPE\s+OF\s*\(([^)]*)\)', head)
            self.supers[name] = re.findall(NAME, above[1]) if above else []
            self.own[name], self.again[name] = [], {}
            for names, declared in re.findall(r'((?:SELF\\|%s)[^:;]*):([^;]*);' % NAME, re.split(r'(?:^|;)\s*(?:DERIVE|INVERSE|UNIQUE|WHERE)\b', body)[0] + ';'):
                declared = re.sub(r'^\s*OPTIONAL\b', '', declared).strip()
                if '\\' in names:
                    self.again[name][re.findall(NAME, names)[-1]] = declared
                else:
                    self.own[name] += [(it, declared) for it in re.findall(NAME, names)]

    @staticmethod
    def innermost(text):
        """The text without remarks that stand in remarks."""
        nested = re.compile(r'(\(\*(?:(?!\(\*|\*\)).)*)\(\*(?:(?!\(\*|\*\)).)*\*\)', re.DOTALL)
        while nested.search(text):
            text = nested.sub(r'\1', text)
        return text

    @functools.cache
    def ancestors(self, name):
        """The entity and those above it, each before those that stand above it."""
        return [name] + [it for above in self.supers[name] for it in self.ancestors(above)]

    @functools.cache
    def row(self, name):
        """The attributes of the entity's row, with the entity that each is newly declared by."""
        rows = [it for above in self.supers[name] for it in self.row(above)] + [(name, *it) for it in self.own[name]]
        return list(dict.fromkeys(rows))

    def base(self, declared):
        """The type that stands below names, and of an aggregate also its element's."""
        while declared in self.types:
            declared = self.types[declared]
        element = re.match(r'(?:ARRAY|LIST|SET|BAG)\b.*?\bOF\s+(?:UNIQUE\s+)?(?:OPTIONAL\s+)?(.*)$', declared, re.DOTALL)
        return declared, element[1].strip() if element else None


def string(text):
    """A string of Part 21: what is no printable ASCII by its number."""
    spelled = {"'": "''", '\\': '\\\\'}
    return "'%s'" % ''.join(spelled.get(c, c) if ' ' <= c <= '~' else '\\X4\\%08X\\X0\\' % ord(c) if ord(c) > 0xffff else '\\X2\\%04X\\X0\\' % ord(c) for c in text)


def value(schema, it, declared=''):
    """A value of a type."""
    base, element = schema.base(declared)
    if it is None:
        return '$'
    if isinstance(it, bool):
        return '.T.' if it else '.F.'
    if isinstance(it, Numeral):
        return it
    if isinstance(it, str):
        if base.startswith('ENUMERATION'):
            return '.%s.' % it
        return '.U.' if base == 'LOGICAL' else string(it)
    if isinstance(it, dict):
        if 'ref' in it:
            return '#' + it['ref']
        if 'bits' in it:
            return '"%d%s"' % (4 * len(it['hex']) - int(it['bits']), it['hex'])
        return '%s(%s)' % (it['type'].upper(), value(schema, it['value'], it['type'].upper()))
    return '(%s)' % ','.join(value(schema, element_of, element or '') for element_of in it)


def repeated_keys(line):
    """The keys that stand more than once in an object of a line of JSON."""
    found = []

    def look(members):
        keys = [key for key, _ in members]
        found.extend(key for key in dict.fromkeys(keys) if keys.count(key) > 1)

    json.loads(line, object_pairs_hook=look)
    return found


def keys_of(attributes):
    """The keys of the attributes of a record, in upper case: one whose name another has before it has its entity in front."""
    names = [name for _, name, _ in attributes]
    return ['%s.%s' % (owner, name) if name in names[:place] else name for place, (owner, name, _) in enumerate(attributes)]


def record(schema, it, attributes, entities):
    """A record of an instance that is of these entities; an attribute whose key is left out is derived."""
    left, given = list(it['attributes']), []
    for (owner, name, declared), key in zip(attributes, keys_of(attributes)):
        if left and left[0][0].upper() == key:
            lowest = next((schema.again[e][name] for e in entities if name in schema.again[e] and owner in schema.ancestors(e)), declared)
            given.append(value(schema, left.pop(0)[1], lowest))
        else:
            given.append('*')
    assert not left, left
    return '%s(%s)' % (it['type'].upper(), ','.join(given))


def instance(schema, it):
    if 'records' not in it:
        name = it['type'].upper()
        return '#%s=%s;' % (it['id'], record(schema, it, schema.row(name), schema.ancestors(name)))
    names = [one['type'].upper() for one in it['records']]
    lowest_first = sorted(names, key=lambda name: -len(schema.ancestors(name)))
    return '#%s=(%s);' % (it['id'], ''.join(record(schema, one, [(name, *own) for own in schema.own[name]], lowest_first) for one, name in zip(it['records'], names)))


class Pairs(list):
    """The members of an object."""


def plain(it):
    """Objects as dictionaries, but for the attributes of records."""
    if isinstance(it, Pairs):
        return {key: Pairs((k, plain(v)) for k, v in held) if key == 'attributes' else plain(held) for key, held in it}
    return [plain(one) for one in it] if isinstance(it, list) else it


def rebuilt(schema_text, lines):
    """The bytes of a file whose export is these lines."""
    schema = Schema(schema_text)
    header, *instances = (plain(json.loads(line, parse_int=Numeral, parse_float=Numeral, object_pairs_hook=Pairs)) for line in lines)
    entities = ('%s(%s);' % (name.upper(), ','.join(value(schema, it) for it in held.values())) for name, held in header['header'].items())
    text = ['ISO-10303-21;', 'HEADER;', *entities, 'ENDSEC;', 'DATA;', *(instance(schema, it) for it in instances), 'ENDSEC;', 'END-ISO-10303-21;', '']
    return '\n'.join(text).encode()
