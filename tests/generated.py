"""Small files with known faults, of several schemas, plain and packed, and the rows that p21archive must tell of them."""

import gzip
import io
import lzma
import os
import random
import shutil
import zipfile

import runs

COLUMNS = ['file', 'bytes', 'schema', 'status', 'kind', 'place', 'line', 'column', 'instances', 'references']
SCHEMAS = ['TOY', 'BOX_1', 'CRATE']
# An instance with each fault; % is its number, ^ the place to look at, and @ what the schema calls an item. A fault of the grammar has its place
# there too, and any other at the instance.
GRAMMAR = {
    'BadToken': "#%=@('A001',$,^?);",
    'Unexpected': "#%=@('A001'^$,$);",
    'TooDeep': '#%=GROUP(' + 63 * '(' + '^(' + 64 * ')' + ');',
}
OTHERS = {
    'DuplicateName': "^#1=@('A001',$,$);",
    'UnknownEntity': '#%=^NOTHING();',
    'AbstractEntity': "#%=^ROOT('A001',$);",
    'BadComplex': '#%=(^SPECIAL());',
    'WrongCount': "#%=@('A001',$^);",
    'BadAttribute': "#%=@(^7,$,$);",
    'MissingReference': "#%=@('A001',$,^#1000000);",
    'WrongReference': "#%=CHAIN('A001',$,^#1);",
}
FAULTS = {**GRAMMAR, **OTHERS}
HEADER = """ISO-10303-21;
HEADER; /* FILE_SCHEMA(('NONE')) */
FILE_DESCRIPTION(('it''s FILE_SCHEMA(('),'2;1');
FILE_NAME('','',(''),(''),'','','');
%s
ENDSEC;
DATA;
"""
NAMES = ["FILE_SCHEMA(('%s'));", "FILE_SCHEMA (\n( /* the name */ '%s { 1 0 10303 42 }' ) );"]
TAIL = 'ENDSEC;\nEND-ISO-10303-21;\n'
PLAIN = ['.stp', '.STEP', '.p21', '.Ifc']


def item(schema):
    """The entity that a schema has in place of ITEM."""
    return 'ITEM' if schema == 'TOY' else 'ITEM_OF_' + schema


def write_schemas(folder):
    """Puts the schemas into a folder, and what is none beside them."""
    folder.mkdir()
    text = runs.SCHEMA.read_text()
    for number, schema in enumerate(SCHEMAS):
        remark = '(* SCHEMA none; (* nested *) -- *)\n-- SCHEMA none;\n' if number else ''
        (folder / ('schema %d.%s' % (number, ['exp', 'EXP'][number % 2]))).write_text(
            remark + text.replace('TOY', schema.title()).replace('Item', item(schema).title()))
    (folder / 'none.exp').write_text('no schema')
    (folder / 'TOY.txt').write_text(text)


class File:
    """A generated file: its text, and the row that is told of it, without name and size."""

    def __init__(self, rng, schema, kind):
        self.schema, self.kind = schema, kind
        self.count = rng.randrange(2, 30)
        at = rng.randrange(1, self.count)
        lines = ["#%d=%s('A%03d',$,#%d);\n" % (it, item(schema), it, it % self.count + 1) for it in range(1, self.count + 1)]
        if kind in FAULTS:
            lines[at] = FAULTS[kind].replace('%', str(at + 1)).replace('@', item(schema)) + '\n'
        header = HEADER % (rng.choice(NAMES) % schema)
        self.text = header + ''.join(lines) + TAIL
        self.row = {'schema': schema, 'status': 'faulty', 'kind': kind}
        if kind in FAULTS:
            self.look(len(header) + sum(map(len, lines[:at])))
        else:
            getattr(self, kind)()

    def look(self, instance):
        """Takes out the mark at the place to look at."""
        place = self.text.index('^')
        self.text = self.text[:place] + self.text[place + 1:]
        self.at(place if self.kind in GRAMMAR else instance, place)

    def at(self, place, look):
        self.row['place'], self.row['line'] = place, self.text.count('\n', 0, look) + 1
        self.row['column'] = look - (self.text.rfind('\n', 0, look) + 1) + 1

    def read(self):
        self.row.update(status='read', kind='', instances=self.count, references=self.count)

    def Truncated(self):
        self.text = self.text[:self.text.rindex(',')]
        self.at(len(self.text), len(self.text))

    def HeaderEntities(self):
        self.text = self.text.replace('FILE_NAME', 'FILE_NAMES')
        self.at(self.text.index('HEADER'), self.text.index('FILE_NAMES'))

    def NoSchema(self):
        self.text = self.text.replace("'%s" % self.schema, "'nowhere")
        self.row.update(status='untried', schema='NOWHERE')

    def NoSchemaName(self):
        self.text = self.text.replace("'%s" % self.schema, "'")
        self.row.update(status='untried', schema='')


KINDS = ['read', 'read', 'read', *FAULTS, 'Truncated', 'HeaderEntities', 'NoSchema', 'NoSchemaName']


def zipped(names_and_texts):
    """A zip of these files."""
    packed = io.BytesIO()
    with zipfile.ZipFile(packed, 'w', zipfile.ZIP_DEFLATED) as file:
        for name, text in names_and_texts:
            file.writestr(name, text)
    return packed.getvalue()


def member_size(packed, number):
    """The bytes that a file of a zip has there."""
    return zipfile.ZipFile(io.BytesIO(packed)).infolist()[number].compress_size


def row(name, size, **known):
    """The row of a file, as the table has it but for the seconds; what is not known is empty."""
    return [str({'file': name, 'bytes': size, **known}.get(it, '')) for it in COLUMNS]


def write_file(folder, top, name, file, packing):
    """Puts a file there, plain or packed, and gives its row."""
    text = file.text.encode()
    packed = {'': lambda: text, '.gz': lambda: gzip.compress(text, 1), '.xz': lambda: lzma.compress(text, preset=0),
              '.ZIP': lambda: zipped([('read me', 'no STEP'), ('inner/a.stp', text)])}[packing]()
    path = folder / (name + packing)
    path.write_bytes(packed)
    told = os.path.relpath(path, top)
    if packing == '.ZIP':
        return row(told + '//inner/a.stp', member_size(packed, 1), **file.row)
    return row(told, len(packed), **file.row)


def write(folder, top, count, seed):
    """Puts so many files below a folder, and gives their rows, told from `top`."""
    rng = random.Random(seed)
    rows = []
    for number in range(count):
        inner = folder / ('%02d' % (number % 50))
        inner.mkdir(parents=True, exist_ok=True)
        file = File(rng, rng.choice(SCHEMAS), KINDS[number % len(KINDS)])
        rows.append(write_file(inner, top, 'part %d%s' % (number, rng.choice(PLAIN)), file, rng.choice(['', '', '', '.gz', '.xz', '.ZIP'])))
    return sorted(rows, key=lambda it: it[0].encode())


def has_parallel():
    """Whether GNU parallel is here; moreutils has another program of its name."""
    return bool(shutil.which('parallel')) and runs.run(['--version'], program=['parallel'])[1].startswith(b'GNU parallel')


def read_table(path):
    """The rows of a table, without the seconds; None where there is no such table."""
    if not path.exists():
        return None
    lines = [it.split('\t') for it in path.read_text().split('\n')[:-1]]
    if lines[0] != [*COLUMNS, 'seconds'] or not all(len(it) == len(lines[0]) and float(it[-1]) >= 0 for it in lines[1:]):
        return None
    return [it[:-1] for it in lines[1:]]


def differences(told, wanted):
    """The first rows in which two tables differ."""
    if told is None:
        return ['no table']
    return ['%d rows, not %d' % (len(told), len(wanted))] * (len(told) != len(wanted)) + [
        '%s, not %s' % (one, other) for one, other in zip(told, wanted) if one != other][:3]
