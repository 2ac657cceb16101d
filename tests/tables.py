"""Compares the database that a file is exported as with its lines of JSON: what `tests/run_sqlite` and `tests/sqlite_of` look for."""

import json
import pathlib
import re
import sqlite3

from part21 import Numeral, Pairs, Schema


def rows_of(base, text):
    """The rows of a query."""
    return base.execute(text).fetchall()


def read(line):
    """A line of JSON: numbers as they are spelled, objects as their members in order."""
    return json.loads(line, parse_int=Numeral, parse_float=Numeral, object_pairs_hook=Pairs)


def signed(number):
    """A number of 64 bits as SQLite holds it."""
    return number - 2 ** 64 if number >= 2 ** 63 else number


def is_cell(it, cell):
    """Whether a cell holds a value of JSON."""
    if isinstance(it, Numeral):
        whole = '.' not in it and 'E' not in it and -2 ** 63 <= int(it) < 2 ** 63
        return (type(cell), cell) == ((int, int(it)) if whole else (float, float(it)))
    if isinstance(it, bool):
        return (type(cell), cell) == (int, int(it))
    if it is None or isinstance(it, str):
        return cell == it
    if isinstance(it, Pairs) and it[0][0] == 'ref':
        return (type(cell), cell) == (int, signed(int(it[0][1])))
    return isinstance(cell, str) and read(cell) == it and not re.search(r'[:,\[{] ', re.sub(r'"(?:[^"\\]|\\.)*"', '""', cell))


def references_in(it):
    """The names that a value refers to, in order."""
    if isinstance(it, Pairs):
        return [signed(int(it[0][1]))] if it[0][0] == 'ref' else [name for _, held in it for name in references_in(held)]
    return [name for one in it for name in references_in(one)] if isinstance(it, list) else []


class Database:
    """A database, and what its tables must be by the schema."""

    def __init__(self, schema, path):
        self.schema = schema
        self.base = sqlite3.connect(path)
        # Texts may hold what is half a character.
        self.base.text_factory = lambda it: it.decode(errors='surrogatepass')
        listed = rows_of(self.base, 'SELECT type, name FROM sqlite_schema')
        self.tables = {name for kind, name in listed if kind == 'table'}
        self.views = {name for kind, name in listed if kind == 'view'}
        self.own = {name: '_' + name if name.upper() in schema.supers else name for name in ('metadata', 'id_map', 'reference')}
        self.columns = {name: [row[1] for row in rows_of(self.base, 'PRAGMA table_info("%s")' % name)] for name in self.tables | self.views}
        # The rows of each table of records, by the name of its view.
        self.rows = {name[:-4]: {row[0]: row for row in rows_of(self.base, 'SELECT * FROM "%s"' % name)} for name in self.tables - set(self.own.values())}

    def all_of(self, name):
        return rows_of(self.base, 'SELECT * FROM "%s" ORDER BY rowid' % self.own[name])


def names_of(schema, entity):
    """The columns of an entity's view, in upper case: an attribute whose name is taken has its entity in front."""
    names = ['ID', 'ENTITY']
    for owner, name, _ in schema.row(entity):
        names.append('%s.%s' % (owner, name) if name in names else name)
    return names


def view_of(entity):
    """The name of an entity's view; that of its table is this and `.own`."""
    return '_' + entity if entity.lower().startswith('sqlite_') else entity


def entity_of(schema, table):
    """The entity of a view, in upper case."""
    return table.upper() if table.upper() in schema.supers else table[1:].upper()


def faults_of_record(database, it, record, left, references):
    """What is wrong with the row of a record, which is taken from `left`; its references are added."""
    table = view_of(record['type'])
    row, columns = left[table].pop(it['id'], None), database.columns[table + '.own']
    if row is None:
        return ['no row']
    given = list(record['attributes'])
    first = len(columns) - len(database.schema.own[record['type'].upper()]) if 'records' in it else 1
    for place in range(1, len(columns)):
        if place >= first and given and given[0][0] in (columns[place], columns[place].rpartition('.')[2]):
            name, value = given.pop(0)
            if not is_cell(value, row[place]):
                return ['%s is %r, not %r' % (columns[place], row[place], value)]
            references += [(it['id'], columns[place], position, target) for position, target in enumerate(references_in(value))]
        elif row[place] is not None:
            return ['%s is %r, and not given' % (columns[place], row[place])]
    return ['not all is given: %r' % given] if given else []


def faults_of_instances(database, lines, file):
    """What is wrong with the rows of instances, by their lines."""
    left = {name: dict(rows) for name, rows in database.rows.items()}
    instances, references = [], []
    for line in lines:
        it = dict(read(line))
        it['id'] = signed(int(it['id']))
        records = [dict(one) for one in it['records']] if 'records' in it else [it]
        instances.append((it['id'], '+'.join(one['type'] for one in records)))
        for record in records:
            yield from ('#%d %s: %s' % (it['id'], record['type'], fault) for fault in faults_of_record(database, it, record, left, references))
    if [name for name, rows in left.items() if rows]:
        yield 'there are more rows in %s' % [name for name, rows in left.items() if rows]
    if [row[:2] for row in database.all_of('id_map')] != sorted(instances):
        yield 'other instances'
    for name, _, at in database.all_of('id_map'):
        found = re.compile(rb'#(\d+)').match(file, at)
        if not found or signed(int(found[1])) != name:
            yield '#%d does not stand at %d' % (name, at)
    if database.all_of('reference') != references:
        yield 'other references'


def faults_of_views(database):
    """What is wrong with the views: each entity with instances at or below it has one, which has each of them once, with the values of the tables."""
    schema = database.schema
    known = {entity_of(schema, name): name for name in database.rows}
    spelled = {key: names for key, names, _ in database.all_of('id_map')}
    for entity in schema.supers:
        wanted = {}
        for key, names in spelled.items():
            records = names.upper().split('+')
            if entity in records and len(records) > 1:
                wanted[key] = (key, names) + tuple(complex_value(database, known, key, owner, name) for owner, name, _ in schema.row(entity))
            elif len(records) == 1 and entity in schema.ancestors(records[0]):
                row, held = schema.row(records[0]), database.rows[known[records[0]]][key]
                wanted[key] = (key, names) + tuple(held[1 + row.index(it)] for it in schema.row(entity))
        views = [name for name in database.views if name.upper() == view_of(entity).upper()]
        if len(views) != (1 if wanted else 0):
            yield '%s has the views %s' % (entity, views)
        for view in views:
            if [name.upper() for name in database.columns[view]] != names_of(schema, entity):
                yield 'the columns of %s are %s' % (view, database.columns[view])
            if sorted(rows_of(database.base, 'SELECT * FROM "%s"' % view), key=lambda it: it[0]) != [wanted[key] for key in sorted(wanted)]:
                yield 'other rows of %s' % view


def complex_value(database, known, key, owner, name):
    """The value that a complex instance gives an attribute, by the record of the entity that declares it."""
    place = next(place for place, it in enumerate(database.schema.row(owner)) if it[:2] == (owner, name))
    return database.rows[known[owner]][key][1 + place]


def faults_of_metadata(database, header, report):
    """What is wrong with what is said of the model, by the header's line and the report of the check."""
    told = dict(database.all_of('metadata'))
    counts = dict(line.split() for line in report.splitlines())
    for key in ('instances', 'complex', 'references'):
        if told.get(key) != int(counts[key]):
            yield '%s is %r' % (key, told.get(key))
    if told.get('schema') != counts['schema']:
        yield 'the schema is %r' % told.get('schema')
    for entity, members in read(header)[0][1]:
        for name, value in members:
            if not is_cell(value, told.get('%s.%s' % (entity, name))):
                yield '%s.%s is %r' % (entity, name, told.get('%s.%s' % (entity, name)))
    for keyword, count in counts.items():
        table = next((name for name in database.rows if entity_of(database.schema, name) == keyword), None)
        if keyword.isupper() and len(database.rows.get(table, ())) != int(count):
            yield 'not %s rows of %s' % (count, keyword)


def faults_of_database(schema_text, path, text, report, file):
    """What is wrong with the database at a path, by the JSON, the report of the check and the file that it was made of."""
    database = Database(Schema(schema_text), path)
    header, *lines = text.splitlines()
    if rows_of(database.base, 'PRAGMA integrity_check') != [('ok',)]:
        yield 'its integrity is not ok'
    if pathlib.Path(path).read_bytes()[18:20] != b'\1\1':
        yield 'it is not in the mode of the rollback journal'
    for name in database.rows:
        columns = database.columns[name + '.own']
        if [it.upper() for it in columns] != [it for it in names_of(database.schema, entity_of(database.schema, name)) if it != 'ENTITY']:
            yield 'the columns of %s.own are %s' % (name, columns)
    yield from faults_of_instances(database, lines, file)
    yield from faults_of_views(database)
    yield from faults_of_metadata(database, header, report)
    database.base.close()
