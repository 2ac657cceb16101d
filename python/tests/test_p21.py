"""Tries the package over a small schema and file: python -m unittest discover -s python/tests"""

import copy
import gc
import multiprocessing
import os
import pathlib
import pickle
import random
import signal
import subprocess
import sys
import tempfile
import threading
import time
import unittest

sys.path.insert(0, str(pathlib.Path(__file__).resolve().parent.parent))
import p21

SCHEMA = b"""SCHEMA HOUSE;
TYPE Label = STRING; END_TYPE;
TYPE Length = REAL; END_TYPE;
TYPE Flag = BOOLEAN; END_TYPE;
TYPE Kind = ENUMERATION OF (SOLID, GLAZED); END_TYPE;
TYPE Value = SELECT (Label, Length, Flag, Kind); END_TYPE;
ENTITY Root ABSTRACT SUPERTYPE; GlobalId : STRING; Name : OPTIONAL Label; END_ENTITY;
ENTITY Point; Coordinates : LIST [1:3] OF Length; END_ENTITY;
ENTITY Placement; Location : Point; RelTo : OPTIONAL Placement; END_ENTITY;
ENTITY Element SUBTYPE OF (Root); ObjectPlacement : OPTIONAL Placement; END_ENTITY;
ENTITY Wall SUBTYPE OF (Element); Height : OPTIONAL Length; PredefinedType : Kind; IsExternal : LOGICAL; END_ENTITY;
ENTITY CurtainWall SUBTYPE OF (Wall); END_ENTITY;
ENTITY Door SUBTYPE OF (Element); Panels : INTEGER; Code : OPTIONAL BINARY; Marks : LIST OF LIST OF INTEGER; END_ENTITY;
ENTITY Property; Name : Label; NominalValue : OPTIONAL Value; END_ENTITY;
ENTITY Connects SUBTYPE OF (Root); RelatingElement : Element; RelatedElements : SET OF Element; END_ENTITY;
ENTITY Red SUPERTYPE OF (Round); Shade : Label; END_ENTITY;
ENTITY Round SUBTYPE OF (Red); Radius : Length; END_ENTITY;
ENTITY Product; id : STRING; Notes : LIST OF STRING; END_ENTITY;
ENTITY Nested; Levels : %s INTEGER; END_ENTITY;
ENTITY Link; Owner : SELECTED; Number : INTEGER; END_ENTITY;
TYPE SELECTED = SELECT (Links); END_TYPE;
TYPE Links = LIST OF Link; END_TYPE;
ENTITY Sheet; Name : STRING; Size : INTEGER; END_ENTITY;
ENTITY Document; id : STRING; name : STRING; END_ENTITY;
ENTITY Drawing SUBTYPE OF (Sheet, Document); Size : REAL; END_ENTITY;
ENTITY Thing SUPERTYPE OF (Left ANDOR Right); END_ENTITY;
ENTITY Left SUBTYPE OF (Thing); Mark : INTEGER; END_ENTITY;
ENTITY Right SUBTYPE OF (Thing); mark : STRING; END_ENTITY;
END_SCHEMA;
""" % (b'LIST OF ' * 63)

FILE = rb"""ISO-10303-21;
HEADER;FILE_DESCRIPTION((''),'2;1');FILE_NAME('','',(''),(''),'','','');FILE_SCHEMA(('HOUSE'));ENDSEC;
DATA;
#1=POINT((0.,1.5,-2.E1));
#2=PLACEMENT(#1,$);
#3=PLACEMENT(#1,#2);
#10=WALL('guid-10','Wand-\X2\00E4\X0\',#3,2.75,.SOLID.,.T.);
#11=CURTAINWALL('guid-11',$,#2,$,.GLAZED.,.U.);
#12=DOOR('guid-12','Door',$,2,"14A",((1,2),(),(99999999999999999999)));
#20=PROPERTY('a',LABEL('wood'));
#21=PROPERTY('b',LENGTH(3.));
#22=PROPERTY('c',FLAG(.F.));
#23=PROPERTY('d',KIND(.SOLID.));
#24=PROPERTY('e',$);
#30=CONNECTS('guid-30','both',#12,(#10,#11));
#40=(RED('dark')ROUND(1.));
ENDSEC;
END-ISO-10303-21;
"""


def of_data(instances):
    """A file with these instances."""
    return FILE[: FILE.index(b'#1=')] + instances + b'\n' + FILE[FILE.index(b'ENDSEC;\nEND-ISO') :]


def instances_in(data):
    """How many instances a file has, as another process counts them."""
    return len(p21.Schema(SCHEMA).read_bytes(data))


def read_until_closed(model, wrong):
    """Reads of a model until it is closed, and tells whatever else happens."""
    try:
        while True:
            model.reference_count(), model.inverse(7), model.by_type('Door'), model[5].GlobalId, model[6].is_a('Door')
    except p21.Error as error:
        if str(error) != 'the model is closed':
            wrong.append(error)
    except BaseException as error:
        wrong.append(error)


class Package(unittest.TestCase):
    @classmethod
    def setUpClass(cls):
        cls.schema = p21.Schema(SCHEMA)
        cls.model = cls.schema.read_bytes(FILE)

    def test_values(self):
        wall, curtain, door = (self.model[name] for name in (10, 11, 12))
        self.assertEqual(wall.Name, 'Wand-ä')
        self.assertEqual((wall.Height, wall.PredefinedType, wall.IsExternal), (2.75, 'SOLID', True))
        self.assertEqual((curtain.Name, curtain.IsExternal), (None, 'UNKNOWN'))
        self.assertEqual((door.Panels, door.Code, door.Marks), (2, '1001010'[-7:], ((1, 2), (), (99999999999999999999,))))
        self.assertEqual(wall.ObjectPlacement.Location.Coordinates, (0.0, 1.5, -20.0))
        self.assertEqual([self.model[name].NominalValue for name in range(20, 25)], [
            p21.Typed('Label', 'wood'), p21.Typed('Length', 3.0), p21.Typed('Flag', False), p21.Typed('Kind', 'SOLID'), None])
        self.assertEqual((wall[0], len(wall), wall.attribute_name(0), list(wall)[4]), ('guid-10', 6, 'GlobalId', 'SOLID'))
        self.assertEqual(wall.get_info()['Height'], 2.75)
        self.assertIn('Height', dir(wall))
        with self.assertRaises(AttributeError):
            wall.Width

    def test_instances(self):
        self.assertEqual((len(self.model), self.model.schema, self.model.reference_count()), (13, 'HOUSE', 8))
        self.assertEqual([it.id for it in self.model.by_type('Wall')], [10, 11])
        self.assertEqual([it.id for it in self.model.by_type('wall', include_subtypes=False)], [10])
        self.assertEqual([it.id for it in self.model.inverse(12)], [30])
        self.assertEqual([it.id for it in self.model.get_inverse(self.model[1])], [2, 3])
        curtain = self.model.by_guid('guid-11')
        self.assertEqual((curtain.id(), curtain.is_a(), curtain.is_a('Element'), curtain.is_a('Door')), (11, 'CurtainWall', True, False))
        self.assertEqual(curtain, self.model.by_id(11))
        self.assertEqual(len({curtain, self.model[11], self.model[10]}), 2)
        self.assertTrue(10 in self.model and 13 not in self.model)
        self.assertEqual(repr(self.model[30]), "#30=Connects('guid-30','both',#12,(#10,#11))")
        self.assertRaises(KeyError, lambda: self.model[13])
        self.assertRaises(RuntimeError, self.model.by_id, 13)
        self.assertRaises(RuntimeError, self.model.by_type, 'Roof')

    def test_classes(self):
        wall, other, curtain = (self.model[name] for name in (10, 10, 11))
        self.assertIsInstance(wall, p21.Instance)
        self.assertEqual((type(wall).__name__, type(wall) is type(other), type(wall) is type(curtain)), ('Wall', True, False))
        with self.assertRaises(AttributeError):
            wall.Name = 'other'
        product = self.schema.read_bytes(of_data(b"#5=PRODUCT('P-1',());"))[5]
        self.assertEqual((product.id, product['id'], product[0], product.get_info()['id']), (5, 'P-1', 'P-1', 5))

    def test_attributes_of_one_name(self):
        """The first has the name, and each later one that of its entity in front."""
        drawing = self.schema.read_bytes(of_data(b"#5=DRAWING('A1',7,'D-5','Plan',0.5);"))[5]
        names = ['Name', 'Size', 'id', 'Document.name', 'Drawing.Size']
        self.assertEqual((len(drawing), list(drawing)), (5, ['A1', 7, 'D-5', 'Plan', 0.5]))
        self.assertEqual([drawing.attribute_name(place) for place in range(5)], names)
        self.assertEqual([drawing[name] for name in names], list(drawing))
        self.assertEqual([drawing[place] for place in range(5)], list(drawing))
        self.assertEqual((drawing.Name, drawing.Size, getattr(drawing, 'Drawing.Size')), ('A1', 7, 0.5))
        self.assertEqual(list(drawing.attributes()), names)
        self.assertEqual(drawing.get_info(), {'Name': 'A1', 'Size': 7, 'id': 5, 'type': 'Drawing', 'Document.name': 'Plan', 'Drawing.Size': 0.5})
        self.assertEqual(repr(drawing), "#5=Drawing('A1',7,'D-5','Plan',0.5)")
        both = self.schema.read_bytes(of_data(b"#5=(LEFT(1)RIGHT('r')THING());"))[5]
        self.assertEqual(both.attributes(), {'Mark': 1, 'Right.mark': 'r'})
        self.assertEqual((len(both), list(both)), (2, [1, 'r']))

    def test_references_in_typed_values(self):
        """What is printed of an instance has of another the name alone."""
        model = self.schema.read_bytes(of_data(b'#1=LINK(LINKS((#1,#2)),1);#2=LINK(LINKS((#1,#2)),2);'))
        self.assertEqual(repr(model[1]), '#1=Link(Links((#1,#2)),1)')
        self.assertEqual(repr(model[1].Owner), 'Links((#1,#2))')

    def test_long_integers(self):
        """An integer of more digits than Python reads at once."""
        digits = b'1234567890' * 1000
        for sign, factor in ((b'', 1), (b'-', -1), (b'+', 1)):
            door = self.schema.read_bytes(of_data(b"#5=DOOR('',$,$,%s%s,$,());" % (sign, digits)))[5]
            self.assertEqual(door.Panels, factor * 1234567890 * ((10**10000 - 1) // (10**10 - 1)))
            self.assertIn('0x', repr(door))

    def test_keys(self):
        model = self.model
        self.assertTrue('guid-10' in model and 'guid-13' not in model and model[10] in model)
        self.assertFalse(any(key in model for key in (1.5, 10.5, None, (10,), -1, (1 << 64) + 10, 1 << 64)))
        for key in (-1, 1 << 64, (1 << 64) + 10, 1.5, None, 'guid-13'):
            self.assertRaises(KeyError, lambda: model[key])
        self.assertRaises(RuntimeError, model.by_id, (1 << 64) + 10)
        self.assertEqual(model.inverse((1 << 64) + 12), [])
        self.assertNotIn(self.schema.read_bytes(FILE)[10], model)
        self.assertRaises(TypeError, lambda: model[1:3])
        self.assertEqual((model[10][0:2], model[10][-1:]), (['guid-10', 'Wand-ä'], [True]))
        self.assertRaises(IndexError, lambda: model[10][6])
        self.assertRaises(KeyError, lambda: model[10]['Width'])

    def test_close_beside_calls(self):
        """A model that is closed while other threads read of it goes when their calls are over, and each later call says that it is closed."""
        text = of_data(b''.join(b"#%d=DOOR('guid-%d',$,$,1,$,());" % (it, it) for it in range(1, 2001)))
        for _ in range(20):
            model, wrong = self.schema.read_bytes(text), []
            threads = [threading.Thread(target=read_until_closed, args=(model, wrong)) for _ in range(3)]
            for thread in threads:
                thread.start()
            time.sleep(random.random() / 50)
            model.close()
            for thread in threads:
                thread.join()
            self.assertEqual(wrong, [])

    def test_no_copies(self):
        """A schema or a model is not copied, since there is one of it in the library."""
        for it in (self.schema, self.model):
            for copied in (copy.copy, copy.deepcopy, pickle.dumps):
                self.assertRaisesRegex(TypeError, 'cannot be copied or pickled', copied, it)
        self.assertRaises((TypeError, pickle.PicklingError), pickle.dumps, self.model[10])
        self.assertEqual(self.model[10].Name, 'Wand-ä')

    def test_faults_are_pickled(self):
        """A fault reaches another process whole."""
        for read in (lambda: self.schema.read_bytes(b'nothing', 'x.stp'), lambda: p21.Schema(b'nothing')):
            with self.assertRaises(p21.Error) as caught:
                read()
            other = pickle.loads(pickle.dumps(caught.exception))
            self.assertEqual((type(other), str(other), vars(other)), (type(caught.exception), str(caught.exception), vars(caught.exception)))
        with multiprocessing.get_context('fork').Pool(2) as pool:
            self.assertRaises(p21.Fault, pool.map, instances_in, [FILE, b'nothing'])

    def test_signals_beside_calls(self):
        """A handler that reads while a read is under way changes none of its values."""
        wanted = [list(it) for it in self.model]

        def read():
            self.assertEqual([list(it) for it in self.model], wanted)

        armed = [True]

        def handle(*_):
            # The next signal comes after this one is handled, however slow the machine is.
            read()
            if armed:
                signal.setitimer(signal.ITIMER_REAL, 0.0005)

        before = signal.signal(signal.SIGALRM, handle)
        signal.setitimer(signal.ITIMER_REAL, 0.0005)
        try:
            for _ in range(300):
                read()
        finally:
            # A signal that has come, or is on its way, may be handled only now.
            armed.clear()
            signal.setitimer(signal.ITIMER_REAL, 0)
            time.sleep(0.05)
            signal.signal(signal.SIGALRM, before)

    def test_fork(self):
        """A process that is forked reads of the models that there were."""
        wanted = list(self.model[10])
        child = os.fork()
        if not child:
            is_right = list(self.model[10]) == wanted and len(self.schema.read_bytes(FILE)) == len(self.model)
            os._exit(0 if is_right else 1)
        self.assertEqual(os.waitpid(child, 0)[1], 0)

    def test_long_texts(self):
        """Texts that are longer than the room for them was, among others."""
        texts = tuple(letter * count for count in (0, 255, 256, 257, 5000) for letter in ('a', 'b'))
        product = self.schema.read_bytes(of_data(b"#5=PRODUCT('P-1',(%s));" % ','.join("'%s'" % it for it in texts).encode()))[5]
        self.assertEqual(product.Notes, texts)

    def test_depth(self):
        """As many open parentheses as a file may have."""
        value = self.schema.read_bytes(of_data(b'#5=NESTED(%s1,2%s);' % (b'(' * 63, b')' * 63)))[5].Levels
        for _ in range(62):
            self.assertEqual(len(value), 1)
            value = value[0]
        self.assertEqual(value, (1, 2))

    def test_complex_instances(self):
        both = self.model[40]
        self.assertEqual((both.Shade, both.Radius, both.is_a('Round'), both.is_a('Red')), ('dark', 1.0, True, True))
        self.assertEqual([it.id for it in self.model.by_type('Red')], [40])

    def test_faults(self):
        with self.assertRaises(p21.Fault) as raised:
            self.schema.read_bytes(FILE.replace(b"'Door'", b'7'), 'house.stp')
        fault = raised.exception
        self.assertEqual((fault.kind, fault.record, fault.attribute, fault.name), ('BadAttribute', 0, 1, None))
        self.assertTrue(FILE[fault.at :].startswith(b'#12='))
        self.assertEqual((fault.line, fault.column), (9, 20))
        self.assertTrue(str(fault).startswith('house.stp:9:20:') and 'Found the integer 7' in fault.explanation)
        with self.assertRaises(p21.SchemaFault) as raised:
            p21.Schema(b'SCHEMA S; END')
        self.assertEqual(raised.exception.kind, 'Syntax')

    def test_lifetimes(self):
        with tempfile.TemporaryDirectory() as folder:
            path = pathlib.Path(folder) / 'house.exp'
            path.write_bytes(SCHEMA)
            (pathlib.Path(folder) / 'house.stp').write_bytes(FILE)
            with p21.open(str(pathlib.Path(folder) / 'house.stp'), path) as model:
                wall = model[10]
                gc.collect()
                self.assertEqual(wall.Name, 'Wand-ä')
        self.assertRaises(p21.Error, lambda: wall.Name)
        model.close()

    def test_threads(self):
        wrong = []

        def look():
            for _ in range(200):
                if [it.Name for it in self.model.by_type('Element')] != ['Wand-ä', None, 'Door'] or self.model[1].Coordinates[2] != -20.0:
                    wrong.append(1)

        threads = [threading.Thread(target=look) for _ in range(4)]
        for thread in threads:
            thread.start()
        for thread in threads:
            thread.join()
        self.assertEqual(wrong, [])


class Schemas(unittest.TestCase):
    """What a schema tells without a file, and why one is refused."""

    @classmethod
    def setUpClass(cls):
        cls.schema = p21.Schema(SCHEMA)

    def refused(self, text, *words, **more):
        """The fault of a schema that is refused."""
        with self.assertRaises(p21.SchemaFault) as raised:
            p21.Schema(text, *words, **more)
        return raised.exception

    def test_entities(self):
        schema = self.schema
        names = [it.name for it in schema.entities()]
        self.assertEqual((len(schema), names[:3], names[-1]), (20, ['Root', 'Point', 'Placement'], 'Right'))
        self.assertEqual(([it.name for it in schema], schema.name), (names, 'HOUSE'))
        self.assertTrue('Wall' in schema and 'WALL' in schema and schema.entity('wall') in schema)
        self.assertFalse('Roof' in schema or 7 in schema or p21.Schema(SCHEMA).entity('Wall') in schema)
        wall, curtain = schema.entity('WALL'), schema['CurtainWall']
        self.assertEqual((wall.name, wall.is_abstract, schema['Root'].is_abstract, repr(wall)), ('Wall', False, True, '<Entity Wall>'))
        self.assertEqual((curtain.supertypes, curtain.is_a('element'), curtain.is_a(wall), wall.is_a(curtain), wall.is_a('Roof')), ((wall,), True, True, False, False))
        self.assertEqual([it.name for it in schema['Drawing'].supertypes], ['Sheet', 'Document'])
        self.assertEqual(len({schema['Wall'], schema['wall'], curtain}), 2)
        self.assertRaises(RuntimeError, schema.entity, 'Roof')
        self.assertRaises(KeyError, lambda: schema['Roof'])
        for copied in (copy.copy, copy.deepcopy, pickle.dumps):
            self.assertRaisesRegex(TypeError, 'cannot be copied or pickled', copied, wall)

    def test_attributes(self):
        wall = self.schema['Wall']
        told = [(it.name, it.entity.name, it.type, it.is_optional, it.is_derived) for it in wall.attributes]
        self.assertEqual(told, [
            ('GlobalId', 'Root', 'STRING', False, False), ('Name', 'Root', 'Label', True, False), ('ObjectPlacement', 'Element', 'Placement', True, False),
            ('Height', 'Wall', 'Length', True, False), ('PredefinedType', 'Wall', 'Kind', False, False), ('IsExternal', 'Wall', 'LOGICAL', False, False)])
        self.assertEqual([it.name for it in self.schema['Drawing'].attributes], ['Name', 'Size', 'id', 'Document.name', 'Drawing.Size'])
        self.assertEqual([it.type for it in self.schema['Connects'].attributes[2:]], ['Element', 'SET [0:?] OF Element'])
        for entity in self.schema:
            self.assertEqual([it.name for it in entity.attributes if it.entity == entity], [it.name for it in entity.attributes][len(entity.attributes) - own(entity) :])

    def test_declared_again(self):
        """What is declared again counts for the entity that does so and for those below it."""
        schema = p21.Schema(rb"""SCHEMA S;
            TYPE Text = STRING(8) FIXED; END_TYPE;
            TYPE Any = SELECT (A, Text); END_TYPE;
            TYPE Grid = ARRAY [-1:2] OF OPTIONAL LIST [1:?] OF UNIQUE Any; END_TYPE;
            ENTITY A; x : OPTIONAL REAL; Y : BAG [1:f] OF B; END_ENTITY;
            ENTITY B SUBTYPE OF (A); SELF\A.x : REAL; END_ENTITY;
            ENTITY C SUBTYPE OF (B); DERIVE SELF\A.x : REAL := 1.; SELF\A.Y : BAG OF D := []; END_ENTITY;
            ENTITY D SUBTYPE OF (C); END_ENTITY;
            END_SCHEMA;""")
        told = {it.name: [(one.type, one.is_optional, one.is_derived) for one in it.attributes] for it in schema}
        self.assertEqual(told, {
            'A': [('REAL', True, False), ('BAG [1:?] OF B', False, False)], 'B': [('REAL', False, False), ('BAG [1:?] OF B', False, False)],
            'C': [('REAL', False, True), ('BAG [1:?] OF B', False, True)], 'D': [('REAL', False, True), ('BAG [1:?] OF B', False, True)]})
        self.assertEqual(schema.types(), [
            p21.DefinedType('Text', 'STRING(8) FIXED'), p21.DefinedType('Any', 'SELECT (A, Text)'),
            p21.DefinedType('Grid', 'ARRAY [-1:2] OF OPTIONAL LIST [1:?] OF UNIQUE Any')])

    def test_types(self):
        types = {it.name: it.text for it in self.schema.types()}
        self.assertEqual((len(types), types['Kind'], types['Links']), (7, 'ENUMERATION OF (SOLID, GLAZED)', 'LIST [0:?] OF Link'))
        self.assertEqual(types['Value'], 'SELECT (Label, Length, Flag, Kind)')

    def test_refused(self):
        fault = self.refused(b'SCHEMA S;\n  USE FROM other;\nEND_SCHEMA;', 'house.exp')
        self.assertEqual((fault.kind, fault.at, fault.file, fault.line, fault.column), ('NotSupported', 12, 'house.exp', 2, 3))
        self.assertEqual(fault.message, '`USE` is not supported here.')
        self.assertTrue(fault.advice.startswith('It takes declarations from another schema: '))
        self.assertEqual(str(fault), 'house.exp:2:3: schema fault: %s %s' % (fault.message, fault.advice))
        fault = self.refused(b'SCHEMA S; ENTITY E; a : T; END_ENTITY; END_SCHEMA;')
        self.assertEqual((fault.kind, fault.file, fault.line, fault.column, fault.advice), ('UnknownName', 'schema', 1, 25, ''))
        self.assertEqual(str(fault), 'schema:1:25: schema fault: `T` is not declared, or is of the wrong kind.')
        self.assertEqual(str(p21.SchemaFault('Syntax', 9)), 'schema: schema fault: Syntax at 9')

    def test_mended(self):
        text = b"SCHEMA S '{1}';\nTYPE a = SELECT (E);\nEND_TYPE;\nTYPE b = a; END_TYPE;\nENTITY E ABSTRACT; x : b; END_ENTITY;\nEND_SCHEMA;"
        self.assertEqual(self.refused(text).kind, 'Syntax')
        schema = p21.Schema(text, mend=True)
        self.assertEqual([(it.line, it.column) for it in schema.changes], [(1, 10), (4, 10), (5, 18)])
        self.assertTrue(all(it.sentence.endswith('.') for it in schema.changes))
        self.assertEqual(({it.name: it.text for it in schema.types()}, schema['E'].is_abstract), ({'a': 'SELECT (E)', 'b': 'SELECT (a)'}, True))
        self.assertEqual(schema.text.count(b'\n'), text.count(b'\n'))
        whole = p21.Schema(SCHEMA, mend=True)
        self.assertEqual((whole.changes, whole.text, self.schema.changes), ([], SCHEMA, []))
        self.assertEqual(self.refused(b'SCHEMA S; USE FROM other; END_SCHEMA;', mend=True).kind, 'NotSupported')

    def test_header(self):
        header = self.schema.read_bytes(FILE.replace(b"('HOUSE')", b"('House')").replace(b"FILE_NAME('',''", b"FILE_NAME('a\\X\\E4','2026-11-29'")).header
        self.assertEqual(header['file_description'], {'description': [''], 'implementation_level': '2;1'})
        self.assertEqual((header['file_name']['name'], header['file_name']['time_stamp'], header['file_name']['author']), ('aä', '2026-11-29', ['']))
        self.assertEqual(header['file_schema'], {'schema_identifiers': ['House']})


def own(entity):
    """How many attributes an entity declares: of others it has those of its supertypes, each once."""
    return len(entity.attributes) - len({(it.entity, it.name) for above in entity.supertypes for it in above.attributes})


class Rules(unittest.TestCase):
    """The rules UNIQUE and INVERSE of a schema."""

    TEXT = (b'SCHEMA HOUSE; ENTITY Part; Id : STRING; Host : OPTIONAL Part; INVERSE Guests : SET [0:1] OF Part FOR Host; UNIQUE UR1 : Id; END_ENTITY; END_SCHEMA;')
    KEPT, SAME, MANY = (of_data(it) for it in (b"#1=PART('a',$);#2=PART('b',#1);", b"#1=PART('a',$);\n#2=PART('a',$);", b"#1=PART('a',$);#2=PART('b',#1);#3=PART('c',#1);"))

    def setUp(self):
        self.schema = p21.Schema(self.TEXT)

    def fault(self, data, **more):
        with self.assertRaises(p21.Fault) as raised:
            self.schema.read_bytes(data, 'x.stp', **more)
        return raised.exception

    def test_kept(self):
        for data in (self.KEPT, self.SAME, self.MANY):
            self.assertGreater(len(self.schema.read_bytes(data)), 1)
        self.assertEqual(len(self.schema.read_bytes(self.KEPT, rules=True)), 2)

    def test_broken(self):
        fault = self.fault(self.SAME, rules=True)
        self.assertEqual((fault.kind, fault.at, fault.record, fault.attribute, fault.name), ('NotUnique', self.SAME.index(b'#2='), None, None, 1))
        self.assertEqual((fault.rule, fault.count, fault.line, fault.column), ('Part.UR1', None, 5, 9))
        self.assertTrue(str(fault).startswith('x.stp:5:9: fault ') and "its Id 'a' is that of #1 too" in fault.explanation)
        fault = self.fault(self.MANY, rules=True)
        self.assertEqual((fault.kind, fault.at, fault.name, fault.rule, fault.count), ('InverseCount', self.MANY.index(b'#1='), None, 'Part.GUESTS', 2))
        self.assertIn('Guests of Part asks for at most 1.', fault.explanation)
        other = pickle.loads(pickle.dumps(fault))
        self.assertEqual((str(other), vars(other)), (str(fault), vars(fault)))

    def test_where(self):
        schema = p21.Schema(self.TEXT.replace(b'UNIQUE UR1 : Id;', b"UNIQUE UR1 : Id; WHERE WR1 : Id <> 'b'; EXISTS(Host);"))
        self.assertEqual(len(schema.read_bytes(of_data(b"#1=PART('a',#1);"), rules=True)), 1)
        for data, rule, text in ((b"#1=PART('b',#1);", 'Part.WR1', "WR1 : Id <> 'b'"), (b"#1=PART('a',$);", 'Part.(2)', 'EXISTS(Host)')):
            with self.assertRaises(p21.Fault) as raised:
                schema.read_bytes(of_data(data), 'x.stp', rules=True)
            fault = raised.exception
            self.assertEqual((fault.kind, fault.at, fault.name, fault.rule, fault.count), ('RuleBroken', of_data(data).index(b'#1='), None, rule, None))
            self.assertIn(text, fault.explanation)

    def test_behind_other_faults(self):
        self.assertEqual(self.fault(self.SAME.replace(b"#1=PART('a',$)", b'#1=PART(7,$)'), rules=True).kind, 'BadAttribute')

    def test_refused(self):
        schema = p21.Schema(self.TEXT.replace(b'UR1 : Id', b'UR1 : Name'), 'house.exp')
        self.assertEqual(len(schema.read_bytes(self.KEPT)), 2)
        for _ in range(2):
            with self.assertRaises(p21.SchemaFault) as raised:
                schema.read_bytes(self.KEPT, rules=True)
            self.assertEqual((raised.exception.kind, raised.exception.message), ('UnknownName', '`Name` is not declared, or is of the wrong kind.'))
        # The rules are read before the file.
        self.assertRaises(p21.SchemaFault, schema.read, '/there/is/none', rules=True)

    def test_open(self):
        with tempfile.TemporaryDirectory() as folder:
            schema, file = (pathlib.Path(folder) / it for it in ('house.exp', 'house.stp'))
            schema.write_bytes(self.TEXT.replace(b'HOUSE;', b"HOUSE '{1}';"))
            file.write_bytes(self.SAME)
            self.assertEqual(len(p21.open(file, schema, mend=True)), 2)
            self.assertRaises(p21.Fault, p21.open, file, schema, rules=True, mend=True)
            self.assertRaises(p21.SchemaFault, p21.open, file, schema)


class Scripts(unittest.TestCase):
    """Scripts as users of other packages write them."""

    def setUp(self):
        self.model = p21.Schema(SCHEMA).read_bytes(FILE)

    def test_a_list_of_walls(self):
        model, lines = self.model, []
        for wall in model.by_type('Wall'):
            lines.append('%s %s %s' % (wall.id(), wall.is_a(), wall.Name))
        self.assertEqual(lines, ['10 Wall Wand-ä', '11 CurtainWall None'])

    def test_properties(self):
        model, found = self.model, {}
        for prop in model.by_type('Property'):
            value = prop.NominalValue
            found[prop.Name] = (value.is_a(), value.wrappedValue) if value else None
        self.assertEqual(found, {'a': ('Label', 'wood'), 'b': ('Length', 3.0), 'c': ('Flag', False), 'd': ('Kind', 'SOLID'), 'e': None})

    def test_what_is_connected(self):
        model = self.model
        wall = model.by_guid('guid-10')
        names = [rel.RelatingElement.Name for rel in model.get_inverse(wall) if rel.is_a('Connects') and wall in rel.RelatedElements]
        self.assertEqual(names, ['Door'])
        placement, depth = wall.ObjectPlacement, 0
        while placement is not None:
            placement, depth = placement.RelTo, depth + 1
        self.assertEqual(depth, 2)


class Command(unittest.TestCase):
    """The command python -m p21, whose statuses and lines are those of p21check."""

    def run_words(self, *words, **more):
        """The status, the output and the errors of the command."""
        environment = {**os.environ, 'PYTHONPATH': str(pathlib.Path(p21.__file__).parent.parent)}
        ran = subprocess.run([sys.executable, '-m', 'p21', *words], capture_output=True, env=environment, timeout=60, **more)
        return ran.returncode, ran.stdout, ran.stderr

    def test_statuses(self):
        with tempfile.TemporaryDirectory() as folder:
            schema, file, faulty = (os.path.join(folder, it) for it in ('house.exp', 'house.stp', 'faulty.stp'))
            for path, data in ((schema, SCHEMA), (file, FILE), (faulty, FILE.replace(b"'wood'", b'7'))):
                pathlib.Path(path).write_bytes(data)
            status, output, errors = self.run_words(schema, file)
            self.assertEqual((status, output.split(b'\n')[0], errors), (0, b'schema HOUSE', b''))
            self.assertEqual(self.run_words(schema, '-', input=FILE), (0, output, b''))
            status, output, errors = self.run_words(schema, faulty)
            self.assertEqual((status, output.split(b' at ')[0], errors), (1, b'fault 12 BadAttribute', b''))
            self.assertEqual(self.run_words(file, file), (3, b'schema fault 1 Syntax at 0\n', b''))
            ruled, same = os.path.join(folder, 'ruled.exp'), os.path.join(folder, 'same.stp')
            for path, data in ((ruled, Rules.TEXT.replace(b'HOUSE;', b"HOUSE '{1}';")), (same, Rules.SAME)):
                pathlib.Path(path).write_bytes(data)
            self.assertEqual(self.run_words(ruled, same), (3, b'schema fault 1 Syntax at 13\n', b''))
            status, output, errors = self.run_words('--rules', '--mend', ruled, same)
            place = Rules.SAME.index(b'#2=')
            self.assertEqual((status, output), (1, b'fault 16 NotUnique at %d rule PART.UR1 name #1\n' % place))
            self.assertTrue(errors.startswith(ruled.encode() + b':1:14: The version after the name') and errors.count(b'\n') == 1)
            self.assertEqual(self.run_words(schema, 'nothing'), (4, b'', b'p21: nothing: No such file or directory\n'))
            self.assertEqual(self.run_words('/dev/zero', file), (4, b'', b'p21: /dev/zero: a limit was exceeded: at most 16777216 bytes are read\n'))
            self.assertEqual(self.run_words('-', file)[0], 4)
            self.assertEqual(self.run_words(schema)[0], 2)

    def test_closed_pipe(self):
        reading, writing = os.pipe()
        os.close(reading)
        with tempfile.TemporaryDirectory() as folder:
            path = os.path.join(folder, 'house.exp')
            pathlib.Path(path).write_bytes(SCHEMA)
            environment = {**os.environ, 'PYTHONPATH': str(pathlib.Path(p21.__file__).parent.parent)}
            ran = subprocess.run([sys.executable, '-m', 'p21', path, '-'], input=FILE, stdout=writing, stderr=subprocess.PIPE, env=environment, timeout=60)
        os.close(writing)
        self.assertEqual((ran.returncode, ran.stderr), (4, b''))

    def test_version(self):
        project = (pathlib.Path(p21.__file__).parent.parent / 'pyproject.toml').read_text()
        self.assertIn('version = "%s"' % p21.__version__, project)
        self.assertEqual(p21.version(), p21.__version__)
        self.assertEqual(self.run_words('--version')[1], b'p21 %s\n' % p21.__version__.encode())


if __name__ == '__main__':
    unittest.main()
