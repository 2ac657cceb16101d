#!/usr/bin/env python3
"""Plants breaks of rules of IFC2X3 in a house, AC14-FZK-Haus.ifc, and asks for the one rule that each breaks:

    tests/where/planted.py SCHEMA HOUSE [--apart] [--only RULE]               asks the evaluator beside this script
    tests/where/planted.py SCHEMA HOUSE [--apart] [--only RULE] PROGRAM       asks PROGRAM

SCHEMA is IFC2X3 as published. Each break is an edit of one instance, and makes no fault of another kind. PROGRAM is run as `PROGRAM SCHEMA FILE --rules
--all`. Of the lines that begin with `fault` there must be the one that the table below has for a break, and no other. With `--apart` each break has a run
of its own; without it those of different instances are planted together, so that there are two or three runs, each with a line for each of its breaks. What
differs is printed, and the status is 1 if something does."""

import pathlib
import re
import subprocess
import sys
import tempfile
import threading

sys.dont_write_bytecode = True
sys.path.append(str(pathlib.Path(__file__).resolve().parent))
import rules

sys.setrecursionlimit(100000)
threading.stack_size(2 ** 29)
HEADER = 0

# Why it is broken; the instance that is edited; what is replaced in it, and by what; the rule; the instance that it is told of, if another, or HEADER.
PLANTED = [
    ('a door lining with a thickness and no depth', 6854, '0.1,0.05', '$,0.05', 'IFCDOORLININGPROPERTIES.WR31'),
    ('a transom with a thickness and no offset', 6854, r'0\.05,\$,\$,\$', '0.05,$,$,0.1', 'IFCDOORLININGPROPERTIES.WR33'),
    ('a casing with a thickness and no depth', 17924, '0.1,0.02', '0.1,$', 'IFCDOORLININGPROPERTIES.WR34'),
    ('a second mullion without a first', 8312, r'0\.5,\$,\$\)', '$,0.5,$)', 'IFCWINDOWLININGPROPERTIES.WR33'),
    ('an alignment with a capital', 200240, 'top-left', 'Top-left', 'IFCBOXALIGNMENT.WR1'),
    ('a colour more than full', 177, '0.57', '1.57', 'IFCNORMALISEDRATIOMEASURE.WR1'),
    ('61 minutes of latitude', 567, r'52,31,0', '52,61,0', 'IFCCOMPOUNDPLANEANGLEMEASURE.WR2'),
    ('a longitude of two signs', 567, '13,24,0', '13,-24,0', 'IFCCOMPOUNDPLANEANGLEMEASURE.WR4'),
    ('a hatch spacing below 0, in a SELECT', 631, '0.779', '-0.779', 'IFCPOSITIVELENGTHMEASURE.WR1'),
    ('a person without a name', 6, "'Haefele','Karl-Heinz'", '$,$', 'IFCPERSON.WR1'),
    ('a project without a name', 54, "'Projekt'", '$', 'IFCPROJECT.WR31'),
    ('a project with a context of a context', 54, '#51,#613', '#51,#613,#616', 'IFCPROJECT.WR32'),
    ('a slab of a type of its own, which is not named', 199601, 'FLOOR', 'USERDEFINED', 'IFCSLAB.WR2'),
    ('a physical boundary at a virtual element', 299250, 'VIRTUAL', 'PHYSICAL', 'IFCRELSPACEBOUNDARY.WR1'),
    ('a wall that is connected with itself', 16094, '#9806,#767', '#767,#767', 'IFCRELCONNECTSELEMENTS.WR31'),
    ('a placement with one axis', 761, '#36,#32', '#36,$', 'IFCAXIS2PLACEMENT3D.WR5'),
    ('a placement with two parallel axes', 761, '#36,#32', '#36,#36', 'IFCAXIS2PLACEMENT3D.WR4'),
    ('a direction in space for a placement in a plane', 851, '#843', '#28', 'IFCAXIS2PLACEMENT2D.WR1'),
    ('an extrusion within the plane of its profile', 828, '#36', '#28', 'IFCEXTRUDEDAREASOLID.WR31'),
    ('a solid swept from a curve', 824, 'AREA', 'CURVE', 'IFCSWEPTAREASOLID.WR22', 828),
    ('a hatch pattern that starts in space', 631, '#627', '#40', 'IFCFILLAREASTYLEHATCHING.WR22'),
    ('a swept solid that says it is a Brep', 831, 'SweptSolid', 'Brep', 'IFCSHAPEREPRESENTATION.WR24'),
    ('a shape of no product', 837, '#798,', '', 'IFCSHAPEMODEL.WR11', 798),
    ('an angle with the dimension of a length', 19, r'\(0', '(1', 'IFCNAMEDUNIT.WR1', 20),
    ('two units of length', 15, 'AREAUNIT.,$,.SQUARE_METRE', 'LENGTHUNIT.,$,.METRE', 'IFCUNITASSIGNMENT.WR01', 26),
    ('a font without a size', 200232, '0.6', '0.', 'IFCTEXTSTYLEFONTMODEL.WR31'),
    ('a dash shorter than nothing', 622, '650', '-650', 'IFCCURVESTYLEFONTPATTERN.WR01'),
    ('a colour that is none', 200432, 'blue', 'Blue', 'IFCDRAUGHTINGPREDEFINEDCOLOUR.WR31'),
    ('a view of a type of its own, which is not named', 616, 'PLAN_VIEW', 'USERDEFINED', 'IFCGEOMETRICREPRESENTATIONSUBCONTEXT.WR32'),
    ('a wall without material', 841, '#767', '#199601', 'IFCWALLSTANDARDCASE.WR1', 767),
    ('an opening of concrete', 296565, '#296429', '#296429,#885', 'IFCRELASSOCIATESMATERIAL.WR21'),
    ('a project of concrete', 296565, '#296429', '#296429,#54', 'IFCRELASSOCIATESMATERIAL.WR22'),
    ('a relation that is classified', 199807, r'\(#199794', '(#6869,#199794', 'IFCRELASSOCIATES.WR21'),
    ('a window of two types', 6869, r'\(#6834', '(#6834,#8292', 'IFCOBJECT.WR1', 8292),
    ('a line that leaves its plane', 794, '#790', '#40', 'IFCPOLYLINE.WR41'),
    ('a loop with a point in a plane', 93, '#69', '#627', 'IFCPOLYLOOP.WR21'),
    ('a face with two outer bounds', 100, '#97', '#97,#108', 'IFCFACE.WR1'),
    ('a text with two styles', 200243, '#200235', '#200235,#200287', 'IFCSTYLEDITEM.WR11'),
    ('a surface with two shadings', 179, '#178', '#178,#3043', 'IFCSURFACESTYLE.WR11'),
    ('a set of a line and a point in space', 200136, '#200132', '#200132,#40', 'IFCGEOMETRICSET.WR21'),
    ('a clipping that adds', 211440, 'DIFFERENCE', 'UNION', 'IFCBOOLEANCLIPPINGRESULT.WR3'),
    ('a reference to nothing', 199806, "'000','Allgemeines'", '$,$', 'IFCEXTERNALREFERENCE.WR1'),
    ('a door type without a name', 6862, r"#13,'[^']*'", '#13,$', 'IFCTYPEOBJECT.WR1'),
    ('an operator of scale 0', 15872, r'1\.', '0.', 'IFCCARTESIANTRANSFORMATIONOPERATOR.WR1'),
    ('a space that a storey contains as an element', 211316, r'\(#767', '(#199794,#767', 'IFCRELCONTAINEDINSPATIALSTRUCTURE.WR31'),
    ('a storey of no building', 305262, ',#211330', '', 'IFCSPATIALSTRUCTUREELEMENT.WR41', 211330),
    ('a placement in space in one in a plane', 882, '#879', '#851', 'IFCLOCALPLACEMENT.WR21', 918),
    ('two projects', 54, r'^#54= (IFCPROJECT\(.)(.)(.*)$', r'#54= \g<1>\g<2>\g<3>\n#999999= \g<1>0\g<3>', 'IFCSINGLEPROJECTINSTANCE.WR1', HEADER),
    ('contexts whose axes differ', 613, '#44', '#16114', 'IFCREPRESENTATIONCONTEXTSAMEWCS.WR1', HEADER),
]


def edited(house, name, pattern, replacement):
    """The house with the first place in an instance's line that a pattern matches replaced."""
    start = re.search(r'^#%d= ' % name, house, re.MULTILINE).start()
    end = house.index('\n', start)
    line = house[start:end].rstrip('\r')
    pattern = pattern if re.search(r'[\\^]', pattern) else re.escape(pattern)
    found, count = re.subn(pattern, replacement if '\\' in replacement else lambda it: replacement, line, count=1)
    if not count or found == line:
        raise ValueError('#%d has no %s' % (name, pattern))
    return house[:start] + found + house[start + len(line):]


def found_by_program(program, schema, text):
    """The lines of a program's report that begin with `fault`."""
    with tempfile.TemporaryDirectory() as folder:
        file = pathlib.Path(folder) / 'house.ifc'
        file.write_bytes(text.encode('latin-1'))
        ran = subprocess.run([program, schema, file, '--rules', '--all'], stdin=subprocess.DEVNULL, capture_output=True)
    lines = [it for it in ran.stdout.decode('latin-1').split('\n') if it.startswith('fault')]
    return lines if ran.returncode in (0, 1) else ['status %d: %s' % (ran.returncode, ran.stderr[:200].decode('latin-1'))]


def found_by_evaluator(schema, text):
    """The lines that the evaluator finds; a thread has the stack that it needs."""
    found = []
    runner = threading.Thread(target=lambda: found.append(rules.lines(rules.checker_of(pathlib.Path(schema).read_bytes().decode('latin-1'), text).run())))
    runner.start()
    runner.join()
    return found[0] if found else ['the evaluator failed']


def runs_of(planted, are_apart):
    """The breaks by runs: in a run no instance is edited twice."""
    runs = []
    for it in planted:
        run = None if are_apart else next((run for run in runs if it[1] not in [other[1] for other in run]), None)
        if run is None:
            runs.append([it])
        else:
            run.append(it)
    return runs


def wanted_line(text, name, rule, told=None):
    """The line of a break in the edited text."""
    told = name if told is None else told
    place = text.index('HEADER') if told == HEADER else re.search(r'^#%d= ' % told, text, re.MULTILINE).start()
    return rules.lines([rules.Fault(place, rule)])[0]


def main(words):
    only = words[words.index('--only') + 1] if '--only' in words else None
    schema, house, program = ([it for it in words if it not in ('--apart', '--only', only)] + [None])[:3]
    failed = 0
    for run in runs_of([it for it in PLANTED if not only or it[4] == only], '--apart' in words):
        text = pathlib.Path(house).read_bytes().decode('latin-1')
        for _, name, pattern, replacement, *_ in run:
            text = edited(text, name, pattern, replacement)
        found = found_by_program(program, schema, text) if program else found_by_evaluator(schema, text)
        for why, name, _, _, *told in run:
            line = wanted_line(text, name, *told)
            failed += line not in found
            print('%s: #%d, %s: %s' % ('told' if line in found else 'NOT TOLD', name, why, told[0]), flush=True)
            found = [it for it in found if it != line]
        failed += len(found)
        for it in found:
            print('NOT PLANTED: %s' % it, flush=True)
    print('%d differences' % failed)
    return 1 if failed else 0


if __name__ == '__main__':
    sys.exit(main(sys.argv[1:]))
