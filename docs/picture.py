"""Draws docs/stages.svg: from a file to a report, with the crates that do each stage."""

WIDTH, HEIGHT = 178, 58
COLUMNS = [16, 214, 412, 610, 808]
ROWS = [34, 134, 234, 354]
CHECK, MODEL, INPUT = '#e8eef7', '#eaf4e6', '#f4f4f4'

# Of each stage its column and row, its colour, its title, and its crates.
STAGES = {
    'schema': (0, 0, INPUT, 'schema', 'EXPRESS text'),
    'words': (1, 0, CHECK, 'declarations', 'p21_express'),
    'table': (2, 0, CHECK, 'table of the schema', 'p21_schema'),
    'file': (0, 1, INPUT, 'file', 'STEP text'),
    'preface': (1, 1, CHECK, 'preface, header', 'p21_tree, p21_check'),
    'dealer': (2, 1, CHECK, 'dealer cuts pieces', 'p21_cut, p21_crew, p21_desk'),
    'worker': (3, 1, CHECK, 'workers read, check', 'p21_tree, p21_check'),
    'gather': (4, 1, CHECK, 'results in file order', 'p21_checker, p21_join'),
    'references': (4, 2, CHECK, 'references', 'p21_outline'),
    'counts': (3, 2, CHECK, 'counts', 'p21_counts'),
    'report': (2, 2, CHECK, 'report', 'p21_render, p21_run'),
    'check': (1, 2, INPUT, 'p21check', 'p21_report'),
    'explain': (0, 2, CHECK, 'faults in words', 'p21_explain, p21_printed'),
    'model': (4, 3, MODEL, 'model, if it is kept', 'p21_reader, p21_refs'),
    'queries': (3, 3, MODEL, 'queries: libp21', 'p21_query, p21_c'),
    'json': (2, 3, MODEL, 'JSON: p21export', 'p21_json, p21_export'),
    'rows': (1, 3, MODEL, 'rows: p21export', 'p21_rows, p21_database'),
    'rules': (0, 3, MODEL, 'p21check --rules', 'p21_rules, p21_rule_run'),
}
# Arrows from the right or left of a stage to the next, and from the bottom of one to the top of another.
ACROSS = [('schema', 'words'), ('words', 'table'), ('file', 'preface'), ('preface', 'dealer'), ('dealer', 'worker'), ('worker', 'gather'),
          ('references', 'counts'), ('counts', 'report'), ('report', 'check'), ('check', 'explain'), ('model', 'queries')]
DOWN = [('gather', 'references')]
# From the model there is a line above the last row, with an arrow down to each of these.
FROM_MODEL = ['rules', 'rows', 'json']


def text(x, y, said, size=13, weight='normal'):
    """A line of text, in the middle of a place."""
    return '<text x="%d" y="%d" font-size="%d" font-weight="%s" text-anchor="middle">%s</text>\n' % (x, y, size, weight, said)


def place(name):
    """The left and the top of a stage."""
    return COLUMNS[STAGES[name][0]], ROWS[STAGES[name][1]]


def box(name):
    """A stage."""
    (x, y), (_, _, colour, title, crates) = place(name), STAGES[name]
    return ('<rect x="%d" y="%d" width="%d" height="%d" rx="6" fill="%s" stroke="#667"/>\n' % (x, y, WIDTH, HEIGHT, colour)
            + text(x + WIDTH // 2, y + 25, title, weight='bold') + text(x + WIDTH // 2, y + 44, crates, 11))


def line(points, is_arrow=True):
    """A line through some points."""
    through = ' '.join('%d,%d' % it for it in points)
    return '<polyline points="%s" fill="none" stroke="#445" stroke-width="1.5"%s/>\n' % (through, ' marker-end="url(#tip)"' if is_arrow else '')


def across(first, second):
    """An arrow from a stage to one beside it."""
    (x, y), (to, _) = place(first), place(second)
    middle = y + HEIGHT // 2
    return line([(x + WIDTH, middle), (to, middle)] if to > x else [(x, middle), (to + WIDTH, middle)])


def down(first, second):
    """An arrow from a stage to one below it."""
    (x, y), (to, below) = place(first), place(second)
    return line([(x + WIDTH // 2, y + HEIGHT), (to + WIDTH // 2, below)])


def model_lines():
    """The arrows from the model to what is made of it, and from the results to the model, at the side of the check."""
    (x, y), (_, top) = place('model'), place('gather')
    above, side = y - 24, x + WIDTH + 14
    lines = [line([(x + WIDTH, top + HEIGHT // 2), (side, top + HEIGHT // 2), (side, y + HEIGHT // 2), (x + WIDTH, y + HEIGHT // 2)]),
             line([(x + WIDTH // 2, y), (x + WIDTH // 2, above), (COLUMNS[0] + WIDTH // 2, above)], False)]
    return ''.join(lines + [line([(place(it)[0] + WIDTH // 2, above), (place(it)[0] + WIDTH // 2, y)]) for it in FROM_MODEL])


def lanes():
    """The lanes between the dealer and the workers, and the schema that these ask."""
    (x, y), (worker, _) = place('dealer'), place('worker')
    rings = [line([(x + WIDTH, y + part), (worker, y + part)]) for part in (14, 44)]
    (table, top) = place('table')
    asked = line([(table + WIDTH, top + HEIGHT // 2), (worker + WIDTH // 2, top + HEIGHT // 2), (worker + WIDTH // 2, y)])
    return ''.join(rings) + asked + text(worker + WIDTH // 2, top + 20, 'asked by each worker', 11)


def picture():
    """The picture."""
    parts = [text(COLUMNS[2] + WIDTH // 2, 18, 'From a file to a report (blue: a check; green: what keeps the model). Lanes: p21_lanes.', 12)]
    parts += [across(*it) for it in ACROSS] + [down(*it) for it in DOWN] + [lanes(), model_lines()] + [box(it) for it in STAGES]
    return ('<svg xmlns="http://www.w3.org/2000/svg" viewBox="0 0 1012 428" font-family="sans-serif" fill="#112">\n'
            '<title>The stages of a run, with their crates</title>\n'
            '<defs><marker id="tip" markerWidth="8" markerHeight="8" refX="7" refY="4" orient="auto"><path d="M0,0 L8,4 L0,8 z" fill="#445"/></marker></defs>\n'
            '<rect width="1012" height="428" fill="white"/>\n%s</svg>\n' % ''.join(parts))
