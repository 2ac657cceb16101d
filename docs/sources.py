"""What the pages of docs/api are made of: the public calls and types of a crate with their docstrings and contracts, and the definitions of `specs`
that these contracts reach, with their comments."""

import collections
import functools
import itertools
import pathlib
import re
import sys

TOP = pathlib.Path(__file__).resolve().parent.parent
sys.path.insert(0, str(TOP / 'tests'))
from contracts import behind, contract, home

Call = collections.namedtuple('Call', 'path owner name doc statement clauses')
Type = collections.namedtuple('Type', 'path name doc body')
Definition = collections.namedtuple('Definition', 'crate file name comment body')

CALL = re.compile(r'^ *(pub |pub\(crate\) )?(?:const )?(extern "C" )?fn (\w+)', re.MULTILINE)
TYPE = re.compile(r'^pub (?:struct|enum|trait) (\w+)', re.MULTILINE)
DEFINED = re.compile(r'(?:abbrev |unfoldable )*pub (?:record |data )?(?!\S*-prop\b)([\w-]+|◌\S+◌)(?= |$)')
BLOCK = re.compile(r'(?:module .* where|(?:abbrev )?mutual)$')
IMPORT = re.compile(r'\buse Rattle\.(\w+)\.specs\.(\w+)(?:\.\{([^}]*)\}| as (\w+))')
WORD = re.compile(r'[A-Za-z_][\w-]*(?:\.[A-Za-z_][\w-]*)?')


def libraries():
    """The crates that others call, by name."""
    return sorted(it.parent.parent.name for it in TOP.glob('crates/*/src/lib.rt') if not it.parent.parent.name.endswith('_tests'))


@functools.cache
def sources(crate):
    """The text of each file of a crate's code."""
    return {it: it.read_text() for it in sorted((TOP / 'crates' / crate / 'src').rglob('*.rt'))}


def front(crate):
    """The text of a crate's first file."""
    return sources(crate)[TOP / 'crates' / crate / 'src/lib.rt']


def exported(crate):
    """The names that a crate hands out."""
    return {name for uses in re.findall(r'^pub use \w+::([^;]*);', front(crate), re.MULTILINE) for name in re.findall(r'\w+', uses)}


def paragraphs(lines):
    """Lines of a comment as one text, an empty line between paragraphs."""
    return '\n\n'.join(' '.join(it.split()) for it in '\n'.join(lines).split('\n\n') if it.strip())


def first_comment(text):
    """The comment at the head of a file of code."""
    return paragraphs([it[3:].strip() for it in text.split('\n') if it.startswith('//!')])


def docstring(text, at):
    """The docstring above a place."""
    lines = []
    for line in reversed(text[:at].rstrip('\n').split('\n')):
        if not line.strip().startswith(('///', '#[')):
            break
        if line.strip().startswith('///'):
            lines.insert(0, line.strip()[3:].strip())
    return paragraphs(lines)


def calls(crate):
    """The public calls of a crate, those of public traits among them, in the order of the files."""
    names = exported(crate)
    for path, text in sources(crate).items():
        for found in CALL.finditer(text):
            owner, is_trait = home(text, found.start())
            if found[2] or (found[1] == 'pub ' or is_trait) and ((owner or found[3]) in names or path.name == 'lib.rt'):
                end, clauses = contract(text, found.end())
                statement = text[found.start():end].strip('\n')
                yield Call(path, owner, found[3], docstring(text, found.start()), dedented(statement), clauses)


def title(call):
    """The name of a call, behind that of its type."""
    return '%s::%s' % (call.owner, call.name) if call.owner else call.name


def types(crate):
    """The public types and traits of a crate."""
    names = exported(crate)
    for path, text in sources(crate).items():
        for found in TYPE.finditer(text):
            if found[1] in names:
                end = re.compile(r'[;{]').search(text, found.end()).start()
                yield Type(path, found[1], docstring(text, found.start()), text[found.start():behind(text, end) if text[end] == '{' else end])


def dedented(text):
    """A text without the room before its first line."""
    room = len(text) - len(text.lstrip(' '))
    return '\n'.join(it[room:] if it[:room].isspace() else it for it in text.rstrip().split('\n'))


def definitions(path):
    """The public definitions of a file of definitions, each with the comment right above it."""
    found, comment, is_block = [], [], False
    for line in path.read_text().split('\n'):
        is_block = bool(BLOCK.match(line)) if line[:1].strip() else is_block
        line = line[2:] if is_block and line.startswith('  ') else line
        begun = DEFINED.match(line)
        if line.startswith('--'):
            comment.append(line[2:].strip())
        elif begun:
            found.append(Definition(path.parts[-3], path.stem, begun[1], paragraphs(comment), [line]))
            comment = []
        else:
            comment = []
            if found and not line.startswith('use '):
                found[-1].body.append(line)
    return found


def head(crate, file):
    """The comment at the head of a file of definitions."""
    lines = (TOP / 'crates' / crate / 'specs' / (file + '.antt')).read_text().split('\n')
    return paragraphs([it[2:].strip() for it in itertools.takewhile(lambda it: it.startswith('--'), lines)])


@functools.cache
def defined():
    """Every public definition, by its crate, file and name."""
    return {it[:3]: it for path in sorted(TOP.glob('crates/*/specs/*.antt')) for it in definitions(path)}


def imports(text):
    """What a text calls the definitions that it uses: of each name, or name of a file, where it is from."""
    named = {}
    for crate, file, names, alias in IMPORT.findall(text):
        named[alias] = crate, file, None
        named.update({name.split(' as ')[-1].strip(): (crate, file, name.split(' as ')[0].strip()) for name in names.split(',')})
    return named


@functools.cache
def imports_of(crate, file):
    """The same of a file of definitions."""
    path = TOP / 'crates' / crate / 'specs' / (file + '.antt')
    return imports(path.read_text()) if path.exists() else {}


def resolved(crate, file, name):
    """The key of the definition that a name is in a file, if it is one of this repository."""
    for _ in range(9):
        if (crate, file, name) in defined():
            return crate, file, name
        place = imports_of(crate, file).get(name)
        if not place or not place[2]:
            return None
        crate, file, name = place
    return None


def named_in(text, named, own=None):
    """The keys of the definitions that a text names, by what is imported there, and of the file that it is of."""
    for word in WORD.findall(text):
        head, _, tail = word.partition('.')
        crate, file, name = named.get(head, (None, None, None))
        if crate and (name or tail):
            yield resolved(crate, file, name or tail)
        elif own:
            yield resolved(*own, head)


def spoken_of(crate):
    """The keys of the definitions that the contracts and types of a crate name."""
    for it in [*calls(crate), *types(crate)]:
        said = ' '.join(text for _, _, text in it.clauses) if isinstance(it, Call) else it.body
        yield from named_in(said, imports(sources(crate)[it.path]))


@functools.cache
def reached():
    """The keys of the definitions that the contracts of all crates name, and of those that these name, and so on."""
    keys, left = set(), [key for crate in libraries() for key in spoken_of(crate)]
    while left:
        key = left.pop()
        if key and key not in keys:
            keys.add(key)
            left += named_in('\n'.join(defined()[key].body), imports_of(*key[:2]), key[:2])
    return keys


def reached_of(crate):
    """The definitions of a crate that contracts reach, with those before them to which the comment of one refers; in the order of the files."""
    shown, before = {}, None
    for key, it in defined().items():
        if it.crate == crate and key in reached():
            if before and before.file == it.file and re.match(r'(?:the|The) same\b', it.comment):
                shown[before[:3]] = before
            shown[key] = it
        before = it
    return list(shown.values())
