"""A STEP file (ISO 10303-21) without faults read into names, places, records and parameters.

A parameter is None for `$`, DERIVED for `*`, an int, a float, a str, Bits, Reference, Item, Typed, or a list of these."""

import collections
import pathlib
import re
import sys

sys.path.append(str(pathlib.Path(__file__).resolve().parent.parent))
from ruled import characters
from schema_text import Bits

Reference = collections.namedtuple('Reference', 'name')
Item = collections.namedtuple('Item', 'name')
Typed = collections.namedtuple('Typed', 'name value')
Record = collections.namedtuple('Record', 'entity parameters')
Read = collections.namedtuple('Read', 'name place is_complex records')
DERIVED = object()

TOKEN = re.compile(r"""
    (?:\s+|/\*.*?\*/)*
    (?:(?P<string>'(?:[^']|'')*')
     | (?P<bits>"[0-3][0-9A-Fa-f]*")
     | (?P<reference>\#\d+)
     | (?P<item>\.[A-Za-z_]\w*\.)
     | (?P<real>[+-]?\d+\.\d*(?:[Ee][+-]?\d+)?)
     | (?P<integer>[+-]?\d+)
     | (?P<keyword>!?[A-Za-z_][\w-]*)
     | (?P<symbol>[()=;,$*]))
""", re.VERBOSE | re.DOTALL)


def real(spelled):
    """The nearest binary64; one too large for it is missing."""
    value = float(spelled)
    return value if abs(value) != float('inf') else None


def bits(spelled):
    """The first digit says how many of the leading bits do not count."""
    return Bits(''.join(format(int(it, 16), '04b') for it in spelled[2:-1])[int(spelled[1]):])


LITERALS = {
    'string': lambda it: ''.join(characters(it[1:-1])),
    'bits': bits,
    'reference': lambda it: Reference(int(it[1:])),
    'item': lambda it: Item(it[1:-1].upper()),
    'real': real,
    'integer': int,
}


class File:
    """The instances of a text, whose characters are the bytes of the file, and the place of its HEADER."""

    def __init__(self, text):
        self.tokens = [(it.lastgroup, it[it.lastgroup], it.start(it.lastgroup)) for it in TOKEN.finditer(text)]
        self.header = next(place for _, spelled, place in self.tokens if spelled == 'HEADER')
        self.at, self.instances = 0, []
        while self.at < len(self.tokens):
            if self.next()[1] == 'DATA':
                while self.tokens[self.at][0] != 'reference':
                    if self.next()[1] == 'ENDSEC':
                        break
                while self.tokens[self.at][0] == 'reference':
                    self.instances.append(self.instance())

    def next(self):
        self.at += 1
        return self.tokens[self.at - 1]

    def have(self, symbol):
        """Whether this symbol is next; if so it is passed."""
        found = self.tokens[self.at][:2] == ('symbol', symbol)
        self.at += found
        return found

    def instance(self):
        _, name, place = self.next()
        self.next()
        is_complex, records = self.have('('), []
        while not records or is_complex and not self.have(')'):
            records.append(Record(self.next()[1].upper(), self.parameters()))
        self.next()
        return Read(int(name[1:]), place, is_complex, records)

    def parameters(self):
        """What stands between brackets."""
        self.next()
        found = []
        while not self.have(')'):
            self.have(',')
            found.append(self.parameter())
        return found

    def parameter(self):
        if self.tokens[self.at][:2] == ('symbol', '('):
            return self.parameters()
        kind, spelled, _ = self.next()
        if kind == 'keyword':
            return Typed(spelled.upper(), self.parameters()[0])
        if kind == 'symbol':
            return None if spelled == '$' else DERIVED
        return LITERALS[kind](spelled)
