"""Which schema a file names, and which schemas a folder has."""

from __future__ import annotations

import os
import re
from typing import Dict, List, Optional, Tuple

from .model import Finding, Untried, text_of
from .sources import Source
from .tables import escaped

# What a header is searched for: the begin of a comment or a string, its end, and the entity that has the name; and what is white.
MARKS = re.compile(rb"/\*|'|\bENDSEC\b|(?<![!A-Z0-9_])FILE_SCHEMA\b")
WHITE = re.compile(rb'[\t-\r ]*')
# A file is looked at up to here for the name, first its front alone; and the most characters of a name that are told.
FRONTS, NAME = (1 << 16, 1 << 24), 256
# The most bytes of a schema.
MOST = 1 << 24
# White bytes, a remark to the end of its line, the begin of one that nests, or a word.
EXPRESS = re.compile(rb'\s+|--[^\n]*|(?P<remark>\(\*)|(?P<word>[A-Za-z]\w*)')
NESTED = re.compile(rb'(\(\*)|\*\)')
MARK = b'\xef\xbb\xbf'


def after_white(front: bytes, place: int) -> int:
    """The place after the white bytes and comments that stand at a place; the end where that cuts a comment."""
    place = WHITE.match(front, place).end()
    while front.startswith(b'/*', place):
        end = front.find(b'*/', place + 2)
        if end < 0:
            return len(front)
        place = WHITE.match(front, end + 2).end()
    return place


def first_string(front: bytes, place: int) -> Optional[bytes]:
    """The first string of the list that stands in parentheses at a place, if one does."""
    for bracket in b'((':
        place = after_white(front, place)
        if place == len(front) or front[place] != bracket:
            return None
        place += 1
    place = after_white(front, place)
    end = front.find(b"'", place + 1)
    return front[place + 1:end] if front.startswith(b"'", place) and end >= 0 else None


def name_in(front: bytes) -> Optional[str]:
    """The name of the schema in the front of a file, in upper case: what FILE_SCHEMA has before the first blank or brace, line ends left out.
    '' where the header ends without, and None where the front does not say."""
    mark = MARKS.search(front)
    while mark:
        place = mark.end()
        if mark[0] == b'ENDSEC':
            return ''
        if mark[0] == b'FILE_SCHEMA':
            name = first_string(front, place)
            if name is not None:
                return re.split(rb'[ {]', re.sub(rb'[\t\n\r]', b'', name))[0].upper().decode('ascii', 'backslashreplace')
        else:
            end = b'*/' if mark[0] == b'/*' else b"'"
            place = front.find(end, place) + len(end)
            if place < len(end):
                return None
        mark = MARKS.search(front, place)
    return None


def read_front(source: Source) -> Tuple[bytes, str]:
    """What had to be read of a file to know the schema that it names, and that name; '' where there is none. Untried where a longer front would have to
    be read than is."""
    front = b''
    for size in FRONTS:
        front += source.read(size - len(front))
        name = name_in(front)
        if name is not None or len(front) < size:
            return front, name or ''
    raise Untried('LongHeader', 'Its first %d bytes do not say which schema it names.' % len(front))


def end_of_remark(text: bytes, begin: int) -> int:
    """The place behind the remark that begins here, nested ones counted."""
    depth = 0
    for bracket in NESTED.finditer(text, begin):
        depth += 1 if bracket[1] else -1
        if depth == 0:
            return bracket.end()
    return len(text)


def name_of_schema(text: bytes) -> Optional[str]:
    """The name behind SCHEMA, in upper case, where the text begins so."""
    words, place = [], len(MARK) if text.startswith(MARK) else 0
    while len(words) < 2:
        token = EXPRESS.match(text, place)
        if not token:
            return None
        place = end_of_remark(text, place) if token['remark'] else token.end()
        if token['word']:
            words.append(token['word'].upper().decode('ascii', 'replace'))
    return words[1] if words[0] == 'SCHEMA' else None


def schemas_of(folder: bytes) -> Tuple[Dict[str, bytes], List[Finding]]:
    """The path of each schema of a folder by its name, and what is told of those that are too long. What ends in .exp and begins with no SCHEMA is
    skipped; of two with one name a ValueError says which they are."""
    found: Dict[str, bytes] = {}
    refused: List[Finding] = []
    for name in sorted(os.listdir(folder)):
        path = os.path.join(folder, name)
        if not name.lower().endswith(b'.exp') or not os.path.isfile(path):
            continue
        size = os.stat(path).st_size
        if size > MOST:
            refused.append(Finding(text_of(path), size, kind='SchemaRefused', sentence='A schema has at most %d bytes.' % MOST))
            continue
        with open(path, 'rb') as file:
            schema = name_of_schema(file.read(MOST))
        if schema in found:
            raise ValueError('two schemas have the name %s: %s and %s' % (schema, escaped(text_of(found[schema])), escaped(text_of(path))))
        if schema:
            found[schema] = path
    return found, refused
