"""The table of all files, and what is wrong with those that were not read."""

from __future__ import annotations

import contextlib
import json
import os
import re
from typing import Dict, Iterable, Iterator, List, TextIO

from .model import READ, Finding, bytes_of

COLUMNS = ('file', 'bytes', 'schema', 'status', 'kind', 'place', 'line', 'column', 'instances', 'references', 'seconds')
RESULTS, FAULTS = 'results.tsv', 'faults.jsonl'
SHORT = {'\\': '\\\\', '\t': '\\t', '\n': '\\n', '\r': '\\r'}
# Bytes that are no UTF-8, which stand as surrogates in a name; characters of control; those that end a line, or change the direction of the text.
HIDDEN = '\x00-\x1f\x7f-\x9f\u061c\u200e\u200f\u2028-\u202e\u2066-\u2069'
ODD, ODD_IN_TEXT = re.compile('[\\\\%s\udc80-\udcff]' % HIDDEN), re.compile('[%s]' % HIDDEN)
# Those that JSON leaves as they are.
IN_JSON = re.compile('[\x7f-\x9f\u061c\u200e\u200f\u2028-\u202e\u2066-\u2069]')
# What a spreadsheet would take for a formula.
FORMULA = re.compile('[=+@-]')


def spelled(text: str) -> str:
    """Each byte of a text as `\\xff`."""
    return ''.join('\\x%02x' % it for it in bytes_of(text))


def escaped(name: str) -> str:
    r"""A name in printable characters: a reverse solidus is written `\\`, a tab `\t`, line ends `\n` and `\r`, and each byte of other
    characters of control, or that is no UTF-8, `\xff`."""
    return ODD.sub(lambda odd: SHORT.get(odd[0]) or spelled(odd[0]), name)


def readable(text: str) -> str:
    """A text of some lines, in which no character changes how others are shown."""
    return ODD_IN_TEXT.sub(lambda odd: odd[0] if odd[0] in '\t\n' else spelled(odd[0]), text)


def cell(value: object) -> str:
    """A cell of the table; where a spreadsheet would take a text for a formula, its first character is spelled as `\\xff` too."""
    if not isinstance(value, str):
        return '' if value is None else str(value)
    text = escaped(value)
    return spelled(text[0]) + text[1:] if FORMULA.match(text) else text


def row(finding: Finding) -> str:
    """The line of a finding."""
    values = {**vars(finding), 'seconds': '%.4f' % finding.seconds}
    return '\t'.join(cell(values[it]) for it in COLUMNS) + '\n'


@contextlib.contextmanager
def replaced(path: str) -> Iterator[TextIO]:
    """A file to be written, which takes the place of the one of this path once it is whole."""
    part = path + '.part'
    with open(part, 'w', encoding='utf-8', errors='backslashreplace') as file:
        yield file
    os.replace(part, path)


def write_results(path: str, findings: Iterable[Finding]) -> None:
    """Writes the table: a line of names, and one for each file."""
    with replaced(path) as file:
        file.write('\t'.join(COLUMNS) + '\n')
        file.writelines(row(it) for it in findings)


def members(finding: Finding) -> Dict[str, object]:
    """What is told of a fault; how many the file has, only where all were asked for."""
    told = {**vars(finding), 'file': escaped(finding.file)}
    del told['more']
    if finding.faults is None:
        del told['faults']
    return told


def write_faults(path: str, findings: List[Finding]) -> None:
    """Writes an object for each fault, and for each file that was not tried."""
    with replaced(path) as file:
        for it in (it for finding in findings for it in finding.each()):
            if it.status != READ:
                line = json.dumps(members(it), ensure_ascii=False)
                file.write(IN_JSON.sub(lambda odd: '\\u%04x' % ord(odd[0]), line) + '\n')
