"""What goes to a worker and what comes back: a batch of files, and what was found of each. A batch goes as a file of JSON, its findings come
as one line of it."""

from __future__ import annotations

import dataclasses
import json
import os
import re
from typing import Dict, Iterator, List, Optional, Sequence, Union

READ, FAULTY, UNTRIED = 'read', 'faulty', 'untried'
STATUSES = (READ, FAULTY, UNTRIED)
BATCH = 'batch.json'
# The one answer on a file that hangs on which schema it is checked against, where the file names none.
WRONG_SCHEMA = 'WrongSchema'
# A fault in words: the place to look at, its place in the report, the line with the caret, and the sentence.
EXPLAINED = re.compile(r'^-:(\d+):(\d+): fault (?:at|\(\w+ at) byte (\d+)\)?\n([^\n]*\n[^\n]*)\n([^\n]*)', re.MULTILINE)
# The same of the schema that is refused first, whose path has no line ends.
REFUSED = re.compile(r'\A[^\n]*:(\d+):(\d+): fault at byte \d+\n([^\n]*\n[^\n]*)\n([^\n]*)')
# Where all faults of a file are asked for, so many are kept and told.
MOST_FAULTS = 100


def text_of(path: bytes) -> str:
    """A path as text from which `bytes_of` makes each of its bytes again, whatever the locale."""
    return path.decode('utf-8', 'surrogateescape')


def bytes_of(text: str) -> bytes:
    """The path that this is the text of."""
    return text.encode('utf-8', 'surrogateescape')


class Untried(Exception):
    """Why a file could not be tried: a kind for programs, and a sentence; of a schema that is refused also its line, with a caret under the place."""

    def __init__(self, kind: str, sentence: str, shown: str = ''):
        super().__init__(sentence)
        self.kind = kind
        self.sentence = sentence
        self.shown = shown

    @classmethod
    def by(cls, error: OSError) -> Untried:
        """What an error of the system says of a file."""
        kind = 'Missing' if isinstance(error, FileNotFoundError) else 'Unreadable'
        return cls(kind, '%s.' % (error.strerror or error))

    @classmethod
    def by_schema(cls, name: str, explanation: str) -> Untried:
        """What is told of a file whose schema is refused, by what p21check says of the schema."""
        explained = REFUSED.match(explanation)
        if not explained:
            return cls('SchemaRefused', 'The schema %s is refused.' % name)
        return cls('SchemaRefused', 'The schema %s is refused at line %s, column %s: %s' % (name, explained[1], explained[2], explained[4]), explained[3])

    @classmethod
    def no_file(cls) -> Untried:
        """What is told of a FIFO, a device, a socket, or a folder in a file's place."""
        return cls('NoFile', 'This is not a regular file.')

    @classmethod
    def no_schema_name(cls) -> Untried:
        """What is told of a file that names no schema, and has no fault before it is asked which."""
        return cls('NoSchemaName', 'It names no schema.')


@dataclasses.dataclass(frozen=True)
class Bounds:
    """What one file may take: so many bytes once it is unpacked, and so many seconds."""

    bytes: int = 1 << 32
    seconds: int = 600


@dataclasses.dataclass
class File:
    """A file that was found: the name that it is told by, the path that a worker opens, its size in bytes, and about how many it unpacks to."""

    name: str
    source: str
    bytes: int
    unpacked: int


@dataclasses.dataclass
class Fault:
    """A fault of a file. A place is the offset of a byte from 0, lines and columns count from 1; `shown` is the line of the file with a caret under the place."""

    kind: str
    place: int
    line: Optional[int] = None
    column: Optional[int] = None
    sentence: str = ''
    shown: str = ''


@dataclasses.dataclass
class Finding:
    """What was found of a file, a row of the table, with its first fault or why it was not tried. Where all faults were asked for, `faults` is how many
    there are, and `more` has those after the first, as many as are kept."""

    file: str
    bytes: int = 0
    schema: str = ''
    status: str = UNTRIED
    kind: str = ''
    place: Optional[int] = None
    line: Optional[int] = None
    column: Optional[int] = None
    instances: Optional[int] = None
    references: Optional[int] = None
    seconds: float = 0.0
    sentence: str = ''
    shown: str = ''
    faults: Optional[int] = None
    more: List[Fault] = dataclasses.field(default_factory=list)

    @classmethod
    def of(cls, read: Dict) -> Finding:
        """The finding of an object of JSON."""
        return cls(**{**read, 'more': [Fault(**it) for it in read.get('more', [])]})

    def each(self) -> Iterator[Finding]:
        """The finding, and one for each further fault that was kept."""
        yield self
        for fault in self.more:
            yield dataclasses.replace(self, **vars(fault))


def explain(faults: Sequence[Union[Fault, Finding]], explanation: str) -> None:
    """Puts the words of an explanation into the faults that it is of, from the first on."""
    for fault, explained in zip(faults, EXPLAINED.finditer(explanation)):
        if int(explained[3]) != fault.place:
            break
        fault.line, fault.column = int(explained[1]), int(explained[2])
        fault.shown, fault.sentence = (it.strip('\n') for it in explained.group(4, 5))


@dataclasses.dataclass
class Batch:
    """Files for one worker, by how many lanes it reads each, where 0 stands for as many as it has processors, what each may take, whether it is looked
    at by the rules of its schema, and whether all its faults are told. One that is sent has its files in its folder."""

    lanes: int
    files: List[File]
    bounds: Bounds
    is_sent: bool = False
    by_rules: bool = False
    all_faults: bool = False

    def write(self, folder: str) -> None:
        """Puts the batch into its folder."""
        with open(os.path.join(folder, BATCH), 'w', encoding='ascii') as file:
            json.dump(dataclasses.asdict(self), file)

    @classmethod
    def read(cls, folder: str) -> Batch:
        """The batch of a folder."""
        with open(os.path.join(folder, BATCH), encoding='ascii') as file:
            read = json.load(file)
        return cls(**{**read, 'files': [File(**it) for it in read['files']], 'bounds': Bounds(**read['bounds'])})


@dataclasses.dataclass
class Findings:
    """What a worker found of its batch, which is told by the name of its folder: how many files that were, how many bytes, and each finding."""

    batch: str
    files: int
    bytes: int
    findings: List[Finding]

    def to_line(self) -> str:
        """One line of JSON."""
        return json.dumps(self, default=vars) + '\n'

    @classmethod
    def of_line(cls, line: str) -> Optional[Findings]:
        """The findings of a line; none where it is none of these lines, or a part of one."""
        try:
            read: Dict = json.loads(line)
            return cls(**{**read, 'findings': [Finding.of(it) for it in read['findings']]})
        except (ValueError, TypeError, KeyError):
            return None
