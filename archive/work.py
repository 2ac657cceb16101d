"""A worker: checks the files of a batch, by libp21 or by p21check, and prints what it found as one line."""

from __future__ import annotations

import contextlib
import json
import os
import re
import shutil
import signal
import subprocess
import sys
import tempfile
import time
from typing import BinaryIO, Dict, Iterator, List, NamedTuple

from .library import Library
from .model import FAULTY, MOST_FAULTS, READ, WRONG_SCHEMA, Batch, Bounds, Fault, File, Finding, Findings, Untried, explain
from .plan import WHOLE, processors
from .schemas import FRONTS, NAME, read_front
from .sources import Source, sources

PROGRAM, SCHEMAS = 'base/p21check', 'base/schemas.json'
MOST_LANES = 64
# The status of a p21check whose schema is refused.
REFUSED = 3
BLOCK = 1 << 20
# The first of a report, and of what is told on standard error, that are looked at: room for each fault that is kept.
REPORT, ERRORS = MOST_FAULTS << 12, MOST_FAULTS << 14
COUNT = re.compile(rb'^(instances|references) (\d+)$', re.MULTILINE)
FAULT = re.compile(rb'^fault \d+ (\w+) at (\d+)', re.MULTILINE)


class Ran(NamedTuple):
    """How a run of p21check ended, and what it wrote: the first of its report, of how many lines, and of what it told on standard error."""

    status: int
    report: bytes
    lines: int
    errors: bytes


def rest(source: Source, front: bytes) -> bytes:
    """The rest of a file of which the front has been read; or of one that is too long to be held whole, so much that this is seen."""
    if len(front) < FRONTS[0]:
        return b''
    return source.read(-1 if source.is_plain and source.size <= WHOLE else WHOLE + 1 - len(front))


def feed(pipe: BinaryIO, front: bytes, source: Source) -> None:
    """Writes a file into a pipe, as much of it as somebody reads."""
    try:
        with pipe:
            block = front
            while block:
                pipe.write(block)
                block = source.read(BLOCK)
    except BrokenPipeError:
        pass


@contextlib.contextmanager
def limited(seconds: int) -> Iterator[None]:
    """Ends what takes more than so many seconds; a call of the library is over first."""
    def late(*_: object) -> None:
        raise Untried('TooSlow', 'It was not read in %d seconds.' % seconds)

    before = signal.signal(signal.SIGALRM, late)
    signal.setitimer(signal.ITIMER_REAL, seconds)
    try:
        yield
    finally:
        signal.setitimer(signal.ITIMER_REAL, 0)
        signal.signal(signal.SIGALRM, before)


def ended(words: List[str], front: bytes, source: Source, **files: BinaryIO) -> int:
    """The status of a run over a file, which is unpacked into its standard input where it is packed."""
    with subprocess.Popen(words, stdin=source.rewound() if source.is_plain else subprocess.PIPE, **files) as running:
        try:
            if not source.is_plain:
                feed(running.stdin, front, source)
            return running.wait()
        except Untried:
            running.kill()
            raise


def run(words: List[str], front: bytes, source: Source) -> Ran:
    """Runs p21check over a file of which the front has been read."""
    with tempfile.TemporaryFile() as report, tempfile.TemporaryFile() as errors:
        status = ended(words, front, source, stdout=report, stderr=errors)
        report.seek(0)
        lines = sum(1 for _ in report)
        report.seek(0)
        errors.seek(0)
        return Ran(status, report.read(REPORT), lines, errors.read(ERRORS))


def text(written: bytes) -> str:
    return written.decode('utf-8', 'replace').strip('\n')


def tell(finding: Finding, ran: Ran) -> None:
    """Puts what p21check said into a finding; Untried where it could not say what the file is."""
    if ran.status == 0:
        finding.status = READ
        counts = {name: int(count) for name, count in COUNT.findall(ran.report)}
        finding.instances, finding.references = counts[b'instances'], counts[b'references']
        return
    faults = [Fault(text(it[1]), int(it[2])) for it in FAULT.finditer(ran.report)][:MOST_FAULTS]
    if ran.status == 1 and faults:
        finding.status, finding.kind, finding.place = FAULTY, faults[0].kind, faults[0].place
        finding.more = faults[1:]
        explain([finding, *finding.more], text(ran.errors))
    elif ran.status < 0:
        raise Untried('Killed', 'Signal %d ended p21check.' % -ran.status)
    else:
        raise Untried({4: 'Device', 5: 'Memory'}.get(ran.status, 'Failed'), text(ran.errors))


class Worker:
    """Finds what is wrong with files, by so many lanes and these schemas, a path for each name, within bounds: by libp21 where one lane reads a file that
    may be held whole, and neither its rules nor all its faults are asked for, else by p21check."""

    def __init__(self, lanes: int, schemas: Dict[str, str], bounds: Bounds, by_rules: bool, all_faults: bool):
        self.lanes = lanes
        self.all_faults = all_faults
        self.schemas = schemas
        self.bounds = bounds
        self.more = ['--rules'] * by_rules
        self.explanations: Dict[str, str] = {}
        self.library = Library() if lanes == 1 and not by_rules and not all_faults else None

    def path(self, schema: str) -> str:
        """The path of the schema of this name; where a file names none any will do, since whatever is wrong with a file before its schema is
        asked for hangs on none."""
        if schema and schema not in self.schemas:
            raise Untried('NoSchema', 'No schema has the name %s.' % schema[:NAME])
        return self.schemas[schema or min(self.schemas)]

    def look(self, finding: Finding, source: Source) -> None:
        """Puts what there is to say of a file into a finding."""
        with source:
            front, name = read_front(source)
            finding.schema = name[:NAME]
            path = self.path(name)
            begun = time.monotonic()
            try:
                self.check(finding, path, front, source)
            finally:
                finding.seconds = round(time.monotonic() - begun, 4)

    def check(self, finding: Finding, path: str, front: bytes, source: Source) -> None:
        """Checks a file of which the front has been read against the schema of a path."""
        if self.library:
            front += rest(source, front)
            if len(front) <= WHOLE:
                if not self.library.tell(finding, path, front):
                    raise self.refusal(finding.schema, path)
                return
        # Of a file that names no schema, the faults after the first may be those of any schema.
        has_all = self.all_faults and bool(finding.schema)
        asked = ['--all', '--explain=%d' % MOST_FAULTS] if has_all else ['--explain=1']
        ran = run([PROGRAM, path, '-', *asked, '--lanes', str(self.lanes), *self.more], front, source)
        if not finding.schema and (ran.status == REFUSED or WRONG_SCHEMA.encode() in ran.report):
            raise Untried.no_schema_name()
        if ran.status == REFUSED:
            raise self.refusal(finding.schema, path)
        tell(finding, ran)
        if self.all_faults and finding.status == FAULTY:
            finding.faults = ran.lines

    def refusal(self, name: str, path: str) -> Untried:
        """What is told of a file whose schema is refused, which p21check is asked once."""
        if path not in self.explanations:
            ran = subprocess.run([PROGRAM, path, os.devnull, '--explain=1', *self.more], stdin=subprocess.DEVNULL, stdout=subprocess.DEVNULL, stderr=subprocess.PIPE)
            self.explanations[path] = text(ran.stderr)
        return Untried.by_schema(name, self.explanations[path])

    def finding(self, source: Source) -> Finding:
        """What is found of a file."""
        finding = Finding(source.name, source.size)
        try:
            with limited(self.bounds.seconds):
                self.look(finding, source)
        except Untried as why:
            finding.kind, finding.sentence, finding.shown = why.kind, why.sentence, why.shown
        except Exception as error:
            # Whatever a file brings about is a row, and none of the files beside it is lost.
            finding.kind, finding.sentence = 'Failed', '%s: %s.' % (type(error).__name__, error)
        return finding

    def findings(self, file: File) -> Iterator[Finding]:
        """What is found of each STEP file in what was found."""
        try:
            yield from (self.finding(it) for it in sources(file, self.bounds))
        except Untried as why:
            yield Finding(file.name, file.bytes, kind=why.kind, sentence=why.sentence)
        except Exception as error:
            yield Finding(file.name, file.bytes, kind='Failed', sentence='%s: %s.' % (type(error).__name__, error))


def main(words: List[str]) -> int:
    """Works on the batch of a folder; one that was sent to this host is removed at the end."""
    folder = words[1]
    batch = Batch.read(folder)
    with open(SCHEMAS, encoding='ascii') as file:
        schemas = json.load(file)
    worker = Worker(batch.lanes or min(MOST_LANES, processors()), schemas, batch.bounds, batch.by_rules, batch.all_faults)
    found = [it for file in batch.files for it in worker.findings(file)]
    findings = Findings(os.path.basename(folder), len(batch.files), sum(it.bytes for it in batch.files), found)
    sys.stdout.write(findings.to_line())
    if batch.is_sent and os.environ.get('PARALLEL_SSHLOGIN', ':') != ':':
        shutil.rmtree(folder, ignore_errors=True)
    return 0
