"""A run, which a folder keeps so that it can be gone on with: what was asked for, the batches, what workers find of them, and parallel's logs."""

from __future__ import annotations

import dataclasses
import fcntl
import json
import os
import re
import secrets
import sys
from typing import Dict, Iterator, List

from .find import Search
from .library import LIBRARY, PACKAGE
from .model import Batch, Bounds, File, Finding, Findings, bytes_of
from .plan import plan
from .work import PROGRAM, SCHEMAS

RUN, FOUND, LOCK, LOG = 'run.json', 'found.jsonl', 'lock', 'log'
BASE, SCRIPT, MODULES = 'base', 'base/p21archive', 'base/archive'
# What parallel's log has of a batch at the end of its line.
LOGGED = re.compile(r' batches/(\d+)\n\Z')


class Refused(Exception):
    """What keeps a run from being begun, or gone on with."""


@dataclasses.dataclass
class Asked:
    """What was asked for: the folders to look through, that of the schemas, which part of the files, whether they are sent to hosts, what each may take,
    whether they are looked at by the rules of their schemas, whether all faults of a file are told, and whether schemas are mended."""""

    folders: List[str]
    schemas: str
    part: List[int]
    transfer: bool
    bounds: Bounds
    rules: bool
    all_faults: bool = False
    mend: bool = False


@dataclasses.dataclass
class Phase:
    """Batches that are worked on side by side: those of great files, one on a machine at a time, or those of others."""

    name: str
    batches: List[str]

    @property
    def joblog(self) -> str:
        """The name of parallel's log."""
        return 'joblog-%s' % self.name


@dataclasses.dataclass
class Plan:
    """What is to be done: how many files with how many bytes, in which batches; what was refused before; how many files were ignored, by their endings; and
    the folder on a host."""

    asked: Asked
    files: int
    bytes: int
    great: List[str]
    others: List[str]
    refused: List[Finding]
    ignored: Dict[str, int]
    workdir: str

    @property
    def phases(self) -> List[Phase]:
        """Great files come first, since each of them keeps all processors busy."""
        return [Phase('great', self.great), Phase('others', self.others)]


@dataclasses.dataclass
class Base:
    """What workers need: the folder of p21archive, the program, the library, and the path of each schema by its name."""

    top: bytes
    program: bytes
    library: bytes
    schemas: Dict[str, bytes]

    def lay(self, folder: bytes) -> None:
        """Puts links to all of it into a folder, under names that need no quoting."""
        names = {name: '%s/%d.exp' % (BASE, number) for number, name in enumerate(sorted(self.schemas))}
        links = {SCRIPT: os.path.join(self.top, b'p21archive'), MODULES: os.path.join(self.top, b'archive'), PROGRAM: self.program,
                 LIBRARY: self.library, PACKAGE: os.path.join(self.top, b'python/p21')}
        links.update({names[name]: os.path.abspath(path) for name, path in self.schemas.items()})
        os.makedirs(os.path.join(folder, bytes_of(BASE)), exist_ok=True)
        for name, target in links.items():
            link(target, os.path.join(folder, bytes_of(name)))
        with open(os.path.join(folder, bytes_of(SCHEMAS)), 'w', encoding='ascii') as file:
            json.dump(names, file)


def link(target: bytes, path: bytes) -> None:
    """Makes a link, or lays it anew."""
    if os.path.lexists(path):
        os.unlink(path)
    os.symlink(target, path)


def logged_batch(line: str) -> str:
    """The batch that a line of parallel's log is of."""
    logged = LOGGED.search(line)
    return logged[1] if logged else ''


class Run:
    """The folder of a run. A lock on it lasts as long as this process and all that it starts."""

    def __init__(self, folder: str):
        self.folder = folder
        os.makedirs(folder, exist_ok=True)
        self.lock = os.open(self.path(LOCK), os.O_CREAT | os.O_RDWR, 0o666)
        os.set_inheritable(self.lock, True)
        try:
            fcntl.flock(self.lock, fcntl.LOCK_EX | fcntl.LOCK_NB)
        except BlockingIOError:
            print('p21archive: waiting for another run in %s' % folder, file=sys.stderr)
            fcntl.flock(self.lock, fcntl.LOCK_EX)

    def path(self, name: str) -> str:
        """The path of a file of the run."""
        return os.path.join(self.folder, name)

    def is_begun(self) -> bool:
        """Whether there is a run to go on with."""
        return os.path.exists(self.path(RUN))

    def begin(self, asked: Asked, search: Search, refused: List[Finding], jobs: int, base: Base) -> Plan:
        """Writes the batches and what workers need; the plan comes last, so that without it nothing was begun."""
        base.lay(os.fsencode(self.folder))
        great, others = plan(search.files, jobs, asked.bounds)
        names = ['batches/%06d' % it for it in range(1, len(great) + len(others) + 1)]
        for name, batch in zip(names, great + others):
            batch.is_sent, batch.by_rules, batch.all_faults = asked.transfer, asked.rules, asked.all_faults
            self._lay_batch(name, batch)
        size = sum(it.bytes for it in search.files)
        made = Plan(asked, len(search.files), size, names[:len(great)], names[len(great):], search.refused + refused, search.ignored,
                    '.p21archive-%s' % secrets.token_hex(8))
        with open(self.path(RUN + '.part'), 'w', encoding='ascii') as file:
            json.dump(dataclasses.asdict(made), file)
        os.replace(self.path(RUN + '.part'), self.path(RUN))
        return made

    def receive(self, plan: Plan) -> None:
        """Has a host that is this machine itself find here what the others are sent."""
        if plan.asked.transfer:
            link(b'.', os.fsencode(self.path(plan.workdir)))

    def _lay_batch(self, name: str, batch: Batch) -> None:
        """Writes a batch; of one that is sent with a link to each file, whose name needs no quoting. The batch itself is sent last, being the
        last by its name, so where it is there all was sent that can be read."""
        os.makedirs(self.path(name), exist_ok=True)
        for number, file in enumerate(batch.files if batch.is_sent else []):
            source = '%s/%d' % (name, number)
            link(bytes_of(file.source), os.fsencode(self.path(source)))
            file.source = source
        batch.write(self.path(name))

    def plan(self) -> Plan:
        """The plan that was written."""
        with open(self.path(RUN), encoding='ascii') as file:
            read = json.load(file)
        read['asked'] = Asked(**{**read['asked'], 'bounds': Bounds(**read['asked']['bounds'])})
        read['refused'] = [Finding.of(it) for it in read['refused']]
        return Plan(**read)

    def found(self) -> Dict[str, Findings]:
        """What workers found so far, by batch, the last of each. A line that was broken off is cut away."""
        found: Dict[str, Findings] = {}
        whole = 0
        with open(self.path(FOUND), 'a+b') as file:
            file.seek(0)
            for line in file:
                if line.endswith(b'\n'):
                    whole += len(line)
                findings = Findings.of_line(line.decode('ascii', 'replace'))
                if findings:
                    found[findings.batch] = findings
            file.truncate(whole)
        return found

    def trim(self, phase: Phase, found: Dict[str, Findings]) -> None:
        """Keeps in parallel's log the lines of those batches alone of which there are findings, so that parallel runs the others."""
        path = self.path(phase.joblog)
        if not os.path.exists(path):
            return
        with open(path, encoding='utf-8', errors='replace') as file:
            lines = [it for it in file if it.endswith('\n')]
        kept = lines[:1] + [it for it in lines[1:] if logged_batch(it) in found]
        with open(path + '.part', 'w', encoding='utf-8') as file:
            file.writelines(kept)
        os.replace(path + '.part', path)

    def unanswered(self, phases: List[Phase], found: Dict[str, Findings]) -> Iterator[Finding]:
        """The files of those batches that no worker came to the end of."""
        for name in (it for phase in phases for it in phase.batches if os.path.basename(it) not in found):
            for file in Batch.read(self.path(name)).files:
                yield Finding(file.name, file.bytes, kind='NoAnswer', sentence='No worker finished it: %s has more.' % LOG)
