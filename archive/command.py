"""The command: looks at its words, plans a run or takes one up, has it run, and writes what was found."""

from __future__ import annotations

import argparse
import os
import re
import subprocess
import sys
import time
from typing import Dict, Iterator, List, Tuple

from . import page, tables
from .engine import Engine, Progress, require_parallel
from .find import Part, Search
from .model import FAULTY, MOST_FAULTS, UNTRIED, Bounds, Finding, Findings, bytes_of, text_of
from .plan import processors
from .run import LOG, Asked, Base, Plan, Refused, Run
from .schemas import schemas_of

TOP = os.path.dirname(os.path.dirname(os.path.realpath(__file__)))
REPORT = 'report.html'
VERSION = '0.2.0'
USAGE, FAILED, INTERRUPTED = 2, 4, 130
# The folder of the schemas that were mended, and the statuses of a p21check that has written one: no file is at fault, this one is, or the schema.
MENDED, ANSWERED = 'mended', (0, 1, 3)
# How many endings of ignored files are told, the commonest first.
ENDINGS = 8
UNITS = {'K': 1 << 10, 'M': 1 << 20, 'G': 1 << 30, 'T': 1 << 40}
STATUSES = '''
Status:
  0    all files were read
  1    some files have a fault
  2    usage error
  4    some files could not be checked, none was found, or the table could not be written
  130  interrupted
'''


def is_number(text: str) -> bool:
    """Whether a text is a number, of digits alone and not absurdly many."""
    return re.fullmatch('[0-9]{1,18}', text) is not None


def part(text: str) -> Part:
    """The part that is written I/N."""
    number, slash, count = text.partition('/')
    if not (slash and is_number(number) and is_number(count) and 1 <= int(number) <= int(count)):
        raise argparse.ArgumentTypeError('%r is not of the form I/N, as 1/16' % text)
    return Part(int(number), int(count))


def count(text: str) -> int:
    """A number from 1."""
    if not is_number(text) or not int(text):
        raise argparse.ArgumentTypeError('%r is not a number of at least 1' % text)
    return int(text)


def size(text: str) -> int:
    """A number of bytes, which may be written with a unit, as 500M or 4G."""
    unit = UNITS.get(text[-1:].upper(), 1)
    return count(text if unit == 1 else text[:-1]) * unit


def options(words: List[str]) -> argparse.Namespace:
    """What the words ask for."""
    parser = argparse.ArgumentParser(
        prog='p21archive', usage='%(prog)s [OPTIONS] FOLDER.. --schemas FOLDER',
        description='Checks all STEP files in some folders and their subfolders, each against the schema that it names.', epilog=STATUSES,
        formatter_class=argparse.RawDescriptionHelpFormatter, allow_abbrev=False)
    parser.add_argument('folders', metavar='FOLDER', nargs='+', help='folder to search for STEP files, or one such file')
    parser.add_argument('--schemas', metavar='FOLDER', required=True, help='folder with the EXPRESS schemas, *.exp')
    parser.add_argument('--all', action='store_true', help='tell every fault of a file, %d at most, instead of only the first' % MOST_FAULTS)
    parser.add_argument('--rules', action='store_true', help='also check rules UNIQUE and WHERE and INVERSE attributes, as p21check --rules does')
    parser.add_argument('--mend', action='store_true', help='write forms of the schemas that are not supported another way with the same meaning, as p21check --mend does')
    parser.add_argument('--limit', metavar='SIZE', type=size, default=Bounds.bytes, help='most bytes that a compressed file may have when it is decompressed, as 500M or 8G [default: 4G]')
    parser.add_argument('--seconds', metavar='N', type=count, default=Bounds.seconds, help='most seconds for one file [default: %(default)s]')
    parser.add_argument('--jobs', metavar='N', type=count, help='number of files to check at a time on each machine [default: its number of processors]')
    parser.add_argument('--hosts', metavar='FILE', help='file with the hosts to use, one per line, as GNU parallel reads them')
    parser.add_argument('--transfer', action='store_true', help='send the files, the schemas and the program to hosts that share no folder with this machine')
    parser.add_argument('--part', metavar='I/N', type=part, default=Part(1, 1), help='check only part I of N of the files')
    parser.add_argument('--out', metavar='FOLDER', default='p21archive.out', help='folder for the results [default: %(default)s]')
    parser.add_argument('--version', action='version', version='%%(prog)s %s' % VERSION, help='print the version')
    parser.add_argument('--resume', action='store_true', help='continue the interrupted run in that folder')
    return parser.parse_intermixed_args(words)


def program() -> str:
    """The path of p21check, which the launcher of a checkout tells."""
    path = os.path.join(TOP, 'p21check')
    with open(path, 'rb') as file:
        if file.read(4) == b'\x7fELF':
            return path
    ran = subprocess.run([path], env={**os.environ, 'P21CHECK_WHICH': '1'}, stdin=subprocess.DEVNULL, stdout=subprocess.PIPE)
    if ran.returncode:
        raise Refused('%s cannot be run' % path)
    return os.fsdecode(ran.stdout[:-1])


def library() -> str:
    """The path of libp21, which lies beside p21archive, or which the launcher of a checkout tells."""
    path = os.path.join(TOP, 'libp21.so')
    if os.path.exists(path):
        return path
    ran = subprocess.run([os.path.join(TOP, 'libp21'), 'so'], stdin=subprocess.DEVNULL, stdout=subprocess.PIPE)
    if ran.returncode:
        raise Refused('libp21 cannot be made')
    return os.fsdecode(ran.stdout[:-1])


def mended(schemas: Dict[str, bytes], folder: str) -> Dict[str, bytes]:
    """The same schemas after what p21check changes in them, in a folder. Each change is told."""
    os.makedirs(folder, exist_ok=True)
    written = {}
    for number, (name, path) in enumerate(sorted(schemas.items())):
        written[name] = os.fsencode(os.path.join(folder, '%d.exp' % number))
        ran = subprocess.run([program(), '--mend', '--write-schema', written[name], path, os.devnull], stdin=subprocess.DEVNULL, stdout=subprocess.DEVNULL, stderr=subprocess.PIPE)
        if ran.returncode not in ANSWERED:
            raise Refused(ran.stderr.decode('utf-8', 'replace').strip())
        sys.stderr.write(ran.stderr.decode('utf-8', 'replace'))
    return written


def base(run: Run, wanted: argparse.Namespace) -> Tuple[Base, List[Finding]]:
    """What workers need, with the schemas of a folder, and what is told of those that are refused."""
    folder = wanted.schemas
    try:
        schemas, refused = schemas_of(os.fsencode(folder))
    except (OSError, ValueError) as error:
        raise Refused(str(error)) from None
    if not schemas:
        raise Refused(' '.join(['no schema is in %s' % tables.escaped(text_of(os.fsencode(folder))), *('(%s: %s)' % (tables.escaped(it.file), it.sentence) for it in refused)]))
    if wanted.mend:
        schemas = mended(schemas, run.path(MENDED))
    return Base(os.fsencode(TOP), os.fsencode(program()), os.fsencode(library()), schemas), refused


def machines(hosts: str) -> int:
    """How many hosts a file names."""
    try:
        with open(hosts, encoding='utf-8', errors='replace') as file:
            return sum(bool(it.strip()) and not it.startswith('#') for it in file)
    except OSError as error:
        raise Refused('%s: %s' % (hosts, error.strerror)) from None


def begun(run: Run, asked: Asked, wanted: argparse.Namespace) -> Plan:
    """The plan of a run that begins."""
    laid, refused = base(run, wanted)
    search = Search(wanted.part)
    search.run([os.fsencode(it) for it in wanted.folders])
    count = (wanted.jobs or processors()) * (machines(wanted.hosts) if wanted.hosts else 1)
    return run.begin(asked, search, refused, max(1, count), laid)


def planned(run: Run, wanted: argparse.Namespace) -> Plan:
    """The plan of the run: one that begins here, or the one that is taken up."""
    asked = Asked([text_of(os.path.abspath(os.fsencode(it))) for it in wanted.folders], text_of(os.path.abspath(os.fsencode(wanted.schemas))),
                  list(wanted.part), wanted.transfer, Bounds(wanted.limit, wanted.seconds), wanted.rules, wanted.all, wanted.mend)
    if not run.is_begun():
        return begun(run, asked, wanted)
    if not wanted.resume:
        raise Refused('%s has a run: --resume continues it' % run.folder)
    made = run.plan()
    if made.asked != asked:
        raise Refused('%s has a run with other arguments or options' % run.folder)
    return made


def work(run: Run, plan: Plan, engine: Engine) -> Dict[str, Findings]:
    """Has all batches run of which nothing was found, and gives what is found of each."""
    found = run.found()
    progress = Progress(plan)
    for findings in found.values():
        progress.add(findings)

    def told(findings: Findings) -> None:
        found[findings.batch] = findings
        progress.add(findings)

    run.receive(plan)
    for phase in plan.phases:
        run.trim(phase, found)
        if any(os.path.basename(it) not in found for it in phase.batches):
            engine.run(run, plan, phase, told)
    engine.clean(run, plan)
    progress.end()
    return found


def all_findings(run: Run, plan: Plan, found: Dict[str, Findings]) -> List[Finding]:
    """A finding for each file, in the order of their names."""
    unanswered = list(run.unanswered(plan.phases, found))
    if unanswered:
        print('p21archive: %d files were not checked, since no worker finished them: %s has more' % (len(unanswered), run.path(LOG)), file=sys.stderr)
    findings = plan.refused + unanswered + [it for batch in found.values() for it in batch.findings]
    return sorted(findings, key=lambda it: bytes_of(it.file))


def write(run: Run, findings: List[Finding], seconds: float) -> None:
    """Writes the table, what is wrong, and the page."""
    tables.write_results(run.path(tables.RESULTS), findings)
    tables.write_faults(run.path(tables.FAULTS), findings)
    page.write(run.path(REPORT), findings, seconds)


def closing(run: Run, plan: Plan, findings: List[Finding]) -> Iterator[str]:
    """What is told at the end: what was found and where it stands, and what was left out."""
    yield '%s: %s' % (run.path(tables.RESULTS), page.summary(findings) if findings else 'no STEP file was found')
    yield '%s: the same as a page' % run.path(REPORT)
    cut = page.cut(findings)
    if cut:
        yield 'of %d files with more than %d faults only the first are told' % (len(cut), MOST_FAULTS)
    endings = sorted(plan.ignored.items(), key=lambda it: (-it[1], it[0]))
    if endings:
        told = ', '.join('%d %s' % (count, tables.escaped(ending) or 'without an ending') for ending, count in endings[:ENDINGS])
        yield 'ignored by its name: %d files: %s%s' % (sum(plan.ignored.values()), told, ', ..' if len(endings) > ENDINGS else '')


def archive(wanted: argparse.Namespace) -> int:
    """Does what is wanted, and gives the status."""
    begun_at = time.monotonic()
    require_parallel()
    for path in wanted.folders:
        if not os.path.lexists(path):
            raise Refused('%s does not exist' % tables.escaped(text_of(os.fsencode(path))))
    if wanted.transfer and not wanted.hosts:
        raise Refused('--transfer sends files to the hosts of --hosts')
    hosts = os.path.abspath(wanted.hosts) if wanted.hosts else None
    run = Run(os.path.abspath(wanted.out))
    plan = planned(run, wanted)
    findings = all_findings(run, plan, work(run, plan, Engine(wanted.jobs, hosts)))
    write(run, findings, time.monotonic() - begun_at)
    for line in closing(run, plan, findings):
        print(line)
    statuses = {it.status for it in findings}
    return FAILED if UNTRIED in statuses or not findings else 1 if FAULTY in statuses else 0


def main(words: List[str]) -> int:
    """Runs the command."""
    sys.stdout.reconfigure(errors='backslashreplace')
    wanted = options(words)
    try:
        return archive(wanted)
    except Refused as why:
        print('p21archive: %s' % why, file=sys.stderr)
        return USAGE
    except OSError as error:
        print('p21archive: %s' % error, file=sys.stderr)
        return FAILED
    except Exception as error:
        print('p21archive: %s: %s' % (type(error).__name__, error), file=sys.stderr)
        return FAILED
    except KeyboardInterrupt:
        print('\np21archive: interrupted; --resume continues', file=sys.stderr)
        return INTERRUPTED
