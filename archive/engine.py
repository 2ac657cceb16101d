"""GNU parallel: runs the batches of a phase, on this machine or on hosts."""

from __future__ import annotations

import ctypes
import os
import re
import shlex
import signal
import subprocess
import sys
import tempfile
import time
from typing import Callable, List, NamedTuple, Optional

from .model import Findings
from .plan import processors
from .run import BASE, FOUND, LOG, SCRIPT, Phase, Plan, Refused, Run

PARALLEL = ['parallel', '--plain', '--will-cite']
# A host that says nothing for 20 seconds is given up, and its batch is tried again, elsewhere where there is another host.
SSH = 'ssh -oBatchMode=yes -oConnectTimeout=5 -oServerAliveInterval=5 -oServerAliveCountMax=4'
RETRIES = 4
# Links are sent as what they lead to.
RSYNC_OPTIONS, RSYNC = 'PARALLEL_RSYNC_OPTS', '-rLR'
# Where the workers of this machine find the interpreter that this one runs.
PYTHON = 'P21ARCHIVE_PYTHON'
SET_SIGNAL_OF_PARENT = 1
PLAIN = re.compile('[A-Za-z0-9/.]')


def entered(folder: str) -> str:
    """Enters a folder, in words in which neither parallel nor a shell finds anything of its own: each byte that is no letter, digit, / or . is spelled
    in octal. The x keeps a line end at the end of the name."""
    spelled = ''.join(chr(it) if PLAIN.match(chr(it)) else '\\%03o' % it for it in os.fsencode(folder))
    return 'folder="$(printf \'%sx\')" && cd -- "${folder%%x}"' % spelled


class Engine(NamedTuple):
    """How batches are run: so many at a time on each machine, or as many as it has processors, on the hosts of a file or on this machine."""

    jobs: Optional[int]
    hosts: Optional[str]

    def words(self, run: Run, plan: Plan, phase: Phase) -> List[str]:
        """The command that runs the batches of a phase."""
        jobs = 1 if phase.name == 'great' else self.jobs or ('100%' if self.hosts else processors())
        words = [*PARALLEL, '--jobs', str(jobs), '--retries', str(RETRIES), '--joblog', phase.joblog, '--resume']
        work = ['-I', '-S', SCRIPT, '--work', '{}']
        if not self.hosts:
            return [*words, '"$%s"' % PYTHON, *work]
        words += ['--ssh', SSH, '--sshloginfile', self.hosts]
        if plan.asked.transfer:
            return [*words, '--workdir', plan.workdir, '--basefile', BASE, '--transferfile', '{}', 'python3', *work]
        return [*words, 'sh', '-c', shlex.quote('%s && exec python3 "$@"' % entered(run.folder)), 'sh', *work]

    def run(self, run: Run, plan: Plan, phase: Phase, told: Callable[[Findings], None]) -> None:
        """Runs the batches of a phase that parallel's log does not have, keeps what workers find, and tells it."""
        with open(run.path(LOG), 'ab') as log, open(run.path(FOUND), 'ab') as found, tempfile.TemporaryFile() as batches:
            batches.write(''.join('%s\n' % it for it in phase.batches).encode())
            batches.seek(0)
            environment = {**os.environ, RSYNC_OPTIONS: RSYNC, PYTHON: sys.executable}
            with subprocess.Popen(self.words(run, plan, phase), cwd=run.folder, env=environment, stdin=batches, stdout=subprocess.PIPE, stderr=log,
                                  pass_fds=[run.lock], preexec_fn=end_with_parent) as running:
                for line in running.stdout:
                    findings = Findings.of_line(line.decode('ascii', 'replace'))
                    if findings:
                        found.write(line)
                        found.flush()
                        told(findings)
            if running.returncode < 0:
                log.write(b'p21archive: signal %d ended parallel\n' % -running.returncode)

    def clean(self, run: Run, plan: Plan) -> None:
        """Removes what was sent to the hosts that can be reached."""
        if self.hosts and plan.asked.transfer:
            with open(run.path(LOG), 'ab') as log:
                subprocess.run([*PARALLEL, '--nonall', '--ssh', SSH, '--sshloginfile', self.hosts, 'rm', '-rf', plan.workdir], cwd=run.folder,
                               stdin=subprocess.DEVNULL, stdout=log, stderr=log)


def end_with_parent() -> None:
    """Has the system end this process where p21archive ends before it."""
    ctypes.CDLL(None).prctl(SET_SIGNAL_OF_PARENT, signal.SIGTERM)


def require_parallel() -> None:
    """Refuses to go on without GNU parallel; moreutils has another program of that name."""
    try:
        told = subprocess.run([*PARALLEL, '--version'], stdin=subprocess.DEVNULL, stdout=subprocess.PIPE, stderr=subprocess.DEVNULL).stdout
    except FileNotFoundError:
        told = b''
    if not told.startswith(b'GNU parallel'):
        raise Refused("GNU parallel is wanted, as Debian's package parallel has it")


class Progress:
    """Tells how far a run is on standard error: on a terminal in a line that is written over, and else in a new one now and then."""

    OFTEN, SELDOM = 0.1, 30

    def __init__(self, plan: Plan):
        self._plan = plan
        self._files = self._bytes = self._faulty = self._untried = 0
        self._begun = self._told = time.monotonic()
        self._on_terminal = sys.stderr.isatty()
        self._width = 0

    def add(self, findings: Findings) -> None:
        """Counts what a worker found."""
        self._files += findings.files
        self._bytes += findings.bytes
        self._faulty += sum(it.status == 'faulty' for it in findings.findings)
        self._untried += sum(it.status == 'untried' for it in findings.findings)
        now = time.monotonic()
        if now - self._told >= (self.OFTEN if self._on_terminal else self.SELDOM):
            self._told = now
            self._write('p21archive: %d of %d files, %d of %d MB, %d faulty, %d not checked, %d s' % (
                self._files, self._plan.files, self._bytes // 1000000, self._plan.bytes // 1000000, self._faulty, self._untried, now - self._begun))

    def end(self) -> None:
        """Removes the line."""
        if self._on_terminal:
            self._write('')
            sys.stderr.write('\r')

    def _write(self, line: str) -> None:
        if self._on_terminal:
            sys.stderr.write('\r' + line.ljust(self._width))
            self._width = len(line)
        else:
            sys.stderr.write(line + '\n')
        sys.stderr.flush()
