"""What the scripts of this folder have in common: the program, the small schema, runs that must end in time, and what is reported of them."""

import os
import pathlib
import pty
import subprocess
import sys
import tempfile

from launched import TOP, launched
from report import Report

TESTS = TOP / 'tests'
ROWS = TESTS / 'rows'
SCHEMA = ROWS / 'toy.exp'
PROGRAM = launched('p21check')
DEVICE = b'p21check: input or output failed\n'
MEMORY = b'p21check: out of memory\n'
SECONDS = 10
PEAK = """import resource, subprocess, sys
subprocess.run(sys.argv[1:], stdin=subprocess.DEVNULL, stdout=subprocess.DEVNULL)
print(resource.getrusage(resource.RUSAGE_CHILDREN).ru_maxrss)"""


def run(words, program=(PROGRAM,), seconds=SECONDS, **more):
    """The status, the output and the errors of a run; None where it does not end in time."""
    try:
        ran = subprocess.run([*program, *words], capture_output=True, timeout=seconds, **more)
    except subprocess.TimeoutExpired:
        return None
    return ran.returncode, ran.stdout, ran.stderr


def peak_memory(words):
    """The most memory that a run takes, in bytes. A small process starts it, since a run begins with the memory of who starts it."""
    ran = subprocess.run([sys.executable, '-c', PEAK, PROGRAM, *words], stdout=subprocess.PIPE, check=True)
    return int(ran.stdout) * 1024


def on_terminal(words, seconds=SECONDS, **more):
    """The same of a run whose errors are a terminal; None also where no terminal can be had."""
    try:
        ours, theirs = pty.openpty()
    except OSError:
        return None
    started = subprocess.Popen([PROGRAM, *words], stdin=subprocess.DEVNULL, stdout=subprocess.PIPE, stderr=theirs, **more)
    os.close(theirs)
    errors = b''
    try:
        while part := os.read(ours, 65536):
            errors += part
    except OSError:
        # The terminal has no end that tells of itself.
        pass
    output, _ = started.communicate(timeout=seconds)
    os.close(ours)
    return started.returncode, output, errors.replace(b'\r\n', b'\n')


def row(name):
    """The file of a row, and the status and the output that it wants."""
    folder = ROWS / name
    return folder / 'file.stp', int((folder / 'status').read_bytes()), (folder / 'stdout').read_bytes()


def chain(count, last=b'$'):
    """A file of so many instances, each of which refers to the next; the last refers to this."""
    text = row('accept-three-simple-instances')[0].read_bytes()
    instances = [b"#%d=ITEM('A001',$,#%d);" % (name, name + 1) for name in range(1, count)]
    instances.append(b"#%d=ITEM('A001',$,%s);" % (count, last))
    return text[:text.index(b'#1=')] + b''.join(instances) + text[text.rindex(b'ENDSEC;'):]


def preloaded(name, folder):
    """The library that is made of a C file of this folder."""
    library = pathlib.Path(folder) / (name + '.so')
    subprocess.run(['cc', '-shared', '-fPIC', '-O2', '-o', library, TESTS / (name + '.c'), '-ldl'], check=True)
    return library


def refuse_in_turn(report, name, library, command, is_right, folder):
    """Runs a command with its first request for memory refused, its second, and so on until no request is; each run is a case."""
    count, was_refused = 0, True
    marks = pathlib.Path(folder) / 'marks'
    while was_refused:
        count += 1
        with open(marks, 'wb') as told:
            words = ['sh', '-c', 'exec "$@" 9>&%d' % told.fileno(), 'sh', 'env', 'REFUSE=%d' % count, 'LD_PRELOAD=%s' % library]
            ran = run(command, program=words, cwd=folder, pass_fds=[told.fileno()])
        was_refused = marks.stat().st_size > 0
        report.expect(is_right(ran), '%s: a wrong answer at request %d: %s' % (name, count, ran))


def scratch():
    """A folder that lasts as long as the `with` that it is made for."""
    return tempfile.TemporaryDirectory()
