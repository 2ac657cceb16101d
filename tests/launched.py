"""The programs that the launchers run: those of the sources as they stand, which a launcher unpacks first where they are not there. Where dist/ is not of
these sources, no test proves them: it ends with what the launcher says. A program that FERUHYO_P21CHECK or FERUHYO_P21EXPORT names is run in the place of
the packed one, as one that bench/unproved built."""

import os
import pathlib
import subprocess
import sys

TOP = pathlib.Path(__file__).resolve().parent.parent
os.environ['FERUHYO_NO_PROOFS'] = '1'


def launched(name, *words):
    """The path that a launcher prints, or of the program that is named in its place."""
    named = os.environ.get('FERUHYO_' + name.upper())
    if named:
        return pathlib.Path(named).resolve()
    ran = subprocess.run([TOP / name, *words], env={**os.environ, name.upper() + '_WHICH': '1'}, stdout=subprocess.PIPE, text=True)
    if ran.returncode:
        sys.exit(ran.returncode)
    return pathlib.Path(ran.stdout[:-1])
