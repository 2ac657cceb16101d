"""Builds the wheel of the package: its modules, and the library of this checkout. It needs nothing but Python, so pip fetches nothing."""

import base64
import hashlib
import io
import os
import pathlib
import re
import subprocess
import sys
import tarfile
import zipfile

HERE = pathlib.Path(__file__).resolve().parent
PROJECT = (HERE / 'pyproject.toml').read_text()
# The programs take calls of glibc 2.34, and the library none that is younger.
TAG = 'py3-none-manylinux_2_34_x86_64'
LIBRARY = 'libp21.so'
LICENCES = 'LICENSE', 'LICENSE-MIT', 'LICENSE-APACHE', 'THIRD-PARTY.md'
MISSING = """p21: the library is missing. This folder has no p21/libp21.so, and is not the folder python of a checkout, which has the library. Do one of these:
  pip install CHECKOUT/python
  cp "$(CHECKOUT/libp21 so)" p21/libp21.so, and run pip again
  P21_LIBRARY=PATH pip install .., where PATH is the library"""


def _text(name: str) -> str:
    """A text of pyproject.toml, which is read without tomllib since Python 3.9 has none."""
    return re.search('^%s = "(.*)"$' % name, PROJECT, re.MULTILINE)[1]


def _list(name: str) -> list:
    """A list of texts of pyproject.toml."""
    return re.findall('"(.*?)"', re.search(r'^%s = \[(.*?)\]$' % name, PROJECT, re.MULTILINE | re.DOTALL)[1])


NAME, VERSION = _text('name'), _text('version')
INFO = '%s-%s.dist-info' % (NAME, VERSION)


def _licences():
    """The licence and the notices by their names: they lie in the checkout, or beside this file where it has none."""
    return {it: path.read_bytes() for it in LICENCES for path in (HERE / it, HERE.parent / it) if path.exists()}


def _metadata() -> bytes:
    """What is told of the package: the fields, and then its page."""
    fields = [('Metadata-Version', '2.4'), ('Name', NAME), ('Version', VERSION), ('Summary', _text('description')), ('Keywords', ','.join(_list('keywords')))]
    fields += [('License-Expression', _text('license')), *(('License-File', it) for it in _licences()), *(('Classifier', it) for it in _list('classifiers'))]
    fields += [('Requires-Python', _text('requires-python')), ('Description-Content-Type', 'text/markdown')]
    return ('%s\n%s' % (''.join('%s: %s\n' % it for it in fields), (HERE / 'README.md').read_text())).encode()


def _library() -> bytes:
    """The shared library: that of P21_LIBRARY, one that lies beside the modules, or that of the checkout, which unpacks or builds it. Where there is
    none, it ends with what to do."""
    named, beside, launcher = os.environ.get('P21_LIBRARY'), HERE / NAME / LIBRARY, HERE.parent / 'libp21'
    if named:
        return pathlib.Path(named).read_bytes()
    if beside.exists():
        return beside.read_bytes()
    if not launcher.exists():
        sys.exit(MISSING)
    ran = subprocess.run([launcher, 'so'], stdout=subprocess.PIPE, text=True)
    if ran.returncode:
        sys.exit('p21: %s so: status %d' % (launcher, ran.returncode))
    return pathlib.Path(ran.stdout[:-1]).read_bytes()


def _modules():
    return {'%s/%s' % (NAME, it.name): it.read_bytes() for it in sorted((HERE / NAME).iterdir()) if it.suffix in ('.py', '.typed')}


def _write(folder, files) -> str:
    name = '%s-%s-%s.whl' % (NAME, VERSION, TAG)
    wheel = 'Wheel-Version: 1.0\nGenerator: p21\nRoot-Is-Purelib: false\nTag: %s\n' % TAG
    files = {**files, INFO + '/METADATA': _metadata(), INFO + '/WHEEL': wheel.encode()}
    record = ''
    for path, data in files.items():
        record += '%s,sha256=%s,%d\n' % (path, base64.urlsafe_b64encode(hashlib.sha256(data).digest()).rstrip(b'=').decode(), len(data))
    files[INFO + '/RECORD'] = (record + INFO + '/RECORD,,\n').encode()
    with zipfile.ZipFile(pathlib.Path(folder) / name, 'w', zipfile.ZIP_DEFLATED) as made:
        for path, data in files.items():
            made.writestr(path, data)
    return name


def build_wheel(wheel_directory, config_settings=None, metadata_directory=None):
    library = {'%s/%s' % (NAME, LIBRARY): _library()}
    return _write(wheel_directory, {**_modules(), **{INFO + '/licenses/' + name: data for name, data in _licences().items()}, **library})


def build_sdist(sdist_directory, config_settings=None):
    """An archive of the sources with the library, of which pip makes the same wheel."""
    base = '%s-%s' % (NAME, VERSION)
    files = {it: (HERE / it).read_bytes() for it in ('pyproject.toml', 'backend.py', 'README.md')}
    files.update({**_licences(), **_modules(), 'PKG-INFO': _metadata(), '%s/%s' % (NAME, LIBRARY): _library()})
    with tarfile.open(pathlib.Path(sdist_directory) / (base + '.tar.gz'), 'w:gz', format=tarfile.PAX_FORMAT) as made:
        for name, data in files.items():
            entry = tarfile.TarInfo('%s/%s' % (base, name))
            entry.size, entry.mode = len(data), 0o644
            made.addfile(entry, io.BytesIO(data))
    return base + '.tar.gz'
