"""Finds the STEP files among some files and below some folders."""

from __future__ import annotations

import os
import stat
import zlib
from typing import Dict, List, NamedTuple

from .model import File, Finding, Untried, text_of
from .sources import PACKED, is_packed, open_plain, step_files, unpacked_size


class Part(NamedTuple):
    """One of so many parts that the files of an archive fall into, by their names."""

    number: int
    count: int

    def has(self, path: bytes) -> bool:
        """Whether the part has the file of this path."""
        return zlib.crc32(path) % self.count == self.number - 1


class Search:
    """Goes through folders, and through what links lead to, each folder once. `files` are the plain files that it found, `refused` what is
    told of the rest that has such a name, and of folders that cannot be read, and `ignored` how many other files there are of each ending."""

    def __init__(self, part: Part):
        self.files: List[File] = []
        self.refused: List[Finding] = []
        self.ignored: Dict[str, int] = {}
        self._part = part
        self._named = set()
        self._seen = set()
        self._folders: List[bytes] = []
        self._links: List[bytes] = []

    def run(self, paths: List[bytes]) -> None:
        """Takes these files, whatever their names are, and looks through these folders, and then through those behind links, so that a file has the name
        that is no link's where it has one."""
        for path in paths:
            if not os.path.isdir(path):
                self._add(path)
        self._folders = [it for it in paths[::-1] if os.path.isdir(it)]
        while self._folders or self._links:
            folder = self._folders.pop() if self._folders else self._links.pop(0)
            try:
                self._look_through(folder)
            except OSError as error:
                if self._part.has(folder):
                    self._refuse(folder, Untried.by(error))

    def _look_through(self, folder: bytes) -> None:
        status = os.stat(folder)
        if (status.st_dev, status.st_ino) in self._seen:
            return
        self._seen.add((status.st_dev, status.st_ino))
        with os.scandir(folder) as entries:
            sorted_entries = sorted(entries, key=lambda it: it.name)
        within = []
        for entry in sorted_entries:
            if entry.is_dir(follow_symlinks=False):
                within.append(entry.path)
            elif entry.is_symlink() and os.path.isdir(entry.path):
                self._links.append(entry.path)
            elif PACKED.search(entry.name):
                self._add(entry.path)
            elif entry.name.lower().endswith(b'.zip'):
                self._add_zip(entry.path)
            else:
                self._ignore(entry.path, os.path.splitext(entry.name)[1].lower())
        self._folders += within[::-1]

    def _ignore(self, path: bytes, ending: bytes) -> None:
        if self._part.has(path):
            told = text_of(ending)
            self.ignored[told] = self.ignored.get(told, 0) + 1

    def _add_zip(self, path: bytes) -> None:
        """A zip whose name says nothing of STEP files: it is one of them if it holds any, or if that cannot be told."""
        try:
            with open_plain(path) as file:
                step_files(file)
        except Untried as why:
            if why.kind == 'NoMember':
                self._ignore(path, b'.zip')
                return
        self._add(path)

    def _add(self, path: bytes) -> None:
        if not self._part.has(path) or path in self._named:
            return
        self._named.add(path)
        try:
            status = os.stat(path)
        except OSError as error:
            self._refuse(path, Untried.by(error))
            return
        if stat.S_ISREG(status.st_mode):
            unpacked = unpacked_size(path, status.st_size) if is_packed(path) else status.st_size
            self.files.append(File(text_of(path), text_of(os.path.abspath(path)), status.st_size, unpacked))
        else:
            self._refuse(path, Untried.no_file())

    def _refuse(self, path: bytes, why: Untried) -> None:
        self.refused.append(Finding(text_of(path), kind=why.kind, sentence=why.sentence))
