"""Schemas whose forms are written another way with the same meaning."""

import ctypes
from typing import List, NamedTuple, Tuple

from . import _library as library
from .errors import OutOfMemory


class Change(NamedTuple):
    """A change in the text of a schema: its line and column in the text that was mended, from 1 on, and what was changed and why the meaning is the same."""

    line: int
    column: int
    sentence: str


def mended(text: bytes) -> Tuple[bytes, List[Change]]:
    """The text after all changes, and the changes, in the order of the text."""
    place = ctypes.c_void_p()
    if library.mend(text, len(text), ctypes.addressof(place)) != library.OK:
        raise OutOfMemory("the schema")
    handle = library.Handle(place.value)
    numbers = range(library.number(library.change_count, handle))
    return library.data(library.mended_text, handle), [_change(text, handle, number) for number in numbers]


def _change(text: bytes, handle: library.Handle, number: int) -> Change:
    at, line, column = ctypes.c_uint64(), ctypes.c_uint64(), ctypes.c_uint64()
    sentence = library.text(library.change, handle, number, ctypes.addressof(at))
    library.place(text, len(text), at, ctypes.addressof(line), ctypes.addressof(column))
    return Change(line.value, column.value, sentence)
