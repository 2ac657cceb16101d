"""The calls of libp21, as p21.h declares them."""

import ctypes
import os
import pathlib

from .errors import OutOfMemory

OK, FAULT, NONE, MEMORY, HANDLE = range(5)
ABSENT, DERIVED, INTEGER, REAL, STRING, ENUMERATION, LOGICAL, BINARY, REFERENCE, LIST, TYPED = range(11)

_U32, _U64, _SIZE, _PLACE = ctypes.c_uint32, ctypes.c_uint64, ctypes.c_size_t, ctypes.c_void_p


class FaultView(ctypes.Structure):
    _fields_ = [("kind", _U32), ("at", _U64), ("record", _U64), ("attribute", _U64), ("name", _U64)]


class EntityView(ctypes.Structure):
    _fields_ = [("is_abstract", _U32), ("supertypes", _U64), ("attributes", _U64)]


class AttributeView(ctypes.Structure):
    _fields_ = [("entity", _U64), ("optional", _U32), ("derived", _U32)]


class InstanceView(ctypes.Structure):
    _fields_ = [("name", _U64), ("at", _U64), ("records", _U64), ("entity", _U64), ("complex", _U32)]


class RecordView(ctypes.Structure):
    _fields_ = [("entity", _U64), ("parameters", _U64)]


class ValueView(ctypes.Structure):
    _fields_ = [
        ("kind", _U32),
        ("exact", _U32),
        ("integer", ctypes.c_int64),
        ("real", ctypes.c_double),
        ("number", _U64),
        ("length", _U64),
    ]


def _path() -> str:
    """The library: where P21_LIBRARY says, else beside this file, else where the system finds it."""
    named = os.environ.get("P21_LIBRARY")
    if named:
        return named
    beside = pathlib.Path(__file__).with_name("libp21.so")
    return str(beside) if beside.exists() else "libp21.so.0"


# What reads lets other threads of Python run; what answers at once does not.
_slow, _quick = ctypes.CDLL(_path()), ctypes.PyDLL(_path())


def _call(library, name, *types):
    call = getattr(library, name)
    call.argtypes, call.restype = types, ctypes.c_int
    return call


_TEXT, _ROOM = (ctypes.c_char_p, _SIZE), (_PLACE, _SIZE)
# What is the same in many calls is made into an argument once: a handle, a number, a size. A call takes the first of its arguments by its
# types, and those behind them as they were made.
pointer, u32, u64, _size = _PLACE.from_param, _U32.from_param, _U64.from_param, _SIZE.from_param
schema_read = _call(_slow, "p21_schema_read", *_TEXT, _U64, _PLACE, _PLACE)
read = _call(_slow, "p21_read", _PLACE, _PLACE, _SIZE, _PLACE, _PLACE)
explain = _call(_slow, "p21_explain", _PLACE, _PLACE, _SIZE, *_TEXT, _PLACE, *_ROOM, _PLACE)
schema_explain = _call(_slow, "p21_schema_explain", *_TEXT, *_TEXT, _PLACE, _U32, *_ROOM, _PLACE)
place = _call(_slow, "p21_place", *_TEXT, _U64, _PLACE, _PLACE)
mend = _call(_slow, "p21_mend", *_TEXT, _PLACE)
mended_text = _call(_quick, "p21_mended_text", _PLACE, *_ROOM, _PLACE)
change_count = _call(_quick, "p21_change_count", _PLACE, _PLACE)
change = _call(_quick, "p21_change", _PLACE, _U64, _PLACE, *_ROOM, _PLACE)
rules_read = _call(_slow, "p21_rules_read", _PLACE, _PLACE, _SIZE, _PLACE, _PLACE)
rules_check = _call(_slow, "p21_rules_check", _PLACE, _PLACE, *_ROOM, _PLACE)
rules_explain = _call(_slow, "p21_rules_explain", _PLACE, _PLACE, _SIZE, *_TEXT, _PLACE, *_ROOM, _PLACE)
rules_name = _call(_quick, "p21_rules_name", _PLACE, _PLACE, *_ROOM, _PLACE)
schema_title = _call(_quick, "p21_schema_title", _PLACE, *_ROOM, _PLACE)
schema_entity_count = _call(_quick, "p21_schema_entity_count", _PLACE, _PLACE)
schema_entity = _call(_quick, "p21_schema_entity", _PLACE, *_TEXT, _PLACE)
schema_entity_name = _call(_quick, "p21_schema_entity_name", _PLACE, _U64, *_ROOM, _PLACE)
schema_entity_view = _call(_quick, "p21_schema_entity_view", _PLACE, _U64, _PLACE)
schema_supertype = _call(_quick, "p21_schema_supertype", _PLACE, _U64, _U64, _PLACE)
schema_is_a = _call(_quick, "p21_schema_is_a", _PLACE, _U64, _U64, _PLACE)
schema_attribute = _call(_quick, "p21_schema_attribute", _PLACE, _U64, _U64, _PLACE)
schema_attribute_name = _call(_quick, "p21_schema_attribute_name", _PLACE, _U64, _U64, *_ROOM, _PLACE)
schema_attribute_type = _call(_quick, "p21_schema_attribute_type", _PLACE, _U64, _U64, *_ROOM, _PLACE)
schema_type_count = _call(_quick, "p21_schema_type_count", _PLACE, _PLACE)
schema_type_name = _call(_quick, "p21_schema_type_name", _PLACE, _U64, *_ROOM, _PLACE)
schema_type_text = _call(_quick, "p21_schema_type_text", _PLACE, _U64, *_ROOM, _PLACE)
header = _call(_quick, "p21_header", _PLACE, *_ROOM, _PLACE)
schema_name = _call(_quick, "p21_schema_name", _PLACE, *_ROOM, _PLACE)
entity_count = _call(_quick, "p21_entity_count", _PLACE, _PLACE)
entity = _call(_quick, "p21_entity", _PLACE, *_TEXT, _PLACE)
entity_name = _call(_quick, "p21_entity_name", _PLACE, _U64, *_ROOM, _PLACE)
is_a = _call(_quick, "p21_is_a", _PLACE, _U64, _U64, _PLACE)
attribute_count = _call(_quick, "p21_attribute_count", _PLACE, _U64, _U32, _PLACE)
attribute_name = _call(_quick, "p21_attribute_name", _PLACE, _U64, _U32, _U64, *_ROOM, _PLACE)
count = _call(_quick, "p21_count", _PLACE, _PLACE)
reference_count = _call(_slow, "p21_reference_count", _PLACE, _PLACE)
find = _call(_quick, "p21_find", _PLACE, _U64, _PLACE)
instance = _call(_quick, "p21_instance", _PLACE, _U64, _PLACE)
instances = _call(_slow, "p21_instances", _PLACE, _U64, *_ROOM, *_ROOM, _PLACE)
record = _call(_quick, "p21_record", _PLACE, _U64, _U64, _PLACE)
next_of = _call(_slow, "p21_next_of", _PLACE)
next_naming = _call(_slow, "p21_next_naming", _PLACE)
value = _call(_quick, "p21_value", _PLACE, _U64)

_clear = _slow.p21_clear
_clear.argtypes, _clear.restype = (_PLACE,), None
_free = ctypes.CDLL(None).free
_free.argtypes, _free.restype = (_PLACE,), None


class Handle(_PLACE):
    """A schema, a model, rules or a mended text of the library, with what it reads where that is. It goes when nothing refers to it any more: a call that
    uses it does, so that whoever closes a model only forgets its handle."""

    def __init__(self, place: int, *read):
        super().__init__(place)
        self._read = read

    def __del__(self, clear=_clear, free=_free):
        clear(self)
        free(self)


class Kept:
    """What holds a handle, of which there is one, so that it cannot be copied."""

    def __reduce_ex__(self, _):
        raise TypeError("a %s cannot be copied or pickled" % type(self).__name__)


# A path has a step for each parenthesis that is open where the value stands, of which a file may have so many; and its size by the depth of its last step.
STEPS = 64
SIZES = [_size(depth + 1) for depth in range(STEPS)]


class Room:
    """Room for what a call hands out, and for the path of a value."""

    def __init__(self):
        self.number = _U64()
        self.number_at = ctypes.byref(self.number)
        self.value = ValueView()
        self._path = (_U64 * STEPS)()
        self.path_at = ctypes.byref(self._path)
        self.fit(256)

    def fit(self, size):
        """Makes room for so many bytes."""
        self.size = size
        self.bytes = ctypes.create_string_buffer(size)
        self.bytes_at = ctypes.byref(self.bytes)
        self.text_and_view = self.bytes_at, _size(size), ctypes.byref(self.value)
        # What reading a value takes, at one look.
        self.all = self.value, self._path, self.bytes, size, self.path_at, *self.text_and_view


# Rooms that no call uses. Each call takes one and gives it back, so that a call of another thread, or of a signal handler, has its own.
_rooms = [Room()]


def take() -> Room:
    """A room that no other call uses."""
    try:
        return _rooms.pop()
    except IndexError:
        return Room()


give = _rooms.append


def data(call, *words) -> bytes:
    """The bytes of the text that a call hands out."""
    room = take()
    code = call(*words, room.bytes_at, room.size, room.number_at)
    while code == OK:
        length = room.number.value
        if length <= room.size:
            told = room.bytes[:length]
            give(room)
            return told
        room.fit(length)
        code = call(*words, room.bytes_at, room.size, room.number_at)
    raise OutOfMemory("a text") if code == MEMORY else LookupError("there is no such text")


def text(call, *words) -> str:
    """The text that a call hands out."""
    return data(call, *words).decode("utf-8", "replace")


def number(call, *words):
    """The number that a call hands out; None where there is none."""
    room = take()
    code = call(*words, room.number_at)
    told = room.number.value if code == OK else None
    give(room)
    if code == MEMORY:
        raise OutOfMemory("a number")
    return told
