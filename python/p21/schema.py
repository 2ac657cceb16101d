"""Schemas, and reading files against them."""

import ctypes
import json
import os
from typing import Iterator, List, Optional, Tuple, Union

from . import _library as library
from .entity import DefinedType, Entity
from .errors import OutOfMemory, fault_of, schema_fault_of
from .mending import Change, mended
from .model import Model

Path = Union[str, "os.PathLike[str]"]


def _place(data: bytes):
    """The place of some bytes."""
    return ctypes.cast(ctypes.c_char_p(data), ctypes.c_void_p).value


class Schema(library.Kept):
    """An EXPRESS schema, against which files are checked. It holds its entities: len(schema), `for entity in schema`, `"IfcWall" in schema`,
    schema["IfcWall"]. Names are compared without regard to the case of letters.

    text: the text that was read; changes: what was changed in it before, where that was wanted, a list of `Change`.
    """

    def __init__(self, text: bytes, name: str = "schema", mend: bool = False):
        """Reads the text of a schema, whose name an error may give; raises SchemaFault if it is refused. With mend, forms that are not supported are first
        written another way with the same meaning, where there is one: the text is then the mended one, whose lines are those that were given."""
        handle, fault = ctypes.c_void_p(), library.FaultView()
        self.changes: List[Change] = []
        if mend:
            text, self.changes = mended(text)
        self.text, self._path = text, name
        self._rules: Optional[library.Handle] = None
        self._entities: Optional[Tuple[Entity, ...]] = None
        key = int.from_bytes(os.urandom(8), "little")
        self._accept(library.schema_read(text, len(text), key, ctypes.addressof(handle), ctypes.addressof(fault)), fault)
        self._handle = library.Handle(handle.value)

    @classmethod
    def open(cls, path: Path, mend: bool = False) -> "Schema":
        """Reads the schema of a file; mended before, where that is wanted."""
        with _open(path, "rb") as file:
            return cls(file.read(), os.fspath(path), mend)

    # ---- what it declares

    @property
    def name(self) -> str:
        """Its name, in upper case: IFC2X3."""
        return library.text(library.schema_title, self._handle)

    def entities(self) -> List[Entity]:
        """Its entities, in the order of its text."""
        return list(self._all())

    def entity(self, name: str) -> Entity:
        """The entity of this name; RuntimeError if there is none."""
        found = self._found(name)
        if found is None:
            raise RuntimeError("the schema has no entity %s" % name)
        return found

    def types(self) -> List[DefinedType]:
        """Its types, in the order of its text."""
        count = library.number(library.schema_type_count, self._handle)
        calls = library.schema_type_name, library.schema_type_text
        return [DefinedType(*(library.text(call, self._handle, number) for call in calls)) for number in range(count)]

    def __len__(self) -> int:
        """How many entities it has."""
        return library.number(library.schema_entity_count, self._handle)

    def __iter__(self) -> Iterator[Entity]:
        return iter(self._all())

    def __contains__(self, key) -> bool:
        """Whether this is an entity of it, or the name of one."""
        return self._found(key) is not None

    def __getitem__(self, name: str) -> Entity:
        """The entity of this name; KeyError if there is none."""
        found = self._found(name)
        if found is None:
            raise KeyError(name)
        return found

    # ---- reading files

    def read(self, path: Path, rules: bool = False) -> Model:
        """Reads a file; raises Fault if it does not conform to the schema. With rules it also raises Fault if the file breaks a rule UNIQUE, the bounds of an
        INVERSE attribute or a rule WHERE of the schema, and SchemaFault if rules UNIQUE or INVERSE are refused."""
        self._ready(rules)
        with _open(path, "rb") as file:
            return self.read_bytes(file.read(), os.fspath(path), rules)

    def read_bytes(self, data: bytes, name: str = "file", rules: bool = False) -> Model:
        """Reads the bytes of a file, whose name an explanation may give."""
        ruled = self._ready(rules)
        handle, fault = ctypes.c_void_p(), library.FaultView()
        code = library.read(self._handle, _place(data), len(data), ctypes.addressof(handle), ctypes.addressof(fault))
        called = os.fsencode(name)
        words = _place(data), len(data), called, len(called), ctypes.addressof(fault)
        if code == library.FAULT:
            raise fault_of(fault, library.text(library.explain, self._handle, *words))
        if code != library.OK:
            raise OutOfMemory("the model")
        read = library.Handle(handle.value, self._handle, data)
        if ruled is not None and self._breaks(ruled, read, fault):
            rule = library.text(library.rules_name, ruled, ctypes.addressof(fault))
            raise fault_of(fault, library.text(library.rules_explain, ruled, *words), rule)
        return Model(read)

    # ---- what the package calls

    def _all(self) -> Tuple[Entity, ...]:
        if self._entities is None:
            names = (library.text(library.schema_entity_name, self._handle, number) for number in range(len(self)))
            self._entities = tuple(Entity(self, number, name) for number, name in enumerate(names))
        return self._entities

    def _entity_at(self, number: int) -> Entity:
        return self._all()[number]

    def _found(self, key) -> Optional[Entity]:
        """The entity that this is, or of this name."""
        if isinstance(key, Entity):
            return key if key._schema is self else None
        if not isinstance(key, str):
            return None
        word = key.encode("utf-8", "replace")
        number = library.number(library.schema_entity, self._handle, word, len(word))
        return None if number is None else self._entity_at(number)

    def _accept(self, code: int, fault) -> None:
        """Raises what a code of the library says of the text."""
        if code == library.FAULT:
            path = os.fsencode(self._path)
            words = self.text, len(self.text), path, len(path), ctypes.addressof(fault), 1
            raise schema_fault_of(fault, json.loads(library.text(library.schema_explain, *words)))
        if code != library.OK:
            raise OutOfMemory("the schema")

    def _ready(self, rules: bool) -> Optional[library.Handle]:
        """The rules, where they are wanted; they are read once."""
        if rules and self._rules is None:
            handle, fault, place = ctypes.c_void_p(), library.FaultView(), _place(self.text)
            self._accept(library.rules_read(self._handle, place, len(self.text), ctypes.addressof(handle), ctypes.addressof(fault)), fault)
            self._rules = library.Handle(handle.value, self._handle, self.text)
        return self._rules if rules else None

    def _breaks(self, rules: library.Handle, model: library.Handle, fault) -> bool:
        """Whether a model breaks a rule, and by which fault it does first."""
        count = ctypes.c_uint64()
        code = library.rules_check(rules, model, ctypes.addressof(fault), 1, ctypes.addressof(count))
        if code != library.OK:
            raise OutOfMemory("the rules")
        return count.value > 0


_open = open


def open(path: Path, schema: Union[Schema, Path], rules: bool = False, mend: bool = False) -> Model:
    """Reads a file against a schema, or against that of a path, which is mended before where that is wanted; with rules also by the rules of the schema, as
    `Schema.read` does."""
    return (schema if isinstance(schema, Schema) else Schema.open(schema, mend)).read(path, rules)
