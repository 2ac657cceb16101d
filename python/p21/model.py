"""Models: the instances of a file."""

import array
import ctypes
import json
import operator
from typing import Any, Dict, Iterator, List, Optional, Tuple, Type, Union

from . import _library as library
from .errors import Error, OutOfMemory
from .instance import Instance, class_of


# What stands for the entity of a complex instance.
_NO_ENTITY = (1 << 64) - 1


def _number(key) -> Optional[int]:
    """The number that a key is; None where it can be that of no instance."""
    try:
        number = operator.index(key)
    except TypeError:
        return None
    return number if 0 <= number < 1 << 64 else None


class Model(library.Kept):
    """The instances of a file that conforms to its schema, in the order of the file."""

    def __init__(self, handle: library.Handle):
        self._handle: Optional[library.Handle] = handle
        count = library.number(library.count, handle)
        self._names = array.array("Q", bytes(8 * count))
        self._entities = array.array("Q", bytes(8 * count))
        names, entities = self._names.buffer_info(), self._entities.buffer_info()
        library.number(library.instances, handle, 0, *names, *entities)
        self._by_name: Dict[str, Optional[int]] = {}
        self._spelled: Dict[int, str] = {}
        self._below: Dict[tuple, bool] = {}
        self._classes: Dict[object, Type[Instance]] = {}
        self._guids: Optional[Dict[str, int]] = None

    # ---- what users call

    @property
    def schema(self) -> str:
        """The name of the schema: IFC2X3."""
        return library.text(library.schema_name, self._open())

    @property
    def header(self) -> Dict[str, Dict[str, Any]]:
        """The parameters of the header's entities by their names in ISO 10303-21: those of "file_description" ("description" and "implementation_level"),
        "file_name" ("name", "time_stamp", "author", "organization", "preprocessor_version", "originating_system" and "authorization") and "file_schema"
        ("schema_identifiers"). A parameter that the file has not is left out."""
        return json.loads(library.text(library.header, self._open()))["header"]

    def __len__(self) -> int:
        return len(self._names)

    def reference_count(self) -> int:
        """How many references its instances have, each as often as it is written."""
        return library.number(library.reference_count, self._open())

    def __iter__(self) -> Iterator[Instance]:
        classes = self._classes
        for place, entity in enumerate(self._entities):
            yield (classes.get(entity) or self._class_at(place))(self, place)

    def __getitem__(self, key: Union[int, str]) -> Instance:
        """The instance of a number, or of a GlobalId; KeyError if there is none."""
        if isinstance(key, slice):
            raise TypeError("a model has no slices: its instances go by their numbers, as in model[767], or by their GlobalIds")
        try:
            return self.by_guid(key) if isinstance(key, str) else self.by_id(key)
        except RuntimeError:
            raise KeyError(key) from None

    def __contains__(self, key) -> bool:
        """Whether this is an instance of the model, or the number or the GlobalId of one."""
        if isinstance(key, Instance):
            return key._model is self
        if isinstance(key, str):
            return key in self._by_guid()
        number = _number(key)
        return number is not None and library.number(library.find, self._open(), number) is not None

    def by_id(self, number: int) -> Instance:
        """The instance of a number: 767 for #767; RuntimeError if there is none."""
        found = _number(number)
        if found is None:
            raise RuntimeError("there is no instance #%s" % (number,))
        return self._named(found)

    def by_type(self, name: str, include_subtypes: bool = True) -> List[Instance]:
        """The instances of the entity of this name, and of its subtypes; RuntimeError if the schema has no such entity."""
        entity = self._entity(name)
        if entity is None:
            raise RuntimeError("the schema has no entity %s" % name)
        return self._all(library.next_of, library.u64(entity), library.u32(int(include_subtypes)))

    def by_guid(self, guid: str) -> Instance:
        """The instance with this GlobalId; RuntimeError if there is none."""
        place = self._by_guid().get(guid)
        if place is None:
            raise RuntimeError("there is no instance with the GlobalId %s" % guid)
        return self._at(place)

    def inverse(self, of: Union[int, Instance]) -> List[Instance]:
        """The instances that refer to this one, by itself or by its number."""
        number = _number(of.id if isinstance(of, Instance) else of)
        return [] if number is None else self._all(library.next_naming, library.u64(number))

    get_inverse = inverse

    def close(self) -> None:
        """Lets go of the model, once the calls of other threads are over that use it. Its instances may not be used any more."""
        self._handle = None

    def __enter__(self) -> "Model":
        return self

    def __exit__(self, *_) -> None:
        self.close()

    # ---- what the package calls

    def _open(self):
        if self._handle is None:
            raise Error("the model is closed")
        return self._handle

    def _refuse(self, code):
        self._open()
        raise OutOfMemory("a value") if code == library.MEMORY else LookupError("there is no such value")

    def _all(self, call, *words) -> List[Instance]:
        """The instances to whose places a call leads, each of which it writes over the one to begin at."""
        found, place = [], ctypes.c_uint64()
        arguments = (self._open(), *words, place, ctypes.byref(place))
        while call(*arguments) == library.OK:
            found.append(self._at(place.value))
            place.value += 1
        return found

    def _named(self, number: int) -> Instance:
        """The instance of a number of 64 bits."""
        place = library.number(library.find, self._handle or self._open(), number)
        if place is None:
            raise RuntimeError("there is no instance #%d" % number)
        return self._at(place)

    def _by_guid(self) -> Dict[str, int]:
        """The place of the first instance of each GlobalId."""
        self._open()
        if self._guids is None:
            guids: Dict[str, int] = {}
            for instance in self:
                if "GlobalId" in instance._attributes:
                    guids.setdefault(instance.GlobalId, instance._place)
            self._guids = guids
        return self._guids

    def _entity(self, name: str) -> Optional[int]:
        if name not in self._by_name:
            word = name.upper().encode()
            self._by_name[name] = library.number(library.entity, self._open(), word, len(word))
        return self._by_name[name]

    def _entity_name(self, entity: int) -> str:
        if entity not in self._spelled:
            self._spelled[entity] = library.text(library.entity_name, self._open(), entity)
        return self._spelled[entity]

    def _is_a(self, entity: int, other: int) -> bool:
        pair = entity, other
        if pair not in self._below:
            answer = ctypes.c_uint32()
            library.is_a(self._open(), entity, other, ctypes.addressof(answer))
            self._below[pair] = bool(answer.value)
        return self._below[pair]

    def _entities_of(self, place: int):
        """The entities of the records of an instance."""
        if self._entities[place] != _NO_ENTITY:
            return (self._entities[place],)
        view, record, entities = library.InstanceView(), library.RecordView(), []
        library.instance(self._open(), place, ctypes.addressof(view))
        for number in range(view.records):
            library.record(self._open(), place, number, ctypes.addressof(record))
            entities.append(record.entity)
        return tuple(entities)

    def _at(self, place: int) -> Instance:
        """The instance at a place."""
        return (self._classes.get(self._entities[place]) or self._class_at(place))(self, place)

    def _class_at(self, place: int) -> Type[Instance]:
        """The class of the instance at a place: one for each entity, and one for the entities of each kind of complex instance."""
        entities = self._entities_of(place)
        is_simple = self._entities[place] != _NO_ENTITY
        key = entities[0] if is_simple else entities
        if key not in self._classes:
            self._classes[key] = class_of(self._entity_name(entities[0]), self._places(entities, 0 if is_simple else 1))
        return self._classes[key]

    def _places(self, entities: tuple, own: int) -> Dict[str, Tuple[int, int]]:
        """The record and the position of each attribute, by its name; where own is 1, of the own attributes of the entity of each record. An own
        attribute with the name of one in a record before it has that of its entity in front, as the library has it in one record."""
        places: Dict[str, Tuple[int, int]] = {}
        for record, entity in enumerate(entities):
            for position in range(library.number(library.attribute_count, self._open(), entity, own)):
                name = library.text(library.attribute_name, self._open(), entity, own, position)
                taken = name.lower() in (it.lower() for it in places)
                places["%s.%s" % (self._entity_name(entity), name) if taken else name] = record, position
        return places
