"""Instances, and the values of their attributes."""

from typing import TYPE_CHECKING, Any, Callable, Dict, Iterator, List, Optional, Tuple, Type, Union

from . import _library as library

Value = Union[None, int, float, str, bool, Tuple[Any, ...], "Instance", "Typed"]

_LOGICAL = (False, True, "UNKNOWN")
_value, _SIZES, _take, _give = library.value, library.SIZES, library.take, library.give
_STRING, _ENUMERATION, _REFERENCE, _REAL, _LIST = library.STRING, library.ENUMERATION, library.REFERENCE, library.REAL, library.LIST


class Number(int):
    """The number of an instance's name, which may be called as well."""

    __slots__ = ()

    def __call__(self) -> int:
        return int(self)


class Typed:
    """A value with its type, such as IfcLabel('wood')."""

    __slots__ = ("_type", "wrappedValue")

    def __init__(self, name: str, value: Value):
        self._type, self.wrappedValue = name, value

    def is_a(self, name: Optional[str] = None):
        """The name of the type; or whether this is its name."""
        return self._type if name is None else self._type.upper() == name.upper()

    def __getitem__(self, index: int) -> Value:
        return (self.wrappedValue,)[index]

    def __len__(self) -> int:
        return 1

    def __eq__(self, other):
        return isinstance(other, Typed) and (self._type, self.wrappedValue) == (other._type, other.wrappedValue)

    def __hash__(self):
        return hash((self._type, self.wrappedValue))

    def __repr__(self):
        return "%s(%s)" % (self._type, _shown(self.wrappedValue))


def value_at(room, model, place: int, record, depth: int, step: int) -> Value:
    """The value in a record to which this step leads, after those to that depth which are in the room's path."""
    view, path, text, size, path_at, text_at, size_of_text, view_at = room.all
    path[depth] = step
    code = _value(model._handle, place, record, path_at, _SIZES[depth], text_at, size_of_text, view_at)
    if code:
        model._refuse(code)
    kind = view.kind
    if kind == _STRING or kind == _ENUMERATION:
        return text[: view.length].decode("utf-8", "replace") if view.length <= size else _text(room, model, place, record, depth)
    if kind == _REFERENCE:
        return model._named(view.number)
    if kind == _REAL:
        return view.real
    if kind == _LIST:
        inner = depth + 1
        return tuple([value_at(room, model, place, record, inner, index) for index in range(view.number)])
    if kind <= library.DERIVED:
        return None
    if kind == library.INTEGER:
        return view.integer if view.exact else _integer(_text(room, model, place, record, depth))
    if kind == library.LOGICAL:
        return _LOGICAL[view.number]
    if kind == library.BINARY:
        bits = view.number
        return _bits(_text(room, model, place, record, depth), bits)
    name = _text(room, model, place, record, depth)
    return Typed(name, value_at(room, model, place, record, depth + 1, 0))


def _text(room, model, place, record, depth) -> str:
    """The text of the value that was asked for last."""
    length = room.value.length
    if length > room.size:
        room.fit(length)
        _value(model._handle, place, record, room.path_at, _SIZES[depth], *room.text_and_view)
    return room.bytes[:length].decode("utf-8", "replace")


# More digits than this int() and repr() may refuse.
_DIGITS = 4000


def _integer(text: str) -> int:
    """The integer of a text, however many digits it has."""
    if len(text) <= _DIGITS:
        return int(text)
    if text[0] in "+-":
        return -_integer(text[1:]) if text[0] == "-" else _integer(text[1:])
    behind = len(text) // 2
    return _integer(text[:-behind]) * 10**behind + _integer(text[-behind:])


def _bits(digits: str, count: int) -> str:
    """The bits of a binary: its digits but the first, without the padding in front."""
    return bin(int("1" + digits[1:], 16))[3:][-count:] if count else ""


def _shown(value: Value) -> str:
    """A value in the text of its instance: of a reference only the name; an integer that is too long for repr() to the base 16."""
    if isinstance(value, Instance):
        return "#%d" % value.id
    if isinstance(value, tuple):
        return "(%s)" % ",".join(_shown(it) for it in value)
    if isinstance(value, int) and value.bit_length() > 3 * _DIGITS:
        return hex(value)
    return repr(value)


def _reader(record: int, position: int) -> Callable[["Instance"], Value]:
    """What reads an attribute of an instance: the parameter at a position of a record."""
    number = library.u64(record)

    def read(instance):
        room = _take()
        value = value_at(room, instance._model, instance._place, number, 0, position)
        _give(room)
        return value

    return read


class Instance:
    """An instance of a model, of a class that its entity gives it. Its attributes are attributes of the object, by the names of the schema; one whose name
    is that of a method, such as id in AP203, is instance["id"]. Where a further attribute has the name of one before it, by another supertype, its name is
    that of the entity that declares it, a point, and its own, as in instance["document.name"]."""

    __slots__ = ("_model", "_place")
    _attributes: Dict[str, Callable[["Instance"], Value]] = {}
    _readers: Tuple[Callable[["Instance"], Value], ...] = ()

    def __init__(self, model, place: int):
        self._model, self._place = model, place

    if TYPE_CHECKING:

        def __getattr__(self, name: str) -> Value: ...

    @property
    def id(self) -> Number:
        """The number of its name: 767 of #767; also as id()."""
        return Number(self._model._names[self._place])

    def is_a(self, name: Optional[str] = None):
        """The name of its entity; or whether it is of the entity of this name, or of a subtype of it."""
        model = self._model
        if name is None:
            return model._entity_name(model._entities_of(self._place)[0])
        other = model._entity(name)
        return other is not None and any(model._is_a(entity, other) for entity in model._entities_of(self._place))

    def __getitem__(self, key: Union[int, str, slice]) -> Union[Value, List[Value]]:
        """An attribute by its place, or by its name; a list of those at the places of a slice."""
        if isinstance(key, slice):
            return [read(self) for read in self._readers[key]]
        read = self._attributes[key] if isinstance(key, str) else self._readers[key]
        return read(self)

    def __len__(self) -> int:
        """How many attributes it has."""
        return len(self._attributes)

    def __iter__(self) -> Iterator[Value]:
        return (self[index] for index in range(len(self)))

    def attribute_name(self, index: int) -> str:
        """The name of an attribute by its place."""
        return list(self._attributes)[index]

    def attributes(self) -> Dict[str, Value]:
        """Its attributes by their names."""
        return {name: read(self) for name, read in self._attributes.items()}

    def get_info(self) -> Dict[str, Any]:
        """Its id, its type and its attributes by their names, but for those of these two names."""
        return {**self.attributes(), "id": int(self.id), "type": self.is_a()}

    def __eq__(self, other):
        return isinstance(other, Instance) and self._model is other._model and self._place == other._place

    def __hash__(self):
        return hash((id(self._model), self._place))

    def __repr__(self):
        return "#%d=%s(%s)" % (self.id, self.is_a(), ",".join(_shown(it) for it in self))


def class_of(name: str, places: Dict[str, Tuple[int, int]]) -> Type[Instance]:
    """The class of the instances of an entity, by the record and the position of each attribute."""
    attributes = {it: _reader(*place) for it, place in places.items()}
    named = {it: property(read) for it, read in attributes.items() if not hasattr(Instance, it)}
    return type(name, (Instance,), {"__slots__": (), "_attributes": attributes, "_readers": tuple(attributes.values()), **named})
