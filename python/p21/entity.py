"""What a schema declares: entities with their attributes, and types."""

import ctypes
from typing import NamedTuple, Optional, Tuple, Union

from . import _library as library


class DefinedType(NamedTuple):
    """A type of a schema: its name, and what stands under it as EXPRESS writes it, such as "STRING(255)" or "SELECT (IfcLabel, IfcText)". The items of
    an enumeration are in upper case."""

    name: str
    text: str


class Attribute(NamedTuple):
    """An attribute of the instances of an entity.

    name: as the schema spells it, and as instances have it; entity: the entity that declares it; type: as EXPRESS writes it, such as
    "SET [1:?] OF IfcObject", by the lowest declaration that counts; is_optional: whether its value may be left out; is_derived: whether this entity or
    one above it derives it.
    """

    name: str
    entity: "Entity"
    type: str
    is_optional: bool
    is_derived: bool


class Entity:
    """An entity of a schema."""

    __slots__ = ("_schema", "_number", "name", "_attributes")

    def __init__(self, schema, number: int, name: str):
        self._schema, self._number = schema, number
        self.name: str = name
        self._attributes: Optional[Tuple[Attribute, ...]] = None

    @property
    def is_abstract(self) -> bool:
        """Whether it is an abstract supertype."""
        return bool(self._view().is_abstract)

    @property
    def supertypes(self) -> Tuple["Entity", ...]:
        """The entities of SUBTYPE OF, in this order."""
        schema, places = self._schema, range(self._view().supertypes)
        return tuple(schema._entity_at(library.number(library.schema_supertype, schema._handle, self._number, place)) for place in places)

    @property
    def attributes(self) -> Tuple[Attribute, ...]:
        """The attributes of its instances, in the order of their parameters: the inherited ones, and its own."""
        if self._attributes is None:
            self._attributes = tuple(self._attribute(position) for position in range(self._view().attributes))
        return self._attributes

    def is_a(self, other: Union[str, "Entity"]) -> bool:
        """Whether it is this entity, or has it as a supertype, directly or not; an entity of this schema, or its name."""
        found = self._schema._found(other)
        if found is None:
            return False
        answer = ctypes.c_uint32()
        library.schema_is_a(self._schema._handle, self._number, found._number, ctypes.addressof(answer))
        return bool(answer.value)

    def __eq__(self, other):
        return isinstance(other, Entity) and self._schema is other._schema and self._number == other._number

    def __hash__(self):
        return hash((id(self._schema), self._number))

    def __repr__(self):
        return "<Entity %s>" % self.name

    def __reduce_ex__(self, _):
        raise TypeError("an Entity cannot be copied or pickled")

    def _view(self):
        view = library.EntityView()
        library.schema_entity_view(self._schema._handle, self._number, ctypes.addressof(view))
        return view

    def _attribute(self, position: int) -> Attribute:
        place = self._schema._handle, self._number, position
        view = library.AttributeView()
        library.schema_attribute(*place, ctypes.addressof(view))
        name, written = library.text(library.schema_attribute_name, *place), library.text(library.schema_attribute_type, *place)
        return Attribute(name, self._schema._entity_at(view.entity), written, bool(view.optional), bool(view.derived))
