"""Reads STEP physical files (ISO 10303-21, such as .ifc and .stp), checked against the EXPRESS schema that they name.

    import p21

    schema = p21.Schema.open("IFC2X3.exp")
    with schema.read("house.ifc") as model:
        for wall in model.by_type("IfcWall"):
            print(wall.id, wall.is_a(), wall.Name, wall.ObjectPlacement.RelativePlacement)

Only a file without a fault becomes a model; of another, `Schema.read` raises a `Fault` that explains what is wrong and where. With `rules=True` it
also checks the rules UNIQUE, INVERSE and WHERE of the schema.

Some forms of EXPRESS are not supported. `Schema.open(path, mend=True)` writes those of them another way that have the same meaning then, and
`schema.changes` tells what was changed.

A schema tells what it declares, without a file: `schema.entity("IfcWall").attributes`, `.supertypes`, `.is_abstract`; `schema.types()`. A model has
the header of its file: `model.header["file_name"]["author"]`.

The values of attributes are, by what stands in the file: None for `$` and `*`, int, float, str (also of an enumeration), bool, the str
"UNKNOWN" of a LOGICAL, a str of the digits 0 and 1 of a BINARY, a tuple of a list, an `Instance` of a reference, and a `Typed` of a value
with its type.
"""

from .entity import Attribute, DefinedType, Entity
from .errors import Error, Fault, OutOfMemory, SchemaFault
from .instance import Instance, Typed, Value
from .mending import Change
from .model import Model
from .schema import Schema, open

__all__ = [
    "Attribute",
    "Change",
    "DefinedType",
    "Entity",
    "Error",
    "Fault",
    "Instance",
    "Model",
    "OutOfMemory",
    "Schema",
    "SchemaFault",
    "Typed",
    "Value",
    "__version__",
    "open",
    "version",
]

__version__ = "0.2.0"


def version() -> str:
    """The version of this package."""
    return __version__
