"""What can go wrong."""

import re
from typing import Optional

KINDS = {
    1: "BadToken",
    2: "Unexpected",
    3: "Truncated",
    4: "TooDeep",
    5: "HeaderEntities",
    6: "WrongSchema",
    7: "DuplicateName",
    8: "UnknownEntity",
    9: "AbstractEntity",
    10: "BadComplex",
    11: "WrongCount",
    12: "BadAttribute",
    13: "MissingReference",
    14: "WrongReference",
    15: "RepeatedReference",
    16: "NotUnique",
    17: "InverseCount",
    18: "RuleBroken",
    101: "Syntax",
    102: "NotSupported",
    103: "Repeated",
    104: "UnknownName",
    105: "Cycle",
    106: "BadRedeclaration",
}


class Error(Exception):
    """What this package raises."""


class OutOfMemory(Error, MemoryError):
    """Memory was refused."""


class SchemaFault(Error):
    """The text of a schema, or a rule in it, is refused. str() of it is one line, with the file, the line, the column, the message and the advice.

    kind: the word for what is wrong, such as "Syntax"; at: its place, in bytes from the first byte; file: the name of the schema; line and column: the
    same place, from 1 on; message: what is wrong, in a sentence; advice: what to write instead, empty where that is not known.
    """

    def __init__(self, kind: str, at: int, file="schema", line: Optional[int] = None, column: Optional[int] = None, message="", advice=""):
        place = "" if line is None else ":%d:%d" % (line, column)
        words = " ".join(it for it in (message, advice) if it)
        super().__init__("%s%s: schema fault: %s" % (file, place, words or "%s at %d" % (kind, at)))
        self.kind, self.at, self.line, self.column = kind, at, line, column
        self.file: str = file
        self.message: str = message
        self.advice: str = advice

    def __reduce__(self):
        return SchemaFault, (self.kind, self.at, self.file, self.line, self.column, self.message, self.advice)


class Fault(Error):
    """The first fault of a file.

    kind: the word for what is wrong, such as "BadAttribute"; at: the place, in bytes from the first byte; record, attribute and name: those
    of the instance, counted from 0, and the name that a reference gives, where the kind has them, else None; explanation: what is wrong in words,
    with the line of the file; line and column: where to look, from 1 on.

    Of a fault by a rule of the schema, "NotUnique", "InverseCount" or "RuleBroken", rule is the rule, such as "IfcRoot.UR1"; of the first kind, name is the
    first instance that has the same values; of the second, count is how many refer to the instance. Else rule and count are None.
    """

    def __init__(self, kind, at, record, attribute, name, explanation, rule=None, count=None):
        super().__init__(explanation or "fault: %s at %d" % (kind, at))
        self.kind: str = kind
        self.at: int = at
        self.record = record
        self.attribute = attribute
        self.name = name
        self.explanation: str = explanation
        self.rule: Optional[str] = rule
        self.count: Optional[int] = count
        place = re.search(r":(\d+):(\d+): fault (?:at|\()", explanation)
        self.line, self.column = (int(place[1]), int(place[2])) if place else (None, None)

    def __reduce__(self):
        return Fault, (self.kind, self.at, self.record, self.attribute, self.name, self.explanation, self.rule, self.count)


def schema_fault_of(view, told: dict) -> SchemaFault:
    """The exception of a fault of a schema, with what the library says of it: the advice is what follows the first sentence."""
    message, point, advice = told["message"].partition(". ")
    return SchemaFault(KINDS.get(view.kind, str(view.kind)), view.at, told["file"], told["line"], told["column"], message + point.rstrip(), advice)


def fault_of(view, explanation: str, rule: Optional[str] = None) -> Fault:
    """The exception of a fault that the library tells."""
    kind = view.kind
    return Fault(
        KINDS.get(kind, str(kind)),
        view.at,
        view.record if 11 <= kind <= 15 else None,
        view.attribute if 12 <= kind <= 15 else None,
        view.name if kind in (13, 14, 16) else None,
        explanation,
        rule,
        view.name if kind == 17 else None,
    )
