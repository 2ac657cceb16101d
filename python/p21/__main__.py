"""Checks a file against a schema, as `p21check SCHEMA FILE` does: python -m p21 SCHEMA FILE"""

import argparse
import collections
import os
import signal
import sys
from typing import List, Tuple

from . import __version__
from .errors import KINDS, Fault, OutOfMemory, SchemaFault
from .model import _NO_ENTITY, Model
from .schema import Schema

NUMBERS = {kind: number for number, kind in KINDS.items()}
# A kind of fault of a schema has so much more than its number in the report.
OF_SCHEMA = 100
SCHEMA_BYTES, FILE_BYTES = 1 << 24, 1 << 32
FAULTY, REFUSED, DEVICE, MEMORY = 1, 3, 4, 5
STATUSES = """
Exit status:
  0  the file has no fault
  1  the file has a fault
  2  usage error
  3  the schema was refused
  4  a file could not be opened, read or written, or a limit was exceeded
  5  out of memory
"""


def contents(path: str, limit: int) -> bytes:
    """The bytes of a file, or of standard input for `-`; OSError if it cannot be read, or has more bytes than the limit."""
    with open(0 if path == "-" else path, "rb", closefd=path != "-") as file:
        data = file.read(limit + 1)
    if len(data) > limit:
        raise OSError(0, "a limit was exceeded: at most %d bytes are read" % limit, path)
    return data


def counts(model: Model) -> List[str]:
    """The lines of the report of a file without a fault."""
    of_entity = collections.Counter(model._entities)
    complex_ones = of_entity.pop(_NO_ENTITY, 0)
    for place in (place for place, entity in enumerate(model._entities) if entity == _NO_ENTITY):
        of_entity.update(model._entities_of(place))
    lines = ["schema %s" % model.schema, "instances %d" % len(model), "complex %d" % complex_ones, "references %d" % model.reference_count()]
    return lines + ["%s %d" % it for it in sorted((model._entity_name(entity).upper(), count) for entity, count in of_entity.items())]


def fault_line(fault: Fault) -> str:
    """The line of the report that is a fault."""
    rule = fault.rule.upper() if fault.rule else None
    of_rule = " inverse %s" if fault.kind == "InverseCount" else " rule %s"
    more = ((" rec %d", fault.record), (" attr %d", fault.attribute), (of_rule, rule), (" name #%d", fault.name), (" count %d", fault.count))
    return "fault %d %s at %d%s" % (NUMBERS[fault.kind], fault.kind, fault.at, "".join(text % value for text, value in more if value is not None))


def report(schema: str, file: str, rules: bool = False, mend: bool = False) -> Tuple[int, List[str], str]:
    """The status of a check, by rules too and against a schema that is mended before, where that is wanted; the lines of its report; and an explanation of
    the fault, if there is one."""
    try:
        read = Schema(contents(schema, SCHEMA_BYTES), schema, mend)
        for change in read.changes:
            print("%s:%d:%d: %s" % (schema, *change), file=sys.stderr)
        read._ready(rules)
        with read.read_bytes(contents(file, FILE_BYTES), file, rules) as model:
            return 0, counts(model), ""
    except SchemaFault as fault:
        return REFUSED, ["schema fault %d %s at %d" % (NUMBERS[fault.kind] - OF_SCHEMA, fault.kind, fault.at)], str(fault)
    except Fault as fault:
        return FAULTY, [fault_line(fault)], fault.explanation


def wanted(words: List[str]) -> argparse.Namespace:
    """What the words ask for."""
    parser = argparse.ArgumentParser(prog="python -m p21", description="Reads a STEP file (ISO 10303-21) and checks it against an EXPRESS schema.",
                                     epilog=STATUSES, formatter_class=argparse.RawDescriptionHelpFormatter)
    parser.add_argument("schema", metavar="SCHEMA", help="EXPRESS schema to check against")
    parser.add_argument("file", metavar="FILE", help="STEP file to check; - is standard input")
    parser.add_argument("--rules", action="store_true", help="also check rules UNIQUE and WHERE and INVERSE attributes")
    parser.add_argument("--mend", action="store_true", help="write forms of the schema that are not supported another way with the same meaning")
    parser.add_argument("--version", action="version", version="p21 %s" % __version__)
    return parser.parse_args(words)


def main(words: List[str]) -> int:
    """Prints the report of a file, on a terminal with an explanation of its fault, and gives the status."""
    asked = wanted(words)
    try:
        if asked.schema == "-":
            raise OSError(0, "the schema cannot be standard input")
        status, lines, explanation = report(asked.schema, asked.file, asked.rules, asked.mend)
        sys.stdout.write("".join(it + "\n" for it in lines))
        sys.stdout.flush()
    except BrokenPipeError:
        # What is left to write is let go of, so that Python does not try again at its end.
        os.dup2(os.open(os.devnull, os.O_WRONLY), sys.stdout.fileno())
        return DEVICE
    except OSError as error:
        print("p21: %s%s" % (error.filename + ": " if error.filename else "", error.strerror), file=sys.stderr)
        return DEVICE
    except (OutOfMemory, MemoryError):
        print("p21: out of memory", file=sys.stderr)
        return MEMORY
    if explanation and sys.stderr.isatty():
        print(explanation.rstrip("\n"), file=sys.stderr)
    return status


if __name__ == "__main__":
    signal.signal(signal.SIGINT, signal.SIG_DFL)
    sys.exit(main(sys.argv[1:]))
