"""Checks files that a worker holds whole, by libp21 and the package over it, so that a schema is read once and no program is started for a file."""

from __future__ import annotations

import importlib
import os
import sys
from typing import Dict

from .model import FAULTY, READ, WRONG_SCHEMA, Finding, Untried, explain

FOLDER, LIBRARY, PACKAGE = 'base', 'base/libp21.so', 'base/p21'


class Library:
    """libp21, and the schemas that were read so far by their paths."""

    def __init__(self):
        os.environ['P21_LIBRARY'] = os.path.abspath(LIBRARY)
        sys.path.insert(0, os.path.abspath(FOLDER))
        self._p21 = importlib.import_module('p21')
        self._schemas: Dict[str, object] = {}

    def _schema(self, path: str):
        """The schema of a path."""
        if path not in self._schemas:
            self._schemas[path] = self._p21.Schema.open(path)
        return self._schemas[path]

    def tell(self, finding: Finding, path: str, data: bytes) -> bool:
        """Puts what is the matter with the bytes of a file into a finding, by the schema of a path, and says whether that is not refused; Untried where it
        cannot be said."""
        try:
            with self._schema(path).read_bytes(data, '-') as model:
                finding.instances, finding.references = len(model), model.reference_count()
                finding.status = READ
        except self._p21.SchemaFault:
            if not finding.schema:
                raise Untried.no_schema_name() from None
            return False
        except self._p21.Fault as fault:
            if fault.kind == WRONG_SCHEMA and not finding.schema:
                raise Untried.no_schema_name() from None
            finding.status, finding.kind, finding.place = FAULTY, fault.kind, fault.at
            explain([finding], fault.explanation)
        except self._p21.OutOfMemory:
            raise Untried('Memory', 'Memory was refused.') from None
        return True
