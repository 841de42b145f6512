"""The versions of symbols."""

from __future__ import annotations

from ctypes import byref, c_bool
from typing import Any

from . import _library as c
from .records import Version

_VER_FLG_BASE = 1


class Versions:
    """The versions of the symbols of a file. Each is read at the first symbol that has it."""

    def __init__(self, table: Any) -> None:
        self._table = table
        # the two bytes of each symbol, by which its version is known again
        self._marks = c.copy_of(table.indexes) if table.found else b""
        self._known: dict[bytes, Version | None] = {}

    def of(self, symbol: int) -> Version | None:
        """The version of a symbol, or None if it has none or it cannot be read. The file's own name is no version."""
        mark = self._marks[2 * symbol:2 * symbol + 2]
        if mark not in self._known:
            try:
                self._known[mark] = self._read(symbol) if self._table.found else None
            except c.ElfError:
                self._known[mark] = None
        return self._known[mark]

    def _read(self, symbol: int) -> Version | None:
        found = c.VersionIndex()
        c.call("version_index", byref(self._table), symbol, byref(found))
        if found.index < 2:
            return None
        definition = c.Definition()
        c.call("definition", byref(self._table), symbol, byref(definition))
        if definition.found:
            return None if definition.flags & _VER_FLG_BASE else self._defined(definition)
        needed = c.Requirement()
        c.call("requirement", byref(self._table), symbol, byref(needed))
        if not needed.found:
            return None
        name, file = c.copy(needed.name, needed.name_len), c.copy(needed.file, needed.file_len)
        return Version(c.to_text(name), c.to_text(file), needed.hidden)

    def _defined(self, definition: Any) -> Version | None:
        """The version with the first name of a definition."""
        found, name = c_bool(False), c.Bytes()
        c.call("version_name", byref(definition.names), byref(found), byref(name))
        return Version(c.to_text(c.copy_of(name)), None, definition.hidden) if found.value else None
