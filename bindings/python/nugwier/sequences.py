"""The sections, segments and symbols of a file as sequences, which are read as they are used."""

from __future__ import annotations

from ctypes import byref
from typing import TYPE_CHECKING, Any, Iterator, List, Sequence, TypeVar, overload

from . import _library as c
from .records import Section, Segment, Symbol

if TYPE_CHECKING:
    from .file import ElfFile

_Record = TypeVar("_Record")


class _Headers(Sequence[_Record]):
    """Headers of a file, in order. A call returns an iterator over them."""

    def __init__(self, file: ElfFile, headers: List[_Record]) -> None:
        self._file = file
        self._headers = headers

    def __len__(self) -> int:
        return len(self._headers)

    def __iter__(self) -> Iterator[_Record]:
        for header in self._headers:
            self._file._opened()
            yield header

    def __call__(self) -> Iterator[_Record]:
        return iter(self)


class Segments(_Headers[Segment]):
    """The segments of a file, in order: `file.segments[0]`, `len(file.segments)`, `for segment in file.segments`."""

    @overload
    def __getitem__(self, key: int) -> Segment: ...

    @overload
    def __getitem__(self, key: slice) -> List[Segment]: ...

    def __getitem__(self, key: int | slice) -> Segment | List[Segment]:
        return self._headers[key]


class Sections(_Headers[Section]):
    """The sections of a file, in order: `file.sections[1]`, `file.sections[".text"]`, which is the first one of that
    name, `len(file.sections)`, `for section in file.sections`."""

    @overload
    def __getitem__(self, key: int | str | bytes) -> Section: ...

    @overload
    def __getitem__(self, key: slice) -> List[Section]: ...

    def __getitem__(self, key: int | str | bytes | slice) -> Section | List[Section]:
        if not isinstance(key, (str, bytes)):
            return self._headers[key]
        found = self.get(key)
        if found is None:
            raise KeyError(key)
        return found

    def get(self, name: str | bytes) -> Section | None:
        """The first section with a name, or None."""
        wanted = name if isinstance(name, str) else c.to_text(name)
        return next((section for section in self if section.name == wanted), None)


class Symbols(Sequence[Symbol]):
    """The symbols of a table, in order: `file.symbols[1]`, `len(file.symbols)`, `for symbol in file.symbols`."""

    def __init__(self, file: ElfFile, table: Any) -> None:
        self._file = file
        self._table = table

    def __len__(self) -> int:
        self._file._opened()
        return int(c.library().nugwier_symbol_count(byref(self._table.symbols))) if self._table.found else 0

    @overload
    def __getitem__(self, key: int) -> Symbol: ...

    @overload
    def __getitem__(self, key: slice) -> List[Symbol]: ...

    def __getitem__(self, key: int | slice) -> Symbol | List[Symbol]:
        if isinstance(key, slice):
            return list(self)[key]
        index = range(len(self))[key]
        raw = c.Symbol()
        c.call("symbol", byref(self._table.symbols), index, byref(raw))
        return self._file._symbol(self._table, index, raw)

    def __iter__(self) -> Iterator[Symbol]:
        return self._file._each_symbol(self._table)

    def __call__(self, dynamic: bool = False) -> Iterator[Symbol]:
        """The symbols of the file: those for dynamic linking, if `dynamic`."""
        return iter(self._file.dynamic_symbols if dynamic else self)

    def named(self, name: str | bytes) -> List[Symbol]:
        """The symbols with a name. `ElfFile.find` finds one of those for dynamic linking by the hash section."""
        wanted = name if isinstance(name, str) else c.to_text(name)
        return [symbol for symbol in self if symbol.name == wanted]
