"""A file that was opened."""

from __future__ import annotations

import ctypes
from ctypes import byref
from typing import Any, Callable, Iterator, List, Tuple

from . import _library as c
from .constants import DT, ELFOSABI, EM, ET, PT, RELOCATION_TYPES, SECTION_TYPES, SEGMENT_TYPES, SHT, TAGS
from .faults import FaultKind, Part
from .notes import Note, note_of
from .records import DynamicEntry, Fault, Nearest, Relocation, Section, Segment, Symbol, Version
from .sequences import Sections, Segments, Symbols
from .source import Source, opened_source
from .values import Values, named
from .versions import Versions

# How many records a call writes at first, and at most.
_FIRST_ROOM = 64
_ROOM = 4096
# The tags whose value is a string.
_STRINGS = {
    DT.DT_NEEDED, DT.DT_SONAME, DT.DT_RPATH, DT.DT_RUNPATH, DT.DT_AUXILIARY, DT.DT_FILTER, DT.DT_CONFIG,
    DT.DT_DEPAUDIT, DT.DT_AUDIT,
}


class ElfFile:
    """A file that was opened, by `nugwier.open`. What it returns are copies, which may be used after `close`. Sequences
    and iterators raise ValueError then, and so do the methods of sections and segments, which read the file.

        >>> with nugwier.open("/bin/sh") as file:
        ...     print(file.type, file.machine, file.elfclass, file.little_endian)
        ...     print(file.interpreter, file.needed, file.soname, file.check())
        ...     print(file[".text"].type, ".no.such.section" in file)
        ET_DYN EM_X86_64 64 True
        /lib64/ld-linux-x86-64.so.2 ['libc.so.6'] None None
        SHT_PROGBITS False
    """

    def __init__(self, source: Source) -> None:
        c.library()
        self._file: Any = None
        self._sections: Sections | None = None
        self._segments: Segments | None = None
        self._tables: dict[bool, Any] = {}
        self._versions: Versions | None = None
        self._looked_up: Any = None
        self._source = opened_source(source)
        try:
            self._file = self._source.open()
        except BaseException:
            self._source.close()
            raise

    def __enter__(self) -> ElfFile:
        return self

    def __exit__(self, *_: object) -> None:
        self.close()

    def close(self) -> None:
        self._file = None
        self._source.close()

    # ---- calls

    def _opened(self) -> Any:
        if self._file is None:
            raise ValueError("the file is closed")
        return byref(self._file)

    def _call(self, name: str, *arguments: Any) -> None:
        """A call whose first parameter is the file. The ranges that it needs are loaded first."""
        while True:
            try:
                return c.call(name, self._opened(), *arguments)
            except c.ElfError as error:
                if error.code != c.NOT_LOADED:
                    raise
                self._source.load(self._file, error.first, error.second)

    def _lots(self, name: str, record: Any, table: Any, first: int = 0, *strings: Any) -> Iterator[Tuple[int, Any]]:
        """The records of a table from number `first` on, up to the first that cannot be read, as tuples of their
        numbers: in lots, each with the number of its first record."""
        form, room = c.layout(record), _FIRST_ROOM
        while True:
            self._opened()
            places = (record * room)()
            count = getattr(c.library(), "nugwier_" + name)(byref(table), *strings, first, places, room)
            if count == 0:
                return
            yield first, form.iter_unpack(ctypes.string_at(places, count * form.size))
            first += count
            room = min(4 * room, _ROOM)

    def _string(self, strings: Any, length: int, offset: int) -> str:
        self._opened()
        found = c.Bytes()
        c.call("string", strings, length, offset, byref(found))
        return c.to_text(c.copy_of(found))

    def _string_or_none(self, strings: Any, length: int, offset: int) -> str | None:
        try:
            return self._string(strings, length, offset)
        except c.ElfError:
            return None

    def _part(self, name: str, header: Section | Segment, kind: Any) -> Any:
        """What a call returns of a section or of a segment."""
        raw = c.Section() if isinstance(header, Section) else c.Segment()
        self._call("section" if isinstance(header, Section) else "segment", header.index, byref(raw))
        part = kind()
        self._call(name, byref(raw), byref(part))
        return part

    # ---- the header

    @property
    def header(self) -> dict[str, int]:
        """The fields of the file header by name."""
        self._opened()
        return {name: getattr(self._file.header, name) for name, _ in c.Header._fields_}

    @property
    def type(self) -> ET:
        self._opened()
        return ET(self._file.header.kind)

    @property
    def machine(self) -> EM:
        self._opened()
        return EM(self._file.header.machine)

    @property
    def osabi(self) -> ELFOSABI:
        self._opened()
        return ELFOSABI(self._file.header.osabi)

    @property
    def entry(self) -> int:
        """The address at which a program starts."""
        return self.header["entry"]

    @property
    def elfclass(self) -> int:
        """32 or 64."""
        return 64 if self.header["is_64"] else 32

    @property
    def little_endian(self) -> bool:
        return bool(self.header["little"])

    # ---- sections and segments

    @property
    def sections(self) -> Sections:
        """The sections in order. `file.sections()` is an iterator."""
        self._opened()
        if self._sections is None:
            self._sections = Sections(self, list(self._each_section()))
        return self._sections

    def _each_section(self) -> Iterator[Section]:
        if not self._file.has_sections:
            return
        names, types = c.Names(), SECTION_TYPES.get(self.machine)
        self._call("section_names", byref(names))
        for first, lot in self._lots("sections", c.Section, self._file.sections):
            for index, (offset, *fields) in enumerate(lot, first):
                name = self._string_or_none(names.strings, names.strings_len, offset) if names.found else None
                section = Section._make((index, name, *fields))
                section.type, section._file = named(SHT, types, section.kind), self
                yield section

    @property
    def segments(self) -> Segments:
        """The segments in order. `file.segments()` is an iterator."""
        self._opened()
        if self._segments is None:
            self._segments = Segments(self, list(self._each_segment()))
        return self._segments

    def _each_segment(self) -> Iterator[Segment]:
        if not self._file.has_segments:
            return
        types = SEGMENT_TYPES.get(self.machine)
        for first, lot in self._lots("segments", c.Segment, self._file.segments):
            for index, fields in enumerate(lot, first):
                segment = Segment._make((index, *fields))
                segment.type, segment._file = named(PT, types, segment.kind), self
                yield segment

    def __getitem__(self, key: str | bytes | int) -> Section:
        """The first section with a name, or the section of an index."""
        return self.sections[key]

    def __iter__(self) -> Iterator[Section]:
        return iter(self.sections)

    def __contains__(self, key: object) -> bool:
        """Whether there is a section with a name, or this section."""
        return self.sections.get(key) is not None if isinstance(key, (str, bytes)) else key in list(self.sections)

    def get(self, name: str | bytes) -> Section | None:
        """The first section with a name, or None."""
        return self.sections.get(name)

    def section_data(self, name: str | bytes) -> bytes | None:
        """The bytes of the first section with a name, after its compression header if it has one, or None."""
        section = self.get(name)
        return None if section is None else section.data()

    def _of_type(self, kind: int) -> Section | None:
        return next((section for section in self.sections if section.kind == kind), None)

    @property
    def interpreter(self) -> str | None:
        """The program that starts this one, by the segment PT_INTERP."""
        for segment in self.segments:
            if segment.kind == PT.PT_INTERP:
                return c.to_text(segment.data().partition(b"\0")[0])
        return None

    # ---- symbols

    @property
    def symbols(self) -> Symbols:
        """All symbols, of the section SHT_SYMTAB. `file.symbols()` is an iterator, `file.symbols(dynamic=True)` one
        over `dynamic_symbols`."""
        return Symbols(self, self._table(False))

    @property
    def dynamic_symbols(self) -> Symbols:
        """The symbols for dynamic linking, of the section SHT_DYNSYM, with their versions."""
        return Symbols(self, self._table(True))

    def _table(self, dynamic: bool) -> Any:
        self._opened()
        if dynamic not in self._tables:
            table = c.Symbols()
            self._call("symbol_table", dynamic, byref(table))
            table.dynamic = dynamic
            self._tables[dynamic] = table
        return self._tables[dynamic]

    def _symbols_in(self, section: Section) -> Symbols:
        """The symbols in a section."""
        table, data, strings = c.Symbols(), self._part("section_data", section, c.Data), c.Bytes()
        if section.linked is not None:
            strings = self._part("section_strings", section.linked, c.Bytes)
        header = self._file.header
        table.found, table.dynamic = True, section.kind == SHT.SHT_DYNSYM
        table.symbols = c.Table(header.little, header.is_64, data.bytes, data.bytes_len)
        table.strings, table.strings_len = strings.bytes, strings.bytes_len
        return Symbols(self, table)

    def _versions_of(self, table: Any) -> Callable[[int], Version | None] | None:
        """What gives the version of a symbol, if the table has versions."""
        if table.dynamic and self._versions is None:
            found = c.Versions()
            self._call("version_table", byref(found))
            self._versions = Versions(found)
        return self._versions.of if table.dynamic and self._versions else None

    def _symbol(self, table: Any, index: int, raw: Any) -> Symbol:
        name, version_of = self._string_or_none(table.strings, table.strings_len, raw.name), self._versions_of(table)
        return Symbol(index, name, raw.info, raw.other, raw.shndx, raw.value, raw.size,
                      version_of(index) if version_of else None)

    def _each_symbol(self, table: Any) -> Iterator[Symbol]:
        """The symbols of a table. A call for many ends before one whose name cannot be read."""
        index, raw = 0, c.Symbol()
        while table.found:
            for symbol in self._named_symbols(table, index):
                yield symbol
                index += 1
            self._opened()
            try:
                c.call("symbol", byref(table.symbols), index, byref(raw))
            except c.ElfError:
                return
            yield self._symbol(table, index, raw)
            index += 1

    def _named_symbols(self, table: Any, index: int) -> Iterator[Symbol]:
        strings: Any = (ctypes.c_char * table.strings_len).from_address(table.strings) if table.strings_len else b""
        make, version_of, version = tuple.__new__, self._versions_of(table), None
        for _, lot in self._lots("named_symbols", c.NamedSymbol, table.symbols, index, table.strings,
                                 table.strings_len):
            for start, info, other, shndx, value, size, _, length in lot:
                if self._file is None:
                    self._opened()
                name = strings[start:start + length].decode("utf-8", "surrogateescape") if length else ""
                if version_of:
                    version = version_of(index)
                yield make(Symbol, (index, name, info, other, shndx, value, size, version))
                index += 1

    def address(self, address: int) -> Nearest | None:
        """The last symbol that starts at an address or before it, among the objects and functions that this file
        defines; or None. They are those of `symbols`, or of `dynamic_symbols` if there are no others. Each call looks
        at all of them.

            >>> with nugwier.open("/lib/x86_64-linux-gnu/libc.so.6") as file:
            ...     printf = file.find("printf")
            ...     found = file.address(printf.value + 5)
            >>> found.symbol.name, found.distance, found.is_inside
            ('printf', 5, True)
        """
        table = self._table(dynamic=len(self.symbols) == 0)
        found = c.Found()
        if address >= 0:
            c.library().nugwier_symbol_at(byref(table.symbols), min(address, 2**64 - 1), byref(found))
        if not found.found:
            return None
        distance = address - found.symbol.value
        return Nearest(self._symbol(table, found.index, found.symbol), distance, distance < found.symbol.size)

    # ---- relocations

    def relocations(self) -> Iterator[Relocation]:
        """The relocations of all sections of types SHT_RELA and SHT_REL, in order."""
        for section in self.sections:
            if section.kind in (SHT.SHT_RELA, SHT.SHT_REL):
                yield from section.relocations()

    def _relocations_in(self, section: Section) -> Iterator[Relocation]:
        has_addends = section.kind != SHT.SHT_REL
        table = self._part("section_relas" if has_addends else "section_rels", section, c.Table)
        types = RELOCATION_TYPES.get(self.machine)
        known: dict[int, Values] = {}
        symbols: List[Symbol] | None = None
        for first, lot in self._lots(*(("relas", c.Rela) if has_addends else ("rels", c.Rel)), table):
            for index, fields in enumerate(lot, first):
                offset, addend, of, kind = fields if has_addends else (fields[0], None, fields[1], fields[2])
                self._opened()
                if of and symbols is None:
                    symbols = self._linked_symbols(section)
                if kind not in known:
                    known[kind] = named(None, types, kind)
                symbol = symbols[of] if symbols and 0 < of < len(symbols) else None
                yield Relocation(index, offset, known[kind], addend, of, symbol)

    def _linked_symbols(self, section: Section) -> List[Symbol]:
        """The symbols that a section of relocations names, or none if they cannot be read."""
        linked = section.linked
        if linked is None or linked.kind not in (SHT.SHT_SYMTAB, SHT.SHT_DYNSYM):
            return []
        try:
            return list(linked.symbols())
        except c.ElfError:
            return []

    # ---- dynamic entries

    def dynamic(self) -> Iterator[DynamicEntry]:
        """The dynamic entries, up to the first DT_NULL.

            >>> with nugwier.open("/bin/sh") as file:
            ...     print([entry.text for entry in file.dynamic() if entry.tag == DT.DT_NEEDED])
            ['libc.so.6']
        """
        table, names, tags = c.Dynamics(), c.DynamicNames(), TAGS.get(self.machine)
        self._call("dynamic_table", byref(table))
        try:
            self._call("dynamic_names", byref(names))
        except c.ElfError:
            pass  # the strings are missing, and the entries are there
        for first, lot in self._lots("dynamics", c.Dynamic, table.entries) if table.found else ():
            for index, (tag, value) in enumerate(lot, first):
                self._opened()
                is_string = names.found and tag in _STRINGS
                text = self._string_or_none(names.strings, names.strings_len, value) if is_string else None
                yield DynamicEntry(index, named(DT, tags, tag), value, text)
                if tag == DT.DT_NULL:
                    return

    def _dynamic_names(self) -> Any:
        names = c.DynamicNames()
        self._call("dynamic_names", byref(names))
        return names

    def _dynamic_name(self, call: str) -> str | None:
        names, name = self._dynamic_names(), c.FoundBytes()
        c.call(call, byref(names), byref(name))
        return c.to_text(c.copy_of(name)) if name.found else None

    @property
    def needed(self) -> List[str]:
        """The libraries that are needed (DT_NEEDED), in order. A name that cannot be read is an error."""
        names, place, library = self._dynamic_names(), ctypes.c_size_t(0), c.Needed()
        needed: List[str] = []
        while True:
            c.call("needed", byref(names), byref(place), byref(library))
            if not library.found:
                return needed
            if library.tag == DT.DT_NEEDED:
                needed.append(c.to_text(c.copy(library.name, library.name_len)))

    @property
    def soname(self) -> str | None:
        """The name of this library for those that need it (DT_SONAME)."""
        return self._dynamic_name("soname")

    @property
    def rpath(self) -> str | None:
        """Where libraries are looked for (DT_RPATH), unless there is a `runpath`."""
        return self._dynamic_name("rpath")

    @property
    def runpath(self) -> str | None:
        """Where libraries are looked for (DT_RUNPATH)."""
        return self._dynamic_name("runpath")

    # ---- notes

    def notes(self) -> Iterator[Note]:
        """The notes of all sections of type SHT_NOTE, or in a file without sections of all segments of type PT_NOTE."""
        if len(self.sections):
            for section in self.sections:
                if section.kind == SHT.SHT_NOTE:
                    yield from section.notes()
        else:
            for segment in self.segments:
                if segment.kind == PT.PT_NOTE:
                    yield from segment.notes()

    def _notes(self, part: str, header: Section | Segment) -> Iterator[Note]:
        notes, offset = self._part(part + "_notes", header, c.Notes), ctypes.c_size_t(0)
        places = (c.Note * _FIRST_ROOM)()
        while True:
            self._opened()
            count = c.library().nugwier_note_list(byref(notes), byref(offset), places, _FIRST_ROOM)
            if count == 0:
                return
            # copies, since the places are written again
            yield from [note_of(raw, self._file.header) for raw in places[:count]]

    @property
    def build_id(self) -> str | None:
        """The build id as hexadecimal digits: the first among the notes of the segments, and then of the sections.

            >>> with nugwier.open("/bin/sh") as file:
            ...     print(len(file.build_id))
            40
        """
        found = c.FoundBytes()
        self._call("build_id", byref(found))
        return c.copy_of(found).hex() if found.found else None

    # ---- hash sections

    def _hash_section(self) -> Any:
        for gnu, kind in ((True, SHT.SHT_GNU_HASH), (False, SHT.SHT_HASH)):
            section = self._of_type(kind)
            if section is not None:
                return gnu, self._part("section_data", section, c.Data)
        return None

    def _look_up_table(self) -> Any:
        """The dynamic symbols and the opened hash section, which are found at the first look-up, or None."""
        if self._looked_up is None:
            table, section = self._table(True), self._hash_section()
            if not table.found or section is None:
                return None
            gnu, part = section
            word, opened = ("gnu", c.Gnu()) if gnu else ("sysv", c.Sysv())
            header = self._file.header
            c.call(word + "_open", header.little, header.is_64, part.bytes, part.bytes_len, byref(opened))
            self._looked_up = table, word, opened
        return self._looked_up

    def find(self, name: str | bytes) -> Symbol | None:
        """The dynamic symbol of a name by the file's hash section, or None.

            >>> with nugwier.open("/lib/x86_64-linux-gnu/libc.so.6") as file:
            ...     print(file.find("printf").type, file.find("no such name"))
            STT_FUNC None
        """
        self._opened()
        looked_up = self._look_up_table()
        if looked_up is None:
            return None
        table, word, opened = looked_up
        found = c.Found()
        c.call(word + "_look_up", byref(opened), byref(table.symbols), table.strings, table.strings_len,
               *c.given(c.to_bytes(name)), byref(found))
        return self._symbol(table, found.index, found.symbol) if found.found else None

    def hash_check(self) -> Tuple[bool, int] | None:
        """Whether the hash section is sound for the dynamic symbols, and how many it indexes; None if there is none."""
        table, section = self._table(True), self._hash_section()
        if not table.found or section is None:
            return None
        gnu, part = section
        verdict = c.Verdict()
        c.call("hash_check", gnu, part.bytes, part.bytes_len, byref(table.symbols), table.strings, table.strings_len,
               byref(verdict))
        return verdict.sound, verdict.indexed

    # ---- the check

    def check(self) -> Fault | None:
        """The first fault of the file, or None if it is sound: if what its headers declare can be read.

            >>> with nugwier.open("/bin/sh") as file:
            ...     fault = file.check()
            >>> print(fault.text if fault else "sound")
            sound
        """
        raw, sound = c.Fault(), ctypes.c_bool(False)
        self._call("check", byref(sound), byref(raw))
        return None if sound.value else self._fault(raw)

    def faults(self) -> list[Fault]:
        """All faults of the file, none if it is sound: the first one of each part that is not.

            >>> with nugwier.open("/bin/sh") as file:
            ...     file.faults()
            []
        """
        count, room = ctypes.c_size_t(0), 16
        while True:
            places = (c.Fault * room)()
            self._call("faults", places, room, byref(count))
            if count.value < room:
                return [self._fault(raw) for raw in places[:count.value]]
            room *= 2

    @staticmethod
    def _fault(raw: c.Fault) -> Fault:
        part = Part(raw.part)
        return Fault(FaultKind(raw.kind), part, raw.index if part is Part.SECTION else None,
                     raw.index if part is Part.SEGMENT else None, raw.first, raw.second, c.text_of("fault_text", raw))
