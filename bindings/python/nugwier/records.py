"""What a file is made of: named tuples of the numbers of the file, with the names of the standard for these."""

from __future__ import annotations

from typing import TYPE_CHECKING, Iterator, NamedTuple

from . import _library as c
from .constants import STB, STT, STV
from .faults import FaultKind, Part
from .notes import Note
from .values import Values

if TYPE_CHECKING:
    from .file import ElfFile
    from .sequences import Symbols


class Version(NamedTuple):
    """The version of a symbol. `file` is the library that defines a needed version, or None if this file defines it.
    A reference without a version binds to a symbol whose version is defined and not hidden."""

    name: str
    file: str | None
    hidden: bool

    @property
    def is_default(self) -> bool:
        return self.file is None and not self.hidden


class Symbol(NamedTuple):
    """A symbol. `name` is None if it cannot be read.

        >>> with nugwier.open("/bin/sh") as file:
        ...     symbol = next(symbol for symbol in file.dynamic_symbols if symbol.name == "malloc")
        >>> symbol.type, symbol.bind, symbol.is_defined
        (<STT.STT_FUNC: 2>, <STB.STB_GLOBAL: 1>, False)
        >>> symbol.full_name, symbol.version.file
        ('malloc@GLIBC_2.2.5', 'libc.so.6')
    """

    index: int  # type: ignore[assignment]  # it hides a method of tuple
    name: str | None
    info: int
    other: int
    shndx: int
    value: int
    size: int
    version: Version | None = None

    @property
    def name_bytes(self) -> bytes | None:
        return None if self.name is None else c.to_bytes(self.name)

    @property
    def type(self) -> STT:
        return STT(self.info & 15)

    @property
    def bind(self) -> STB:
        return STB(self.info >> 4)

    @property
    def visibility(self) -> STV:
        return STV(self.other & 3)

    @property
    def is_defined(self) -> bool:
        return self.shndx != 0

    @property
    def full_name(self) -> str | None:
        """The name with the version, after `@@` if that is the default one and else after `@`."""
        if self.name is None or self.version is None:
            return self.name
        return self.name + ("@@" if self.version.is_default else "@") + self.version.name


class Nearest(NamedTuple):
    """The last symbol that starts at an address or before it, how many bytes before, and whether it reaches past it."""

    symbol: Symbol
    distance: int
    is_inside: bool


class Relocation(NamedTuple):
    """A relocation. `type` has the names of the machine, as `R_X86_64.R_X86_64_RELATIVE`; of a 64-bit file of MIPS it
    is the number that holds three types. `addend` is None if it lies at the place that is relocated, and `symbol` if
    there is none (index 0) or it cannot be read."""

    index: int  # type: ignore[assignment]  # it hides a method of tuple
    offset: int
    type: Values
    addend: int | None
    symbol_index: int
    symbol: Symbol | None


class DynamicEntry(NamedTuple):
    """A dynamic entry. `text` is its string, if its tag names one that can be read."""

    index: int  # type: ignore[assignment]  # it hides a method of tuple
    tag: Values
    value: int
    text: str | None

    @property
    def text_bytes(self) -> bytes | None:
        return None if self.text is None else c.to_bytes(self.text)


class Compression(NamedTuple):
    """What a compression header says: how the bytes are compressed, and their size and alignment when they are not."""

    kind: int
    size: int
    addralign: int


class _Section(NamedTuple):
    index: int  # type: ignore[assignment]  # it hides a method of tuple
    name: str | None
    kind: int
    flags: int
    addr: int
    offset: int
    size: int
    link: int
    info: int
    addralign: int
    entsize: int


class Section(_Section):
    """A section header with its name, which is None if it cannot be read, and the way to the content of the section.

        >>> with nugwier.open("/bin/sh") as file:
        ...     section = file[".interp"]
        ...     print(section.type, section.data())
        SHT_PROGBITS b'/lib64/ld-linux-x86-64.so.2\\x00'
        >>> SHF.SHF_ALLOC in SHF(section.flags)
        True
    """

    type: Values
    _file: ElfFile

    @property
    def name_bytes(self) -> bytes | None:
        return None if self.name is None else c.to_bytes(self.name)

    def data(self) -> bytes:
        """The bytes, after the compression header if there is one: nothing is decompressed. A section of type
        SHT_NOBITS has none."""
        return c.copy_of(self._file._part("section_data", self, c.Data))

    @property
    def compression(self) -> Compression | None:
        part = self._file._part("section_data", self, c.Data).compression
        return Compression(part.kind, part.size, part.addralign) if part.compressed else None

    @property
    def linked(self) -> Section | None:
        """The section of index `link`: of symbols and dynamic entries their strings, of relocations their symbols."""
        return self._file.sections[self.link] if 0 < self.link < len(self._file.sections) else None

    def symbols(self) -> Symbols:
        """The symbols of a section of type SHT_SYMTAB or SHT_DYNSYM."""
        return self._file._symbols_in(self)

    def relocations(self) -> Iterator[Relocation]:
        """The relocations of a section of type SHT_RELA or SHT_REL, in order."""
        return self._file._relocations_in(self)

    def notes(self) -> Iterator[Note]:
        """The notes of a section of type SHT_NOTE, in order."""
        return self._file._notes("section", self)


class _Segment(NamedTuple):
    index: int  # type: ignore[assignment]  # it hides a method of tuple
    kind: int
    flags: int
    offset: int
    vaddr: int
    paddr: int
    filesz: int
    memsz: int
    align: int


class Segment(_Segment):
    """A program header, and the way to the content of the segment.

        >>> with nugwier.open("/bin/sh") as file:
        ...     [f"{segment.vaddr:#x}" for segment in file.segments if segment.type == PT.PT_PHDR]
        ['0x40']
    """

    type: Values
    _file: ElfFile

    def data(self) -> bytes:
        """The bytes in the file."""
        return c.copy_of(self._file._part("segment_data", self, c.Bytes))

    def notes(self) -> Iterator[Note]:
        """The notes of a segment of type PT_NOTE, in order."""
        return self._file._notes("segment", self)


class Fault(NamedTuple):
    """A fault of a file. `section` or `segment` is the index of the one at fault, if one is; `first` and `second` are
    the numbers of the kind, as nugwier.h says; `text` says what is wrong.

        Fault(kind=FaultKind.SECTION_NO_BYTES, part=Part.SECTION, section=5, segment=None, first=0, second=0,
              text="section 5: no bytes at its range")
    """

    kind: FaultKind
    part: Part
    section: int | None
    segment: int | None
    first: int
    second: int
    text: str
