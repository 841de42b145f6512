"""Reads ELF files by the proved library Nugwier, through ctypes.

    with nugwier.open("/lib/x86_64-linux-gnu/libc.so.6") as file:
        for section in file.sections:
            print(section.name, section.size)
        print(file.find("printf"))

The library is that at the path in NUGWIER_LIBRARY, else libnugwier.so.0 beside this file, else libnugwier.so of
bindings/c, else the libnugwier.so.0 that is installed. What is proved are the functions of that library. This package
is not; it passes what they ask for: buffers that live as long as they are used, and zeroed structs.
"""

from __future__ import annotations

from . import constants
from ._library import ElfError
from .constants import DF, DF_1, DT, ELFOSABI, EM, ET, PF, PT, SHF, SHN, SHT, STB, STT, STV
from .faults import FaultKind, Part
from .file import ElfFile
from .notes import AbiTag, Note, Property
from .records import Compression, DynamicEntry, Fault, Nearest, Relocation, Section, Segment, Symbol, Version
from .sequences import Sections, Segments, Symbols
from .source import Source

__all__ = [
    "DF", "DF_1", "DT", "ELFOSABI", "EM", "ET", "PF", "PT", "SHF", "SHN", "SHT", "STB", "STT", "STV", "AbiTag",
    "Compression", "DynamicEntry", "ElfError", "ElfFile", "Fault", "FaultKind", "Nearest", "Note", "Part", "Property",
    "Relocation", "Section", "Sections", "Segment", "Segments", "Symbol", "Symbols", "Version", "constants", "open",
]


def open(source: Source) -> ElfFile:
    """Opens a file: a path, bytes, or a file object. Use it in a `with`, or call `close`."""
    return ElfFile(source)
