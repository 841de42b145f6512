"""The library by ctypes: its structs, its calls and its errors."""

from __future__ import annotations

import ctypes
import os
import struct
from ctypes import POINTER, byref, c_bool, c_int64, c_size_t, c_uint8, c_uint16, c_uint32, c_uint64, c_void_p
from pathlib import Path
from typing import Any, Tuple

_ERRORS = {
    1: "BadMagic", 2: "UnsupportedElfClass", 3: "UnsupportedElfEndianness", 4: "UnsupportedVersion", 5: "BadOffset",
    6: "StringTableMissingNul", 7: "BadEntsize", 8: "UnexpectedSectionType", 9: "UnexpectedSegmentType",
    10: "UnexpectedAlignment", 11: "SliceReadError", 12: "IntegerOverflow", 13: "Utf8Error", 18: "NotLoaded",
    19: "NoAddress", 20: "NoSize", 21: "NoSegment",
}
NOT_LOADED = 18


class ElfError(Exception):
    """An error of the library. `code` is that of nugwier.h, `kind` its name, `first` and `second` are the numbers that
    belong to it, and the text is that of the library."""

    code: int
    kind: str
    first: int
    second: int

    def __init__(self, status: Any) -> None:
        self.code = status.code
        self.kind = _ERRORS.get(status.code, str(status.code))
        self.first = status.first
        self.second = status.second
        super().__init__(text_of("error_text", status))


def text_of(name: str, of: Any) -> str:
    """The text that a call writes of an error or of a fault: all of them are shorter than this room."""
    room = 256
    text = ctypes.create_string_buffer(room)
    length = getattr(library(), "nugwier_" + name)(byref(of), text, room)
    return text.raw[:length].decode()


def _struct(name: str, *fields: Any) -> Any:
    return type(name, (ctypes.Structure,), {"_fields_": list(fields)})


def _bytes(name: str) -> Any:
    return (name, c_void_p), (name + "_len", c_size_t)


Status = _struct("Status", ("code", c_uint32), ("first", c_uint64), ("second", c_uint64))
Bytes = _struct("Bytes", *_bytes("bytes"))
Table = _struct("Table", ("little", c_bool), ("is_64", c_bool), *_bytes("bytes"))
Header = _struct(
    "Header", ("little", c_bool), ("is_64", c_bool), ("osabi", c_uint8), ("abiversion", c_uint8), ("version", c_uint32),
    ("kind", c_uint16), ("machine", c_uint16), ("flags", c_uint32), ("entry", c_uint64), ("phoff", c_uint64),
    ("shoff", c_uint64), ("ehsize", c_uint16), ("phentsize", c_uint16), ("phnum", c_uint16), ("shentsize", c_uint16),
    ("shnum", c_uint16), ("shstrndx", c_uint16))
Range = _struct("Range", ("start", c_uint64), *_bytes("bytes"))
File = _struct("File", ("header", Header), ("size", c_uint64), *_bytes("bytes"), *_bytes("ranges"),
               ("has_sections", c_bool), ("has_segments", c_bool), ("sections", Table), ("segments", Table))
Section = _struct(
    "Section", ("name", c_uint32), ("kind", c_uint32), ("flags", c_uint64), ("addr", c_uint64), ("offset", c_uint64),
    ("size", c_uint64), ("link", c_uint32), ("info", c_uint32), ("addralign", c_uint64), ("entsize", c_uint64))
Segment = _struct(
    "Segment", ("kind", c_uint32), ("flags", c_uint32), ("offset", c_uint64), ("vaddr", c_uint64), ("paddr", c_uint64),
    ("filesz", c_uint64), ("memsz", c_uint64), ("align", c_uint64))
Symbol = _struct("Symbol", ("name", c_uint32), ("info", c_uint8), ("other", c_uint8), ("shndx", c_uint16),
                 ("value", c_uint64), ("size", c_uint64))
NamedSymbol = _struct("NamedSymbol", ("symbol", Symbol), *_bytes("name"))
Rel = _struct("Rel", ("offset", c_uint64), ("symbol", c_uint32), ("kind", c_uint32))
Rela = _struct("Rela", ("offset", c_uint64), ("addend", c_int64), ("symbol", c_uint32), ("kind", c_uint32))
Dynamic = _struct("Dynamic", ("tag", c_int64), ("value", c_uint64))
Compression = _struct("Compression", ("compressed", c_bool), ("kind", c_uint32), ("size", c_uint64),
                      ("addralign", c_uint64))
Data = _struct("Data", *_bytes("bytes"), ("compression", Compression))
Notes = _struct("Notes", ("little", c_bool), ("align", c_size_t), *_bytes("bytes"))
AbiTag = _struct("AbiTag", ("os", c_uint32), ("major", c_uint32), ("minor", c_uint32), ("subminor", c_uint32))
Note = _struct("Note", ("kind", c_uint32), ("tag", AbiTag), ("n_type", c_uint64), *_bytes("name"), *_bytes("desc"))
Symbols = _struct("Symbols", ("found", c_bool), ("symbols", Table), *_bytes("strings"))
Dynamics = _struct("Dynamics", ("found", c_bool), ("entries", Table))
FoundBytes = _struct("FoundBytes", ("found", c_bool), *_bytes("bytes"))
DynamicNames = _struct("DynamicNames", ("found", c_bool), ("entries", Table), *_bytes("strings"))
Needed = _struct("Needed", ("found", c_bool), ("tag", c_int64), *_bytes("name"))
Names = _struct("Names", ("found", c_bool), *_bytes("strings"))
Found = _struct("Found", ("found", c_bool), ("index", c_size_t), ("symbol", Symbol))
Gnu = _struct("Gnu", ("little", c_bool), ("is_64", c_bool), ("nbucket", c_uint32), ("first", c_uint32),
              ("nbloom", c_uint32), ("nshift", c_uint32), *_bytes("bloom"), *_bytes("buckets"), *_bytes("chains"))
Sysv = _struct("Sysv", ("little", c_bool), ("is_64", c_bool), *_bytes("buckets"), *_bytes("chains"))
Verdict = _struct("Verdict", ("sound", c_bool), ("indexed", c_size_t))
Entries = _struct("Entries", ("found", c_bool), ("count", c_uint64), ("entries", Table), *_bytes("strings"))
Versions = _struct("Versions", ("found", c_bool), ("indexes", Table), ("needs", Entries), ("definitions", Entries))
VersionIndex = _struct("VersionIndex", ("index", c_uint16), ("hidden", c_bool))
Requirement = _struct("Requirement", ("found", c_bool), ("hidden", c_bool), ("flags", c_uint16), ("hash", c_uint32),
                      *_bytes("file"), *_bytes("name"))
VersionNames = _struct("VersionNames", ("count", c_uint64), ("offset", c_size_t), ("entries", Table),
                       *_bytes("strings"))
Definition = _struct("Definition", ("found", c_bool), ("hidden", c_bool), ("flags", c_uint16), ("hash", c_uint32),
                     ("names", VersionNames))
Fault = _struct("Fault", ("kind", c_uint32), ("part", c_uint32), ("index", c_uint64), ("first", c_uint64),
                ("second", c_uint64))


def _place() -> str:
    here = Path(__file__).resolve().parent
    built = [here / "libnugwier.so.0", here.parent.parent / "c" / "libnugwier.so"]
    there = [str(path) for path in built if path.is_file()]
    return os.environ.get("NUGWIER_LIBRARY") or (there[0] if there else "libnugwier.so.0")


# What the calls take, by what they return.
_RAW = (c_void_p, c_size_t)
_CALLS: Any = {
    Status: {
        "open": (*_RAW, POINTER(File)),
        "open_ranges": (c_uint64, *_RAW, POINTER(File)),
        "check": (POINTER(File), POINTER(c_bool), POINTER(Fault)),
        "faults": (POINTER(File), POINTER(Fault), c_size_t, POINTER(c_size_t)),
        "section": (POINTER(File), c_size_t, POINTER(Section)),
        "segment": (POINTER(File), c_size_t, POINTER(Segment)),
        "section_names": (POINTER(File), POINTER(Names)),
        "section_by_name": (POINTER(File), *_RAW, POINTER(c_bool), POINTER(Section)),
        "section_data": (POINTER(File), POINTER(Section), POINTER(Data)),
        "segment_data": (POINTER(File), POINTER(Segment), POINTER(Bytes)),
        "section_strings": (POINTER(File), POINTER(Section), POINTER(Bytes)),
        "section_rels": (POINTER(File), POINTER(Section), POINTER(Table)),
        "section_relas": (POINTER(File), POINTER(Section), POINTER(Table)),
        "section_notes": (POINTER(File), POINTER(Section), POINTER(Notes)),
        "segment_notes": (POINTER(File), POINTER(Segment), POINTER(Notes)),
        "symbol_table": (POINTER(File), c_bool, POINTER(Symbols)),
        "dynamic_table": (POINTER(File), POINTER(Dynamics)),
        "dynamic_names": (POINTER(File), POINTER(DynamicNames)),
        **{name: (POINTER(DynamicNames), POINTER(FoundBytes)) for name in ("soname", "runpath", "rpath")},
        "needed": (POINTER(DynamicNames), POINTER(c_size_t), POINTER(Needed)),
        "build_id": (POINTER(File), POINTER(FoundBytes)),
        "version_table": (POINTER(File), POINTER(Versions)),
        "version_index": (POINTER(Versions), c_size_t, POINTER(VersionIndex)),
        "requirement": (POINTER(Versions), c_size_t, POINTER(Requirement)),
        "definition": (POINTER(Versions), c_size_t, POINTER(Definition)),
        "version_name": (POINTER(VersionNames), POINTER(c_bool), POINTER(Bytes)),
        "string": (*_RAW, c_size_t, POINTER(Bytes)),
        "symbol": (POINTER(Table), c_size_t, POINTER(Symbol)),
        "gnu_open": (c_bool, c_bool, *_RAW, POINTER(Gnu)),
        "sysv_open": (c_bool, c_bool, *_RAW, POINTER(Sysv)),
        "gnu_look_up": (POINTER(Gnu), POINTER(Table), *_RAW, *_RAW, POINTER(Found)),
        "sysv_look_up": (POINTER(Sysv), POINTER(Table), *_RAW, *_RAW, POINTER(Found)),
        "hash_check": (c_bool, *_RAW, POINTER(Table), *_RAW, POINTER(Verdict)),
    },
    c_size_t: {
        **{f"{name}_count": (POINTER(Table),) for name in ("symbol", "section", "segment")},
        **{name: (POINTER(Table), c_size_t, *_RAW) for name in ("sections", "segments", "rels", "relas", "dynamics")},
        "named_symbols": (POINTER(Table), *_RAW, c_size_t, *_RAW),
        "note_list": (POINTER(Notes), POINTER(c_size_t), *_RAW),
        "error_text": (POINTER(Status), *_RAW),
        "fault_text": (POINTER(Fault), *_RAW),
    },
    None: {"symbol_at": (POINTER(Table), c_uint64, POINTER(Found))},
}

_library: Any = None


def library() -> Any:
    """The library, which is loaded at the first call."""
    global _library
    if _library is None:
        loaded = ctypes.CDLL(_place())
        for result, calls in _CALLS.items():
            for name, parameters in calls.items():
                function = getattr(loaded, "nugwier_" + name)
                function.restype = result
                function.argtypes = parameters
        _library = loaded
    return _library


def call(name: str, *arguments: Any) -> None:
    status = getattr(library(), "nugwier_" + name)(*arguments)
    if status.code:
        raise ElfError(status)


def copy(pointer: Any, length: int) -> bytes:
    """The bytes at a pointer, which is not read if there are none."""
    return ctypes.string_at(pointer, length) if length else b""


def copy_of(part: Any) -> bytes:
    """The bytes of a struct that begins with them."""
    return copy(part.bytes, part.bytes_len)


def to_text(name: bytes) -> str:
    """A name as text: a byte that is not UTF-8 is a lone surrogate, so that `to_bytes` gives the same bytes."""
    return name.decode("utf-8", "surrogateescape")


def to_bytes(name: str | bytes) -> bytes:
    return name.encode("utf-8", "surrogateescape") if isinstance(name, str) else name


def given(raw: bytes) -> Tuple[Any, int]:
    """Bytes as an argument: a pointer and a length."""
    return ctypes.c_char_p(raw), len(raw)


def _codes(record: Any) -> str:
    """The letters of the module struct for the fields of a record."""
    return "".join(_codes(kind) if hasattr(kind, "_fields_") else kind._type_ for _, kind in record._fields_)


def layout(record: Any) -> struct.Struct:
    """How the fields of a record lie in memory."""
    made = struct.Struct(_codes(record) + "0Q")
    assert made.size == ctypes.sizeof(record)
    return made
