"""Notes, and what those of GNU say (Linux Standard Base; Linux extensions to gABI)."""

from __future__ import annotations

import struct
from enum import IntFlag
from typing import Any, Iterator, NamedTuple, Tuple, Type

from . import _library as c
from .constants import ELF_NOTE_GNU_ABI_TAG_OS, EM, NOTE_TYPES, NT_GNU
from .values import Values, named


class GNU_PROPERTY(Values):
    """Types of properties (`pr_type`) of every machine."""

    GNU_PROPERTY_STACK_SIZE = 1
    GNU_PROPERTY_NO_COPY_ON_PROTECTED = 2
    GNU_PROPERTY_1_NEEDED = 0xb0008000


class GNU_PROPERTY_X86(Values):
    """Types of properties of EM_X86_64 and EM_386."""

    GNU_PROPERTY_X86_FEATURE_1_AND = 0xc0000002
    GNU_PROPERTY_X86_FEATURE_2_NEEDED = 0xc0008001
    GNU_PROPERTY_X86_ISA_1_NEEDED = 0xc0008002
    GNU_PROPERTY_X86_FEATURE_2_USED = 0xc0010001
    GNU_PROPERTY_X86_ISA_1_USED = 0xc0010002


class GNU_PROPERTY_AARCH64(Values):
    """Types of properties of EM_AARCH64."""

    GNU_PROPERTY_AARCH64_FEATURE_1_AND = 0xc0000000


class X86_FEATURE_1(IntFlag):
    """Bits of GNU_PROPERTY_X86_FEATURE_1_AND."""

    GNU_PROPERTY_X86_FEATURE_1_IBT = 1
    GNU_PROPERTY_X86_FEATURE_1_SHSTK = 2
    GNU_PROPERTY_X86_FEATURE_1_LAM_U48 = 4
    GNU_PROPERTY_X86_FEATURE_1_LAM_U57 = 8


class X86_ISA_1(IntFlag):
    """Bits of GNU_PROPERTY_X86_ISA_1_NEEDED and GNU_PROPERTY_X86_ISA_1_USED."""

    GNU_PROPERTY_X86_ISA_1_BASELINE = 1
    GNU_PROPERTY_X86_ISA_1_V2 = 2
    GNU_PROPERTY_X86_ISA_1_V3 = 4
    GNU_PROPERTY_X86_ISA_1_V4 = 8


class AARCH64_FEATURE_1(IntFlag):
    """Bits of GNU_PROPERTY_AARCH64_FEATURE_1_AND."""

    GNU_PROPERTY_AARCH64_FEATURE_1_BTI = 1
    GNU_PROPERTY_AARCH64_FEATURE_1_PAC = 2
    GNU_PROPERTY_AARCH64_FEATURE_1_GCS = 4


class Property(NamedTuple):
    """A property of a program: its type, its bytes, and the number that these are, if they are 4 or 8."""

    type: Values
    data: bytes
    number: int | None

    @property
    def bits(self) -> IntFlag | None:
        """The number by the names of its bits, if those of its type are known."""
        of_type = _BITS.get(self.type)
        return None if of_type is None or self.number is None else of_type(self.number)


class AbiTag(NamedTuple):
    """The oldest system on which a program runs."""

    os: ELF_NOTE_GNU_ABI_TAG_OS
    major: int
    minor: int
    subminor: int


class Note(NamedTuple):
    """A note: the name of its owner, its type, and its bytes. Of notes of GNU `abi_tag`, `build_id` and `properties`
    are what these say.

        >>> with nugwier.open("/bin/sh") as file:
        ...     (tag,) = (note.abi_tag for note in file.notes() if note.abi_tag)
        >>> tag.os
        <ELF_NOTE_GNU_ABI_TAG_OS.ELF_NOTE_GNU_ABI_TAG_OS_LINUX: 0>
    """

    owner: str
    type: Values
    desc: bytes
    abi_tag: AbiTag | None = None
    properties: Tuple[Property, ...] = ()

    @property
    def build_id(self) -> str | None:
        """The build id as hexadecimal digits."""
        return self.desc.hex() if self.owner == "GNU" and self.type == NT_GNU.NT_GNU_BUILD_ID else None


_TYPES: dict[int, Type[Values]] = {
    EM.EM_X86_64: GNU_PROPERTY_X86, EM.EM_386: GNU_PROPERTY_X86, EM.EM_AARCH64: GNU_PROPERTY_AARCH64,
}
_BITS: dict[Values, Type[IntFlag]] = {
    GNU_PROPERTY_X86.GNU_PROPERTY_X86_FEATURE_1_AND: X86_FEATURE_1,
    GNU_PROPERTY_X86.GNU_PROPERTY_X86_ISA_1_NEEDED: X86_ISA_1,
    GNU_PROPERTY_X86.GNU_PROPERTY_X86_ISA_1_USED: X86_ISA_1,
    GNU_PROPERTY_AARCH64.GNU_PROPERTY_AARCH64_FEATURE_1_AND: AARCH64_FEATURE_1,
}


def note_of(raw: Any, header: Any) -> Note:
    """A note as the library gives it, of a file with this header."""
    order = "<" if header.little else ">"
    if raw.kind == 1:
        tag = (raw.tag.os, raw.tag.major, raw.tag.minor, raw.tag.subminor)
        return Note("GNU", NT_GNU.NT_GNU_ABI_TAG, struct.pack(order + "4I", *tag),
                    AbiTag(ELF_NOTE_GNU_ABI_TAG_OS(tag[0]), *tag[1:]))
    desc = c.copy(raw.desc, raw.desc_len)
    if raw.kind == 2:
        return Note("GNU", NT_GNU.NT_GNU_BUILD_ID, desc)
    owner = c.to_text(c.copy(raw.name, raw.name_len).rstrip(b"\0"))
    kind = named(None, NOTE_TYPES.get(owner), raw.n_type)
    if kind is NT_GNU.NT_GNU_PROPERTY_TYPE_0:
        return Note(owner, kind, desc, None, tuple(_properties(desc, order, header)))
    return Note(owner, kind, desc)


def _properties(desc: bytes, order: str, header: Any) -> Iterator[Property]:
    """The properties in a note. One that was cut short is the end."""
    start, align = 0, 8 if header.is_64 else 4
    while start + 8 <= len(desc):
        kind, size = struct.unpack_from(order + "II", desc, start)
        data = desc[start + 8:start + 8 + size]
        if len(data) < size:
            return
        number = struct.unpack(order + ("I" if size == 4 else "Q"), data)[0] if size in (4, 8) else None
        yield Property(named(GNU_PROPERTY, _TYPES.get(header.machine), kind), data, number)
        start += 8 + -(-size // align) * align
