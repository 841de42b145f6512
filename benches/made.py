"""Files that are made to be measured: 64-bit, little-endian, with as many entries as wanted."""
import struct

SHT_PROGBITS, SHT_SYMTAB, SHT_STRTAB, SHT_RELA, SHT_HASH, SHT_DYNAMIC, SHT_NOTE = 1, 2, 3, 4, 5, 6, 7
SHT_REL, SHT_DYNSYM, SHT_GNU_HASH = 9, 11, 0x6FFFFFF6
SHT_GNU_VERDEF, SHT_GNU_VERNEED, SHT_GNU_VERSYM = 0x6FFFFFFD, 0x6FFFFFFE, 0x6FFFFFFF
VER_FLG_BASE = 1
PT_LOAD, PT_NOTE = 1, 4
DT_NULL, DT_NEEDED, DT_STRTAB, DT_STRSZ = 0, 1, 5, 10


# A section header: name, type, flags, address, offset, size, link, info, alignment, size of an entry.
SECTION = struct.Struct("<IIQQQQIIQQ")


def file_header(phoff, phnum, shoff, shnum, names):
    ident = b"\x7fELF\x02\x01\x01" + bytes(9)
    return ident + struct.pack("<HHIQQQIHHHHHH", 3, 62, 1, 0, phoff, shoff, 0, 64, 56, phnum, 64, shnum, names)


class Made:
    """A file of the sections that are added; the names of the sections are the last one."""

    def __init__(self):
        self.sections = [(b"", 0, b"", 0, 0, 0)]

    def add(self, name, kind, data, link=0, info=0, entsize=0):
        """The index of the new section."""
        self.sections.append((name, kind, bytes(data), link, info, entsize))
        return len(self.sections) - 1

    def first(self, kind):
        return next((index for index, section in enumerate(self.sections) if section[1] == kind), None)

    def bytes(self):
        """The header, two segments over the first section with data (notes where there are some), the sections."""
        names = bytearray()
        offsets = []
        for name, *_ in self.sections + [(b".shstrtab",)]:
            offsets.append(len(names))
            names += name + b"\0"
        sections = self.sections + [(b".shstrtab", SHT_STRTAB, bytes(names), 0, 0, 0)]
        place = 64 + 2 * 56
        headers, parts, ranges = [], [], {}
        for offset, (_, kind, data, link, info, entsize) in zip(offsets, sections):
            headers.append(SECTION.pack(offset, kind, 0, 0, place, len(data), link, info, 4, entsize))
            parts.append(data + bytes(-len(data) % 8))
            ranges.setdefault(kind, (place, len(data)))
            place += len(parts[-1])
        first = next((ranges[kind] for kind in (SHT_NOTE, SHT_PROGBITS) if kind in ranges), (0, 64))
        segments = b"".join(
            struct.pack("<IIQQQQQQ", kind, 4, first[0], 0, 0, first[1], first[1], 4) for kind in (PT_LOAD, PT_NOTE)
        )
        head = file_header(64, 2, place, len(sections), len(sections) - 1)
        return head + segments + b"".join(parts) + b"".join(headers)


def names_of(count):
    """The strings of `count` symbols after the first, and the offset of each."""
    strings = bytearray(b"\0")
    offsets = [0]
    for k in range(1, count):
        offsets.append(len(strings))
        strings += b"symbol_%d\0" % k
    return bytes(strings), offsets


def add_symbols(made, count, kind=SHT_SYMTAB):
    strings, offsets = names_of(count)
    symbols = b"".join(struct.pack("<IBBHQQ", name, 0x12, 0, 1, 0x401000 + 16 * k, 16) for k, name in enumerate(offsets))
    is_dynamic = kind == SHT_DYNSYM
    names = made.add(b".dynstr" if is_dynamic else b".strtab", SHT_STRTAB, strings)
    return made.add(b".dynsym" if is_dynamic else b".symtab", kind, symbols, names, 1, 24)


def add_relocations(made, count):
    rels = b"".join(struct.pack("<QQ", 0x601000 + 8 * k, (k << 32) + 7) for k in range(count))
    relas = b"".join(struct.pack("<QQq", 0x601000 + 8 * k, (k << 32) + 7, -k) for k in range(count))
    made.add(b".rel", SHT_REL, rels, 0, 0, 16)
    made.add(b".rela", SHT_RELA, relas, 0, 0, 24)


def add_notes(made, count):
    note = struct.pack("<III", 5, 16, 9) + b"Maker\0\0\0" + bytes(range(16))
    build_id = struct.pack("<III", 4, 20, 3) + b"GNU\0" + bytes(range(20))
    made.add(b".note", SHT_NOTE, (build_id + note) * (count // 2))


def add_dynamic(made, count):
    made.add(b".dynamic", SHT_DYNAMIC, b"".join(struct.pack("<qQ", 1, 16 * k) for k in range(count)), 0, 0, 16)


def add_versions(made, symbols, needs, definitions):
    """The versions of some symbols, which name the needs and then the definitions by turns. Each need is a file of its
    own with one version, and each definition has one name."""
    names = b"\0VERSION_1.0\0libneeded.so\0"
    strings = made.add(b".verstr", SHT_STRTAB, names)
    last = needs + definitions + 1
    indexes = b"".join(struct.pack("<H", 2 + k % max(1, last - 1)) for k in range(symbols))
    need_records = b"".join(
        struct.pack("<HHIII", 1, 1, 13, 16, 32 if k + 1 < needs else 0) + struct.pack("<IHHII", 7, 0, 2 + k, 1, 0)
        for k in range(needs)
    )
    definition_records = b"".join(
        struct.pack("<HHHHIII", 1, 0, 2 + needs + k, 1, 7, 20, 28 if k + 1 < definitions else 0) + struct.pack("<II", 1, 0)
        for k in range(definitions)
    )
    made.add(b".gnu.version", SHT_GNU_VERSYM, indexes, made.first(SHT_DYNSYM) or 0, 0, 2)
    if needs:
        made.add(b".gnu.version_r", SHT_GNU_VERNEED, need_records, strings, needs)
    if definitions:
        made.add(b".gnu.version_d", SHT_GNU_VERDEF, definition_records, strings, definitions)


def sysv_hash(name):
    value = 0
    for byte in name:
        value = (value << 4) + byte
        value = (value ^ (value >> 24 & 0xF0)) & 0x0FFFFFFF
    return value


def gnu_hash_behind(value, name):
    """The hash of a name that goes on after one with this hash."""
    for byte in name:
        value = (33 * value + byte) & 0xFFFFFFFF
    return value


def gnu_hash(name):
    return gnu_hash_behind(5381, name)


def sysv_section(names):
    """A SysV section of these names; the first is of the symbol 0, which is not in it."""
    buckets = [0] * max(1, len(names) // 2)
    chains = [0] * len(names)
    for k in range(len(names) - 1, 0, -1):
        bucket = sysv_hash(names[k]) % len(buckets)
        chains[k], buckets[bucket] = buckets[bucket], k
    words = [len(buckets), len(chains)] + buckets + chains
    return struct.pack(f"<{len(words)}I", *words)


def gnu_section(names):
    """The names in the order of their buckets, and the GNU section over them; the first is not in it."""
    nbucket = max(1, len(names) // 4)
    nbloom = 1
    while 8 * nbloom < len(names):
        nbloom *= 2
    hashed = sorted(((gnu_hash(name), name) for name in names[1:]), key=lambda each: each[0] % nbucket)
    bloom, buckets, chains = [0] * nbloom, [0] * nbucket, []
    for k, (value, _) in enumerate(hashed):
        bloom[value // 64 % nbloom] |= 1 << value % 64 | 1 << (value >> 6) % 64
        buckets[value % nbucket] = buckets[value % nbucket] or k + 1
        is_last = k + 1 == len(hashed) or hashed[k + 1][0] % nbucket != value % nbucket
        chains.append(value & ~1 | is_last)
    table = struct.pack("<IIII", nbucket, 1, nbloom, 6) + struct.pack(f"<{nbloom}Q", *bloom)
    return names[:1] + [name for _, name in hashed], table + struct.pack(f"<{nbucket}I{len(chains)}I", *buckets, *chains)


def add_hashes(made, count, prefix=b"symbol"):
    """Dynamic symbols in the order of the buckets, and both hash sections over them. Their names, in that order."""
    names, gnu = gnu_section([b""] + [b"%s_%d" % (prefix, k) for k in range(1, count)])
    strings = b"\0".join(names) + b"\0"
    symbols, place = [], 0
    for name in names:
        symbols.append(struct.pack("<IBBHQQ", place, 0x12, 0, 1, 0x401000, 16))
        place += len(name) + 1
    names_index = made.add(b".dynstr", SHT_STRTAB, strings)
    dynsym = made.add(b".dynsym", SHT_DYNSYM, b"".join(symbols), names_index, 1, 24)
    made.add(b".hash", SHT_HASH, sysv_section(names), dynsym, 0, 4)
    made.add(b".gnu.hash", SHT_GNU_HASH, gnu, dynsym)
    return names


# A name that no symbol of a shared string has, and how many symbols share it.
SHARED_NAME = b"ab"
SHARING = 16


def add_shared_string(made, length):
    """Dynamic symbols whose names are the ends of one string of about this length, and both hash sections over them. A
    look-up of `SHARED_NAME` meets each of the symbols: the GNU section has its hash for all."""
    strings = b"\0" + b"a" * (length + SHARING) + b"\0"
    symbols = bytes(24) + b"".join(struct.pack("<IBBHQQ", 1 + k, 0x12, 0, 1, 0x401000, 16) for k in range(SHARING))
    dynsym = made.add(b".dynsym", SHT_DYNSYM, symbols, made.add(b".dynstr", SHT_STRTAB, strings), 1, 24)
    chains = [0] + [(k + 1) % (SHARING + 1) for k in range(1, SHARING + 1)]
    made.add(b".hash", SHT_HASH, struct.pack(f"<III{len(chains)}I", 1, len(chains), 1, *chains), dynsym, 0, 4)
    hashes = [gnu_hash(SHARED_NAME) & ~1 | (k + 1 == SHARING) for k in range(SHARING)]
    table = struct.pack(f"<IIIIQI{SHARING}I", 1, 1, 1, 6, 2**64 - 1, 1, *hashes)
    made.add(b".gnu.hash", SHT_GNU_HASH, table, dynsym)


def version_name(prefix, number):
    return b"%s_%d.0" % (prefix, number)


def versioned_library(count, versions, symbol_prefix, version_prefix):
    """A file of dynamic symbols that have these versions by turns, with the name of each symbol and its version."""
    made = Made()
    symbols = add_hashes(made, count, symbol_prefix)
    names = [b"libmade.so"] + [version_name(version_prefix, k) for k in range(versions)]
    strings, records = b"\0", b""
    for k, name in enumerate(names):
        following = 28 if k + 1 < len(names) else 0
        records += struct.pack("<HHHHIII", 1, VER_FLG_BASE if k == 0 else 0, 1 + k, 1, sysv_hash(name), 20, following)
        records += struct.pack("<II", len(strings), 0)
        strings += name + b"\0"
    own = [k % versions for k in range(len(symbols))]
    made.add(b".gnu.version", SHT_GNU_VERSYM, b"".join(struct.pack("<H", 2 + k) for k in own), made.first(SHT_DYNSYM), 0, 2)
    made.add(b".gnu.version_d", SHT_GNU_VERDEF, records, made.add(b".verstr", SHT_STRTAB, strings), len(names))
    return made, [(name, names[1 + k]) for name, k in zip(symbols, own) if name]


def add_bytes(made, count):
    made.add(b".text", SHT_PROGBITS, bytes(range(256)) * (count // 16))


def of_each(count):
    """A file that has `count` entries of each kind."""
    made = Made()
    add_bytes(made, 16 * count)
    add_symbols(made, count)
    add_relocations(made, count)
    add_notes(made, count)
    add_dynamic(made, count)
    add_hashes(made, count)
    add_versions(made, count, 2, 2)
    return made


def many_versions(symbols, needs, definitions):
    made = Made()
    add_symbols(made, symbols, SHT_DYNSYM)
    add_versions(made, symbols, needs, definitions)
    return made


def sharing_needs(count, step=0):
    """Dynamic symbols with a version index that no need has, and `count` needs that share as many auxiliary entries: all
    begin at the first entry or, with a step, each this number of entries after the one before."""
    made = Made()
    add_symbols(made, 40, SHT_DYNSYM)
    strings = made.add(b".verstr", SHT_STRTAB, b"\0VERSION_1.0\0libneeded.so\0")
    made.add(b".gnu.version", SHT_GNU_VERSYM, struct.pack("<H", 5) * 40, made.first(SHT_DYNSYM), 0, 2)
    needs = []
    for k in range(count):
        first, following = k * step % count, 16 if k + 1 < count else 0
        entries = min(count - first, 0xFFFF)
        needs.append(struct.pack("<HHIII", 1, entries, 13, 16 * (count - k + first), following))
    entries = b"".join(struct.pack("<IHHII", 7, 0, 2, 1, 16 if k + 1 < count else 0) for k in range(count))
    made.add(b".gnu.version_r", SHT_GNU_VERNEED, b"".join(needs) + entries, strings, count)
    return made


def sharing_names(count):
    """Symbols whose names are the ends of one string of 24 bytes for each symbol, and both hash sections over them, which
    are sound and have one bucket."""
    made = Made()
    length = 24 * count
    symbols = bytes(24) + b"".join(struct.pack("<IBBHQQ", 1 + k, 0x12, 0, 1, 0x401000, 16) for k in range(count))
    strings = made.add(b".dynstr", SHT_STRTAB, b"\0" + b"a" * length + b"\0")
    dynsym = made.add(b".dynsym", SHT_DYNSYM, symbols, strings, 1, 24)
    chains = [0] + [(k + 1) % (count + 1) for k in range(1, count + 1)]
    made.add(b".hash", SHT_HASH, struct.pack(f"<III{len(chains)}I", 1, len(chains), 1, *chains), dynsym, 0, 4)
    value = gnu_hash(b"a" * (length - count))
    hashes = [value := gnu_hash_behind(value, b"a") for _ in range(count)]
    words = [each & ~1 | (k + 1 == count) for k, each in enumerate(reversed(hashes))]
    made.add(b".gnu.hash", SHT_GNU_HASH, struct.pack(f"<IIIIQI{count}I", 1, 1, 1, 6, 2**64 - 1, 1, *words), dynsym)
    return made


def long_version_name(count):
    """Symbols of one version, whose name is not UTF-8 and has 24 bytes for each symbol."""
    made = Made()
    add_symbols(made, count, SHT_DYNSYM)
    strings = made.add(b".verstr", SHT_STRTAB, b"\0libneeded.so\0" + b"a" * (24 * count) + b"\xff\0")
    made.add(b".gnu.version", SHT_GNU_VERSYM, struct.pack("<H", 2) * count, made.first(SHT_DYNSYM), 0, 2)
    need = struct.pack("<HHIII", 1, 1, 1, 16, 0) + struct.pack("<IHHII", 7, 0, 2, 14, 0)
    made.add(b".gnu.version_r", SHT_GNU_VERNEED, need, strings, 1)
    return made


def unterminated_names(count):
    """Symbols whose names begin a table of strings that has no 0 byte and is as long as the symbols."""
    made = Made()
    strings = made.add(b".strtab", SHT_STRTAB, b"a" * (24 * count))
    made.add(b".symtab", SHT_SYMTAB, struct.pack("<IBBHQQ", 0, 0x12, 0, 1, 0, 0) * count, strings, 1, 24)
    return made


def needing_one_name(count):
    """Dynamic entries that all need the library of one name, which is as long as the entries are. A loaded segment has the
    string table."""
    made = Made()
    strings = b"a" * (16 * count) + b"\0"
    made.add(b".strings", SHT_PROGBITS, strings)
    entries = [(DT_STRTAB, 0), (DT_STRSZ, len(strings))] + [(DT_NEEDED, 0)] * count + [(DT_NULL, 0)]
    made.add(b".dynamic", SHT_DYNAMIC, b"".join(struct.pack("<qQ", *entry) for entry in entries), 0, 0, 16)
    return made


def segments_in_mixed_order(count):
    """A file of `count` loaded segments of one byte each, in no order of their addresses."""
    place = 64 + 56 * count
    addresses = [0x1000 + 2 * (k * 7919 % count) for k in range(count)]
    headers = b"".join(struct.pack("<IIQQQQQQ", PT_LOAD, 4, place, each, each, 1, 1, 1) for each in addresses)
    return file_header(64, count, 0, 0, 0) + headers + b"\0"


def only(add, count):
    """A file of `count` entries of one kind."""
    made = Made()
    add(made, count)
    return made


def sections_of_ranges(count, size, is_falling):
    """A file of `count` sections with a range each. Its header has no room for the count, which is the size of section 0.
    The names of all but the names' own are `.text`, of this `.names`."""
    names = b"\0.text\0.names\0"
    following = 64 + 64 * (count + 2)
    places = [following + len(names) + size * number for number in range(count)]
    if is_falling:
        places.reverse()
    headers = [SECTION.pack(0, 0, 0, 0, 0, count + 2, 0, 0, 0, 0)]
    headers += [SECTION.pack(1, SHT_PROGBITS, 3, 0, place, size, 0, 0, 1, 0) for place in places]
    headers.append(SECTION.pack(7, SHT_STRTAB, 0, 0, following, len(names), 0, 0, 1, 0))
    head = file_header(0, 0, 64, 0, count + 1 if count + 1 < 0xFF00 else 0)
    return head + b"".join(headers) + names + bytes(size * count)


def whole_library(megabytes):
    """A sound file of about this size: of each million bytes 10,000 symbols, 2,500 dynamic symbols with both hash sections
    and versions, and 5,000 relocations of these; the rest is code."""
    made = Made()
    made.add(b".text", SHT_PROGBITS, bytes(megabytes * 366_000))
    add_notes(made, 2)
    add_symbols(made, megabytes * 10_000)
    add_hashes(made, megabytes * 2_500)
    add_versions(made, megabytes * 2_500, 20, 20)
    dynsym = made.first(SHT_DYNSYM)
    relas = b"".join(struct.pack("<QQq", 8 * k, (k // 2 << 32) + 7, 0) for k in range(megabytes * 5_000))
    made.add(b".rela.dyn", SHT_RELA, relas, dynsym, 0, 24)
    entries = struct.pack("<qQqQ", DT_NEEDED, 1, DT_NULL, 0)
    made.add(b".dynamic", SHT_DYNAMIC, entries, made.sections[dynsym][3], 0, 16)
    return made
