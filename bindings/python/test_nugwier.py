"""Tests of the package nugwier over files of the machine: python3 -m unittest, in this folder.

What is expected is what readelf and nm print, what <elf.h> and nugwier.h have, and what was put into a file here.
"""

import doctest
import io
import mmap
import os
import re
import shutil
import struct
import subprocess
import sys
import tempfile
import unittest
from pathlib import Path

import nugwier
from nugwier import DT, EM, ET, PT, SHF, SHT, STB, STT, FaultKind, Part, constants, notes

FILE = os.path.realpath(sys.executable)
LIBRARY = re.search(r"\S+/libc\.so\.6$", Path("/proc/self/maps").read_text(), re.M).group()


def run(*words):
    return subprocess.run(words, stdout=subprocess.PIPE, universal_newlines=True, check=False).stdout


def readelf(*words):
    return run("readelf", "-W", *words)


def listed(*words):
    """The lines of readelf that begin with a number and a colon, as lists of words."""
    rows = [line.split() for line in readelf(*words).splitlines()]
    return [row for row in rows if row and row[0].endswith(":") and row[0][:-1].isdigit()]


def load_tests(loader, tests, pattern):
    """The examples of the documentation too, which are of a Debian system."""
    if LIBRARY == os.path.realpath("/lib/x86_64-linux-gnu/libc.so.6"):
        for module in ("constants", "file", "notes", "records", "sequences"):
            tests.addTests(doctest.DocTestSuite("nugwier." + module, extraglobs={**vars(nugwier), "nugwier": nugwier}))
    return tests


class Reading(unittest.TestCase):
    def test_header(self):
        printed = dict(line.split(":", 1) for line in readelf("-h", LIBRARY).splitlines() if ":" in line)
        printed = {name.strip(): value.strip() for name, value in printed.items()}
        with nugwier.open(LIBRARY) as file:
            self.assertEqual(file.header["shoff"], int(printed["Start of section headers"].split()[0]))
            self.assertEqual(file.entry, int(printed["Entry point address"], 16))
            self.assertEqual((file.type, file.machine), (ET.ET_DYN, EM.EM_X86_64))
            self.assertEqual((file.elfclass, file.little_endian), (64, True))
            self.assertEqual(printed["Class"], "ELF64")
            self.assertEqual(printed["Type"].split()[0], "DYN")

    def test_sections(self):
        rows = re.findall(r"^ +\[ *(\d+)\] (\S*) +(\w+) +(\w{16}) (\w{6}) (\w{6}) (\w\w) +([A-Z]*) +(\d+) +(\d+)"
                          r" +(\d+)$", readelf("-S", LIBRARY), re.M)
        with nugwier.open(LIBRARY) as file:
            self.assertEqual(len(file.sections), len(rows))
            for section, row in zip(file.sections, rows):
                self.assertEqual(section.index, int(row[0]))
                self.assertEqual(section.name, row[1])
                self.assertIn(section.type.name.replace("SHT_", "").replace("GNU_", ""),
                              {row[2], row[2].replace("GNU_", ""), "VERSYM", "VERDEF", "VERNEED"})
                self.assertEqual([section.addr, section.offset, section.size, section.entsize],
                                 [int(number, 16) for number in row[3:7]])
                self.assertEqual([section.link, section.info, section.addralign], [int(number) for number in row[8:]])
                for letter, flag in (("W", SHF.SHF_WRITE), ("A", SHF.SHF_ALLOC), ("X", SHF.SHF_EXECINSTR)):
                    self.assertEqual(letter in row[7], flag in SHF(section.flags))

    def test_sections_are_a_sequence(self):
        with nugwier.open(LIBRARY) as file:
            text = file[".text"]
            self.assertEqual(file.sections[".text"], text)
            self.assertEqual(file.sections[text.index], text)
            self.assertEqual(file[b".text"], text)
            self.assertEqual(file.sections[-1].index, len(file.sections) - 1)
            self.assertEqual([one.index for one in file.sections[1:3]], [1, 2])
            self.assertEqual(list(file), list(file.sections))
            self.assertEqual(list(file.sections()), list(file.sections))
            self.assertIn(".text", file)
            self.assertNotIn(".no.such.section", file)
            self.assertIsNone(file.get(".no.such.section"))
            self.assertEqual((text.name, text.name_bytes), (".text", b".text"))
            for key in (".no.such.section", b".no.such.section", 10 ** 6):
                with self.assertRaises((KeyError, IndexError)):
                    file.sections[key]
            self.assertEqual(file[".dynsym"].linked.name, ".dynstr")
            self.assertIn(text, file)
            self.assertEqual(file[".bss"].data(), b"")
        self.assertEqual((text.type, text.name), (SHT.SHT_PROGBITS, ".text"))

    def test_segments(self):
        rows = re.findall(r"^  ([A-Z_]+) +0x(\w+) 0x(\w+) 0x(\w+) 0x(\w+) 0x(\w+) ([R ][W ][E ]) 0x(\w+)$",
                          readelf("-l", LIBRARY), re.M)
        with nugwier.open(LIBRARY) as file:
            self.assertEqual(len(file.segments), len(rows))
            for segment, row in zip(file.segments, rows):
                self.assertEqual(segment.type.name, "PT_" + row[0])
                self.assertEqual([segment.offset, segment.vaddr, segment.paddr, segment.filesz, segment.memsz,
                                  segment.align], [int(number, 16) for number in row[1:6] + row[7:]])
                self.assertEqual(segment.flags, sum(bit for bit, letter in ((4, "R"), (2, "W"), (1, "E"))
                                                    if letter in row[6]))
            self.assertEqual(list(file.segments()), list(file.segments))
            content = Path(LIBRARY).read_bytes()
            for segment in file.segments:
                self.assertEqual(segment.data(), content[segment.offset:segment.offset + segment.filesz])
            said = re.search(r"Requesting program interpreter: (.*)]", readelf("-l", LIBRARY))
            self.assertEqual(file.interpreter, said and said.group(1))

    def check_symbols(self, symbols, rows):
        self.assertEqual(len(symbols), len(rows))
        indexes = {0: "UND", 0xfff1: "ABS", 0xfff2: "COM"}
        for symbol, row in zip(symbols, rows):
            self.assertEqual(symbol.index, int(row[0][:-1]))
            self.assertEqual(symbol.value, int(row[1], 16))
            self.assertEqual(symbol.size, int(row[2], 0))
            self.assertEqual(symbol.type.name.replace("GNU_", ""), "STT_" + row[3])
            self.assertEqual(symbol.bind.name.replace("GNU_", ""), "STB_" + row[4])
            self.assertEqual(symbol.visibility.name, "STV_" + row[5])
            self.assertEqual(indexes.get(symbol.shndx, str(symbol.shndx)), row[6])
            if row[3] != "SECTION":
                # readelf leaves out a version that is named as its symbol
                printed = symbol.name if symbol.version and symbol.version.name == symbol.name else symbol.full_name
                self.assertEqual(printed, row[7] if len(row) > 7 else "")
                self.assertEqual(symbol.name_bytes, symbol.name.encode())

    def test_dynamic_symbols(self):
        for path in (FILE, LIBRARY):
            with nugwier.open(path) as file:
                self.check_symbols(file.dynamic_symbols, listed("--dyn-syms", path))
                symbols = list(file.dynamic_symbols)
                self.assertEqual(list(file.symbols(dynamic=True)), symbols)
                self.assertEqual([file.dynamic_symbols[index] for index in (0, 5, -1)],
                                 [symbols[0], symbols[5], symbols[-1]])
                self.assertEqual(file.dynamic_symbols[3:9], symbols[3:9])
                self.assertEqual(list(file[".dynsym"].symbols()), symbols)
                with self.assertRaises(IndexError):
                    file.dynamic_symbols[len(symbols)]

    def test_version_of_a_needed_symbol(self):
        with nugwier.open(FILE) as file:
            symbol = next(one for one in file.dynamic_symbols if one.version and not one.is_defined)
        said = re.search(rf"Name: {re.escape(symbol.version.name)}\b", readelf("-V", FILE))
        self.assertTrue(said)
        self.assertIn(f"File: {symbol.version.file}", readelf("-V", FILE))
        self.assertFalse(symbol.version.is_default)

    def test_find_and_hash_check(self):
        with nugwier.open(FILE) as file:
            self.assertTrue(file.hash_check()[0])
            defined = [one for one in file.symbols(dynamic=True) if one.shndx and one.name]
            for one in defined[:50]:
                self.assertEqual(file.find(one.name).name, one.name)
            self.assertIsNone(file.find("there is no such symbol"))
            self.assertIsNone(file.find(""))
        rows = [line.split() for line in run("nm", "-D", "--defined-only", LIBRARY).splitlines()]
        values = {}
        for row in rows:
            values.setdefault(row[2].partition("@")[0], set()).add(int(row[0], 16))
        with nugwier.open(LIBRARY) as file:
            for name in list(values)[::7]:
                self.assertIn(file.find(name).value, values[name])
                self.assertEqual(file.find(name.encode()), file.find(name))
                self.assertIn(file.find(name).value, {one.value for one in file.dynamic_symbols.named(name)})

    def test_address(self):
        rows = [row for row in listed("--dyn-syms", LIBRARY) if row[3] in ("FUNC", "OBJECT", "IFUNC")]
        placed = sorted({int(row[1], 16) for row in rows if row[6] not in ("UND", "ABS", "COM")})
        sizes = {}
        for row in rows:
            sizes.setdefault(int(row[1], 16), set()).add(int(row[2], 0))
        with nugwier.open(LIBRARY) as file:
            self.assertIsNone(file.address(placed[0] - 1))
            self.assertIsNone(file.address(-1))
            self.assertEqual(file.address(1 << 70).distance, (1 << 70) - placed[-1])
            for value, following in list(zip(placed, placed[1:]))[::9]:
                for address in (value, following - 1):
                    found = file.address(address)
                    self.assertEqual((found.symbol.value, found.distance), (value, address - value))
                    self.assertIn(found.symbol.size, sizes[value])
                    self.assertEqual(found.is_inside, address - value < found.symbol.size)

    def test_relocations(self):
        rows = re.findall(r"^([0-9a-f]{12,16}) +([0-9a-f]{16}) (R_\w+) +(.*)$", readelf("-r", FILE), re.M)
        with nugwier.open(FILE) as file:
            relocations = list(file.relocations())
            self.assertEqual(sum(len(list(one.relocations())) for one in file if one.type in (SHT.SHT_RELA,)),
                             len(relocations))
        self.assertEqual(len(relocations), len(rows))
        self.assertGreater(len(rows), 5)
        for relocation, (offset, info, kind, rest) in zip(relocations, rows):
            self.assertEqual(relocation.offset, int(offset, 16))
            self.assertEqual((relocation.symbol_index, int(relocation.type)), divmod(int(info, 16), 1 << 32))
            # readelf cuts the name of a type off
            self.assertTrue(relocation.type.name.startswith(kind.rstrip("]")))
            if relocation.symbol_index:
                self.assertEqual(rest.split()[1].partition("@")[0], relocation.symbol.name)
            addend = re.search(r"(?:([+-]) |^)([0-9a-f]+)$", rest)
            self.assertEqual(relocation.addend, int((addend.group(1) or "") + addend.group(2), 16))

    def test_dynamic(self):
        rows = re.findall(r"^ 0x(\w{16}) \((\w+)\) +(.*)$", readelf("-d", LIBRARY), re.M)
        with nugwier.open(LIBRARY) as file:
            entries = list(file.dynamic())
            needed, soname, runpath, rpath = file.needed, file.soname, file.runpath, file.rpath
        self.assertEqual(len(entries), len(rows))
        for entry, (tag, name, rest) in zip(entries, rows):
            self.assertEqual((int(entry.tag), entry.tag.name), (int(tag, 16), "DT_" + name))
            if entry.text is not None:
                self.assertIn(f"[{entry.text}]", rest)
                self.assertEqual(entry.text_bytes, entry.text.encode())
            elif rest.startswith("0x"):
                self.assertEqual(entry.value, int(rest, 16))
        self.assertEqual(needed, re.findall(r"\(NEEDED\) +Shared library: \[(.*)]", readelf("-d", LIBRARY)))
        self.assertEqual((soname, runpath, rpath), ("libc.so.6", None, None))

    def test_notes(self):
        said = readelf("-n", LIBRARY)
        with nugwier.open(LIBRARY) as file:
            self.assertEqual(file.build_id, re.search(r"Build ID: (\w+)", said).group(1))
            found = list(file.notes())
            self.assertEqual([one for section in file if section.type == SHT.SHT_NOTE for one in section.notes()],
                             found)
            of_segments = [one for segment in file.segments if segment.type == PT.PT_NOTE for one in segment.notes()]
            self.assertEqual(set(of_segments), set(found))
        self.assertEqual([one.type.name for one in found], re.findall(r"NT_GNU_\w+", said))
        self.assertEqual({one.owner for one in found}, {"GNU"})
        (tag,) = (one.abi_tag for one in found if one.abi_tag)
        self.assertEqual(f"OS: Linux, ABI: {tag.major}.{tag.minor}.{tag.subminor}",
                         re.search(r"OS: Linux, ABI: [\d.]+", said).group())
        (note,) = (one for one in found if one.abi_tag)
        self.assertEqual(note.desc, struct.pack("<4I", *tag))
        for note in found:
            for one in note.properties:
                self.assertIn(one.bits.name or "", "GNU_PROPERTY_X86_ISA_1_BASELINE")

    def test_data(self):
        with nugwier.open(FILE) as file:
            self.assertIsNone(file.section_data(".no.such.section"))
            self.assertTrue(file.section_data(".dynstr").startswith(b"\0"))
            section = file[".dynstr"]
            self.assertEqual(section.data(), Path(FILE).read_bytes()[section.offset:section.offset + section.size])
            self.assertIsNone(section.compression)

    def test_closed(self):
        file = nugwier.open(FILE)
        text, sections, symbols = file[".text"], file.sections, file.dynamic_symbols
        file.close()
        file.close()
        for call in (lambda: list(file.sections()), lambda: file.header, lambda: file.find("x"), file.check, text.data,
                     lambda: file.sections, lambda: len(symbols), lambda: symbols[1], lambda: list(sections),
                     lambda: file.machine, lambda: file.needed, lambda: file.build_id, lambda: file.address(0)):
            with self.assertRaises(ValueError):
                call()

    def test_iterators_end_with_an_error_after_close(self):
        for iterate in (lambda file: file.sections(), lambda file: file.segments(), lambda file: file.symbols(),
                        lambda file: file.symbols(dynamic=True), lambda file: iter(file.dynamic_symbols),
                        lambda file: file.relocations(), lambda file: file.dynamic(), lambda file: file.notes(), iter):
            with nugwier.open(FILE) as file:
                iterator = iterate(file)
                if next(iterator, None) is None:
                    continue
            with self.assertRaises(ValueError):
                next(iterator)


class Opening(unittest.TestCase):
    def test_sources(self):
        content = Path(FILE).read_bytes()
        with nugwier.open(FILE) as file:
            expected = (list(file.sections), list(file.dynamic_symbols), file.needed, file.build_id, file.check())
        with open(FILE, "rb") as buffered, open(FILE, "rb", buffering=0) as raw:
            for source in (Path(FILE), content, bytearray(content), memoryview(content), io.BytesIO(content), buffered,
                           raw):
                with nugwier.open(source) as file:
                    self.assertEqual((list(file.sections), list(file.dynamic_symbols), file.needed, file.build_id,
                                      file.check()), expected)
            with mmap.mmap(raw.fileno(), 0, access=mmap.ACCESS_READ) as mapped, nugwier.open(mapped) as file:
                self.assertEqual(list(file.sections), expected[0])
            self.assertFalse(buffered.closed or raw.closed)

    def test_a_pipe(self):
        with subprocess.Popen(["cat", FILE], stdout=subprocess.PIPE) as cat:
            with nugwier.open(cat.stdout) as file:
                self.assertIn(".text", file)

    def test_bytes_that_change_afterwards(self):
        content = bytearray(Path(FILE).read_bytes())
        with nugwier.open(content) as file:
            content[:] = b""
            self.assertIn(".text", file)

    def test_a_file_object_is_read_by_parts(self):
        class Counted(io.FileIO):
            total = 0

            def read(self, size=-1):
                got = super().read(size)
                self.total += len(got)
                return got

        with Counted(LIBRARY) as counted, nugwier.open(counted) as file:
            self.assertEqual(counted.total, 64 + 64 * file.header["shnum"] + 56 * file.header["phnum"])
            self.assertEqual(file.soname, "libc.so.6")
            self.assertEqual(file.find("printf").name, "printf")
            self.assertLess(counted.total, os.stat(LIBRARY).st_size // 4)
            self.assertIsNone(file.check())

    def test_a_file_object_that_is_cut_short(self):
        with tempfile.NamedTemporaryFile() as copy:
            copy.write(Path(LIBRARY).read_bytes())
            copy.flush()
            with nugwier.open(copy) as file:
                os.truncate(copy.name, 64)
                with self.assertRaises(EOFError):
                    file.find("printf")

    def test_errors(self):
        with tempfile.NamedTemporaryFile() as empty:
            for source in (empty.name, b"", io.BytesIO()):
                with self.assertRaises(nugwier.ElfError) as caught:
                    nugwier.open(source)
                self.assertEqual(caught.exception.kind, "SliceReadError")
        other = b"no ELF file, but long enough for one" * 4
        for source in (other, io.BytesIO(other)):
            with self.assertRaises(nugwier.ElfError) as caught:
                nugwier.open(source)
            error = caught.exception
            self.assertEqual((error.code, error.kind, error.second), (1, "BadMagic", 0))
            self.assertEqual(error.first, int.from_bytes(b"no E", "little"))
            self.assertEqual(str(error), "Invalid Magic Bytes: [6E, 6F, 20, 45]")
        with self.assertRaises(FileNotFoundError):
            nugwier.open("/there/is/no/such/file")
        with self.assertRaises(TypeError):
            nugwier.open(io.StringIO("text"))

    def test_files_without_a_size_are_read(self):
        self.assertEqual(os.stat("/proc/self/status").st_size, 0)
        for source in ("/proc/self/status", open("/proc/self/status", "rb")):
            with self.assertRaises(nugwier.ElfError) as caught:
                nugwier.open(source)
            self.assertEqual(caught.exception.kind, "BadMagic")
        source.close()


class Changed(unittest.TestCase):
    """Copies of a file of ELFCLASS64 in which some bytes were changed."""

    def setUp(self):
        self.content = bytearray(Path(FILE).read_bytes())
        with nugwier.open(FILE) as file:
            self.assertIsNone(file.check())
            self.header = file.header
            self.sections = {section.name: section for section in file.sections}
            self.segments = list(file.segments)

    def put(self, offset, layout, value):
        struct.pack_into("<" + layout, self.content, offset, value)

    def fault(self, offset, layout, value):
        """The fault after a field was changed."""
        self.put(offset, layout, value)
        with nugwier.open(bytes(self.content)) as file:
            return file.check()

    def of_section(self, name, field):
        return self.header["shoff"] + 64 * self.sections[name].index + field

    def test_names_that_are_no_text(self):
        at = self.content.index(b".text\0", self.sections[".shstrtab"].offset)
        self.content[at:at + 5] = b".t\xffxt"
        with nugwier.open(bytes(self.content)) as file:
            section = file[b".t\xffxt"]
            self.assertEqual((section.name, section.name_bytes), (".t\udcffxt", b".t\xffxt"))
            self.assertEqual(file[section.name], section)

    def test_names_that_cannot_be_read(self):
        dynsym = self.sections[".dynsym"]
        for index in (2, 3, 5):
            self.put(dynsym.offset + 24 * index, "I", 0xfffffff0)
        self.put(self.of_section(".rodata", 0), "I", 0xfffffff0)
        with nugwier.open(bytes(self.content)) as file, nugwier.open(FILE) as sound:
            self.assertIsNone(file.sections[self.sections[".rodata"].index].name)
            symbols = list(file.dynamic_symbols)
            self.assertEqual([one.index for one in symbols if one.name is None], [2, 3, 5])
            self.assertEqual([one[2:] for one in symbols], [one[2:] for one in sound.dynamic_symbols])
            self.assertIsNone(file.dynamic_symbols[5].name)
            self.assertIsNone(symbols[2].name_bytes)

    def test_no_sections(self):
        self.put(40, "Q", 0)
        self.put(60, "I", 0)
        with nugwier.open(bytes(self.content)) as file, nugwier.open(FILE) as whole:
            self.assertEqual(len(file.sections), 0)
            self.assertEqual(file.needed, whole.needed)
            self.assertEqual(file.build_id, whole.build_id)
            self.assertEqual(file.interpreter, whole.interpreter)
            self.assertEqual({one for one in file.notes() if one.owner == "GNU"},
                             {one for one in whole.notes() if one.owner == "GNU"})
            self.assertEqual(len(file.dynamic_symbols), 0)
            self.assertEqual(list(file.symbols), [])

    def test_dynamic_entries_whose_strings_are_not_there(self):
        with nugwier.open(FILE) as file:
            tags = [entry.tag for entry in file.dynamic()]
        for tag, place, value, error in (
                (DT.DT_STRTAB, 0, 99, ("NoAddress", "no entry DT_STRTAB")),
                (DT.DT_STRSZ, 0, 99, ("NoSize", "no entry DT_STRSZ")),
                (DT.DT_STRTAB, 8, 1 << 60, ("NoSegment", "no segment holds the string table at 0x1000000000000000"))):
            before = bytes(self.content)
            self.put(self.sections[".dynamic"].offset + 16 * tags.index(tag) + place, "Q", value)
            with nugwier.open(bytes(self.content)) as file:
                with self.assertRaises(nugwier.ElfError) as raised:
                    file.needed
                self.assertEqual((raised.exception.kind, str(raised.exception)), error)
                self.assertEqual([entry.text for entry in file.dynamic()], [None] * len(tags))
            self.content[:] = before

    def test_bytes_of_a_section(self):
        index = self.sections[".rodata"].index
        self.assertEqual(self.fault(self.of_section(".rodata", 24), "Q", 1 << 60), nugwier.Fault(
            FaultKind.SECTION_NO_BYTES, Part.SECTION, index, None, 0, 0, f"section {index}: no bytes at its range"))

    def test_name_of_a_section(self):
        index = self.sections[".rodata"].index
        self.assertEqual(self.fault(self.of_section(".rodata", 0), "I", 0xfffffff0), nugwier.Fault(
            FaultKind.SECTION_NO_NAME, Part.SECTION, index, None, 0, 0, f"section {index}: no name"))

    def test_name_of_a_symbol(self):
        # symbol 1 is not defined, so the hash section before the symbols does not name it
        dynsym = self.sections[".dynsym"]
        self.assertEqual(self.fault(dynsym.offset + 24, "I", 0xfffffff0), nugwier.Fault(
            FaultKind.SYMBOL_NO_NAME, Part.SECTION, dynsym.index, None, 1, 0xfffffff0,
            f"section {dynsym.index}: symbol 1: no name at 0xfffffff0"))

    def test_two_sections_of_a_type(self):
        self.assertEqual(self.fault(self.of_section(".rodata", 4), "I", 6), nugwier.Fault(
            FaultKind.REPEATED_TYPE, Part.FILE, None, None, 6, 0, "more than one section of type 0x6"))

    def test_names_of_sections(self):
        self.assertEqual(self.fault(62, "H", 0xfe00), nugwier.Fault(
            FaultKind.NO_NAMES, Part.FILE, None, None, 0, 0, "no names of sections"))

    def test_bytes_of_a_segment(self):
        (index,) = (segment.index for segment in self.segments if segment.kind == 3)
        self.assertEqual(self.fault(self.header["phoff"] + 56 * index + 8, "Q", 1 << 60), nugwier.Fault(
            FaultKind.SEGMENT_NO_BYTES, Part.SEGMENT, None, index, 3, 0,
            f"segment {index} (PT_INTERP): does not lie in the file"))

    def test_a_version(self):
        indexes = self.sections[".gnu.version"]
        self.assertEqual(self.fault(indexes.offset + 2, "H", 0x7ffe), nugwier.Fault(
            FaultKind.UNKNOWN_VERSION_INDEX, Part.VERSIONS, None, None, 1, 0,
            "versions: symbol 1: no version with its index"))
        with nugwier.open(bytes(self.content)) as file:
            self.assertIsNone(file.dynamic_symbols[1].version)

    def test_all_faults(self):
        """More faults than the first array has places: no section has bytes."""
        count = 0
        for section in self.sections.values():
            if section.kind not in (0, 8) and section.size:
                struct.pack_into("<Q", self.content, self.of_section(section.name, 24), 1 << 60)
                count += 1
        with nugwier.open(bytes(self.content)) as file:
            faults = file.faults()
            self.assertEqual(faults[0], file.check())
        self.assertGreater(count, 16)
        of_bytes = [fault for fault in faults if fault.kind is FaultKind.SECTION_NO_BYTES]
        # the names of the sections cannot be read either, and are told once
        self.assertEqual((faults[0].kind, len(of_bytes)), (FaultKind.NO_NAMES, count))

    def test_every_byte_of_the_headers(self):
        """Whatever a byte is changed to, each call returns or raises the error of the library."""
        for at in list(range(4, 64)) + list(range(self.header["shoff"], len(self.content), 197)):
            before = self.content[at]
            self.content[at] ^= 0x55
            try:
                with nugwier.open(bytes(self.content)) as file:
                    for read in (lambda: list(file.sections), lambda: list(file.segments), lambda: file.needed,
                                 lambda: list(file.dynamic_symbols)[:9], lambda: list(file.notes()), file.check,
                                 lambda: file.find("x"), lambda: next(file.relocations(), None)):
                        try:
                            read()
                        except nugwier.ElfError:
                            pass
            except nugwier.ElfError:
                pass
            self.content[at] = before


@unittest.skipUnless(shutil.which("clang"), "there is no clang")
class OfOtherMachines(unittest.TestCase):
    SOURCE = """extern int given[];
        int *kept = &given[2];
        int add(int n) { return n + given[1]; }
        __attribute__((visibility("hidden"))) int hidden;
        __attribute__((visibility("protected"), weak)) int protected;
        """
    # two properties: the first is padded to 8 bytes
    PROPERTIES = """.section .note.gnu.property, "a", @note
        .balign 8
        .long 4, 32, 5
        .asciz "GNU"
        .long 0xc0000002, 4, 3, 0
        .long 0xc0010002, 4, 5, 0
        """

    def compiled(self, target, *words):
        path = os.path.join(self.folder, target + ".o")
        subprocess.run(["clang", "--target=" + target, "-c", "-O1", "-x", "c", "-", "-o", path, *words],
                       input=self.SOURCE.encode(), check=True, stderr=subprocess.DEVNULL)
        return path

    def setUp(self):
        self.folder = tempfile.mkdtemp()
        self.addCleanup(shutil.rmtree, self.folder)

    def test_symbols_and_relocations(self):
        for target, machine, elfclass, little in (
                ("i386-linux-gnu", EM.EM_386, 32, True), ("mips-linux-gnu", EM.EM_MIPS, 32, False),
                ("powerpc64-linux-gnu", EM.EM_PPC64, 64, False), ("riscv64-linux-gnu", EM.EM_RISCV, 64, True),
                ("aarch64-linux-gnu", EM.EM_AARCH64, 64, True), ("s390x-linux-gnu", EM.EM_S390, 64, False)):
            path = self.compiled(target)
            with nugwier.open(path) as file:
                self.assertEqual((file.machine, file.elfclass, file.little_endian, file.type),
                                 (machine, elfclass, little, ET.ET_REL))
                self.assertEqual([[row[0], *row[3:6], *row[7:]] for row in listed("-s", path)],
                                 [[f"{one.index}:", one.type.name[4:], one.bind.name[4:], one.visibility.name[4:],
                                   *([one.name] if one.name else
                                     [file.sections[one.shndx].name] if one.type == STT.STT_SECTION else [])]
                                  for one in file.symbols])
                self.assertEqual({one.bind for one in file.symbols}, {STB.STB_LOCAL, STB.STB_GLOBAL, STB.STB_WEAK})
                rows = re.findall(r"^([0-9a-f]{8,16}) +([0-9a-f]{8,16}) (R_\w+) ", readelf("-r", path), re.M)
                shift = 32 if elfclass == 64 else 8
                self.assertEqual([(one.offset, (one.symbol_index << shift) + one.type, one.type.name[:len(row[2])])
                                  for one, row in zip(file.relocations(), rows)],
                                 [(int(row[0], 16), int(row[1], 16), row[2]) for row in rows])
                self.assertIn("given", {one.symbol.name for one in file.relocations() if one.symbol})

    def test_run_paths(self):
        path = os.path.join(self.folder, "one.so")
        for words, expected in ((["--enable-new-dtags"], (None, "/a:/b")), (["--disable-new-dtags"], ("/a:/b", None))):
            subprocess.run(["clang", "-shared", "-nostdlib", "-x", "c", "-", "-o", path, "-Wl,-soname,one.so.1",
                            "-Wl,-rpath,/a:/b", *("-Wl," + word for word in words)], input=b"int one;\n", check=True)
            with nugwier.open(path) as file:
                self.assertEqual((file.soname, file.needed, file.rpath, file.runpath), ("one.so.1", [], *expected))

    def test_strings_of_dynamic_entries(self):
        path = os.path.join(self.folder, "one.so")
        given = {"--audit": DT.DT_AUDIT, "--depaudit": DT.DT_DEPAUDIT, "-f": DT.DT_AUXILIARY, "-F": DT.DT_FILTER}
        subprocess.run(["clang", "-shared", "-nostdlib", "-x", "c", "-", "-o", path,
                        *(f"-Wl,{word},/a/{tag.name}" for word, tag in given.items())], input=b"int one;\n", check=True)
        with nugwier.open(path) as file:
            texts = {entry.tag: entry.text for entry in file.dynamic() if entry.text is not None}
        self.assertEqual(texts, {tag: "/a/" + tag.name for tag in given.values()})

    def test_two_properties(self):
        path = os.path.join(self.folder, "properties.o")
        subprocess.run(["clang", "-c", "-x", "assembler", "-", "-o", path], input=self.PROPERTIES.encode(), check=True)
        said = readelf("-n", path)
        self.assertIn("x86 feature: IBT, SHSTK", said)
        self.assertIn("x86 ISA used: x86-64-baseline, x86-64-v3", said)
        with nugwier.open(path) as file:
            (note,) = file.notes()
        self.assertEqual([(one.type.name, int(one.bits)) for one in note.properties],
                         [("GNU_PROPERTY_X86_FEATURE_1_AND", 3), ("GNU_PROPERTY_X86_ISA_1_USED", 5)])

    def test_a_property(self):
        path = self.compiled("x86_64-linux-gnu", "-fcf-protection=full")
        self.assertIn("x86 feature: IBT, SHSTK", readelf("-n", path))
        with nugwier.open(path) as file:
            (note,) = file.notes()
        (one,) = note.properties
        self.assertEqual(one.type.name, "GNU_PROPERTY_X86_FEATURE_1_AND")
        self.assertEqual(one.bits, notes.X86_FEATURE_1.GNU_PROPERTY_X86_FEATURE_1_IBT
                         | notes.X86_FEATURE_1.GNU_PROPERTY_X86_FEATURE_1_SHSTK)

    def test_a_compressed_section(self):
        path = self.compiled("x86_64-linux-gnu", "-g")
        run("objcopy", "--compress-debug-sections=zlib-gabi", path)
        with nugwier.open(path) as file:
            section = next(one for one in file if SHF.SHF_COMPRESSED in SHF(one.flags))
            self.assertEqual(section.compression.kind, constants.ELFCOMPRESS.ELFCOMPRESS_ZLIB)
            size = re.search(rf"\[ *{section.index}\].*\n.*\n.*\n +ZLIB, (\w+), (\d+)", readelf("-t", path))
            self.assertEqual((section.compression.size, section.compression.addralign),
                             (int(size.group(1), 16), int(size.group(2))))


class Numbers(unittest.TestCase):
    def test_names(self):
        self.assertEqual((SHT(7).name, str(SHT(7)), f"{SHT(7)}", f"{SHT(7):#x}"), ("SHT_NOTE", "SHT_NOTE", "SHT_NOTE",
                                                                                    "0x7"))
        self.assertEqual((SHT(0x12345), SHT(0x12345).name), (0x12345, "0x12345"))
        self.assertEqual(constants.SECTION_TYPES[EM.EM_ARM](0x70000001).name, "SHT_ARM_EXIDX")
        with self.assertRaises(ValueError):
            SHT("SHT_NOTE")

    # What <elf.h> numbers in its own way: EM_ALPHA, DT_LOOS by a draft, a type of ARC as the one after it, and three of
    # SuperH that linkers and readelf have at other numbers.
    OTHERS_OF_THE_SYSTEM = ("EM_ALPHA", "DT_ENCODING", "R_ARC_TLS_DTPOFF_S9", "R_SH_GNU_VTINHERIT", "R_SH_GNU_VTENTRY",
                            "R_SH_SWITCH8")

    @unittest.skipUnless(os.path.isfile("/usr/include/elf.h"), "there is no <elf.h>")
    def test_constants_of_the_system(self):
        theirs = {}
        for name, value in re.findall(r"^#define\s+(\w+)\s+(\(1U? << \d+\)|0x\w+|\d+)\s*(?:/\*|$)",
                                      Path("/usr/include/elf.h").read_text(), re.M):
            shifted = re.fullmatch(r"\(1U? << (\d+)\)", value)
            theirs[name] = 1 << int(shifted.group(1)) if shifted else int(value.rstrip("UL"), 0)
        compared = 0
        for module in (constants, notes):
            for kind in vars(module).values():
                for name, value in getattr(kind, "__members__", {}).items():
                    if name in theirs and name not in self.OTHERS_OF_THE_SYSTEM:
                        self.assertEqual(value, theirs[name], name)
                        compared += 1
        self.assertGreater(compared, 1000)

    def test_kinds_are_those_of_the_header(self):
        header = (Path(__file__).parent.parent / "c" / "nugwier.h")
        if not header.is_file():
            self.skipTest("there is no nugwier.h")
        kinds = dict(re.findall(r"NUGWIER_FAULT_(\w+) = (\d+)", header.read_text()))
        self.assertEqual({kind.name: kind.value for kind in FaultKind}, {name: int(kinds[name]) for name in kinds})


if __name__ == "__main__":
    unittest.main()
