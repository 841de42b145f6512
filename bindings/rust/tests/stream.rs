//! `ElfStream` over sources in memory, on disk, and such as fail.
#![cfg(feature = "std")]
use nugwier::abi;
use nugwier::endian::{AnyEndian, BigEndian, LittleEndian};
use nugwier::note::Note;
use nugwier::{ElfBytes, ElfStream, ParseError};
use std::cell::Cell;
use std::io::{Cursor, Error, ErrorKind, Read, Result, Seek, SeekFrom};

/// A file of 64 bits with four sections: none, the names of sections, a note, and bytes that are not in the file.
fn small_file() -> Vec<u8> {
    let names = b"\0.names\0.id\0.far\0";
    let note = b"\x04\0\0\0\x04\0\0\0\x03\0\0\0GNU\0\xde\xad\xbe\xef";
    let (names_at, note_at, headers_at) = (64u64, 84u64, 104u64);
    let mut file = Vec::new();
    file.extend_from_slice(&[0x7f, b'E', b'L', b'F', 2, 1, 1, 0, 0, 0, 0, 0, 0, 0, 0, 0]);
    for (number, width) in [
        (abi::ET_DYN.into(), 2),
        (abi::EM_X86_64.into(), 2),
        (1, 4),
        (0, 8),          // e_entry
        (0, 8),          // e_phoff
        (headers_at, 8), // e_shoff
        (0, 4),
        (64, 2),
        (56, 2),
        (0, 2),
        (64, 2),
        (4, 2), // e_shnum
        (1, 2), // e_shstrndx
    ] {
        file.extend_from_slice(&u64::to_le_bytes(number)[..width]);
    }
    file.extend_from_slice(names);
    file.resize(note_at as usize, 0);
    file.extend_from_slice(note);
    for (name, kind, offset, size, align) in [
        (0, abi::SHT_NULL, 0, 0, 0),
        (1, abi::SHT_STRTAB, names_at, names.len() as u64, 1),
        (8, abi::SHT_NOTE, note_at, note.len() as u64, 4),
        (12, abi::SHT_PROGBITS, 1 << 50, 1 << 50, 1),
    ] {
        file.extend_from_slice(&u32::to_le_bytes(name));
        file.extend_from_slice(&u32::to_le_bytes(kind));
        for number in [0, 0, offset, size, 0, align, 0] {
            file.extend_from_slice(&u64::to_le_bytes(number));
        }
    }
    file
}

/// A source that gives few bytes at a time, counts its reads, fails if it is told to, and may say that it is longer.
struct Odd<'a> {
    bytes: Cursor<&'a [u8]>,
    reads: &'a Cell<usize>,
    fails: &'a Cell<bool>,
    size: Option<u64>,
}

impl Read for Odd<'_> {
    fn read(&mut self, place: &mut [u8]) -> Result<usize> {
        if self.fails.get() {
            return Err(Error::from(ErrorKind::Other));
        }
        self.reads.set(self.reads.get() + 1);
        let most = place.len().min(7);
        self.bytes.read(&mut place[..most])
    }
}

impl Seek for Odd<'_> {
    fn seek(&mut self, to: SeekFrom) -> Result<u64> {
        match (to, self.size) {
            (SeekFrom::End(0), Some(size)) => Ok(size),
            _ => self.bytes.seek(to),
        }
    }
}

#[test]
fn a_small_file_is_read() {
    let bytes = small_file();
    let mut file = ElfStream::<AnyEndian, _>::open_stream(Cursor::new(&bytes)).unwrap();
    assert_eq!(file.ehdr.e_type, abi::ET_DYN);
    assert!(file.segments().is_empty());
    assert_eq!(file.section_headers().len(), 4);
    let (sections, names) = file.section_headers_with_strtab().unwrap();
    let names = names.unwrap();
    let all: Vec<&str> = sections
        .iter()
        .map(|section| names.get(section.sh_name as usize).unwrap())
        .collect();
    assert_eq!(all, ["", ".names", ".id", ".far"]);

    let id = *file.section_header_by_name(".id").unwrap().unwrap();
    assert_eq!(
        (id.sh_type, id.sh_offset, id.sh_size),
        (abi::SHT_NOTE, 84, 20)
    );
    assert!(file.section_header_by_name(".none").unwrap().is_none());
    let notes: Vec<Note<'_>> = file.section_data_as_notes(&id).unwrap().collect();
    assert!(matches!(&notes[..], [Note::GnuBuildId(id)] if id.0 == [0xde, 0xad, 0xbe, 0xef]));
    assert!(matches!(
        file.section_data_as_strtab(&id),
        Err(ParseError::UnexpectedSectionType((7, 3)))
    ));

    // a range past the end: the error has its end
    let far = *file.section_header_by_name(".far").unwrap().unwrap();
    assert!(matches!(
        file.section_data(&far),
        Err(ParseError::BadOffset(end)) if end == 1 << 51
    ));
    assert!(file.symbol_table().unwrap().is_none());
    assert!(file.dynamic().unwrap().is_none());
    assert!(file.symbol_version_table().unwrap().is_none());
}

#[test]
fn files_that_do_not_open() {
    let bytes = small_file();
    let open =
        |bytes: &[u8]| ElfStream::<AnyEndian, _>::open_stream(Cursor::new(bytes)).unwrap_err();
    assert!(matches!(open(&[]), ParseError::BadOffset(16)));
    assert!(matches!(open(&bytes[..63]), ParseError::BadOffset(64)));
    assert!(matches!(open(&bytes[..359]), ParseError::BadOffset(360)));
    let order = ElfStream::<BigEndian, _>::open_stream(Cursor::new(&bytes[..20]));
    assert!(matches!(
        order.unwrap_err(),
        ParseError::UnsupportedElfEndianness(1)
    ));
}

#[test]
fn what_is_loaded_is_not_read_again() {
    let bytes = small_file();
    let (reads, fails) = (Cell::new(0), Cell::new(false));
    let source = Odd {
        bytes: Cursor::new(&bytes[..]),
        reads: &reads,
        fails: &fails,
        size: None,
    };
    let mut file = ElfStream::<LittleEndian, _>::open_stream(source).unwrap();
    let id = file.section_headers()[2];

    // the source fails, and works again
    fails.set(true);
    assert!(matches!(
        file.section_data(&id),
        Err(ParseError::IOError(error)) if error.kind() == ErrorKind::Other
    ));
    fails.set(false);
    assert_eq!(file.section_data(&id).unwrap().0, &bytes[84..104]);
    let before = reads.get();
    fails.set(true);
    assert_eq!(file.section_data(&id).unwrap().0, &bytes[84..104]);
    assert_eq!(reads.get(), before);
}

#[test]
fn ranges_that_overlap_do_not_add_up() {
    let bytes = small_file();
    let (reads, fails) = (Cell::new(0), Cell::new(false));
    let source = Odd {
        bytes: Cursor::new(&bytes[..]),
        reads: &reads,
        fails: &fails,
        size: None,
    };
    let mut file = ElfStream::<LittleEndian, _>::open_stream(source).unwrap();
    let mut section = file.section_headers()[1];
    section.sh_offset = 0;
    for size in [360, 359, 360, 358] {
        let before = reads.get();
        section.sh_size = size;
        let wanted = &bytes[..size as usize];
        assert_eq!(file.section_data(&section).unwrap().0, wanted);
        // the last one was dropped for this one
        assert!(reads.get() > before);
    }
}

#[test]
fn a_source_may_end_early() {
    let bytes = small_file();
    let (reads, fails) = (Cell::new(0), Cell::new(false));
    let source = Odd {
        bytes: Cursor::new(&bytes[..]),
        reads: &reads,
        fails: &fails,
        size: Some(1 << 60),
    };
    let mut file = ElfStream::<LittleEndian, _>::open_stream(source).unwrap();
    // no memory is taken for bytes that the source does not have
    let far = file.section_headers()[3];
    assert!(matches!(
        file.section_data(&far),
        Err(ParseError::IOError(error)) if error.kind() == ErrorKind::UnexpectedEof
    ));
}

#[test]
fn a_stream_returns_what_a_slice_returns() {
    let path = "/proc/self/exe";
    let bytes = std::fs::read(path).unwrap();
    let whole = ElfBytes::<AnyEndian>::minimal_parse(&bytes).unwrap();
    let source = std::fs::File::open(path).unwrap();
    let mut file = ElfStream::<AnyEndian, _>::open_stream(source).unwrap();
    assert_eq!(file.ehdr, whole.ehdr);
    let sections: Vec<_> = whole.section_headers().unwrap().iter().collect();
    assert_eq!(file.section_headers(), &sections);
    let segments: Vec<_> = whole.segments().unwrap().iter().collect();
    assert_eq!(file.segments(), &segments);
    for section in &sections {
        assert_eq!(
            file.section_data(section).unwrap(),
            whole.section_data(section).unwrap()
        );
        if section.sh_type == abi::SHT_RELA {
            let relocations = file.section_data_as_relas(section).unwrap();
            assert!(relocations.eq(whole.section_data_as_relas(section).unwrap()));
        }
    }
    for segment in &segments {
        assert_eq!(
            file.segment_data(segment).unwrap(),
            whole.segment_data(segment).unwrap()
        );
    }
    let (dynamic, wanted) = (file.dynamic().unwrap(), whole.dynamic().unwrap());
    assert!(dynamic.unwrap().iter().eq(wanted.unwrap().iter()));
    let count = whole.dynamic_symbol_table().unwrap().unwrap().0.len();
    let (symbols, _) = file.dynamic_symbol_table().unwrap().unwrap();
    assert_eq!(symbols.len(), count);
    let versions = file.symbol_version_table().unwrap().unwrap();
    let wanted = whole.symbol_version_table().unwrap().unwrap();
    for symbol in 0..count {
        assert_eq!(
            versions.get_requirement(symbol).unwrap(),
            wanted.get_requirement(symbol).unwrap()
        );
    }
}
