//! Reads the file of the running test itself.
#![cfg(all(feature = "std", feature = "to_str"))]
use nugwier::abi;
use nugwier::check::{check_file, Fault, Part};
use nugwier::endian::{AnyEndian, BigEndian, LittleEndian, NativeEndian};
use nugwier::fault_kinds;
use nugwier::linking::{build_id, dynamic_names, Library};
use nugwier::named::{named_symbols, symbol_at};
use nugwier::note::Note;
use nugwier::versions::KeptVersions;
use nugwier::{ElfBytes, ParseError};

fn own_file() -> Vec<u8> {
    std::fs::read("/proc/self/exe").unwrap()
}

#[test]
fn sections_have_names() {
    let bytes = own_file();
    let file = ElfBytes::<AnyEndian>::minimal_parse(&bytes).unwrap();
    let (sections, names) = file.section_headers_with_strtab().unwrap();
    let (sections, names) = (sections.unwrap(), names.unwrap());
    assert_eq!(sections.len(), file.ehdr.e_shnum as usize);
    assert_eq!(sections.iter().count(), sections.len());
    for (index, section) in sections.iter().enumerate() {
        assert_eq!(sections.get(index).unwrap(), section);
        let name = names.get(section.sh_name as usize).unwrap();
        if !name.is_empty() {
            assert!(file.section_header_by_name(name).unwrap().is_some());
        }
    }
    assert!(file
        .section_header_by_name("no such section")
        .unwrap()
        .is_none());
    assert!(matches!(
        sections.get(sections.len() + 1),
        Err(ParseError::BadOffset(_))
    ));
}

#[test]
fn symbols_are_found_by_their_names() {
    let bytes = own_file();
    let file = ElfBytes::<NativeEndian>::minimal_parse(&bytes).unwrap();
    let common = file.find_common_data().unwrap();
    let (symbols, strings) = (common.dynsyms.unwrap(), common.dynsyms_strs.unwrap());
    let hash = common.gnu_hash.unwrap();
    for (index, symbol) in symbols
        .iter()
        .enumerate()
        .filter(|(_, symbol)| !symbol.is_undefined())
    {
        let name = strings.get_raw(symbol.st_name as usize).unwrap();
        let (found, same) = hash.find(name, &symbols, &strings).unwrap().unwrap();
        assert!(found <= index);
        assert_eq!(strings.get_raw(same.st_name as usize).unwrap(), name);
    }
    assert!(hash
        .find(b"no such symbol", &symbols, &strings)
        .unwrap()
        .is_none());
}

#[test]
fn look_ups_use_the_current_header_of_a_hash_section() {
    let bytes = own_file();
    let file = ElfBytes::<AnyEndian>::minimal_parse(&bytes).unwrap();
    let common = file.find_common_data().unwrap();
    let (symbols, strings) = (common.dynsyms.unwrap(), common.dynsyms_strs.unwrap());
    let mut hash = common.gnu_hash.unwrap();
    // no name passes where there are no bloom words
    hash.hdr.nbloom = 0;
    for symbol in symbols.iter() {
        let name = strings.get_raw(symbol.st_name as usize).unwrap();
        assert!(hash.find(name, &symbols, &strings).unwrap().is_none());
    }
}

#[test]
fn named_symbols_are_those_of_the_walk() {
    let bytes = own_file();
    let file = ElfBytes::<AnyEndian>::minimal_parse(&bytes).unwrap();
    for (symbols, strings) in [file.symbol_table(), file.dynamic_symbol_table()]
        .into_iter()
        .filter_map(Result::unwrap)
    {
        let mut named = named_symbols(&symbols, &strings);
        for symbol in symbols.iter() {
            let name = strings.get_raw(symbol.st_name as usize).unwrap();
            assert_eq!(named.next().unwrap(), (symbol, name));
        }
        assert!(named.next().is_none());
        assert!(named.next().is_none());
        assert_eq!(symbols.iter().count(), symbols.len());
    }
}

#[test]
fn common_data_are_those_of_the_other_methods() {
    let bytes = own_file();
    let file = ElfBytes::<AnyEndian>::minimal_parse(&bytes).unwrap();
    let common = file.find_common_data().unwrap();
    let (dynsyms, strings) = file.dynamic_symbol_table().unwrap().unwrap();
    assert!(common.dynsyms.unwrap().iter().eq(dynsyms.iter()));
    assert_eq!(
        common.dynsyms_strs.unwrap().get_raw(1).unwrap(),
        strings.get_raw(1).unwrap()
    );
    assert!(common
        .dynamic
        .unwrap()
        .iter()
        .eq(file.dynamic().unwrap().unwrap().iter()));
    assert_eq!(
        common.symtab.map(|symbols| symbols.len()),
        file.symbol_table().unwrap().map(|found| found.0.len())
    );
}

#[test]
fn versions_and_notes_are_read() {
    let bytes = own_file();
    let file = ElfBytes::<AnyEndian>::minimal_parse(&bytes).unwrap();
    let (symbols, _) = file.dynamic_symbol_table().unwrap().unwrap();
    let versions = file.symbol_version_table().unwrap().unwrap();
    let needed = (0..symbols.len()).filter_map(|symbol| versions.get_requirement(symbol).unwrap());
    assert!(needed
        .map(|one| one.file.to_string())
        .any(|file| file.starts_with("libc.so")));
    let notes = file
        .segments()
        .unwrap()
        .iter()
        .filter(|one| one.p_type == abi::PT_NOTE);
    let notes: Vec<Note> = notes
        .flat_map(|one| file.segment_data_as_notes(&one).unwrap())
        .collect();
    assert!(notes
        .iter()
        .any(|note| matches!(note, Note::GnuBuildId(id) if id.0.len() >= 8)));
    assert!(file
        .dynamic()
        .unwrap()
        .unwrap()
        .iter()
        .any(|one| one.d_tag == abi::DT_NEEDED));
}

#[test]
fn versions_that_are_kept_are_those_of_the_table() {
    let bytes = own_file();
    let file = ElfBytes::<AnyEndian>::minimal_parse(&bytes).unwrap();
    let (symbols, _) = file.dynamic_symbol_table().unwrap().unwrap();
    let table = file.symbol_version_table().unwrap().unwrap();
    let mut versions = KeptVersions::new(&table);
    // the second time each is taken from what is kept
    for symbol in (0..symbols.len()).chain(0..symbols.len()) {
        let needed = table.get_requirement(symbol).unwrap();
        let defined = table.get_definition(symbol).unwrap();
        let found = versions.get(symbol).unwrap();
        assert_eq!(found.is_some(), needed.is_some() || defined.is_some());
        if let (Some(found), Some(defined)) = (found, &defined) {
            assert_eq!(found.file, None);
            assert_eq!((found.hash, found.flags), (defined.hash, defined.flags));
        } else if let (Some(found), Some(needed)) = (found, needed) {
            assert_eq!((found.file, found.name), (Some(needed.file), needed.name));
            assert_eq!((found.hash, found.flags), (needed.hash, needed.flags));
            assert_eq!(found.hidden, needed.hidden);
        }
    }
    assert!(versions.get(symbols.len()).is_err());
}

#[test]
fn errors_are_those_of_the_first_step() {
    assert!(matches!(
        ElfBytes::<AnyEndian>::minimal_parse(&[]),
        Err(ParseError::SliceReadError((0, 16)))
    ));
    let bytes = own_file();
    assert!(matches!(
        ElfBytes::<BigEndian>::minimal_parse(&bytes),
        Err(ParseError::UnsupportedElfEndianness(1))
    ));
    assert!(ElfBytes::<LittleEndian>::minimal_parse(&bytes).is_ok());
    let mut other = bytes.clone();
    other[0] = 0;
    let error = ElfBytes::<BigEndian>::minimal_parse(&other).unwrap_err();
    assert!(matches!(error, ParseError::BadMagic([0, b'E', b'L', b'F'])));
    assert_eq!(error.to_string(), "Invalid Magic Bytes: [0, 45, 4C, 46]");
}

#[test]
fn errors_have_texts() {
    let texts = [
        (
            ParseError::BadMagic([0x7f, 10, 0, 255]),
            "Invalid Magic Bytes: [7F, A, 0, FF]",
        ),
        (
            ParseError::UnsupportedElfClass(200),
            "Unsupported ELF Class: 200",
        ),
        (
            ParseError::UnsupportedElfEndianness(201),
            "Unsupported ELF Endianness: 201",
        ),
        (
            ParseError::UnsupportedVersion((11, u64::MAX)),
            "Unsupported ELF Version field found: 11 expected: 18446744073709551615",
        ),
        (ParseError::BadOffset(0xabcd), "Bad offset: 0xABCD"),
        (
            ParseError::StringTableMissingNul(0),
            "Could not find terminating NUL byte starting at offset: 0x0",
        ),
        (
            ParseError::BadEntsize((0x1f, 0x18)),
            "Invalid entsize. Expected: 0x18, Found: 0x1F",
        ),
        (
            ParseError::UnexpectedSectionType((12, 3)),
            "Could not interpret section of type 12 as type 3",
        ),
        (
            ParseError::UnexpectedSegmentType((13, 2)),
            "Could not interpret section of type 13 as type 2",
        ),
        (
            ParseError::UnexpectedAlignment(15),
            "Could not interpret section with unexpected alignment of 15",
        ),
        (
            ParseError::SliceReadError((0x2c, 0x3d)),
            "Could not read bytes in range [0x2C, 0x3D)",
        ),
        (ParseError::IntegerOverflow, "Integer overflow detected"),
    ];
    for (error, text) in texts {
        assert_eq!(error.to_string(), text);
    }
}

#[test]
fn values_have_names() {
    assert_eq!(nugwier::to_str::e_machine_to_str(62), Some("EM_X86_64"));
    assert_eq!(
        nugwier::to_str::sh_type_to_string(0x12345),
        "sh_type(0x12345)"
    );
    // as readelf prints them
    use nugwier::names;
    let types = [
        (3, 7, "R_386_JUMP_SLOT"),
        (4, 21, "R_68K_JMP_SLOT"),
        (15, 129, "R_PARISC_IPLT"),
        (43, 22, "R_SPARC_RELATIVE"),
    ];
    for (e_machine, r_type, name) in types {
        assert_eq!(names::relocation_type(e_machine, r_type), Some(name));
    }
    assert_eq!(names::relocation_type(0, 7), None);
    assert_eq!(names::section_type(40, 0x7000_0001), Some("SHT_ARM_EXIDX"));
    assert_eq!(names::section_type(62, 19), Some("SHT_RELR"));
    assert_eq!(names::segment_type(40, 0x7000_0001), Some("PT_ARM_EXIDX"));
    assert_eq!(names::segment_type(62, 1), Some("PT_LOAD"));
    assert_eq!(names::tag(43, 0x7000_0001), Some("DT_SPARC_REGISTER"));
    assert_eq!(names::tag(43, 0x7000_0002), None);
    assert_eq!(names::note_type(b"GNU", 3), Some("NT_GNU_BUILD_ID"));
    assert_eq!(names::note_type(b"", 3), None);
    assert_eq!(nugwier::hash::gnu_hash(b"printf"), 0x156b2bb8);
    assert_eq!(nugwier::hash::sysv_hash(b"printf"), 0x077905a6);
}

/// The fault of a file after eight bytes were changed.
fn fault_after(offset: usize, value: u64) -> Result<(), Fault> {
    let mut bytes = own_file();
    bytes[offset..offset + 8].copy_from_slice(&value.to_le_bytes());
    check_file(&ElfBytes::<AnyEndian>::minimal_parse(&bytes).unwrap())
}

#[test]
fn a_file_is_checked() {
    let bytes = own_file();
    let file = ElfBytes::<AnyEndian>::minimal_parse(&bytes).unwrap();
    assert_eq!(check_file(&file), Ok(()));

    // sh_offset is at byte 24 of a section header, p_offset at byte 8 of a program header
    let sections = file.section_headers().unwrap();
    let index = sections
        .iter()
        .position(|section| section.sh_type == abi::SHT_PROGBITS)
        .unwrap();
    let fault = fault_after(file.ehdr.e_shoff as usize + 64 * index + 24, 1 << 60).unwrap_err();
    assert_eq!(
        (fault.kind, fault.part),
        (fault_kinds::SECTION_NO_BYTES, Part::Section(index))
    );
    assert_eq!(
        fault.to_string(),
        format!("section {index}: no bytes at its range")
    );

    let segments = file.segments().unwrap();
    let index = segments
        .iter()
        .position(|segment| segment.p_type == abi::PT_INTERP)
        .unwrap();
    let fault = fault_after(file.ehdr.e_phoff as usize + 56 * index + 8, 1 << 60).unwrap_err();
    assert_eq!(
        fault,
        Fault {
            kind: fault_kinds::SEGMENT_NO_BYTES,
            part: Part::Segment(index),
            first: u64::from(abi::PT_INTERP),
            second: 0
        }
    );
    assert_eq!(
        fault.to_string(),
        format!("segment {index} (PT_INTERP): does not lie in the file")
    );
}

#[test]
fn names_for_the_dynamic_linker_need_no_sections() {
    let mut bytes = own_file();
    let with_sections = bytes.clone();
    bytes[40..48].fill(0);
    bytes[60..62].fill(0);
    let whole = ElfBytes::<AnyEndian>::minimal_parse(&with_sections).unwrap();
    let file = ElfBytes::<AnyEndian>::minimal_parse(&bytes).unwrap();
    assert!(file.section_headers().is_none());
    let names = dynamic_names(&file).unwrap().unwrap();
    let libraries: Vec<Library<'_>> = names.libraries().map(Result::unwrap).collect();
    let libc = Library {
        tag: abi::DT_NEEDED,
        name: b"libc.so.6",
    };
    assert!(libraries.contains(&libc));
    assert!(names.soname().unwrap().is_none());
    assert_eq!(build_id(&file).unwrap(), build_id(&whole).unwrap());
}

#[test]
fn a_symbol_is_found_by_its_address() {
    let bytes = own_file();
    let file = ElfBytes::<AnyEndian>::minimal_parse(&bytes).unwrap();
    let (symbols, _) = file.symbol_table().unwrap().unwrap();
    let function = symbols
        .iter()
        .find(|symbol| symbol.st_symtype() == abi::STT_FUNC && symbol.st_size > 1)
        .unwrap();
    let (index, found) = symbol_at(&symbols, function.st_value + 1).unwrap();
    assert_eq!(found.st_value, function.st_value);
    assert_eq!(symbols.get(index).unwrap(), found);
    assert!(symbol_at(&symbols, 0).is_none());
}
