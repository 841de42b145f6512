//! Records of the caller and of this crate, in tables, iterators and by themselves. The expected numbers are those of
//! the bytes as they are written here.
use nugwier::abi;
use nugwier::dynamic::Dyn;
use nugwier::endian::{AnyEndian, BigEndian, EndianParse, LittleEndian};
use nugwier::file::{parse_ident, Class, FileHeader};
use nugwier::gnu_symver::{
    SymbolNamesIterator, SymbolVersionTable, VerDefAuxIterator, VerDefIterator, VerNeedIterator,
    VersionIndex, VersionIndexTable,
};
use nugwier::parse::{ParseAt, ParseError, ParsingIterator, ParsingTable};
use nugwier::string_table::StringTable;
use nugwier::symbol::Symbol;

/// A record of a caller: a number of 16 bits and one of 32.
#[derive(Debug, PartialEq)]
struct Pair(u16, u32);

impl ParseAt for Pair {
    fn parse_at<E: EndianParse>(
        endian: E,
        _class: Class,
        offset: &mut usize,
        data: &[u8],
    ) -> Result<Self, ParseError> {
        let first = endian.parse_u16_at(offset, data)?;
        Ok(Pair(first, endian.parse_u32_at(offset, data)?))
    }

    fn size_for(_class: Class) -> usize {
        6
    }
}

const COUNTED: [u8; 14] = [0, 1, 2, 3, 4, 5, 6, 7, 8, 9, 10, 11, 12, 13];

#[test]
fn a_table_holds_records_of_the_caller() {
    let table = ParsingTable::<BigEndian, Pair>::new(BigEndian, Class::ELF64, &COUNTED);
    assert_eq!(table.len(), 2);
    assert_eq!(table.get(1).unwrap(), Pair(0x0607, 0x0809_0a0b));
    let all: Vec<Pair> = table.iter().collect();
    assert_eq!(all, [Pair(0x0001, 0x0203_0405), Pair(0x0607, 0x0809_0a0b)]);
    // the third begins within the bytes, and its second number does not end there
    assert!(matches!(
        table.get(2),
        Err(ParseError::SliceReadError((14, 18)))
    ));
    assert!(matches!(table.get(3), Err(ParseError::BadOffset(3))));
    assert!(matches!(
        table.get(usize::MAX),
        Err(ParseError::IntegerOverflow)
    ));
    assert!(matches!(
        Pair::validate_entsize(Class::ELF32, 8),
        Err(ParseError::BadEntsize((8, 6)))
    ));

    let mut little =
        ParsingIterator::<LittleEndian, Pair>::new(LittleEndian, Class::ELF32, &COUNTED);
    assert_eq!(little.next(), Some(Pair(0x0100, 0x0504_0302)));
    assert_eq!(little.next(), Some(Pair(0x0706, 0x0b0a_0908)));
    assert_eq!(little.next(), None);
    assert_eq!(little.next(), None);
}

#[test]
fn a_record_is_read_at_an_offset() {
    let bytes: Vec<u8> = (0..40).collect();
    let mut offset = 3;
    let symbol = Symbol::parse_at(LittleEndian, Class::ELF32, &mut offset, &bytes).unwrap();
    let wanted = Symbol {
        st_name: 0x0605_0403,
        st_value: 0x0a09_0807,
        st_size: 0x0e0d_0c0b,
        st_info: 0x0f,
        st_other: 0x10,
        st_shndx: 0x1211,
    };
    assert_eq!((symbol, offset), (wanted, 19));

    let mut offset = 30;
    let entry = Dyn::parse_at(AnyEndian::Big, Class::ELF32, &mut offset, &bytes).unwrap();
    assert_eq!((entry.d_tag, entry.d_val()), (0x1e1f_2021, 0x2223_2425));
    // the first number is there, the second one is not
    let mut offset = 34;
    let error = Dyn::parse_at(AnyEndian::Big, Class::ELF32, &mut offset, &bytes).unwrap_err();
    assert!(matches!(error, ParseError::SliceReadError((38, 42))));
    assert_eq!(offset, 38);
    let mut offset = 41;
    let error = Dyn::parse_at(AnyEndian::Big, Class::ELF64, &mut offset, &bytes).unwrap_err();
    assert!(matches!(error, ParseError::SliceReadError((41, 49))));
    let mut offset = usize::MAX;
    let error = Dyn::parse_at(AnyEndian::Big, Class::ELF64, &mut offset, &bytes).unwrap_err();
    assert!(matches!(error, ParseError::IntegerOverflow));
}

#[test]
fn tables_hold_numbers_and_version_indexes() {
    let numbers = ParsingTable::<LittleEndian, u64>::new(LittleEndian, Class::ELF32, &COUNTED);
    assert_eq!(numbers.iter().collect::<Vec<_>>(), [0x0706_0504_0302_0100]);
    let numbers = ParsingTable::<BigEndian, u32>::new(BigEndian, Class::ELF32, &COUNTED);
    assert_eq!(numbers.get(2).unwrap(), 0x0809_0a0b);
    let indexes = VersionIndexTable::new(BigEndian, Class::ELF64, &[0x80, 2, 0, 1, 0, 0]);
    let hidden = indexes.get(0).unwrap();
    assert_eq!((hidden.index(), hidden.is_hidden()), (2, true));
    assert_eq!(indexes.get(1).unwrap(), VersionIndex(1));
    assert!(indexes.get(1).unwrap().is_global());
    assert!(indexes.get(2).unwrap().is_local());
}

#[test]
fn the_header_is_read_in_two_parts() {
    let mut ident = [0; abi::EI_NIDENT];
    ident[..9].copy_from_slice(&[0x7f, b'E', b'L', b'F', 1, 2, 1, 3, 4]);
    let read = parse_ident::<AnyEndian>(&ident).unwrap();
    assert_eq!(read, (AnyEndian::Big, Class::ELF32, 3, 4));
    assert!(matches!(
        parse_ident::<LittleEndian>(&ident),
        Err(ParseError::UnsupportedElfEndianness(2))
    ));
    assert!(matches!(
        parse_ident::<AnyEndian>(&ident[..8]),
        Err(ParseError::SliceReadError((0, 16)))
    ));

    let tail: Vec<u8> = (0..36).collect();
    let header = FileHeader::parse_tail(read, &tail).unwrap();
    assert_eq!((header.e_type, header.e_machine), (0x0001, 0x0203));
    assert_eq!((header.version, header.e_entry), (0x0405_0607, 0x0809_0a0b));
    assert_eq!((header.e_shoff, header.e_flags), (0x1011_1213, 0x1415_1617));
    assert_eq!((header.e_ehsize, header.e_shstrndx), (0x1819, 0x2223));
    assert!(matches!(
        FileHeader::parse_tail(read, &tail[..35]),
        Err(ParseError::SliceReadError((34, 36)))
    ));
}

/// Two needs of the same file: version 3 at offset 1 of the strings, and version 2 at offset 5.
#[rustfmt::skip]
const NEEDS: [u8; 48] = [
    // vn_version, vn_cnt, vn_file, vn_aux, vn_next
    0, 1, 0, 2, 0, 0, 0, 9, 0, 0, 0, 16, 0, 0, 0, 0,
    // vna_hash, vna_flags, vna_other, vna_name, vna_next
    0, 0, 0, 7, 0, 2, 0, 3, 0, 0, 0, 1, 0, 0, 0, 16,
    0, 0, 0, 8, 0, 0, 0, 2, 0, 0, 0, 5, 0, 0, 0, 0,
];

/// A definition with index 4 and two names.
#[rustfmt::skip]
const DEFINITIONS: [u8; 36] = [
    // vd_version, vd_flags, vd_ndx, vd_cnt, vd_hash, vd_aux, vd_next
    0, 1, 0, 1, 0, 4, 0, 2, 0, 0, 0, 9, 0, 0, 0, 20, 0, 0, 0, 0,
    // vda_name, vda_next
    0, 0, 0, 1, 0, 0, 0, 8,
    0, 0, 0, 5, 0, 0, 0, 0,
];

const INDEXES: [u8; 8] = [0, 3, 0x80, 2, 0, 4, 0, 6];

#[test]
fn versions_are_read_by_their_iterators() {
    let mut needs = VerNeedIterator::new(BigEndian, Class::ELF64, 3, 0, &NEEDS);
    let (need, versions) = needs.next().unwrap();
    assert_eq!((need.vn_cnt, need.vn_file), (2, 9));
    let versions: Vec<_> = versions
        .map(|version| (version.vna_other, version.vna_name, version.vna_hash))
        .collect();
    assert_eq!(versions, [(3, 1, 7), (2, 5, 8)]);
    // a third is declared, but the first is the last of the chain
    assert!(needs.next().is_none());

    let mut definitions = VerDefIterator::new(BigEndian, Class::ELF64, 1, 0, &DEFINITIONS);
    let (definition, names) = definitions.next().unwrap();
    assert_eq!((definition.vd_ndx, definition.vd_hash), (4, 9));
    let names: Vec<u32> = names.map(|name| name.vda_name).collect();
    assert_eq!(names, [1, 5]);

    let strings = StringTable::new(b"\0one\0two\0file\0");
    let entries = VerDefAuxIterator::new(BigEndian, Class::ELF64, 1, 28, &DEFINITIONS);
    let names: Vec<_> = SymbolNamesIterator::new(entries, &strings)
        .map(Result::unwrap)
        .collect();
    assert_eq!(names, ["two"]);
}

#[test]
fn versions_are_looked_up_in_a_table_of_the_caller() {
    let strings = StringTable::new(b"\0one\0two\0file\0");
    let indexes = VersionIndexTable::new(BigEndian, Class::ELF64, &INDEXES);
    let needs = VerNeedIterator::new(BigEndian, Class::ELF64, 1, 0, &NEEDS);
    let definitions = VerDefIterator::new(BigEndian, Class::ELF64, 1, 0, &DEFINITIONS);
    let table = SymbolVersionTable::new(
        indexes,
        Some((needs, strings)),
        Some((definitions, strings)),
    );
    let needed = table.get_requirement(1).unwrap().unwrap();
    assert_eq!((needed.file, needed.name), ("file", "two"));
    assert_eq!((needed.hash, needed.hidden), (8, true));
    assert!(table.get_requirement(3).unwrap().is_none());
    assert!(table.get_definition(0).unwrap().is_none());
    let defined = table.get_definition(2).unwrap().unwrap();
    let names: Vec<_> = defined.names.map(Result::unwrap).collect();
    assert_eq!(names, ["one", "two"]);
    assert!(matches!(
        table.get_requirement(4),
        Err(ParseError::SliceReadError((8, 10)))
    ));

    // the file's name is not UTF-8, and the version's name does not lie in the strings: the first is the error
    let mut bytes = NEEDS;
    bytes[43] = 200;
    let strings = StringTable::new(b"\0one\0two\0\xffile\0");
    let needs = VerNeedIterator::new(BigEndian, Class::ELF64, 1, 0, &bytes);
    let table = SymbolVersionTable::new(indexes, Some((needs, strings)), None);
    assert!(matches!(
        table.get_requirement(1),
        Err(ParseError::Utf8Error(_))
    ));
}

#[test]
fn needs_may_begin_later() {
    let mut bytes = vec![0xff; 5];
    bytes.extend_from_slice(&NEEDS);
    let strings = StringTable::new(b"\0one\0two\0file\0");
    let indexes = VersionIndexTable::new(BigEndian, Class::ELF64, &INDEXES);
    let needs = VerNeedIterator::new(BigEndian, Class::ELF64, 1, 5, &bytes);
    let table = SymbolVersionTable::new(indexes, Some((needs, strings)), None);
    assert_eq!(table.get_requirement(0).unwrap().unwrap().name, "one");
}

#[cfg(feature = "to_str")]
#[test]
fn values_have_names_in_words() {
    use nugwier::to_str::{e_machine_to_human_str, e_type_to_human_str};
    assert_eq!(e_type_to_human_str(abi::ET_DYN), Some("Shared object file"));
    assert_eq!(e_type_to_human_str(77), None);
    assert_eq!(e_machine_to_human_str(abi::EM_RISCV), Some("RISC-V"));
    assert_eq!(e_machine_to_human_str(11), None);
}

#[cfg(all(feature = "alloc", feature = "to_str"))]
#[test]
fn flags_of_segments_have_texts() {
    use nugwier::to_str::p_flags_to_string;
    assert_eq!(p_flags_to_string(abi::PF_R | abi::PF_X), "R E");
    assert_eq!(p_flags_to_string(abi::PF_W), " W ");
    assert_eq!(p_flags_to_string(9), "p_flags(0x9)");
}
