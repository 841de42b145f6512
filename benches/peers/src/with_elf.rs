//! The loops with the crate `elf`.
use crate::{lacking, repeated, Fallible, Input, Loops};
use elf::abi;
use elf::endian::AnyEndian;
use elf::gnu_symver::SymbolVersionTable;
use elf::note::Note;
use elf::string_table::StringTable;
use elf::symbol::{Symbol, SymbolTable};
use elf::{ElfBytes, ParseError};
use std::hint::black_box;

pub struct Elf<'data> {
    input: &'data Input<'data>,
    file: ElfBytes<'data, AnyEndian>,
}

impl<'data> Elf<'data> {
    pub fn open(input: &'data Input<'data>) -> Fallible<Self> {
        let file = open(input.data)?;
        Ok(Elf { input, file })
    }

    fn symbols_and_strings(&self) -> Fallible<(SymbolTable<'data, AnyEndian>, StringTable<'data>)> {
        match self.file.dynamic_symbol_table()? {
            Some(found) => Ok(found),
            None => lacking("dynamic symbols"),
        }
    }

    fn symbols(&self, mut sum: u64) -> Fallible<u64> {
        let (symbols, _) = self.symbols_and_strings()?;
        for symbol in symbols.iter() {
            sum = sum
                .wrapping_add(symbol.st_value)
                .wrapping_add(symbol.st_size);
        }
        Ok(sum)
    }

    fn names(&self, mut sum: u64) -> Fallible<u64> {
        let (symbols, strings) = self.symbols_and_strings()?;
        for symbol in symbols.iter() {
            let name = strings.get_raw(symbol.st_name as usize)?;
            sum = sum
                .wrapping_add(symbol.st_value)
                .wrapping_add(name.len() as u64);
        }
        Ok(sum)
    }

    fn texts(&self, mut sum: u64) -> Fallible<u64> {
        let (symbols, strings) = self.symbols_and_strings()?;
        for symbol in symbols.iter() {
            let name = strings.get(symbol.st_name as usize)?;
            sum = sum
                .wrapping_add(symbol.st_value)
                .wrapping_add(name.len() as u64);
        }
        Ok(sum)
    }

    fn relocations(&self, mut sum: u64) -> Fallible<u64> {
        let Some(sections) = self.file.section_headers() else {
            return lacking("sections");
        };
        for section in sections.iter() {
            if section.sh_type == abi::SHT_RELA {
                for rela in self.file.section_data_as_relas(&section)? {
                    sum = sum
                        .wrapping_add(rela.r_offset)
                        .wrapping_add_signed(rela.r_addend)
                        .wrapping_add(u64::from(rela.r_sym));
                }
            }
        }
        Ok(sum)
    }

    fn notes(&self, mut sum: u64) -> Fallible<u64> {
        let Some(sections) = self.file.section_headers() else {
            return lacking("sections");
        };
        for section in sections.iter() {
            if section.sh_type == abi::SHT_NOTE {
                for note in self.file.section_data_as_notes(&section)? {
                    sum = sum.wrapping_add(value_of_note(&note));
                }
            }
        }
        Ok(sum)
    }

    fn section(&self, name: &str, sum: u64) -> Fallible<u64> {
        match self.file.section_header_by_name(name)? {
            Some(section) => Ok(sum.wrapping_add(1).wrapping_add(section.sh_addr)),
            None => Ok(sum),
        }
    }

    fn gnu(&self, names: &[&str], mut sum: u64) -> Fallible<u64> {
        let common = self.file.find_common_data()?;
        let (Some(table), Some(symbols), Some(strings)) =
            (common.gnu_hash, common.dynsyms, common.dynsyms_strs)
        else {
            return lacking("GNU section");
        };
        for name in names {
            sum = sum.wrapping_add(value_of_found(table.find(
                name.as_bytes(),
                &symbols,
                &strings,
            )?));
        }
        Ok(sum)
    }

    fn sysv(&self, names: &[&str], mut sum: u64) -> Fallible<u64> {
        let common = self.file.find_common_data()?;
        let (Some(table), Some(symbols), Some(strings)) =
            (common.sysv_hash, common.dynsyms, common.dynsyms_strs)
        else {
            return lacking("SysV section");
        };
        for name in names {
            sum = sum.wrapping_add(value_of_found(table.find(
                name.as_bytes(),
                &symbols,
                &strings,
            )?));
        }
        Ok(sum)
    }

    fn versions(&self, mut sum: u64) -> Fallible<u64> {
        let (symbols, _) = self.symbols_and_strings()?;
        let Some(versions) = self.file.symbol_version_table()? else {
            return lacking("versions");
        };
        for index in 0..symbols.len() {
            sum = sum.wrapping_add(value_of_version(&versions, index)?);
        }
        Ok(sum)
    }
}

impl Loops for Elf<'_> {
    fn turn(&self, name: &str, passes: u64) -> Option<Fallible<u64>> {
        Some(match name {
            "opening" => repeated(passes, &self.input.data, |data, sum| opening(data, sum)),
            "symbols" => repeated(passes, self, Self::symbols),
            "names" => repeated(passes, self, Self::names),
            "texts" => repeated(passes, self, Self::texts),
            "relocations" => repeated(passes, self, Self::relocations),
            "notes" => repeated(passes, self, Self::notes),
            "section" => repeated(passes, self, |each, sum| {
                each.section(each.input.section, sum)
            }),
            "no_section" => repeated(passes, self, |each, sum| {
                each.section(each.input.no_section, sum)
            }),
            "gnu" => repeated(passes, self, |each, sum| each.gnu(&each.input.there, sum)),
            "no_gnu" => repeated(passes, self, |each, sum| each.gnu(&each.input.absent, sum)),
            "sysv" => repeated(passes, self, |each, sum| each.sysv(&each.input.there, sum)),
            "no_sysv" => repeated(passes, self, |each, sum| each.sysv(&each.input.absent, sum)),
            "versions" => repeated(passes, self, Self::versions),
            _ => return None,
        })
    }
}

#[inline(never)]
fn open(data: &[u8]) -> Result<ElfBytes<'_, AnyEndian>, ParseError> {
    ElfBytes::minimal_parse(data)
}

fn opening(data: &[u8], sum: u64) -> Fallible<u64> {
    let file = open(data)?;
    Ok(sum
        .wrapping_add(1)
        .wrapping_add(black_box(&file).ehdr.e_entry))
}

/// Returns the sum of the note's type and of the sizes of its name and descriptor.
fn value_of_note(note: &Note<'_>) -> u64 {
    match note {
        Note::GnuAbiTag(_) => abi::NT_GNU_ABI_TAG + 4 + 16,
        Note::GnuBuildId(id) => abi::NT_GNU_BUILD_ID + 4 + id.0.len() as u64,
        Note::Unknown(any) => any.n_type + (any.name.len() + any.desc.len()) as u64,
    }
}

fn value_of_found(found: Option<(usize, Symbol)>) -> u64 {
    match found {
        Some((index, symbol)) => (index as u64).wrapping_add(symbol.st_value),
        None => 0,
    }
}

/// Returns the sum of the hash of a symbol's version and of the length of the version's name. It is 0 for a symbol
/// without a version, and for one with the base definition.
fn value_of_version(versions: &SymbolVersionTable<'_, AnyEndian>, index: usize) -> Fallible<u64> {
    if let Some(needed) = versions.get_requirement(index)? {
        return Ok(u64::from(needed.hash) + needed.name.len() as u64);
    }
    match versions.get_definition(index)? {
        Some(mut defined) if defined.flags & abi::VER_FLG_BASE == 0 => match defined.names.next() {
            Some(name) => Ok(u64::from(defined.hash) + name?.len() as u64),
            None => Ok(0),
        },
        _ => Ok(0),
    }
}
