//! The loops with what `object` has for 64-bit ELF files alone.
use crate::{lacking, repeated, Fallible, Input, Loops};
use object::elf::{self, FileHeader64, ProgramHeader64};
use object::read::elf::{
    FileHeader, Rela, SectionHeader, SectionTable, Sym, SymbolTable, VersionTable,
};
use object::Endianness;
use std::hint::black_box;

type Header = FileHeader64<Endianness>;

/// An opened file: the header with its byte order, and both tables.
struct Opened<'data> {
    header: &'data Header,
    endian: Endianness,
    segments: &'data [ProgramHeader64<Endianness>],
    sections: SectionTable<'data, Header>,
}

pub struct Low<'data> {
    input: &'data Input<'data>,
    file: Opened<'data>,
}

impl<'data> Low<'data> {
    pub fn open(input: &'data Input<'data>) -> Fallible<Self> {
        let file = open(input.data)?;
        Ok(Low { input, file })
    }

    fn symbol_table(&self) -> Fallible<SymbolTable<'data, Header>> {
        let table =
            self.file
                .sections
                .symbols(self.file.endian, self.input.data, elf::SHT_DYNSYM)?;
        Ok(table)
    }

    fn symbols(&self, mut sum: u64) -> Fallible<u64> {
        let endian = self.file.endian;
        for symbol in self.symbol_table()?.iter() {
            sum = sum
                .wrapping_add(symbol.st_value(endian))
                .wrapping_add(symbol.st_size(endian));
        }
        Ok(sum)
    }

    fn names(&self, mut sum: u64) -> Fallible<u64> {
        let endian = self.file.endian;
        let symbols = self.symbol_table()?;
        for symbol in symbols.iter() {
            let name = symbol.name(endian, symbols.strings())?;
            sum = sum
                .wrapping_add(symbol.st_value(endian))
                .wrapping_add(name.len() as u64);
        }
        Ok(sum)
    }

    fn relocations(&self, mut sum: u64) -> Fallible<u64> {
        let endian = self.file.endian;
        for section in self.file.sections.iter() {
            let Some((relas, _)) = section.rela(endian, self.input.data)? else {
                continue;
            };
            for rela in relas {
                sum = sum
                    .wrapping_add(Rela::r_offset(rela, endian))
                    .wrapping_add_signed(Rela::r_addend(rela, endian))
                    .wrapping_add(u64::from(Rela::r_sym(rela, endian, false)));
            }
        }
        Ok(sum)
    }

    fn notes(&self, mut sum: u64) -> Fallible<u64> {
        let endian = self.file.endian;
        for section in self.file.sections.iter() {
            let Some(mut notes) = section.notes(endian, self.input.data)? else {
                continue;
            };
            while let Some(note) = notes.next()? {
                let sizes = u64::from(note.n_namesz(endian)) + note.desc().len() as u64;
                sum = sum
                    .wrapping_add(u64::from(note.n_type(endian)))
                    .wrapping_add(sizes);
            }
        }
        Ok(sum)
    }

    fn section(&self, name: &str, sum: u64) -> Fallible<u64> {
        let endian = self.file.endian;
        match self.file.sections.section_by_name(endian, name.as_bytes()) {
            Some((_, section)) => Ok(sum.wrapping_add(1).wrapping_add(section.sh_addr(endian))),
            None => Ok(sum),
        }
    }

    // `find` compares versions too. With an empty table of versions it returns the first symbol of the name, which is what
    // the other libraries return.

    fn gnu(&self, names: &[&str], mut sum: u64) -> Fallible<u64> {
        let endian = self.file.endian;
        let Some((table, _)) = self.file.sections.gnu_hash(endian, self.input.data)? else {
            return lacking("GNU section");
        };
        let symbols = self.symbol_table()?;
        let versions = VersionTable::default();
        for name in names {
            let name = name.as_bytes();
            let found = table.find(endian, name, elf::gnu_hash(name), None, &symbols, &versions);
            if let Some((index, symbol)) = found {
                sum = sum
                    .wrapping_add(index as u64)
                    .wrapping_add(symbol.st_value(endian));
            }
        }
        Ok(sum)
    }

    fn sysv(&self, names: &[&str], mut sum: u64) -> Fallible<u64> {
        let endian = self.file.endian;
        let Some((table, _)) = self.file.sections.hash(endian, self.input.data)? else {
            return lacking("SysV section");
        };
        let symbols = self.symbol_table()?;
        let versions = VersionTable::default();
        for name in names {
            let name = name.as_bytes();
            let found = table.find(endian, name, elf::hash(name), None, &symbols, &versions);
            if let Some((index, symbol)) = found {
                sum = sum
                    .wrapping_add(index as u64)
                    .wrapping_add(symbol.st_value(endian));
            }
        }
        Ok(sum)
    }

    fn versions(&self, mut sum: u64) -> Fallible<u64> {
        let endian = self.file.endian;
        let symbols = self.symbol_table()?;
        let Some(versions) = self.file.sections.versions(endian, self.input.data)? else {
            return lacking("versions");
        };
        for index in 0..symbols.len() {
            if let Some(version) = versions.version(versions.version_index(endian, index))? {
                sum = sum
                    .wrapping_add(u64::from(version.hash()))
                    .wrapping_add(version.name().len() as u64);
            }
        }
        Ok(sum)
    }
}

impl Loops for Low<'_> {
    fn turn(&self, name: &str, passes: u64) -> Option<Fallible<u64>> {
        Some(match name {
            "opening" => repeated(passes, &self.input.data, |data, sum| opening(data, sum)),
            "symbols" => repeated(passes, self, Self::symbols),
            "names" => repeated(passes, self, Self::names),
            "relocations" => repeated(passes, self, Self::relocations),
            "notes" => repeated(passes, self, Self::notes),
            "section" => repeated(passes, self, |each, sum| {
                each.section(each.input.section, sum)
            }),
            "no_section" => repeated(passes, self, |each, sum| {
                each.section(each.input.no_section, sum)
            }),
            "gnu" => repeated(passes, self, |each, sum| each.gnu(&each.input.there, sum)),
            "no_gnu" => repeated(passes, self, |each, sum| each.gnu(&each.input.absent, sum)),
            "sysv" => repeated(passes, self, |each, sum| each.sysv(&each.input.there, sum)),
            "no_sysv" => repeated(passes, self, |each, sum| each.sysv(&each.input.absent, sum)),
            "versions" => repeated(passes, self, Self::versions),
            _ => return None,
        })
    }
}

#[inline(never)]
fn open(data: &[u8]) -> object::Result<Opened<'_>> {
    let header = Header::parse(data)?;
    let endian = header.endian()?;
    Ok(Opened {
        header,
        endian,
        segments: header.program_headers(endian, data)?,
        sections: header.sections(endian, data)?,
    })
}

fn opening(data: &[u8], sum: u64) -> Fallible<u64> {
    let file = open(data)?;
    black_box(file.segments);
    Ok(sum
        .wrapping_add(1)
        .wrapping_add(black_box(&file).header.e_entry(file.endian)))
}
