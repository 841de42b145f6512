//! The loops with what `object` has for files of any format.
use crate::{lacking, repeated, Fallible, Input, Loops};
use object::{File, Object, ObjectSection, ObjectSymbol, RelocationTarget};
use std::hint::black_box;

pub struct High<'data> {
    input: &'data Input<'data>,
    file: File<'data>,
}

impl<'data> High<'data> {
    pub fn open(input: &'data Input<'data>) -> Fallible<Self> {
        let file = open(input.data)?;
        Ok(High { input, file })
    }

    fn symbols(&self, mut sum: u64) -> Fallible<u64> {
        for symbol in self.file.dynamic_symbols() {
            sum = sum
                .wrapping_add(symbol.address())
                .wrapping_add(symbol.size());
        }
        Ok(sum)
    }

    fn names(&self, mut sum: u64) -> Fallible<u64> {
        for symbol in self.file.dynamic_symbols() {
            let name = symbol.name_bytes()?;
            sum = sum
                .wrapping_add(symbol.address())
                .wrapping_add(name.len() as u64);
        }
        Ok(sum)
    }

    fn texts(&self, mut sum: u64) -> Fallible<u64> {
        for symbol in self.file.dynamic_symbols() {
            let name = symbol.name()?;
            sum = sum
                .wrapping_add(symbol.address())
                .wrapping_add(name.len() as u64);
        }
        Ok(sum)
    }

    fn relocations(&self, mut sum: u64) -> Fallible<u64> {
        let Some(relocations) = self.file.dynamic_relocations() else {
            return lacking("relocations");
        };
        for (offset, relocation) in relocations {
            let symbol = match relocation.target() {
                RelocationTarget::Symbol(index) => index.0 as u64,
                _ => 0,
            };
            sum = sum
                .wrapping_add(offset)
                .wrapping_add_signed(relocation.addend())
                .wrapping_add(symbol);
        }
        Ok(sum)
    }

    fn section(&self, name: &str, sum: u64) -> Fallible<u64> {
        match self.file.section_by_name(name) {
            Some(section) => Ok(sum.wrapping_add(1).wrapping_add(section.address())),
            None => Ok(sum),
        }
    }
}

impl Loops for High<'_> {
    fn turn(&self, name: &str, passes: u64) -> Option<Fallible<u64>> {
        Some(match name {
            "opening" => repeated(passes, &self.input.data, |data, sum| opening(data, sum)),
            "symbols" => repeated(passes, self, Self::symbols),
            "names" => repeated(passes, self, Self::names),
            "texts" => repeated(passes, self, Self::texts),
            "relocations" => repeated(passes, self, Self::relocations),
            "section" => repeated(passes, self, |each, sum| {
                each.section(each.input.section, sum)
            }),
            "no_section" => repeated(passes, self, |each, sum| {
                each.section(each.input.no_section, sum)
            }),
            _ => return None,
        })
    }
}

#[inline(never)]
fn open(data: &[u8]) -> object::Result<File<'_>> {
    File::parse(data)
}

fn opening(data: &[u8], sum: u64) -> Fallible<u64> {
    let file = open(data)?;
    Ok(sum.wrapping_add(1).wrapping_add(black_box(&file).entry()))
}
