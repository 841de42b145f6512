//! The loops with what our library has for C and the crate `elf` does not: symbols with their names, many in a call, and
//! versions that are kept by version index.
use crate::{lacking, repeated, Fallible, Input, Loops};
use nugwier::abi;
use nugwier::endian::AnyEndian;
use nugwier::named::named_symbols;
use nugwier::versions::{KeptVersions, Version};
use nugwier::ElfBytes;

pub struct InBulk<'data> {
    file: ElfBytes<'data, AnyEndian>,
}

impl<'data> InBulk<'data> {
    pub fn open(input: &'data Input<'data>) -> Fallible<Self> {
        let file = ElfBytes::minimal_parse(input.data)?;
        Ok(InBulk { file })
    }

    fn names(&self, mut sum: u64) -> Fallible<u64> {
        let Some((symbols, strings)) = self.file.dynamic_symbol_table()? else {
            return lacking("dynamic symbols");
        };
        for (symbol, name) in named_symbols(&symbols, &strings) {
            sum = sum
                .wrapping_add(symbol.st_value)
                .wrapping_add(name.len() as u64);
        }
        Ok(sum)
    }

    fn versions(&self, mut sum: u64) -> Fallible<u64> {
        let Some((symbols, _)) = self.file.dynamic_symbol_table()? else {
            return lacking("dynamic symbols");
        };
        let Some(table) = self.file.symbol_version_table()? else {
            return lacking("versions");
        };
        let mut versions = KeptVersions::new(&table);
        for index in 0..symbols.len() {
            if let Some(version) = versions.get(index)? {
                sum = sum.wrapping_add(value_of_version(&version));
            }
        }
        Ok(sum)
    }
}

/// Returns the sum of the version's hash and of the length of its name, and 0 for the base definition.
fn value_of_version(version: &Version<'_>) -> u64 {
    if version.file.is_none() && version.flags & abi::VER_FLG_BASE != 0 {
        return 0;
    }
    u64::from(version.hash) + version.name.len() as u64
}

impl Loops for InBulk<'_> {
    fn turn(&self, name: &str, passes: u64) -> Option<Fallible<u64>> {
        match name {
            "names" => Some(repeated(passes, self, Self::names)),
            "versions" => Some(repeated(passes, self, Self::versions)),
            _ => None,
        }
    }
}
