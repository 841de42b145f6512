//! Symbols with their names, many in a call, and symbols by address.
use crate::endian::EndianParse;
use crate::ffi;
use crate::records::{Record, HEADERS};
use crate::string_table::StringTable;
use crate::symbol::{Symbol, SymbolTable};

/// The symbols of a table with the bytes of their names, up to the first that cannot be read or has no name.
///
/// ```no_run
/// use nugwier::{endian::AnyEndian, named::named_symbols, ElfBytes};
///
/// let bytes = std::fs::read("/bin/sh").unwrap();
/// let file = ElfBytes::<AnyEndian>::minimal_parse(&bytes).unwrap();
/// if let Some((symbols, strings)) = file.dynamic_symbol_table().unwrap() {
///     for (symbol, name) in named_symbols(&symbols, &strings) {
///         println!("{:x} {}", symbol.st_value, String::from_utf8_lossy(name));
///     }
/// }
/// ```
pub fn named_symbols<'data, E: EndianParse>(
    symbols: &SymbolTable<'data, E>,
    strings: &StringTable<'data>,
) -> NamedSymbols<'data> {
    NamedSymbols {
        table: *symbols.raw(),
        strings: strings.bytes(),
        next: 0,
        chunk: ffi::Places::new(),
        taken: 0,
    }
}

/// Symbols with the bytes of their names. They are fetched some at a time.
#[derive(Debug)]
pub struct NamedSymbols<'data> {
    table: ffi::Table<'data>,
    strings: ffi::Bytes<'data>,
    /// The number of the first symbol that is not fetched yet.
    next: usize,
    chunk: ffi::Places<ffi::NamedSymbol<'data>, HEADERS>,
    /// How many symbols of the chunk were taken.
    taken: usize,
}

impl<'data> NamedSymbols<'data> {
    /// Fetches the next symbols.
    #[cold]
    #[inline(never)]
    fn fetch(&mut self) {
        self.taken = 0;
        ffi::named_symbols(&self.table, self.strings, self.next, &mut self.chunk);
        self.next += self.chunk.filled();
    }
}

impl<'data> Iterator for NamedSymbols<'data> {
    type Item = (Symbol, &'data [u8]);

    #[inline]
    fn next(&mut self) -> Option<(Symbol, &'data [u8])> {
        if self.taken == self.chunk.filled() {
            self.fetch();
        }
        let raw = self.chunk.get(self.taken)?;
        self.taken += 1;
        Some((Symbol::of(&raw.symbol), raw.name.get()))
    }
}

/// The last symbol of a table, in the order of addresses, that starts at an address or before it, with its index; of
/// several with one address that which comes last in the table. These are the objects and functions that a section of
/// the file defines. Each symbol of the table is looked at.
pub fn symbol_at<E: EndianParse>(
    symbols: &SymbolTable<'_, E>,
    address: u64,
) -> Option<(usize, Symbol)> {
    let mut found = ffi::Found::default();
    ffi::symbol_at(symbols.raw(), address, &mut found);
    found
        .found
        .then(|| (found.index, Symbol::of(&found.symbol)))
}
