//! Prints the value and the name of each symbol for dynamic linking.
use nugwier::endian::AnyEndian;
use nugwier::ElfBytes;

fn main() -> Result<(), Box<dyn std::error::Error>> {
    let path = std::env::args().nth(1).ok_or("usage: symbols FILE")?;
    let bytes = std::fs::read(path)?;
    let file = ElfBytes::<AnyEndian>::minimal_parse(&bytes)?;
    if let Some((symbols, names)) = file.dynamic_symbol_table()? {
        for symbol in symbols.iter() {
            println!(
                "{:x} {}",
                symbol.st_value,
                names.get(symbol.st_name as usize)?
            );
        }
    }
    Ok(())
}
