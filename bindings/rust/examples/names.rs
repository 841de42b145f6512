//! Prints the libraries that a file needs, its soname, its search paths and its build id.
use nugwier::endian::AnyEndian;
use nugwier::linking::{build_id, dynamic_names};
use nugwier::{abi, ElfBytes};

fn print(what: &str, name: Option<&[u8]>) {
    if let Some(name) = name {
        println!("{what} {}", String::from_utf8_lossy(name));
    }
}

fn main() -> Result<(), Box<dyn std::error::Error>> {
    let path = std::env::args().nth(1).ok_or("usage: names FILE")?;
    let bytes = std::fs::read(path)?;
    let file = ElfBytes::<AnyEndian>::minimal_parse(&bytes)?;
    if let Some(names) = dynamic_names(&file)? {
        for library in names.libraries() {
            let library = library?;
            let is_needed = library.tag == abi::DT_NEEDED;
            print(if is_needed { "NEEDED" } else { "FILTER" }, Some(library.name));
        }
        print("SONAME", names.soname()?);
        print("RUNPATH", names.runpath()?);
        print("RPATH", names.rpath()?);
    }
    if let Some(id) = build_id(&file)? {
        let digits: String = id.iter().map(|byte| format!("{byte:02x}")).collect();
        println!("BUILD-ID {digits}");
    }
    Ok(())
}
