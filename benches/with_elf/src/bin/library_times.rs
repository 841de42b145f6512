//! `library_times FILE KIND NAMES` and `library_times FILE` do by the crate `elf` what the program of benches/library_times
//! does: look-ups in a hash section, and the data of each section, read twice from a stream.
use elf::endian::AnyEndian;
use elf::section::SectionHeader;
use elf::{ElfBytes, ElfStream};
use std::time::Instant;

const LOOK_UPS: usize = 1_000_000;

type Failure = Box<dyn std::error::Error>;

fn names(path: &str, kind: &str, names: &str) -> Result<(), Failure> {
    let data = std::fs::read(path)?;
    let text = std::fs::read_to_string(names)?;
    let names: Vec<&str> = text.lines().collect();
    let file = ElfBytes::<AnyEndian>::minimal_parse(&data)?;
    let common = file.find_common_data()?;
    let start = Instant::now();
    let mut found = 0u64;
    if let (Some(symbols), Some(strings)) = (&common.dynsyms, &common.dynsyms_strs) {
        for _ in 0..LOOK_UPS / names.len().max(1) {
            for name in &names {
                let answer = match (&common.sysv_hash, &common.gnu_hash) {
                    (Some(table), _) if kind == "sysv" => table.find(name.as_bytes(), symbols, strings),
                    (_, Some(table)) if kind == "gnu" => table.find(name.as_bytes(), symbols, strings),
                    _ => Ok(None),
                };
                found += matches!(answer, Ok(Some(_))) as u64;
            }
        }
    }
    println!("{found} {}", start.elapsed().as_nanos());
    Ok(())
}

fn ranges(path: &str) -> Result<(), Failure> {
    let mut stream = ElfStream::<AnyEndian, _>::open_stream(std::fs::File::open(path)?)?;
    let sections: Vec<SectionHeader> = stream.section_headers().clone();
    let start = Instant::now();
    let mut length = 0;
    for _ in 0..2 {
        for section in &sections {
            length += stream.section_data(section)?.0.len();
        }
    }
    println!("{length} {}", start.elapsed().as_nanos());
    Ok(())
}

fn main() -> Result<(), Failure> {
    let words: Vec<String> = std::env::args().skip(1).collect();
    match &words[..] {
        [path] => ranges(path),
        [path, kind, wanted] => names(path, kind, wanted),
        _ => Err("FILE, or FILE KIND NAMES".into()),
    }
}
