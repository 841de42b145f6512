//! `lister bytes|stream FILE CALL..`: writes what `elfshow` writes, by the crate `elf`. docs/FORMATS.md has the text. The
//! crate has no checker of hash sections: `sysv` and `gnu` are answered by one that is written here.
use elf::endian::{AnyEndian, EndianParse};
use elf::file::Class;
use elf::gnu_symver::SymbolVersionTable;
use elf::hash::{gnu_hash, sysv_hash};
use elf::note::Note;
use elf::section::SectionHeader;
use elf::segment::ProgramHeader;
use elf::string_table::StringTable;
use elf::symbol::SymbolTable;
use elf::{ElfBytes, ElfStream, ParseError};
use std::io::{self, BufWriter, StdoutLock, Write};

type Out<'a> = BufWriter<StdoutLock<'a>>;

/// Bytes of a name: those that are not plain are escaped.
fn name(out: &mut Out, bytes: &[u8]) -> io::Result<()> {
    for byte in bytes {
        match byte {
            0x21..=0x7e if *byte != b'\\' => out.write_all(&[*byte])?,
            _ => write!(out, "\\x{byte:02x}")?,
        }
    }
    Ok(())
}

fn hex(out: &mut Out, bytes: &[u8]) -> io::Result<()> {
    for byte in bytes {
        write!(out, "{byte:02x}")?;
    }
    Ok(())
}

/// The name at an offset of a table.
fn named(out: &mut Out, strings: Option<&StringTable>, at: u32) -> io::Result<()> {
    match strings.map(|table| table.get_raw(at as usize)) {
        None => write!(out, "noname"),
        Some(Err(_)) => write!(out, "badname"),
        Some(Ok(bytes)) => {
            write!(out, "name=")?;
            name(out, bytes)
        }
    }
}

fn section(out: &mut Out, s: &SectionHeader) -> io::Result<()> {
    writeln!(
        out,
        "nameoff={} type={} flags={:#x} addr={:#x} offset={} size={} link={} info={} align={} entsize={}",
        s.sh_name,
        s.sh_type,
        s.sh_flags,
        s.sh_addr,
        s.sh_offset,
        s.sh_size,
        s.sh_link,
        s.sh_info,
        s.sh_addralign,
        s.sh_entsize
    )
}

fn segments(out: &mut Out, all: impl Iterator<Item = ProgramHeader>) -> io::Result<()> {
    let mut count = 0;
    for p in all {
        writeln!(
            out,
            "segment {count} type={} flags={:#x} offset={} vaddr={:#x} paddr={:#x} filesz={} memsz={} align={}",
            p.p_type, p.p_flags, p.p_offset, p.p_vaddr, p.p_paddr, p.p_filesz, p.p_memsz, p.p_align
        )?;
        count += 1;
    }
    writeln!(out, "end {count}")
}

fn sections(out: &mut Out, all: impl Iterator<Item = SectionHeader>, strings: Option<&StringTable>) -> io::Result<()> {
    let mut count = 0;
    for s in all {
        write!(out, "section {count} ")?;
        named(out, strings, s.sh_name)?;
        write!(out, " ")?;
        section(out, &s)?;
        count += 1;
    }
    writeln!(out, "end {count}")
}

fn symbols<E: EndianParse>(out: &mut Out, found: Option<(SymbolTable<E>, StringTable)>) -> io::Result<()> {
    let Some((table, strings)) = found else {
        return writeln!(out, "none");
    };
    let mut count = 0;
    for s in table.iter() {
        write!(out, "symbol {count} ")?;
        named(out, Some(&strings), s.st_name)?;
        writeln!(
            out,
            " value={:#x} size={} bind={} type={} other={} shndx={}",
            s.st_value,
            s.st_size,
            s.st_bind(),
            s.st_symtype(),
            s.st_vis(),
            s.st_shndx
        )?;
        count += 1;
    }
    writeln!(out, "end {count}")
}

fn notes<'a>(out: &mut Out, all: impl Iterator<Item = Note<'a>>) -> io::Result<()> {
    let mut count = 0;
    for note in all {
        match note {
            Note::GnuAbiTag(t) => writeln!(
                out,
                "abitag os={} major={} minor={} subminor={}",
                t.os, t.major, t.minor, t.subminor
            )?,
            Note::GnuBuildId(id) => {
                write!(out, "buildid hex=")?;
                hex(out, id.0)?;
                writeln!(out)?;
            }
            Note::Unknown(note) => {
                write!(out, "note type={} name=", note.n_type)?;
                name(out, note.name)?;
                write!(out, " desc=")?;
                hex(out, note.desc)?;
                writeln!(out)?;
            }
        }
        count += 1;
    }
    writeln!(out, "end {count}")
}

fn strings(out: &mut Out, table: &StringTable) -> io::Result<()> {
    let (mut at, mut count) = (0, 0);
    while let Ok(bytes) = table.get_raw(at) {
        write!(out, "string {at} name=")?;
        name(out, bytes)?;
        writeln!(out)?;
        at += bytes.len() + 1;
        count += 1;
    }
    writeln!(out, "end {count}")
}

fn versions<E: EndianParse>(
    out: &mut Out,
    count: Option<usize>,
    table: Option<SymbolVersionTable<E>>,
) -> io::Result<()> {
    let (Some(count), Some(table)) = (count, table) else {
        return writeln!(out, "none");
    };
    for k in 0..count {
        write!(out, "version {k} ")?;
        match table.get_requirement(k) {
            Err(_) => write!(out, "badneed")?,
            Ok(None) => write!(out, "noneed")?,
            Ok(Some(need)) => {
                write!(out, "need file=")?;
                name(out, need.file.as_bytes())?;
                write!(out, " name=")?;
                name(out, need.name.as_bytes())?;
                write!(
                    out,
                    " hash={:#x} flags={} hidden={}",
                    need.hash, need.flags, need.hidden as u8
                )?;
            }
        }
        match table.get_definition(k) {
            Err(_) => write!(out, " baddef")?,
            Ok(None) => write!(out, " nodef")?,
            Ok(Some(def)) => {
                write!(
                    out,
                    " def hash={:#x} flags={} hidden={}",
                    def.hash, def.flags, def.hidden as u8
                )?;
                for each in def.names {
                    match each {
                        Ok(text) => {
                            write!(out, " name=")?;
                            name(out, text.as_bytes())?;
                        }
                        Err(_) => write!(out, " badname")?,
                    }
                }
            }
        }
        writeln!(out)?;
    }
    writeln!(out, "end {count}")
}

/// The words of four bytes from an offset on.
struct Words<'a, E> {
    order: E,
    data: &'a [u8],
}

impl<E: EndianParse> Words<'_, E> {
    fn get(&self, at: usize) -> Option<u32> {
        let mut at = at.checked_mul(4)?;
        self.order.parse_u32_at(&mut at, self.data).ok()
    }
}

type Symbols<'a, E> = (SymbolTable<'a, E>, StringTable<'a>);

/// The hash of the name of a symbol.
fn hash_of<E: EndianParse>((table, strings): &Symbols<E>, at: usize, hash: fn(&[u8]) -> u32) -> Option<u32> {
    let symbol = table.get(at).ok()?;
    Some(hash(strings.get_raw(symbol.st_name as usize).ok()?))
}

/// How many symbols a sound section indexes.
fn sysv<E: EndianParse>(order: E, data: &[u8], symbols: &Symbols<E>) -> Option<usize> {
    let words = Words { order, data };
    let (buckets, chains) = (words.get(0)? as usize, words.get(1)? as usize);
    let mut indexed = 0;
    for bucket in 0..buckets {
        let mut at = words.get(2 + bucket)? as usize;
        let mut visited = 0;
        while at != 0 {
            if visited == chains || at >= chains || hash_of(symbols, at, sysv_hash)? as usize % buckets != bucket {
                return None;
            }
            visited += 1;
            at = words.get(2 + buckets + at)? as usize;
        }
        indexed += visited;
    }
    Some(indexed)
}

/// The same of a GNU section, whose chain words reach to its end.
fn gnu<E: EndianParse>(order: E, class: Class, data: &[u8], symbols: &Symbols<E>) -> Option<usize> {
    let words = Words { order, data };
    let (buckets, first) = (words.get(0)? as usize, words.get(1)? as usize);
    let (blooms, shift) = (words.get(2)? as usize, words.get(3)?);
    if shift >= 32 {
        return None;
    }
    let width = if class == Class::ELF64 { 2 } else { 1 };
    let bits = 32 * width as u32;
    let chains_at = 4 + blooms * width + buckets;
    let chains = data.len() / 4 - chains_at;
    // The bucket of the run that the word before is in.
    let mut run: Option<usize> = None;
    for k in 0..chains {
        let word = words.get(chains_at + k)?;
        let hash = hash_of(symbols, first + k, gnu_hash)?;
        if word | 1 != hash | 1 || blooms == 0 || buckets == 0 {
            return None;
        }
        let bloom = (hash / bits) as usize % blooms;
        let value = if width == 2 {
            let mut at = 16 + 8 * bloom;
            order.parse_u64_at(&mut at, data).ok()?
        } else {
            words.get(4 + bloom)? as u64
        };
        if value >> (hash % bits) & 1 == 0 || value >> ((hash >> shift) % bits) & 1 == 0 {
            return None;
        }
        let bucket = hash as usize % buckets;
        if run != Some(bucket) {
            let start = words.get(4 + blooms * width + bucket)? as usize;
            if start < first || start > first + k {
                return None;
            }
            for before in start - first..k {
                if words.get(chains_at + before)? & 1 != 0 {
                    return None;
                }
            }
        }
        run = if word & 1 == 0 { Some(bucket) } else { None };
    }
    Some(chains)
}

fn verdict(out: &mut Out, indexed: Option<usize>) -> io::Result<()> {
    match indexed {
        Some(count) => writeln!(out, "sound indexed={count}"),
        None => writeln!(out, "faulty"),
    }
}

/// Why a call ends early: what it reads is refused, or its text cannot be written.
enum Stop {
    Read,
    Write(io::Error),
}

impl From<ParseError> for Stop {
    fn from(_: ParseError) -> Stop {
        Stop::Read
    }
}

impl From<io::Error> for Stop {
    fn from(error: io::Error) -> Stop {
        Stop::Write(error)
    }
}

/// A call over one of the two readers, whose methods have the same names. `$listed` makes an iterator of the section
/// headers that `section_headers_with_strtab` returns.
macro_rules! calls {
    ($out:ident, $file:ident, $call:ident, $sections:expr, $segments:expr, $listed:expr) => {{
        let (word, rest) = $call.split_once('=').unwrap_or(($call, ""));
        let index = || rest.parse::<usize>().unwrap_or(usize::MAX);
        match word {
            "header" => {
                let h = &$file.ehdr;
                writeln!(
                    $out,
                    "header class={} order={} version={} osabi={} abiversion={} type={} machine={} entry={:#x} phoff={} shoff={} flags={:#x} ehsize={} phentsize={} phnum={} shentsize={} shnum={} shstrndx={}",
                    if h.class == Class::ELF64 { 64 } else { 32 },
                    if h.endianness.is_little() { "little" } else { "big" },
                    h.version, h.osabi, h.abiversion, h.e_type, h.e_machine, h.e_entry, h.e_phoff, h.e_shoff,
                    h.e_flags, h.e_ehsize, h.e_phentsize, h.e_phnum, h.e_shentsize, h.e_shnum, h.e_shstrndx
                )?;
            }
            "sections" => {
                let (found, strings) = $file.section_headers_with_strtab()?;
                sections($out, $listed(found), strings.as_ref())?;
            }
            "segments" => segments($out, $segments)?,
            "name" => match $file.section_header_by_name(rest)? {
                Some(found) => {
                    write!($out, "found ")?;
                    section($out, &found)?;
                }
                None => writeln!($out, "none")?,
            },
            "symbols" => symbols($out, $file.symbol_table()?)?,
            "dynsyms" => symbols($out, $file.dynamic_symbol_table()?)?,
            "dynamic" => match $file.dynamic()? {
                None => writeln!($out, "none")?,
                Some(table) => {
                    let mut count = 0;
                    for d in table.iter() {
                        writeln!($out, "dyn {count} tag={} value={:#x}", d.d_tag, d.d_val())?;
                        count += 1;
                    }
                    writeln!($out, "end {count}")?;
                }
            },
            "versions" => {
                let count = $file.dynamic_symbol_table()?.map(|(table, _)| table.len());
                versions($out, count, $file.symbol_version_table()?)?;
            }
            "seg" | "segnotes" => match $segments.nth(index()) {
                None => writeln!($out, "absent")?,
                Some(p) if word == "seg" => {
                    let data = $file.segment_data(&p)?;
                    write!($out, "data size={} hex=", data.len())?;
                    hex($out, data)?;
                    writeln!($out)?;
                }
                Some(p) => notes($out, $file.segment_data_as_notes(&p)?)?,
            },
            _ => match $sections.nth(index()) {
                None => writeln!($out, "absent")?,
                Some(s) => match word {
                    "data" => {
                        let (data, compression) = $file.section_data(&s)?;
                        write!($out, "data size={} hex=", data.len())?;
                        hex($out, data)?;
                        if let Some(c) = compression {
                            write!($out, " chtype={} chsize={} chalign={}", c.ch_type, c.ch_size, c.ch_addralign)?;
                        }
                        writeln!($out)?;
                    }
                    "strings" => strings($out, &$file.section_data_as_strtab(&s)?)?,
                    "notes" => notes($out, $file.section_data_as_notes(&s)?)?,
                    "rels" => {
                        let mut count = 0;
                        for r in $file.section_data_as_rels(&s)? {
                            writeln!($out, "rel {count} offset={:#x} sym={} type={}", r.r_offset, r.r_sym, r.r_type)?;
                            count += 1;
                        }
                        writeln!($out, "end {count}")?;
                    }
                    "relas" => {
                        let mut count = 0;
                        for r in $file.section_data_as_relas(&s)? {
                            writeln!(
                                $out,
                                "rela {count} offset={:#x} sym={} type={} addend={}",
                                r.r_offset, r.r_sym, r.r_type, r.r_addend
                            )?;
                            count += 1;
                        }
                        writeln!($out, "end {count}")?;
                    }
                    "sysv" | "gnu" => {
                        let (order, class) = ($file.ehdr.endianness, $file.ehdr.class);
                        let data = $file.section_data(&s)?.0.to_vec();
                        match $file.dynamic_symbol_table()? {
                            None => writeln!($out, "none")?,
                            Some(found) if word == "sysv" => {
                                elf::hash::SysVHashTable::new(order, class, &data)?;
                                verdict($out, sysv(order, &data, &found))?;
                            }
                            Some(found) => {
                                elf::hash::GnuHashTable::new(order, class, &data)?;
                                verdict($out, gnu(order, class, &data, &found))?;
                            }
                        }
                    }
                    _ => std::process::exit(2),
                },
            },
        }
        Ok(())
    }};
}

fn listed_bytes<'a>(
    found: Option<elf::section::SectionHeaderTable<'a, AnyEndian>>,
) -> impl Iterator<Item = SectionHeader> + 'a {
    found.into_iter().flatten()
}

fn listed_stream(found: &[SectionHeader]) -> impl Iterator<Item = SectionHeader> + '_ {
    found.iter().copied()
}

fn by_bytes(out: &mut Out, file: &ElfBytes<AnyEndian>, call: &str) -> Result<(), Stop> {
    calls!(
        out,
        file,
        call,
        file.section_headers().into_iter().flatten(),
        file.segments().into_iter().flatten(),
        listed_bytes
    )
}

fn by_stream(out: &mut Out, file: &mut ElfStream<AnyEndian, std::fs::File>, call: &str) -> Result<(), Stop> {
    calls!(
        out,
        file,
        call,
        file.section_headers().iter().copied(),
        file.segments().iter().copied(),
        listed_stream
    )
}

fn ended(out: &mut Out, result: Result<(), Stop>) -> io::Result<()> {
    match result {
        Ok(()) => {}
        Err(Stop::Read) => writeln!(out, "refused")?,
        Err(Stop::Write(error)) => return Err(error),
    }
    out.flush()
}

fn main() -> Result<(), Box<dyn std::error::Error>> {
    let words: Vec<String> = std::env::args().collect();
    let mut out = BufWriter::with_capacity(1 << 16, io::stdout().lock());
    if words[1] == "bytes" {
        let data = std::fs::read(&words[2])?;
        let file = ElfBytes::<AnyEndian>::minimal_parse(&data)?;
        for call in &words[3..] {
            let result = by_bytes(&mut out, &file, call);
            ended(&mut out, result)?;
        }
    } else {
        let mut file = ElfStream::<AnyEndian, _>::open_stream(std::fs::File::open(&words[2])?)?;
        for call in &words[3..] {
            let result = by_stream(&mut out, &mut file, call);
            ended(&mut out, result)?;
        }
    }
    Ok(())
}
