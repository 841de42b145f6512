//! The names of values, as the constants of `abi` spell them.
use crate::ffi;
#[cfg(feature = "alloc")]
use alloc::format;
#[cfg(feature = "alloc")]
use alloc::string::{String, ToString};

// The names of the proved crate itself: the library has no calls for names in words.
#[allow(dead_code)]
#[path = "../../../crates/elf_abi/src/to_str/rows.rt"]
mod rows;

// The name of a value in a table in the order of values.
fn name_of(table: &[(u16, &'static str)], value: u16) -> Option<&'static str> {
    let index = table.binary_search_by_key(&value, |row| row.0).ok()?;
    table.get(index).map(|row| row.1)
}

/// The name of an operating system's ABI, if it has one.
pub fn e_osabi_to_str(e_osabi: u8) -> Option<&'static str> {
    let mut name = ffi::Name::default();
    ffi::e_osabi_name(e_osabi, &mut name);
    name.text()
}

/// The name of an operating system's ABI, or the number in parentheses after the field's name.
#[cfg(feature = "alloc")]
pub fn e_osabi_to_string(e_osabi: u8) -> String {
    match e_osabi_to_str(e_osabi) {
        Some(name) => name.to_string(),
        None => format!("e_osabi({e_osabi:#x})"),
    }
}

/// The name of a kind of file, if it has one.
pub fn e_type_to_str(e_type: u16) -> Option<&'static str> {
    let mut name = ffi::Name::default();
    ffi::e_type_name(e_type, &mut name);
    name.text()
}

/// What kind of file it is, in words, if it has a name.
pub fn e_type_to_human_str(e_type: u16) -> Option<&'static str> {
    name_of(&rows::E_TYPE_HUMAN, e_type)
}

/// The name of a kind of file, or the number in parentheses after the field's name.
#[cfg(feature = "alloc")]
pub fn e_type_to_string(e_type: u16) -> String {
    match e_type_to_str(e_type) {
        Some(name) => name.to_string(),
        None => format!("e_type({e_type:#x})"),
    }
}

/// The name of a machine, if it has one.
pub fn e_machine_to_str(e_machine: u16) -> Option<&'static str> {
    let mut name = ffi::Name::default();
    ffi::e_machine_name(e_machine, &mut name);
    name.text()
}

/// The machine, in words, if it has a name.
pub fn e_machine_to_human_str(e_machine: u16) -> Option<&'static str> {
    name_of(&rows::E_MACHINE_HUMAN, e_machine)
}

/// The name of a machine, or the number in parentheses after the field's name.
#[cfg(feature = "alloc")]
pub fn e_machine_to_string(e_machine: u16) -> String {
    match e_machine_to_str(e_machine) {
        Some(name) => name.to_string(),
        None => format!("e_machine({e_machine:#x})"),
    }
}

/// The name of a type of section, if it has one.
pub fn sh_type_to_str(sh_type: u32) -> Option<&'static str> {
    let mut name = ffi::Name::default();
    ffi::sh_type_name(sh_type, &mut name);
    name.text()
}

/// The name of a type of section, or the number in parentheses after the field's name.
#[cfg(feature = "alloc")]
pub fn sh_type_to_string(sh_type: u32) -> String {
    match sh_type_to_str(sh_type) {
        Some(name) => name.to_string(),
        None => format!("sh_type({sh_type:#x})"),
    }
}

/// The flags of a segment, as `R E`, or the number in parentheses after the field's name if there are others.
#[cfg(feature = "alloc")]
pub fn p_flags_to_string(p_flags: u32) -> String {
    use crate::abi::{PF_R as READ, PF_W as WRITE, PF_X as EXECUTE};
    if p_flags & !(READ | WRITE | EXECUTE) != 0 {
        return format!("p_flags({p_flags:#x})");
    }
    [(READ, 'R'), (WRITE, 'W'), (EXECUTE, 'E')]
        .iter()
        .map(|(flag, letter)| if p_flags & flag != 0 { *letter } else { ' ' })
        .collect()
}

/// The name of a type of segment, if it has one.
pub fn p_type_to_str(p_type: u32) -> Option<&'static str> {
    let mut name = ffi::Name::default();
    ffi::p_type_name(p_type, &mut name);
    name.text()
}

/// The name of a type of segment, or the number in parentheses after the field's name.
#[cfg(feature = "alloc")]
pub fn p_type_to_string(p_type: u32) -> String {
    match p_type_to_str(p_type) {
        Some(name) => name.to_string(),
        None => format!("p_type({p_type:#x})"),
    }
}

/// The name of a type of symbol, if it has one.
pub fn st_symtype_to_str(st_symtype: u8) -> Option<&'static str> {
    let mut name = ffi::Name::default();
    ffi::st_symtype_name(st_symtype, &mut name);
    name.text()
}

/// The name of a type of symbol, or the number in parentheses after the field's name.
#[cfg(feature = "alloc")]
pub fn st_symtype_to_string(st_symtype: u8) -> String {
    match st_symtype_to_str(st_symtype) {
        Some(name) => name.to_string(),
        None => format!("st_symtype({st_symtype:#x})"),
    }
}

/// The name of a binding of a symbol, if it has one.
pub fn st_bind_to_str(st_bind: u8) -> Option<&'static str> {
    let mut name = ffi::Name::default();
    ffi::st_bind_name(st_bind, &mut name);
    name.text()
}

/// The name of a binding of a symbol, or the number in parentheses after the field's name.
#[cfg(feature = "alloc")]
pub fn st_bind_to_string(st_bind: u8) -> String {
    match st_bind_to_str(st_bind) {
        Some(name) => name.to_string(),
        None => format!("st_bind({st_bind:#x})"),
    }
}

/// The name of a visibility of a symbol, if it has one.
pub fn st_vis_to_str(st_vis: u8) -> Option<&'static str> {
    let mut name = ffi::Name::default();
    ffi::st_vis_name(st_vis, &mut name);
    name.text()
}

/// The name of a visibility of a symbol, or the number in parentheses after the field's name.
#[cfg(feature = "alloc")]
pub fn st_vis_to_string(st_vis: u8) -> String {
    match st_vis_to_str(st_vis) {
        Some(name) => name.to_string(),
        None => format!("st_vis({st_vis:#x})"),
    }
}

/// The name of a way of compression, if it has one.
pub fn ch_type_to_str(ch_type: u32) -> Option<&'static str> {
    let mut name = ffi::Name::default();
    ffi::ch_type_name(ch_type, &mut name);
    name.text()
}

/// The name of the operating system of an ABI tag, if it has one.
pub fn note_abi_tag_os_to_str(os: u32) -> Option<&'static str> {
    let mut name = ffi::Name::default();
    ffi::note_abi_tag_os_name(os, &mut name);
    name.text()
}

/// The name of the tag of a dynamic entry, if it has one.
pub fn d_tag_to_str(d_tag: i64) -> Option<&'static str> {
    let mut name = ffi::Name::default();
    ffi::d_tag_name(d_tag, &mut name);
    name.text()
}
