//! The names of what depends on the machine of a file (`e_machine`) or on the owner of a note.
use crate::ffi;

/// The name of a type of relocations in files of a machine, if it has one.
///
/// ```
/// use nugwier::{abi, names};
///
/// assert_eq!(names::relocation_type(abi::EM_X86_64, 7), Some("R_X86_64_JUMP_SLOT"));
/// assert_eq!(names::relocation_type(abi::EM_NONE, 7), None);
/// ```
pub fn relocation_type(e_machine: u16, r_type: u32) -> Option<&'static str> {
    let mut name = ffi::Name::default();
    ffi::r_type_name(e_machine, r_type, &mut name);
    name.text()
}

/// The name of a type of sections: that of the machine, as `SHT_ARM_EXIDX`, that of any machine, as `SHT_RELR`, or else
/// that of `sh_type_to_str`.
pub fn section_type(e_machine: u16, sh_type: u32) -> Option<&'static str> {
    let mut name = ffi::Name::default();
    ffi::machine_sh_type_name(e_machine, sh_type, &mut name);
    name.text()
}

/// The name of a type of segments: that of the machine, as `PT_ARM_EXIDX`, that of any machine, as `PT_GNU_SFRAME`, or
/// else that of `p_type_to_str`.
pub fn segment_type(e_machine: u16, p_type: u32) -> Option<&'static str> {
    let mut name = ffi::Name::default();
    ffi::machine_p_type_name(e_machine, p_type, &mut name);
    name.text()
}

/// The name of a tag: that of the machine, as `DT_MIPS_GOTSYM`, that of any machine, as `DT_RELR`, or else that of
/// `d_tag_to_str`.
pub fn tag(e_machine: u16, d_tag: i64) -> Option<&'static str> {
    let mut name = ffi::Name::default();
    ffi::machine_d_tag_name(e_machine, d_tag, &mut name);
    name.text()
}

/// The name of a type of notes of an owner, whose name is without the 0 byte at its end.
///
/// ```
/// assert_eq!(nugwier::names::note_type(b"GNU", 3), Some("NT_GNU_BUILD_ID"));
/// ```
pub fn note_type(owner: &[u8], n_type: u64) -> Option<&'static str> {
    let mut name = ffi::Name::default();
    ffi::n_type_name(owner, n_type, &mut name);
    name.text()
}
