//! Reads ELF files by the proved library Nugwier, under the names of the crate `elf` 0.8.0.
//!
//! A program over `elf` changes one line of its Cargo.toml: `elf = { package = "nugwier", path = ".." }`. README.md
//! says what differs. The proved functions of `libnugwier.a` read headers, tables of the format's records, strings,
//! notes, versions and hash sections. This crate gives their results Rust's types, and reads the records of other types
//! by their own `parse_at`. Its uses of `unsafe` are all in `ffi.rs`.
//!
//! The modules [`check`], [`fault_kinds`], [`linking`], [`named`] and [`names`], and with `std` also `versions`, have what
//! `elf` does not have.
#![cfg_attr(not(feature = "std"), no_std)]
#![deny(unsafe_code)]
#![warn(missing_docs, missing_debug_implementations, rust_2018_idioms)]

#[cfg(all(feature = "alloc", feature = "to_str"))]
extern crate alloc;

// The constants of the proved crate itself: comments there name the source of each group.
#[allow(missing_docs)]
#[path = "../../../crates/elf_abi/src/abi.rt"]
pub mod abi;
pub mod check;
pub mod compression;
pub mod dynamic;
mod elf_bytes;
#[cfg(feature = "std")]
mod elf_stream;
pub mod endian;
// All exports stand there, used or not.
#[allow(dead_code, unsafe_code)]
mod ffi;
// The kinds of faults of the proved crate itself.
#[path = "../../../crates/elf_c/src/faults/kinds.rt"]
pub mod fault_kinds;
pub mod file;
pub mod gnu_symver;
pub mod hash;
pub mod linking;
pub mod named;
pub mod names;
pub mod note;
pub mod parse;
mod records;
pub mod relocation;
pub mod section;
pub mod segment;
pub mod string_table;
pub mod symbol;
#[cfg(feature = "to_str")]
pub mod to_str;
#[cfg(feature = "std")]
pub mod versions;

pub use elf_bytes::{CommonElfData, ElfBytes};
#[cfg(feature = "std")]
pub use elf_stream::ElfStream;
pub use parse::ParseError;
