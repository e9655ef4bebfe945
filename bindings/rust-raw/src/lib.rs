//! The proved library's calls over lent memory, for firmware: no std and no allocation.
//!
//! The modules are those of the crate `tevalumi` (`bindings/rust`), file by file.

#![no_std]
#![deny(unsafe_code)]
#![deny(missing_debug_implementations)]
#![warn(missing_docs)]

// It has the calls behind the other crate's `wholes` too.
#[allow(dead_code)]
#[path = "../../rust/src/ffi.rs"]
mod ffi;
#[path = "../../rust/src/raw.rs"]
pub mod raw;
#[path = "../../rust/src/sections.rs"]
mod sections;
#[path = "../../rust/src/triangle.rs"]
pub mod triangle;
