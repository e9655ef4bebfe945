//! The proved library behind the exchange text, so that its answers can be compared with the
//! oracles' line by line.
//!
//! Arrays that a call writes are lent longer than needed, by a seeded number of marked cells. Where
//! a call changes a cell that it must leave, its line says so and so differs from the oracle's.

pub mod files;
pub mod journals;
pub mod lent;
/// The calls of the library, as the Rust crate over it has them.
#[path = "../../bindings/rust/src/ffi.rs"]
mod library;
pub mod nights;
pub mod plans;
/// Where the sections of a solve's four arrays stand, as the Rust crate has them.
#[path = "../../bindings/rust/src/sections.rs"]
pub mod sections;
pub mod sheets;
pub mod triangles;
pub mod wholes;

use oracle::exchange::{Item, Reader};
use oracle::rng::Rng;

/// Under so many cells more than needed are lent.
pub const EXTRA: usize = 6;

/// What the answer lines show besides the answers.
#[derive(Clone, Copy, Debug, Default)]
pub struct Shown {
    /// A plan's state.
    pub state: bool,
    /// All cells of a sheet after every edit.
    pub cells: bool,
}

/// The answer lines of a block of the exchange text.
pub fn answers(block: &str, shown: Shown, rng: &mut Rng) -> Result<String, String> {
    let mut out = String::new();
    if block.trim_start().starts_with("sheet") {
        for script in oracle_sheet::parse(block)? {
            sheets::lines(&script, shown.cells, rng, &mut out);
        }
        return Ok(out);
    }
    for item in Reader::new(block.as_bytes()) {
        let lines = match item? {
            Item::Plan(plan) => {
                let lengths = plans::Lengths::told(&plan, rng);
                plans::lines(&plan, &lengths, shown.state)
            }
            Item::Tri(tri) => vec![triangles::line(&tri, rng)],
            Item::Factors(both) => vec![triangles::factors_line(&both, rng)],
        };
        for line in lines {
            out += &line;
            out.push('\n');
        }
    }
    Ok(out)
}
