//! The oracle: the shown text of minilp 0.2.2 put together with the rules of documents 01 and 02.
//!
//! `sparse`, `lu` and `solver` are the shown text. Each place where a rule or a correction of
//! document 01, or of 02, is put in is marked `// ours:` with its words. `shown` holds the shown
//! parts that 01 leaves out and that only `--shown` runs. `fresh` is a second solver, written from
//! 01 and 02 alone; only tests use it.
//!
//! `ComparisonOp` is from minilp 0.2.2, src/lib.rs, Apache-2.0, changed (another order).

pub mod answer;
pub mod call_families;
pub mod exchange;
pub mod families;
pub mod fresh;
pub mod gate;
pub mod listing;
// clippy would have the shown text otherwise.
#[allow(clippy::needless_range_loop, clippy::unnecessary_mut_passed)]
pub mod lu;
pub mod lu_families;
pub mod memory;
pub mod night;
pub mod plan;
pub mod rng;
#[allow(clippy::needless_borrow)]
pub mod shown;
#[allow(clippy::while_let_loop)]
pub mod solver;
pub mod sparse;
pub mod sprs;
pub mod survey;
pub mod tri;
pub mod tri_families;

/// An operator specifying the relation between left-hand and right-hand sides of the constraint.
// ours: "Le, Eq, Ge are 0, 1, 2." The shown order is Eq, Le, Ge; no order is used.
#[derive(Clone, Copy, Debug)]
pub enum ComparisonOp {
    /// The <= operator (less than or equal to)
    Le,
    /// The == operator (equal to)
    Eq,
    /// The >= operator (greater than or equal to)
    Ge,
}

/// 01's limits with 02's numbers, each named once.
pub mod limits {
    pub const COLUMNS: u64 = 128;
    pub const ROWS: u64 = 96;
    pub const ENTRIES: u64 = 2_048;
    pub const BUDGET: u64 = 10_000;
    pub const ETA_COLUMNS: u64 = 256;
    pub const ETA_ENTRIES: u64 = 4_096;
    /// The cells of the four arrays that hold the state: every section, whatever the plan's sizes.
    pub const NUMBERS: u64 = 5_288;
    pub const DOUBLES: u64 = 4_673;
    pub const FACTOR_NUMBERS: u64 = 18_820;
    pub const FACTOR_COEFFS: u64 = 18_336;
    pub const TRI_PLACES: u64 = 96;
    pub const TRI_ENTRIES: u64 = 4_560;
    pub const NUMBER: f64 = 1e12;
}
