//! Where each section of a solve's four arrays stands, by cells. The proved library has the same places in
//! crates/state/src/lib.rt and crates/lu_factor_rules/src/lib.rt, and C has them in include/tevalumi.h; the driver's tests
//! compare all three. The driver has this file too.

use core::ops::Range;

/// The cells that follow a section.
const fn after(before: &Range<usize>, cells: usize) -> Range<usize> {
    before.end..before.end + cells
}

/// In `numbers`: the basic variable of each kept row. Column `j` is variable `j`, the slack of kept row `k` is variable
/// `columns + k`.
pub const BASIC_VARS: Range<usize> = 0..96;
/// In `numbers`: the non-basic variables.
pub const NB_VARS: Range<usize> = after(&BASIC_VARS, 128);
/// In `numbers`: where each variable stands: below `columns` a non-basic place, from there on a kept row.
pub const VAR_STATES: Range<usize> = after(&NB_VARS, 224);
/// In `numbers`: the flags of the non-basic variables: 1 at the lower bound, 2 at the upper bound, 3 at both.
pub const FLAGS: Range<usize> = after(&VAR_STATES, 128);
/// In `numbers`: the leaving row of each eta column.
pub const ETA_LEAVING: Range<usize> = after(&FLAGS, 256);
/// In `numbers`: where each eta column starts, and at the end the number of eta entries.
pub const ETA_STARTS: Range<usize> = after(&ETA_LEAVING, 257);
/// In `numbers`: the row of each eta entry.
pub const ETA_ROWS: Range<usize> = after(&ETA_STARTS, 4_096);
/// In `numbers`: the plan's number of each kept row. A row without entries is dropped.
pub const KEPT: Range<usize> = after(&ETA_ROWS, 96);
/// In `numbers`: kept rows, eta columns, eta entries, steps, the status number of the last run, 1 where there is a factor,
/// and factorings since the start.
pub const COUNTS: Range<usize> = after(&KEPT, 7);
/// The cells of `numbers`.
pub const NUMBERS: usize = COUNTS.end;

/// In `doubles`: the values of the basic variables.
pub const BASIC_VAR_VALS: Range<usize> = 0..96;
/// In `doubles`: the values of the non-basic variables.
pub const NB_VAR_VALS: Range<usize> = after(&BASIC_VAR_VALS, 128);
/// In `doubles`: their prices (reduced costs).
pub const PRICES: Range<usize> = after(&NB_VAR_VALS, 128);
/// In `doubles`: their norms, by which the entering column is scored.
pub const NORMS: Range<usize> = after(&PRICES, 128);
/// In `doubles`: the coefficient of each eta entry.
pub const ETA_COEFFS: Range<usize> = after(&NORMS, 4_096);
/// In `doubles`: the dual norm of each kept row, by which the leaving row of a dual step is scored.
pub const DUAL_NORMS: Range<usize> = after(&ETA_COEFFS, 96);
/// In `doubles`: the running objective.
pub const OBJECTIVE: Range<usize> = after(&DUAL_NORMS, 1);
/// The cells of `doubles`.
pub const DOUBLES: usize = OBJECTIVE.end;

/// In `factor_numbers`: the kept row of each pivot number.
pub const PIVOTS: Range<usize> = 0..96;
/// In `factor_numbers`: its inverse, the pivot number of each kept row.
pub const PIVOT_PLACES: Range<usize> = after(&PIVOTS, 96);
/// In `factor_numbers`: where each column of L starts, and at the end the number of its entries.
pub const L_STARTS: Range<usize> = after(&PIVOT_PLACES, 97);
/// In `factor_numbers`: the row of each entry of L, by its pivot number.
pub const L_ROWS: Range<usize> = after(&L_STARTS, 4_560);
/// In `factor_numbers`: where each column of U starts.
pub const U_STARTS: Range<usize> = after(&L_ROWS, 97);
/// In `factor_numbers`: the row of each entry of U beside its diagonal.
pub const U_ROWS: Range<usize> = after(&U_STARTS, 4_560);
/// In `factor_numbers`: where each column of the transpose of L starts.
pub const LT_STARTS: Range<usize> = after(&U_ROWS, 97);
/// In `factor_numbers`: the rows of the transpose of L.
pub const LT_ROWS: Range<usize> = after(&LT_STARTS, 4_560);
/// In `factor_numbers`: where each column of the transpose of U starts.
pub const UT_STARTS: Range<usize> = after(&LT_ROWS, 97);
/// In `factor_numbers`: the rows of the transpose of U.
pub const UT_ROWS: Range<usize> = after(&UT_STARTS, 4_560);
/// The cells of `factor_numbers`.
pub const FACTOR_NUMBERS: usize = UT_ROWS.end;

/// In `factor_coeffs`: the number of each entry of L.
pub const L_COEFFS: Range<usize> = 0..4_560;
/// In `factor_coeffs`: the number of each entry of U.
pub const U_COEFFS: Range<usize> = after(&L_COEFFS, 4_560);
/// In `factor_coeffs`: the numbers of the transpose of L.
pub const LT_COEFFS: Range<usize> = after(&U_COEFFS, 4_560);
/// In `factor_coeffs`: the numbers of the transpose of U.
pub const UT_COEFFS: Range<usize> = after(&LT_COEFFS, 4_560);
/// In `factor_coeffs`: the diagonal of U.
pub const DIAG: Range<usize> = after(&UT_COEFFS, 96);
/// The cells of `factor_coeffs`.
pub const FACTOR_COEFFS: usize = DIAG.end;
