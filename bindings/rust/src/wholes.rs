//! From a run's doubles to whole numbers for the audit sheet. The rounding is the library's, proved
//! against the exact value of each double: the nearest whole number, ties to even.
//!
//! ```
//! use tevalumi::wholes::{amount, multiplier, Rounded};
//! use tevalumi::ComparisonOp;
//!
//! assert_eq!(amount(2.5), Rounded::Whole(2));
//! assert_eq!(amount(65536.5), Rounded::Whole(65536));
//! assert_eq!(amount(65537.0), Rounded::Beyond(65537.0));
//! assert_eq!(amount(f64::NAN), Rounded::NotANumber);
//!
//! // Minus the price times 1024, and 0 where the sheet would call the sign wrong.
//! assert_eq!(multiplier(ComparisonOp::Le, 3.0), Rounded::Whole(-3 * 1024));
//! assert_eq!(multiplier(ComparisonOp::Ge, 3.0), Rounded::Whole(0));
//! ```

use std::fmt;

use crate::ffi;
use crate::raw::{limits, PlanRef, Workspace};
use crate::{ComparisonOp, Problem, Solution};

/// A double as a whole number of the sheet.
#[derive(Clone, Copy, Debug, PartialEq)]
pub enum Rounded {
    /// The nearest whole number, within the sheet's limit.
    Whole(i64),
    /// The double that doesn't fit: an amount's value, or a multiplier's `-price * 1024`.
    Beyond(f64),
    /// A NaN.
    NotANumber,
}

impl Rounded {
    fn told(whole: ffi::Whole) -> Rounded {
        match whole.kind {
            0 => Rounded::Whole(whole.number),
            1 => Rounded::Beyond(whole.beyond),
            _ => Rounded::NotANumber,
        }
    }
}

/// A double's case as an amount.
pub fn amount(value: f64) -> Rounded {
    Rounded::told(ffi::tevalumi_amount(value))
}

/// A price's case as the multiplier of a row with this comparison.
pub fn multiplier(op: ComparisonOp, price: f64) -> Rounded {
    Rounded::told(ffi::tevalumi_multiplier(op.code(), price))
}

/// Why nothing is proposed. No lent cell has changed.
#[derive(Clone, Copy, Debug, PartialEq)]
pub enum NotProposed {
    /// 1: a size over its limit or an array that is too short.
    BadSize,
    /// The last run's status isn't 0.
    Nothing,
    /// 41: the workspace doesn't hold the rows and maps that a run over this plan left.
    BadMaps,
    /// The first amount that isn't whole.
    Amount {
        /// Its column.
        column: usize,
        /// Its case.
        case: Rounded,
    },
    /// The first multiplier that isn't whole; every amount is.
    Multiplier {
        /// Its row.
        row: usize,
        /// Its case.
        case: Rounded,
    },
}

impl NotProposed {
    /// None where all is proposed.
    pub(crate) fn told(told: ffi::Proposal) -> Option<NotProposed> {
        let (place, case) = (told.place, Rounded::told(told.answer));
        match (told.status, told.kind) {
            (0, 0) => None,
            (0, 1) => Some(NotProposed::Nothing),
            (0, 2) => Some(NotProposed::Amount {
                column: place,
                case,
            }),
            (0, _) => Some(NotProposed::Multiplier { row: place, case }),
            (1, _) => Some(NotProposed::BadSize),
            _ => Some(NotProposed::BadMaps),
        }
    }
}

impl fmt::Display for NotProposed {
    fn fmt(&self, f: &mut fmt::Formatter<'_>) -> fmt::Result {
        match self {
            NotProposed::BadSize => f.write_str("1: a size over its limit or a short array"),
            NotProposed::Nothing => f.write_str("the last run isn't optimal"),
            NotProposed::BadMaps => f.write_str("41: the rows or maps aren't those of a run"),
            NotProposed::Amount { column, case } => {
                write!(
                    f,
                    "the amount of column {column} {}",
                    said(*case, limits::SHEET_AMOUNT)
                )
            }
            NotProposed::Multiplier { row, case } => write!(
                f,
                "the multiplier of row {row} in units of 1/1024 {}",
                said(*case, limits::SHEET_MULTIPLIER)
            ),
        }
    }
}

impl std::error::Error for NotProposed {}

fn said(case: Rounded, most: i64) -> String {
    match case {
        Rounded::Whole(w) => format!("is {w}"),
        Rounded::Beyond(x) => format!("is {x}, over {most}"),
        Rounded::NotANumber => "isn't a number".into(),
    }
}

/// Writes an amount for each column and a multiplier for each row, from the values and the workspace
/// that a run over this plan left.
///
/// # Errors
///
/// Why nothing is written, the first that applies in the order of [`NotProposed`].
pub fn propose_into(
    plan: &PlanRef<'_>,
    values: &[f64],
    work: &Workspace,
    amounts: &mut [i64],
    mults: &mut [i64],
) -> Result<(), NotProposed> {
    let told = ffi::tevalumi_propose(
        plan.columns,
        plan.rows,
        plan.starts,
        plan.ops,
        values,
        &work.numbers,
        &work.doubles,
        amounts,
        mults,
    );
    NotProposed::told(told).map_or(Ok(()), Err)
}

/// Whole amounts and multipliers, as [`crate::sheet::Figures`] has them.
#[derive(Clone, Debug, Default, PartialEq, Eq)]
pub struct Proposal {
    /// An amount for each column.
    pub amounts: Vec<i64>,
    /// A multiplier for each row, in 1/1024, of the minimised costs.
    pub mults: Vec<i64>,
}

pub(crate) fn propose(problem: &Problem, solution: &Solution) -> Result<Proposal, NotProposed> {
    let plan = problem.plan();
    let mut proposal = Proposal {
        amounts: vec![0; plan.columns],
        mults: vec![0; plan.rows],
    };
    let (amounts, mults) = (&mut proposal.amounts, &mut proposal.mults);
    propose_into(&plan, solution.values(), solution.work(), amounts, mults)?;
    Ok(proposal)
}
