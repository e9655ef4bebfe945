//! The library's own calls over memory that the caller lends: nothing here allocates.
//!
//! This is the level for firmware. A [`PlanRef`] borrows the plan's arrays, a [`Workspace`] is four
//! fixed arrays that can stand in a `static`, and [`solve_into`] answers an [`Answer`];
//! [`solve_any_into`] has one for every start.
//! A caller with memory of its own lends a [`WorkspaceMut`] to [`solve_lent`]. The audit
//! sheet's arrays are lent as a [`SheetMut`]; its plan is written into a file's bytes by
//! [`SheetRef::write_plan`] and read back by [`FiguresMut::read_plan`]. A journal of its edits is
//! bytes too, which [`SheetMut::edit_journaled`] and [`SheetMut::undo`] change with the sheet.
//!
//! Whatever is handed in is answered: a size over its limit or an array that is too short is
//! answer 1 (11 for a sheet or a file), never a panic. A refusal (1 to 7, 11 to 16, 31 to 37)
//! changes no lent cell, but that a feed keeps what came before it.
//! Lent arrays may be longer than needed; the cells past what is needed are neither read nor
//! written.
//!
//! ```
//! use tevalumi::raw::{solve_into, PlanRef, Status, Workspace};
//!
//! // Minimise -3 x0 - x1 with x0 >= 0, 0 <= x1 <= 2 and x0 + x1 <= 4.
//! let plan = PlanRef {
//!     columns: 2,
//!     rows: 1,
//!     entries: 2,
//!     budget: 100,
//!     tolerance: 1e-6,
//!     costs: &[-3.0, -1.0],
//!     lowers: &[0.0, 0.0],
//!     uppers: &[f64::INFINITY, 2.0],
//!     starts: &[0, 2],
//!     cols: &[0, 1],
//!     coeffs: &[1.0, 1.0],
//!     ops: &[0],
//!     rhs: &[4.0],
//! };
//! let mut work = Workspace::new();
//! let mut values = [0.0; 3];
//! let answer = solve_into(&plan, &mut work, &mut values);
//! assert_eq!(answer.status, Status::Optimal);
//! assert_eq!((answer.objective, answer.steps), (-12.0, 2));
//! assert_eq!(values, [4.0, 0.0, 0.0]); // x0, x1, then the row's slack
//! ```

use crate::ffi;

/// Where each section of a [`Workspace`]'s four arrays stands, by cells.
pub mod sections {
    pub use crate::sections::*;
}

/// The limits of document 01 with document 02's numbers, each named once.
pub mod limits {
    /// Columns (variables) of a plan or a sheet.
    pub const COLUMNS: usize = 128;
    /// Rows (constraints) of a plan or a sheet, empty ones counted.
    pub const ROWS: usize = 96;
    /// Stored entries of a plan, stored zeros counted.
    pub const ENTRIES: usize = 2_048;
    /// Entries beside a triangle's diagonal.
    pub const TRIANGLE_ENTRIES: usize = 4_560;
    /// The largest step budget.
    pub const BUDGET: usize = 10_000;
    /// The largest tolerance of the final check; the smallest is 0.
    pub const TOLERANCE: f64 = 1.0;
    /// A plan's costs, coefficients, right sides and finite bounds, in size.
    pub const NUMBER: f64 = 1e12;
    /// Columns of the eta store.
    pub const ETA_COLUMNS: usize = 256;
    /// Entries of the eta store.
    pub const ETA_ENTRIES: usize = 4_096;
    /// A sheet's coefficients, in size.
    pub const SHEET_COEFFICIENT: i64 = 4_096;
    /// A sheet's costs, in size.
    pub const SHEET_COST: i64 = 1 << 20;
    /// A sheet's right sides, in size.
    pub const SHEET_RIGHT: i64 = 1 << 31;
    /// A sheet's amounts and finite bounds, in size.
    pub const SHEET_AMOUNT: i64 = 1 << 16;
    /// A sheet's multipliers (in 1/1024), in size.
    pub const SHEET_MULTIPLIER: i64 = 1 << 20;
    /// Bytes of one block of a file.
    pub const BLOCK: usize = 512;
    /// Bytes of the largest plan's file: 217 blocks.
    pub const FILE: usize = 217 * BLOCK;
}

/// The comparison codes of [`PlanRef::ops`] and [`SheetMut::ops`].
pub mod ops {
    /// At most the right side.
    pub const LE: u8 = 0;
    /// Equal to the right side.
    pub const EQ: u8 = 1;
    /// At least the right side.
    pub const GE: u8 = 2;
}

/// What a solve, a fix, an unfix or a repricing ends with: document 01's numbers, with document 02's.
///
/// 1 to 7 and 41 to 44 are refusals: no lent cell has changed. 20 to 26 leave the values alone, and
/// the workspace holds the state after the last whole step. 41 to 44 are those of [`fix_into`] and
/// [`unfix_into`], and 41 of [`reprice_into`] too; these three never give 6 and 7, and nor does
/// [`solve_any_into`].
#[derive(Clone, Copy, Debug, PartialEq, Eq, Hash)]
pub enum Status {
    /// 0: the plan is solved, the values are written.
    Optimal = 0,
    /// 1: a size or the budget passes its limit, a lent array is too short, or the row starts
    /// don't begin at 0, fall, or don't end at the entry count.
    BadSize = 1,
    /// 2: NaN in the plan, an infinite cost, coefficient or right side, a lower bound of +inf or
    /// an upper bound of -inf, a finite one of these above 1e12 in size, a tolerance outside 0 to 1,
    /// or an unknown comparison.
    BadNumber = 2,
    /// 3: an entry's column is too large or doesn't rise within its row.
    BadEntry = 3,
    /// 4: a column's lower bound is above its upper bound.
    CrossedBounds = 4,
    /// 5: a row without entries is false.
    FalseEmptyRow = 5,
    /// 6: a start value, the objective's sum or a start norm isn't finite. No longer given: numbers up
    /// to 1e12 don't reach it.
    StartNotFinite = 6,
    /// 7: a row's slack starts outside its bounds, and a column has no bound on the side that its cost
    /// prefers, so the start isn't dual feasible either. The plan may have a solution all the same, which
    /// [`solve_any_into`] looks for.
    SlackOutside = 7,
    /// 20: the objective falls without end, as far as coefficients of at least 1e-8 in size say: a
    /// smaller one stops nothing.
    Unbounded = 20,
    /// 21: the budget is spent, and a column would still enter or a row leave.
    Spent = 21,
    /// 22: the eta store has no room for the next column. No longer given: the basis is factored
    /// instead.
    NoRoom = 22,
    /// 23: a number of the step isn't finite.
    NotFinite = 23,
    /// 24: the final check rejects the values.
    Rejected = 24,
    /// 25: the basis after an exchange can't be factored: every remaining entry of some column is under
    /// EPS (1e-8) in size.
    Singular = 25,
    /// 26: no column can enter for the row that is to leave in a dual step: none has a coefficient of at
    /// least EPS (1e-8) in size there and room for the move. As far as such coefficients say, no values
    /// keep every row and bound.
    Infeasible = 26,
    /// 41: the last call over the workspace didn't end in 0, or its maps, lists, store, factor or
    /// numbers aren't those that a call over this plan left.
    NotKept = 41,
    /// 42: the plan has no such column.
    UnknownColumn = 42,
    /// 43: the value to fix a column at isn't finite or is outside the column's bounds.
    ValueOutside = 43,
    /// 44: the column to unfix isn't fixed.
    NotFixed = 44,
}

impl Status {
    /// Every status, in the order of its number.
    pub const ALL: [Status; 19] = [
        Status::Optimal,
        Status::BadSize,
        Status::BadNumber,
        Status::BadEntry,
        Status::CrossedBounds,
        Status::FalseEmptyRow,
        Status::StartNotFinite,
        Status::SlackOutside,
        Status::Unbounded,
        Status::Spent,
        Status::NoRoom,
        Status::NotFinite,
        Status::Rejected,
        Status::Singular,
        Status::Infeasible,
        Status::NotKept,
        Status::UnknownColumn,
        Status::ValueOutside,
        Status::NotFixed,
    ];

    /// Document 01's number.
    pub const fn number(self) -> u8 {
        self as u8
    }

    /// The status with this number, if there is one.
    pub fn from_number(number: usize) -> Option<Status> {
        Status::ALL
            .into_iter()
            .find(|status| usize::from(status.number()) == number)
    }

    /// Whether this is a refusal (1 to 7, 41 to 44): nothing was solved and no lent cell has changed.
    pub const fn is_refusal(self) -> bool {
        matches!(self.number(), 1..=7 | 41..=44)
    }

    /// A plain sentence, without its full stop.
    pub const fn sentence(self) -> &'static str {
        match self {
            Status::Optimal => "optimal: no column would enter, and the final check accepts the values",
            Status::BadSize => "a size is over its limit or an array is too short",
            Status::BadNumber => "a number isn't allowed: NaN, an infinity where none may stand, a size above 1e12, a tolerance outside 0 to 1, or an unknown comparison",
            Status::BadEntry => "a row names a column twice, out of order, or that isn't there",
            Status::CrossedBounds => "a lower bound is above its upper bound",
            Status::FalseEmptyRow => "a row without entries is false",
            Status::StartNotFinite => "a number of the start isn't finite",
            Status::SlackOutside => "a row isn't kept at the start, and a column has no bound on the side that its cost prefers: a plain solve begins where every row is kept, or where every column has one",
            Status::Unbounded => "unbounded: no bound and no row's coefficient of at least 1e-8 in size stops a column that makes the plan cheaper",
            Status::Spent => "the step budget is spent",
            Status::NoRoom => "the eta store is full",
            Status::NotFinite => "a number of a step isn't finite",
            Status::Rejected => "the final check rejects the values",
            Status::Singular => "the basis after an exchange can't be factored: every remaining entry of some column is under EPS",
            Status::Infeasible => "the solver finds no column that could mend a row: none that has room to move has a coefficient of at least 1e-8 in size there",
            Status::NotKept => "the memory isn't what an Optimal run over this plan left",
            Status::UnknownColumn => "the plan has no such column",
            Status::ValueOutside => "the value isn't finite or is outside the column's bounds",
            Status::NotFixed => "the column isn't fixed",
        }
    }
}

/// Where a status arose.
#[derive(Clone, Copy, Debug, PartialEq, Eq, Hash)]
pub enum Place {
    /// The status has no place.
    Nowhere,
    /// Status 3: the first bad entry, by its row and its place within that row, from 0.
    Entry {
        /// The plan's row.
        row: usize,
        /// The place within that row.
        within: usize,
    },
    /// Status 4: the first column whose bounds cross.
    Column(usize),
    /// Status 5: the first false row.
    Row(usize),
    /// Status 24: the value with the largest excess. Columns come first, then the kept rows' slacks.
    Value(usize),
    /// Status 24: the row that the values miss by the largest excess; status 26: the row that no column can
    /// mend, whose basic variable is out of its bounds. Counted among the kept rows.
    KeptRow(usize),
}

/// What a solve answers.
#[derive(Clone, Copy, Debug, PartialEq)]
pub struct Answer {
    /// How it ended.
    pub status: Status,
    /// Where, if the status has a place.
    pub place: Place,
    /// The running objective after the last whole step; 0.0 on a refusal.
    pub objective: f64,
    /// Whole steps taken; 0 on a refusal.
    pub steps: usize,
    /// With status 0 and 24 the largest excess of the values over a bound, or of a row's sum over or
    /// under its right side; 0.0 where nothing exceeds 0, and with every other status.
    pub excess: f64,
}

impl Answer {
    pub(crate) fn from_numbers(from: ffi::Answer) -> Answer {
        let status = Status::from_number(from.status)
            .expect("the library answers with one of document 01's numbers");
        let place = match from.place {
            1 => Place::Entry {
                row: from.at,
                within: from.within,
            },
            2 => Place::Column(from.at),
            3 => Place::Row(from.at),
            4 => Place::Value(from.at),
            5 => Place::KeptRow(from.at),
            _ => Place::Nowhere,
        };
        Answer {
            status,
            place,
            objective: from.objective,
            steps: from.steps,
            excess: from.excess,
        }
    }
}

/// A plan as it is lent: what the caller says of its sizes, and the arrays.
///
/// The plan is: minimise the sum of `costs[j] * x[j]` where `lowers[j] <= x[j] <= uppers[j]` and
/// each row's sum compares with its right side. Row `i` has the entries from `starts[i]` to
/// before `starts[i + 1]` of `cols` and `coeffs`; columns rise strictly within a row.
#[derive(Clone, Copy, Debug)]
pub struct PlanRef<'a> {
    /// Columns: at most [`limits::COLUMNS`].
    pub columns: usize,
    /// Rows: at most [`limits::ROWS`].
    pub rows: usize,
    /// Entries: at most [`limits::ENTRIES`].
    pub entries: usize,
    /// The most steps to take: at most [`limits::BUDGET`].
    pub budget: usize,
    /// The final check's tolerance: 0 to 1.
    pub tolerance: f64,
    /// A cost for each column.
    pub costs: &'a [f64],
    /// A lower bound for each column, or `f64::NEG_INFINITY`.
    pub lowers: &'a [f64],
    /// An upper bound for each column, or `f64::INFINITY`.
    pub uppers: &'a [f64],
    /// Where each row's entries start, and at the end the entry count: `rows + 1` cells.
    pub starts: &'a [usize],
    /// The column of each entry.
    pub cols: &'a [usize],
    /// The coefficient of each entry.
    pub coeffs: &'a [f64],
    /// The comparison of each row, by [`ops`].
    pub ops: &'a [u8],
    /// The right side of each row.
    pub rhs: &'a [f64],
}

/// The memory of a solve: four arrays, room for every plan within the limits. [`sections`] says where what stands.
///
/// It is some 377 KB, of which 297 KB are the factor's, and it can stand in a `static`:
///
/// ```
/// use std::sync::Mutex;
/// use tevalumi::raw::Workspace;
///
/// static WORK: Mutex<Workspace> = Mutex::new(Workspace::new());
/// # assert!(WORK.lock().unwrap().kept_rows() == 0);
/// ```
///
/// After answers 0 and 20 to 26 it holds the state after the last whole step.
#[derive(Clone, Debug)]
pub struct Workspace {
    /// Variables, places, flags, the eta store's rows and starts, the kept rows, and the counts.
    pub numbers: [usize; sections::NUMBERS],
    /// Values, prices, norms, the eta store's coefficients, the dual norms, and the objective.
    pub doubles: [f64; sections::DOUBLES],
    /// The factor's pivot rows, starts and rows, where there is one.
    pub factor_numbers: [usize; sections::FACTOR_NUMBERS],
    /// The factor's coefficients and diagonal.
    pub factor_coeffs: [f64; sections::FACTOR_COEFFS],
}

impl Workspace {
    /// A workspace with every cell 0.
    pub const fn new() -> Workspace {
        Workspace {
            numbers: [0; sections::NUMBERS],
            doubles: [0.0; sections::DOUBLES],
            factor_numbers: [0; sections::FACTOR_NUMBERS],
            factor_coeffs: [0.0; sections::FACTOR_COEFFS],
        }
    }

    /// The same memory as borrowed slices.
    pub fn lend(&mut self) -> WorkspaceMut<'_> {
        WorkspaceMut {
            numbers: &mut self.numbers,
            doubles: &mut self.doubles,
            factor_numbers: &mut self.factor_numbers,
            factor_coeffs: &mut self.factor_coeffs,
        }
    }

    /// How often the last run factored its basis.
    pub fn factorings(&self) -> usize {
        self.numbers[sections::COUNTS][6]
    }

    /// How many rows the last run kept.
    pub fn kept_rows(&self) -> usize {
        self.numbers[sections::COUNTS][0]
    }

    /// The plan's numbers of the rows that the last run kept.
    pub fn kept(&self) -> &[usize] {
        &self.numbers[sections::KEPT][..self.kept_rows()]
    }
}

impl Default for Workspace {
    fn default() -> Workspace {
        Workspace::new()
    }
}

/// The memory of a solve as the caller lends it.
///
/// Needed are [`sections::NUMBERS`], [`sections::DOUBLES`], [`sections::FACTOR_NUMBERS`] and [`sections::FACTOR_COEFFS`]
/// cells, whatever the plan's sizes. One cell less is answer 1.
#[derive(Debug)]
#[allow(missing_docs)] // The fields are Workspace's.
pub struct WorkspaceMut<'a> {
    pub numbers: &'a mut [usize],
    pub doubles: &'a mut [f64],
    pub factor_numbers: &'a mut [usize],
    pub factor_coeffs: &'a mut [f64],
}

/// One of the library's calls over a plan, the memory of a run and the values, with what it takes behind them.
macro_rules! over {
    ($answer:ident, $call:ident, $plan:expr, $work:expr, $values:expr $(, $more:expr)*) => {
        $answer::from_numbers(ffi::$call(
            $plan.columns,
            $plan.rows,
            $plan.entries,
            $plan.budget,
            $plan.tolerance,
            $plan.costs,
            $plan.lowers,
            $plan.uppers,
            $plan.starts,
            $plan.cols,
            $plan.coeffs,
            $plan.ops,
            $plan.rhs,
            $values,
            $work.numbers,
            $work.doubles,
            $work.factor_numbers,
            $work.factor_coeffs,
            $($more,)*
        ))
    };
}

/// Solves a plan in a [`Workspace`]. `values` needs `columns + rows` cells; on
/// [`Status::Optimal`] the columns' values are written there, then the kept rows' slacks.
pub fn solve_into(plan: &PlanRef<'_>, work: &mut Workspace, values: &mut [f64]) -> Answer {
    solve_lent(plan, &mut work.lend(), values)
}

/// As [`solve_into`], with memory of the caller's own.
pub fn solve_lent(plan: &PlanRef<'_>, work: &mut WorkspaceMut<'_>, values: &mut [f64]) -> Answer {
    over!(Answer, tevalumi_solve, plan, work, values)
}

/// Holds a column of a solved plan still at a value, and goes on from the state in the workspace: in a
/// few steps, where solving anew takes them all. The column stays there, whatever later calls do,
/// until it is fixed elsewhere or [`unfix_into`] lets it go.
///
/// The plan is the one that the last call over the workspace solved. A call that doesn't end in 0
/// leaves a workspace that later ones refuse with 41, until a solve ends in 0 again.
///
/// ```
/// use tevalumi::raw::{fix_into, solve_into, unfix_into, PlanRef, Status, Workspace};
///
/// // Minimise -3 x0 - x1 with x0 >= 0, 0 <= x1 <= 2 and x0 + x1 <= 4.
/// let plan = PlanRef {
///     columns: 2,
///     rows: 1,
///     entries: 2,
///     budget: 100,
///     tolerance: 1e-6,
///     costs: &[-3.0, -1.0],
///     lowers: &[0.0, 0.0],
///     uppers: &[f64::INFINITY, 2.0],
///     starts: &[0, 2],
///     cols: &[0, 1],
///     coeffs: &[1.0, 1.0],
///     ops: &[0],
///     rhs: &[4.0],
/// };
/// let mut work = Workspace::new();
/// let mut values = [0.0; 3];
/// solve_into(&plan, &mut work, &mut values);
/// assert_eq!(values, [4.0, 0.0, 0.0]);
/// let answer = fix_into(&plan, &mut work, &mut values, 0, 3.0);
/// assert_eq!((answer.status, answer.objective), (Status::Optimal, -10.0));
/// assert_eq!(values, [3.0, 1.0, 0.0]);
/// let answer = unfix_into(&plan, &mut work, &mut values, 0);
/// assert_eq!((answer.status, answer.objective), (Status::Optimal, -12.0));
/// assert_eq!(values, [4.0, 0.0, 0.0]);
/// ```
pub fn fix_into(
    plan: &PlanRef<'_>,
    work: &mut Workspace,
    values: &mut [f64],
    column: usize,
    value: f64,
) -> Answer {
    fix_lent(plan, &mut work.lend(), values, column, value)
}

/// As [`fix_into`], with memory of the caller's own.
pub fn fix_lent(
    plan: &PlanRef<'_>,
    work: &mut WorkspaceMut<'_>,
    values: &mut [f64],
    column: usize,
    value: f64,
) -> Answer {
    over!(Answer, tevalumi_fix, plan, work, values, column, value)
}

/// Lets a column go that [`fix_into`] holds, and goes on from the state in the workspace.
pub fn unfix_into(
    plan: &PlanRef<'_>,
    work: &mut Workspace,
    values: &mut [f64],
    column: usize,
) -> Answer {
    unfix_lent(plan, &mut work.lend(), values, column)
}

/// As [`unfix_into`], with memory of the caller's own.
pub fn unfix_lent(
    plan: &PlanRef<'_>,
    work: &mut WorkspaceMut<'_>,
    values: &mut [f64],
    column: usize,
) -> Answer {
    over!(Answer, tevalumi_unfix, plan, work, values, column)
}

/// Solves a plan anew whose costs have changed, from the state in the workspace: the rows and bounds are
/// those that the last call over it solved. Columns that [`fix_into`] holds stay where they are.
///
/// A call that doesn't end in 0 leaves a workspace that later ones refuse with 41, until a solve ends in 0
/// again.
///
/// ```
/// use tevalumi::raw::{reprice_into, solve_into, PlanRef, Status, Workspace};
///
/// // Minimise -3 x0 - x1 with x0 >= 0, 0 <= x1 <= 2 and x0 + x1 <= 4; then -x0 - 3 x1.
/// let mut plan = PlanRef {
///     columns: 2,
///     rows: 1,
///     entries: 2,
///     budget: 100,
///     tolerance: 1e-6,
///     costs: &[-3.0, -1.0],
///     lowers: &[0.0, 0.0],
///     uppers: &[f64::INFINITY, 2.0],
///     starts: &[0, 2],
///     cols: &[0, 1],
///     coeffs: &[1.0, 1.0],
///     ops: &[0],
///     rhs: &[4.0],
/// };
/// let mut work = Workspace::new();
/// let mut values = [0.0; 3];
/// solve_into(&plan, &mut work, &mut values);
/// assert_eq!(values, [4.0, 0.0, 0.0]);
/// plan.costs = &[-1.0, -3.0];
/// let answer = reprice_into(&plan, &mut work, &mut values);
/// assert_eq!((answer.status, answer.objective), (Status::Optimal, -8.0));
/// assert_eq!(values, [2.0, 2.0, 0.0]);
/// ```
pub fn reprice_into(plan: &PlanRef<'_>, work: &mut Workspace, values: &mut [f64]) -> Answer {
    reprice_lent(plan, &mut work.lend(), values)
}

/// As [`reprice_into`], with memory of the caller's own.
pub fn reprice_lent(plan: &PlanRef<'_>, work: &mut WorkspaceMut<'_>, values: &mut [f64]) -> Answer {
    over!(Answer, tevalumi_reprice, plan, work, values)
}

/// How [`solve_any_into`] came to its answer.
#[derive(Clone, Copy, Debug, PartialEq, Eq, Hash)]
pub enum Way {
    /// 0: as [`solve_into`] answers, which doesn't give 7.
    Direct = 0,
    /// 1: a solve with costs 0 didn't end in 0. Its answer is the call's.
    Halted = 1,
    /// 2: a solve with costs 0 ended in 0, and what it left was repriced with the plan's own costs.
    Repriced = 2,
}

/// What [`solve_any_into`] answers.
#[derive(Clone, Copy, Debug, PartialEq)]
pub struct AnyAnswer {
    /// The last run's answer.
    pub answer: Answer,
    /// Which run that was.
    pub way: Way,
    /// The steps of the run with costs 0, if there was one. `answer.steps` are those of the last run.
    pub costless_steps: usize,
}

impl AnyAnswer {
    pub(crate) fn from_numbers(from: ffi::AnyAnswer) -> AnyAnswer {
        AnyAnswer {
            answer: Answer::from_numbers(from.answer),
            way: match from.way {
                0 => Way::Direct,
                1 => Way::Halted,
                _ => Way::Repriced,
            },
            costless_steps: from.costless_steps,
        }
    }
}

/// Solves a plan from any start: as [`solve_into`], and where that gives 7 with costs 0 first, from where
/// every start is dual feasible, and then with the plan's own costs. Each of the two runs has the whole
/// budget.
///
/// On [`Way::Repriced`] the values are written whatever the answer is: where it isn't 0 they are those of
/// the run with costs 0, which keep every row and bound within the tolerance.
///
/// ```
/// use tevalumi::raw::{solve_any_into, solve_into, PlanRef, Status, Way, Workspace};
///
/// // Minimise -x with x >= 0, x >= 1 and x <= 4 as rows: 0 breaks the first, and x has no upper bound.
/// let plan = PlanRef {
///     columns: 1,
///     rows: 2,
///     entries: 2,
///     budget: 100,
///     tolerance: 1e-6,
///     costs: &[-1.0],
///     lowers: &[0.0],
///     uppers: &[f64::INFINITY],
///     starts: &[0, 1, 2],
///     cols: &[0, 0],
///     coeffs: &[1.0, 1.0],
///     ops: &[2, 0],
///     rhs: &[1.0, 4.0],
/// };
/// let mut work = Workspace::new();
/// let mut values = [0.0; 3];
/// let answer = solve_into(&plan, &mut work, &mut values);
/// assert_eq!(answer.status, Status::SlackOutside);
/// let any = solve_any_into(&plan, &mut work, &mut values);
/// assert_eq!((any.way, any.costless_steps), (Way::Repriced, 1));
/// assert_eq!((any.answer.status, any.answer.objective), (Status::Optimal, -4.0));
/// assert_eq!(values, [4.0, -3.0, 0.0]);
/// ```
pub fn solve_any_into(plan: &PlanRef<'_>, work: &mut Workspace, values: &mut [f64]) -> AnyAnswer {
    solve_any_lent(plan, &mut work.lend(), values)
}

/// As [`solve_any_into`], with memory of the caller's own.
pub fn solve_any_lent(
    plan: &PlanRef<'_>,
    work: &mut WorkspaceMut<'_>,
    values: &mut [f64],
) -> AnyAnswer {
    over!(AnyAnswer, tevalumi_solve_any, plan, work, values)
}

/// Why a sheet's call was refused: document 01's numbers. A refused call changes nothing.
#[derive(Clone, Copy, Debug, PartialEq, Eq, Hash)]
pub enum Refusal {
    /// 11: a size over its limit, an array that is too short, or an index outside the sheet.
    BadSize = 11,
    /// 12: a number over its limit, an unknown comparison or presence mark.
    BadNumber = 12,
    /// 13: a lower bound above its upper bound, both present.
    CrossedBounds = 13,
    /// 14: a number or mark of the sheet breaks its limit. A sheet that was opened and only
    /// edited by these calls never gives it.
    Damaged = 14,
    /// 15: an edit kind that is kept for later (10 to 31).
    KeptForLater = 15,
    /// 16: an edit kind that isn't known (0, or 32 and up).
    UnknownKind = 16,
    /// 31: a file's block of a kind that isn't known.
    UnknownBlock = 31,
    /// 32: a block's check is wrong.
    WrongCheck = 32,
    /// 33: a block is missing, cut, repeated or misplaced, or something stands behind the end.
    MisplacedBlock = 33,
    /// 34: an unused byte of a block isn't 0.
    UnusedByte = 34,
    /// 35: the journal has no entry left to undo.
    NothingToUndo = 35,
    /// 36: the sheet doesn't hold the number or the presence that a journal's entry says.
    Disagrees = 36,
    /// 37: the sheet would accept the edit, but the lent journal is full.
    JournalFull = 37,
}

impl Refusal {
    /// Every refusal, in the order of its number.
    pub const ALL: [Refusal; 13] = [
        Refusal::BadSize,
        Refusal::BadNumber,
        Refusal::CrossedBounds,
        Refusal::Damaged,
        Refusal::KeptForLater,
        Refusal::UnknownKind,
        Refusal::UnknownBlock,
        Refusal::WrongCheck,
        Refusal::MisplacedBlock,
        Refusal::UnusedByte,
        Refusal::NothingToUndo,
        Refusal::Disagrees,
        Refusal::JournalFull,
    ];

    /// Document 01's number.
    pub const fn number(self) -> u8 {
        self as u8
    }

    /// The refusal with this number, if there is one.
    pub fn from_number(number: usize) -> Option<Refusal> {
        Refusal::ALL
            .into_iter()
            .find(|refusal| usize::from(refusal.number()) == number)
    }

    /// A plain sentence, without its full stop.
    pub const fn sentence(self) -> &'static str {
        match self {
            Refusal::BadSize => {
                "a size is over its limit, an array is too short, or an index is outside the sheet"
            }
            Refusal::BadNumber => "a number is over the sheet's limit, or a mark isn't known",
            Refusal::CrossedBounds => "a lower bound is above its upper bound",
            Refusal::Damaged => "the sheet is damaged: a number or mark breaks its limit",
            Refusal::KeptForLater => "this kind of edit is kept for later",
            Refusal::UnknownKind => "there is no such kind of edit",
            Refusal::UnknownBlock => "a block's kind isn't known",
            Refusal::WrongCheck => "a block's check is wrong",
            Refusal::MisplacedBlock => {
                "a block is missing, cut, repeated or misplaced, or something stands behind the end"
            }
            Refusal::UnusedByte => "an unused byte of a block isn't 0",
            Refusal::NothingToUndo => "the journal has no entry left to undo",
            Refusal::Disagrees => {
                "the sheet doesn't hold the number or the presence that the journal's entry says"
            }
            Refusal::JournalFull => "the journal is full",
        }
    }

    fn check(number: usize) -> Result<(), Refusal> {
        if number == 0 {
            return Ok(());
        }
        Err(Refusal::from_number(number)
            .expect("the library answers with one of document 01's numbers"))
    }
}

impl core::fmt::Display for Refusal {
    fn fmt(&self, f: &mut core::fmt::Formatter<'_>) -> core::fmt::Result {
        write!(f, "{}: {}", self.number(), self.sentence())
    }
}

impl core::error::Error for Refusal {}

/// What a sheet says of its plan.
#[derive(Clone, Copy, Debug, PartialEq, Eq, Hash)]
pub enum Verdict {
    /// A row is broken or an amount is out of its bounds.
    NotAPlan,
    /// The amounts are a plan, but the multipliers give no floor: one has the wrong sign, or a
    /// price needs a bound that is absent.
    NoFloor,
    /// The amounts are a plan, and no plan, whole or fractional, is cheaper by more than this
    /// many 1/1024 of a cost unit. Never below 0 on a sheet that was opened and only edited by
    /// these calls.
    Gap(i64),
    /// No amounts, whole or fractional, keep every row and bound: all costs are 0, every multiplier
    /// has the right sign, no price needs a bound that is absent, and the floor is above 0. It is
    /// said whatever the amounts are.
    NoneExists,
}

impl Verdict {
    pub(crate) fn told(from: ffi::SheetVerdict) -> Verdict {
        match from.kind {
            0 => Verdict::NotAPlan,
            1 => Verdict::NoFloor,
            3 => Verdict::NoneExists,
            _ => Verdict::Gap(from.value),
        }
    }
}

/// A sheet's arrays, lent to be opened and edited.
///
/// Needed are `rows * columns` coefficients, row by row; `columns` costs, bounds, marks, amounts
/// and `d`; `rows` right sides, comparisons, multipliers and `r`; 1 cell of `c` and of `b`; 4
/// counts.
#[derive(Debug)]
pub struct SheetMut<'a> {
    /// Rows: at most [`limits::ROWS`].
    pub rows: usize,
    /// Columns: at most [`limits::COLUMNS`].
    pub columns: usize,
    /// Coefficients, row by row.
    pub coefs: &'a mut [i64],
    /// Costs.
    pub costs: &'a mut [i64],
    /// Lower bounds; 0 where absent.
    pub lowers: &'a mut [i64],
    /// Upper bounds; 0 where absent.
    pub uppers: &'a mut [i64],
    /// 1 where the lower bound is present, 0 where it is absent.
    pub lower_marks: &'a mut [u8],
    /// 1 where the upper bound is present, 0 where it is absent.
    pub upper_marks: &'a mut [u8],
    /// Right sides.
    pub rhs: &'a mut [i64],
    /// Comparisons, by [`ops`].
    pub ops: &'a [u8],
    /// Amounts.
    pub amounts: &'a mut [i64],
    /// Multipliers, in 1/1024.
    pub mults: &'a mut [i64],
    /// Kept: each row's activity.
    pub r: &'a mut [i64],
    /// Kept: each column's price, in 1/1024.
    pub d: &'a mut [i64],
    /// Kept: the cost.
    pub c: &'a mut [i64],
    /// Kept: the floor, in 1/1024.
    pub b: &'a mut [i64],
    /// Kept: rows broken, amounts out of bounds, wrong signs, absent bounds that a price needs.
    pub counts: &'a mut [i64],
}

/// A sheet's arrays, lent to be read; the fields are those of [`SheetMut`].
#[derive(Clone, Copy, Debug)]
#[allow(missing_docs)] // The fields are SheetMut's.
pub struct SheetRef<'a> {
    pub rows: usize,
    pub columns: usize,
    pub coefs: &'a [i64],
    pub costs: &'a [i64],
    pub lowers: &'a [i64],
    pub uppers: &'a [i64],
    pub lower_marks: &'a [u8],
    pub upper_marks: &'a [u8],
    pub rhs: &'a [i64],
    pub ops: &'a [u8],
    pub amounts: &'a [i64],
    pub mults: &'a [i64],
    pub r: &'a [i64],
    pub d: &'a [i64],
    pub c: &'a [i64],
    pub b: &'a [i64],
    pub counts: &'a [i64],
}

/// Begins an empty journal in lent bytes: 33 where not one whole block of 512 is lent.
pub fn begin_journal(journal: &mut [u8]) -> Result<(), Refusal> {
    Refusal::check(ffi::tevalumi_journal_begin(journal))
}

/// A feed of a journal's file in pieces ([`SheetMut::feed`]): the part of a block that waits for the
/// rest, and how far the feed has come.
#[derive(Clone, Debug)]
pub struct Feed {
    waiting: [u8; limits::BLOCK],
    cells: [usize; 4],
}

impl Feed {
    /// A feed that begins.
    pub const fn new() -> Feed {
        Feed {
            waiting: [0; limits::BLOCK],
            cells: [0; 4],
        }
    }

    /// Closes the feed.
    ///
    /// # Errors
    ///
    /// The feed's refusal, or 33 where part of a block waits or the journal's end hasn't come.
    pub fn close(&self) -> Result<(), Refusal> {
        Refusal::check(ffi::tevalumi_journal_close(&self.cells))
    }
}

impl Default for Feed {
    fn default() -> Feed {
        Feed::new()
    }
}

impl SheetMut<'_> {
    /// Opens the sheet: reckons its kept numbers from the plan, the amounts and the multipliers.
    pub fn open(&mut self) -> Result<(), Refusal> {
        Refusal::check(ffi::tevalumi_open(
            self.rows,
            self.columns,
            self.coefs,
            self.costs,
            self.lowers,
            self.uppers,
            self.lower_marks,
            self.upper_marks,
            self.rhs,
            self.ops,
            self.amounts,
            self.mults,
            self.r,
            self.d,
            self.c,
            self.b,
            self.counts,
        ))
    }

    /// Edits the sheet by 01's kind number. Only the indices that the kind uses are looked at.
    pub fn edit(
        &mut self,
        kind: usize,
        row: usize,
        column: usize,
        number: i64,
    ) -> Result<(), Refusal> {
        Refusal::check(ffi::tevalumi_edit(
            kind,
            row,
            column,
            number,
            self.rows,
            self.columns,
            self.coefs,
            self.costs,
            self.lowers,
            self.uppers,
            self.lower_marks,
            self.upper_marks,
            self.rhs,
            self.ops,
            self.amounts,
            self.mults,
            self.r,
            self.d,
            self.c,
            self.b,
            self.counts,
        ))
    }

    /// Edits the sheet as [`edit`](SheetMut::edit) does, and appends the edit to a journal that
    /// [`begin_journal`] began. The journal is full where 22 entries stand in every whole lent block
    /// of 512 bytes but one.
    ///
    /// # Errors
    ///
    /// 31 to 34 where the lent journal is damaged; else the edit's own; else 37 where it is full.
    pub fn edit_journaled(
        &mut self,
        kind: usize,
        row: usize,
        column: usize,
        number: i64,
        journal: &mut [u8],
    ) -> Result<(), Refusal> {
        Refusal::check(ffi::tevalumi_journal_edit(
            kind,
            row,
            column,
            number,
            self.rows,
            self.columns,
            self.coefs,
            self.costs,
            self.lowers,
            self.uppers,
            self.lower_marks,
            self.upper_marks,
            self.rhs,
            self.ops,
            self.amounts,
            self.mults,
            self.r,
            self.d,
            self.c,
            self.b,
            self.counts,
            journal,
        ))
    }

    /// Takes the journal's last entry back, as the edit that puts the old number and presence there.
    ///
    /// # Errors
    ///
    /// 31 to 34 where the lent journal is damaged; else 35 where it has no entry; else that edit's
    /// own; else 36 where the sheet doesn't hold what the entry left.
    pub fn undo(&mut self, journal: &mut [u8]) -> Result<(), Refusal> {
        Refusal::check(ffi::tevalumi_journal_undo(
            self.rows,
            self.columns,
            self.coefs,
            self.costs,
            self.lowers,
            self.uppers,
            self.lower_marks,
            self.upper_marks,
            self.rhs,
            self.ops,
            self.amounts,
            self.mults,
            self.r,
            self.d,
            self.c,
            self.b,
            self.counts,
            journal,
        ))
    }

    /// Applies the entries of the next piece of a journal's file. Pieces may be cut anywhere.
    ///
    /// # Errors
    ///
    /// 31 to 34 for a block; an entry's own number, else 36 where the sheet doesn't hold its old
    /// number or presence. What came before it stays, and every later piece gets the same number.
    pub fn feed(&mut self, piece: &[u8], feed: &mut Feed) -> Result<(), Refusal> {
        Refusal::check(ffi::tevalumi_journal_feed(
            piece,
            self.rows,
            self.columns,
            self.coefs,
            self.costs,
            self.lowers,
            self.uppers,
            self.lower_marks,
            self.upper_marks,
            self.rhs,
            self.ops,
            self.amounts,
            self.mults,
            self.r,
            self.d,
            self.c,
            self.b,
            self.counts,
            &mut feed.waiting,
            &mut feed.cells,
        ))
    }

    /// The verdict on the sheet as it stands.
    pub fn verdict(&self) -> Result<Verdict, Refusal> {
        self.borrow().verdict()
    }

    /// The same arrays, to be read.
    pub fn borrow(&self) -> SheetRef<'_> {
        SheetRef {
            rows: self.rows,
            columns: self.columns,
            coefs: self.coefs,
            costs: self.costs,
            lowers: self.lowers,
            uppers: self.uppers,
            lower_marks: self.lower_marks,
            upper_marks: self.upper_marks,
            rhs: self.rhs,
            ops: self.ops,
            amounts: self.amounts,
            mults: self.mults,
            r: self.r,
            d: self.d,
            c: self.c,
            b: self.b,
            counts: self.counts,
        }
    }
}

/// Why a file isn't read: the refusal, and the place of the block where reading stood, from 0.
#[derive(Clone, Copy, Debug, PartialEq, Eq, Hash)]
pub struct BadFile {
    /// 31 to 34; 11 to 13 where opening would refuse what the file holds.
    pub refusal: Refusal,
    /// The block that isn't accepted; block 0, the sizes', for 11; the end block for 12 and 13.
    pub block: usize,
}

impl core::fmt::Display for BadFile {
    fn fmt(&self, f: &mut core::fmt::Formatter<'_>) -> core::fmt::Result {
        write!(f, "{} (block {})", self.refusal, self.block)
    }
}

impl core::error::Error for BadFile {}

/// The ten arrays of a sheet that a file holds, lent to be written. Those of [`SheetMut`] without
/// the kept numbers; the file says how many rows and columns there are.
#[derive(Debug)]
#[allow(missing_docs)] // The fields are SheetMut's.
pub struct FiguresMut<'a> {
    pub coefs: &'a mut [i64],
    pub costs: &'a mut [i64],
    pub lowers: &'a mut [i64],
    pub uppers: &'a mut [i64],
    pub lower_marks: &'a mut [u8],
    pub upper_marks: &'a mut [u8],
    pub rhs: &'a mut [i64],
    pub ops: &'a mut [u8],
    pub amounts: &'a mut [i64],
    pub mults: &'a mut [i64],
}

impl FiguresMut<'_> {
    /// Reads a plan's file (docs/FILES.md) and answers its rows and columns. What is written is a
    /// sheet that opening accepts, in the cells that those sizes need.
    ///
    /// # Errors
    ///
    /// By block, the lowest number first; no cell has changed.
    pub fn read_plan(&mut self, file: &[u8]) -> Result<(usize, usize), BadFile> {
        let read = ffi::tevalumi_read_plan(
            file,
            self.coefs,
            self.costs,
            self.lowers,
            self.uppers,
            self.lower_marks,
            self.upper_marks,
            self.rhs,
            self.ops,
            self.amounts,
            self.mults,
        );
        Refusal::check(read.status).map_err(|refusal| BadFile {
            refusal,
            block: read.block,
        })?;
        Ok((read.rows, read.columns))
    }
}

impl SheetRef<'_> {
    /// Writes the plan with its amounts and multipliers as a file (docs/FILES.md) and answers how
    /// many bytes it has. The kept numbers have no part in it: opening works them out again.
    ///
    /// # Errors
    ///
    /// What opening refuses, by its number (11, 12, 13); 11 too where the file is too short.
    pub fn write_plan(&self, file: &mut [u8]) -> Result<usize, Refusal> {
        let written = ffi::tevalumi_write_plan(
            self.rows,
            self.columns,
            self.coefs,
            self.costs,
            self.lowers,
            self.uppers,
            self.lower_marks,
            self.upper_marks,
            self.rhs,
            self.ops,
            self.amounts,
            self.mults,
            file,
        );
        Refusal::check(written.status)?;
        Ok(written.bytes)
    }

    /// The verdict on the sheet as it stands.
    pub fn verdict(&self) -> Result<Verdict, Refusal> {
        let verdict = ffi::tevalumi_verdict(
            self.rows,
            self.columns,
            self.coefs,
            self.costs,
            self.lowers,
            self.uppers,
            self.lower_marks,
            self.upper_marks,
            self.rhs,
            self.ops,
            self.amounts,
            self.mults,
            self.r,
            self.d,
            self.c,
            self.b,
            self.counts,
        );
        Refusal::check(verdict.status)?;
        Ok(Verdict::told(verdict))
    }
}
