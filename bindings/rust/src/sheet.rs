//! The audit sheet: is this plan the cheapest one, or by how much could another be cheaper?
//!
//! A [`Sheet`] holds a plan in whole numbers, an amount for each column, and a multiplier for each
//! row. From them it keeps what the plan costs and a floor under what any plan costs; the
//! [`Verdict`] is the gap between the two. Doubles, rounding and the solver have no part in it: the
//! amounts and multipliers may come from anywhere, and bad ones only give a larger gap or none.
//!
//! ```
//! use tevalumi::sheet::{Edit, Figures, Sheet, Verdict};
//! use tevalumi::ComparisonOp;
//!
//! // Minimise -3 x0 - x1 with x0 >= 0, 0 <= x1 <= 2 and x0 + x1 <= 4; is 4, 0 the cheapest?
//! let mut sheet = Sheet::open(&Figures {
//!     rows: 1,
//!     columns: 2,
//!     coefs: vec![1, 1],
//!     costs: vec![-3, -1],
//!     lowers: vec![Some(0), Some(0)],
//!     uppers: vec![None, Some(2)],
//!     rhs: vec![4],
//!     ops: vec![ComparisonOp::Le],
//!     amounts: vec![4, 0],
//!     mults: vec![-3 * 1024],
//! })?;
//! assert_eq!(sheet.verdict(), Verdict::Gap(0));
//!
//! // With one unit less of x0 the plan costs 3 more, and the sheet says so.
//! sheet.edit(Edit::Amount { column: 0, to: 3 })?;
//! assert_eq!(sheet.verdict(), Verdict::Gap(3 * 1024));
//! assert_eq!(
//!     sheet.verdict().to_string(),
//!     "No plan, whole or fractional, is cheaper than this one by more than 3.0."
//! );
//!
//! // Five units don't fit under the row.
//! sheet.edit(Edit::Amount { column: 0, to: 5 })?;
//! assert_eq!(sheet.verdict(), Verdict::NotAPlan);
//! # Ok::<(), tevalumi::sheet::Refusal>(())
//! ```
//!
//! A sheet is kept over a power cut as a file of blocks. One sheet has one file, and no file with a
//! changed byte is read:
//!
//! ```
//! # use tevalumi::sheet::{Figures, Refusal, Sheet};
//! # let sheet = Sheet::open(&Figures::default())?;
//! let mut file = sheet.to_bytes();
//! assert_eq!(Sheet::from_bytes(&file).as_ref(), Ok(&sheet));
//!
//! file[600] ^= 1;
//! let bad = Sheet::from_bytes(&file).unwrap_err();
//! assert_eq!((bad.refusal, bad.block), (Refusal::WrongCheck, 1));
//! assert_eq!(bad.to_string(), "32: a block's check is wrong (block 1)");
//! # Ok::<(), Refusal>(())
//! ```
//!
//! A [`Journal`] lets an edit be taken back, and replayed on the kept sheet after a power cut:
//!
//! ```
//! # use tevalumi::sheet::{Edit, Figures, Journal, Refusal, Sheet};
//! # let figures = Figures { columns: 1, costs: vec![0], lowers: vec![None], uppers: vec![None],
//! #     amounts: vec![4], ..Figures::default() };
//! # let mut sheet = Sheet::open(&figures)?;
//! let kept = sheet.clone();
//! let mut journal = Journal::new(2);
//! sheet.edit_journaled(Edit::Amount { column: 0, to: 3 }, &mut journal)?;
//! sheet.edit_journaled(Edit::Upper { column: 0, to: 9 }, &mut journal)?;
//! sheet.undo(&mut journal)?;
//! assert_eq!((sheet.amount(0), sheet.upper(0)), (3, None));
//!
//! let mut again = kept.clone();
//! again.replay(journal.file())?;
//! assert_eq!(again, sheet);
//!
//! sheet.undo(&mut journal)?;
//! assert_eq!(sheet, kept);
//! assert_eq!(sheet.undo(&mut journal), Err(Refusal::NothingToUndo));
//! # Ok::<(), Refusal>(())
//! ```
//!
//! Every sum is exact in 64 bits within the sheet's limits. An edit costs only what it touches, and
//! a sheet after any edits equals the one that would be opened afresh: that is proved, not tested.

use std::fmt;

use crate::raw::{self, limits, FiguresMut, SheetMut, SheetRef};
use crate::{wholes, ComparisonOp, Problem, Solution};

pub use crate::raw::{BadFile, Feed, Refusal, Verdict};
pub use crate::wholes::{NotProposed, Proposal};

/// A count of 1/1024, as multipliers, prices, floors and gaps are, shown as the decimal that it is.
///
/// ```
/// use tevalumi::sheet::Parts;
///
/// assert_eq!(Parts(3072).to_string(), "3.0");
/// assert_eq!(Parts(-1536).to_string(), "-1.5");
/// assert_eq!(Parts(1).to_string(), "0.0009765625");
/// ```
#[derive(Clone, Copy, Debug, PartialEq, Eq, PartialOrd, Ord, Hash)]
pub struct Parts(pub i64);

impl fmt::Display for Parts {
    fn fmt(&self, f: &mut fmt::Formatter<'_>) -> fmt::Result {
        // 1/1024 is 9,765,625 of 10^-10, so ten digits say all.
        let (whole, rest) = (self.0.unsigned_abs() / 1024, self.0.unsigned_abs() % 1024);
        let digits = format!("{:010}", rest * 9_765_625);
        let digits = digits.trim_end_matches('0');
        let digits = if digits.is_empty() { "0" } else { digits };
        f.pad_integral(self.0 >= 0, "", &format!("{whole}.{digits}"))
    }
}

impl fmt::Display for Verdict {
    fn fmt(&self, f: &mut fmt::Formatter<'_>) -> fmt::Result {
        match self {
            Verdict::NotAPlan => f.write_str(
                "These amounts are no plan: a row is broken or an amount is out of its bounds.",
            ),
            Verdict::NoFloor => f.write_str(
                "These amounts are a plan, but the multipliers say nothing about cheaper ones.",
            ),
            Verdict::Gap(gap) => write!(
                f,
                "No plan, whole or fractional, is cheaper than this one by more than {}.",
                Parts(*gap)
            ),
            Verdict::NoneExists => f.write_str("No plan exists, whole or fractional."),
        }
    }
}

/// What a sheet is opened with: a plan in whole numbers, amounts, and multipliers.
#[derive(Clone, Debug, Default, PartialEq, Eq)]
pub struct Figures {
    /// Rows: at most 96.
    pub rows: usize,
    /// Columns: at most 128.
    pub columns: usize,
    /// Coefficients, row by row: `rows * columns` of them, each at most 4,096 in size.
    pub coefs: Vec<i64>,
    /// A cost for each column, at most 2^20 in size.
    pub costs: Vec<i64>,
    /// A lower bound for each column, at most 2^16 in size, or none.
    pub lowers: Vec<Option<i64>>,
    /// An upper bound for each column, at most 2^16 in size, or none.
    pub uppers: Vec<Option<i64>>,
    /// A right side for each row, at most 2^31 in size.
    pub rhs: Vec<i64>,
    /// A comparison for each row.
    pub ops: Vec<ComparisonOp>,
    /// An amount for each column, at most 2^16 in size.
    pub amounts: Vec<i64>,
    /// A multiplier for each row, in 1/1024, at most 2^20 in size.
    pub mults: Vec<i64>,
}

/// One change of one number of a sheet.
#[derive(Clone, Copy, Debug, PartialEq, Eq, Hash)]
#[allow(missing_docs)] // The fields are what their names say.
pub enum Edit {
    /// Kind 1: a column's amount.
    Amount { column: usize, to: i64 },
    /// Kind 2: a column's cost.
    Cost { column: usize, to: i64 },
    /// Kind 3: a column's lower bound, which is present afterwards.
    Lower { column: usize, to: i64 },
    /// Kind 4: a column's upper bound, which is present afterwards.
    Upper { column: usize, to: i64 },
    /// Kind 5: a row's right side.
    Right { row: usize, to: i64 },
    /// Kind 6: a coefficient.
    Coefficient { row: usize, column: usize, to: i64 },
    /// Kind 7: a row's multiplier, in 1/1024.
    Multiplier { row: usize, to: i64 },
    /// Kind 8: drops a column's lower bound; accepted where it is absent already.
    DropLower { column: usize },
    /// Kind 9: drops a column's upper bound; accepted where it is absent already.
    DropUpper { column: usize },
}

impl Edit {
    /// Document 01's kind number.
    pub const fn kind(self) -> usize {
        self.numbers().0
    }

    /// Kind, row, column and number, as they go over.
    const fn numbers(self) -> (usize, usize, usize, i64) {
        match self {
            Edit::Amount { column, to } => (1, 0, column, to),
            Edit::Cost { column, to } => (2, 0, column, to),
            Edit::Lower { column, to } => (3, 0, column, to),
            Edit::Upper { column, to } => (4, 0, column, to),
            Edit::Right { row, to } => (5, row, 0, to),
            Edit::Coefficient { row, column, to } => (6, row, column, to),
            Edit::Multiplier { row, to } => (7, row, 0, to),
            Edit::DropLower { column } => (8, 0, column, 0),
            Edit::DropUpper { column } => (9, 0, column, 0),
        }
    }
}

/// One entry of a [`Journal`].
#[derive(Clone, Copy, Debug, PartialEq, Eq, Hash)]
pub struct Entry {
    /// The edit's kind, as [`Edit::kind`] has it.
    pub kind: u8,
    /// The edit's row, 0 where its kind has none.
    pub row: usize,
    /// The edit's column, 0 where its kind has none.
    pub column: usize,
    /// The number before it.
    pub old: i64,
    /// The number after it; 0 where a bound is dropped.
    pub new: i64,
    /// Whether the bound was there before it; true for what is no bound.
    pub before: bool,
}

/// A journal of edits: blocks of 512 bytes, as docs/FILES.md lays them out, 22 entries in each and
/// the last one for the end.
///
/// Its bytes may come from anywhere: damaged ones are refused by each call, by number.
#[derive(Clone, Debug, PartialEq, Eq)]
pub struct Journal {
    bytes: Vec<u8>,
}

/// The kind of a journal's last block.
const END: u8 = 255;

impl Journal {
    /// An empty journal with so many blocks; one more than 0, since the end needs it.
    pub fn new(blocks: usize) -> Journal {
        let mut bytes = vec![0; limits::BLOCK * blocks.max(1)];
        raw::begin_journal(&mut bytes).expect("one block is enough");
        Journal { bytes }
    }

    /// The journal in a file, with so many blocks of room behind it.
    pub fn from_bytes(file: &[u8], room: usize) -> Journal {
        let mut bytes = file.to_vec();
        bytes.resize(file.len() + limits::BLOCK * room, 0);
        Journal { bytes }
    }

    /// The journal's file: its blocks up to the end.
    pub fn file(&self) -> &[u8] {
        let mut blocks = self.bytes.chunks(limits::BLOCK);
        match blocks.position(|block| block[0] == END) {
            Some(last) => &self.bytes[..(limits::BLOCK * (last + 1)).min(self.bytes.len())],
            None => &self.bytes,
        }
    }

    /// The entries, the oldest first, as they stand in a file that isn't damaged.
    pub fn entries(&self) -> Vec<Entry> {
        let blocks = self.file().chunks_exact(limits::BLOCK);
        let entries = blocks.filter(|block| block[0] != END).flat_map(|block| {
            let count = usize::from(block[3]);
            block[4..].chunks_exact(22).take(count)
        });
        let two = |bytes: &[u8]| usize::from(bytes[0]) + 256 * usize::from(bytes[1]);
        let eight = |bytes: &[u8]| i64::from_le_bytes(bytes.try_into().expect("eight bytes"));
        let entry = |bytes: &[u8]| Entry {
            kind: bytes[0],
            row: two(&bytes[1..]),
            column: two(&bytes[3..]),
            old: eight(&bytes[5..13]),
            new: eight(&bytes[13..21]),
            before: bytes[21] != 0,
        };
        entries.map(entry).collect()
    }
}

/// An open sheet. It owns its numbers, so only edits change them.
#[derive(Clone, Debug, PartialEq, Eq)]
pub struct Sheet {
    rows: usize,
    columns: usize,
    coefs: Vec<i64>,
    costs: Vec<i64>,
    lowers: Vec<i64>,
    uppers: Vec<i64>,
    lower_marks: Vec<u8>,
    upper_marks: Vec<u8>,
    rhs: Vec<i64>,
    ops: Vec<u8>,
    amounts: Vec<i64>,
    mults: Vec<i64>,
    r: Vec<i64>,
    d: Vec<i64>,
    c: [i64; 1],
    b: [i64; 1],
    counts: [i64; 4],
}

impl Sheet {
    /// Opens a sheet.
    ///
    /// # Errors
    ///
    /// [`Refusal::BadSize`] (11), [`Refusal::BadNumber`] (12) or [`Refusal::CrossedBounds`] (13),
    /// the lowest that applies.
    pub fn open(figures: &Figures) -> Result<Sheet, Refusal> {
        let number = |bounds: &[Option<i64>]| bounds.iter().map(|b| b.unwrap_or(0)).collect();
        let mark = |bounds: &[Option<i64>]| bounds.iter().map(|b| b.is_some().into()).collect();
        let mut sheet = Sheet {
            rows: figures.rows,
            columns: figures.columns,
            coefs: figures.coefs.clone(),
            costs: figures.costs.clone(),
            lowers: number(&figures.lowers),
            uppers: number(&figures.uppers),
            lower_marks: mark(&figures.lowers),
            upper_marks: mark(&figures.uppers),
            rhs: figures.rhs.clone(),
            ops: figures.ops.iter().map(|op| op.code()).collect(),
            amounts: figures.amounts.clone(),
            mults: figures.mults.clone(),
            // No larger than an accepted sheet needs, whatever is said.
            r: vec![0; figures.rows.min(limits::ROWS)],
            d: vec![0; figures.columns.min(limits::COLUMNS)],
            c: [0],
            b: [0],
            counts: [0; 4],
        };
        sheet.lend().open()?;
        Ok(sheet)
    }

    /// Whole amounts and multipliers for a sheet of the solved problem: the values and prices of its
    /// run, rounded by the library to the nearest, ties to even.
    ///
    /// ```
    /// # use tevalumi::{sheet::Sheet, ComparisonOp, OptimizationDirection, Problem};
    /// let mut problem = Problem::new(OptimizationDirection::Minimize);
    /// let x = problem.add_var(-3.0, (0.0, f64::INFINITY));
    /// let y = problem.add_var(-1.0, (0.0, 2.0));
    /// problem.add_constraint([(x, 1.0), (y, 1.0)], ComparisonOp::Le, 4.0);
    /// let solution = problem.solve()?;
    ///
    /// let proposal = Sheet::propose(&problem, &solution)?;
    /// assert_eq!((proposal.amounts, proposal.mults), (vec![4, 0], vec![-3 * 1024]));
    /// # Ok::<(), Box<dyn std::error::Error>>(())
    /// ```
    ///
    /// # Errors
    ///
    /// [`NotProposed::Amount`] or [`NotProposed::Multiplier`] with the first number that isn't whole;
    /// [`NotProposed::BadSize`] or [`NotProposed::BadMaps`] where the problem was changed since.
    pub fn propose(problem: &Problem, solution: &Solution) -> Result<Proposal, NotProposed> {
        wholes::propose(problem, solution)
    }

    /// Changes one number, and with it only the kept numbers that depend on it.
    ///
    /// # Errors
    ///
    /// [`Refusal::BadSize`] (11) for an index outside the sheet, [`Refusal::BadNumber`] (12) for a
    /// number over its limit, [`Refusal::CrossedBounds`] (13) where two present bounds would cross.
    /// A refused edit changes nothing.
    pub fn edit(&mut self, edit: Edit) -> Result<(), Refusal> {
        let (kind, row, column, number) = edit.numbers();
        self.lend().edit(kind, row, column, number)
    }

    /// Changes one number as [`edit`](Sheet::edit) does, and writes it into a journal.
    ///
    /// # Errors
    ///
    /// 31 to 34 where the journal is damaged; else the edit's own; else
    /// [`Refusal::JournalFull`] (37). Nothing has changed.
    pub fn edit_journaled(&mut self, edit: Edit, journal: &mut Journal) -> Result<(), Refusal> {
        let (kind, row, column, number) = edit.numbers();
        self.lend()
            .edit_journaled(kind, row, column, number, &mut journal.bytes)
    }

    /// Takes the journal's last edit back. Where the sheet was changed since by journaled edits and
    /// undos alone it is the sheet before that edit, every number of it.
    ///
    /// # Errors
    ///
    /// 31 to 34 where the journal is damaged; else [`Refusal::NothingToUndo`] (35); else the number
    /// of the edit back; else [`Refusal::Disagrees`] (36). Nothing has changed.
    pub fn undo(&mut self, journal: &mut Journal) -> Result<(), Refusal> {
        self.lend().undo(&mut journal.bytes)
    }

    /// Applies the next piece of a journal's file; see [`SheetMut::feed`].
    ///
    /// # Errors
    ///
    /// Those of [`SheetMut::feed`].
    pub fn feed(&mut self, piece: &[u8], feed: &mut Feed) -> Result<(), Refusal> {
        self.lend().feed(piece, feed)
    }

    /// Applies a whole journal's file, and closes the feed.
    ///
    /// # Errors
    ///
    /// Those of [`feed`](Sheet::feed) and [`Feed::close`]. Entries before a refused one stay.
    pub fn replay(&mut self, file: &[u8]) -> Result<(), Refusal> {
        let mut feed = Feed::new();
        self.feed(file, &mut feed)?;
        feed.close()
    }

    /// What the sheet says of its plan.
    ///
    /// No panic can be reached: an opened sheet that was only edited by these calls is true, and a
    /// true sheet is never refused a verdict.
    pub fn verdict(&self) -> Verdict {
        self.lent()
            .verdict()
            .expect("an opened sheet that was only edited is never refused a verdict")
    }

    /// The sheet's file: blocks of 512 bytes, as docs/FILES.md lays them out. Kept numbers stand in
    /// none of them.
    ///
    /// Put it in place whole: write to another name, then rename. Where it is written over another
    /// file and the write stops, the blocks of both can be read as a plan that neither was.
    ///
    /// No panic can be reached: an opened sheet that was only edited by these calls is one that
    /// opening accepts, and the file has room for the largest.
    pub fn to_bytes(&self) -> Vec<u8> {
        let mut file = vec![0; limits::FILE];
        let bytes = self
            .lent()
            .write_plan(&mut file)
            .expect("an opened sheet that was only edited is one that opening accepts");
        file.truncate(bytes);
        file
    }

    /// Reads a sheet's file and opens the sheet.
    ///
    /// # Errors
    ///
    /// 31 to 34, or 11 to 13 where opening would refuse what the file holds, with the block.
    ///
    /// No panic can be reached: what reading accepts opening accepts.
    pub fn from_bytes(file: &[u8]) -> Result<Sheet, BadFile> {
        let (rows, columns) = (limits::ROWS, limits::COLUMNS);
        let mut sheet = Sheet {
            rows: 0,
            columns: 0,
            coefs: vec![0; rows * columns],
            costs: vec![0; columns],
            lowers: vec![0; columns],
            uppers: vec![0; columns],
            lower_marks: vec![0; columns],
            upper_marks: vec![0; columns],
            rhs: vec![0; rows],
            ops: vec![0; rows],
            amounts: vec![0; columns],
            mults: vec![0; rows],
            r: vec![0; rows],
            d: vec![0; columns],
            c: [0],
            b: [0],
            counts: [0; 4],
        };
        let read = FiguresMut {
            coefs: &mut sheet.coefs,
            costs: &mut sheet.costs,
            lowers: &mut sheet.lowers,
            uppers: &mut sheet.uppers,
            lower_marks: &mut sheet.lower_marks,
            upper_marks: &mut sheet.upper_marks,
            rhs: &mut sheet.rhs,
            ops: &mut sheet.ops,
            amounts: &mut sheet.amounts,
            mults: &mut sheet.mults,
        }
        .read_plan(file);
        (sheet.rows, sheet.columns) = read?;
        sheet.trim();
        sheet
            .lend()
            .open()
            .expect("what reading accepts opening accepts");
        Ok(sheet)
    }

    /// Cuts each array to the cells that the sheet has.
    fn trim(&mut self) {
        let (rows, columns) = (self.rows, self.columns);
        self.coefs.truncate(rows * columns);
        for cells in [&mut self.rhs, &mut self.mults, &mut self.r] {
            cells.truncate(rows);
        }
        for cells in [
            &mut self.costs,
            &mut self.lowers,
            &mut self.uppers,
            &mut self.amounts,
            &mut self.d,
        ] {
            cells.truncate(columns);
        }
        self.lower_marks.truncate(columns);
        self.upper_marks.truncate(columns);
        self.ops.truncate(rows);
    }

    fn lend(&mut self) -> SheetMut<'_> {
        SheetMut {
            rows: self.rows,
            columns: self.columns,
            coefs: &mut self.coefs,
            costs: &mut self.costs,
            lowers: &mut self.lowers,
            uppers: &mut self.uppers,
            lower_marks: &mut self.lower_marks,
            upper_marks: &mut self.upper_marks,
            rhs: &mut self.rhs,
            ops: &self.ops,
            amounts: &mut self.amounts,
            mults: &mut self.mults,
            r: &mut self.r,
            d: &mut self.d,
            c: &mut self.c,
            b: &mut self.b,
            counts: &mut self.counts,
        }
    }

    fn lent(&self) -> SheetRef<'_> {
        SheetRef {
            rows: self.rows,
            columns: self.columns,
            coefs: &self.coefs,
            costs: &self.costs,
            lowers: &self.lowers,
            uppers: &self.uppers,
            lower_marks: &self.lower_marks,
            upper_marks: &self.upper_marks,
            rhs: &self.rhs,
            ops: &self.ops,
            amounts: &self.amounts,
            mults: &self.mults,
            r: &self.r,
            d: &self.d,
            c: &self.c,
            b: &self.b,
            counts: &self.counts,
        }
    }
}

/// The sheet's numbers, for tables. Rows and columns count from 0; one that the sheet doesn't have
/// panics, as an index of a slice does.
impl Sheet {
    /// Rows.
    pub fn rows(&self) -> usize {
        self.rows
    }

    /// Columns.
    pub fn columns(&self) -> usize {
        self.columns
    }

    /// The coefficient of a row and a column.
    pub fn coefficient(&self, row: usize, column: usize) -> i64 {
        assert!(row < self.rows && column < self.columns);
        self.coefs[row * self.columns + column]
    }

    /// A column's cost.
    pub fn cost_of(&self, column: usize) -> i64 {
        self.costs[column]
    }

    /// A column's lower bound.
    pub fn lower(&self, column: usize) -> Option<i64> {
        (self.lower_marks[column] == 1).then_some(self.lowers[column])
    }

    /// A column's upper bound.
    pub fn upper(&self, column: usize) -> Option<i64> {
        (self.upper_marks[column] == 1).then_some(self.uppers[column])
    }

    /// A row's right side.
    pub fn right(&self, row: usize) -> i64 {
        self.rhs[row]
    }

    /// A row's comparison.
    pub fn op(&self, row: usize) -> ComparisonOp {
        match self.ops[row] {
            raw::ops::LE => ComparisonOp::Le,
            raw::ops::EQ => ComparisonOp::Eq,
            _ => ComparisonOp::Ge,
        }
    }

    /// A column's amount.
    pub fn amount(&self, column: usize) -> i64 {
        self.amounts[column]
    }

    /// A row's multiplier Y, in 1/1024.
    pub fn multiplier(&self, row: usize) -> i64 {
        self.mults[row]
    }

    /// A row's activity R: the sum of coefficient times amount.
    pub fn activity(&self, row: usize) -> i64 {
        self.r[row]
    }

    /// A column's price D, in 1/1024: 1024 times its cost, less the sum of coefficient times
    /// multiplier.
    pub fn price(&self, column: usize) -> i64 {
        self.d[column]
    }

    /// The cost C: the sum of cost times amount.
    pub fn cost(&self) -> i64 {
        self.c[0]
    }

    /// The floor B, in 1/1024. It bounds the cost of other plans only where the verdict is a gap.
    pub fn floor(&self) -> i64 {
        self.b[0]
    }

    /// Rows whose activity breaks their comparison.
    pub fn rows_broken(&self) -> usize {
        self.counts[0] as usize
    }

    /// Amounts that are out of their bounds.
    pub fn amounts_out(&self) -> usize {
        self.counts[1] as usize
    }

    /// Multipliers of the wrong sign: above 0 for "at most", below 0 for "at least".
    pub fn wrong_signs(&self) -> usize {
        self.counts[2] as usize
    }

    /// Absent bounds that a price needs.
    pub fn absent_bounds(&self) -> usize {
        self.counts[3] as usize
    }
}
