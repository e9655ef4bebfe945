//! The calls over the C boundary (`include/tevalumi.h`): the crate's only `unsafe`. The driver of the
//! tests has this file too.
//!
//! A call is written here once, with the slices that it borrows. From that line the macro makes
//! the C declaration, in which a slice is a pointer and a length, and a safe function that takes
//! the slices themselves. So no length can stand beside another slice's pointer, and every call is
//! right for the same reasons:
//!
//! * A slice goes over as its own pointer and its own length, so the library is told of no cell
//!   that isn't lent. For an empty slice the pointer dangles but isn't null, and the length is 0.
//! * What the library writes is `&mut` here, so nothing else reads or writes it meanwhile, and it
//!   overlaps no other slice of the call. What is `&` here the library only reads.
//! * No call keeps a pointer: the library has no memory of its own.
//! * Every bit pattern is a value of the types that go over (`f64`, `i64`, `usize`, `u8`, and
//!   structs of them), on both sides.
//! * No call asks anything of its caller: whatever lengths and numbers are handed in, it answers,
//!   and it neither panics nor unwinds.

#![allow(unsafe_code)]
#![allow(clippy::too_many_arguments)]

/// What `tevalumi_solve` answers. `place` says what `at` and `within` number: 0 nothing, 1 a row and
/// a place in it, 2 a column, 3 a row, 4 a value, 5 a kept row.
#[repr(C)]
#[derive(Clone, Copy, Debug)]
pub(crate) struct Answer {
    pub status: usize,
    pub objective: f64,
    pub steps: usize,
    pub place: usize,
    pub at: usize,
    pub within: usize,
    pub excess: f64,
}

/// What `tevalumi_solve_any` answers. `way` is 0 direct, 1 halted, 2 repriced; `costless_steps` are those of the run with
/// costs 0.
#[repr(C)]
#[derive(Clone, Copy, Debug)]
pub(crate) struct AnyAnswer {
    pub answer: Answer,
    pub way: usize,
    pub costless_steps: usize,
}

/// What a triangle call answers: 01's number, and how many places are listed afterwards.
#[repr(C)]
#[derive(Clone, Copy, Debug)]
pub(crate) struct TriAnswer {
    pub status: usize,
    pub places: usize,
}

/// What `tevalumi_verdict` answers: kind 0 is not a plan, 1 no floor, 2 a gap, 3 none exists.
#[repr(C)]
#[derive(Clone, Copy, Debug)]
pub(crate) struct SheetVerdict {
    pub status: usize,
    pub kind: usize,
    pub value: i64,
}

/// What `tevalumi_write_plan` answers: how many bytes of the file are written, 0 where it is refused.
#[repr(C)]
#[derive(Clone, Copy, Debug)]
pub(crate) struct Written {
    pub status: usize,
    pub bytes: usize,
}

/// What `tevalumi_read_plan` answers: the block where reading stood, and the plan's sizes.
#[repr(C)]
#[derive(Clone, Copy, Debug)]
pub(crate) struct Read {
    pub status: usize,
    pub block: usize,
    pub rows: usize,
    pub columns: usize,
}

/// One double's case: kind 0 is whole, 1 beyond, 2 not a number.
#[repr(C)]
#[derive(Clone, Copy, Debug)]
pub(crate) struct Whole {
    pub kind: usize,
    pub number: i64,
    pub beyond: f64,
}

/// What `tevalumi_propose` answers: kind 0 is proposed, 1 nothing, 2 an amount that isn't whole, 3 a
/// multiplier that isn't.
#[repr(C)]
#[derive(Clone, Copy, Debug)]
pub(crate) struct Proposal {
    pub status: usize,
    pub kind: usize,
    pub place: usize,
    pub answer: Whole,
}

/// One stage of a night: audit 0 is not run, 1 not whole, 2 not opened, 3 judged.
#[repr(C)]
#[derive(Clone, Copy, Debug)]
pub(crate) struct Stage {
    pub run: Answer,
    pub audit: usize,
    pub opening: usize,
    pub proposal: Proposal,
    pub verdict: SheetVerdict,
}

/// What `tevalumi_night` answers: kind 1 to 5 are the stops after the first stage, 6 the first's amounts stand, 7 the
/// second's are handed out.
#[repr(C)]
#[derive(Clone, Copy, Debug)]
pub(crate) struct Night {
    pub status: usize,
    pub kind: usize,
    pub column: usize,
    pub first: Stage,
    pub second: Stage,
}

/// Makes the safe function of a call. Its arguments move one by one from the last list to three
/// others: as the function takes them, as C declares them, and as they are handed over.
macro_rules! call {
    ($(#[$doc:meta])* fn $name:ident($($args:tt)*) -> $answer:ty) => {
        call! { @ [$(#[$doc])*] $name $answer; [] [] []; $($args)* }
    };
    (@ $doc:tt $name:ident $answer:ty; [$($taken:tt)*] [$($c:tt)*] [$($over:tt)*];
        $arg:ident: &mut [$cell:ty], $($rest:tt)*) => {
        call! { @ $doc $name $answer;
            [$($taken)* $arg: &mut [$cell],]
            [$($c)* $arg: *mut $cell, _: usize,]
            [$($over)* $arg.as_mut_ptr(), $arg.len(),];
            $($rest)* }
    };
    (@ $doc:tt $name:ident $answer:ty; [$($taken:tt)*] [$($c:tt)*] [$($over:tt)*];
        $arg:ident: &[$cell:ty], $($rest:tt)*) => {
        call! { @ $doc $name $answer;
            [$($taken)* $arg: &[$cell],]
            [$($c)* $arg: *const $cell, _: usize,]
            [$($over)* $arg.as_ptr(), $arg.len(),];
            $($rest)* }
    };
    (@ $doc:tt $name:ident $answer:ty; [$($taken:tt)*] [$($c:tt)*] [$($over:tt)*];
        $arg:ident: $number:ty, $($rest:tt)*) => {
        call! { @ $doc $name $answer;
            [$($taken)* $arg: $number,] [$($c)* $arg: $number,] [$($over)* $arg,]; $($rest)* }
    };
    (@ [$(#[$doc:meta])*] $name:ident $answer:ty; [$($taken:tt)*] [$($c:tt)*] [$($over:tt)*];) => {
        $(#[$doc])*
        pub(crate) fn $name($($taken)*) -> $answer {
            extern "C" {
                fn $name($($c)*) -> $answer;
            }
            // SAFETY: each slice goes over as its own pointer and length, those that are written
            // are borrowed mutably, and the call keeps none of them; see above.
            unsafe { $name($($over)*) }
        }
    };
}

call! {
    /// Solves a plan. Reads the plan's eight slices; writes the values and the state's four arrays.
    fn tevalumi_solve(
        columns: usize, rows: usize, entries: usize, budget: usize, tolerance: f64,
        costs: &[f64], lowers: &[f64], uppers: &[f64],
        starts: &[usize], cols: &[usize], coeffs: &[f64], ops: &[u8], rhs: &[f64],
        values: &mut [f64], numbers: &mut [usize], doubles: &mut [f64],
        factor_numbers: &mut [usize], factor_coeffs: &mut [f64],
    ) -> Answer
}

call! {
    /// Holds a column still and goes on from the state that the last call left. Reads and writes what
    /// `tevalumi_solve` does.
    fn tevalumi_fix(
        columns: usize, rows: usize, entries: usize, budget: usize, tolerance: f64,
        costs: &[f64], lowers: &[f64], uppers: &[f64],
        starts: &[usize], cols: &[usize], coeffs: &[f64], ops: &[u8], rhs: &[f64],
        values: &mut [f64], numbers: &mut [usize], doubles: &mut [f64],
        factor_numbers: &mut [usize], factor_coeffs: &mut [f64],
        column: usize, value: f64,
    ) -> Answer
}

call! {
    /// Lets a column go that was held still. Reads and writes what `tevalumi_solve` does.
    fn tevalumi_unfix(
        columns: usize, rows: usize, entries: usize, budget: usize, tolerance: f64,
        costs: &[f64], lowers: &[f64], uppers: &[f64],
        starts: &[usize], cols: &[usize], coeffs: &[f64], ops: &[u8], rhs: &[f64],
        values: &mut [f64], numbers: &mut [usize], doubles: &mut [f64],
        factor_numbers: &mut [usize], factor_coeffs: &mut [f64],
        column: usize,
    ) -> Answer
}

call! {
    /// Prices the kept state anew for the plan's costs and goes on from there. Reads and writes what
    /// `tevalumi_solve` does.
    fn tevalumi_reprice(
        columns: usize, rows: usize, entries: usize, budget: usize, tolerance: f64,
        costs: &[f64], lowers: &[f64], uppers: &[f64],
        starts: &[usize], cols: &[usize], coeffs: &[f64], ops: &[u8], rhs: &[f64],
        values: &mut [f64], numbers: &mut [usize], doubles: &mut [f64],
        factor_numbers: &mut [usize], factor_coeffs: &mut [f64],
    ) -> Answer
}

call! {
    /// Solves a plan from any start. Reads and writes what `tevalumi_solve` does.
    fn tevalumi_solve_any(
        columns: usize, rows: usize, entries: usize, budget: usize, tolerance: f64,
        costs: &[f64], lowers: &[f64], uppers: &[f64],
        starts: &[usize], cols: &[usize], coeffs: &[f64], ops: &[u8], rhs: &[f64],
        values: &mut [f64], numbers: &mut [usize], doubles: &mut [f64],
        factor_numbers: &mut [usize], factor_coeffs: &mut [f64],
    ) -> AnyAnswer
}

call! {
    /// Opens a sheet: writes its kept numbers alone.
    fn tevalumi_open(
        rows: usize, columns: usize,
        coefs: &[i64], costs: &[i64], lowers: &[i64], uppers: &[i64],
        lower_marks: &[u8], upper_marks: &[u8], rhs: &[i64], ops: &[u8],
        amounts: &[i64], mults: &[i64],
        r: &mut [i64], d: &mut [i64], c: &mut [i64], b: &mut [i64], counts: &mut [i64],
    ) -> usize
}

call! {
    /// Edits a sheet: writes every slice but the comparisons.
    fn tevalumi_edit(
        kind: usize, row: usize, column: usize, number: i64, rows: usize, columns: usize,
        coefs: &mut [i64], costs: &mut [i64], lowers: &mut [i64], uppers: &mut [i64],
        lower_marks: &mut [u8], upper_marks: &mut [u8], rhs: &mut [i64], ops: &[u8],
        amounts: &mut [i64], mults: &mut [i64],
        r: &mut [i64], d: &mut [i64], c: &mut [i64], b: &mut [i64], counts: &mut [i64],
    ) -> usize
}

call! {
    /// The verdict on a sheet: writes nothing.
    fn tevalumi_verdict(
        rows: usize, columns: usize,
        coefs: &[i64], costs: &[i64], lowers: &[i64], uppers: &[i64],
        lower_marks: &[u8], upper_marks: &[u8], rhs: &[i64], ops: &[u8],
        amounts: &[i64], mults: &[i64],
        r: &[i64], d: &[i64], c: &[i64], b: &[i64], counts: &[i64],
    ) -> SheetVerdict
}

call! {
    /// Writes a plan's file: writes the file alone.
    fn tevalumi_write_plan(
        rows: usize, columns: usize,
        coefs: &[i64], costs: &[i64], lowers: &[i64], uppers: &[i64],
        lower_marks: &[u8], upper_marks: &[u8], rhs: &[i64], ops: &[u8],
        amounts: &[i64], mults: &[i64],
        file: &mut [u8],
    ) -> Written
}

call! {
    /// Reads a plan's file: writes the plan's ten slices.
    fn tevalumi_read_plan(
        file: &[u8],
        coefs: &mut [i64], costs: &mut [i64], lowers: &mut [i64], uppers: &mut [i64],
        lower_marks: &mut [u8], upper_marks: &mut [u8], rhs: &mut [i64], ops: &mut [u8],
        amounts: &mut [i64], mults: &mut [i64],
    ) -> Read
}

call! {
    /// Begins an empty journal: writes its first block.
    fn tevalumi_journal_begin(journal: &mut [u8],) -> usize
}

call! {
    /// Edits a sheet and its journal: writes every slice but the comparisons.
    fn tevalumi_journal_edit(
        kind: usize, row: usize, column: usize, number: i64, rows: usize, columns: usize,
        coefs: &mut [i64], costs: &mut [i64], lowers: &mut [i64], uppers: &mut [i64],
        lower_marks: &mut [u8], upper_marks: &mut [u8], rhs: &mut [i64], ops: &[u8],
        amounts: &mut [i64], mults: &mut [i64],
        r: &mut [i64], d: &mut [i64], c: &mut [i64], b: &mut [i64], counts: &mut [i64],
        journal: &mut [u8],
    ) -> usize
}

call! {
    /// Takes the last edit of a journal back: writes every slice but the comparisons.
    fn tevalumi_journal_undo(
        rows: usize, columns: usize,
        coefs: &mut [i64], costs: &mut [i64], lowers: &mut [i64], uppers: &mut [i64],
        lower_marks: &mut [u8], upper_marks: &mut [u8], rhs: &mut [i64], ops: &[u8],
        amounts: &mut [i64], mults: &mut [i64],
        r: &mut [i64], d: &mut [i64], c: &mut [i64], b: &mut [i64], counts: &mut [i64],
        journal: &mut [u8],
    ) -> usize
}

call! {
    /// Feeds a piece of a journal's file to a sheet: writes every slice but the piece and the
    /// comparisons.
    fn tevalumi_journal_feed(
        piece: &[u8], rows: usize, columns: usize,
        coefs: &mut [i64], costs: &mut [i64], lowers: &mut [i64], uppers: &mut [i64],
        lower_marks: &mut [u8], upper_marks: &mut [u8], rhs: &mut [i64], ops: &[u8],
        amounts: &mut [i64], mults: &mut [i64],
        r: &mut [i64], d: &mut [i64], c: &mut [i64], b: &mut [i64], counts: &mut [i64],
        waiting: &mut [u8], feed: &mut [usize],
    ) -> usize
}

call! {
    /// Closes a feed: writes nothing.
    fn tevalumi_journal_close(feed: &[usize],) -> usize
}

call! {
    /// Solves a lower triangle for the listed places: writes the list and the values.
    fn tevalumi_lower_sparse(
        size: usize, entries: usize, starts: &[usize], rows: &[usize], vals: &[f64],
        with_diag: usize, diag: &[f64], list: &mut [usize], listed: usize, values: &mut [f64],
    ) -> TriAnswer
}

call! {
    /// As `tevalumi_lower_sparse`, for an upper triangle.
    fn tevalumi_upper_sparse(
        size: usize, entries: usize, starts: &[usize], rows: &[usize], vals: &[f64],
        with_diag: usize, diag: &[f64], list: &mut [usize], listed: usize, values: &mut [f64],
    ) -> TriAnswer
}

call! {
    /// Solves a lower triangle for every place: writes the values.
    fn tevalumi_lower_dense(
        size: usize, entries: usize, starts: &[usize], rows: &[usize], vals: &[f64],
        with_diag: usize, diag: &[f64], values: &mut [f64],
    ) -> TriAnswer
}

call! {
    /// As `tevalumi_lower_dense`, for an upper triangle.
    fn tevalumi_upper_dense(
        size: usize, entries: usize, starts: &[usize], rows: &[usize], vals: &[f64],
        with_diag: usize, diag: &[f64], values: &mut [f64],
    ) -> TriAnswer
}

call! {
    /// Solves a lower triangle and then an upper one for every place: writes the values.
    fn tevalumi_solve_dense(
        size: usize,
        lower_entries: usize,
        lower_starts: &[usize], lower_rows: &[usize], lower_vals: &[f64],
        lower_with_diag: usize, lower_diag: &[f64],
        upper_entries: usize,
        upper_starts: &[usize], upper_rows: &[usize], upper_vals: &[f64],
        upper_with_diag: usize, upper_diag: &[f64],
        values: &mut [f64],
    ) -> TriAnswer
}

call! {
    /// A double's case as an amount.
    fn tevalumi_amount(value: f64,) -> Whole
}

call! {
    /// A price's case as the multiplier of a row with this comparison.
    fn tevalumi_multiplier(op: u8, price: f64,) -> Whole
}

call! {
    /// Proposes whole numbers from a run's memory: writes amounts and multipliers, where all are whole.
    fn tevalumi_propose(
        columns: usize, rows: usize, starts: &[usize], ops: &[u8],
        values: &[f64], numbers: &[usize], doubles: &[f64],
        amounts: &mut [i64], mults: &mut [i64],
    ) -> Proposal
}

call! {
    /// Runs a night: writes the solver's memory and the stages' sections.
    fn tevalumi_night(
        rows: usize, columns: usize,
        coefs: &[i64], alarm_costs: &[i64], report_costs: &[i64], lowers: &[i64], uppers: &[i64],
        lower_marks: &[u8], upper_marks: &[u8], rhs: &[i64], ops: &[u8],
        budget: usize, tolerance: f64,
        values: &mut [f64], numbers: &mut [usize], doubles: &mut [f64],
        factor_numbers: &mut [usize], factor_coeffs: &mut [f64], whole: &mut [i64],
    ) -> Night
}
