//! The two sides: the sum behind R and the opening of a sheet, as the library has them and with the
//! plain form.

use std::hint::black_box;

use crate::sheets::{Kept, Sheet, COLUMNS};

#[derive(Clone, Copy)]
pub enum Side {
    Library,
    Plain,
}

/// A side's two calls: `sheet_terms::activity`, which has a slice as its place and its length, and
/// `tevalumi_open` as in include/tevalumi.h.
macro_rules! side {
    ($activity:ident, $open:ident) => {
        extern "C" {
            fn $activity(row: *const i64, _: usize, amounts: *const i64, _: usize) -> i64;
            fn $open(
                rows: usize,
                columns: usize,
                coefs: *const i64,
                _: usize,
                costs: *const i64,
                _: usize,
                lowers: *const i64,
                _: usize,
                uppers: *const i64,
                _: usize,
                lower_marks: *const u8,
                _: usize,
                upper_marks: *const u8,
                _: usize,
                rhs: *const i64,
                _: usize,
                ops: *const u8,
                _: usize,
                amounts: *const i64,
                _: usize,
                mults: *const i64,
                _: usize,
                r: *mut i64,
                _: usize,
                d: *mut i64,
                _: usize,
                c: *mut i64,
                _: usize,
                b: *mut i64,
                _: usize,
                counts: *mut i64,
                _: usize,
            ) -> usize;
        }
    };
}
side!(library_activity, library_open);
side!(plain_activity, plain_open);

pub fn activity(side: Side, row: &[i64], amounts: &[i64]) -> i64 {
    let call = match side {
        Side::Library => library_activity,
        Side::Plain => plain_activity,
    };
    // SAFETY: both slices are borrowed for the call with their own lengths. What the sum asks of its
    // caller, that it is a sheet's row, holds of the rows that `sheets` makes.
    unsafe { call(row.as_ptr(), row.len(), amounts.as_ptr(), amounts.len()) }
}

/// Opens the sheet; the answer is 01's number.
pub fn open(side: Side, sheet: &mut Sheet) -> usize {
    let call = match side {
        Side::Library => library_open,
        Side::Plain => plain_open,
    };
    let kept = &mut sheet.kept;
    // SAFETY: every slice is borrowed for the call with its own length, those of `kept` to be written.
    unsafe {
        call(
            sheet.ops.len(),
            sheet.costs.len(),
            sheet.coefs.as_ptr(),
            sheet.coefs.len(),
            sheet.costs.as_ptr(),
            sheet.costs.len(),
            sheet.lowers.as_ptr(),
            sheet.lowers.len(),
            sheet.uppers.as_ptr(),
            sheet.uppers.len(),
            sheet.marks.as_ptr(),
            sheet.marks.len(),
            sheet.marks.as_ptr(),
            sheet.marks.len(),
            sheet.rhs.as_ptr(),
            sheet.rhs.len(),
            sheet.ops.as_ptr(),
            sheet.ops.len(),
            sheet.amounts.as_ptr(),
            sheet.amounts.len(),
            sheet.mults.as_ptr(),
            sheet.mults.len(),
            kept.r.as_mut_ptr(),
            kept.r.len(),
            kept.d.as_mut_ptr(),
            kept.d.len(),
            kept.c.as_mut_ptr(),
            kept.c.len(),
            kept.b.as_mut_ptr(),
            kept.b.len(),
            kept.counts.as_mut_ptr(),
            kept.counts.len(),
        )
    }
}

pub fn sum_rows(side: Side, sheet: &Sheet) {
    for row in sheet.coefs.chunks(COLUMNS) {
        black_box(activity(side, black_box(row), &sheet.amounts));
    }
}

/// Both sides once on every row and on the whole sheet, and the rows in 128-bit numbers too.
pub fn compare(sheet: &mut Sheet) -> Result<(), String> {
    for (at, row) in sheet.coefs.chunks(COLUMNS).enumerate() {
        let terms = row.iter().zip(&sheet.amounts);
        let exact: i128 = terms.map(|(&a, &x)| i128::from(a) * i128::from(x)).sum();
        for side in [Side::Library, Side::Plain] {
            let sum = activity(side, row, &sheet.amounts);
            if i128::from(sum) != exact {
                return Err(format!("row {at}: {sum} for {exact}"));
            }
        }
    }
    let mut opened = |side| {
        sheet.kept = Kept::blank();
        (open(side, sheet), sheet.kept.clone())
    };
    let (library, plain) = (opened(Side::Library), opened(Side::Plain));
    match library == plain && library.0 == 0 {
        true => Ok(()),
        false => Err(format!("library {library:?}, plain {plain:?}")),
    }
}
