//! Sheets through the library.

use oracle::rng::Rng;
use oracle_sheet::reference::{Edit, Sheet, Verdict};
use oracle_sheet::{answer, Array, Block, Calls, KEPT_ARRAYS};

use crate::lent::{Cell, Lent};
use crate::library::{
    tevalumi_edit, tevalumi_journal_edit, tevalumi_journal_feed, tevalumi_journal_undo,
    tevalumi_open, tevalumi_read_plan, tevalumi_verdict, tevalumi_write_plan, Read,
};
use crate::EXTRA;

/// The answer lines of a script; what a call changed that it must leave stands at the end of the
/// last.
pub fn lines(block: &Block, cells: bool, rng: &mut Rng, out: &mut String) {
    let mut library = Library { rng, fault: None };
    answer(&mut library, block, cells, out);
    if let Some(fault) = library.fault {
        out.pop();
        out.push_str(" fault: ");
        out.push_str(&fault);
        out.push('\n');
    }
}

/// The library's calls as a script is played on them, and the first thing that a call changed
/// though it must leave it.
struct Library<'a> {
    rng: &'a mut Rng,
    fault: Option<String>,
}

impl Library<'_> {
    /// A sheet's arrays as long as the script says; C, B and the counts have no such length and are
    /// lent a few cells longer.
    fn lend(&mut self, sheet: &Sheet) -> Arrays {
        Arrays::lend(sheet, |array| match array {
            Array::C | Array::B | Array::Counts => self.rng.below(EXTRA),
            _ => 0,
        })
    }

    fn note(&mut self, changed: Option<Array>, what: &str) {
        if let (None, Some(array)) = (&self.fault, changed) {
            self.fault = Some(format!("{what} changed a cell of {}", array.name()));
        }
    }
}

impl Calls for Library<'_> {
    fn open(&mut self, sheet: &mut Sheet) -> u8 {
        let mut arrays = self.lend(sheet);
        arrays.mark_kept();
        let before = arrays.clone();
        let status = arrays.open(sheet.rows, sheet.columns);
        let written = |array: Array| match array {
            array if status == 0 && KEPT_ARRAYS.contains(&array) => sheet.length(array),
            _ => 0,
        };
        self.note(arrays.changed(&before, written), "opening");
        if status == 0 {
            arrays.back(sheet);
        }
        number(status)
    }

    fn edit(&mut self, sheet: &mut Sheet, edit: Edit) -> u8 {
        let mut arrays = self.lend(sheet);
        let before = arrays.clone();
        let status = arrays.edit(sheet.rows, sheet.columns, edit);
        let written = |array: Array| match array {
            Array::Ops => 0,
            array if status == 0 => sheet.length(array),
            _ => 0,
        };
        self.note(arrays.changed(&before, written), "an edit");
        arrays.back(sheet);
        number(status)
    }

    fn verdict(&mut self, sheet: &Sheet) -> Verdict {
        let arrays = self.lend(sheet);
        let before = arrays.clone();
        let verdict = arrays.verdict(sheet.rows, sheet.columns);
        self.note(arrays.changed(&before, |_| 0), "a verdict");
        verdict
    }
}

pub fn number(status: usize) -> u8 {
    u8::try_from(status).unwrap_or(u8::MAX)
}

const NUMBERS: [Array; 12] = [
    Array::Coef,
    Array::Cost,
    Array::Lower,
    Array::Upper,
    Array::Rhs,
    Array::Amount,
    Array::Mult,
    Array::R,
    Array::D,
    Array::C,
    Array::B,
    Array::Counts,
];
const BYTES: [Array; 3] = [Array::Haslow, Array::Hasup, Array::Ops];

/// Every array of a sheet.
pub fn all() -> impl Iterator<Item = Array> {
    NUMBERS.into_iter().chain(BYTES)
}

/// A sheet's arrays as lent, in the order of `NUMBERS` and `BYTES`.
#[derive(Clone)]
pub struct Arrays {
    numbers: [Lent<i64>; 12],
    bytes: [Lent<u8>; 3],
}

impl Arrays {
    /// Each array with so many cells more than the sheet has.
    pub fn lend(sheet: &Sheet, mut extra: impl FnMut(Array) -> usize) -> Arrays {
        let cells =
            |array: Array| (0..sheet.length(array)).map(move |index| sheet.read(array, index));
        Arrays {
            numbers: NUMBERS.map(|array| {
                let cells: Vec<i64> = cells(array)
                    .map(|cell| i64::try_from(cell).expect("a lent cell has 64 bits"))
                    .collect();
                Lent::longer(&cells, extra(array))
            }),
            bytes: BYTES.map(|array| {
                let cells: Vec<u8> = cells(array).map(|cell| cell as u8).collect();
                Lent::longer(&cells, extra(array))
            }),
        }
    }

    /// Cuts one array down.
    pub fn cut(&mut self, array: Array, length: usize) {
        if let Some(at) = NUMBERS.iter().position(|&a| a == array) {
            self.numbers[at] = Lent::holding(&self.numbers[at].get()[..length]);
        }
        if let Some(at) = BYTES.iter().position(|&a| a == array) {
            self.bytes[at] = Lent::holding(&self.bytes[at].get()[..length]);
        }
    }

    /// Opening doesn't read what the kept cells hold.
    fn mark_kept(&mut self) {
        for (lent, array) in self.numbers.iter_mut().zip(NUMBERS) {
            if KEPT_ARRAYS.contains(&array) {
                lent.lend().fill(i64::MARK);
            }
        }
    }

    /// The first array with a changed cell past what may have been written.
    pub fn changed(&self, before: &Arrays, written: impl Fn(Array) -> usize) -> Option<Array> {
        let numbers = (0..NUMBERS.len())
            .find(|&at| !self.numbers[at].stayed(&before.numbers[at], written(NUMBERS[at])));
        let bytes = (0..BYTES.len())
            .find(|&at| !self.bytes[at].stayed(&before.bytes[at], written(BYTES[at])));
        numbers.map(|at| NUMBERS[at]).or(bytes.map(|at| BYTES[at]))
    }

    /// Writes the lent cells back into the sheet.
    pub fn back(&self, sheet: &mut Sheet) {
        for (lent, array) in self.numbers.iter().zip(NUMBERS) {
            for index in 0..sheet.length(array) {
                sheet.write(array, index, lent.get()[index]);
            }
        }
        for (lent, array) in self.bytes.iter().zip(BYTES) {
            for index in 0..sheet.length(array) {
                sheet.write(array, index, i64::from(lent.get()[index]));
            }
        }
    }

    pub fn open(&mut self, rows: u64, columns: u64) -> usize {
        let [coefs, costs, lowers, uppers, rhs, amounts, mults, r, d, c, b, counts] =
            &mut self.numbers;
        let [lower_marks, upper_marks, ops] = &self.bytes;
        tevalumi_open(
            rows as usize,
            columns as usize,
            coefs.get(),
            costs.get(),
            lowers.get(),
            uppers.get(),
            lower_marks.get(),
            upper_marks.get(),
            rhs.get(),
            ops.get(),
            amounts.get(),
            mults.get(),
            r.lend(),
            d.lend(),
            c.lend(),
            b.lend(),
            counts.lend(),
        )
    }

    pub fn edit(&mut self, rows: u64, columns: u64, edit: Edit) -> usize {
        let [coefs, costs, lowers, uppers, rhs, amounts, mults, r, d, c, b, counts] =
            &mut self.numbers;
        let [lower_marks, upper_marks, ops] = &mut self.bytes;
        tevalumi_edit(
            edit.kind as usize,
            edit.row as usize,
            edit.column as usize,
            edit.number,
            rows as usize,
            columns as usize,
            coefs.lend(),
            costs.lend(),
            lowers.lend(),
            uppers.lend(),
            lower_marks.lend(),
            upper_marks.lend(),
            rhs.lend(),
            ops.get(),
            amounts.lend(),
            mults.lend(),
            r.lend(),
            d.lend(),
            c.lend(),
            b.lend(),
            counts.lend(),
        )
    }

    pub fn verdict(&self, rows: u64, columns: u64) -> Verdict {
        let [coefs, costs, lowers, uppers, rhs, amounts, mults, r, d, c, b, counts] =
            &self.numbers;
        let [lower_marks, upper_marks, ops] = &self.bytes;
        let verdict = tevalumi_verdict(
            rows as usize,
            columns as usize,
            coefs.get(),
            costs.get(),
            lowers.get(),
            uppers.get(),
            lower_marks.get(),
            upper_marks.get(),
            rhs.get(),
            ops.get(),
            amounts.get(),
            mults.get(),
            r.get(),
            d.get(),
            c.get(),
            b.get(),
            counts.get(),
        );
        match (verdict.status, verdict.kind) {
            (0, 0) => Verdict::NoPlan,
            (0, 1) => Verdict::NoFloor,
            (0, 2) => Verdict::Gap(i128::from(verdict.value)),
            (0, 3) => Verdict::NoneExists,
            (0, _) => Verdict::Refused(u8::MAX),
            (status, _) => Verdict::Refused(number(status)),
        }
    }

    /// The status, and how many bytes of the file were written.
    pub fn write_plan(&self, rows: u64, columns: u64, file: &mut [u8]) -> (usize, usize) {
        let [coefs, costs, lowers, uppers, rhs, amounts, mults, ..] = &self.numbers;
        let [lower_marks, upper_marks, ops] = &self.bytes;
        let written = tevalumi_write_plan(
            rows as usize,
            columns as usize,
            coefs.get(),
            costs.get(),
            lowers.get(),
            uppers.get(),
            lower_marks.get(),
            upper_marks.get(),
            rhs.get(),
            ops.get(),
            amounts.get(),
            mults.get(),
            file,
        );
        (written.status, written.bytes)
    }

    pub(crate) fn read_plan(&mut self, file: &[u8]) -> Read {
        let [coefs, costs, lowers, uppers, rhs, amounts, mults, ..] = &mut self.numbers;
        let [lower_marks, upper_marks, ops] = &mut self.bytes;
        tevalumi_read_plan(
            file,
            coefs.lend(),
            costs.lend(),
            lowers.lend(),
            uppers.lend(),
            lower_marks.lend(),
            upper_marks.lend(),
            rhs.lend(),
            ops.lend(),
            amounts.lend(),
            mults.lend(),
        )
    }

    pub fn journal_edit(
        &mut self,
        rows: u64,
        columns: u64,
        edit: Edit,
        journal: &mut [u8],
    ) -> usize {
        let [coefs, costs, lowers, uppers, rhs, amounts, mults, r, d, c, b, counts] =
            &mut self.numbers;
        let [lower_marks, upper_marks, ops] = &mut self.bytes;
        tevalumi_journal_edit(
            edit.kind as usize,
            edit.row as usize,
            edit.column as usize,
            edit.number,
            rows as usize,
            columns as usize,
            coefs.lend(),
            costs.lend(),
            lowers.lend(),
            uppers.lend(),
            lower_marks.lend(),
            upper_marks.lend(),
            rhs.lend(),
            ops.get(),
            amounts.lend(),
            mults.lend(),
            r.lend(),
            d.lend(),
            c.lend(),
            b.lend(),
            counts.lend(),
            journal,
        )
    }

    pub fn journal_undo(&mut self, rows: u64, columns: u64, journal: &mut [u8]) -> usize {
        let [coefs, costs, lowers, uppers, rhs, amounts, mults, r, d, c, b, counts] =
            &mut self.numbers;
        let [lower_marks, upper_marks, ops] = &mut self.bytes;
        tevalumi_journal_undo(
            rows as usize,
            columns as usize,
            coefs.lend(),
            costs.lend(),
            lowers.lend(),
            uppers.lend(),
            lower_marks.lend(),
            upper_marks.lend(),
            rhs.lend(),
            ops.get(),
            amounts.lend(),
            mults.lend(),
            r.lend(),
            d.lend(),
            c.lend(),
            b.lend(),
            counts.lend(),
            journal,
        )
    }

    pub fn journal_feed(
        &mut self,
        piece: &[u8],
        rows: u64,
        columns: u64,
        waiting: &mut [u8],
        feed: &mut [usize],
    ) -> usize {
        let [coefs, costs, lowers, uppers, rhs, amounts, mults, r, d, c, b, counts] =
            &mut self.numbers;
        let [lower_marks, upper_marks, ops] = &mut self.bytes;
        tevalumi_journal_feed(
            piece,
            rows as usize,
            columns as usize,
            coefs.lend(),
            costs.lend(),
            lowers.lend(),
            uppers.lend(),
            lower_marks.lend(),
            upper_marks.lend(),
            rhs.lend(),
            ops.get(),
            amounts.lend(),
            mults.lend(),
            r.lend(),
            d.lend(),
            c.lend(),
            b.lend(),
            counts.lend(),
            waiting,
            feed,
        )
    }
}
