//! Journals through the library.

use oracle_sheet::journal_cases::{Feed, JournalCalls};
use oracle_sheet::reference::{Edit, Sheet};
use oracle_sheet::Array;

use crate::files::Library;
use crate::lent::Lent;
use crate::library::{tevalumi_journal_begin, tevalumi_journal_close};
use crate::sheets::Arrays;

impl Library {
    /// A sheet's arrays go over as they are. Back come its cells; the comparisons, cells past the
    /// sheet's and everything where the call is `refused` must be as they were.
    fn over(
        &mut self,
        sheet: &mut Sheet,
        call: impl FnOnce(&mut Arrays) -> (usize, bool),
    ) -> usize {
        let mut arrays = Arrays::lend(sheet, |_| 0);
        let before = arrays.clone();
        let (status, refused) = call(&mut arrays);
        let written = |array: Array| match array {
            Array::Ops => 0,
            _ if refused => 0,
            array => sheet.length(array),
        };
        let changed = arrays.changed(&before, written);
        self.note(changed.is_some(), || {
            format!("answer {status} changes a cell of {changed:?}")
        });
        arrays.back(sheet);
        status
    }
}

/// Bytes that are lent between marked cells, and what came back.
fn bytes(lent: &[u8], call: impl FnOnce(&mut [u8]) -> usize) -> (usize, Lent<u8>, bool) {
    let before = Lent::holding(lent);
    let mut after = before.clone();
    let status = call(after.lend());
    let kept = after.stayed(&before, lent.len());
    (status, after, kept)
}

impl JournalCalls for Library {
    fn begin(&mut self, journal: &mut [u8]) -> u64 {
        let (status, after, kept) = bytes(journal, tevalumi_journal_begin);
        self.note(!kept, || "a cell beside a journal is changed".to_string());
        journal.copy_from_slice(after.get());
        status as u64
    }

    fn edit(&mut self, sheet: &mut Sheet, journal: &mut [u8], edit: Edit) -> u64 {
        let (rows, columns) = (sheet.rows, sheet.columns);
        let mut held = true;
        let status = self.over(sheet, |arrays| {
            let (status, after, kept) = bytes(journal, |lent| {
                arrays.journal_edit(rows, columns, edit, lent)
            });
            held = kept;
            journal.copy_from_slice(after.get());
            (status, status != 0)
        });
        self.note(!held, || "a cell beside a journal is changed".to_string());
        status as u64
    }

    fn undo(&mut self, sheet: &mut Sheet, journal: &mut [u8]) -> u64 {
        let (rows, columns) = (sheet.rows, sheet.columns);
        let mut held = true;
        let status = self.over(sheet, |arrays| {
            let (status, after, kept) =
                bytes(journal, |lent| arrays.journal_undo(rows, columns, lent));
            held = kept;
            journal.copy_from_slice(after.get());
            (status, status != 0)
        });
        self.note(!held, || "a cell beside a journal is changed".to_string());
        status as u64
    }

    fn feed(&mut self, piece: &[u8], at: &mut Feed) -> u64 {
        let (rows, columns) = (at.sheet.rows, at.sheet.columns);
        let (waiting, cells) = (&mut at.waiting, &mut at.cells);
        let lent: Vec<usize> = cells.iter().map(|&cell| cell as usize).collect();
        let before = Lent::holding(&lent);
        let mut after = before.clone();
        let piece = Lent::holding(piece);
        let mut held = true;
        let status = self.over(&mut at.sheet, |arrays| {
            let (status, memory, kept) = bytes(waiting, |lent| {
                arrays.journal_feed(piece.get(), rows, columns, lent, after.lend())
            });
            held = kept && after.stayed(&before, lent.len());
            waiting.copy_from_slice(memory.get());
            // A piece that is refused may have changed the sheet before that.
            (status, false)
        });
        self.note(!held, || "a cell beside a feed is changed".to_string());
        for (cell, number) in cells.iter_mut().zip(after.get()) {
            *cell = *number as u64;
        }
        status as u64
    }

    fn close(&mut self, cells: &[u64]) -> u64 {
        let lent: Vec<usize> = cells.iter().map(|&cell| cell as usize).collect();
        tevalumi_journal_close(&lent) as u64
    }
}
