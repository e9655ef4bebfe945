//! Plans' files through the library.

use oracle_sheet::file::Refused;
use oracle_sheet::file_cases::FileCalls;
use oracle_sheet::reference::Sheet;
use oracle_sheet::tally::needed;
use oracle_sheet::{Array, PLAN_ARRAYS};

use crate::lent::Lent;
use crate::sheets::{number, Arrays};

/// The library's two calls, and the first thing that one changed though it must leave it.
#[derive(Debug, Default)]
pub struct Library {
    fault: Option<String>,
}

impl Library {
    pub(crate) fn note(&mut self, bad: bool, what: impl FnOnce() -> String) {
        if bad && self.fault.is_none() {
            self.fault = Some(what());
        }
    }
}

/// The arrays as they are lent, and as they were before the last call that was accepted.
pub struct LentPlan {
    arrays: Arrays,
    before: Arrays,
}

impl FileCalls for Library {
    type Lent = LentPlan;

    fn write(&mut self, sheet: &Sheet, room: usize) -> Result<Vec<u8>, u8> {
        let arrays = Arrays::lend(sheet, |_| 0);
        let before = arrays.clone();
        let mut file = Lent::<u8>::marked(room);
        let blank = file.clone();
        let (status, bytes) = arrays.write_plan(sheet.rows, sheet.columns, file.lend());
        let changed = arrays.changed(&before, |_| 0);
        self.note(changed.is_some(), || format!("writing changed {changed:?}"));
        self.note(!file.stayed(&blank, bytes), || {
            format!("writing answers {bytes} bytes and changes others")
        });
        match status {
            0 => Ok(file.get()[..bytes.min(room)].to_vec()),
            refused => {
                self.note(bytes != 0, || format!("{refused} with {bytes} bytes"));
                Err(number(refused))
            }
        }
    }

    fn lend(&mut self, sheet: &Sheet) -> LentPlan {
        let arrays = Arrays::lend(sheet, |_| 0);
        LentPlan {
            before: arrays.clone(),
            arrays,
        }
    }

    fn read(&mut self, file: &[u8], lent: &mut LentPlan) -> Result<(u64, u64), Refused> {
        let whole = Lent::holding(file);
        let read = lent.arrays.read_plan(whole.get());
        let mut sizes = Sheet::default();
        if read.status == 0 {
            (sizes.rows, sizes.columns) = (read.rows as u64, read.columns as u64);
        }
        let written = |array: Array| match read.status {
            0 if PLAN_ARRAYS.contains(&array) => needed(&sizes, array),
            _ => 0,
        };
        let changed = lent.arrays.changed(&lent.before, written);
        self.note(changed.is_some(), || {
            format!("reading answers {read:?} and changes {changed:?}")
        });
        if read.status == 0 {
            self.note(read.block != 0, || format!("no refusal, but {read:?}"));
            lent.before = lent.arrays.clone();
            return Ok((sizes.rows, sizes.columns));
        }
        self.note(read.rows != 0 || read.columns != 0, || {
            format!("a refusal with sizes: {read:?}")
        });
        Err(Refused {
            status: number(read.status),
            block: read.block,
        })
    }

    fn back(&self, lent: &LentPlan, sheet: &mut Sheet) {
        lent.arrays.back(sheet);
    }

    fn fault(&mut self) -> Option<String> {
        self.fault.take()
    }
}
