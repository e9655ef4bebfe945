//! The journal, written from docs/FILES.md and document 02 alone: edits with a journal, undo, and a
//! feed of a journal's file in pieces.
//!
//! A journal is a list of entries here. What is lent as bytes is read whole into such a list, and
//! whatever changes it is written back whole over the front of the bytes: no block is patched.

use crate::file::{block, check, CELLS, CHECK, END};
use crate::reference::{tried, Edit, Sheet};

pub use crate::file::BLOCK;

/// 02: "a new kind 11 in files of its own".
pub const JOURNAL: u8 = 11;
/// So many entries stand in a full block, of so many bytes each, behind their count.
pub const ENTRIES: usize = 22;
pub const ENTRY: usize = 22;
/// Where the first entry of a block begins.
pub const FIRST: usize = CELLS + 1;
/// A block's place has two bytes.
const MOST_BLOCKS: usize = 65_536;

/// 02: "Each accepted edit stores its kind, places, old number and new one (0 for kinds 8 and 9), and
/// for a bound whether it was present before".
#[derive(Clone, Copy, Debug, Default, PartialEq, Eq)]
pub struct Entry {
    pub kind: u8,
    pub row: u16,
    pub column: u16,
    pub old: i64,
    pub new: i64,
    pub before: u8,
}

/// What an entry's kind uses: its row, its column, its new number.
fn uses(kind: u8) -> [bool; 3] {
    [matches!(kind, 5..=7), !matches!(kind, 5 | 7), kind <= 7]
}

impl Entry {
    pub fn bytes(&self) -> [u8; ENTRY] {
        let mut bytes = [0; ENTRY];
        bytes[0] = self.kind;
        bytes[1..3].copy_from_slice(&self.row.to_le_bytes());
        bytes[3..5].copy_from_slice(&self.column.to_le_bytes());
        bytes[5..13].copy_from_slice(&self.old.to_le_bytes());
        bytes[13..21].copy_from_slice(&self.new.to_le_bytes());
        bytes[21] = self.before;
        bytes
    }

    pub fn from_bytes(bytes: &[u8]) -> Entry {
        let two = |at: usize| u16::from_le_bytes([bytes[at], bytes[at + 1]]);
        let eight = |at: usize| i64::from_le_bytes(bytes[at..at + 8].try_into().expect("eight"));
        Entry {
            kind: bytes[0],
            row: two(1),
            column: two(3),
            old: eight(5),
            new: eight(13),
            before: bytes[21],
        }
    }

    /// The bytes that its kind doesn't use are 0.
    fn is_clean(&self) -> bool {
        let [row, column, new] = uses(self.kind);
        (row || self.row == 0) && (column || self.column == 0) && (new || self.new == 0)
    }

    /// The entry of an edit that the sheet accepts.
    fn of(sheet: &Sheet, edit: Edit) -> Entry {
        let kind = edit.kind as u8;
        let [row, column, new] = uses(kind);
        let mut entry = Entry {
            kind,
            row: if row { edit.row as u16 } else { 0 },
            column: if column { edit.column as u16 } else { 0 },
            old: 0,
            new: if new { edit.number } else { 0 },
            before: 0,
        };
        (entry.old, entry.before) = cell(sheet, &entry);
        entry
    }

    /// The edit that it stands for.
    fn forth(&self) -> Edit {
        Edit {
            kind: u64::from(self.kind),
            row: u64::from(self.row),
            column: u64::from(self.column),
            number: self.new,
        }
    }

    /// 02: "as the edit that puts the old number and presence there".
    fn back(&self) -> Edit {
        let kind = match (self.kind, self.before) {
            (3 | 8, 0) => 8,
            (3 | 8, _) => 3,
            (4 | 9, 0) => 9,
            (4 | 9, _) => 4,
            (kind, _) => u64::from(kind),
        };
        Edit {
            kind,
            number: self.old,
            ..self.forth()
        }
    }

    /// The presence that it leaves.
    fn after(&self) -> u8 {
        u8::from(!matches!(self.kind, 8 | 9))
    }
}

/// The number and presence in the cell of an entry whose edit a sheet accepts; what is no bound is
/// present.
fn cell(sheet: &Sheet, entry: &Entry) -> (i64, u8) {
    let (i, j) = (usize::from(entry.row), usize::from(entry.column));
    match entry.kind {
        1 => (sheet.amount[j], 1),
        2 => (sheet.cost[j], 1),
        3 | 8 => (sheet.lower[j], sheet.haslow[j]),
        4 | 9 => (sheet.upper[j], sheet.hasup[j]),
        5 => (sheet.rhs[i], 1),
        6 => (sheet.coef[i * sheet.columns as usize + j], 1),
        7 => (sheet.mult[i], 1),
        kind => panic!("kind {kind} is refused"),
    }
}

/// The file of these entries: full blocks, one that may be less, the end.
pub fn file_of(entries: &[Entry]) -> Vec<u8> {
    let mut file = Vec::new();
    for (place, some) in entries.chunks(ENTRIES).enumerate() {
        let mut cells = vec![some.len() as u8];
        for entry in some {
            cells.extend(entry.bytes());
        }
        file.extend(block(JOURNAL, place, &cells));
    }
    file.extend(block(END, file.len() / BLOCK, &[]));
    file
}

/// What may come next in a journal's file.
#[derive(Clone, Copy, Debug, PartialEq, Eq)]
enum Next {
    Any,
    /// A block with fewer than 22 entries came.
    TheEnd,
    Nothing,
}

/// The entries of one whole block at its place, of which the end has none; else 31 to 34.
fn block_entries(one: &[u8], place: u64, next: Next) -> Result<Vec<Entry>, u8> {
    if !matches!(one[0], JOURNAL | END) {
        return Err(31);
    }
    let stored = u32::from_le_bytes(one[CHECK..BLOCK].try_into().expect("four bytes"));
    if u64::from(stored) != check(one) {
        return Err(32);
    }
    let own = u64::from(one[1]) + 256 * u64::from(one[2]);
    let count = usize::from(one[CELLS]);
    let belongs = match next {
        Next::Any => one[0] == END || count > 0,
        Next::TheEnd => one[0] == END,
        Next::Nothing => false,
    };
    if own != place || !belongs {
        return Err(33);
    }
    let used = match one[0] {
        JOURNAL if count <= ENTRIES => FIRST + ENTRY * count,
        _ => CELLS,
    };
    let parts = one[FIRST.min(used)..used].chunks(ENTRY);
    let entries: Vec<Entry> = parts.map(Entry::from_bytes).collect();
    if one[used..CHECK].iter().any(|&byte| byte != 0) || !entries.iter().all(Entry::is_clean) {
        return Err(34);
    }
    Ok(entries)
}

fn after_block(one: &[u8], entries: usize) -> Next {
    match one[0] {
        END => Next::Nothing,
        _ if entries < ENTRIES => Next::TheEnd,
        _ => Next::Any,
    }
}

/// The whole lent blocks that can be used.
fn whole(journal: &[u8]) -> usize {
    MOST_BLOCKS.min(journal.len() / BLOCK)
}

/// A lent journal's entries; what stands behind its end isn't looked at. 33 where no end is there.
pub fn entries(journal: &[u8]) -> Result<Vec<Entry>, u8> {
    let mut all = Vec::new();
    let mut next = Next::Any;
    for (place, one) in journal.chunks_exact(BLOCK).take(MOST_BLOCKS).enumerate() {
        let some = block_entries(one, place as u64, next)?;
        next = after_block(one, some.len());
        all.extend(some);
        if next == Next::Nothing {
            return Ok(all);
        }
    }
    Err(33)
}

fn put(journal: &mut [u8], entries: &[Entry]) {
    let file = file_of(entries);
    journal[..file.len()].copy_from_slice(&file);
}

/// Begins an empty journal.
pub fn begin(journal: &mut [u8]) -> u8 {
    if whole(journal) == 0 {
        return 33;
    }
    put(journal, &[]);
    0
}

/// An edit with a journal: 31 to 34 of the journal, else the sheet's number, else 37.
pub fn edit(sheet: &mut Sheet, journal: &mut [u8], edit: Edit) -> u8 {
    let mut all = match entries(journal) {
        Ok(all) => all,
        Err(status) => return status,
    };
    let after = match tried(sheet, edit) {
        Ok(after) => after,
        Err(status) => return status,
    };
    // 02: "Full means that every whole lent block, an end block aside, holds the number of entries".
    if all.len() >= ENTRIES * whole(journal).saturating_sub(1) {
        return 37;
    }
    all.push(Entry::of(sheet, edit));
    put(journal, &all);
    *sheet = after;
    0
}

/// Takes the last entry back: 31 to 34 of the journal, else 35, else the sheet's number, else 36.
pub fn undo(sheet: &mut Sheet, journal: &mut [u8]) -> u8 {
    let mut all = match entries(journal) {
        Ok(all) => all,
        Err(status) => return status,
    };
    let Some(last) = all.pop() else { return 35 };
    let after = match tried(sheet, last.back()) {
        Ok(after) => after,
        Err(status) => return status,
    };
    if cell(sheet, &last) != (last.new, last.after()) {
        return 36;
    }
    put(journal, &all);
    *sheet = after;
    0
}

/// A feed's four cells, where they are a feed's.
fn feed_fine(cells: &[u64]) -> bool {
    cells.len() >= 4 && cells[1] < BLOCK as u64 && cells[3] <= 2
}

/// A piece of a journal's file. The answer is the feed's refusal, 0 while there is none.
pub fn feed(piece: &[u8], sheet: &mut Sheet, waiting: &mut [u8], cells: &mut [u64]) -> u64 {
    if waiting.len() < BLOCK || !feed_fine(cells) {
        return 11;
    }
    let mut rest = piece;
    while cells[2] == 0 && !rest.is_empty() {
        let waits = cells[1] as usize;
        let (now, later) = rest.split_at(rest.len().min(BLOCK - waits));
        waiting[waits..waits + now.len()].copy_from_slice(now);
        rest = later;
        cells[1] += now.len() as u64;
        if cells[1] == BLOCK as u64 {
            cells[1] = 0;
            take(&waiting[..BLOCK], sheet, cells);
        }
    }
    cells[2]
}

fn take(one: &[u8], sheet: &mut Sheet, cells: &mut [u64]) {
    let next = [Next::Any, Next::TheEnd, Next::Nothing][cells[3] as usize];
    let some = match block_entries(one, cells[0], next) {
        Ok(some) => some,
        Err(status) => {
            cells[2] = u64::from(status);
            return;
        }
    };
    cells[0] += 1;
    cells[3] = match after_block(one, some.len()) {
        Next::Any => 0,
        Next::TheEnd => 1,
        Next::Nothing => 2,
    };
    for entry in some {
        // 02: "A fed entry the sheet refuses gets the sheet's number, else 36 if its old number or
        // presence disagrees".
        match tried(sheet, entry.forth()) {
            Ok(_) if cell(sheet, &entry) != (entry.old, entry.before) => cells[2] = 36,
            Ok(after) => *sheet = after,
            Err(status) => cells[2] = u64::from(status),
        }
        if cells[2] != 0 {
            return;
        }
    }
}

/// Closes a feed: its refusal; 33 where part of a block waits or the end hasn't come.
pub fn close(cells: &[u64]) -> u64 {
    if !feed_fine(cells) {
        11
    } else if cells[2] != 0 {
        cells[2]
    } else if cells[1] == 0 && cells[3] == 2 {
        0
    } else {
        33
    }
}

#[cfg(test)]
mod tests {
    use super::*;
    use crate::file::renew;
    use crate::generate::night_sheet;
    use crate::reference::open;

    fn desk(blocks: usize) -> (Sheet, Vec<u8>) {
        let mut sheet = night_sheet(4, -3072);
        assert_eq!(open(&mut sheet), 0);
        let mut journal = vec![0xce; BLOCK * blocks];
        assert_eq!(begin(&mut journal), 0);
        (sheet, journal)
    }

    fn amount(number: i64) -> Edit {
        Edit {
            kind: 1,
            row: 9,
            column: 0,
            number,
        }
    }

    #[test]
    fn a_journals_bytes() {
        let (mut sheet, mut journal) = desk(3);
        assert_eq!(journal[..4], [255, 0, 0, 0]);
        assert_eq!(journal[508..513], [255, 0, 0, 0, 0xce]);
        assert_eq!(edit(&mut sheet, &mut journal, amount(3)), 0);
        assert_eq!(journal[..4], [11, 0, 0, 1]);
        // Kind 1, row 0 (it isn't used), column 0, old 4, new 3, present.
        let mut entry = [0; 22];
        (entry[0], entry[5], entry[13], entry[21]) = (1, 4, 3, 1);
        assert_eq!(journal[4..26], entry);
        // 1 * 11 + 4 * 1 + 5 * 1 + 10 * 4 + 18 * 3 + 26 * 1 = 140.
        assert_eq!(journal[508..512], [140, 0, 0, 0]);
        assert_eq!(journal[512..516], [255, 1, 0, 0]);
        assert!(journal[1024..].iter().all(|&byte| byte == 0xce));
        // The drop of an absent bound: the number handed in isn't stored.
        let drop = Edit {
            kind: 9,
            row: 0,
            column: 0,
            number: -7,
        };
        assert_eq!(edit(&mut sheet, &mut journal, drop), 0);
        assert_eq!(journal[3], 2);
        assert_eq!(journal[26], 9);
        assert!(journal[27..48].iter().all(|&byte| byte == 0));
    }

    #[test]
    fn undo_restores_every_cell() {
        let (mut sheet, mut journal) = desk(2);
        let (first, empty) = (sheet.clone(), journal[..BLOCK].to_vec());
        let edits = [
            (3, 1, 1),
            (8, 1, 0),
            (4, 0, 5),
            (1, 0, 2),
            (9, 0, 0),
            (4, 1, 3),
        ];
        for (kind, column, number) in edits {
            let one = Edit {
                kind,
                row: 0,
                column,
                number,
            };
            assert_eq!(edit(&mut sheet, &mut journal, one), 0);
        }
        for _ in edits {
            assert_eq!(undo(&mut sheet, &mut journal), 0);
        }
        assert_eq!((sheet.clone(), &journal[..BLOCK]), (first, &empty[..]));
        assert_eq!(undo(&mut sheet, &mut journal), 35);
    }

    #[test]
    fn full_and_room_again() {
        for blocks in [1, 2, 3] {
            let (mut sheet, mut journal) = desk(blocks);
            for number in 0..22 * (blocks as i64 - 1) {
                assert_eq!(edit(&mut sheet, &mut journal, amount(number)), 0);
            }
            let before = (sheet.clone(), journal.clone());
            assert_eq!(edit(&mut sheet, &mut journal, amount(1)), 37);
            // The sheet's number comes first.
            assert_eq!(edit(&mut sheet, &mut journal, amount(1 << 17)), 12);
            assert!((sheet.clone(), journal.clone()) == before);
            if blocks > 1 {
                assert_eq!(undo(&mut sheet, &mut journal), 0);
                assert_eq!(edit(&mut sheet, &mut journal, amount(77)), 0);
                assert_eq!(edit(&mut sheet, &mut journal, amount(1)), 37);
            }
        }
        assert_eq!(begin(&mut [0; 511]), 33);
    }

    #[test]
    fn what_disagrees_is_36() {
        let (mut sheet, mut journal) = desk(2);
        assert_eq!(edit(&mut sheet, &mut journal, amount(3)), 0);
        assert_eq!(crate::reference::edit(&mut sheet, amount(2)), 0);
        let before = (sheet.clone(), journal.clone());
        assert_eq!(undo(&mut sheet, &mut journal), 36);
        assert!((sheet.clone(), journal.clone()) == before);
        let (mut cells, mut waiting) = ([0; 4], [0; BLOCK]);
        assert_eq!(feed(&journal, &mut sheet, &mut waiting, &mut cells), 36);
        assert_eq!(sheet, before.0);
        assert_eq!((cells, close(&cells)), ([1, 0, 36, 1], 36));
        assert_eq!(feed(&[9], &mut sheet, &mut waiting, &mut cells), 36);
        assert_eq!(cells, [1, 0, 36, 1]);
    }

    #[test]
    fn a_lent_journals_refusals() {
        let (mut sheet, mut journal) = desk(4);
        for number in 0..25 {
            assert_eq!(edit(&mut sheet, &mut journal, amount(number)), 0);
        }
        let told = |change: &dyn Fn(&mut Vec<u8>), renewed: &[usize]| {
            let (mut journal, mut sheet) = (journal.clone(), sheet.clone());
            change(&mut journal);
            for &place in renewed {
                renew(&mut journal[BLOCK * place..BLOCK * (place + 1)]);
            }
            let before = journal.clone();
            let told = undo(&mut sheet, &mut journal);
            assert_eq!(edit(&mut sheet, &mut journal, amount(0)), told);
            assert!(journal == before);
            told
        };
        assert_eq!(told(&|j| j[0] = 10, &[0]), 31);
        assert_eq!(told(&|j| j[512] = 1, &[1]), 31);
        assert_eq!(told(&|j| j[20] ^= 1, &[]), 32);
        assert_eq!(told(&|j| j[513] = 2, &[1]), 33);
        assert_eq!(told(&|j| j[515] = 0, &[1]), 33);
        assert_eq!(told(&|j| j.truncate(1024), &[]), 33);
        // Behind a block with fewer than 22 entries only the end belongs.
        let short = |j: &mut Vec<u8>| {
            j[3] = 21;
            j[4 + 21 * 22..508].fill(0);
        };
        assert_eq!(told(&short, &[0]), 33);
        assert_eq!(told(&|j| j[3] = 21, &[0]), 34);
        assert_eq!(told(&|j| j[3] = 23, &[0]), 34);
        assert_eq!(told(&|j| j[507] = 1, &[0]), 34);
        // A row that the kind doesn't use; a new number of kind 8.
        assert_eq!(told(&|j| j[5] = 1, &[0]), 34);
        assert_eq!(told(&|j| j[26] = 8, &[0]), 34);
        assert_eq!(told(&|j| j[1024 + 3] = 1, &[2]), 34);
        // What stands behind the end isn't looked at.
        let (mut behind, mut sheet) = (journal.clone(), sheet.clone());
        behind[3 * BLOCK..].fill(9);
        assert_eq!(undo(&mut sheet, &mut behind), 0);
    }

    #[test]
    fn cut_anywhere() {
        let (mut sheet, mut journal) = desk(3);
        let first = sheet.clone();
        for number in 0..24 {
            assert_eq!(edit(&mut sheet, &mut journal, amount(number)), 0);
        }
        for cut in 0..=journal.len() {
            let (mut again, mut cells, mut waiting) = (first.clone(), [0; 5], [7; 513]);
            cells[4] = 99;
            for piece in [&journal[..cut], &journal[cut..]] {
                assert_eq!(feed(piece, &mut again, &mut waiting, &mut cells), 0);
            }
            assert_eq!((cells, close(&cells)), ([3, 0, 0, 2, 99], 0));
            assert_eq!((&again, waiting[512]), (&sheet, 7));
            let (mut part, mut cells) = (first.clone(), [0; 4]);
            assert_eq!(
                feed(&journal[..cut], &mut part, &mut waiting, &mut cells),
                0
            );
            assert_eq!(close(&cells), if cut < journal.len() { 33 } else { 0 });
        }
    }
}
