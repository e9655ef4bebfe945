//! Seeded sheets with a journal: edits, refused edits, undos, full and damaged journals, and feeds cut
//! into pieces, tried on a library beside the reference. What must hold whatever program keeps the
//! journal (an undo restores, a replay gives the same sheet) is stated here without the reference.

use crate::file::{block, renew, BLOCK, END};
use crate::file_cases::{FileCalls, Tried};
use crate::generate::{blocks, some_edit, Rng, Scale};
use crate::journal::{self, file_of, Entry, ENTRIES, ENTRY, FIRST, JOURNAL};
use crate::reference::{self, open, Edit, Sheet};
use crate::tally::needed;
use crate::{Array, PLAN_ARRAYS};

/// The five calls: the reference's, or those of a library that is compared with it.
pub trait JournalCalls {
    fn begin(&mut self, journal: &mut [u8]) -> u64;
    fn edit(&mut self, sheet: &mut Sheet, journal: &mut [u8], edit: Edit) -> u64;
    fn undo(&mut self, sheet: &mut Sheet, journal: &mut [u8]) -> u64;
    fn feed(&mut self, piece: &[u8], at: &mut Feed) -> u64;
    fn close(&mut self, cells: &[u64]) -> u64;
}

/// A feed under way: the sheet and the lent memory.
#[derive(Clone, Debug, PartialEq, Eq)]
pub struct Feed {
    pub sheet: Sheet,
    pub waiting: Vec<u8>,
    pub cells: Vec<u64>,
}

impl Feed {
    fn new(sheet: &Sheet) -> Feed {
        Feed {
            sheet: sheet.clone(),
            waiting: vec![0xce; BLOCK + 2],
            cells: vec![0, 0, 0, 0, 77],
        }
    }
}

impl JournalCalls for crate::file_cases::Reference {
    fn begin(&mut self, journal: &mut [u8]) -> u64 {
        u64::from(journal::begin(journal))
    }

    fn edit(&mut self, sheet: &mut Sheet, journal: &mut [u8], edit: Edit) -> u64 {
        u64::from(journal::edit(sheet, journal, edit))
    }

    fn undo(&mut self, sheet: &mut Sheet, journal: &mut [u8]) -> u64 {
        u64::from(journal::undo(sheet, journal))
    }

    fn feed(&mut self, piece: &[u8], at: &mut Feed) -> u64 {
        journal::feed(piece, &mut at.sheet, &mut at.waiting, &mut at.cells)
    }

    fn close(&mut self, cells: &[u64]) -> u64 {
        journal::close(cells)
    }
}

/// How much is tried.
#[derive(Clone, Copy, Debug)]
pub struct Amounts {
    pub sheets: Scale,
    /// Calls on each sheet with its journal, at most.
    pub calls: i64,
    /// Journals that are fed cut at every byte.
    pub every_cut: usize,
    /// Journals of which every byte is changed.
    pub every_byte: usize,
    pub damaged: usize,
}

/// What the gate tries.
pub const WHOLE: Amounts = Amounts {
    sheets: Scale {
        small: 900,
        damaged: 0,
        opening: 0,
        kinds: 0,
        limits: 60,
        floors: 4,
        edges: 40,
        sizes: 60,
        full: 2,
        tall: 20,
        wrecks: 0,
        nones: 60,
        short: 0,
        kind_max: 255,
    },
    calls: 110,
    every_cut: 8,
    every_byte: 12,
    damaged: 12_000,
};

const EDITS: [u64; 13] = [0, 11, 12, 13, 14, 15, 16, 31, 32, 33, 34, 36, 37];

/// Runs everything.
pub fn run<C: FileCalls + JournalCalls>(calls: &mut C, seed: u64, amounts: &Amounts) -> Tried {
    let mut tried = Tried::default();
    let mut rng = Rng::new(seed ^ 0x10a1);
    for status in EDITS {
        if status != 36 {
            tried.want(format!("edits that answer {status}"), 50);
        }
        if status != 37 {
            tried.want(format!("undos that answer {status}"), 20);
            tried.want(format!("feeds that answer {status}"), 50);
        }
    }
    tried.want("undos that answer 35".to_string(), 50);
    for status in [0, 11, 12, 31, 32, 33, 34, 36] {
        tried.want(format!("closed feeds that answer {status}"), 50);
    }
    let mut kept = Vec::new();
    blocks(seed, &amounts.sheets, &mut |script| {
        let mut sheet = script.sheet;
        if open(&mut sheet) == 0 {
            let calls_left = rng.range(5, amounts.calls);
            let mut desk = Desk::begin(calls, &sheet, &mut rng, &mut tried);
            for _ in 0..calls_left {
                desk.step(calls, &mut rng, &mut tried);
            }
            kept.extend(desk.power_cut(calls, &mut rng, &mut tried));
        }
    });
    every_way_to_cut(calls, &kept, amounts.every_cut, &mut rng, &mut tried);
    for _ in 0..amounts.every_byte {
        let (first, entries) = &kept[rng.below(kept.len() as u64) as usize];
        every_byte(calls, first, entries, &mut rng, &mut tried);
    }
    for _ in 0..amounts.damaged {
        let (first, entries) = &kept[rng.below(kept.len() as u64) as usize];
        damaged_feed(calls, first, entries, &mut rng, &mut tried);
    }
    tried
}

fn no_fault<C: FileCalls>(calls: &mut C, name: &'static str, tried: &mut Tried) {
    if let Some(fault) = calls.fault() {
        tried.see(name, false, || fault);
    }
}

/// A sheet with its journal.
struct Desk {
    /// As the journal found it, and its file.
    first: Sheet,
    plan: Vec<u8>,
    sheet: Sheet,
    journal: Vec<u8>,
    /// The sheet before each entry, while journaled edits and undos alone came to it.
    before: Option<Vec<Sheet>>,
    /// The journal before it was damaged.
    whole: Option<Vec<u8>>,
    /// Nothing else ever comes to it.
    calm: bool,
}

const CALLS: &str = "edits and undos with a journal";
const LAW: &str = "undos that give the sheet before the edit";

impl Desk {
    fn begin<C: FileCalls + JournalCalls>(
        calls: &mut C,
        sheet: &Sheet,
        rng: &mut Rng,
        tried: &mut Tried,
    ) -> Desk {
        let blocks = rng.pick(&[0, 1, 2, 2, 2, 2, 3, 3, 4, 5]);
        let more = rng.pick(&[0, 0, 1, 511]);
        let mut journal = vec![0xce; BLOCK * blocks + more];
        let mut theirs = journal.clone();
        let told = calls.begin(&mut journal);
        let wanted = u64::from(journal::begin(&mut theirs));
        let good = told == wanted && journal == theirs;
        tried.see("journals begun", good, || format!("{told}, not {wanted}"));
        no_fault(calls, "journals begun", tried);
        let plan = calls.write(sheet, usize::from(u16::MAX) * 2);
        no_fault(calls, "journals begun", tried);
        Desk {
            first: sheet.clone(),
            plan: plan.expect("an open sheet is written"),
            sheet: sheet.clone(),
            journal,
            before: (wanted == 0).then(Vec::new),
            whole: None,
            calm: rng.chance(50),
        }
    }

    fn step<C: FileCalls + JournalCalls>(
        &mut self,
        calls: &mut C,
        rng: &mut Rng,
        tried: &mut Tried,
    ) {
        if self.whole.is_some() {
            // One call finds it damaged. Where it is accepted all the same, the sheet isn't the journal's.
            let sheet = self.sheet.clone();
            self.call(calls, 50, rng, tried);
            self.journal = self.whole.take().expect("it is damaged");
            if self.sheet != sheet {
                self.before = None;
            }
            return;
        }
        match rng.below(100) {
            0..=3 if !self.calm => self.disturb(rng),
            4..=19 if !self.calm => self.damage(rng),
            20 | 21 => {
                for _ in 0..rng.range(2, 30) {
                    self.undo(calls, tried);
                }
            }
            _ => self.call(calls, 22, rng, tried),
        }
    }

    /// An undo, so many times in a hundred, or an edit.
    fn call<C: FileCalls + JournalCalls>(
        &mut self,
        calls: &mut C,
        undos: u64,
        rng: &mut Rng,
        tried: &mut Tried,
    ) {
        match rng.chance(undos) {
            true => self.undo(calls, tried),
            false => {
                if let Some(edit) = some_edit(rng, &self.sheet, 255) {
                    self.edit(calls, edit, tried);
                }
            }
        }
    }

    fn edit<C: FileCalls + JournalCalls>(&mut self, calls: &mut C, edit: Edit, tried: &mut Tried) {
        let (mut sheet, mut journal) = (self.sheet.clone(), self.journal.clone());
        let told = calls.edit(&mut sheet, &mut journal, edit);
        let before = self.sheet.clone();
        let wanted = u64::from(journal::edit(&mut self.sheet, &mut self.journal, edit));
        let good = told == wanted && sheet == self.sheet && journal == self.journal;
        tried.see(CALLS, good, || {
            format!("{edit:?} answers {told}, the reference {wanted}")
        });
        no_fault(calls, CALLS, tried);
        tried.reach(format!("edits that answer {wanted}"));
        if let (0, None, Some(list)) = (wanted, &self.whole, &mut self.before) {
            list.push(before);
        }
    }

    /// 02: "Where no present bounds crossed before an edit, and sheet and journal were changed since by
    /// journaled edits and undos alone, the sheet after its undo equals the sheet before it, and that
    /// undo is never refused".
    fn undo<C: FileCalls + JournalCalls>(&mut self, calls: &mut C, tried: &mut Tried) {
        let (mut sheet, mut journal) = (self.sheet.clone(), self.journal.clone());
        let told = calls.undo(&mut sheet, &mut journal);
        let wanted = u64::from(journal::undo(&mut self.sheet, &mut self.journal));
        let good = told == wanted && sheet == self.sheet && journal == self.journal;
        tried.see(CALLS, good, || {
            format!("an undo answers {told}, the reference {wanted}")
        });
        no_fault(calls, CALLS, tried);
        tried.reach(format!("undos that answer {wanted}"));
        if self.whole.is_some() {
            return;
        }
        if let Some(list) = &mut self.before {
            let good = match list.pop() {
                Some(before) => told == 0 && sheet == before,
                None => told == 35,
            };
            tried.see(LAW, good, || format!("{told}"));
        }
    }

    /// Changes the sheet behind the journal's back: by an edit, or one cell to any number.
    fn disturb(&mut self, rng: &mut Rng) {
        if rng.chance(60) {
            // Mostly the cell of the last entry, so that it disagrees.
            let last = journal::entries(&self.journal)
                .ok()
                .and_then(|all| all.last().copied());
            let edit = match last {
                Some(last) if rng.chance(70) => Some(Edit {
                    kind: u64::from(last.kind),
                    row: u64::from(last.row),
                    column: u64::from(last.column),
                    number: last.new.wrapping_add(rng.range(-1, 1)),
                }),
                _ => some_edit(rng, &self.sheet, 255),
            };
            if let Some(edit) = edit {
                if reference::edit(&mut self.sheet, edit) == 0 {
                    self.before = None;
                }
            }
            return;
        }
        let array = rng.pick(&PLAN_ARRAYS);
        if self.sheet.length(array) > 0 {
            let index = rng.below(self.sheet.length(array) as u64) as usize;
            let number = match array.of_bytes() {
                true => rng.range(0, 3),
                false => rng.pick(&[0, 1, -1, 1 << 17, -(1 << 33), i64::MAX]),
            };
            self.sheet.write(array, index, number);
            self.before = None;
        }
    }

    /// Some bytes of the lent journal, for one call.
    fn damage(&mut self, rng: &mut Rng) {
        self.whole = Some(self.journal.clone());
        let whole = self.journal.len() / BLOCK;
        let used = journal::entries(&self.journal).map_or(0, |all| all.len().div_ceil(ENTRIES) + 1);
        if whole == 0 || used == 0 {
            return;
        }
        if rng.chance(10) {
            // Where the end was lent it isn't any more.
            self.journal
                .truncate(BLOCK * (used - 1) + rng.pick(&[0, 511]));
            return;
        }
        if rng.chance(50) && used > 1 {
            // The last entry.
            let place = used - 2;
            let one = &mut self.journal[BLOCK * place..BLOCK * (place + 1)];
            let count = usize::from(one[3]);
            let at = FIRST + ENTRY * (count - 1);
            let mut entry = Entry::from_bytes(&one[at..at + ENTRY]);
            other_entry(&mut entry, rng);
            one[at..at + ENTRY].copy_from_slice(&entry.bytes());
            renew(one);
            return;
        }
        let place = rng.below(used as u64) as usize;
        other_block(&mut self.journal[BLOCK * place..BLOCK * (place + 1)], rng);
    }

    /// After a power cut the plan's file and the journal's are there: the plan is read, opened, and
    /// fed with the journal in pieces. Hands out the sheet at first and the journal's entries.
    fn power_cut<C: FileCalls + JournalCalls>(
        self,
        calls: &mut C,
        rng: &mut Rng,
        tried: &mut Tried,
    ) -> Option<(Sheet, Vec<Entry>)> {
        let name = "sheets that a power cut and a replay leave as they were";
        self.before?;
        let mut plan = self.first.clone();
        let mut lent = calls.lend(&plan);
        let read = calls.read(&self.plan, &mut lent);
        calls.back(&lent, &mut plan);
        no_fault(calls, name, tried);
        let good = read == Ok((plan.rows, plan.columns)) && open(&mut plan) == 0;
        tried.see(name, good && plan == self.first, || {
            format!("read {read:?}")
        });

        let entries = journal::entries(self.whole.as_ref().unwrap_or(&self.journal)).ok()?;
        let file = file_of(&entries);
        let mut feed = Feed::new(&plan);
        let mut rest = &file[..];
        while !rest.is_empty() {
            let length = rng.pick(&[1, 7, 500, 511, 512, 513, 900]);
            let (piece, later) = rest.split_at(rest.len().min(length));
            fed(calls, name, piece, &mut feed, tried);
            rest = later;
        }
        let told = calls.close(&feed.cells);
        let good = told == 0 && feed.sheet == self.sheet;
        tried.see(name, good, || format!("closed with {told}"));
        Some((self.first, entries))
    }
}

/// One piece on both: the same answer, the same sheet, bytes and cells.
fn fed<C: FileCalls + JournalCalls>(
    calls: &mut C,
    name: &'static str,
    piece: &[u8],
    feed: &mut Feed,
    tried: &mut Tried,
) -> u64 {
    let mut ours = feed.clone();
    let told = calls.feed(piece, &mut ours);
    let wanted = journal::feed(piece, &mut feed.sheet, &mut feed.waiting, &mut feed.cells);
    let good = told == wanted && ours == *feed;
    tried.see(name, good, || {
        format!(
            "a piece answers {told}, the reference {wanted}: {:?}",
            ours.cells
        )
    });
    no_fault(calls, name, tried);
    wanted
}

/// 02: "Feeding the journal cut into pieces anywhere, inside a block too, gives the same sheet".
fn every_way_to_cut<C: FileCalls + JournalCalls>(
    calls: &mut C,
    kept: &[(Sheet, Vec<Entry>)],
    journals: usize,
    rng: &mut Rng,
    tried: &mut Tried,
) {
    let name = "journals cut at every byte";
    let small: Vec<_> = kept
        .iter()
        .filter(|(first, entries)| {
            first.rows * first.columns < 40 && (2..26).contains(&entries.len())
        })
        .collect();
    for turn in 0..journals {
        let (first, entries) = small[rng.below(small.len() as u64) as usize];
        let file = file_of(entries);
        let mut whole = Feed::new(first);
        let told = calls.feed(&file, &mut whole);
        tried.see(name, told == 0 && calls.close(&whole.cells) == 0, || {
            format!("{told}")
        });
        for cut in 0..=file.len() {
            let mut feed = Feed::new(first);
            let told = calls.feed(&file[..cut], &mut feed);
            let closed = calls.close(&feed.cells);
            // "is 33 only when the feed is closed"
            let good = told == 0 && closed == if cut < file.len() { 33 } else { 0 };
            tried.see(name, good, || {
                format!("cut at {cut}: {told}, closed {closed}")
            });
            let told = calls.feed(&file[cut..], &mut feed);
            let good = told == 0 && feed.sheet == whole.sheet && feed.cells == whole.cells;
            tried.see(name, good, || format!("cut at {cut}: {told}"));
            no_fault(calls, name, tried);
        }
        if turn % 4 == 0 {
            let mut feed = Feed::new(first);
            for byte in &file {
                let told = calls.feed(&[*byte], &mut feed);
                tried.see(name, told == 0, || format!("byte by byte: {told}"));
            }
            tried.see(name, feed.sheet == whole.sheet, || {
                "byte by byte".to_string()
            });
            no_fault(calls, name, tried);
        }
    }
}

/// One byte changed, the check as it was: 31 or 32 for an undo, an edit and a feed. An unused byte set
/// and the check renewed: 34.
fn every_byte<C: FileCalls + JournalCalls>(
    calls: &mut C,
    first: &Sheet,
    entries: &[Entry],
    rng: &mut Rng,
    tried: &mut Tried,
) {
    let name = "journals with one byte changed";
    // The last block with entries and the end.
    let mut file = file_of(&entries[..entries.len().min(2 * ENTRIES)]);
    let blocks = file.len() / BLOCK;
    let used = |one: &[u8]| match one[0] {
        END => 3,
        _ => FIRST + ENTRY * usize::from(one[3]),
    };
    for at in BLOCK * blocks.saturating_sub(2)..file.len() {
        let (start, within) = (at / BLOCK * BLOCK, at % BLOCK);
        let one = file[start..start + BLOCK].to_vec();
        file[at] = file[at].wrapping_add(rng.range(1, 255) as u8);
        let known = matches!(file[at], JOURNAL | END);
        let wanted = if within == 0 && !known { 31 } else { 32 };
        all_answer(calls, name, first, &mut file, wanted, tried);
        if (used(&one)..508).contains(&within) {
            renew(&mut file[start..start + BLOCK]);
            all_answer(calls, name, first, &mut file, 34, tried);
        }
        file[start..start + BLOCK].copy_from_slice(&one);
    }
}

/// An undo and an edit change nothing and answer this; a feed does, behind the entries before it.
fn all_answer<C: FileCalls + JournalCalls>(
    calls: &mut C,
    name: &'static str,
    first: &Sheet,
    file: &mut [u8],
    wanted: u64,
    tried: &mut Tried,
) {
    let (mut sheet, journal) = (first.clone(), file.to_vec());
    let edit = Edit {
        kind: 8,
        row: 0,
        column: 0,
        number: 0,
    };
    let told = [
        calls.undo(&mut sheet, file),
        calls.edit(&mut sheet, file, edit),
        calls.feed(file, &mut Feed::new(first)),
    ];
    let good = told == [wanted; 3] && sheet == *first && file == journal;
    tried.see(name, good, || format!("{told:?}, not {wanted}"));
    no_fault(calls, name, tried);
}

/// Another entry, of which most are refused.
fn other_entry(entry: &mut Entry, rng: &mut Rng) {
    let number = rng.pick(&[0, 1, -1, 5000, 1 << 17, -(1 << 21), i64::MAX, i64::MIN]);
    match rng.below(12) {
        0 => entry.kind = rng.pick(&[0, 10, 15, 31, 32, 200, 255]),
        1 => entry.kind = rng.range(1, 9) as u8,
        2 => entry.row = entry.row.wrapping_add(rng.pick(&[1, 96, 0x100])),
        3 => entry.column = entry.column.wrapping_add(rng.pick(&[1, 128, 0x100])),
        4 => entry.old = number,
        5 => entry.old = entry.old.wrapping_add(rng.range(-1, 1)),
        6 => entry.new = number,
        7 => entry.new = entry.new.wrapping_add(rng.range(-1, 1)),
        8 => entry.before = rng.pick(&[0, 1, 2, 255]),
        9 => {
            // A bound that may cross the other one.
            entry.kind = rng.pick(&[3, 4]);
            (entry.row, entry.before) = (0, 1);
            let far = if entry.kind == 3 { 65536 } else { -65536 };
            (entry.old, entry.new) = (far, far);
        }
        10 => (entry.kind, entry.row, entry.new) = (rng.pick(&[8, 9]), 0, 0),
        _ => {
            // What no kind of edit is, clean.
            *entry = Entry {
                kind: rng.pick(&[0, 12, 31, 32, 77]),
                ..Entry::default()
            };
        }
    }
}

/// A block with other bytes, the check mostly renewed.
fn other_block(one: &mut [u8], rng: &mut Rng) {
    let count = usize::from(one[3]).clamp(1, ENTRIES);
    match rng.below(8) {
        0 => one[rng.below(BLOCK as u64) as usize] ^= 1 << rng.below(8),
        1 => one[0] = rng.pick(&[0, 1, 2, 10, 11, 12, 254, 255]),
        2 => one[1 + rng.below(2) as usize] ^= 1 << rng.below(8),
        3 => one[3] = rng.pick(&[0, 1, 21, 22, 23, 255]),
        4 => one[rng.range(488, 507) as usize] = rng.range(1, 255) as u8,
        5 => {
            // One entry less, cleanly.
            one[3] = count as u8 - 1;
            let at = FIRST + ENTRY * (count - 1);
            one[at..at + ENTRY].fill(0);
        }
        _ => {
            let at = FIRST + ENTRY * rng.below(count as u64) as usize;
            let mut entry = Entry::from_bytes(&one[at..at + ENTRY]);
            other_entry(&mut entry, rng);
            one[at..at + ENTRY].copy_from_slice(&entry.bytes());
        }
    }
    if rng.chance(85) {
        renew(one);
    }
}

/// A journal's file with changes, fed in a few pieces to a sheet that may be changed too, with memory
/// that may be short or hold anything; then closed.
fn damaged_feed<C: FileCalls + JournalCalls>(
    calls: &mut C,
    first: &Sheet,
    entries: &[Entry],
    rng: &mut Rng,
    tried: &mut Tried,
) {
    let name = "damaged feeds";
    let mut entries = entries.to_vec();
    entries.truncate(rng.range(1, 60) as usize);
    if !entries.is_empty() && rng.chance(40) {
        let at = rng.below(entries.len() as u64) as usize;
        other_entry(&mut entries[at], rng);
    }
    let mut file = file_of(&entries);
    for _ in 0..rng.below(2) {
        damage_file(&mut file, rng);
    }
    let mut feed = Feed::new(first);
    if rng.chance(8) {
        let array = rng.pick(&PLAN_ARRAYS);
        spoil(&mut feed.sheet, array, rng);
    }
    if rng.chance(6) {
        match rng.below(3) {
            0 => feed.waiting.truncate(rng.pick(&[0, 511, 512])),
            1 => feed.cells.truncate(rng.pick(&[0, 3, 4])),
            _ => {
                let at = rng.below(4) as usize;
                feed.cells[at] = rng.pick(&[1, 2, 3, 36, 511, 512, 1 << 16, u64::MAX]);
            }
        }
    }
    let mut rest = &file[..];
    loop {
        let cut = rng.below(rest.len() as u64 + 1) as usize;
        let length = if rng.chance(50) { rest.len() } else { cut };
        let (piece, later) = rest.split_at(length);
        let told = fed(calls, name, piece, &mut feed, tried);
        tried.reach(format!("feeds that answer {told}"));
        rest = later;
        if rest.is_empty() {
            break;
        }
    }
    let (told, wanted) = (calls.close(&feed.cells), journal::close(&feed.cells));
    tried.see(name, told == wanted, || {
        format!("closes with {told}, not {wanted}")
    });
    tried.reach(format!("closed feeds that answer {wanted}"));
}

/// A sheet of which a number is over its limit, or an array too short.
fn spoil(sheet: &mut Sheet, array: Array, rng: &mut Rng) {
    let cells = needed(sheet, array);
    if cells == 0 {
        return;
    }
    if rng.chance(50) {
        sheet.lend(array, cells - 1);
    } else {
        let index = rng.below(cells as u64) as usize;
        sheet.write(array, index, if array.of_bytes() { 3 } else { 1 << 40 });
    }
}

fn damage_file(file: &mut Vec<u8>, rng: &mut Rng) {
    let blocks = file.len() / BLOCK;
    let place = rng.below(blocks as u64) as usize;
    let start = BLOCK * place;
    match rng.below(10) {
        0 => {
            let length = rng.below(file.len() as u64 + 1) as usize;
            file.truncate(length);
        }
        1 => {
            let more = match rng.below(4) {
                0 => vec![0; rng.range(1, 511) as usize],
                1 => vec![0; BLOCK],
                2 => block(JOURNAL, blocks, &[1]),
                _ => block(END, blocks, &[]),
            };
            file.extend(more);
        }
        2 => {
            file.drain(start..start + BLOCK);
        }
        3 => {
            let taken = file[start..start + BLOCK].to_vec();
            file.splice(start..start, taken);
        }
        _ => return other_block(&mut file[start..start + BLOCK], rng),
    }
    if rng.chance(50) {
        for (place, one) in file.chunks_exact_mut(BLOCK).enumerate() {
            one[1..3].copy_from_slice(&(place as u16).to_le_bytes());
            renew(one);
        }
    }
}
