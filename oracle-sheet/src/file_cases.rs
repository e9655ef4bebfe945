//! Seeded plans and damaged files, tried on a library beside the reference. What must hold of a file
//! whatever program reads it (one byte changed, cut, swapped, dropped, repeated, a write that stopped)
//! is stated here once more, without the reference's reader.

use crate::file::{self, block, kind_of, renew, width, Refused, BLOCK, CELLS, CHECK, END, HELD};
use crate::generate::{blocks, Rng, Scale};
use crate::reference::{opening_refusal, Sheet};
use crate::tally::needed;
use crate::{Array, PLAN_ARRAYS};
use std::collections::BTreeMap;

/// The two calls: the reference's, or those of a library that is compared with it.
pub trait FileCalls {
    /// The ten arrays as they are lent to reading.
    type Lent;
    fn write(&mut self, sheet: &Sheet, room: usize) -> Result<Vec<u8>, u8>;
    fn lend(&mut self, sheet: &Sheet) -> Self::Lent;
    fn read(&mut self, file: &[u8], lent: &mut Self::Lent) -> Result<(u64, u64), Refused>;
    /// The cells of lent arrays, into a sheet of the same lengths.
    fn back(&self, lent: &Self::Lent, sheet: &mut Sheet);
    /// The first thing since the last question that a call changed though it must leave it.
    fn fault(&mut self) -> Option<String>;
}

pub struct Reference;

impl FileCalls for Reference {
    type Lent = Sheet;

    fn write(&mut self, sheet: &Sheet, room: usize) -> Result<Vec<u8>, u8> {
        file::write(sheet, room)
    }

    fn lend(&mut self, sheet: &Sheet) -> Sheet {
        sheet.clone()
    }

    fn read(&mut self, file: &[u8], lent: &mut Sheet) -> Result<(u64, u64), Refused> {
        file::read(file, lent)
    }

    fn back(&self, lent: &Sheet, sheet: &mut Sheet) {
        sheet.clone_from(lent);
    }

    fn fault(&mut self) -> Option<String> {
        None
    }
}

/// What was tried, by name: how often it was as it must be, and how often not.
#[derive(Debug, Default)]
pub struct Tried {
    counts: BTreeMap<&'static str, (u64, u64)>,
    /// How often each thing was reached that is to be reached at least so often.
    reached: BTreeMap<String, (u64, u64)>,
    /// The first few that weren't.
    pub faults: Vec<String>,
}

impl Tried {
    pub fn see(&mut self, name: &'static str, good: bool, what: impl FnOnce() -> String) {
        let count = self.counts.entry(name).or_default();
        if good {
            count.0 += 1;
            return;
        }
        count.1 += 1;
        if self.faults.len() < 10 {
            self.faults.push(format!("{name}: {}", what()));
        }
    }

    pub fn want(&mut self, name: String, least: u64) {
        self.reached.entry(name).or_default().1 = least;
    }

    /// What nobody wants isn't counted.
    pub fn reach(&mut self, name: String) {
        if let Some(count) = self.reached.get_mut(&name) {
            count.0 += 1;
        }
    }

    /// A line for each, then `N passed, M failed`; whether nothing failed.
    pub fn report(&self, out: &mut String) -> bool {
        let (mut passed, mut failed) = (0, 0);
        for (name, (good, bad)) in &self.counts {
            out.push_str(&format!("{good} as they must be, {bad} not: {name}\n"));
            passed += good;
            failed += bad;
        }
        for (name, (count, least)) in &self.reached {
            let enough = count >= least;
            let word = if enough { "passed" } else { "FAILED" };
            out.push_str(&format!("{word} {count:>7} (at least {least}) {name}\n"));
            passed += u64::from(enough);
            failed += u64::from(!enough);
        }
        for fault in &self.faults {
            out.push_str(&format!("FAILED: {fault}\n"));
        }
        out.push_str(&format!("{passed} passed, {failed} failed\n"));
        failed == 0
    }
}

/// How much is tried.
#[derive(Clone, Copy, Debug)]
pub struct Amounts {
    /// Every such seeded sheet is written and read.
    pub sheets: Scale,
    /// Files of which every byte is changed once.
    pub changed: usize,
    /// Files of which every unused byte is set, and its block's check renewed.
    pub unused: usize,
    /// Files that are cut at every length.
    pub cut: usize,
    /// Files of which blocks are swapped, dropped and repeated, each with each.
    pub moved: usize,
    /// Pairs of files of which one is written over the other and stops at every byte.
    pub torn: usize,
    pub damaged: usize,
}

/// What the gate tries.
pub const WHOLE: Amounts = Amounts {
    sheets: Scale {
        small: 700,
        damaged: 0,
        opening: 900,
        kinds: 0,
        limits: 90,
        floors: 4,
        edges: 40,
        sizes: 100,
        full: 6,
        tall: 40,
        wrecks: 0,
        nones: 100,
        short: 0,
        kind_max: 255,
    },
    changed: 50,
    unused: 5,
    cut: 8,
    moved: 12,
    torn: 12,
    damaged: 100_000,
};

/// Marks that no plan has, so that a written cell shows.
fn marked(sheet: &Sheet) -> Sheet {
    let mut lent = sheet.clone();
    for array in PLAN_ARRAYS {
        for index in 0..lent.length(array) {
            lent.write(array, index, 0xce);
        }
    }
    lent
}

/// The plan alone: each array with the cells that it needs.
fn trimmed(sheet: &Sheet) -> Sheet {
    let mut plan = sheet.clone();
    for array in PLAN_ARRAYS {
        plan.lend(array, needed(sheet, array));
    }
    plan.lend_kept();
    plan
}

/// Runs everything.
pub fn run<C: FileCalls>(calls: &mut C, seed: u64, amounts: &Amounts) -> Tried {
    let mut tried = Tried::default();
    for status in [0, 11, 12, 13] {
        tried.want(format!("writes that answer {status}"), 50);
    }
    let mut plans = Vec::new();
    blocks(seed, &amounts.sheets, &mut |script| {
        written_and_read(calls, &script.sheet, &mut tried);
        if opening_refusal(&script.sheet) == 0 {
            plans.push(trimmed(&script.sheet));
        }
    });
    let mut rng = Rng::new(seed ^ 0xf11e);
    let files = Files::of(&mut plans, &mut rng);
    every_value_of_the_smallest(calls, &mut tried);
    for _ in 0..amounts.changed {
        every_byte(calls, &files.draw(&mut rng), &mut rng, &mut tried);
    }
    for _ in 0..amounts.unused {
        every_unused_byte(calls, &files.draw(&mut rng), &mut rng, &mut tried);
    }
    for _ in 0..amounts.cut {
        every_cut(calls, &files.draw(&mut rng), &mut tried);
    }
    for _ in 0..amounts.moved {
        blocks_moved(calls, &files.draw(&mut rng), &mut tried);
    }
    for (what, least) in STOPPED.into_iter().zip([20_000, 1_000, 1]) {
        tried.want(what.to_string(), least);
    }
    for _ in 0..amounts.torn {
        torn_writes(calls, &files.pair(&mut rng), &mut tried);
    }
    for status in [0, 11, 12, 13, 31, 32, 33, 34] {
        let least = amounts.damaged as u64 / 50;
        tried.want(format!("damaged files that answer {status}"), least);
    }
    for what in ["the first block", "one between", "the end", "one behind it"] {
        let least = amounts.damaged as u64 / 100;
        tried.want(format!("refusals that name {what}"), least);
    }
    for _ in 0..amounts.damaged {
        damaged(calls, &files.draw(&mut rng), &mut rng, &mut tried);
    }
    tried
}

/// The file that the library writes is the reference's, in buffers that are long enough and not; what
/// it reads back is the plan, and nothing past it is changed.
fn written_and_read<C: FileCalls>(calls: &mut C, sheet: &Sheet, tried: &mut Tried) {
    let name = "plans written and read";
    let status = file::write(sheet, usize::MAX).err().unwrap_or(0);
    tried.reach(format!("writes that answer {status}"));
    let least = match status {
        11 => BLOCK,
        _ => file::length(sheet),
    };
    for room in [least, least - 1, least + 7, 0] {
        let (ours, theirs) = (calls.write(sheet, room), file::write(sheet, room));
        let good = ours == theirs;
        tried.see(name, good, || format!("a file of {room} bytes: {sheet:?}"));
        no_fault(calls, name, tried);
    }
    let Ok(written) = file::write(sheet, least) else {
        return;
    };
    for longer in [0, 3] {
        let mut lent = trimmed(sheet);
        for array in PLAN_ARRAYS {
            lent.lend(array, lent.length(array) + longer);
        }
        let _ = compare(calls, name, &written, &marked(&lent), tried);
    }
}

fn no_fault<C: FileCalls>(calls: &mut C, name: &'static str, tried: &mut Tried) {
    if let Some(fault) = calls.fault() {
        tried.see(name, false, || fault);
    }
}

/// Reads a file on both: the same answer, the same cells.
fn compare<C: FileCalls>(
    calls: &mut C,
    name: &'static str,
    file: &[u8],
    lent: &Sheet,
    tried: &mut Tried,
) -> Result<(u64, u64), Refused> {
    let (mut ours, mut theirs) = (calls.lend(lent), lent.clone());
    let told = calls.read(file, &mut ours);
    let wanted = file::read(file, &mut theirs);
    let mut cells = lent.clone();
    calls.back(&ours, &mut cells);
    let good = told == wanted && cells == theirs;
    tried.see(name, good, || {
        format!(
            "answers {told:?}, the reference {wanted:?}, cells alike: {}",
            cells == theirs
        )
    });
    no_fault(calls, name, tried);
    wanted
}

/// A plan, its file, and arrays of marks to read it into.
struct Kept {
    plan: Sheet,
    file: Vec<u8>,
    lent: Sheet,
}

fn kept(plan: &Sheet) -> Kept {
    let file = file::write(plan, usize::MAX).expect("an accepted plan");
    Kept {
        plan: plan.clone(),
        file,
        lent: marked(plan),
    }
}

/// Plans of a few blocks, with one of many now and then.
struct Files {
    small: Vec<Sheet>,
    large: Vec<Sheet>,
    /// Several of one size, so that each can be written over another.
    alike: Vec<Vec<Sheet>>,
}

impl Files {
    fn of(plans: &mut Vec<Sheet>, rng: &mut Rng) -> Files {
        let mut by_size: BTreeMap<(u64, u64), Vec<Sheet>> = BTreeMap::new();
        for plan in plans.iter() {
            by_size
                .entry((plan.rows, plan.columns))
                .or_default()
                .push(plan.clone());
        }
        for at in (1..plans.len()).rev() {
            plans.swap(at, rng.below(at as u64 + 1) as usize);
        }
        let (small, large) = plans
            .drain(..)
            .partition(|plan| file::length(plan) <= 14 * BLOCK);
        Files {
            small,
            large,
            alike: by_size
                .into_values()
                .filter(|some| some.len() > 4)
                .collect(),
        }
    }

    fn draw(&self, rng: &mut Rng) -> Kept {
        let from = match rng.chance(2) {
            true => &self.large,
            false => &self.small,
        };
        kept(&from[rng.below(from.len() as u64) as usize])
    }

    /// Two plans: mostly of one size, so that most blocks of either fit into the other's file.
    fn pair(&self, rng: &mut Rng) -> (Kept, Kept) {
        if rng.chance(25) {
            return (self.draw(rng), self.draw(rng));
        }
        let some = &self.alike[rng.below(self.alike.len() as u64) as usize];
        let one = |rng: &mut Rng| kept(&some[rng.below(some.len() as u64) as usize]);
        (one(rng), one(rng))
    }
}

/// 02: "changing any one byte of a block is always refused". A byte 0 that is no kind is 31, all else
/// is 32, and the block is the byte's own.
fn one_changed(at: usize, to: u8) -> Refused {
    let known = matches!(to, 1..=10 | END);
    Refused {
        status: if at % BLOCK == 0 && !known { 31 } else { 32 },
        block: at / BLOCK,
    }
}

fn changed<C: FileCalls>(
    calls: &mut C,
    file: &mut [u8],
    at: usize,
    to: u8,
    lent: &mut C::Lent,
    tried: &mut Tried,
) {
    let name = "files with one byte changed";
    let was = std::mem::replace(&mut file[at], to);
    let told = calls.read(file, lent);
    tried.see(name, told == Err(one_changed(at, to)), || {
        format!("byte {at} from {was} to {to}: {told:?}")
    });
    no_fault(calls, name, tried);
    file[at] = was;
}

/// Every byte of the smallest plan's file to each of its 255 other values.
fn every_value_of_the_smallest<C: FileCalls>(calls: &mut C, tried: &mut Tried) {
    let mut kept = kept(&Sheet::default());
    let mut lent = calls.lend(&kept.lent);
    for at in 0..kept.file.len() {
        for to in 0..=255 {
            if kept.file[at] != to {
                changed(calls, &mut kept.file, at, to, &mut lent, tried);
            }
        }
    }
}

fn every_byte<C: FileCalls>(calls: &mut C, kept: &Kept, rng: &mut Rng, tried: &mut Tried) {
    let mut file = kept.file.clone();
    let mut lent = calls.lend(&kept.lent);
    // Of a large file every byte of a few blocks.
    let blocks = file.len() / BLOCK;
    let step = blocks.div_ceil(14);
    for place in (rng.below(step as u64) as usize..blocks).step_by(step) {
        for at in BLOCK * place..BLOCK * (place + 1) {
            let to = file[at].wrapping_add(rng.range(1, 255) as u8);
            changed(calls, &mut file, at, to, &mut lent, tried);
        }
    }
}

/// How many bytes each block of a plan's file uses behind its place.
fn used(plan: &Sheet) -> Vec<usize> {
    let mut used = vec![16];
    for array in PLAN_ARRAYS {
        let bytes = width(array) * needed(plan, array);
        used.extend((0..bytes).step_by(HELD).map(|at| HELD.min(bytes - at)));
    }
    used.push(0);
    used
}

/// 02: "a nonzero unused byte 34".
fn every_unused_byte<C: FileCalls>(calls: &mut C, kept: &Kept, rng: &mut Rng, tried: &mut Tried) {
    let name = "files with one unused byte set";
    let mut lent = calls.lend(&kept.lent);
    for (place, used) in used(&kept.plan).into_iter().enumerate() {
        let mut file = kept.file.clone();
        let start = BLOCK * place;
        for at in CELLS + used..CHECK {
            file[start + at] = rng.range(1, 255) as u8;
            renew(&mut file[start..start + BLOCK]);
            let told = calls.read(&file, &mut lent);
            let wanted = Refused {
                status: 34,
                block: place,
            };
            tried.see(name, told == Err(wanted), || {
                format!("byte {at} of block {place}: {told:?}")
            });
            no_fault(calls, name, tried);
            file[start + at] = 0;
        }
    }
}

/// 02: "cut (33 alone)": the block that isn't whole, or isn't there.
fn every_cut<C: FileCalls>(calls: &mut C, kept: &Kept, tried: &mut Tried) {
    let name = "files cut at every length";
    let mut lent = calls.lend(&kept.lent);
    for length in 0..kept.file.len().min(14 * BLOCK) {
        let told = calls.read(&kept.file[..length], &mut lent);
        let wanted = Refused {
            status: 33,
            block: length / BLOCK,
        };
        tried.see(name, told == Err(wanted), || {
            format!("cut at {length}: {told:?}")
        });
        no_fault(calls, name, tried);
    }
}

/// Blocks swapped, dropped and repeated. As they are their places don't fit: 33 at the first one that
/// is elsewhere. With their places written anew the reference says what comes.
fn blocks_moved<C: FileCalls>(calls: &mut C, kept: &Kept, tried: &mut Tried) {
    let name = "files with blocks swapped, dropped and repeated";
    let all: Vec<&[u8]> = kept.file.chunks(BLOCK).collect();
    let blocks = all.len().min(14);
    let mut files: Vec<(usize, Vec<&[u8]>)> = Vec::new();
    for i in 0..blocks {
        for j in i + 1..blocks {
            let mut swapped = all.clone();
            swapped.swap(i, j);
            files.push((i, swapped));
        }
        let mut dropped = all.clone();
        dropped.remove(i);
        files.push((i, dropped));
        for at in i + 1..=blocks {
            let mut repeated = all.clone();
            repeated.insert(at, all[i]);
            files.push((at, repeated));
        }
    }
    let mut lent = calls.lend(&kept.lent);
    for (place, moved) in files {
        let mut file = moved.concat();
        let told = calls.read(&file, &mut lent);
        let wanted = Refused {
            status: 33,
            block: place,
        };
        tried.see(name, told == Err(wanted), || {
            format!("{told:?}, not {wanted:?}")
        });
        no_fault(calls, name, tried);
        renumber(&mut file);
        let _ = compare(calls, name, &file, &kept.lent, tried);
    }
}

/// Every block's place as it stands.
fn renumber(file: &mut [u8]) {
    for (place, block) in file.chunks_exact_mut(BLOCK).enumerate() {
        block[1] = (place % 256) as u8;
        block[2] = (place / 256) as u8;
        renew(block);
    }
}

/// A write that stopped. To a new name, the part is a cut file and is refused, so the old one, which is
/// still there, is the plan. Over the old file no such thing is promised, and the reference says what
/// comes: most are refused, but where the write stops between two blocks, or what it changed of one
/// leaves the sum as it was, blocks of both can be read as a plan that neither file had.
fn torn_writes<C: FileCalls>(calls: &mut C, (old, new): &(Kept, Kept), tried: &mut Tried) {
    let name = "writes over another file that stopped at every byte";
    let mut room = old.lent.clone();
    for array in PLAN_ARRAYS {
        room.lend(array, room.length(array).max(new.lent.length(array)));
    }
    for stopped in 0..=new.file.len().min(14 * BLOCK) {
        let mut file = new.file[..stopped].to_vec();
        file.extend(old.file.get(stopped..).unwrap_or(&[]));
        let told = compare(calls, name, &file, &room, tried);
        tried.reach(match told {
            Err(_) => STOPPED[0].to_string(),
            Ok(_) if file == old.file || file == new.file => STOPPED[1].to_string(),
            Ok(_) => STOPPED[2].to_string(),
        });
    }
}

/// What a write over another file leaves.
const STOPPED: [&str; 3] = [
    "stopped writes that are refused",
    "stopped writes that leave the old file or the new one",
    "stopped writes that read as a plan of neither file",
];

/// Numbers at and past limits, and others.
const NUMBERS: [i64; 18] = [
    0,
    1,
    -1,
    2,
    4096,
    4097,
    -4097,
    65536,
    65537,
    -65537,
    1 << 20,
    (1 << 20) + 1,
    1 << 31,
    -(1 << 31) - 1,
    i64::MAX,
    i64::MIN,
    -2,
    7,
];

const SIZES: [u64; 12] = [0, 1, 2, 3, 95, 96, 97, 127, 128, 129, 1 << 32, u64::MAX];

/// One to three changes, most with the checks renewed, read into arrays that are now and then short.
fn damaged<C: FileCalls>(calls: &mut C, kept: &Kept, rng: &mut Rng, tried: &mut Tried) {
    let mut file = kept.file.clone();
    for _ in 0..1 + rng.below(3) / 2 + rng.below(3) / 2 {
        damage(&mut file, &kept.plan, rng);
    }
    let mut lent = kept.lent.clone();
    if rng.chance(3) {
        let array = rng.pick(&PLAN_ARRAYS);
        lent.lend(array, rng.below(needed(&lent, array) as u64 + 1) as usize);
    }
    let told = compare(calls, "damaged files", &file, &lent, tried);
    let status = told.err().map_or(0, |refused| refused.status);
    tried.reach(format!("damaged files that answer {status}"));
    let last = kept.file.len() / BLOCK - 1;
    if let Err(refused) = told {
        let what = match refused.block {
            0 => "the first block",
            place if place < last => "one between",
            place if place == last => "the end",
            _ => "one behind it",
        };
        tried.reach(format!("refusals that name {what}"));
    }
}

fn damage(file: &mut Vec<u8>, plan: &Sheet, rng: &mut Rng) {
    let blocks = file.len() / BLOCK;
    if blocks == 0 {
        return file.extend(block(rng.draw() as u8, 0, &[]));
    }
    let place = rng.below(blocks as u64) as usize;
    let start = BLOCK * place;
    let one = &mut file[start..start + BLOCK];
    match rng.below(15) {
        // Any bytes, the check as it was.
        0 => {
            for _ in 0..1 + rng.below(4) {
                one[rng.below(BLOCK as u64) as usize] = rng.draw() as u8;
            }
        }
        // Another kind, another place, an unused byte or a cell, all the cells.
        1 => {
            one[0] = match rng.chance(50) {
                true => rng.draw() as u8,
                false => rng.pick(&[1, 2, 3, 4, 5, 6, 7, 8, 9, 10, END]),
            };
            renew(one);
        }
        2 => {
            one[1 + rng.below(2) as usize] ^= 1 << rng.below(8);
            renew(one);
        }
        3 => {
            one[rng.range(CELLS as i64, CHECK as i64 - 1) as usize] = rng.draw() as u8;
            renew(one);
        }
        4 => {
            for byte in &mut one[CELLS..CHECK] {
                *byte = rng.draw() as u8;
            }
            renew(one);
        }
        // The sizes.
        5 => {
            let at = rng.pick(&[CELLS, CELLS + 8]);
            let near = [plan.rows, plan.columns][usize::from(at > CELLS)];
            let size = match rng.chance(30) {
                true => near.wrapping_add(rng.range(-1, 1) as u64),
                false => rng.pick(&SIZES),
            };
            file[at..at + 8].copy_from_slice(&size.to_le_bytes());
            renew(&mut file[..BLOCK]);
        }
        6..=8 => numbers_changed(file, plan, rng),
        9 | 14 => bounds_swapped(file),
        // Blocks that are elsewhere, gone, or there twice.
        10 | 11 => {
            let other = rng.below(blocks as u64) as usize;
            let taken = file[start..start + BLOCK].to_vec();
            match rng.below(3) {
                0 => {
                    file.copy_within(BLOCK * other..BLOCK * (other + 1), start);
                    file[BLOCK * other..BLOCK * (other + 1)].copy_from_slice(&taken);
                }
                1 => {
                    file.drain(start..start + BLOCK);
                }
                _ => {
                    file.splice(BLOCK * other..BLOCK * other, taken);
                }
            }
            if rng.chance(60) {
                renumber(file);
            }
        }
        12 => {
            let length = rng.below(file.len() as u64 + 1) as usize;
            file.truncate(length);
        }
        _ => match rng.below(4) {
            0 => file.extend((0..rng.range(1, 600)).map(|_| rng.draw() as u8)),
            1 => file.extend(vec![0; BLOCK]),
            _ => file.extend(block(rng.pick(&[2, 10, 11, END]), blocks, &[])),
        },
    }
}

/// One to three cells to other numbers or marks, of which most are over a limit.
fn numbers_changed(file: &mut [u8], plan: &Sheet, rng: &mut Rng) {
    for _ in 0..1 + rng.below(3) {
        let array = rng.pick(&PLAN_ARRAYS);
        let cells = needed(plan, array);
        let kinds = file.chunks_exact_mut(BLOCK);
        let Some(one) = kinds.into_iter().find(|block| block[0] == kind_of(array)) else {
            continue;
        };
        if cells == 0 {
            continue;
        }
        let at = CELLS + width(array) * rng.below(cells.min(60) as u64) as usize;
        match array.of_bytes() {
            true => one[at] = rng.pick(&[0, 0, 1, 1, 1, 2, 3, 255]),
            false => one[at..at + 8].copy_from_slice(&rng.pick(&NUMBERS).to_le_bytes()),
        }
        renew(one);
    }
}

/// The lower bounds' cells and the upper ones' change places: where both were present they cross.
fn bounds_swapped(file: &mut [u8]) {
    let find = |file: &[u8], array| {
        file.chunks_exact(BLOCK)
            .position(|block| block[0] == kind_of(array))
    };
    let (Some(low), Some(up)) = (find(file, Array::Lower), find(file, Array::Upper)) else {
        return;
    };
    for at in CELLS..CHECK {
        file.swap(BLOCK * low + at, BLOCK * up + at);
    }
    for place in [low, up] {
        renew(&mut file[BLOCK * place..BLOCK * (place + 1)]);
    }
}
