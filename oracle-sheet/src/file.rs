//! A plan's file, written from docs/FILES.md and document 02 alone: writing and reading.
//!
//! The writer strings an array's bytes together and cuts them into blocks. The reader asks the blocks
//! one by one for the array's next bytes, and copies nothing before it has accepted the whole file.

use crate::reference::{bounds_cross, number_breaks, opening_refusal, Sheet, COLUMNS, ROWS};
use crate::tally::needed;
use crate::{Array, PLAN_ARRAYS};

/// 02: "blocks of 512 bytes: byte 0 the kind, bytes 1 to 507 contents, bytes 508 to 511" the check.
pub const BLOCK: usize = 512;
pub const CHECK: usize = 508;
/// The cells begin behind the kind and the block's place.
pub const CELLS: usize = 3;
/// So many bytes of an array stand in one block.
pub const HELD: usize = 504;

/// 02: "Kind 1 is sizes, 2 to 9 the arrays, 10 amounts and multipliers, 255 the end".
pub const SIZES: u8 = 1;
pub const END: u8 = 255;

pub fn kind_of(array: Array) -> u8 {
    match array {
        Array::Coef => 2,
        Array::Cost => 3,
        Array::Lower => 4,
        Array::Upper => 5,
        Array::Haslow => 6,
        Array::Hasup => 7,
        Array::Rhs => 8,
        Array::Ops => 9,
        Array::Amount | Array::Mult => 10,
        kept => panic!("{} stands in no file", kept.name()),
    }
}

/// A mark or comparison is one byte, a number eight.
pub fn width(array: Array) -> usize {
    match array.of_bytes() {
        true => 1,
        false => 8,
    }
}

/// What reading answers where it doesn't accept: the number, and the block's place in the file.
#[derive(Clone, Copy, Debug, PartialEq, Eq)]
pub struct Refused {
    pub status: u8,
    pub block: usize,
}

/// 02: "the sum over places 0 to 507 of (place + 1) times the byte".
pub fn check(block: &[u8]) -> u64 {
    let weighed = block[..CHECK].iter().zip(1..);
    weighed
        .map(|(&byte, weight)| weight * u64::from(byte))
        .sum()
}

fn stored_check(block: &[u8]) -> u64 {
    let high_first = block[CHECK..BLOCK].iter().rev();
    high_first.fold(0, |sum, &byte| 256 * sum + u64::from(byte))
}

/// Writes the check that belongs to a block's other bytes.
pub fn renew(block: &mut [u8]) {
    let mut sum = check(block);
    for byte in &mut block[CHECK..BLOCK] {
        *byte = (sum % 256) as u8;
        sum /= 256;
    }
    assert_eq!(sum, 0, "a check never wraps");
}

/// A block with these cells, the rest of it zeros.
pub fn block(kind: u8, place: usize, cells: &[u8]) -> Vec<u8> {
    let mut block = vec![0; BLOCK];
    block[0] = kind;
    block[1] = (place % 256) as u8;
    block[2] = u8::try_from(place / 256).expect("two bytes are enough for a place");
    block[CELLS..CELLS + cells.len()].copy_from_slice(cells);
    renew(&mut block);
    block
}

/// 01's sizes and numbers alone: the kept arrays have no part in a file.
fn refusal(sheet: &Sheet) -> u8 {
    let mut plan = sheet.clone();
    plan.lend_kept();
    opening_refusal(&plan)
}

/// The file of a plan that opening accepts.
fn file_of(sheet: &Sheet) -> Vec<u8> {
    let mut sizes = sheet.rows.to_le_bytes().to_vec();
    sizes.extend(sheet.columns.to_le_bytes());
    let mut file = block(SIZES, 0, &sizes);
    for array in PLAN_ARRAYS {
        let mut bytes: Vec<u8> = Vec::new();
        for index in 0..needed(sheet, array) {
            let cell = sheet.read(array, index);
            bytes.extend(&cell.to_le_bytes()[..width(array)]);
        }
        for part in bytes.chunks(HELD) {
            let place = file.len() / BLOCK;
            file.extend(block(kind_of(array), place, part));
        }
    }
    let place = file.len() / BLOCK;
    file.extend(block(END, place, &[]));
    file
}

/// Writes a plan into a file that is lent with so many bytes: opening's number where opening refuses
/// it, 11 too where the file is too short.
pub fn write(sheet: &Sheet, room: usize) -> Result<Vec<u8>, u8> {
    match refusal(sheet) {
        11 => Err(11),
        _ if room < length(sheet) => Err(11),
        0 => Ok(file_of(sheet)),
        status => Err(status),
    }
}

/// How many bytes the file of a plan has whose sizes are within their limits.
pub fn length(sheet: &Sheet) -> usize {
    let blocks = |array: Array| (needed(sheet, array) * width(array)).div_ceil(HELD);
    BLOCK * (2 + PLAN_ARRAYS.into_iter().map(blocks).sum::<usize>())
}

/// A file while it is read.
struct Reader<'a> {
    file: &'a [u8],
    /// The next block's place.
    place: usize,
}

impl<'a> Reader<'a> {
    fn refused<T>(&self, status: u8) -> Result<T, Refused> {
        Err(Refused {
            status,
            block: self.place,
        })
    }

    /// The block at the present place: 33 where it is cut or missing, 31, 32.
    fn known(&self) -> Result<&'a [u8], Refused> {
        let start = BLOCK * self.place;
        let Some(block) = self.file.get(start..start + BLOCK) else {
            return self.refused(33);
        };
        if !matches!(block[0], SIZES..=10 | END) {
            return self.refused(31);
        }
        if stored_check(block) != check(block) {
            return self.refused(32);
        }
        Ok(block)
    }

    /// The cells of the block that belongs here: 33 and 34 behind the others.
    fn next(&mut self, kind: u8, used: usize) -> Result<&'a [u8], Refused> {
        let block = self.known()?;
        let place = usize::from(block[1]) + 256 * usize::from(block[2]);
        if block[0] != kind || place != self.place {
            return self.refused(33);
        }
        if block[CELLS + used..CHECK].iter().any(|&byte| byte != 0) {
            return self.refused(34);
        }
        self.place += 1;
        Ok(&block[CELLS..CELLS + used])
    }

    /// Every byte of an array.
    fn array(&mut self, kind: u8, bytes: usize) -> Result<Vec<u8>, Refused> {
        let mut all = Vec::new();
        while all.len() < bytes {
            all.extend(self.next(kind, HELD.min(bytes - all.len()))?);
        }
        Ok(all)
    }
}

fn size_from(bytes: &[u8]) -> u64 {
    u64::from_le_bytes(bytes.try_into().expect("eight bytes"))
}

/// 02: "contents that opening refuses get its number (sizes at once)": sizes over their limits, or
/// over what is lent.
fn sizes_refused(plan: &Sheet, lent: &Sheet) -> bool {
    plan.rows > ROWS
        || plan.columns > COLUMNS
        || PLAN_ARRAYS
            .into_iter()
            .any(|array| lent.length(array) < needed(plan, array))
}

/// Reads a file into the lent arrays: the sizes that it has, or a refusal, which changes nothing.
pub fn read(file: &[u8], lent: &mut Sheet) -> Result<(u64, u64), Refused> {
    let mut reader = Reader { file, place: 0 };
    let sizes = reader.next(SIZES, 16)?;
    let mut plan = Sheet {
        rows: size_from(&sizes[..8]),
        columns: size_from(&sizes[8..]),
        ..Sheet::default()
    };
    if sizes_refused(&plan, lent) {
        return Err(Refused {
            status: 11,
            block: 0,
        });
    }
    for array in PLAN_ARRAYS {
        let cells = needed(&plan, array);
        let bytes = reader.array(kind_of(array), cells * width(array))?;
        plan.lend(array, cells);
        for (index, cell) in bytes.chunks(width(array)).enumerate() {
            let number = match cell.try_into() {
                Ok(eight) => i64::from_le_bytes(eight),
                Err(_) => i64::from(cell[0]),
            };
            plan.write(array, index, number);
        }
    }
    let end = reader.place;
    reader.next(END, 0)?;
    if file.len() > BLOCK * reader.place {
        reader.known()?;
        return reader.refused(33);
    }
    reader.place = end;
    if number_breaks(&plan) {
        return reader.refused(12);
    }
    if bounds_cross(&plan) {
        return reader.refused(13);
    }
    for array in PLAN_ARRAYS {
        for index in 0..needed(&plan, array) {
            // Every cell has 64 bits at most.
            lent.write(array, index, plan.read(array, index) as i64);
        }
    }
    Ok((plan.rows, plan.columns))
}

#[cfg(test)]
mod tests {
    use super::*;
    use crate::generate::night_sheet;

    fn put(bytes: &mut [u8], at: usize, cells: &[u8]) {
        bytes[at..at + cells.len()].copy_from_slice(cells);
    }

    /// The plan of no rows and no columns: every byte by hand.
    #[test]
    fn the_smallest_plan() {
        let mut wanted = vec![0; 1024];
        wanted[0] = 1;
        wanted[508] = 1; // 1 * 1
        wanted[512] = 255;
        wanted[513] = 1; // the place
        put(&mut wanted, 1020, &[1, 1]); // 1 * 255 + 2 * 1 = 257
        let nothing = Sheet::default();
        assert_eq!(write(&nothing, 1024), Ok(wanted.clone()));
        assert_eq!(write(&nothing, 1023), Err(11));
        let mut lent = Sheet::default();
        assert_eq!(read(&wanted, &mut lent), Ok((0, 0)));
        assert_eq!(lent, Sheet::default());
    }

    /// 01's N2 with amounts 4, 0 and multiplier -3072: twelve blocks, some bytes by hand.
    #[test]
    fn the_nights_plan() {
        let sheet = night_sheet(4, -3072);
        let file = write(&sheet, 12 * BLOCK).unwrap();
        assert_eq!(file.len(), 12 * BLOCK);
        let kinds: Vec<u8> = file.chunks(BLOCK).map(|block| block[0]).collect();
        assert_eq!(kinds, [1, 2, 3, 4, 5, 6, 7, 8, 9, 10, 10, 255]);
        for (place, block) in file.chunks(BLOCK).enumerate() {
            assert_eq!(block[1..3], [place as u8, 0]);
        }
        // Rows 1, columns 2: 1 * 1 + 4 * 1 + 12 * 2 = 29.
        assert_eq!(
            file[3..19],
            [1, 0, 0, 0, 0, 0, 0, 0, 2, 0, 0, 0, 0, 0, 0, 0]
        );
        assert_eq!(file[508..512], [29, 0, 0, 0]);
        // Costs -3 and -1.
        let costs = &file[2 * BLOCK..];
        assert_eq!(costs[3], 0xfd);
        assert!(costs[4..19].iter().all(|&byte| byte == 0xff));
        // 1 * 3 + 2 * 2 + 4 * 253 + 255 * (5 + 6 + .. + 19) = 46,919.
        assert_eq!(costs[508..512], [0x47, 0xb7, 0, 0]);
        // The upper marks 0 and 1.
        assert_eq!(file[6 * BLOCK + 3..6 * BLOCK + 6], [0, 1, 0]);
        // The multiplier -3072 is 0xfff..f400.
        assert_eq!(
            file[10 * BLOCK + 3..10 * BLOCK + 11],
            [0, 0xf4, 0xff, 0xff, 0xff, 0xff, 0xff, 0xff]
        );
    }

    fn lent(sheet: &Sheet) -> Sheet {
        let mut lent = sheet.clone();
        for array in PLAN_ARRAYS {
            for index in 0..lent.length(array) {
                lent.write(array, index, 77);
            }
        }
        lent
    }

    fn refused(file: &[u8]) -> (u8, usize) {
        let sheet = night_sheet(4, -3072);
        let before = lent(&sheet);
        let mut after = before.clone();
        let refused = read(file, &mut after).unwrap_err();
        assert_eq!(after, before);
        (refused.status, refused.block)
    }

    fn with(change: impl Fn(&mut Vec<u8>), renewed: &[usize]) -> (u8, usize) {
        let mut file = write(&night_sheet(4, -3072), usize::MAX).unwrap();
        change(&mut file);
        for &place in renewed {
            renew(&mut file[BLOCK * place..BLOCK * (place + 1)]);
        }
        refused(&file)
    }

    #[test]
    fn what_is_written_is_read() {
        let sheet = night_sheet(4, -3072);
        let file = write(&sheet, usize::MAX).unwrap();
        let mut back = lent(&sheet);
        assert_eq!(read(&file, &mut back), Ok((1, 2)));
        assert_eq!(back, sheet);
        // Cells past the needed length are neither written nor changed.
        let mut longer = sheet.clone();
        longer.lend(Array::Cost, 5);
        longer.write(Array::Cost, 3, 99);
        assert_eq!(write(&longer, usize::MAX), Ok(file.clone()));
        assert_eq!(read(&file, &mut longer), Ok((1, 2)));
        assert_eq!(longer.cost, [-3, -1, 0, 99, 0]);
    }

    #[test]
    fn each_number() {
        assert_eq!(with(|f| f[BLOCK] = 11, &[1]), (31, 1));
        assert_eq!(with(|f| f[BLOCK] = 11, &[]), (31, 1));
        assert_eq!(with(|f| f[BLOCK] = 3, &[]), (32, 1));
        assert_eq!(with(|f| f[BLOCK] = 3, &[1]), (33, 1));
        assert_eq!(with(|f| f[BLOCK + 1] = 2, &[1]), (33, 1));
        assert_eq!(with(|f| f[BLOCK + 507] = 1, &[1]), (34, 1));
        assert_eq!(with(|f| f[BLOCK + 19] = 1, &[1]), (34, 1));
        // Both 33 and 34 in one block, and a worse block later.
        let both = |f: &mut Vec<u8>| {
            f[2 * BLOCK] = 4;
            f[2 * BLOCK + 507] = 9;
            f[3 * BLOCK] = 0;
        };
        assert_eq!(with(both, &[2]), (33, 2));
        assert_eq!(with(|f| f.truncate(11 * BLOCK), &[]), (33, 11));
        assert_eq!(with(|f| f.truncate(11 * BLOCK + 511), &[]), (33, 11));
        assert_eq!(with(|f| f.truncate(0), &[]), (33, 0));
        // Sizes at once, though the next block is of no kind.
        let sizes = |f: &mut Vec<u8>| {
            f[3] = 97;
            f[BLOCK] = 0;
        };
        assert_eq!(with(sizes, &[0]), (11, 0));
        assert_eq!(with(|f| f[11] = 129, &[0]), (11, 0));
        assert_eq!(with(|f| f[10] = 128, &[0]), (11, 0));
        // Within the limits, but more than is lent.
        assert_eq!(with(|f| f[3] = 2, &[0]), (11, 0));
        assert_eq!(with(|f| f[11] = 3, &[0]), (11, 0));
        // A mark of 2; bounds that cross.
        assert_eq!(with(|f| f[6 * BLOCK + 3] = 2, &[6]), (12, 11));
        assert_eq!(with(|f| f[3 * BLOCK + 11] = 3, &[3]), (13, 11));
    }

    #[test]
    fn behind_the_end() {
        let more = |bytes: &[u8]| with(|f| f.extend(bytes), &[]);
        assert_eq!(more(&[0]), (33, 12));
        assert_eq!(more(&[0; 511]), (33, 12));
        assert_eq!(more(&[0; 512]), (31, 12));
        assert_eq!(more(&block(END, 12, &[])), (33, 12));
        let mut wrong = block(END, 12, &[]);
        wrong[508] += 1;
        assert_eq!(more(&wrong), (32, 12));
        // The numbers come after it.
        let crossed = |f: &mut Vec<u8>| {
            f[3 * BLOCK + 11] = 3;
            f.push(0);
        };
        assert_eq!(with(crossed, &[3]), (33, 12));
    }

    #[test]
    fn a_short_array_is_11_before_the_next_block() {
        let sheet = night_sheet(4, -3072);
        let mut file = write(&sheet, usize::MAX).unwrap();
        file[BLOCK] = 0;
        for array in PLAN_ARRAYS {
            let mut short = lent(&sheet);
            short.lend(array, needed(&sheet, array) - 1);
            let before = short.clone();
            let told = read(&file, &mut short);
            assert_eq!(
                told,
                Err(Refused {
                    status: 11,
                    block: 0
                })
            );
            assert_eq!(short, before);
        }
    }
}
