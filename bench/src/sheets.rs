//! Sheets of the largest size, with nonzeros arranged in one way or another.

use oracle::rng::Rng;

pub const ROWS: usize = 96;
pub const COLUMNS: usize = 128;
const SEED: u64 = 2_026;

/// Where the coefficients that aren't 0 stand.
#[derive(Clone, Copy, PartialEq)]
pub enum Arrangement {
    /// A stretch in each row, a little further right than in the row above, as in the bundled frost
    /// night.
    Stairs,
    /// A stretch in each row, anywhere.
    Stretch,
    /// Every cell for itself.
    Scattered,
    /// Everywhere but in the first column.
    FirstEmpty,
}

/// A sheet's arrays as the calls borrow them. Every bound is present.
pub struct Sheet {
    pub coefs: Vec<i64>,
    pub costs: Vec<i64>,
    pub lowers: Vec<i64>,
    pub uppers: Vec<i64>,
    pub marks: Vec<u8>,
    pub rhs: Vec<i64>,
    pub ops: Vec<u8>,
    pub amounts: Vec<i64>,
    pub mults: Vec<i64>,
    pub kept: Kept,
}

/// What opening writes.
#[derive(Clone, Debug, PartialEq)]
pub struct Kept {
    pub r: Vec<i64>,
    pub d: Vec<i64>,
    pub c: [i64; 1],
    pub b: [i64; 1],
    pub counts: [i64; 4],
}

impl Kept {
    pub fn blank() -> Kept {
        Kept {
            r: vec![0; ROWS],
            d: vec![0; COLUMNS],
            c: [0],
            b: [0],
            counts: [0; 4],
        }
    }
}

/// So many sheets, each with about this share of nonzeros.
pub fn all(arrangement: Arrangement, percent: usize, count: usize) -> Vec<Sheet> {
    let name = format!("sheets {} {percent} {count}", arrangement as u8);
    let mut rng = Rng::named(SEED, &name);
    (0..count)
        .map(|_| sheet(arrangement, percent, &mut rng))
        .collect()
}

fn sheet(arrangement: Arrangement, percent: usize, rng: &mut Rng) -> Sheet {
    let long = ((COLUMNS * percent + 50) / 100).max(1);
    let mut coefs = vec![];
    for row in 0..ROWS {
        let start = match arrangement {
            Arrangement::Stairs => row * (COLUMNS - long) / (ROWS - 1),
            _ => rng.between(0, COLUMNS - long),
        };
        for column in 0..COLUMNS {
            let filled = match arrangement {
                Arrangement::Stairs | Arrangement::Stretch => {
                    (start..start + long).contains(&column)
                }
                Arrangement::Scattered => rng.below(100) < percent,
                Arrangement::FirstEmpty => column > 0,
            };
            coefs.push(if filled { nonzero(4_096, rng) } else { 0 });
        }
    }
    let mut some = |count, most| (0..count).map(|_| nonzero(most, rng)).collect();
    Sheet {
        coefs,
        costs: some(COLUMNS, 1 << 20),
        lowers: vec![-(1 << 16); COLUMNS],
        uppers: vec![1 << 16; COLUMNS],
        marks: vec![1; COLUMNS],
        rhs: some(ROWS, 1 << 31),
        ops: vec![0; ROWS],
        amounts: some(COLUMNS, 1 << 16),
        mults: some(ROWS, 1 << 20),
        kept: Kept::blank(),
    }
}

/// Of a size from 1 to `most`, of either sign.
fn nonzero(most: usize, rng: &mut Rng) -> i64 {
    let size = rng.between(1, most) as i64;
    if rng.one_in(2) {
        -size
    } else {
        size
    }
}
