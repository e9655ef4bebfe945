//! Seeded eta stores with a vector each, and what the shown BasisSolver makes of them. All ours.
//!
//! As words of eight bytes, for the program `replay_eta`: how many stores; then for each its columns,
//! entries and listed places, the leaving rows, the starts, the row numbers and the bits of the
//! coefficients, the listed places and the bits of their values.

use std::fmt::Write;

use super::{BasisSolver, EtaMatrices};
use crate::limits;
use crate::lu::{LUFactors, ScratchSpace};
use crate::rng::Rng;
use crate::sparse::ScatteredVec;

/// Stores of each shape; the last three stand at the store's limits.
const COUNTS: [usize; 6] = [1_000, 800, 300, 40, 40, 40];
const COLUMNS: usize = limits::ETA_COLUMNS as usize;
const ENTRIES: usize = limits::ETA_ENTRIES as usize;
const ROWS: usize = limits::ROWS as usize;
/// So many columns of so many entries fill the store.
const SQUARE: usize = 64;

pub struct Store {
    rows: usize,
    columns: Vec<(usize, Vec<(usize, f64)>)>,
    vector: Vec<(usize, f64)>,
}

/// All stores, the same on every machine.
pub fn make(seed: u64) -> Vec<Store> {
    let mut rng = Rng::named(seed, "etas");
    let mut stores = vec![];
    for (shape, &count) in COUNTS.iter().enumerate() {
        for _ in 0..count {
            let store = match shape {
                0 => store(&mut rng, 8, 12, 8),
                1 => store(&mut rng, ROWS, 20, 24),
                2 => odd_store(&mut rng),
                3 => full(&mut rng, COLUMNS, ENTRIES / COLUMNS),
                4 => full(&mut rng, SQUARE, SQUARE),
                _ => full(&mut rng, COLUMNS, 1),
            };
            stores.push(store);
        }
    }
    stores
}

/// Up to so many rows, columns and entries in a column, whose places are all different.
fn store(rng: &mut Rng, rows: usize, columns: usize, entries: usize) -> Store {
    let rows = rng.between(1, rows);
    let columns = (0..rng.between(0, columns))
        .map(|_| {
            let entries = rng.between(0, entries.min(rows));
            let places = places(rng, rows, entries);
            let leaving = match places.first() {
                Some(&first) if !rng.one_in(8) => first,
                _ => rng.below(rows),
            };
            (leaving, with_numbers(rng, places))
        })
        .collect();
    let listed = rng.between(0, rows);
    let vector = places(rng, rows, listed);
    Store {
        rows,
        columns,
        vector: with_numbers(rng, vector),
    }
}

/// The same with repeated places, and numbers whose products aren't finite.
fn odd_store(rng: &mut Rng) -> Store {
    let mut odd = store(rng, ROWS, 20, 24);
    let numbers = [f64::INFINITY, f64::NEG_INFINITY, f64::NAN, 1e300, -1e-310];
    for (_, entries) in &mut odd.columns {
        for entry in entries {
            if rng.one_in(6) {
                entry.0 = rng.below(odd.rows);
            }
            if rng.one_in(40) {
                entry.1 = rng.pick(&numbers);
            }
        }
    }
    for entry in &mut odd.vector {
        if rng.one_in(40) {
            entry.1 = rng.pick(&numbers);
        }
    }
    odd
}

/// So many columns of so many entries each.
fn full(rng: &mut Rng, columns: usize, entries: usize) -> Store {
    let columns = (0..columns)
        .map(|_| {
            let places = places(rng, ROWS, entries);
            (places[0], with_small_numbers(rng, places))
        })
        .collect();
    let listed = rng.between(1, ROWS);
    let vector = places(rng, ROWS, listed);
    Store {
        rows: ROWS,
        columns,
        vector: with_numbers(rng, vector),
    }
}

/// Different places below rows, in any order.
fn places(rng: &mut Rng, rows: usize, count: usize) -> Vec<usize> {
    let mut all: Vec<usize> = (0..rows).collect();
    for i in 0..count {
        let j = rng.between(i, rows - 1);
        all.swap(i, j);
    }
    all.truncate(count);
    all
}

fn with_numbers(rng: &mut Rng, places: Vec<usize>) -> Vec<(usize, f64)> {
    let with = |place| (place, number(rng));
    places.into_iter().map(with).collect()
}

fn number(rng: &mut Rng) -> f64 {
    match rng.below(8) {
        0 => 0.0,
        1 => -0.0,
        2 | 3 => rng.whole(4),
        4 => rng.whole(4) / 4.0,
        _ => rng.sized(-12, 8),
    }
}

/// So small that hundreds of columns stay finite.
fn with_small_numbers(rng: &mut Rng, places: Vec<usize>) -> Vec<(usize, f64)> {
    let with = |place| (place, number(rng) / 1024.0);
    places.into_iter().map(with).collect()
}

impl Store {
    pub fn columns(&self) -> usize {
        self.columns.len()
    }

    pub fn entries(&self) -> usize {
        self.columns.iter().map(|(_, entries)| entries.len()).sum()
    }

    pub fn words(&self) -> Vec<u64> {
        let mut words = vec![
            self.columns() as u64,
            self.entries() as u64,
            self.vector.len() as u64,
        ];
        words.extend(self.columns.iter().map(|&(leaving, _)| leaving as u64));
        let mut start = 0;
        words.push(start);
        for (_, entries) in &self.columns {
            start += entries.len() as u64;
            words.push(start);
        }
        let entries = || self.columns.iter().flat_map(|(_, entries)| entries);
        words.extend(entries().map(|&(row, _)| row as u64));
        words.extend(entries().map(|&(_, coeff)| coeff.to_bits()));
        words.extend(self.vector.iter().map(|&(place, _)| place as u64));
        words.extend(self.vector.iter().map(|&(_, val)| val.to_bits()));
        words
    }

    /// The column solve's vector and the row solve's: how many places are listed, and each with the
    /// bits of its value, in listed order.
    pub fn answer(&self) -> String {
        let lu_factors = LUFactors::identity(self.rows);
        let mut solver = BasisSolver {
            lu_factors_transp: lu_factors.transpose(),
            lu_factors,
            scratch: ScratchSpace::with_capacity(self.rows),
            eta_matrices: EtaMatrices::new(self.rows),
            rhs: ScatteredVec::empty(self.rows),
        };
        for (leaving, entries) in &self.columns {
            solver.eta_matrices.push(*leaving, entries.iter().copied());
        }
        let vector = || self.vector.iter().map(|(place, val)| (*place, val));
        let mut text = String::new();
        show(solver.solve(vector()), &mut text);
        show(solver.solve_transp(vector()), &mut text);
        text
    }
}

fn show(vec: &ScatteredVec, text: &mut String) {
    let written = (|| {
        writeln!(text, "{:x}", vec.indices().len())?;
        for (place, &val) in vec.iter() {
            let bits = if val.is_nan() {
                0x7ff8_0000_0000_0000
            } else {
                val.to_bits()
            };
            writeln!(text, "{:x} {:016x}", place, bits)?;
        }
        Ok::<(), std::fmt::Error>(())
    })();
    written.expect("a String takes what is written");
}
