//! The lent memory that one call leaves to the next: the four arrays with their sections, 41's test,
//! and the way between them and a state. All ours.
//!
//! Sections stand where the library has them. The transposes of a factor have their room, and nobody
//! reads them here: "a call makes them anew from L and U".

use crate::{
    answer::{Answer, Factor, State},
    limits,
    plan::Lent,
};

const ROWS: usize = limits::ROWS as usize;
const COLUMNS: usize = limits::COLUMNS as usize;
const ETA_COLUMNS: usize = limits::ETA_COLUMNS as usize;
const ETA_ENTRIES: usize = limits::ETA_ENTRIES as usize;
const TRI_ENTRIES: usize = limits::TRI_ENTRIES as usize;

/// "a diagonal of size under EPS".
const EPS: f64 = 1e-8;

/// A stretch of one of the four arrays.
#[derive(Clone, Copy)]
struct Section {
    start: usize,
    length: usize,
}

impl Section {
    const fn first(length: usize) -> Section {
        Section { start: 0, length }
    }

    const fn then(self, length: usize) -> Section {
        Section {
            start: self.start + self.length,
            length,
        }
    }

    fn range(self) -> std::ops::Range<usize> {
        self.start..self.start + self.length
    }
}

// Of `numbers`.
const BASIC: Section = Section::first(ROWS);
const NONBASIC: Section = BASIC.then(COLUMNS);
const WHERE: Section = NONBASIC.then(COLUMNS + ROWS);
const FLAGS: Section = WHERE.then(COLUMNS);
const ETAROW: Section = FLAGS.then(ETA_COLUMNS);
const ETAPTR: Section = ETAROW.then(ETA_COLUMNS + 1);
const ETAIDX: Section = ETAPTR.then(ETA_ENTRIES);
const KEPT: Section = ETAIDX.then(ROWS);
const COUNTS: Section = KEPT.then(7);

// Of `doubles`.
const BVAL: Section = Section::first(ROWS);
const NVAL: Section = BVAL.then(COLUMNS);
const PRICE: Section = NVAL.then(COLUMNS);
const NORM: Section = PRICE.then(COLUMNS);
const ETAVAL: Section = NORM.then(ETA_ENTRIES);
const DNORM: Section = ETAVAL.then(ROWS);
const OBJ: Section = DNORM.then(1);

// Of `factor_numbers`.
const ORDER: Section = Section::first(ROWS);
const NUMBER: Section = ORDER.then(ROWS);
const LPTR: Section = NUMBER.then(ROWS + 1);
const LIDX: Section = LPTR.then(TRI_ENTRIES);
const UPTR: Section = LIDX.then(ROWS + 1);
const UIDX: Section = UPTR.then(TRI_ENTRIES);

// Of `factor_coeffs`; between U's numbers and the diagonal stand the transposes'.
const LVAL: Section = Section::first(TRI_ENTRIES);
const UVAL: Section = LVAL.then(TRI_ENTRIES);
const UDIAG: Section = UVAL.then(2 * TRI_ENTRIES).then(ROWS);

// Cells of `counts`; the one between entries and status has the steps.
const KEPT_COUNT: usize = 0;
const ETAS: usize = 1;
const ENTRIES: usize = 2;
const STEPS: usize = 3;
const STATUS: usize = 4;
const HAS_FACTOR: usize = 5;
const FACTORINGS: usize = 6;

/// What stands in the status cell before the first run: no status of a run.
const NO_RUN: usize = 99;

pub struct Memory {
    numbers: Vec<usize>,
    doubles: Vec<f64>,
    factor_numbers: Vec<usize>,
    factor_coeffs: Vec<f64>,
    /// Only with the correction Reset switched off: the shown factor's order of columns, for which the
    /// arrays have no room.
    col_order: Option<Vec<usize>>,
}

/// The array that a lent section stands in, and where.
fn section(lent: Lent) -> (Lent, Section) {
    match lent {
        Lent::Basic => (Lent::Numbers, BASIC),
        Lent::Nonbasic => (Lent::Numbers, NONBASIC),
        Lent::Where => (Lent::Numbers, WHERE),
        Lent::Flags => (Lent::Numbers, FLAGS),
        Lent::Etarow => (Lent::Numbers, ETAROW),
        Lent::Etaptr => (Lent::Numbers, ETAPTR),
        Lent::Etaidx => (Lent::Numbers, ETAIDX),
        Lent::Kept => (Lent::Numbers, KEPT),
        Lent::Counts => (Lent::Numbers, COUNTS),
        Lent::Bval => (Lent::Doubles, BVAL),
        Lent::Nval => (Lent::Doubles, NVAL),
        Lent::Price => (Lent::Doubles, PRICE),
        Lent::Norm => (Lent::Doubles, NORM),
        Lent::Etaval => (Lent::Doubles, ETAVAL),
        Lent::Dnorm => (Lent::Doubles, DNORM),
        Lent::Obj => (Lent::Doubles, OBJ),
        Lent::Numbers | Lent::Doubles | Lent::FactorNumbers | Lent::FactorCoeffs => {
            let length = lent.needed(limits::COLUMNS, limits::ROWS) as usize;
            (lent, Section::first(length))
        }
    }
}

/// How many cells a section has, and whether they are doubles.
pub fn cells(lent: Lent) -> (usize, bool) {
    let (array, section) = section(lent);
    let are_doubles = matches!(array, Lent::Doubles | Lent::FactorCoeffs);
    (section.length, are_doubles)
}

impl Memory {
    /// As it is lent to the first run.
    pub fn lent() -> Memory {
        let mut memory = Memory {
            numbers: vec![0; limits::NUMBERS as usize],
            doubles: vec![0.0; limits::DOUBLES as usize],
            factor_numbers: vec![0; limits::FACTOR_NUMBERS as usize],
            factor_coeffs: vec![0.0; limits::FACTOR_COEFFS as usize],
            col_order: None,
        };
        memory.numbers[COUNTS.start + STATUS] = NO_RUN;
        memory
    }

    /// Writes one cell; a double by its bits. The index is below the section's cells.
    pub fn poke(&mut self, lent: Lent, index: usize, bits: u64) {
        let (array, section) = section(lent);
        let place = section.range().start + index;
        match array {
            Lent::Numbers => self.numbers[place] = bits as usize,
            Lent::Doubles => self.doubles[place] = f64::from_bits(bits),
            Lent::FactorNumbers => self.factor_numbers[place] = bits as usize,
            _ => self.factor_coeffs[place] = f64::from_bits(bits),
        }
    }

    /// What stands in a cell; a double by its bits.
    pub fn peek(&self, lent: Lent, index: usize) -> u64 {
        let (array, section) = section(lent);
        let place = section.range().start + index;
        match array {
            Lent::Numbers => self.numbers[place] as u64,
            Lent::Doubles => self.doubles[place].to_bits(),
            Lent::FactorNumbers => self.factor_numbers[place] as u64,
            _ => self.factor_coeffs[place].to_bits(),
        }
    }

    /// What a call leaves: the state of its answer where it has one, over the fronts of the sections.
    pub fn keep(&mut self, answer: &Answer) {
        let Some(state) = &answer.state else {
            return;
        };
        // Only with the correction Reset switched off: no later call goes on with such a store.
        if state.etarow.len() > ETA_COLUMNS || state.etaidx.len() > ETA_ENTRIES {
            self.numbers[COUNTS.start + STATUS] = NO_RUN;
            return;
        }
        put(&mut self.numbers, KEPT, &state.kept);
        put(&mut self.numbers, BASIC, &state.basic);
        put(&mut self.numbers, NONBASIC, &state.nonbasic);
        for (c, &var) in state.nonbasic.iter().enumerate() {
            self.numbers[WHERE.start + var] = c;
        }
        for (r, &var) in state.basic.iter().enumerate() {
            self.numbers[WHERE.start + var] = state.nonbasic.len() + r;
        }
        let flags: Vec<usize> = state.flags.iter().map(|&cell| cell.into()).collect();
        put(&mut self.numbers, FLAGS, &flags);
        put(&mut self.numbers, ETAROW, &state.etarow);
        put(&mut self.numbers, ETAPTR, &state.etaptr);
        put(&mut self.numbers, ETAIDX, &state.etaidx);
        put(&mut self.doubles, BVAL, &state.bval);
        put(&mut self.doubles, NVAL, &state.nval);
        put(&mut self.doubles, PRICE, &state.price);
        put(&mut self.doubles, NORM, &state.norm);
        put(&mut self.doubles, ETAVAL, &state.etaval);
        put(&mut self.doubles, DNORM, &state.dnorm);
        put(&mut self.doubles, OBJ, &[answer.objective]);
        if let Some(factor) = &state.factor {
            self.keep_factor(factor);
        }
        let counts = &mut self.numbers[COUNTS.range()];
        counts[KEPT_COUNT] = state.kept.len();
        counts[ETAS] = state.etarow.len();
        counts[ENTRIES] = state.etaidx.len();
        counts[STEPS] = answer.steps as usize;
        counts[STATUS] = answer.outcome.number().into();
        counts[HAS_FACTOR] = state.factor.is_some().into();
        counts[FACTORINGS] = state.factorings;
    }

    fn keep_factor(&mut self, factor: &Factor) {
        put(&mut self.factor_numbers, ORDER, &factor.pivots);
        for (number, &row) in factor.pivots.iter().enumerate() {
            self.factor_numbers[NUMBER.start + row] = number;
        }
        put(&mut self.factor_numbers, LPTR, &factor.lptr);
        put(&mut self.factor_numbers, LIDX, &factor.lidx);
        put(&mut self.factor_numbers, UPTR, &factor.uptr);
        put(&mut self.factor_numbers, UIDX, &factor.uidx);
        put(&mut self.factor_coeffs, LVAL, &factor.lval);
        put(&mut self.factor_coeffs, UVAL, &factor.uval);
        put(&mut self.factor_coeffs, UDIAG, &factor.udiag);
        self.col_order = factor.col_order.clone();
    }

    /// The state and the objective that an Optimal run over a plan with these columns and kept rows
    /// left. None is 41: "the last run wasn't Optimal or the workspace's maps, lists or store break 01's
    /// limits".
    pub fn state(&self, columns: usize, kept: &[usize]) -> Option<(State, f64)> {
        let rows = kept.len();
        let counts = self.counts();
        let fits = counts[STATUS] == 0
            && counts[KEPT_COUNT] == rows
            && front(&self.numbers, KEPT, rows) == kept
            && self.maps_fit(columns, rows)
            && self.flags_fit(columns)
            && self.store_fits(rows)
            && self.factor_fits(rows)
            && self.numbers_fit(columns, rows);
        fits.then(|| self.read(columns, rows))
    }

    fn counts(&self) -> &[usize] {
        &self.numbers[COUNTS.range()]
    }

    // "a map's cell is too large, or some place's variable isn't mapped back to it".
    fn maps_fit(&self, columns: usize, rows: usize) -> bool {
        let total = columns + rows;
        let places = front(&self.numbers, WHERE, total);
        let lead_back = |vars: &[usize], first: usize| {
            let mut vars = vars.iter().enumerate();
            vars.all(|(i, &var)| var < total && places[var] == first + i)
        };
        places.iter().all(|&place| place < total)
            && lead_back(front(&self.numbers, NONBASIC, columns), 0)
            && lead_back(front(&self.numbers, BASIC, rows), columns)
    }

    // "a flags cell is neither 0 to 3 nor 7".
    fn flags_fit(&self, columns: usize) -> bool {
        let flags = front(&self.numbers, FLAGS, columns);
        flags.iter().all(|&cell| cell <= 3 || cell == 7)
    }

    // "count above 256, starts that don't begin at 0, fall or don't end at the entry cell, above 4,096,
    // a leaving row or row number not below the kept rows".
    fn store_fits(&self, rows: usize) -> bool {
        let (etas, entries) = (self.counts()[ETAS], self.counts()[ENTRIES]);
        if etas > ETA_COLUMNS || entries > ETA_ENTRIES {
            return false;
        }
        let below = |cells: &[usize]| cells.iter().all(|&row| row < rows);
        starts_fit(front(&self.numbers, ETAPTR, etas + 1))
            && self.numbers[ETAPTR.start + etas] == entries
            && below(front(&self.numbers, ETAROW, etas))
            && below(front(&self.numbers, ETAIDX, entries))
    }

    // "not a permutation with its inverse, starts, rows not below / not above, a diagonal of size under
    // EPS"; "or cell 5 of counts is above 1". A pivot order that its inverse leads back from is one to
    // one, so it is a permutation.
    fn factor_fits(&self, rows: usize) -> bool {
        if self.counts()[HAS_FACTOR] != 1 {
            return self.counts()[HAS_FACTOR] == 0;
        }
        let numbers = front(&self.factor_numbers, NUMBER, rows);
        let mut order = front(&self.factor_numbers, ORDER, rows).iter().enumerate();
        let diag = front(&self.factor_coeffs, UDIAG, rows);
        order.all(|(number, &row)| row < rows && numbers[row] == number)
            && self.triangle_fits(rows, LPTR, LIDX, |col, row| row > col && row < rows)
            && self.triangle_fits(rows, UPTR, UIDX, |col, row| row < col)
            && diag.iter().all(|val| val.abs() >= EPS)
    }

    fn triangle_fits(
        &self,
        rows: usize,
        ptr: Section,
        idx: Section,
        fits: impl Fn(usize, usize) -> bool,
    ) -> bool {
        let starts = front(&self.factor_numbers, ptr, rows + 1);
        if !starts_fit(starts) || starts[rows] > TRI_ENTRIES {
            return false;
        }
        let places = &self.factor_numbers[idx.range()];
        (0..rows).all(|col| {
            let mut column = places[starts[col]..starts[col + 1]].iter();
            column.all(|&row| fits(col, row))
        })
    }

    // "a stored number in use (values, prices, both norms, eta and factor numbers, objective) isn't
    // finite".
    fn numbers_fit(&self, columns: usize, rows: usize) -> bool {
        let finite = |section, length| {
            let cells = front(&self.doubles, section, length);
            cells.iter().all(|val: &f64| val.is_finite())
        };
        let factor_finite = |section, length| {
            let cells = front(&self.factor_coeffs, section, length);
            cells.iter().all(|val: &f64| val.is_finite())
        };
        let has_factor = self.counts()[HAS_FACTOR] == 1;
        finite(BVAL, rows)
            && finite(NVAL, columns)
            && finite(PRICE, columns)
            && finite(NORM, columns)
            && finite(ETAVAL, self.counts()[ENTRIES])
            && finite(DNORM, rows)
            && finite(OBJ, 1)
            && (!has_factor
                || factor_finite(LVAL, self.factor_numbers[LPTR.start + rows])
                    && factor_finite(UVAL, self.factor_numbers[UPTR.start + rows])
                    && factor_finite(UDIAG, rows))
    }

    /// Whatever is in use has passed 41.
    fn read(&self, columns: usize, rows: usize) -> (State, f64) {
        let (etas, entries) = (self.counts()[ETAS], self.counts()[ENTRIES]);
        let numbers = |section, length| front(&self.numbers, section, length).to_vec();
        let doubles = |section, length| front(&self.doubles, section, length).to_vec();
        let flags = front(&self.numbers, FLAGS, columns).iter();
        let state = State {
            kept: numbers(KEPT, rows),
            basic: numbers(BASIC, rows),
            nonbasic: numbers(NONBASIC, columns),
            bval: doubles(BVAL, rows),
            nval: doubles(NVAL, columns),
            price: doubles(PRICE, columns),
            norm: doubles(NORM, columns),
            flags: flags.map(|&cell| cell as u8).collect(),
            etarow: numbers(ETAROW, etas),
            etaptr: numbers(ETAPTR, etas + 1),
            etaidx: numbers(ETAIDX, entries),
            etaval: doubles(ETAVAL, entries),
            factor: (self.counts()[HAS_FACTOR] == 1).then(|| self.read_factor(rows)),
            dnorm: doubles(DNORM, rows),
            factorings: self.counts()[FACTORINGS],
            dual_steps: 0,
            in_dual: false,
        };
        (state, self.doubles[OBJ.start])
    }

    fn read_factor(&self, rows: usize) -> Factor {
        let numbers = |section, length| front(&self.factor_numbers, section, length).to_vec();
        let coeffs = |section, length| front(&self.factor_coeffs, section, length).to_vec();
        let lower = self.factor_numbers[LPTR.start + rows];
        let upper = self.factor_numbers[UPTR.start + rows];
        Factor {
            pivots: numbers(ORDER, rows),
            lptr: numbers(LPTR, rows + 1),
            lidx: numbers(LIDX, lower),
            lval: coeffs(LVAL, lower),
            uptr: numbers(UPTR, rows + 1),
            uidx: numbers(UIDX, upper),
            uval: coeffs(UVAL, upper),
            udiag: coeffs(UDIAG, rows),
            col_order: self.col_order.clone(),
        }
    }
}

fn starts_fit(starts: &[usize]) -> bool {
    starts[0] == 0 && starts.windows(2).all(|w| w[0] <= w[1])
}

/// The first cells of a section.
fn front<T>(array: &[T], section: Section, length: usize) -> &[T] {
    &array[section.range()][..length]
}

fn put<T: Copy>(array: &mut [T], section: Section, vals: &[T]) {
    array[section.range()][..vals.len()].copy_from_slice(vals);
}

#[cfg(test)]
mod tests {
    use super::*;

    /// The sections fill their arrays, as limits has them.
    #[test]
    fn sections_fill_the_arrays() {
        let end = |section: Section| section.range().end as u64;
        assert_eq!(end(COUNTS), limits::NUMBERS);
        assert_eq!(end(OBJ), limits::DOUBLES);
        let transposes = 2 * (ROWS + 1 + TRI_ENTRIES);
        assert_eq!(end(UIDX.then(transposes)), limits::FACTOR_NUMBERS);
        assert_eq!(end(UDIAG), limits::FACTOR_COEFFS);
    }
}
