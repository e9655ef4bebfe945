//! The causes of a 41: cells to write that break its limits, and what a written cell breaks. All ours.

use crate::answer::{Factor, State};
use crate::limits;
use crate::plan::Lent;
use crate::rng::Rng;

/// Where a factor's parts stand in its arrays.
pub(super) const INVERSE: usize = limits::ROWS as usize;
pub(super) const L_STARTS: usize = INVERSE + limits::ROWS as usize;
pub(super) const L_ROWS: usize = L_STARTS + limits::ROWS as usize + 1;
pub(super) const U_STARTS: usize = L_ROWS + limits::TRI_ENTRIES as usize;
pub(super) const U_ROWS: usize = U_STARTS + limits::ROWS as usize + 1;
pub(super) const U_COEFFS: usize = limits::TRI_ENTRIES as usize;
pub(super) const DIAG: usize = 4 * U_COEFFS;

/// A cell, and what is written there; a double by its bits.
pub(super) type Poke = (Lent, usize, u64);

/// None where the state has no cell for it.
type Pokes = Option<Vec<Poke>>;

#[derive(Clone, Copy)]
pub(super) struct Cause {
    pub(super) name: &'static str,
    pub(super) pokes: fn(&mut Rng, &State) -> Pokes,
}

const fn cause(name: &'static str, pokes: fn(&mut Rng, &State) -> Pokes) -> Cause {
    Cause { name, pokes }
}

/// In the order of docs/RULES-02.md; the last sixteen ask for a factor.
pub(super) const CAUSES: [Cause; 42] = [
    cause("the status", |rng, _| {
        one(Lent::Counts, 4, rng.pick(&[1, 20, 24, 99]))
    }),
    cause("the count of kept rows", |rng, state| {
        let count = far(rng, state.kept.len() + 1);
        one(Lent::Counts, 0, count)
    }),
    cause("a kept row's number", |rng, state| {
        let row = below(rng, state.kept.len())?;
        let number = far(rng, state.kept[row] + 1);
        one(Lent::Kept, row, number)
    }),
    cause("a basic variable too large", |rng, state| {
        let var = far(rng, total(state));
        one(Lent::Basic, below(rng, state.basic.len())?, var)
    }),
    cause("a basic variable mapped elsewhere", |rng, state| {
        let row = below(rng, state.basic.len())?;
        one(Lent::Basic, row, another(state.basic[row], total(state))?)
    }),
    cause("a non-basic variable too large", |rng, state| {
        let var = far(rng, total(state));
        one(Lent::Nonbasic, below(rng, state.nonbasic.len())?, var)
    }),
    cause("a non-basic variable mapped elsewhere", |rng, state| {
        let place = below(rng, state.nonbasic.len())?;
        let var = another(state.nonbasic[place], total(state))?;
        one(Lent::Nonbasic, place, var)
    }),
    cause("a place too large", |rng, state| {
        let place = far(rng, total(state));
        one(Lent::Where, below(rng, total(state))?, place)
    }),
    cause("a place of another variable", |rng, state| {
        let place = below(rng, total(state))?;
        let vars = state.nonbasic.iter().chain(&state.basic);
        let var = *vars.clone().nth(place)?;
        one(Lent::Where, var, another(place, total(state))?)
    }),
    cause("flags", |rng, state| {
        let cell = rng.pick(&[4, 5, 6, 8, 255, u64::MAX]);
        one(Lent::Flags, below(rng, state.flags.len())?, cell)
    }),
    cause("the count of eta columns", |rng, _| {
        let count = far(rng, limits::ETA_COLUMNS as usize + 1);
        one(Lent::Counts, 1, count)
    }),
    cause("the first start", |rng, _| {
        let start = far(rng, 1);
        one(Lent::Etaptr, 0, start)
    }),
    cause("a falling start", |rng, state| {
        let start = far(rng, state.etaidx.len() + 1);
        let between = below(rng, state.etarow.len().checked_sub(1)?)?;
        one(Lent::Etaptr, between + 1, start)
    }),
    cause("the last start", |rng, state| {
        let start = far(rng, state.etaidx.len() + 1);
        let etas = state.etarow.len();
        (etas > 0).then_some(vec![(Lent::Etaptr, etas, start)])
    }),
    cause("the count of eta entries", |rng, state| {
        let count = [state.etaidx.len() as u64 + 1, limits::ETA_ENTRIES];
        one(Lent::Counts, 2, rng.pick(&count))
    }),
    // Both cells agree.
    cause("too many eta entries", |rng, state| {
        let count = far(rng, limits::ETA_ENTRIES as usize + 1);
        let etas = state.etarow.len();
        let both = vec![(Lent::Etaptr, etas, count), (Lent::Counts, 2, count)];
        (etas > 0).then_some(both)
    }),
    cause("a leaving row", |rng, state| {
        let row = far(rng, state.kept.len());
        one(Lent::Etarow, below(rng, state.etarow.len())?, row)
    }),
    cause("an eta entry's row", |rng, state| {
        let row = far(rng, state.kept.len());
        one(Lent::Etaidx, below(rng, state.etaidx.len())?, row)
    }),
    cause("a basic value", |rng, state| {
        odd(rng, Lent::Bval, 0, state.bval.len())
    }),
    cause("a non-basic value", |rng, state| {
        odd(rng, Lent::Nval, 0, state.nval.len())
    }),
    cause("a price", |rng, state| {
        odd(rng, Lent::Price, 0, state.price.len())
    }),
    cause("a norm", |rng, state| {
        odd(rng, Lent::Norm, 0, state.norm.len())
    }),
    cause("a dual norm", |rng, state| {
        odd(rng, Lent::Dnorm, 0, state.dnorm.len())
    }),
    cause("an eta entry's number", |rng, state| {
        odd(rng, Lent::Etaval, 0, state.etaval.len())
    }),
    cause("the objective", |rng, _| odd(rng, Lent::Obj, 0, 1)),
    cause("the factor cell", |rng, _| {
        let cell = far(rng, 2);
        one(Lent::Counts, 5, cell)
    }),
    cause("a pivot too large", |rng, state| {
        let rows = factor(state)?.pivots.len();
        let row = far(rng, rows);
        one(Lent::FactorNumbers, below(rng, rows)?, row)
    }),
    cause("a repeated pivot", |rng, state| {
        let pivots = &factor(state)?.pivots;
        let number = below(rng, pivots.len().checked_sub(1)?)?;
        one(Lent::FactorNumbers, number, pivots[number + 1] as u64)
    }),
    cause("the pivots' inverse", |rng, state| {
        let pivots = &factor(state)?.pivots;
        let number = below(rng, pivots.len())?;
        let other = another(number, pivots.len() + 1)?;
        one(Lent::FactorNumbers, INVERSE + pivots[number], other)
    }),
    cause("L's first start", |rng, state| {
        starts(rng, L_STARTS, &factor(state)?.lptr, Start::First)
    }),
    cause("L's falling start", |rng, state| {
        starts(rng, L_STARTS, &factor(state)?.lptr, Start::Between)
    }),
    cause("L's last start", |rng, state| {
        starts(rng, L_STARTS, &factor(state)?.lptr, Start::Last)
    }),
    cause("U's first start", |rng, state| {
        starts(rng, U_STARTS, &factor(state)?.uptr, Start::First)
    }),
    cause("U's falling start", |rng, state| {
        starts(rng, U_STARTS, &factor(state)?.uptr, Start::Between)
    }),
    cause("U's last start", |rng, state| {
        starts(rng, U_STARTS, &factor(state)?.uptr, Start::Last)
    }),
    cause("L's row not above", |rng, state| {
        let (at, column) = entry(rng, &factor(state)?.lptr)?;
        let row = rng.below(column + 1) as u64;
        one(Lent::FactorNumbers, L_ROWS + at, row)
    }),
    cause("L's row too large", |rng, state| {
        let (at, _) = entry(rng, &factor(state)?.lptr)?;
        let row = far(rng, state.kept.len());
        one(Lent::FactorNumbers, L_ROWS + at, row)
    }),
    cause("U's row not below", |rng, state| {
        let (at, column) = entry(rng, &factor(state)?.uptr)?;
        let row = far(rng, column);
        one(Lent::FactorNumbers, U_ROWS + at, row)
    }),
    cause("L's number", |rng, state| {
        odd(rng, Lent::FactorCoeffs, 0, factor(state)?.lidx.len())
    }),
    cause("U's number", |rng, state| {
        let entries = factor(state)?.uidx.len();
        odd(rng, Lent::FactorCoeffs, U_COEFFS, entries)
    }),
    cause("a small number of the diagonal", |rng, state| {
        let number: f64 = rng.pick(&[0.999e-8, -0.0, 0.0, -1e-300]);
        let row = below(rng, factor(state)?.udiag.len())?;
        one(Lent::FactorCoeffs, DIAG + row, number.to_bits())
    }),
    cause("a number of the diagonal", |rng, state| {
        odd(rng, Lent::FactorCoeffs, DIAG, factor(state)?.udiag.len())
    }),
];

fn factor(state: &State) -> Option<&Factor> {
    state.factor.as_ref()
}

fn total(state: &State) -> usize {
    state.nonbasic.len() + state.basic.len()
}

fn below(rng: &mut Rng, n: usize) -> Option<usize> {
    (n > 0).then(|| rng.below(n))
}

/// At least so much.
fn far(rng: &mut Rng, least: usize) -> u64 {
    rng.pick(&[least as u64, least as u64, 1 << 63, u64::MAX])
}

/// Another of so many.
fn another(number: usize, of: usize) -> Option<u64> {
    (of > 1).then(|| ((number + 1) % of) as u64)
}

fn one(lent: Lent, index: usize, bits: u64) -> Pokes {
    Some(vec![(lent, index, bits)])
}

/// One of the cells from there on becomes a number that isn't finite.
fn odd(rng: &mut Rng, lent: Lent, first: usize, cells: usize) -> Pokes {
    let number = rng.pick(&[f64::NAN, f64::INFINITY, f64::NEG_INFINITY]);
    one(lent, first + below(rng, cells)?, number.to_bits())
}

enum Start {
    First,
    Between,
    Last,
}

/// Of a triangle whose starts stand at `at`.
fn starts(rng: &mut Rng, at: usize, ptr: &[usize], which: Start) -> Pokes {
    let rows = ptr.len() - 1;
    let (index, least) = match which {
        Start::First => (0, 1),
        Start::Between => (1 + below(rng, rows.checked_sub(1)?)?, ptr[rows] + 1),
        Start::Last => ((rows > 0).then_some(rows)?, U_COEFFS + 1),
    };
    let start = far(rng, least);
    one(Lent::FactorNumbers, at + index, start)
}

/// An entry's number and its column.
fn entry(rng: &mut Rng, ptr: &[usize]) -> Option<(usize, usize)> {
    let at = below(rng, *ptr.last()?)?;
    let column = ptr.iter().filter(|&&start| start <= at).count() - 1;
    Some((at, column))
}

/// The cause by the cell that was written last before a 41, over this state.
pub(super) fn named(state: &State, (lent, index, bits): Poke) -> &'static str {
    let (rows, etas) = (state.kept.len(), state.etarow.len());
    let is_far = |least: usize| bits >= least as u64;
    match (lent, index) {
        (Lent::Counts, 0) => "the count of kept rows",
        (Lent::Counts, 1) => "the count of eta columns",
        (Lent::Counts, 2) if bits > limits::ETA_ENTRIES => "too many eta entries",
        (Lent::Counts, 2) => "the count of eta entries",
        (Lent::Counts, 4) => "the status",
        (Lent::Counts, 5) => "the factor cell",
        (Lent::Kept, _) => "a kept row's number",
        (Lent::Basic, _) if is_far(total(state)) => "a basic variable too large",
        (Lent::Basic, _) => "a basic variable mapped elsewhere",
        (Lent::Nonbasic, _) if is_far(total(state)) => "a non-basic variable too large",
        (Lent::Nonbasic, _) => "a non-basic variable mapped elsewhere",
        (Lent::Where, _) if is_far(total(state)) => "a place too large",
        (Lent::Where, _) => "a place of another variable",
        (Lent::Flags, _) => "flags",
        (Lent::Etaptr, 0) => "the first start",
        (Lent::Etaptr, _) if index == etas => "the last start",
        (Lent::Etaptr, _) => "a falling start",
        (Lent::Etarow, _) => "a leaving row",
        (Lent::Etaidx, _) => "an eta entry's row",
        (Lent::Bval, _) => "a basic value",
        (Lent::Nval, _) => "a non-basic value",
        (Lent::Price, _) => "a price",
        (Lent::Norm, _) => "a norm",
        (Lent::Dnorm, _) => "a dual norm",
        (Lent::Etaval, _) => "an eta entry's number",
        (Lent::Obj, _) => "the objective",
        (Lent::FactorNumbers, _) => of_factor_numbers(rows, index, bits),
        (Lent::FactorCoeffs, DIAG..) if f64::from_bits(bits).is_finite() => {
            "a small number of the diagonal"
        }
        (Lent::FactorCoeffs, DIAG..) => "a number of the diagonal",
        (Lent::FactorCoeffs, U_COEFFS..) => "U's number",
        (Lent::FactorCoeffs, _) => "L's number",
        _ => "nothing",
    }
}

fn of_factor_numbers(rows: usize, index: usize, bits: u64) -> &'static str {
    match index {
        0..INVERSE if bits >= rows as u64 => "a pivot too large",
        0..INVERSE => "a repeated pivot",
        INVERSE..L_STARTS => "the pivots' inverse",
        L_STARTS..L_ROWS if index == L_STARTS => "L's first start",
        L_STARTS..L_ROWS if index == L_STARTS + rows => "L's last start",
        L_STARTS..L_ROWS => "L's falling start",
        L_ROWS..U_STARTS if bits >= rows as u64 => "L's row too large",
        L_ROWS..U_STARTS => "L's row not above",
        U_STARTS..U_ROWS if index == U_STARTS => "U's first start",
        U_STARTS..U_ROWS if index == U_STARTS + rows => "U's last start",
        U_STARTS..U_ROWS => "U's falling start",
        U_ROWS.. => "U's row not below",
    }
}
