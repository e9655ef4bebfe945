//! Seeded lists of calls over plans, in families. All ours.
//!
//! A list is drawn call by call from the state that the calls before it left. The families whose name
//! begins with `reprice` have repricings among the calls; the others have fix, unfix and poke alone.

use std::ops::Range;

use crate::answer::{Answer, Outcome, State};
use crate::families;
use crate::gate::Session;
use crate::limits;
use crate::plan::{Call, Lent, Plan};
use crate::rng::Rng;
use crate::shown::Options;

mod damage;
mod reach;
mod reprices;

use damage::{Poke, CAUSES, DIAG, INVERSE, L_ROWS, L_STARTS, U_COEFFS, U_ROWS, U_STARTS};
pub use reach::{Fixed, Survey};
pub use reprices::solved_by;

/// How many plans of which family of plans are taken, and how their calls are drawn.
struct Family {
    name: &'static str,
    plans: &'static str,
    count: usize,
    draw: fn(&mut Rng, &mut List),
}

const FAMILIES: [Family; 36] = [
    family("call-plain", "plain", 900, few),
    family("call-ties", "ties", 300, few),
    family("call-dual", "dual", 900, few),
    family("call-free", "free", 300, few),
    family("call-dropped", "dropped", 200, few),
    family("call-still", "plain", 500, still),
    family("call-spent", "dual", 500, spent),
    family("call-small", "dual", 200, small),
    family("call-huge", "plain", 300, huge),
    family("call-factor", "plain", 500, with_factor),
    family("call-memory", "dual", 2_000, damaged),
    family("call-wrong", "plain", 600, wrong),
    family("call-full", "plain", 120, full),
    family("call-refused", "outside", 60, refused),
    family("call-short", "short", 60, refused),
    family("call-number", "number", 60, refused),
    family("call-entry", "entry", 60, refused),
    family("call-crossed", "crossed", 60, refused),
    family("call-empty", "empty", 60, refused),
    family("reprice-plain", "plain", 500, reprices::repriced),
    family("reprice-dual", "dual", 500, reprices::repriced),
    family("reprice-fixed", "plain", 300, reprices::after_fixes),
    family("reprice-turned", "dual", 400, reprices::turned),
    family("reprice-tiny", "plain", 300, reprices::tiny),
    family("reprice-huge", "plain", 900, reprices::huge),
    family("reprice-factor", "plain", 300, reprices::with_factor),
    family("reprice-memory", "dual", 700, reprices::damaged),
    family("reprice-basis", "plain", 200, reprices::another_basis),
    family("reprice-spent", "dual", 200, reprices::spent),
    family("reprice-refused", "damaged", 300, reprices::refused),
    family("reprice-entry", "entry", 60, reprices::refused),
    family("reprice-crossed", "crossed", 60, reprices::refused),
    family("reprice-empty", "empty", 60, reprices::refused),
    family("reprice-outside", "outside", 60, reprices::refused),
    family("reprice-any", "neither", 500, reprices::after_any),
    family("reprice-direct", "any", 300, reprices::after_any),
];

const fn family(
    name: &'static str,
    plans: &'static str,
    count: usize,
    draw: fn(&mut Rng, &mut List),
) -> Family {
    Family {
        name,
        plans,
        count,
        draw,
    }
}

/// So many causes of a 41 are tried in a list.
const DAMAGES: usize = 10;

/// Plans of these sizes are taken: the lists are long enough.
const MOST_ROWS: u64 = 12;

/// Makes all plans with their calls, family by family.
pub fn make(seed: u64, take: &mut dyn FnMut(Plan)) {
    for family in &FAMILIES {
        let mut rng = Rng::named(seed, family.name);
        let mut count = 0;
        families::make(seed, &|name| name == family.plans, &mut |plan| {
            if count == family.count || plan.columns == 0 || plan.rows > MOST_ROWS {
                return;
            }
            let mut list = List::new(plan);
            (family.draw)(&mut rng, &mut list);
            if list.plan.calls.is_empty() {
                return;
            }
            list.plan.id = format!("{}.{}", family.name, count);
            count += 1;
            take(list.plan);
        });
    }
}

/// A plan whose list of calls grows, and the state that they left.
struct List {
    plan: Plan,
    session: Session,
    state: Option<State>,
    /// The number of the run, or of the last call after it that wasn't refused.
    number: u8,
    /// Whether a call was answered 21.
    is_spent: bool,
    /// Whether a call took dual steps, and primal ones after them.
    is_both: bool,
}

impl List {
    /// The run and no call yet.
    fn new(plan: Plan) -> List {
        let mut session = Session::new(&plan, Options::default());
        let first = session.solve();
        List {
            plan,
            session,
            number: first.outcome.number(),
            state: first.state,
            is_spent: false,
            is_both: false,
        }
    }

    fn push(&mut self, call: Call) {
        if let Some(answer) = self.session.call(&call) {
            self.note(answer);
        }
        self.plan.calls.push(call);
    }

    /// A refused call changes nothing.
    fn note(&mut self, answer: Answer) {
        if let Some(state) = answer.state {
            self.number = answer.outcome.number();
            self.is_spent |= self.number == 21;
            self.is_both |= state.dual_steps > 0 && answer.steps > state.dual_steps;
            self.state = Some(state);
        }
    }

    fn poke(&mut self, lent: Lent, index: usize, bits: u64) {
        self.push(Call::Poke { lent, index, bits });
    }

    /// The maps name another basis: a variable of this state's for one that isn't in it.
    fn swap(&mut self, rng: &mut Rng, state: &State) {
        let (row, col) = (rng.below(state.kept.len()), rng.below(self.columns()));
        let (leaving, entering) = (state.basic[row], state.nonbasic[col]);
        self.poke(Lent::Basic, row, entering as u64);
        self.poke(Lent::Nonbasic, col, leaving as u64);
        self.poke(Lent::Where, entering, self.plan.columns + row as u64);
        self.poke(Lent::Where, leaving, col as u64);
    }

    fn is_optimal(&self) -> bool {
        self.state.is_some() && self.number == 0
    }

    /// The column's value, and its place where it is non-basic.
    fn value(&self, column: usize) -> (f64, Option<usize>) {
        let state = self.state.as_ref().expect("a run that had a start");
        let at = |vars: &[usize]| vars.iter().position(|&var| var == column);
        match (at(&state.nonbasic), at(&state.basic)) {
            (Some(place), _) => (state.nval[place], Some(place)),
            (None, row) => (state.bval[row.expect("every column has its place")], None),
        }
    }

    fn columns(&self) -> usize {
        self.plan.columns as usize
    }

    /// The columns whose place has the mark, or hasn't it.
    fn marked(&self, is_marked: bool) -> Vec<usize> {
        let state = self.state.as_ref().expect("a run that had a start");
        let mut marked = vec![];
        for column in 0..self.columns() {
            let mark = match self.value(column).1 {
                Some(place) => state.flags[place] == 7,
                None => false,
            };
            if mark == is_marked {
                marked.push(column);
            }
        }
        marked
    }

    fn basic_columns(&self) -> Vec<usize> {
        let all = 0..self.columns();
        all.filter(|&column| self.value(column).1.is_none())
            .collect()
    }
}

// ---- drawing calls

/// Values that the column may have.
fn range(list: &List, column: usize) -> (f64, f64) {
    let (lower, upper) = (list.plan.lower[column], list.plan.upper[column]);
    let (now, _) = list.value(column);
    let low = if lower.is_finite() { lower } else { now - 6.0 };
    let high = if upper.is_finite() { upper } else { now + 6.0 };
    (low, high)
}

/// A value to fix a column at.
fn value(rng: &mut Rng, list: &List, column: usize) -> f64 {
    let (now, _) = list.value(column);
    let (low, high) = range(list, column);
    match rng.below(12) {
        0 | 1 => now,
        2 => low,
        3 => high,
        4 => -0.0,
        5 => rng.pick(&[low - 1.0, high + 1.0, f64::NAN, f64::INFINITY]),
        6..=8 => low + (high - low) * rng.unit(),
        _ => (now + rng.whole(3)).clamp(low.min(high), high.max(low)),
    }
}

fn column(rng: &mut Rng, list: &List) -> usize {
    let basic = list.basic_columns();
    match rng.below(30) {
        0 => list.columns() + rng.below(3),
        1..=14 if !basic.is_empty() => rng.pick(&basic),
        _ => rng.below(list.columns()),
    }
}

fn fix(rng: &mut Rng, list: &mut List) {
    let column = column(rng, list);
    let value = if column < list.columns() {
        value(rng, list, column)
    } else {
        rng.pick(&[0.0, f64::NAN])
    };
    list.push(Call::Fix {
        column: column as u64,
        value,
    });
}

fn unfix(rng: &mut Rng, list: &mut List) {
    let marked = list.marked(true);
    let column = if marked.is_empty() || rng.one_in(6) {
        column(rng, list)
    } else {
        rng.pick(&marked)
    };
    list.push(Call::Unfix {
        column: column as u64,
    });
}

fn fix_or_unfix(rng: &mut Rng, list: &mut List) {
    if !list.marked(true).is_empty() && rng.below(5) < 2 || rng.one_in(12) {
        unfix(rng, list);
    } else {
        fix(rng, list);
    }
}

/// Up to so many calls, and one more after an end other than 0.
fn some(rng: &mut Rng, list: &mut List, most: usize) {
    let mut left = rng.between(2, most);
    while left > 0 && list.state.is_some() {
        fix_or_unfix(rng, list);
        left = match list.number {
            20..=26 => left.min(2) - 1,
            _ => left - 1,
        };
    }
}

fn few(rng: &mut Rng, list: &mut List) {
    if list.is_optimal() {
        some(rng, list, 7);
    }
}

/// Basic columns, each at the value that it has.
fn still(rng: &mut Rng, list: &mut List) {
    for _ in 0..3 {
        let basic = match list.is_optimal() {
            true => list.basic_columns(),
            false => vec![],
        };
        if basic.is_empty() {
            return;
        }
        let column = rng.pick(&basic);
        let (value, _) = list.value(column);
        list.push(Call::Fix {
            column: column as u64,
            value,
        });
    }
}

/// A budget that the run keeps, and a call of the list doesn't.
fn spent(rng: &mut Rng, list: &mut List) {
    let run = Session::new(&list.plan, Options::default()).solve();
    if run.outcome != Outcome::Optimal || run.steps > 3 {
        return;
    }
    let mut plan = list.plan.clone();
    plan.budget = run.steps;
    for _ in 0..4 {
        let mut tried = List::new(plan.clone());
        some(rng, &mut tried, 5);
        if tried.is_spent {
            *list = tried;
            return;
        }
    }
}

/// Columns whose coefficients are under EPS, with costs of about EPS: no dual step looks at them, and one
/// that takes a basic column out may leave them with a price that lets them enter.
fn small(rng: &mut Rng, list: &mut List) {
    if !list.is_optimal() || list.columns() < 2 {
        return;
    }
    let mut plan = list.plan.clone();
    for _ in 0..2 {
        let column = rng.below(list.columns());
        plan.cost[column] = 1e-8 * rng.below(6) as f64;
        plan.lower[column] = 0.0;
        plan.upper[column] = 1.0 + rng.below(9) as f64;
        for (coef, &col) in plan.coef.iter_mut().zip(&plan.cols) {
            if col == column as u64 {
                *coef = 1e-9 * rng.whole(9);
            }
        }
    }
    for _ in 0..4 {
        let mut tried = List::new(plan.clone());
        while tried.is_optimal() && tried.plan.calls.len() < 4 {
            let column = rng.below(tried.columns());
            let (low, high) = range(&tried, column);
            tried.push(Call::Fix {
                column: column as u64,
                value: low + (high - low) * rng.unit(),
            });
        }
        if tried.is_both {
            *list = tried;
            return;
        }
    }
}

/// Values so large that something overflows.
fn huge(rng: &mut Rng, list: &mut List) {
    let free: Vec<usize> = (0..list.columns())
        .filter(|&column| list.plan.upper[column] == f64::INFINITY)
        .collect();
    if list.is_optimal() && !free.is_empty() {
        let value = rng.pick(&[1e305, 1e300, f64::MAX, 1e160]);
        list.push(Call::Fix {
            column: rng.pick(&free) as u64,
            value,
        });
        some(rng, list, 3);
    }
}

/// A factor by pokes, of any numbers, so that calls over small plans run through one.
fn poke_factor(rng: &mut Rng, list: &mut List) {
    let rows = list.state.as_ref().map_or(0, |state| state.kept.len());
    let mut order: Vec<usize> = (0..rows).collect();
    for i in 1..rows {
        order.swap(i, rng.below(i + 1));
    }
    for (number, &row) in order.iter().enumerate() {
        list.poke(Lent::FactorNumbers, number, row as u64);
        list.poke(Lent::FactorNumbers, INVERSE + row, number as u64);
        let diag = rng.pick(&[1.0, -2.0, 0.5, 3.0f64]);
        list.poke(Lent::FactorCoeffs, DIAG + number, diag.to_bits());
    }
    poke_triangle(rng, list, [L_STARTS, L_ROWS, 0], rows, |col| col + 1..rows);
    poke_triangle(rng, list, [U_STARTS, U_ROWS, U_COEFFS], rows, |col| 0..col);
    list.poke(Lent::Counts, 5, 1);
}

/// A triangle at these places of its arrays, whose columns may have these rows.
fn poke_triangle(
    rng: &mut Rng,
    list: &mut List,
    [starts, places, coeffs]: [usize; 3],
    columns: usize,
    column: impl Fn(usize) -> Range<usize>,
) {
    let mut entries = 0;
    list.poke(Lent::FactorNumbers, starts, 0);
    for col in 0..columns {
        for row in column(col) {
            if rng.one_in(2) {
                let coeff = rng.pick(&[0.5, -0.25, 1.0f64]);
                list.poke(Lent::FactorNumbers, places + entries, row as u64);
                list.poke(Lent::FactorCoeffs, coeffs + entries, coeff.to_bits());
                entries += 1;
            }
        }
        list.poke(Lent::FactorNumbers, starts + col + 1, entries as u64);
    }
}

fn with_factor(rng: &mut Rng, list: &mut List) {
    if list.is_optimal() {
        poke_factor(rng, list);
        some(rng, list, 5);
    }
}

/// Cells that hold something else than the run left, and nothing that 41 looks for.
fn wrong(rng: &mut Rng, list: &mut List) {
    if !list.is_optimal() {
        return;
    }
    let state = list.state.clone().expect("a run that had a start");
    let (columns, rows) = (state.nonbasic.len(), state.kept.len());
    for _ in 0..rng.between(1, 3) {
        let number: f64 = rng.pick(&[0.0, -0.0, -5.0, 2.5, 1e-9, -1e9, 1e200]);
        let number = number.to_bits();
        match rng.below(9) {
            0 if rows > 0 => list.poke(Lent::Bval, rng.below(rows), number),
            1 => list.poke(Lent::Nval, rng.below(columns), number),
            2 | 3 => list.poke(Lent::Price, rng.below(columns), number),
            4 => list.poke(Lent::Norm, rng.below(columns), number),
            5 if rows > 0 => list.poke(Lent::Dnorm, rng.below(rows), number),
            6 => list.poke(Lent::Flags, rng.below(columns), rng.pick(&[0, 1, 2, 3, 7])),
            7 if !state.etaval.is_empty() => {
                list.poke(Lent::Etaval, rng.below(state.etaval.len()), number)
            }
            _ => list.poke(Lent::Counts, rng.pick(&[3, 6]), rng.below(1_000) as u64),
        }
    }
    some(rng, list, 4);
}

/// A store that is full, by columns without entries, so that the next exchange factors its basis; in
/// every other list the maps name another basis, which may have no factor.
fn full(rng: &mut Rng, list: &mut List) {
    let (state, basic) = match (&list.state, list.is_optimal()) {
        (Some(state), true) => (state.clone(), list.basic_columns()),
        _ => return,
    };
    if basic.is_empty() {
        return;
    }
    for eta in state.etarow.len()..limits::ETA_COLUMNS as usize {
        list.poke(Lent::Etarow, eta, 0);
        list.poke(Lent::Etaptr, eta + 1, state.etaidx.len() as u64);
    }
    list.poke(Lent::Counts, 1, limits::ETA_COLUMNS);
    if rng.one_in(4) {
        // The count of factorings may be any number, and goes on past the largest.
        list.poke(Lent::Counts, 6, u64::MAX);
    }
    if rng.one_in(2) {
        list.swap(rng, &state);
    }
    let column = rng.pick(&basic);
    let value = value(rng, list, column);
    list.push(Call::Fix {
        column: column as u64,
        value,
    });
    some(rng, list, 3);
}

fn damaged(rng: &mut Rng, list: &mut List) {
    damaged_by(rng, list, fix_or_unfix);
}

/// Causes of a 41, each mended after the call that is refused for it; then a call that isn't.
fn damaged_by(rng: &mut Rng, list: &mut List, call: fn(&mut Rng, &mut List)) {
    if !list.is_optimal() {
        return;
    }
    if rng.one_in(2) {
        fix(rng, list);
    }
    if !rng.one_in(6) {
        poke_factor(rng, list);
    }
    let Some(state) = list.session.left() else {
        list.plan.calls.clear();
        return;
    };
    for _ in 0..DAMAGES {
        let cause = rng.pick(&CAUSES);
        let Some(pokes) = (cause.pokes)(rng, &state) else {
            continue;
        };
        let cells = pokes.iter();
        let whole: Vec<Poke> = cells
            .map(|&(lent, index, _)| (lent, index, list.session.peek(lent, index)))
            .collect();
        for (lent, index, bits) in pokes {
            list.poke(lent, index, bits);
        }
        call(rng, list);
        for (lent, index, bits) in whole {
            list.poke(lent, index, bits);
        }
    }
    call(rng, list);
}

/// A plan that isn't run, and calls all the same.
fn refused(rng: &mut Rng, list: &mut List) {
    if list.state.is_none() {
        list.push(Call::Fix {
            column: rng.below(list.columns() + 1) as u64,
            value: rng.whole(2),
        });
        list.push(Call::Unfix { column: 0 });
    }
}
