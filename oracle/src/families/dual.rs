//! Plans that begin with dual steps: a slack starts outside, and the start is dual feasible. All ours.

use super::{random_entries, search, Draft, Sink, EQ, GE, INF, LE};
use crate::answer::{Answer, Outcome, State};
use crate::limits;
use crate::rng::Rng;

/// Rows and columns, from the least to the limits.
pub(super) const SIZES: [(usize, usize); 12] = [
    (1, 1),
    (1, 4),
    (4, 1),
    (2, 2),
    (3, 5),
    (6, 8),
    (10, 20),
    (20, 12),
    (32, 48),
    (48, 100),
    (96, 30),
    (96, 128),
];

/// Entries for a row, at least one of them, within the limit for all rows together.
pub(super) fn entries(
    draft: &Draft,
    rng: &mut Rng,
    sparse: usize,
    coef: &mut dyn FnMut(&mut Rng) -> f64,
) -> Vec<(usize, f64)> {
    let columns = draft.columns();
    let mut entries = random_entries(columns, rng, sparse, coef);
    if entries.is_empty() {
        entries.push((rng.below(columns), coef(rng)));
    }
    entries.truncate((limits::ENTRIES as usize).saturating_sub(draft.entries()));
    entries
}

pub(super) fn sparsity(rng: &mut Rng, rows: usize, columns: usize) -> usize {
    let least = (rows * columns).div_ceil(limits::ENTRIES as usize - 200);
    rng.between(1, 3).max(least)
}

/// Costs above 0, and rows that ask for at least something of columns that start at 0.
fn covering(rng: &mut Rng, rows: usize, columns: usize) -> Draft {
    let mut draft = Draft::new();
    for _ in 0..columns {
        let upper = rng.pick(&[INF, INF, INF, 90.0]);
        draft.column(1.0 + 19.0 * rng.unit(), 0.0, upper);
    }
    let sparse = sparsity(rng, rows, columns);
    for _ in 0..rows {
        let entries = entries(&draft, rng, sparse, &mut |rng| 1.0 + 8.0 * rng.unit());
        draft.row(entries, GE, rng.between(1, 90) as f64);
    }
    draft
}

/// Columns worth having that start at their most, and rows that have no room for all of it.
fn packing(rng: &mut Rng, rows: usize, columns: usize) -> Draft {
    let mut draft = Draft::new();
    for _ in 0..columns {
        let upper = rng.between(1, 40) as f64;
        draft.column(-1.0 - 19.0 * rng.unit(), 0.0, upper);
    }
    let sparse = sparsity(rng, rows, columns);
    for _ in 0..rows {
        let entries = entries(&draft, rng, sparse, &mut |rng| 1.0 + 8.0 * rng.unit());
        let share = 0.1 + 0.8 * rng.unit();
        let rhs = share * draft.rhs_for(&entries, 0.0);
        draft.row(entries, LE, rhs);
    }
    draft
}

/// A column with which the start is dual feasible.
fn feasible_column(draft: &mut Draft, rng: &mut Rng) {
    let cost = rng.below(10) as f64;
    let low = rng.whole(4);
    match rng.below(9) {
        0..=3 => draft.column(cost, 0.0, INF),
        4 => draft.column(cost, low, low + rng.between(0, 9) as f64),
        5 | 6 => draft.column(-cost, low, low + rng.between(0, 9) as f64),
        7 => draft.column(-cost, -INF, low),
        _ => draft.column(rng.pick(&[0.0, -0.0]), -INF, INF),
    }
}

/// A point within the bounds.
pub(super) fn point(draft: &Draft, rng: &mut Rng) -> Vec<f64> {
    let mut point = vec![];
    for (&lower, &upper) in draft.lower.iter().zip(&draft.upper) {
        let low = if lower == -INF {
            upper.min(5.0) - 9.0
        } else {
            lower
        };
        let high = upper.min(low + 9.0);
        point.push(low + ((high - low) * rng.unit()).floor());
    }
    point
}

/// Rows of the given comparisons that a point keeps; or, `apart`, that are drawn with no regard to it.
fn through(rng: &mut Rng, rows: usize, columns: usize, ops: &[u64], apart: bool) -> Draft {
    let mut draft = Draft::new();
    for _ in 0..columns {
        feasible_column(&mut draft, rng);
    }
    let point = point(&draft, rng);
    let sparse = sparsity(rng, rows, columns);
    for _ in 0..rows {
        let entries = entries(&draft, rng, sparse, &mut |rng| {
            rng.pick(&[1.0, -1.0]) * rng.between(1, 5) as f64
        });
        let op = rng.pick(ops);
        let room = rng.below(6) as f64;
        let sum: f64 = entries
            .iter()
            .fold(0.0, |sum, &(col, coef)| sum + coef * point[col]);
        let rhs = match op {
            _ if apart => draft.rhs_for(&entries, rng.whole(12)),
            LE => sum + room,
            GE => sum - room,
            _ => sum,
        };
        draft.row(entries, op, rhs);
    }
    draft.tolerance = rng.pick(&[0.0, 1e-9, 1e-6, 1.0]);
    draft
}

pub(super) fn mixed(rng: &mut Rng, rows: usize, columns: usize) -> Draft {
    let apart = rng.one_in(3);
    through(rng, rows, columns, &[LE, GE, GE, EQ], apart)
}

/// A covering plan whose columns, most of them with a most, can't give what one row asks.
fn short_covering(rng: &mut Rng, rows: usize, columns: usize) -> Draft {
    let mut draft = covering(rng, rows, columns);
    let mut needs = vec![0.0; rows];
    for upper in &mut draft.upper {
        *upper = 5.0 + rng.below(90) as f64;
    }
    for (row, need) in draft.rows.iter_mut().zip(&mut needs) {
        *need = row
            .entries
            .iter()
            .map(|&(col, coef)| coef * draft.upper[col])
            .sum::<f64>();
        row.rhs = (0.05 + 0.5 * rng.unit()) * *need;
    }
    let row = rng.below(rows);
    draft.rows[row].rhs = (1.0 + 0.2 * rng.unit()) * needs[row];
    draft
}

/// Equal rows, equal columns, costs of 0 and equal right sides: ties of the leaving row and of the
/// entering column, and dual steps that leave the objective where it was.
fn tied(rng: &mut Rng) -> Draft {
    let mut draft = Draft::new();
    let columns = rng.between(1, 8);
    for _ in 0..columns {
        let cost = rng.pick(&[0.0, 0.0, -0.0, 1.0, 1.0, 2.0]);
        draft.column(cost, 0.0, rng.pick(&[INF, INF, 1.0, 3.0]));
    }
    for _ in 0..rng.between(2, 8) {
        if !draft.rows.is_empty() && rng.one_in(3) {
            let row = draft.rows[rng.below(draft.rows.len())].clone();
            draft.rows.push(row);
            continue;
        }
        let coefs = [1.0, 1.0, 1.0, -1.0, 2.0, 0.0];
        let entries = entries(&draft, rng, 2, &mut |rng| rng.pick(&coefs));
        let (op, rhs) = rng.pick(&[(GE, 1.0), (GE, 1.0), (EQ, 1.0), (LE, -1.0), (LE, 2.0)]);
        draft.row(entries, op, rhs);
    }
    draft
}

/// Prices of about EPS: the relaxed first pass lets some of them get a wrong sign, which later steps
/// enlarge, so that primal steps come after the dual ones.
fn faint(rng: &mut Rng) -> Draft {
    let mut draft = Draft::new();
    let columns = rng.between(2, 8);
    for _ in 0..columns {
        let cost = rng.pick(&[0.0, 1e-9, 5e-9, 9e-9, 1e-8, 2e-8, 1e-7]) * (1.0 + rng.unit());
        draft.column(cost, 0.0, rng.pick(&[INF, INF, 40.0]));
    }
    for _ in 0..rng.between(2, 8) {
        let entries = entries(&draft, rng, 2, &mut |rng| {
            rng.pick(&[1.0, 1.0, -1.0]) * rng.pick(&[0.1, 1.0, 3.0, 40.0]) * (1.0 + rng.unit())
        });
        let rhs = rng.between(1, 30) as f64;
        draft.row(entries, rng.pick(&[GE, GE, LE]), rhs);
    }
    draft
}

/// A covering plan with a column of cost 0 whose coefficients are under EPS. No dual step looks at it,
/// and its price gets a wrong sign; then it enters, and no row stops it.
fn thin(rng: &mut Rng) -> Draft {
    let (rows, columns) = (rng.between(1, 5), rng.between(1, 6));
    let mut draft = covering(rng, rows, columns);
    for cost in &mut draft.cost {
        *cost *= rng.pick(&[1.0, 30.0, 1e3]);
    }
    draft.column(0.0, 0.0, rng.pick(&[INF, 5.0, 1e6, 1e9]));
    for row in &mut draft.rows {
        if rng.one_in(2) {
            row.entries.push((columns, rng.sized(-31, -28)));
        }
    }
    draft
}

/// A slack that starts outside by about EPS.
fn just_outside(rng: &mut Rng) -> Draft {
    let mut draft = through(rng, 3, 4, &[LE, GE, EQ], false);
    let entries = entries(&draft, rng, 2, &mut |rng| rng.whole(3));
    let past = rng.pick(&[5e-324, 1e-9, 9e-9, 1e-8, 1.0000001e-8, 2e-8, 1e-7]);
    let op = rng.pick(&[LE, GE, EQ]);
    let rhs = draft.rhs_for(&entries, if op == LE { -past } else { past });
    draft.row(entries, op, rhs);
    draft
}

/// A dense covering plan whose rows and columns have sizes far apart: a pivot is well over EPS in its
/// step, and what is left of it in a factor may not be.
pub(super) fn far_apart(rng: &mut Rng) -> Draft {
    let sizes = [1.0, 1e-3, 1e-6];
    let (rows, columns) = (rng.between(40, 56), limits::COLUMNS as usize);
    let mut draft = Draft::new();
    let mut of_column = vec![];
    for _ in 0..columns {
        let size = rng.pick(&sizes);
        of_column.push(size);
        let upper = if rng.one_in(6) {
            rng.between(3, 12) as f64 / size
        } else {
            INF
        };
        draft.column(size * (5.0 + 4.0 * rng.unit()), 0.0, upper);
    }
    for _ in 0..rows {
        let size = rng.pick(&sizes);
        let mut entries = entries(&draft, rng, 6, &mut |rng| 0.3 + 4.7 * rng.unit());
        for (col, coef) in &mut entries {
            *coef *= size * of_column[*col];
        }
        draft.row(entries, GE, size * rng.between(1, 90) as f64);
    }
    draft
}

fn state(answer: &Answer) -> &State {
    answer.state.as_ref().expect("a run has a state")
}

fn is_infeasible(answer: &Answer) -> bool {
    matches!(answer.outcome, Outcome::Infeasible { .. })
}

/// Primal steps after dual ones; the step that a run stops in counts.
pub fn of_both_kinds(answer: &Answer) -> bool {
    let Some(state) = &answer.state else {
        return false;
    };
    let stopped = matches!(
        answer.outcome,
        Outcome::Unbounded | Outcome::Spent | Outcome::NotFinite { .. } | Outcome::Singular
    );
    let primal = answer.steps > state.dual_steps || stopped && !state.in_dual;
    state.dual_steps > 0 && primal
}

pub(super) fn dual(rng: &mut Rng, sink: &mut Sink) {
    let kinds = [covering, packing, mixed, short_covering];
    for (rows, columns) in SIZES {
        let count = if rows < 32 { 40 } else { 6 };
        for index in 0..kinds.len() * count {
            sink.draft(&kinds[index % kinds.len()](rng, rows, columns));
        }
    }
    for _ in 0..900 {
        let (rows, columns) = (rng.between(1, 8), rng.between(1, 8));
        sink.draft(&mixed(rng, rows, columns));
    }
    for _ in 0..500 {
        let (rows, columns) = (rng.between(1, 6), rng.between(2, 9));
        sink.draft(&through(rng, rows, columns, &[EQ], false));
    }
    for _ in 0..800 {
        sink.draft(&tied(rng));
    }
    for _ in 0..300 {
        sink.draft(&just_outside(rng));
    }
    spent(rng, sink);
    infeasible(rng, sink);
    both_kinds(rng, sink);
    factored(rng, sink);
}

/// Budgets that some runs spend in their dual steps.
fn spent(rng: &mut Rng, sink: &mut Sink) {
    for index in 0..600 {
        let (rows, columns) = (rng.between(2, 8), rng.between(2, 8));
        let mut draft = match index % 3 {
            0 => covering(rng, rows, columns),
            1 => packing(rng, rows, columns),
            _ => mixed(rng, rows, columns),
        };
        draft.budget = rng.below(6) as u64;
        sink.draft(&draft);
    }
}

/// 26 at once, after one step, after some and after many.
fn infeasible(rng: &mut Rng, sink: &mut Sink) {
    for steps in [0, 1, 2] {
        search(
            150,
            sink,
            || {
                let (rows, columns) = (rng.between(1, 7), rng.between(1, 7));
                mixed(rng, rows, columns)
            },
            |answer| is_infeasible(answer) && answer.steps == steps,
        );
    }
    for (count, rows, least) in [(250, 10, 3), (100, 32, 20), (20, 96, 60)] {
        search(
            count,
            sink,
            || short_covering(rng, rows, rows + rows / 3),
            |answer| is_infeasible(answer) && answer.steps >= least,
        );
    }
}

type Draw = fn(&mut Rng) -> Draft;

/// Primal steps after dual ones, to each answer that is found.
fn both_kinds(rng: &mut Rng, sink: &mut Sink) {
    for _ in 0..400 {
        sink.draft(&faint(rng));
    }
    for _ in 0..200 {
        sink.draft(&thin(rng));
    }
    let drafts: [(usize, u8, Draw); 4] = [
        (150, 0, faint),
        (40, 0, thin),
        (40, 20, thin),
        (40, 24, thin),
    ];
    for (count, number, make) in drafts {
        search(
            count,
            sink,
            || make(rng),
            |answer| of_both_kinds(answer) && answer.outcome.number() == number,
        );
    }
    search(
        30,
        sink,
        || Draft {
            budget: rng.between(1, 4) as u64,
            ..faint(rng)
        },
        |answer| of_both_kinds(answer) && answer.outcome == Outcome::Spent,
    );
}

/// Runs that fill the eta store in their dual steps, 25 in one of them.
fn factored(rng: &mut Rng, sink: &mut Sink) {
    for index in 0..60 {
        let draft = match index % 3 {
            0 => covering(rng, 96, 128),
            1 => packing(rng, 96, 128),
            _ => short_covering(rng, 96, 120),
        };
        sink.draft(&draft);
    }
    for _ in 0..40 {
        sink.draft(&far_apart(rng));
    }
    search(
        40,
        sink,
        || far_apart(rng),
        |answer| answer.outcome == Outcome::Singular && state(answer).in_dual,
    );
}
