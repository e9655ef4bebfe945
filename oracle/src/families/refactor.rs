//! Plans whose runs fill the eta store, so that the basis is factored. All ours.

use super::{factorings, random_entries, search, Draft, Sink, GE, INF, LE};
use crate::answer::{Answer, Outcome};
use crate::limits;
use crate::rng::Rng;

/// A cube in the manner of Klee and Minty: column k + 1 lies between a multiple of column k and what the
/// same multiple leaves of a growing right side. With most of these numbers the rule goes to nearly all
/// corners, to some of them twice.
pub(super) fn cube(rng: &mut Rng, columns: usize) -> Draft {
    let mut draft = Draft::new();
    let ratio = 1.1 + 0.3 * rng.unit();
    for col in 0..columns {
        let cost = (col + 1..columns).fold(-0.1, |cost, _| cost * ratio);
        draft.column(cost, 0.0, INF);
    }
    let entry = rng.pick(&[0.001, 0.005, 0.1, 1.0 / 1024.0]);
    let multiple = entry * rng.pick(&[3.0, 4.0, 5.0]);
    let growth = rng.pick(&[8.0, 12.0, 16.0, 20.0, 30.0]);
    let mut rhs = entry * rng.pick(&[10.0, 12.0, 20.0, 30.0]);
    draft.row(vec![(0, entry)], LE, entry);
    for col in 1..columns {
        draft.row(vec![(col - 1, -multiple), (col, entry)], GE, 0.0);
        draft.row(vec![(col - 1, multiple), (col, entry)], LE, rhs);
        rhs *= growth;
    }
    draft
}

/// Two rows with a pivot over EPS each in a simplex step, whose columns no factor takes together: z enters
/// in the first row with a small entry, y in the second. The factor begins with z's large entry in the
/// second row, and what is left of y in the first is under EPS.
fn put_trap(draft: &mut Draft, rng: &mut Rng) {
    let (x, y, z) = (draft.columns(), draft.columns() + 1, draft.columns() + 2);
    for cost in [rng.pick(&[-10.0, -1_000.0]), -0.1, -10_000.0] {
        draft.column(cost, 0.0, INF);
    }
    let (pivot, small) = (1e-5 * (1.0 + rng.unit()), 2e-7 * (1.0 + rng.unit()));
    let large = rng.pick(&[0.001, 0.01, 0.1]) * (1.0 + rng.unit());
    let rows = [
        (vec![(x, pivot), (z, small)], rng.pick(&[0.0, 1e-9])),
        (vec![(y, pivot), (z, large)], rng.pick(&[1.0, 10.0])),
    ];
    for (entries, rhs) in rows {
        let row = super::Row {
            entries,
            op: LE,
            rhs,
        };
        let at = rng.below(draft.rows.len() + 1);
        draft.rows.insert(at, row);
    }
}

/// 128 columns, of which one in `sparse` stands in a row. Only a column with a most gives room back.
fn dense(rng: &mut Rng, rows: usize, sparse: usize) -> Draft {
    let mut draft = Draft::new();
    for _ in 0..limits::COLUMNS {
        let upper = rng.pick(&[INF, 50.0, 500.0]);
        draft.column(-1.0 - 19.0 * rng.unit(), 0.0, upper);
    }
    for _ in 0..rows {
        let coef = &mut |rng: &mut Rng| 1.0 + 8.0 * rng.unit();
        let mut entries = random_entries(draft.columns(), rng, sparse, coef);
        for (col, coef) in &mut entries {
            if draft.upper[*col] < INF && rng.one_in(3) {
                *coef = -*coef;
            }
        }
        entries.truncate((limits::ENTRIES as usize).saturating_sub(draft.entries()));
        let slack = 100.0 + 800.0 * rng.unit();
        draft.row_inside(entries, LE, slack);
    }
    draft
}

pub(super) fn refactor(rng: &mut Rng, sink: &mut Sink) {
    search(60, sink, || cube(rng, 9), |answer| factorings(answer) == 2);
    search(
        30,
        sink,
        || cube(rng, 11),
        |answer| answer.outcome == Outcome::Optimal && factorings(answer) >= 10,
    );
    // 25: cubes with a trap, and cubes so long that their own columns are near singular.
    let trapped = || {
        let mut draft = cube(rng, 8);
        put_trap(&mut draft, rng);
        draft
    };
    let singular = |answer: &Answer| answer.outcome == Outcome::Singular;
    search(140, sink, trapped, singular);
    search(
        10,
        sink,
        || cube(rng, 13),
        |answer| singular(answer) && factorings(answer) > 1,
    );
    for index in 0..60 {
        let mut draft = cube(rng, 8);
        match index % 3 {
            // Traps as they come.
            0 => put_trap(&mut draft, rng),
            // A budget spent around the first factoring.
            1 => draft.budget = 256 + index / 3 % 5,
            // Nothing stops a column whose score is the least: 20 with a factor.
            _ => draft.column(-2e-8, 0.0, INF),
        }
        sink.draft(&draft);
    }
    for (count, rows, sparse) in [(60, 64, 10), (60, 64, 5), (40, 96, 8), (40, 96, 6)] {
        for _ in 0..count {
            let draft = dense(rng, rows, sparse);
            sink.draft(&draft);
        }
    }
}
