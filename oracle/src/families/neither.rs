//! Plans that are solved from any start: those whose start is neither feasible nor dual feasible, so that
//! a run with costs 0 comes first, and some of the other families, which are answered directly. All ours.

use super::dual::{entries, far_apart, mixed, point, sparsity, SIZES};
use super::{dual_growth, growth, make, random_column, Draft, Sink, EQ, GE, INF, LE};
use crate::answer::{Answer, Named, Outcome, Way};
use crate::gate;
use crate::limits;
use crate::plan::Plan;
use crate::rng::Rng;
use crate::shown::Options;

fn any(draft: &Draft) -> Plan {
    Plan {
        any: true,
        ..draft.plan()
    }
}

/// Puts out so many drafts whose answer has another way than the direct one, and is as wanted.
fn search(
    count: usize,
    sink: &mut Sink,
    mut make: impl FnMut() -> Draft,
    wanted: impl Fn(&Answer) -> bool,
) {
    let (mut found, mut tried) = (0, 0);
    while found < count {
        let plan = any(&make());
        let answer = gate::solve(&plan, Options::default());
        if !is_by(&answer, Way::Direct) && wanted(&answer) {
            sink.plan(plan);
            found += 1;
        }
        tried += 1;
        assert!(tried < 200_000, "neither: {} of {}", found, count);
    }
}

fn is_by(answer: &Answer, way: Way) -> bool {
    answer.way.is_some_and(|(taken, _)| taken == way)
}

fn ends(answer: &Answer, way: Way, number: u8) -> bool {
    is_by(answer, way) && answer.outcome.number() == number
}

/// A column with which the start isn't dual feasible: its cost prefers a side without a bound.
fn preferring(draft: &mut Draft, rng: &mut Rng) {
    let cost = rng.between(1, 9) as f64;
    let bound = rng.whole(4);
    match rng.below(5) {
        0 | 1 => draft.column(-cost, 0.0, INF),
        2 => draft.column(-cost, bound, INF),
        3 => draft.column(cost, -INF, bound),
        _ => draft.column(rng.pick(&[cost, -cost]), -INF, INF),
    }
}

/// Columns of every kind, and rows that a point within the bounds keeps; or, `apart`, rows that are drawn
/// with no regard to it.
fn around(rng: &mut Rng, rows: usize, columns: usize, ops: &[u64], apart: bool) -> Draft {
    let mut draft = Draft::new();
    for column in 0..columns {
        if column == 0 || rng.one_in(3) {
            preferring(&mut draft, rng);
        } else {
            random_column(&mut draft, rng);
        }
    }
    let point = point(&draft, rng);
    let sparse = sparsity(rng, rows, columns);
    for _ in 0..rows {
        let entries = entries(&draft, rng, sparse, &mut |rng| {
            rng.pick(&[1.0, 1.0, 1.0, -1.0]) * rng.between(1, 5) as f64
        });
        let op = rng.pick(ops);
        let room = rng.below(6) as f64;
        let sum: f64 = entries.iter().map(|&(col, coef)| coef * point[col]).sum();
        let rhs = match op {
            _ if apart => draft.rhs_for(&entries, rng.whole(12)),
            LE => sum + room,
            GE => sum - room,
            _ => sum,
        };
        draft.row(entries, op, rhs);
    }
    draft.tolerance = rng.pick(&[0.0, 1e-9, 1e-6, 1e-6, 1.0]);
    draft
}

/// The last row bounds the columns together, so that fewer plans are without end.
fn held(rng: &mut Rng, rows: usize, columns: usize) -> Draft {
    let mut draft = around(rng, rows.max(2) - 1, columns, &[LE, GE, GE, EQ], false);
    for (lower, upper) in draft.lower.iter_mut().zip(&draft.upper) {
        if *lower == -INF && rng.below(4) < 3 {
            *lower = upper.min(0.0) - rng.between(10, 40) as f64;
        }
    }
    if rows > 1 {
        let all = (0..columns).map(|col| (col, 1.0)).collect();
        draft.row(all, LE, 40.0 * columns as f64);
    }
    draft.tolerance = rng.pick(&[1e-9, 1e-6, 1.0]);
    draft
}

/// Numbers that have no short form in twos, and a tolerance that a rounding may exceed.
fn rounded(rng: &mut Rng) -> Draft {
    let (rows, columns) = (rng.between(2, 7), rng.between(2, 8));
    let mut draft = held(rng, rows, columns);
    for row in &mut draft.rows {
        for (_, coef) in &mut row.entries {
            if rng.one_in(3) {
                *coef += rng.pick(&[0.1, 0.3, 0.7]);
            }
        }
    }
    draft.tolerance = rng.pick(&[0.0, 0.0, 1e-16, 1e-15, 1e-14]);
    draft
}

/// A slack that starts outside by about EPS, and all others inside: with costs 0 there may be no step.
fn just_outside(rng: &mut Rng) -> Draft {
    let mut draft = Draft::new();
    let columns = rng.between(1, 5);
    preferring(&mut draft, rng);
    for _ in 1..columns {
        random_column(&mut draft, rng);
    }
    for _ in 0..rng.between(0, 4) {
        let entries = entries(&draft, rng, 2, &mut |rng| rng.between(1, 5) as f64);
        let slack = rng.below(20) as f64;
        draft.row_inside(entries, rng.pick(&[LE, LE, GE]), slack);
    }
    let past = rng.pick(&[5e-324, 1e-9, 9e-9, 1e-8, 1.0000001e-8, 2e-8, 1e-7]);
    let op = rng.pick(&[LE, GE, EQ]);
    let entries = entries(&draft, rng, 2, &mut |rng| rng.whole(3));
    let rhs = draft.rhs_for(&entries, if op == LE { -past } else { past });
    draft.row(entries, op, rhs);
    draft.tolerance = rng.pick(&[0.0, 1e-8, 1e-6, 1.0]);
    draft
}

/// Equal rows and columns, right sides and costs of few sizes.
fn tied(rng: &mut Rng) -> Draft {
    let mut draft = Draft::new();
    let columns = rng.between(1, 7);
    for _ in 0..columns {
        let cost = rng.pick(&[-1.0, -1.0, 0.0, -0.0, 1.0]);
        draft.column(cost, rng.pick(&[0.0, 0.0, -INF]), rng.pick(&[INF, 1.0]));
    }
    for _ in 0..rng.between(2, 8) {
        if !draft.rows.is_empty() && rng.one_in(3) {
            let row = draft.rows[rng.below(draft.rows.len())].clone();
            draft.rows.push(row);
            continue;
        }
        let coefs = [1.0, 1.0, 1.0, -1.0, 2.0, 0.0];
        let entries = entries(&draft, rng, 2, &mut |rng| rng.pick(&coefs));
        let (op, rhs) = rng.pick(&[(GE, 1.0), (EQ, 1.0), (LE, -1.0), (LE, 2.0), (LE, 2.0)]);
        draft.row(entries, op, rhs);
    }
    draft
}

/// Rows and columns of sizes far apart, so that a basis that the steps take has no factor.
fn nearly_singular(rng: &mut Rng) -> Draft {
    let mut draft = Draft::new();
    let (rows, columns) = (rng.between(2, 3), rng.between(2, 4));
    preferring(&mut draft, rng);
    for _ in 1..columns {
        draft.column(rng.whole(5), 0.0, INF);
    }
    for _ in 0..rows {
        let size = rng.pick(&[1.0, 1e-3, 1e-7]);
        let entries = entries(&draft, rng, 1, &mut |rng| {
            size * rng.pick(&[1.0, 1.0, -1.0]) * (1.0 + 0.2 * rng.unit())
        });
        draft.row(entries, rng.pick(&[GE, GE, EQ]), size);
    }
    draft
}

/// The same with many rows, so that the run with costs 0 fills the eta store, and may find no factor itself.
fn far_apart_without_bounds(rng: &mut Rng) -> Draft {
    let mut draft = Draft::new();
    let mut of_column = vec![];
    for _ in 0..limits::COLUMNS {
        of_column.push(rng.pick(&[1.0, 1e-3]));
        draft.column(-1.0, 0.0, INF);
    }
    for _ in 0..90 {
        let size = rng.pick(&[1.0, 1e-7]);
        let mut entries = entries(&draft, rng, 7, &mut |rng| 0.3 + 4.7 * rng.unit());
        for (col, coef) in &mut entries {
            *coef *= size * of_column[*col];
        }
        draft.row(entries, GE, size * rng.between(1, 90) as f64);
    }
    draft
}

/// A plan whose dual steps end in 23 with costs 0 too, and a column that the start isn't dual feasible
/// with, in no row.
fn growing(rng: &mut Rng, named: Named) -> Draft {
    let mut draft = dual_growth::draft(rng, named);
    draft.cost.fill(0.0);
    preferring(&mut draft, rng);
    draft
}

/// A plan whose primal steps end in 23, and a row that starts outside, with a column of its own.
fn growing_after(rng: &mut Rng) -> Draft {
    let place = rng.pick(&growth::PLACES);
    let mut draft = growth::draft(rng, place);
    let row = draft.empty_row(GE);
    draft.rows[row].rhs = 1.0;
    draft.column_in(0.0, INF, &[(row, 1.0)]);
    draft
}

pub(super) fn neither(rng: &mut Rng, sink: &mut Sink) {
    for (rows, columns) in SIZES {
        let count = if rows < 32 { 40 } else { 6 };
        let all = |_: &Answer| true;
        search(count, sink, || held(rng, rows, columns), all);
        let ops = [LE, GE, GE, EQ];
        search(count, sink, || around(rng, rows, columns, &ops, true), all);
    }
    let small = |rng: &mut Rng| (rng.between(1, 8), rng.between(1, 8));
    for (count, way, number) in [
        (900, Way::Repriced, 0),
        (400, Way::Repriced, 20),
        (400, Way::Halted, 26),
    ] {
        let draw = || {
            let (rows, columns) = small(rng);
            let apart = number == 26 && rng.one_in(2);
            match number {
                0 => held(rng, rows, columns),
                _ => around(rng, rows, columns, &[LE, GE, GE, EQ], apart),
            }
        };
        search(count, sink, draw, |answer| ends(answer, way, number));
    }
    search(300, sink, || tied(rng), |_| true);
    stopped(rng, sink);
}

/// The ends that are rarer: 21, 23, 24 and 25 by either way.
fn stopped(rng: &mut Rng, sink: &mut Sink) {
    for way in [Way::Halted, Way::Repriced] {
        let draw = || {
            let (rows, columns) = (rng.between(2, 8), rng.between(2, 8));
            Draft {
                budget: rng.below(5) as u64,
                ..held(rng, rows, columns)
            }
        };
        search(150, sink, draw, |answer| ends(answer, way, 21));
        search(60, sink, || rounded(rng), |answer| ends(answer, way, 24));
        let named = [Named::Norm, Named::DualNorm, Named::Basic, Named::Tau];
        let draw = || match way {
            Way::Halted => {
                let named = rng.pick(&named);
                growing(rng, named)
            }
            _ => growing_after(rng),
        };
        search(40, sink, draw, |answer| ends(answer, way, 23));
    }
    search(
        40,
        sink,
        || nearly_singular(rng),
        |answer| ends(answer, Way::Repriced, 25),
    );
    for way in [Way::Halted, Way::Repriced] {
        search(
            10,
            sink,
            || far_apart_without_bounds(rng),
            |answer| ends(answer, way, 25),
        );
    }
}

/// Plans of these families, one in so many.
const DIRECT: [(&str, usize); 13] = [
    ("plain", 40),
    ("ties", 40),
    ("dropped", 40),
    ("short", 20),
    ("number", 20),
    ("entry", 20),
    ("crossed", 20),
    ("empty", 20),
    ("unbounded", 20),
    ("spent", 20),
    ("strict", 20),
    ("outside", 10),
    ("huge", 20),
];

/// Plans of other families, asked for from any start; drafts with dual steps; and starts that are outside by
/// about EPS.
pub(super) fn from_any(rng: &mut Rng, sink: &mut Sink) {
    for (family, every) in DIRECT {
        let mut seen = 0;
        make(rng.next(), &|name| name == family, &mut |plan| {
            seen += 1;
            if seen % every == 0 {
                sink.plan(Plan { any: true, ..plan });
            }
        });
    }
    for _ in 0..200 {
        let (rows, columns) = (rng.between(1, 8), rng.between(1, 8));
        sink.plan(any(&mixed(rng, rows, columns)));
    }
    for index in 0..40 {
        let named = [Named::Norm, Named::DualNorm, Named::Row, Named::Price][index % 4];
        sink.plan(any(&dual_growth::draft(rng, named)));
    }
    search(200, sink, || just_outside(rng), |_| true);
    let mut found = 0;
    while found < 10 {
        let plan = any(&far_apart(rng));
        if gate::solve(&plan, Options::default()).outcome == Outcome::Singular {
            sink.plan(plan);
            found += 1;
        }
    }
}
