//! Nights at the edge of the solver: numbers that grow past the largest double, bases that can't be factored, a row
//! that nothing mends.

use oracle::rng::Rng;
use oracle_sheet::reference::{EQ, LE};

use super::{between, calm, of, plain, Draft, Family};

/// Which costs a gadget is for: then the other stage leaves it at 0.
#[derive(Clone, Copy)]
enum Of {
    First,
    Second,
}

impl Draft {
    /// A column at 0 or above with a cost in one stage.
    fn priced(&mut self, of: Of, cost: i64, upper: Option<i64>) -> usize {
        match of {
            Of::First => self.column(cost, 0, Some(0), upper),
            Of::Second => self.column(0, cost, Some(0), upper),
        }
    }
}

/// A chain of rows, each with a column of its own that may be so many times the one before it. Only the last column has
/// a cost. When it enters, the price of the one before it becomes one that enters, so many times as large.
fn put_chain(draft: &mut Draft, of: Of, columns: usize, times: i64) {
    for k in 0..columns {
        let cost = if k + 1 == columns { -1 } else { 0 };
        let column = draft.priced(of, cost, None);
        let mut entries = vec![(column, 1)];
        if k > 0 {
            entries.insert(0, (column - 1, -times));
        }
        draft.row(entries, LE, 0);
    }
}

/// 23: the norms grow by the square.
fn grown_first(rng: &mut Rng) -> Draft {
    let mut draft = calm(rng);
    let columns = rng.between(15, 24);
    let times = 1 << rng.between(36, 39);
    put_chain(&mut draft, Of::First, columns, times);
    draft
}

/// The same with numbers of the sheet.
fn grown_second(rng: &mut Rng) -> Draft {
    let mut draft = calm(rng);
    let columns = rng.between(46, 60);
    put_chain(&mut draft, Of::Second, columns, between(rng, 3_900, 4_096));
    draft
}

/// Columns that stand in many rows, so that a run of many steps fills the eta store.
fn put_dense(draft: &mut Draft, rng: &mut Rng, of: Of, rows: usize, columns: usize) {
    let from = draft.columns();
    for _ in 0..columns {
        let upper = rng.pick(&[None, Some(50), Some(500)]);
        let cost = -between(rng, 1, 2_000);
        draft.priced(of, cost, upper);
    }
    let share = 1_900 / rows;
    for _ in 0..rows {
        let mut entries = vec![];
        for j in from..from + columns {
            if rng.below(columns) < share {
                let turned = draft.bounds[j].1.is_some() && rng.one_in(3);
                let coef = between(rng, 1, 900);
                entries.push((j, if turned { -coef } else { coef }));
            }
        }
        // It is kept at the start.
        let taken = entries
            .iter()
            .map(|(j, a)| a * draft.bounds[*j].1.unwrap_or(0));
        let rhs = taken.sum::<i64>().max(0) + between(rng, 10_000, 90_000);
        draft.row(entries, LE, rhs);
    }
}

fn dense(rng: &mut Rng, of: Of) -> Draft {
    let mut draft = Draft::new();
    let (rows, columns) = (rng.between(60, 80), rng.between(100, 120));
    put_dense(&mut draft, rng, of, rows, columns);
    draft
}

fn dense_first(rng: &mut Rng) -> Draft {
    dense(rng, Of::First)
}

fn dense_second(rng: &mut Rng) -> Draft {
    dense(rng, Of::Second)
}

/// Columns that each take a stretch of rows, some of which fill every row at their most. By their prices these are the
/// cheapest, but all want more: the first stage takes many steps, and the second starts where it has ended.
fn settled(rng: &mut Rng) -> Draft {
    let mut draft = Draft::new();
    let rows = rng.between(85, 95);
    let prices: Vec<i64> = (0..rows).map(|_| between(rng, 1, 20)).collect();
    let mut lines = vec![(vec![], 0); rows];
    for j in 0..rng.between(105, 124) {
        let length = rng.between(1, 26);
        let from = rng.below(rows - length + 1);
        let (fills, most) = (rng.one_in(3), between(rng, 10, 60));
        let price: i64 = prices[from..from + length].iter().sum();
        let more = between(rng, 0, 1);
        let (alarm, report) = if fills {
            (-price - more, -1)
        } else {
            (more - price, 1)
        };
        draft.column(alarm, report, Some(0), Some(most));
        for (entries, rhs) in &mut lines[from..from + length] {
            entries.push((j, 1));
            *rhs += if fills { most } else { 0 };
        }
    }
    for (entries, rhs) in lines {
        draft.row(entries, LE, rhs);
    }
    draft
}

/// Columns that enter with a pivot of 1 each, and which no factor takes together: it begins with the large entries, and
/// what is left for the last is under EPS. Of each column its cost, which falls so that none leaves again, and its
/// row's right side, which rises so that it enters there.
fn put_trap(draft: &mut Draft, of: Of, large: i64, columns: &[(i64, i64)]) {
    for (k, &(cost, rhs)) in columns.iter().enumerate() {
        let column = draft.priced(of, -cost, None);
        let mut entries = vec![(column, 1)];
        if k > 0 {
            entries.insert(0, (column - 1, large));
        }
        draft.row(entries, LE, rhs);
    }
}

/// 25.
fn singular_first(rng: &mut Rng) -> Draft {
    let mut draft = dense_first(rng);
    let last = (between(rng, 1, 9), 20_000_000_000);
    put_trap(
        &mut draft,
        Of::First,
        10_000_000_000,
        &[(1_000_000_000_000, 0), last],
    );
    draft
}

fn singular_second(rng: &mut Rng) -> Draft {
    let mut draft = dense_second(rng);
    let columns = [
        (1_000_000_000_000, 0),
        (200_000_000, 1),
        (40_000, 8_192),
        (between(rng, 1, 9), 67_108_864),
    ];
    put_trap(&mut draft, Of::Second, 4_096, &columns);
    draft
}

/// 26 though there is a plan: a column starts at its most, three others follow it, each some thousandth of the one
/// before, and what is then out of a row is more than EPS, its coefficient there far under EPS.
fn unmended_second(rng: &mut Rng) -> Draft {
    let mut draft = plain(rng);
    let most = between(rng, 20_000, 65_536);
    let mut before = draft.column(0, -between(rng, 1, 9), Some(0), Some(most));
    for _ in 0..3 {
        let upper = rng.pick(&[None, Some(65_536)]);
        let column = draft.column(0, 0, Some(0), upper);
        draft.row(
            vec![(before, -1), (column, between(rng, 3_600, 4_096))],
            EQ,
            0,
        );
        before = column;
    }
    draft.row(vec![(before, 1)], LE, 0);
    draft
}

pub(super) const FAMILIES: [Family; 8] = [
    ("grown first", 25, |rng| of(rng, "grown first", grown_first)),
    ("grown second", 25, |rng| {
        of(rng, "grown second", grown_second)
    }),
    ("dense first", 20, |rng| of(rng, "dense first", dense_first)),
    ("dense second", 20, |rng| {
        of(rng, "dense second", dense_second)
    }),
    ("settled", 30, |rng| of(rng, "settled", settled)),
    ("singular first", 40, |rng| {
        of(rng, "singular first", singular_first)
    }),
    ("singular second", 15, |rng| {
        of(rng, "singular second", singular_second)
    }),
    ("unmended", 30, |rng| of(rng, "unmended", unmended_second)),
];
