//! Nights that are refused, that stop after their first stage, or whose second stage hands nothing out.

use oracle::limits;
use oracle::rng::Rng;
use oracle_sheet::reference::{self, within, GE, LE};

use super::{between, calm, of, plain, stretches, thirds, uneven_later, usual, Draft, Family};
use crate::nights::reference::{Audit, Memory, Night, Told, COST, FIRST};
use crate::nights::status;

const ROWS: usize = limits::ROWS as usize;
const ENTRIES: usize = limits::ENTRIES as usize;
/// The largest alarm cost of a night that goes on, and the largest amount.
const ALARM: i64 = reference::COEF as i64;
const MOST: i64 = reference::AMOUNT as i64;

/// In size over the solver's limit.
fn wild(rng: &mut Rng) -> i64 {
    let over = limits::NUMBER as i64 + 1;
    let size = match rng.below(4) {
        0 => over,
        1 => i64::MAX,
        2 => return i64::MIN,
        _ => over + rng.below(1 << 50) as i64,
    };
    turned(rng, size)
}

/// Of either sign.
fn turned(rng: &mut Rng, number: i64) -> i64 {
    if rng.one_in(2) {
        -number
    } else {
        number
    }
}

/// Over one limit and within another.
fn over(rng: &mut Rng, limit: i128, far: i64) -> i64 {
    let next = limit as i64 + 1;
    match rng.below(3) {
        0 => next,
        1 => far,
        _ => between(rng, next, far),
    }
}

/// A column of no use, which stays at 0: with a cost above 0 at its least, or under 0 at its most.
fn idle(draft: &mut Draft, lower: i64, upper: i64) -> usize {
    let cost = if lower == 0 { 1 } else { -1 };
    draft.column(cost, cost, Some(lower), Some(upper))
}

// ---- refused by the solver, or not solved

/// 1.
fn sizes(rng: &mut Rng) -> Night {
    let cause = rng.below(4);
    let mut draft = plain(rng);
    match cause {
        0 => draft.budget = rng.pick(&[limits::BUDGET as usize + 1, 20_000, usize::MAX]),
        1 => {
            draft = Draft::new();
            for _ in 0..rng.between(70, 128) {
                draft.column(-1, -1, Some(0), Some(9));
            }
            while draft
                .rows
                .iter()
                .map(|row| row.entries.len())
                .sum::<usize>()
                <= ENTRIES
            {
                let entries = (0..draft.columns()).map(|j| (j, 1)).collect();
                draft.row(entries, LE, 100);
            }
        }
        _ => {}
    }
    let mut night = draft.night("sizes", rng);
    let size = match rng.below(4) {
        0 => u64::MAX,
        1 => 1 << 32,
        _ => rng.between(0, 300) as u64,
    };
    match cause {
        2 => night.plan.rows = size.max(limits::ROWS + 1),
        3 => night.plan.columns = size.max(limits::COLUMNS + 1),
        _ => {}
    }
    night
}

/// 2.
fn numbers(rng: &mut Rng) -> Night {
    let mut draft = plain(rng);
    idle(&mut draft, 0, 5);
    let mut night = draft.night("numbers", rng);
    let plan = &mut night.plan;
    let (j, i) = (
        rng.below(plan.columns as usize),
        rng.below(plan.rows as usize),
    );
    match rng.below(7) {
        0 => plan.cost[j] = wild(rng),
        1 => plan.lower[j] = wild(rng),
        2 => plan.upper[j] = wild(rng),
        3 => plan.coef[i * plan.columns as usize + j] = wild(rng),
        4 => plan.rhs[i] = wild(rng),
        5 => plan.ops[i] = rng.between(3, 255) as u8,
        _ => {
            night.tolerance = rng.pick(&[
                f64::NAN,
                -0.5,
                1.5,
                f64::INFINITY,
                -f64::INFINITY,
                1.0 + f64::EPSILON,
            ]);
        }
    }
    night
}

/// 4.
fn crossed(rng: &mut Rng) -> Draft {
    let mut draft = plain(rng);
    let lower = between(rng, -50, 50);
    draft.column(0, 0, Some(lower), Some(lower - between(rng, 1, 9)));
    draft
}

/// 5, and rows that are dropped.
fn empty_row(rng: &mut Rng) -> Draft {
    let mut draft = dropped(rng);
    let (op, rhs) = rng.pick(&[(LE, -1), (GE, 1), (1, 1), (1, -1)]);
    draft.row(vec![], op, rhs);
    draft
}

fn dropped(rng: &mut Rng) -> Draft {
    let mut draft = usual(rng);
    for _ in 0..rng.between(1, 3) {
        let (op, rhs) = rng.pick(&[(LE, 0), (LE, 5), (GE, 0), (GE, -5), (1, 0)]);
        draft.row(vec![], op, rhs);
        let (from, to) = (draft.rows.len() - 1, rng.below(draft.rows.len()));
        draft.rows.swap(from, to);
    }
    draft
}

/// 7: a row that isn't kept at the start, and a column without a most that wants more.
fn start(rng: &mut Rng) -> Draft {
    let mut draft = plain(rng);
    let most = between(rng, 10, 90);
    let more = draft.column(-1, 0, Some(0), None);
    draft.row(vec![(more, 1)], LE, most);
    let least = draft.column(0, 0, Some(0), Some(most));
    draft.row(vec![(least, 1)], GE, between(rng, 1, most));
    draft
}

/// 20.
fn unbounded(rng: &mut Rng) -> Draft {
    let mut draft = calm(rng);
    draft.column(-between(rng, 1, 9), 0, Some(0), None);
    draft
}

/// 21, of either stage.
fn spent(rng: &mut Rng) -> Draft {
    let (mut draft, budget) = match rng.below(3) {
        0 => (thirds(rng), 3),
        1 => (stretches(rng), 150),
        _ => (usual(rng), 9),
    };
    draft.budget = rng.between(0, budget);
    draft
}

/// 24: no excess is allowed.
fn rejected(rng: &mut Rng) -> Draft {
    let mut draft = uneven_later(rng);
    for alarm in &mut draft.alarms {
        *alarm = -between(rng, 1, 9);
    }
    draft.tolerance = 0.0;
    draft
}

fn rejected_later(rng: &mut Rng) -> Draft {
    let mut draft = uneven_later(rng);
    draft.tolerance = 0.0;
    draft
}

/// 26.
fn infeasible(rng: &mut Rng) -> Draft {
    let mut draft = plain(rng);
    let most = between(rng, 1, 90);
    let column = draft.column(0, 0, Some(0), Some(most));
    draft.row(vec![(column, 1)], GE, most + between(rng, 1, 9));
    draft
}

// ---- the audit

/// A cost for one of the stages, and 0 for the other.
fn costing(rng: &mut Rng, draft: &mut Draft, cost: i64, upper: Option<i64>) -> usize {
    if rng.one_in(2) {
        draft.column(cost, 0, Some(0), upper)
    } else {
        draft.column(0, cost, Some(0), upper)
    }
}

/// An amount, or a multiplier, that the sheet can't have.
fn beyond(rng: &mut Rng) -> Draft {
    let mut draft = calm(rng);
    if rng.one_in(2) {
        let column = costing(rng, &mut draft, -1, None);
        draft.row(vec![(column, 1)], LE, between(rng, MOST + 1, 900_000));
    } else {
        let cost = -between(rng, 1_025, 4_000);
        let column = costing(rng, &mut draft, cost, None);
        draft.row(vec![(column, 1)], LE, between(rng, 1, 500));
    }
    draft
}

/// 12 at opening: a number over the sheet's limit and within the solver's, an unknown mark, an absent bound's number.
fn unopened(rng: &mut Rng) -> Night {
    let mut draft = plain(rng);
    let cause = rng.below(8);
    let bound = over(rng, reference::BOUND, 900_000);
    let column = match cause {
        0 => idle(&mut draft, 0, bound),
        1 => idle(&mut draft, -bound, 0),
        2 | 3 => idle(&mut draft, -5, 0),
        _ => idle(&mut draft, 0, 5),
    };
    match cause {
        4 => draft.rows[0]
            .entries
            .push((column, over(rng, reference::COEF, 1 << 30))),
        5 => draft.alarms[column] = over(rng, reference::COST, 1 << 39),
        6 => {
            let rhs = over(rng, reference::RHS, 1 << 39);
            draft.row(vec![(column, 1)], LE, rhs);
        }
        _ => {}
    }
    let mut night = draft.night("unopened", rng);
    match cause {
        2 => night.plan.haslow[column] = rng.between(2, 255) as u8,
        3 => night.plan.haslow[column] = 0,
        7 => night.plan.hasup[column] = rng.pick(&[0, 2, 3, 255]),
        _ => {}
    }
    night
}

/// The same for a report cost, or 2 where even the solver doesn't take it.
fn unopened_later(rng: &mut Rng) -> Draft {
    let mut draft = plain(rng);
    let column = idle(&mut draft, 0, 5);
    draft.reports[column] = if rng.one_in(2) {
        over(rng, reference::COST, limits::NUMBER as i64)
    } else {
        wild(rng)
    };
    draft
}

// ---- stops after the first stage

/// Rows that no plan comes near.
fn put_rows(draft: &mut Draft, rng: &mut Rng, rows: usize) {
    while draft.rows.len() < rows {
        let column = rng.below(draft.columns());
        draft.row(vec![(column, 1)], LE, between(rng, 70_000, 900_000));
    }
}

/// Entries of rows that no plan comes near, until there are so many with the alarm costs.
fn put_entries(draft: &mut Draft, entries: usize) {
    let costs = draft.alarms.iter().filter(|&&cost| cost != 0).count();
    let placed: usize = draft.rows.iter().map(|row| row.entries.len()).sum();
    let mut left = entries.saturating_sub(costs + placed);
    while left > 0 {
        let count = left.min(draft.columns());
        draft.row((0..count).map(|j| (j, 1)).collect(), LE, 1 << 31);
        left -= count;
    }
}

/// An alarm cost of this size at a bound that no row comes near.
fn put_cost(draft: &mut Draft, rng: &mut Rng, size: i64) {
    let most = between(rng, 1, 900);
    if rng.one_in(2) {
        draft.column(-size, -between(rng, 0, 9), Some(0), Some(most));
    } else {
        draft.column(size, -between(rng, 0, 9), Some(0), Some(most));
    }
}

/// Alarms that cost so many times 2^28 together, all of one sign.
fn put_found(draft: &mut Draft, rng: &mut Rng, times: usize) {
    let fixed = rng.one_in(2);
    for _ in 0..times {
        let (alarm, lower) = if fixed { (ALARM, MOST) } else { (-ALARM, 0) };
        draft.column(alarm, -1, Some(lower), Some(MOST));
    }
}

/// Many columns, so that rows can have many entries.
fn wide(rng: &mut Rng) -> Draft {
    let mut draft = plain(rng);
    for _ in draft.columns()..rng.between(60, 100) {
        let alarm = -between(rng, 0, 4);
        draft.column(
            alarm,
            -between(rng, 0, 4),
            Some(0),
            Some(between(rng, 1, 20)),
        );
    }
    draft
}

/// One of the four stops, and sometimes later ones too.
fn stopped(rng: &mut Rng) -> Draft {
    let stop = rng.between(2, 5);
    let later = |rng: &mut Rng, which: usize| which == stop || (which > stop && rng.one_in(3));
    let mut draft = wide(rng);
    if later(rng, 5) {
        let times = rng.between(9, 20);
        put_found(&mut draft, rng, times);
    }
    if later(rng, 4) {
        for _ in 0..rng.between(1, 3) {
            let size = over(rng, reference::COEF, 1 << 20);
            put_cost(&mut draft, rng, size);
        }
    }
    if later(rng, 3) {
        let entries = rng.between(ENTRIES + 1, ENTRIES + 52);
        put_entries(&mut draft, entries);
    }
    if later(rng, 2) {
        put_rows(&mut draft, rng, ROWS);
    }
    draft
}

/// As near to a stop as a night can be that goes on.
fn edge(rng: &mut Rng) -> Draft {
    let mut draft = if rng.one_in(2) { plain(rng) } else { wide(rng) };
    match rng.below(4) {
        0 => put_rows(&mut draft, rng, ROWS - 1),
        1 => {
            draft = wide(rng);
            put_entries(&mut draft, ENTRIES);
        }
        2 => {
            for _ in 0..rng.between(1, 3) {
                put_cost(&mut draft, rng, ALARM);
            }
        }
        _ => {
            draft = Draft::new();
            put_found(&mut draft, rng, 8);
        }
    }
    draft
}

// ---- the second stage

/// 7 of the second stage: soil reports without a most, while the alarms' row starts outside.
fn start_later(rng: &mut Rng) -> Draft {
    let mut draft = plain(rng);
    let most = between(rng, 10, 400);
    draft.column(-between(rng, 1, 8), 0, Some(0), Some(most));
    let soil = draft.column(0, -between(rng, 1, 9), Some(0), None);
    draft.row(vec![(soil, 1)], LE, between(rng, 10, 900));
    draft
}

/// 20 of the second stage.
fn unbounded_later(rng: &mut Rng) -> Draft {
    let mut draft = calm(rng);
    draft.column(0, -between(rng, 1, 9), Some(0), None);
    draft
}

/// No columns, or no rows, or neither.
fn empty(rng: &mut Rng) -> Draft {
    let mut draft = plain(rng);
    match rng.below(3) {
        0 => draft.rows.clear(),
        1 => draft = Draft::new(),
        _ => {
            draft = Draft::new();
            for _ in 0..rng.between(1, 4) {
                draft.row(vec![], LE, between(rng, -1, 5));
            }
        }
    }
    draft
}

pub(super) const FAMILIES: [Family; 19] = [
    ("sizes", 110, sizes),
    ("numbers", 140, numbers),
    ("crossed", 35, |rng| of(rng, "crossed", crossed)),
    ("empty row", 35, |rng| of(rng, "empty row", empty_row)),
    ("dropped", 60, |rng| of(rng, "dropped", dropped)),
    ("start", 45, |rng| of(rng, "start", start)),
    ("unbounded", 35, |rng| of(rng, "unbounded", unbounded)),
    ("spent", 180, |rng| of(rng, "spent", spent)),
    ("rejected", 150, |rng| of(rng, "rejected", rejected)),
    ("rejected later", 90, |rng| {
        of(rng, "rejected later", rejected_later)
    }),
    ("infeasible", 45, |rng| of(rng, "infeasible", infeasible)),
    ("beyond", 150, |rng| of(rng, "beyond", beyond)),
    ("unopened", 130, unopened),
    ("unopened later", 90, |rng| {
        of(rng, "unopened later", unopened_later)
    }),
    ("stopped", 320, |rng| of(rng, "stopped", stopped)),
    ("edge", 120, |rng| of(rng, "edge", edge)),
    ("start later", 70, |rng| of(rng, "start later", start_later)),
    ("unbounded later", 40, |rng| {
        of(rng, "unbounded later", unbounded_later)
    }),
    ("empty", 45, |rng| of(rng, "empty", empty)),
];

// ---- what is counted

pub(super) const WANTED: [(&str, u64); 30] = [
    ("no gap: 1 for the rows", 15),
    ("no gap: 1 for the columns", 15),
    ("no gap: 1 for the entries", 15),
    ("no gap: 1 for the budget", 15),
    ("no gap: 2 for the tolerance", 10),
    ("no gap: 2 for a comparison", 10),
    ("no gap: 2 for an alarm cost", 10),
    ("no gap: 2 for a bound", 10),
    ("no gap: 2 for a coefficient", 10),
    ("no gap: 2 for a right side", 10),
    ("no gap: 12 for a coefficient", 10),
    ("no gap: 12 for an alarm cost", 10),
    ("no gap: 12 for a bound", 20),
    ("no gap: 12 for a right side", 10),
    ("no gap: 12 for a mark", 15),
    ("no gap: 12 for an absent bound's number", 10),
    ("rows full, and later lines apply too", 10),
    ("entries full, and later lines apply too", 10),
    ("cost beyond, and later lines apply too", 10),
    ("an alarm cost beyond after one that isn't", 30),
    ("95 rows, and it goes on", 15),
    ("2,048 entries, and it goes on", 15),
    ("alarm costs of 4,096 in size, and it goes on", 15),
    ("a found cost of 2^31 in size, and it goes on", 15),
    ("nights of 0 columns", 15),
    ("nights of 0 rows", 10),
    ("nights with a dropped row that hand amounts out", 40),
    ("nights of 100 columns or more", 20),
    ("nights of 60 rows or more", 40),
    ("second stages with an alarms' row of no entries", 20),
];

fn over_any(cells: &[i64], limit: i128) -> bool {
    cells.iter().any(|&cell| !within(cell.into(), limit))
}

/// The causes of a 2.
fn wild_causes(night: &Night) -> Vec<&'static str> {
    let plan = &night.plan;
    let limit = limits::NUMBER as i128;
    let causes = [
        ("the tolerance", !(0.0..=1.0).contains(&night.tolerance)),
        ("a comparison", plan.ops.iter().any(|&op| op > 2)),
        ("an alarm cost", over_any(&plan.cost, limit)),
        (
            "a bound",
            over_any(&plan.lower, limit) || over_any(&plan.upper, limit),
        ),
        ("a coefficient", over_any(&plan.coef, limit)),
        ("a right side", over_any(&plan.rhs, limit)),
    ];
    let causes = causes.into_iter().filter(|(_, is)| *is);
    causes.map(|(name, _)| name).collect()
}

/// The causes of a 12.
fn unopened_causes(night: &Night) -> Vec<&'static str> {
    let plan = &night.plan;
    let bounds = [(&plan.haslow, &plan.lower), (&plan.hasup, &plan.upper)];
    let pairs = || {
        bounds
            .iter()
            .flat_map(|(marks, cells)| marks.iter().zip(*cells))
    };
    let causes = [
        ("a coefficient", over_any(&plan.coef, reference::COEF)),
        ("an alarm cost", over_any(&plan.cost, reference::COST)),
        (
            "a bound",
            pairs().any(|(&mark, &cell)| mark == 1 && !within(cell.into(), reference::BOUND)),
        ),
        ("a right side", over_any(&plan.rhs, reference::RHS)),
        ("a mark", pairs().any(|(&mark, _)| mark > 1)),
        (
            "an absent bound's number",
            pairs().any(|(&mark, &cell)| mark == 0 && cell != 0),
        ),
    ];
    let causes = causes.into_iter().filter(|(_, is)| *is);
    causes.map(|(name, _)| name).collect()
}

pub(super) fn count(night: &Night, told: &Told, memory: &Memory, reach: &mut dyn FnMut(String)) {
    let plan = &night.plan;
    let Some(first) = &told.first else { return };
    match (&first.audit, status(first)) {
        (Audit::NotRun, 1) => {
            let cause = match () {
                () if plan.rows > limits::ROWS => "the rows",
                () if plan.columns > limits::COLUMNS => "the columns",
                () if night.budget as u64 > limits::BUDGET => "the budget",
                () => "the entries",
            };
            reach(format!("no gap: 1 for {cause}"));
            return;
        }
        (Audit::NotRun, 2) => {
            for cause in wild_causes(night) {
                reach(format!("no gap: 2 for {cause}"));
            }
        }
        (Audit::NotOpened(12), _) => {
            for cause in unopened_causes(night) {
                reach(format!("no gap: 12 for {cause}"));
            }
        }
        _ => {}
    }
    let kind = ["", "no gap", "rows full", "entries full", "cost beyond"];
    if let (Some(kind), true) = (kind.get(told.kind), told.stops.len() > 1) {
        reach(format!("{kind}, and later lines apply too"));
    }
    if told.kind == 4 && plan.cost[..told.column].iter().any(|&cost| cost != 0) {
        reach("an alarm cost beyond after one that isn't".into());
    }
    let sizes = [
        ("nights of 0 columns", plan.columns == 0),
        ("nights of 0 rows", plan.rows == 0),
        ("nights of 100 columns or more", plan.columns >= 100),
        ("nights of 60 rows or more", plan.rows >= 60),
    ];
    for (name, _) in sizes.into_iter().filter(|(_, is)| *is) {
        reach(name.into());
    }
    let Some(second) = told.solved.get(1) else {
        return;
    };
    let alarms = plan.cost.iter().filter(|&&cost| cost != 0).count();
    let found = memory.whole[FIRST + COST];
    let starts = &second.starts;
    let edges = [
        ("95 rows, and it goes on", plan.rows + 1 == limits::ROWS),
        (
            "2,048 entries, and it goes on",
            second.entries == limits::ENTRIES,
        ),
        (
            "alarm costs of 4,096 in size, and it goes on",
            plan.cost.iter().any(|&cost| cost.abs() == ALARM),
        ),
        (
            "a found cost of 2^31 in size, and it goes on",
            i128::from(found).abs() == reference::RHS,
        ),
        (
            "second stages with an alarms' row of no entries",
            alarms == 0,
        ),
        (
            "nights with a dropped row that hand amounts out",
            told.kind == 7
                && starts[..starts.len() - 1]
                    .windows(2)
                    .any(|row| row[0] == row[1]),
        ),
    ];
    for (name, _) in edges.into_iter().filter(|(_, is)| *is) {
        reach(name.into());
    }
}
