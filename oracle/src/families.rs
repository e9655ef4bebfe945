//! Seeded plans in families. Each family is aimed at some of the answers; `survey` counts what
//! they reach. All ours.

use crate::answer::{Answer, Outcome, Rejected};
use crate::gate;
use crate::limits;
use crate::plan::{Lent, Plan};
use crate::rng::Rng;
use crate::shown::Options;

mod dual;
mod dual_growth;
mod growth;
mod neither;
mod refactor;

use dual::dual;
pub use dual::of_both_kinds;
pub use dual_growth::DUAL_PLACES;
use growth::{Cascade, Within};
use neither::{from_any, neither};
use refactor::{cube, refactor};

const INF: f64 = f64::INFINITY;
const MAX: f64 = f64::MAX;

/// A plan being made: rows as lists, sizes and starts follow from them.
#[derive(Clone, Default)]
pub struct Draft {
    pub cost: Vec<f64>,
    pub lower: Vec<f64>,
    pub upper: Vec<f64>,
    pub rows: Vec<Row>,
    pub budget: u64,
    pub tolerance: f64,
}

#[derive(Clone, Default)]
pub struct Row {
    pub entries: Vec<(usize, f64)>,
    pub op: u64,
    pub rhs: f64,
}

const LE: u64 = 0;
const EQ: u64 = 1;
const GE: u64 = 2;

impl Draft {
    fn new() -> Draft {
        Draft {
            budget: limits::BUDGET,
            tolerance: 1e-6,
            ..Draft::default()
        }
    }

    fn column(&mut self, cost: f64, lower: f64, upper: f64) {
        self.cost.push(cost);
        self.lower.push(lower);
        self.upper.push(upper);
    }

    fn row(&mut self, entries: Vec<(usize, f64)>, op: u64, rhs: f64) {
        self.rows.push(Row { entries, op, rhs });
    }

    fn empty_row(&mut self, op: u64) -> usize {
        self.row(vec![], op, 0.0);
        self.rows.len() - 1
    }

    /// A column that starts at 0.0, put into rows that are there. Columns rise in every row.
    fn column_in(&mut self, cost: f64, upper: f64, entries: &[(usize, f64)]) {
        for &(row, coef) in entries {
            let col = self.columns();
            self.rows[row].entries.push((col, coef));
        }
        self.column(cost, 0.0, upper);
    }

    fn columns(&self) -> usize {
        self.cost.len()
    }

    fn entries(&self) -> usize {
        self.rows.iter().map(|row| row.entries.len()).sum()
    }

    /// Where a column starts, by document 01.
    fn start(&self, column: usize) -> f64 {
        let (cost, lower, upper) = (self.cost[column], self.lower[column], self.upper[column]);
        if lower == -INF && upper == INF {
            0.0
        } else if upper == INF || (lower != -INF && cost >= 0.0) {
            lower
        } else {
            upper
        }
    }

    /// A right side that leaves the row's slack at the given value, up to rounding.
    fn rhs_for(&self, entries: &[(usize, f64)], slack: f64) -> f64 {
        let mut sum = 0.0;
        for &(col, coef) in entries {
            sum += coef * self.start(col);
        }
        sum + slack
    }

    /// A row whose slack starts inside its bounds, `slack` (not below 0.0) from the finite one.
    fn row_inside(&mut self, entries: Vec<(usize, f64)>, op: u64, slack: f64) {
        let rhs = match op {
            LE => self.rhs_for(&entries, slack),
            EQ => self.rhs_for(&entries, 0.0),
            _ => self.rhs_for(&entries, -slack),
        };
        self.row(entries, op, rhs);
    }

    pub fn plan(&self) -> Plan {
        let mut plan = Plan {
            columns: self.cost.len() as u64,
            rows: self.rows.len() as u64,
            entries: self.entries() as u64,
            budget: self.budget,
            tolerance: self.tolerance,
            cost: self.cost.clone(),
            lower: self.lower.clone(),
            upper: self.upper.clone(),
            starts: vec![0],
            ..Plan::default()
        };
        for row in &self.rows {
            for &(col, coef) in &row.entries {
                plan.cols.push(col as u64);
                plan.coef.push(coef);
            }
            plan.starts.push(plan.cols.len() as u64);
            plan.ops.push(row.op);
            plan.rhs.push(row.rhs);
        }
        plan
    }
}

/// Takes the finished plans of one family.
pub struct Sink<'a> {
    family: &'static str,
    count: usize,
    take: &'a mut dyn FnMut(Plan),
}

impl Sink<'_> {
    fn plan(&mut self, mut plan: Plan) {
        plan.id = format!("{}.{}", self.family, self.count);
        self.count += 1;
        (self.take)(plan);
    }

    fn draft(&mut self, draft: &Draft) {
        self.plan(draft.plan());
    }
}

type Make = fn(&mut Rng, &mut Sink);

pub const FAMILIES: [(&str, Make); 29] = [
    ("tiny", tiny),
    ("plain", plain),
    ("ties", ties),
    ("dropped", dropped),
    ("big", big),
    ("long", long),
    ("limits", limits_and_past),
    ("short", short),
    ("number", bad_numbers),
    ("largest", largest),
    ("entry", bad_entries),
    ("crossed", crossed),
    ("empty", false_empty_rows),
    ("overflow", start_overflow),
    ("outside", slack_outside),
    ("unbounded", unbounded),
    ("spent", spent),
    ("entries", store_entries),
    ("cycle", store_columns),
    ("huge", huge),
    ("named", named),
    ("strict", strict),
    ("wild", wild),
    ("damaged", damaged),
    ("free", free_columns),
    ("refactor", refactor),
    ("dual", dual),
    ("neither", neither),
    ("any", from_any),
];

/// Makes the plans of all families whose name `wanted` accepts, in order.
pub fn make(seed: u64, wanted: &dyn Fn(&str) -> bool, take: &mut dyn FnMut(Plan)) {
    for (family, make) in FAMILIES {
        if wanted(family) {
            let mut sink = Sink {
                family,
                count: 0,
                take: &mut *take,
            };
            make(&mut Rng::named(seed, family), &mut sink);
        }
    }
}

fn answer(draft: &Draft) -> Answer {
    gate::solve(&draft.plan(), Options::default())
}

/// How many factors a run made, or tried to make where it ends in 25.
pub fn factorings(answer: &Answer) -> usize {
    let made = answer.state.as_ref().map_or(0, |state| state.factorings);
    made + usize::from(answer.outcome == Outcome::Singular)
}

/// Makes drafts until `count` of them answer as wanted.
fn search(
    count: usize,
    sink: &mut Sink,
    mut make: impl FnMut() -> Draft,
    wanted: impl Fn(&Answer) -> bool,
) {
    let mut found = 0;
    let mut tried = 0u64;
    while found < count {
        let draft = make();
        if wanted(&answer(&draft)) {
            sink.draft(&draft);
            found += 1;
        }
        tried += 1;
        assert!(
            tried < 200_000,
            "{}: the search finds {} of {}, after {} plans",
            sink.family,
            found,
            count,
            sink.count
        );
    }
}

// ---- tiny: up to 2 columns and 2 rows over a small set of numbers

const TINY_COSTS: [f64; 3] = [-1.0, 0.0, 1.0];
const TINY_BOUNDS: [(f64, f64); 5] = [(0.0, INF), (0.0, 1.0), (-INF, INF), (1.0, 1.0), (-INF, 0.0)];
const TINY_COEFS: [Option<f64>; 4] = [None, Some(1.0), Some(-1.0), Some(2.0)];
const TINY_RHS: [f64; 3] = [0.0, 1.0, -1.0];

/// How many plans there are of this shape over the small set.
fn tiny_count(columns: u32, rows: u32) -> u64 {
    let per_column = (TINY_COSTS.len() * TINY_BOUNDS.len()) as u64;
    let per_row = (TINY_COEFS.len() as u64).pow(columns) * 3 * TINY_RHS.len() as u64;
    per_column.pow(columns) * per_row.pow(rows)
}

/// The plan of that number.
fn tiny_plan(columns: usize, rows: usize, number: u64) -> Draft {
    let mut rest = number as usize;
    let mut digit = |base: usize| {
        let digit = rest % base;
        rest /= base;
        digit
    };
    let mut draft = Draft::new();
    for _ in 0..columns {
        let (lower, upper) = TINY_BOUNDS[digit(TINY_BOUNDS.len())];
        draft.column(TINY_COSTS[digit(TINY_COSTS.len())], lower, upper);
    }
    for _ in 0..rows {
        let mut entries = vec![];
        for col in 0..columns {
            if let Some(coef) = TINY_COEFS[digit(TINY_COEFS.len())] {
                entries.push((col, coef));
            }
        }
        let op = digit(3) as u64;
        draft.row(entries, op, TINY_RHS[digit(TINY_RHS.len())]);
    }
    draft
}

/// All of up to 2 columns and 1 row, or 1 column and 2 rows; and of the 4,665,600 with 2 columns
/// and 2 rows 48,000, spread by a step that shares no factor with their number.
fn tiny(_: &mut Rng, sink: &mut Sink) {
    for columns in 0..=2 {
        for rows in 0..=2 {
            let all = tiny_count(columns, rows);
            if all < 100_000 {
                for number in 0..all {
                    sink.draft(&tiny_plan(columns as usize, rows as usize, number));
                }
            } else {
                for k in 0..48_000 {
                    let number = k * 1_000_003 % all;
                    sink.draft(&tiny_plan(columns as usize, rows as usize, number));
                }
            }
        }
    }
}

// ---- ordinary plans

/// A random column with whole numbers.
fn random_column(draft: &mut Draft, rng: &mut Rng) {
    let cost = rng.whole(9);
    let (lower, upper) = match rng.below(8) {
        0..=3 => (0.0, INF),
        4 | 5 => {
            let lower = rng.whole(5);
            (lower, lower + rng.between(0, 9) as f64)
        }
        6 => (-INF, rng.whole(5)),
        _ => (-INF, INF),
    };
    draft.column(cost, lower, upper);
}

/// Random entries: each column with one chance in `sparse`.
fn random_entries(
    columns: usize,
    rng: &mut Rng,
    sparse: usize,
    coef: &mut dyn FnMut(&mut Rng) -> f64,
) -> Vec<(usize, f64)> {
    let mut entries = vec![];
    for col in 0..columns {
        if rng.one_in(sparse) {
            let coef = coef(rng);
            entries.push((col, coef));
        }
    }
    entries
}

/// A random plan whose slacks start inside their bounds.
fn random_plain(rng: &mut Rng, most_columns: usize, most_rows: usize) -> Draft {
    let mut draft = Draft::new();
    let columns = rng.between(1, most_columns);
    for _ in 0..columns {
        random_column(&mut draft, rng);
    }
    for _ in 0..rng.between(1, most_rows) {
        let sparse = rng.between(1, 3);
        let entries = random_entries(columns, rng, sparse, &mut |rng| rng.whole(5));
        let op = rng.pick(&[LE, LE, LE, GE, EQ]);
        let slack = rng.below(20) as f64;
        draft.row_inside(entries, op, slack);
    }
    draft.tolerance = rng.pick(&[0.0, 1e-9, 1e-6, 1.0]);
    draft
}

fn plain(rng: &mut Rng, sink: &mut Sink) {
    for _ in 0..6_000 {
        sink.draft(&random_plain(rng, 8, 8));
    }
    for _ in 0..600 {
        sink.draft(&random_plain(rng, 24, 16));
    }
}

/// Equal columns, equal rows, right sides of 0, stored zeros: many ties and degenerate steps.
fn ties(rng: &mut Rng, sink: &mut Sink) {
    for _ in 0..3_000 {
        let mut draft = Draft::new();
        let columns = rng.between(1, 8);
        for _ in 0..columns {
            let upper = rng.pick(&[INF, INF, 1.0, 2.0]);
            draft.column(rng.pick(&[-1.0, -1.0, -2.0, 0.0, -0.0, 1.0]), 0.0, upper);
        }
        for _ in 0..rng.between(1, 8) {
            if !draft.rows.is_empty() && rng.one_in(3) {
                let row = draft.rows[rng.below(draft.rows.len())].clone();
                draft.rows.push(row);
                continue;
            }
            let coefs = [1.0, 1.0, 1.0, -1.0, 2.0, 0.0, -0.0];
            let entries = random_entries(columns, rng, 2, &mut |rng| rng.pick(&coefs));
            let op = rng.pick(&[LE, LE, LE, GE, EQ]);
            let slack = rng.pick(&[0.0, 0.0, -0.0, 1.0, 2.0]);
            draft.row_inside(entries, op, slack);
        }
        sink.draft(&draft);
    }
}

/// True empty rows among the others.
fn dropped(rng: &mut Rng, sink: &mut Sink) {
    for _ in 0..2_500 {
        let mut draft = random_plain(rng, 6, 6);
        for _ in 0..rng.between(1, 4) {
            let (op, rhs) = rng.pick(&[
                (LE, 0.0),
                (LE, -0.0),
                (LE, 3.0),
                (EQ, 0.0),
                (EQ, -0.0),
                (GE, 0.0),
                (GE, -0.0),
                (GE, -1.0),
            ]);
            let row = Row {
                entries: vec![],
                op,
                rhs,
            };
            let at = rng.between(0, draft.rows.len());
            draft.rows.insert(at, row);
        }
        sink.draft(&draft);
    }
}

/// Some rows and 128 columns, up to 2,048 entries.
fn big_draft(rng: &mut Rng, rows: u64, coef: &mut dyn FnMut(&mut Rng) -> f64) -> Draft {
    let mut draft = Draft::new();
    for _ in 0..limits::COLUMNS {
        let upper = rng.pick(&[INF, INF, INF, 4.0, 50.0]);
        draft.column(rng.whole(20), 0.0, upper);
    }
    for _ in 0..rows {
        let mut entries = random_entries(draft.columns(), rng, 5, coef);
        entries.truncate((limits::ENTRIES as usize).saturating_sub(draft.entries()));
        let op = rng.pick(&[LE, LE, LE, LE, GE]);
        let slack = rng.between(1, 500) as f64;
        draft.row_inside(entries, op, slack);
    }
    draft
}

/// Some rows and few columns, some rows of them empty.
fn tall_draft(rng: &mut Rng, rows: usize) -> Draft {
    let mut draft = Draft::new();
    let columns = rng.between(1, 12);
    for _ in 0..columns {
        let upper = rng.pick(&[INF, INF, 7.0]);
        draft.column(rng.whole(9), 0.0, upper);
    }
    for _ in 0..rows {
        let entries = random_entries(columns, rng, 3, &mut |rng| rng.whole(9));
        let slack = rng.between(0, 40) as f64;
        draft.row_inside(entries, rng.pick(&[LE, LE, EQ, GE]), slack);
    }
    draft
}

fn big(rng: &mut Rng, sink: &mut Sink) {
    for _ in 0..110 {
        let draft = big_draft(rng, limits::ROWS, &mut |rng| 1.0 + rng.whole(9).abs());
        sink.draft(&draft);
    }
    for _ in 0..110 {
        let draft = big_draft(rng, limits::ROWS, &mut |rng| rng.whole(9) + rng.unit());
        sink.draft(&draft);
    }
    // What 02 adds: 65 to 96 rows.
    for rows in 65..=limits::ROWS {
        for _ in 0..12 {
            let draft = big_draft(rng, rows, &mut |rng| 1.0 + rng.whole(9).abs());
            sink.draft(&draft);
        }
        for _ in 0..24 {
            let mut draft = tall_draft(rng, rows as usize);
            draft.budget = rng.pick(&[limits::BUDGET, limits::BUDGET, 3]);
            sink.draft(&draft);
        }
    }
}

/// Runs of over 60 steps.
fn long(rng: &mut Rng, sink: &mut Sink) {
    let make = || {
        let mut draft = Draft::new();
        let columns = rng.between(50, 100);
        for _ in 0..columns {
            draft.column(-1.0 - rng.below(30) as f64, 0.0, rng.pick(&[INF, 3.0]));
        }
        for _ in 0..rng.between(14, 20) {
            let entries = random_entries(columns, rng, 2, &mut |rng| rng.between(1, 40) as f64);
            let slack = rng.between(100, 900) as f64;
            draft.row_inside(entries, LE, slack);
        }
        draft
    };
    search(220, sink, make, |answer| {
        answer.steps > 60 && answer.outcome == Outcome::Optimal
    });
}

// ---- refusals

/// A good plan of exactly these sizes.
fn sized_draft(rng: &mut Rng, columns: usize, rows: usize, entries: usize) -> Draft {
    let mut draft = Draft::new();
    for _ in 0..columns {
        draft.column(rng.whole(5), 0.0, 10.0);
    }
    let mut left = entries;
    for row in 0..rows {
        let here = left.min(columns).min(entries.div_ceil(rows) + rng.below(2));
        let here = if row + 1 == rows { left } else { here };
        let mut entries = vec![];
        for col in 0..here {
            entries.push((col, 1.0 + rng.below(9) as f64));
        }
        left -= here;
        draft.row_inside(entries, LE, 100.0);
    }
    draft
}

/// Every limit and one past it.
fn limits_and_past(rng: &mut Rng, sink: &mut Sink) {
    for _ in 0..25 {
        for columns in [0, 1, 127, 128, 129] {
            sink.draft(&sized_draft(rng, columns, 2, columns.min(20)));
        }
        for rows in [0, 1, 64, 65, 95, 96, 97] {
            sink.draft(&sized_draft(rng, 3, rows, rows.min(20)));
        }
        for entries in [0, 1, 2047, 2048, 2049] {
            sink.draft(&sized_draft(rng, 128, 32, entries));
        }
        for budget in [0, 1, 9_999, 10_000, 10_001, u64::MAX] {
            let mut draft = random_plain(rng, 4, 4);
            draft.budget = budget;
            sink.draft(&draft);
        }
        let just_past = 1.0 + f64::EPSILON;
        for tolerance in [0.0, -0.0, 5e-324, -5e-324, 1.0, just_past, INF, -INF] {
            let mut draft = random_plain(rng, 4, 4);
            draft.tolerance = tolerance;
            sink.draft(&draft);
        }
        for size in [u64::MAX, u64::MAX - 1, 1 << 63, 1 << 32] {
            let good = random_plain(rng, 3, 3).plan();
            for field in 0..3 {
                let mut plan = good.clone();
                match field {
                    0 => plan.columns = size,
                    1 => plan.rows = size,
                    _ => plan.entries = size,
                }
                sink.plan(plan);
            }
        }
        // 0 rows with entries: the one start can't be both 0 and the entry count.
        let mut plan = sized_draft(rng, 2, 0, 0).plan();
        plan.entries = 1;
        plan.cols.push(0);
        plan.coef.push(1.0);
        sink.plan(plan.clone());
        plan.starts[0] = 1;
        sink.plan(plan);
    }
}

/// The kinds that the family "short" goes through in turn: the plan's arrays, rooms, and the state's.
pub const SHORT_KINDS: usize = 8 * 3 + 8 + 4 * (Lent::ALL.len() + Lent::ARRAYS.len());

/// Every lent array exactly as long as needed, one longer, one shorter and empty.
fn short(rng: &mut Rng, sink: &mut Sink) {
    for _ in 0..40 {
        let good = random_plain(rng, 5, 5).plan();
        for array in 0..8 {
            for change in 0..3 {
                let mut plan = good.clone();
                match array {
                    0 => resize(&mut plan.cost, change, f64::NAN),
                    1 => resize(&mut plan.lower, change, f64::NAN),
                    2 => resize(&mut plan.upper, change, f64::NAN),
                    3 => resize(&mut plan.starts, change, u64::MAX),
                    4 => resize(&mut plan.cols, change, u64::MAX),
                    5 => resize(&mut plan.coef, change, f64::NAN),
                    6 => resize(&mut plan.ops, change, 9),
                    _ => resize(&mut plan.rhs, change, f64::NAN),
                }
                sink.plan(plan);
            }
        }

        let values = good.columns + good.rows;
        for room in [
            [values, 256, 4096],
            [values - 1, 256, 4096],
            [values + 1, 256, 4096],
            [values, 255, 4096],
            [values, 257, 4097],
            [values, 256, 4095],
            [0, 256, 4096],
            [u64::MAX, u64::MAX, u64::MAX],
        ] {
            let mut plan = good.clone();
            plan.room = Some(room);
            sink.plan(plan);
        }

        for lent in Lent::ALL.into_iter().chain(Lent::ARRAYS) {
            let needed = lent.needed(good.columns, good.rows);
            for length in [needed, needed - 1, needed + 1, 0] {
                let mut plan = good.clone();
                plan.short.push((lent, length));
                sink.plan(plan);
            }
        }
    }
}

/// One cell shorter, one longer, or empty. The longer one's last cell is no part of the plan.
fn resize<T>(cells: &mut Vec<T>, change: usize, past: T) {
    match change {
        0 => drop(cells.pop()),
        1 => cells.push(past),
        _ => cells.clear(),
    }
}

/// The kinds of a bad number in refusal 2, document 02's last.
pub const BAD_NUMBERS: [&str; 20] = [
    "NaN cost",
    "NaN lower",
    "NaN upper",
    "NaN coefficient",
    "NaN right side",
    "NaN tolerance",
    "infinite cost",
    "infinite coefficient",
    "infinite right side",
    "lower +inf",
    "upper -inf",
    "tolerance below 0",
    "tolerance above 1",
    "infinite tolerance",
    "comparison above 2",
    "cost above 1e12",
    "lower above 1e12",
    "upper above 1e12",
    "coefficient above 1e12",
    "right side above 1e12",
];

/// The next double above 1e12.
const ABOVE: f64 = f64::from_bits(limits::NUMBER.to_bits() + 1);

/// Puts that kind of bad number into a plan that has cells for it.
fn put_bad_number(plan: &mut Plan, kind: usize, rng: &mut Rng) {
    let column = rng.below(plan.columns as usize);
    let row = rng.below(plan.rows as usize);
    let entry = rng.below(plan.entries as usize);
    let nan = rng.pick(&[
        f64::NAN,
        -f64::NAN,
        f64::from_bits(0x7ff0_0000_0000_0001),
        f64::from_bits(0xffff_ffff_ffff_ffff),
    ]);
    let infinite = rng.pick(&[INF, -INF]);
    let above = rng.pick(&[ABOVE, ABOVE, 2e12, 1e16, 1e200, MAX]) * rng.pick(&[1.0, -1.0]);
    match kind {
        0 => plan.cost[column] = nan,
        1 => plan.lower[column] = nan,
        2 => plan.upper[column] = nan,
        3 => plan.coef[entry] = nan,
        4 => plan.rhs[row] = nan,
        5 => plan.tolerance = nan,
        6 => plan.cost[column] = infinite,
        7 => plan.coef[entry] = infinite,
        8 => plan.rhs[row] = infinite,
        9 => plan.lower[column] = INF,
        10 => plan.upper[column] = -INF,
        11 => plan.tolerance = rng.pick(&[-5e-324, -1e-9, -1.0, -MAX]),
        12 => plan.tolerance = rng.pick(&[1.0 + f64::EPSILON, 1.5, MAX]),
        13 => plan.tolerance = infinite,
        14 => plan.ops[row] = rng.pick(&[3, 4, 255, 256, 1 << 32, u64::MAX]),
        15 => plan.cost[column] = above,
        16 => plan.lower[column] = above,
        17 => plan.upper[column] = above,
        18 => plan.coef[entry] = above,
        _ => plan.rhs[row] = above,
    }
}

/// Which kind of bad number a plan of the family "number" has, by its place in the family.
pub fn bad_number_kind(index: usize) -> &'static str {
    BAD_NUMBERS[index % BAD_NUMBERS.len()]
}

fn bad_numbers(rng: &mut Rng, sink: &mut Sink) {
    let mut index = 0;
    while index < 100 * BAD_NUMBERS.len() {
        let mut plan = random_plain(rng, 5, 5).plan();
        if plan.entries > 0 {
            put_bad_number(&mut plan, index % BAD_NUMBERS.len(), rng);
            sink.plan(plan);
            index += 1;
        }
    }
}

/// Where a plan of the family "largest" has 1e12 or -1e12, by its place in the family.
pub const LARGEST: [&str; 10] = [
    "1e12 cost",
    "-1e12 cost",
    "1e12 lower",
    "-1e12 lower",
    "1e12 upper",
    "-1e12 upper",
    "1e12 coefficient",
    "-1e12 coefficient",
    "1e12 right side",
    "-1e12 right side",
];

/// 02: "1e12 itself is accepted", beside infinite bounds.
fn largest(rng: &mut Rng, sink: &mut Sink) {
    for index in 0..1_000 {
        let mut draft = random_plain(rng, 5, 5);
        let column = rng.below(draft.columns());
        let op = rng.pick(&[LE, GE]);
        let number = if index % 2 == 0 {
            limits::NUMBER
        } else {
            -limits::NUMBER
        };
        match index % LARGEST.len() / 2 {
            0 => draft.cost[column] = number,
            1 => (draft.lower[column], draft.upper[column]) = (number, INF),
            2 => (draft.lower[column], draft.upper[column]) = (-INF, number),
            3 => draft.row_inside(vec![(column, number)], op, 1.0),
            _ => draft.row(vec![(column, 1.0)], op, number),
        }
        sink.draft(&draft);
    }
}

/// Column numbers that are too large, the same or falling; sometimes two, so that the first counts.
fn bad_entries(rng: &mut Rng, sink: &mut Sink) {
    let mut made = 0;
    while made < 1_500 {
        let mut plan = random_plain(rng, 6, 6).plan();
        if plan.entries < 2 {
            continue;
        }
        for _ in 0..rng.between(1, 2) {
            let at = rng.below(plan.cols.len());
            plan.cols[at] = match rng.below(4) {
                0 => plan.columns,
                1 => rng.pick(&[u64::MAX, 1 << 32, plan.columns + 1]),
                2 => plan.cols[at.saturating_sub(1)],
                _ => 0,
            };
        }
        sink.plan(plan);
        made += 1;
    }
}

fn crossed(rng: &mut Rng, sink: &mut Sink) {
    for _ in 0..1_300 {
        let mut draft = random_plain(rng, 6, 6);
        for _ in 0..rng.between(1, 2) {
            let column = rng.below(draft.columns());
            let (lower, upper) = rng.pick(&[
                (3.0, 2.0),
                (5e-324, 0.0),
                (0.0, -5e-324),
                (limits::NUMBER, -limits::NUMBER),
                (1.0, 1.0 - f64::EPSILON),
                // Not crossed: -0.0 and 0.0 are equal.
                (0.0, -0.0),
            ]);
            draft.lower[column] = lower;
            draft.upper[column] = upper;
        }
        sink.draft(&draft);
    }
}

fn false_empty_rows(rng: &mut Rng, sink: &mut Sink) {
    for _ in 0..1_300 {
        let mut draft = random_plain(rng, 6, 6);
        for _ in 0..rng.between(1, 3) {
            let (op, rhs) = rng.pick(&[
                (LE, -1.0),
                (LE, -5e-324),
                (EQ, 5e-324),
                (EQ, -7.0),
                (GE, 5e-324),
                (GE, limits::NUMBER),
                (GE, -0.0),
            ]);
            let row = Row {
                entries: vec![],
                op,
                rhs,
            };
            let at = rng.between(0, draft.rows.len());
            draft.rows.insert(at, row);
        }
        sink.draft(&draft);
    }
}

/// Start values, objective sums and norms that overflow. 02 refuses the numbers that they come from.
fn start_overflow(rng: &mut Rng, sink: &mut Sink) {
    for index in 0..1_800 {
        let mut draft = random_plain(rng, 6, 6);
        let column = rng.below(draft.columns());
        let row = rng.below(draft.rows.len());
        match index % 3 {
            0 => {
                // The products, their sum, or the difference from the right side overflows.
                draft.lower[column] = rng.sized(1000, 1022).abs();
                draft.upper[column] = INF;
                let factor = rng.sized(-3, 30);
                let rhs = rng.sized(1020, 1023);
                draft.rows[row].entries = vec![(column, factor)];
                draft.rows[row].rhs = rhs;
            }
            1 => {
                draft.lower[column] = rng.sized(500, 1000).abs();
                draft.upper[column] = INF;
                draft.cost[column] = rng.sized(400, 600);
                for row in &mut draft.rows {
                    row.entries.retain(|&(col, _)| col != column);
                }
                draft.rows.retain(|row| !row.entries.is_empty());
            }
            _ => {
                let size = rng.sized(505, 600);
                draft.rows[row].entries = vec![(column, size)];
                draft.rows[row].op = LE;
                draft.rows[row].rhs = draft.rhs_for(&[(column, size)], 1.0);
            }
        }
        sink.draft(&draft);
    }
}

fn slack_outside(rng: &mut Rng, sink: &mut Sink) {
    for _ in 0..1_300 {
        let mut draft = random_plain(rng, 6, 6);
        let row = rng.below(draft.rows.len());
        let past = rng.pick(&[5e-324, 1e-300, 1e-9, 1.0, 1e11]);
        let entries = draft.rows[row].entries.clone();
        draft.rows[row].rhs = match draft.rows[row].op {
            LE => draft.rhs_for(&entries, -past),
            _ => draft.rhs_for(&entries, past),
        };
        sink.draft(&draft);
    }
}

// ---- 20, 21 and runs that fill the store

/// A column that nothing stops, beside others that take some steps first.
fn unbounded(rng: &mut Rng, sink: &mut Sink) {
    let make = |rng: &mut Rng, steps: usize| {
        let mut draft = Draft::new();
        for col in 0..steps {
            draft.column(-100.0 - rng.below(50) as f64, 0.0, INF);
            let slack = rng.between(1, 50) as f64;
            let coef = rng.between(1, 9) as f64;
            draft.row_inside(vec![(col, coef)], LE, slack);
        }
        let (lower, upper, cost) = rng.pick(&[
            (0.0, INF, -1.0),
            (-INF, 0.0, 1.0),
            (-INF, INF, -1.0),
            (-INF, INF, 1.0),
        ]);
        draft.column(cost, lower, upper);
        for row in &mut draft.rows {
            if rng.one_in(2) {
                let size = rng.between(0, 5) as f64;
                row.entries
                    .push((steps, if cost < 0.0 { -size } else { size }));
            }
        }
        draft
    };
    for index in 0..1_600 {
        let steps = index % 8;
        let draft = make(rng, steps);
        sink.draft(&draft);
    }
}

/// A budget that some plans spend.
fn spent(rng: &mut Rng, sink: &mut Sink) {
    for index in 0..3_200 {
        let mut draft = random_plain(rng, 12, 10);
        for col in 0..draft.columns() {
            if draft.lower[col] > -INF && rng.one_in(2) {
                draft.cost[col] = -1.0 - rng.below(9) as f64;
                draft.upper[col] = INF;
            }
        }
        let rows = std::mem::take(&mut draft.rows);
        for row in rows {
            let entries = row.entries.iter().map(|&(c, a)| (c, a.abs() + 1.0));
            let slack = rng.between(0, 40) as f64;
            draft.row_inside(entries.collect(), LE, slack);
        }
        draft.budget = index % 6;
        sink.draft(&draft);
    }
}

/// A store full of entries: many rows, so that each exchange adds many.
fn store_entries(rng: &mut Rng, sink: &mut Sink) {
    let make = || big_draft(rng, limits::ROWS, &mut |rng| rng.whole(9) + rng.unit());
    search(30, sink, make, |answer| factorings(answer) > 0);
}

fn power_of_two(exponent: i32) -> f64 {
    f64::from_bits(((exponent + 1023) as u64) << 52)
}

/// A store full of columns: 257 exchanges with at most 16 rows.
fn store_columns(rng: &mut Rng, sink: &mut Sink) {
    let make = || cube(rng, 8);
    search(900, sink, make, |answer| factorings(answer) > 0);
}

// ---- 23

/// Numbers of all sizes up to 1e12 at random, slacks inside.
fn huge_draft(rng: &mut Rng) -> Draft {
    let number = |rng: &mut Rng| match rng.below(5) {
        0 => rng.sized(-26, -20),
        1 => rng.sized(0, 3),
        2 => rng.sized(34, 38),
        3 => rng.sized(14, 19),
        _ => rng.sized(-38, 38),
    };
    let mut draft = Draft::new();
    let columns = rng.between(1, 6);
    for _ in 0..columns {
        let cost = number(rng);
        let (lower, upper) = match rng.below(5) {
            0 => (number(rng), INF),
            1 => {
                let bound = number(rng);
                (bound.min(0.0), bound.max(0.0))
            }
            2 => (-INF, INF),
            _ => (0.0, INF),
        };
        draft.column(if rng.one_in(3) { cost } else { -cost.abs() }, lower, upper);
    }
    for _ in 0..rng.between(1, 6) {
        let entries = random_entries(columns, rng, 2, &mut |rng| number(rng));
        let slack = if rng.one_in(2) {
            0.0
        } else {
            number(rng).abs()
        };
        draft.row_inside(entries, rng.pick(&[LE, LE, LE, GE, EQ]), slack);
    }
    draft.tolerance = 1.0;
    draft
}

/// Cascades, one at the end of the other or apart, with columns of all sizes across them.
fn cascades_draft(rng: &mut Rng) -> Draft {
    let mut draft = Draft::new();
    let mut row = None;
    for _ in 0..rng.between(1, 3) {
        let first = match row {
            Some(end) if rng.one_in(2) => end,
            _ => draft.empty_row(LE),
        };
        if rng.one_in(3) {
            draft.rows[first].rhs = rng.sized(0, 38).abs();
        }
        let (bits, steps) = (rng.between(60, 400) as i32, rng.between(7, 9) as i32);
        let cascade = Cascade::new(bits, steps, 1.0 + rng.unit());
        row = Some(cascade.put(&mut draft, first, rng.sized(-20, 0).abs()));
    }
    let rows = draft.rows.len();
    for _ in 0..rng.between(1, 5) {
        let mut entries = vec![];
        for row in 0..rows {
            if rng.one_in(rows / 2) {
                entries.push((row, rng.sized(-30, 38)));
            }
        }
        let cost = if rng.one_in(2) {
            0.0
        } else {
            rng.sized(-26, 38)
        };
        // A column that starts at 0.0 whatever its cost is.
        let upper = if cost < 0.0 { INF } else { near(rng, 38) };
        draft.column_in(cost, upper, &entries);
    }
    draft.tolerance = 1.0;
    draft
}

/// 2,000 as they come, 500 with cascades as they come, and 150 that get to 23 after 3 or more steps.
fn huge(rng: &mut Rng, sink: &mut Sink) {
    for _ in 0..2_000 {
        let draft = huge_draft(rng);
        sink.draft(&draft);
    }
    for _ in 0..500 {
        let draft = cascades_draft(rng);
        sink.draft(&draft);
    }
    let make = || cascades_draft(rng);
    search(150, sink, make, |answer| {
        answer.outcome.number() == 23 && answer.steps >= 3
    });
}

/// Near a power of two, so that plans differ and the step stays the same.
fn near(rng: &mut Rng, exponent: i32) -> f64 {
    rng.sized(exponent, exponent).abs()
}

/// The place that a 23 names.
fn named_by(answer: &Answer) -> Option<growth::Place> {
    let Outcome::NotFinite { named, flip } = answer.outcome else {
        return None;
    };
    let in_dual = answer.state.as_ref().is_some_and(|state| state.in_dual);
    let within = match (flip, in_dual) {
        (true, _) => Within::Flip,
        (_, true) => Within::Dual,
        _ => Within::Exchange,
    };
    Some((named, within))
}

/// Plans made for each place of document 01's order that a 23 can name. survey::UNREACHED has the
/// others.
fn named(rng: &mut Rng, sink: &mut Sink) {
    // Where another place comes first, others are drawn, by a generator of their own.
    let mut again = Rng::named(rng.clone().next(), "again");
    let dual_places = DUAL_PLACES.map(|named| (named, Within::Dual));
    for places in [&growth::PLACES[..], &growth::DUAL_NORMS, &dual_places] {
        for &place in (0..100).flat_map(|_| places) {
            let others = (0..100).map(|_| growth::draft(&mut again, place));
            let draft = std::iter::once(growth::draft(rng, place))
                .chain(others)
                .find(|draft| named_by(&answer(draft)) == Some(place));
            sink.draft(&draft.expect("a draft reaches its place"));
        }
    }
}

// ---- 24

/// Tolerance 0 and coefficients that aren't exact, or coefficients under EPS with a long step.
fn strict_draft(rng: &mut Rng) -> Draft {
    let mut draft = Draft::new();
    let columns = rng.between(1, 8);
    let tenth = |rng: &mut Rng| rng.between(1, 30) as f64 / 10.0;
    for _ in 0..columns {
        let upper = if rng.one_in(3) { tenth(rng) } else { INF };
        draft.column(rng.whole(9), 0.0, upper);
    }
    for _ in 0..rng.between(1, 8) {
        let entries = random_entries(columns, rng, 2, &mut |rng| {
            let size = rng.between(1, 30) as f64 / 10.0;
            rng.pick(&[size, size, -size])
        });
        let slack = tenth(rng);
        draft.row_inside(entries, rng.pick(&[LE, LE, LE, GE, EQ]), slack);
    }
    if rng.one_in(3) {
        // A long step past rows that are skipped: their slacks or columns leave their bounds.
        let col = draft.columns();
        draft.column(-100.0, 0.0, INF);
        for row in &mut draft.rows {
            if rng.one_in(2) {
                row.entries.push((col, rng.sized(-34, -28)));
            }
        }
        let step = near(rng, 38);
        draft.row_inside(vec![(col, 1.0)], LE, step);
    }
    draft.tolerance = 0.0;
    draft
}

fn strict(rng: &mut Rng, sink: &mut Sink) {
    for _ in 0..2_500 {
        let draft = strict_draft(rng);
        sink.draft(&draft);
    }
    let by_value =
        |answer: &Answer| matches!(answer.outcome, Outcome::Rejected(Rejected::Value(_)));
    let by_row = |answer: &Answer| matches!(answer.outcome, Outcome::Rejected(Rejected::Row(_)));
    for least in [0, 3] {
        let wanted = |answer: &Answer| by_value(answer) && answer.steps >= least;
        search(250, sink, || strict_draft(rng), wanted);
        let wanted = |answer: &Answer| by_row(answer) && answer.steps >= least;
        search(250, sink, || strict_draft(rng), wanted);
    }
}

// ---- wild doubles and damaged plans

const TAME: [f64; 20] = [
    0.0,
    -0.0,
    5e-324,
    -5e-324,
    1e-310,
    f64::MIN_POSITIVE,
    1e-200,
    -1e-200,
    1e-9,
    1e-8,
    -1e-8,
    1.1e-8,
    0.1,
    1.0,
    -1.0,
    3.0,
    1e8,
    -1e11,
    limits::NUMBER,
    -limits::NUMBER,
];

const WILD: [f64; 10] = [
    ABOVE, -ABOVE, -1e16, 1e100, 1e154, -1e154, 1e200, 1e300, MAX, -MAX,
];

/// Odd doubles everywhere; the first half has none that is refused, so that more than the refusals is
/// reached.
fn wild(rng: &mut Rng, sink: &mut Sink) {
    for index in 0..6_000 {
        let tame = index % 2 == 0;
        let number = |rng: &mut Rng| {
            if !tame && rng.one_in(60) {
                rng.pick(&[INF, -INF, f64::NAN])
            } else if !tame && rng.one_in(20) {
                rng.pick(&WILD)
            } else if rng.one_in(3) {
                rng.pick(&TAME)
            } else {
                rng.pick(&[1.0, 2.0, -1.0, 0.5])
            }
        };
        let mut draft = Draft::new();
        let columns = rng.between(0, 6);
        for _ in 0..columns {
            let (low, high) = (number(rng), number(rng));
            let (lower, upper) = match rng.below(4) {
                0 => (low, INF),
                1 => (-INF, high),
                2 => (low.min(high), low.max(high)),
                _ => (0.0, INF),
            };
            draft.column(number(rng), lower, upper);
        }
        for _ in 0..rng.between(0, 6) {
            let entries = random_entries(columns, rng, 2, &mut |rng| number(rng));
            let op = rng.below(3) as u64;
            if rng.one_in(4) {
                let rhs = number(rng);
                draft.row(entries, op, rhs);
            } else {
                let slack = number(rng).abs();
                draft.row_inside(entries, op, slack);
            }
        }
        draft.tolerance = rng.pick(&[0.0, 1e-8, 1.0]);
        sink.draft(&draft);
    }
}

/// Good plans with one cell, one length or one start changed.
fn damaged(rng: &mut Rng, sink: &mut Sink) {
    for _ in 0..4_000 {
        let mut plan = random_plain(rng, 6, 6).plan();
        if plan.entries == 0 {
            continue;
        }
        let column = rng.below(plan.columns as usize);
        let row = rng.below(plan.rows as usize);
        let entry = rng.below(plan.entries as usize);
        let number = if rng.one_in(2) {
            rng.pick(&WILD)
        } else {
            rng.pick(&TAME)
        };
        match rng.below(20) {
            0 => plan.cost[column] = number,
            1 => plan.lower[column] = number,
            2 => plan.upper[column] = number,
            3 => plan.coef[entry] = number,
            4 => plan.rhs[row] = number,
            5 => plan.cols[entry] = rng.below(plan.columns as usize + 1) as u64,
            6 => plan.ops[row] = rng.below(4) as u64,
            7 => {
                let kind = rng.below(BAD_NUMBERS.len());
                put_bad_number(&mut plan, kind, rng);
            }
            8 => plan.starts[row] += 1,
            9 => plan.starts[row + 1] = plan.starts[row + 1].wrapping_sub(1),
            10 => plan.starts[0] = rng.pick(&[1, u64::MAX]),
            11 => plan.starts[row] = rng.pick(&[0, plan.entries, u64::MAX]),
            12 => plan.columns = plan.columns.wrapping_add(rng.pick(&[1, u64::MAX])),
            13 => plan.rows = plan.rows.wrapping_add(rng.pick(&[1, u64::MAX])),
            14 => plan.entries = plan.entries.wrapping_add(rng.pick(&[1, u64::MAX])),
            15 => resize(&mut plan.cost, rng.below(2), 1.0),
            16 => resize(&mut plan.starts, rng.below(2), 1),
            17 => resize(&mut plan.cols, rng.below(2), 1),
            18 => resize(&mut plan.rhs, rng.below(2), 1.0),
            _ => plan.budget = rng.below(3) as u64,
        }
        sink.plan(plan);
    }
}

// ---- the filter of 02's Ask 4

const UNDER_EPS: f64 = f64::from_bits(1e-8_f64.to_bits() - 1);
const OVER_EPS: f64 = f64::from_bits(1e-8_f64.to_bits() + 1);

/// The prices around which a column at neither bound turns: zeros, EPS and the doubles beside it.
pub const TURNING: [(&str, f64); 8] = [
    ("0.0", 0.0),
    ("-0.0", -0.0),
    ("just under EPS", UNDER_EPS),
    ("just under EPS below 0", -UNDER_EPS),
    ("EPS", 1e-8),
    ("-EPS", -1e-8),
    ("just over EPS", OVER_EPS),
    ("just over EPS below 0", -OVER_EPS),
];

/// The first free column of a plan of the family "free" has each turning price, in a row and in none,
/// in turn.
pub const FREE_KINDS: usize = 2 * TURNING.len();

/// Free columns of these prices: in rows of their own, in others' rows and in none; beside them up to
/// three columns that enter, and others at a bound with the same prices.
fn free_columns(rng: &mut Rng, sink: &mut Sink) {
    for index in 0..160 * FREE_KINDS {
        let mut draft = Draft::new();
        let (_, price) = TURNING[index % TURNING.len()];
        let in_row = index % FREE_KINDS < TURNING.len();
        draft.column(price, -INF, INF);
        if in_row {
            let slack = rng.pick(&[0.0, 1.0, 7.0]);
            let coef = rng.pick(&[1.0, -1.0, 2.0, -0.5]);
            draft.row_inside(vec![(0, coef)], rng.pick(&[LE, GE, EQ]), slack);
        }
        for _ in 0..rng.below(4) {
            let col = draft.columns();
            draft.column(-1.0 - rng.below(9) as f64, 0.0, rng.pick(&[INF, INF, 3.0]));
            let mut entries = vec![(col, rng.between(1, 4) as f64)];
            if in_row && rng.one_in(3) {
                entries.insert(0, (0, rng.pick(&[1.0, -1.0, 3.0])));
            }
            let slack = rng.between(0, 9) as f64;
            draft.row_inside(entries, LE, slack);
        }
        for _ in 0..rng.below(3) {
            let (_, price) = rng.pick(&TURNING);
            let (lower, upper) = rng.pick(&[(-INF, INF), (0.0, INF), (-INF, 0.0), (-1.0, 1.0)]);
            let col = draft.columns();
            draft.column(price, lower, upper);
            if rng.one_in(2) {
                draft.row_inside(vec![(col, rng.whole(2))], rng.pick(&[LE, GE]), 5.0);
            }
        }
        if rng.one_in(4) {
            draft.budget = rng.below(3) as u64;
        }
        sink.draft(&draft);
    }
}
