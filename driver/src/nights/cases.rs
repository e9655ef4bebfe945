//! Seeded nights that reach every answer, and what is counted of them.

mod growth;
mod stages;

use oracle::rng::Rng;
use oracle_sheet::file_cases::Tried;
use oracle_sheet::reference::{Sheet, Verdict, EQ, GE, LE};

use super::reference::{self, Audit, Memory, Night, Stage, Told, FIRST, HANDED, WHOLE};
use super::status;
use crate::plans::Lengths;
use crate::sections;
use crate::EXTRA;

/// A bound, or none.
type Bound = Option<i64>;

/// A night under construction.
#[derive(Clone, Debug, Default)]
struct Draft {
    alarms: Vec<i64>,
    reports: Vec<i64>,
    bounds: Vec<(Bound, Bound)>,
    rows: Vec<Row>,
    budget: usize,
    tolerance: f64,
}

#[derive(Clone, Debug)]
struct Row {
    entries: Vec<(usize, i64)>,
    op: u8,
    rhs: i64,
}

impl Draft {
    fn new() -> Draft {
        Draft {
            budget: 10_000,
            tolerance: 1e-6,
            ..Draft::default()
        }
    }

    fn columns(&self) -> usize {
        self.alarms.len()
    }

    /// Its number.
    fn column(&mut self, alarm: i64, report: i64, lower: Bound, upper: Bound) -> usize {
        self.alarms.push(alarm);
        self.reports.push(report);
        self.bounds.push((lower, upper));
        self.columns() - 1
    }

    fn row(&mut self, entries: Vec<(usize, i64)>, op: u8, rhs: i64) {
        self.rows.push(Row { entries, op, rhs });
    }

    /// With every array as long as it is needed, and the written ones a few cells longer.
    fn night(&self, family: &'static str, rng: &mut Rng) -> Night {
        let (rows, columns) = (self.rows.len(), self.columns());
        let mut coef = vec![0; rows * columns];
        for (i, row) in self.rows.iter().enumerate() {
            for &(j, number) in &row.entries {
                coef[i * columns + j] = number;
            }
        }
        let number = |bound: Bound| bound.unwrap_or(0);
        let mark = |bound: Bound| u8::from(bound.is_some());
        let bounds = &self.bounds;
        let mut extra = || rng.below(EXTRA);
        Night {
            family,
            plan: Sheet {
                rows: rows as u64,
                columns: columns as u64,
                coef,
                cost: self.alarms.clone(),
                lower: bounds.iter().map(|(lower, _)| number(*lower)).collect(),
                upper: bounds.iter().map(|(_, upper)| number(*upper)).collect(),
                haslow: bounds.iter().map(|(lower, _)| mark(*lower)).collect(),
                hasup: bounds.iter().map(|(_, upper)| mark(*upper)).collect(),
                rhs: self.rows.iter().map(|row| row.rhs).collect(),
                ops: self.rows.iter().map(|row| row.op).collect(),
                ..Sheet::default()
            },
            reports: self.reports.clone(),
            budget: self.budget,
            tolerance: self.tolerance,
            lent: Lengths {
                values: columns + rows + 1 + extra(),
                numbers: sections::NUMBERS + extra(),
                doubles: sections::DOUBLES + extra(),
                factor_numbers: sections::FACTOR_NUMBERS + extra(),
                factor_coeffs: sections::FACTOR_COEFFS + extra(),
            },
            whole: WHOLE + extra(),
        }
    }
}

/// low to high, both included.
fn between(rng: &mut Rng, low: i64, high: i64) -> i64 {
    low + rng.below((high - low + 1) as usize) as i64
}

// ---- ordinary nights

/// Units in fields share the air, and each field's units its mast. Alarms want as much as they wait for, and soil
/// reports too. Those behind the hill take air twice. One in `odd` rows has a right side that isn't round.
fn ordinary(rng: &mut Rng, units: usize, odd: usize) -> Draft {
    let mut draft = Draft::new();
    let fields = rng.between(1, 4);
    let mut masts = vec![vec![]; fields];
    let (mut air, mut wanted) = (vec![], 0);
    for _ in 0..units {
        let field = rng.below(fields);
        let takes = if field == 3 { 2 } else { 1 };
        let mut columns = vec![];
        if !rng.one_in(3) {
            let most = 10 * between(rng, 20, 120) + if rng.one_in(odd) { 5 } else { 0 };
            let report = if rng.one_in(3) {
                -between(rng, 1, 9)
            } else {
                0
            };
            columns.push(draft.column(-between(rng, 1, 8), report, Some(0), Some(most)));
            wanted += takes * most;
        }
        let most = 10 * between(rng, 150, 450);
        columns.push(draft.column(0, -between(rng, 1, 9), Some(0), Some(most)));
        for column in columns {
            air.push((column, takes));
            masts[field].push((column, 1));
        }
    }
    // The alarms may not all fit, or they and half of the rest.
    let share = wanted * between(rng, 5, 18) / 10 + 10 * between(rng, 0, 200);
    let odd = i64::from(rng.one_in(odd)) * between(rng, 1, 9);
    draft.row(air, LE, share / 10 * 10 + odd);
    for mast in masts {
        if !mast.is_empty() {
            let room = 10 * between(rng, 40, 130) * mast.len() as i64;
            draft.row(mast, LE, room);
        }
    }
    draft
}

fn usual(rng: &mut Rng) -> Draft {
    let units = match rng.below(12) {
        0 => rng.between(20, 60),
        1..=4 => rng.between(8, 20),
        _ => rng.between(1, 8),
    };
    ordinary(rng, units, 6)
}

/// One that is quickly solved, as a place for something else.
fn plain(rng: &mut Rng) -> Draft {
    let units = rng.between(1, 5);
    ordinary(rng, units, 1_000_000)
}

/// One with room for all, so that either stage starts at its end, as a place for what wants a feasible start.
fn calm(rng: &mut Rng) -> Draft {
    let mut draft = plain(rng);
    for j in 0..draft.columns() {
        if draft.alarms[j] != 0 {
            draft.reports[j] = -between(rng, 1, 9);
        }
    }
    for row in &mut draft.rows {
        let taken = row
            .entries
            .iter()
            .map(|(j, a)| a * draft.bounds[*j].1.unwrap_or(0));
        row.rhs = taken.sum::<i64>() + between(rng, 0, 500);
    }
    draft
}

/// A few columns with narrow bounds, of which every plan can be tried.
fn tiny(rng: &mut Rng) -> Draft {
    let mut draft = Draft::new();
    let columns = rng.between(1, 4);
    for _ in 0..columns {
        let lower = between(rng, -2, 1);
        let upper = lower + between(rng, 0, 7);
        let report = between(rng, -6, 4);
        draft.column(between(rng, -6, 3), report, Some(lower), Some(upper));
    }
    for _ in 0..rng.between(0, 3) {
        let op = rng.pick(&[LE, LE, LE, GE, EQ]);
        let cell = |column| (column, between(rng, -2, 4));
        let entries: Vec<(usize, i64)> = (0..columns).map(cell).collect();
        let most = entries.iter().map(|(j, a)| {
            let (lower, upper) = draft.bounds[*j];
            a * if *a > 0 { upper } else { lower }.unwrap_or(0)
        });
        let most: i64 = most.sum();
        let rhs = match op {
            LE => most - between(rng, 0, 12),
            GE => between(rng, -6, 3),
            _ => between(rng, 0, 4),
        };
        draft.row(entries, op, rhs);
    }
    draft
}

/// Coefficients above 1, so that what is cheapest is seldom whole, and bounds that are partly absent.
fn uneven(rng: &mut Rng) -> Draft {
    let mut draft = Draft::new();
    let columns = rng.between(2, 7);
    for _ in 0..columns {
        let upper = if rng.one_in(4) {
            None
        } else {
            Some(between(rng, 3, 90))
        };
        draft.column(-between(rng, 0, 5), -between(rng, 0, 9), Some(0), upper);
    }
    for _ in 0..rng.between(1, 4) {
        let entries = (0..columns).map(|j| (j, between(rng, 1, 9))).collect();
        draft.row(entries, LE, between(rng, 20, 400));
    }
    draft
}

/// As `uneven`, with the first stage at an end of the bounds: its gap is 0, and the second is what isn't whole.
fn uneven_later(rng: &mut Rng) -> Draft {
    let mut draft = uneven(rng);
    for alarm in &mut draft.alarms {
        *alarm = 0;
    }
    if rng.one_in(2) {
        // An alarm that fits whatever the rest takes.
        let most = between(rng, 1, 30);
        draft.column(
            -between(rng, 1, 4),
            -between(rng, 0, 2),
            Some(0),
            Some(most),
        );
    }
    draft
}

/// Whole amounts with prices that aren't: of the gap and the floor only the multipliers' rounding is left. In either
/// stage.
fn thirds(rng: &mut Rng) -> Draft {
    let mut draft = calm(rng);
    let first = rng.one_in(2);
    for _ in 0..rng.between(1, 4) {
        let cost = -between(rng, 1, 20);
        let (alarm, report) = if first { (cost, 0) } else { (0, cost) };
        let column = draft.column(alarm, report, Some(0), None);
        let times = rng.pick(&[3, 5, 6, 7, 9, 11]);
        draft.row(vec![(column, times)], LE, times * between(rng, 1, 60));
    }
    draft
}

/// Columns that each take a stretch of rows: the cheapest amounts and their prices are whole, after many steps.
fn stretches(rng: &mut Rng) -> Draft {
    let mut draft = Draft::new();
    let rows = rng.between(80, 95);
    let mut entries = vec![vec![]; rows];
    let mut left = 1_700;
    for j in 0..rng.between(100, 128) {
        let length = rng.between(1, 28).min(left).max(1);
        let from = rng.below(rows - length + 1);
        let cost = -between(rng, 1, 40 * length as i64);
        // One without a most must not want more in the second stage, which would be refused.
        if rng.one_in(2) {
            draft.column(cost, -between(rng, 0, 2), Some(0), Some(40));
        } else {
            draft.column(cost, between(rng, 0, 2), Some(0), None);
        }
        for row in &mut entries[from..from + length] {
            row.push((j, 1));
        }
        left = left.saturating_sub(length);
    }
    for entries in entries {
        let taken = entries.iter().map(|(j, _)| draft.bounds[*j].1.unwrap_or(0));
        let rhs = taken.sum::<i64>() + between(rng, 0, 60);
        draft.row(entries, LE, rhs);
    }
    draft
}

// ---- the families

/// How many nights a family has, and how one is made.
type Family = (&'static str, usize, fn(&mut Rng) -> Night);

fn of(rng: &mut Rng, family: &'static str, draft: fn(&mut Rng) -> Draft) -> Night {
    let draft = draft(rng);
    draft.night(family, rng)
}

const FAMILIES: [Family; 7] = [
    ("ordinary", 2_560, |rng| of(rng, "ordinary", usual)),
    ("tiny", 600, |rng| of(rng, "tiny", tiny)),
    ("uneven", 220, |rng| of(rng, "uneven", uneven)),
    ("uneven later", 220, |rng| {
        of(rng, "uneven later", uneven_later)
    }),
    ("thirds", 350, |rng| of(rng, "thirds", thirds)),
    ("stretches", 40, |rng| of(rng, "stretches", stretches)),
    ("short", 510, short),
];

/// Every seeded night.
pub fn nights(seed: u64, see: &mut dyn FnMut(Night)) {
    let families = FAMILIES
        .iter()
        .chain(&stages::FAMILIES)
        .chain(&growth::FAMILIES);
    for (name, count, make) in families {
        let mut rng = Rng::named(seed, name);
        for _ in 0..*count {
            see(make(&mut rng));
        }
    }
}

/// One array a cell too short, each in turn.
fn short(rng: &mut Rng) -> Night {
    let mut night = plain(rng).night("short", rng);
    let plan = &mut night.plan;
    match rng.below(15) {
        0 => drop(plan.coef.pop()),
        1 => drop(plan.cost.pop()),
        2 => drop(night.reports.pop()),
        3 => drop(plan.lower.pop()),
        4 => drop(plan.upper.pop()),
        5 => drop(plan.haslow.pop()),
        6 => drop(plan.hasup.pop()),
        7 => drop(plan.rhs.pop()),
        8 => drop(plan.ops.pop()),
        9 => night.lent.values = (plan.columns + plan.rows) as usize,
        10 => night.lent.numbers = sections::NUMBERS - 1,
        11 => night.lent.doubles = sections::DOUBLES - 1,
        12 => night.lent.factor_numbers = sections::FACTOR_NUMBERS - 1,
        13 => night.lent.factor_coeffs = sections::FACTOR_COEFFS - 1,
        _ => night.whole = WHOLE - 1,
    }
    night
}

// ---- what is counted

/// The names of the kinds, from 1 on.
const KINDS: [&str; 7] = [
    "no gap",
    "rows full",
    "entries full",
    "cost beyond",
    "found beyond",
    "the first stands",
    "handed",
];

/// What a stage came to.
fn outcome(stage: &Stage) -> String {
    match &stage.audit {
        Audit::NotRun => format!("the run gives {}", status(stage)),
        Audit::NotWhole(missed) if missed.kind == 2 => "an amount isn't whole".into(),
        Audit::NotWhole(_) => "a multiplier isn't whole".into(),
        Audit::NotOpened(refused) => format!("opening gives {refused}"),
        Audit::Judged(Verdict::NoPlan) => "not a plan".into(),
        Audit::Judged(Verdict::NoFloor) => "no floor".into(),
        Audit::Judged(Verdict::NoneExists) => "none exists".into(),
        Audit::Judged(Verdict::Gap(0)) => "a gap of 0".into(),
        Audit::Judged(Verdict::Gap(_)) => "a gap above 0".into(),
        Audit::Judged(Verdict::Refused(refused)) => format!("the verdict gives {refused}"),
    }
}

/// Each thing that is to be reached, and how often at least.
pub fn wanted() -> Vec<(String, u64)> {
    let mut wanted: Vec<(String, u64)> = vec![];
    let mut want = |name: &str, least| wanted.push((name.to_string(), least));
    want("seeded nights", 5_000);
    let arrays = reference::lengths(&Draft::new().night("", &mut Rng::new(1)));
    for (name, _, _) in arrays {
        want(&format!("short memory: {name}"), 20);
    }
    for (name, least) in [("rows full", 40), ("entries full", 40), ("cost beyond", 60)] {
        want(name, least);
    }
    want("found beyond", 40);
    want("the first stands", 300);
    want("handed", 2_500);
    // Not given: 3, since entries are laid by rising columns, and 6 and 22 to nobody; to a second stage 1, 4 and 5,
    // which the first has passed. Nor 11 and 13 at opening, since 1 and 4 come before; nor the verdict that none
    // exists, since where all costs are 0 so are prices and multipliers.
    for (number, least) in [
        (1, 80),
        (2, 100),
        (4, 30),
        (5, 30),
        (7, 40),
        (20, 30),
        (21, 40),
        (23, 20),
        (24, 20),
        (25, 20),
        (26, 40),
    ] {
        want(&format!("no gap: the run gives {number}"), least);
    }
    for (number, least) in [
        (2, 30),
        (7, 60),
        (20, 30),
        (21, 30),
        (23, 20),
        (24, 20),
        (25, 10),
        (26, 20),
    ] {
        want(&format!("the first stands: the run gives {number}"), least);
    }
    for (name, least) in [
        ("an amount isn't whole", 30),
        ("a multiplier isn't whole", 30),
    ] {
        want(&format!("no gap: {name}"), least);
        want(&format!("the first stands: {name}"), least);
    }
    want("no gap: opening gives 12", 100);
    want("the first stands: opening gives 12", 40);
    want("no gap: not a plan", 60);
    want("the first stands: not a plan", 60);
    want("no gap: no floor", 20);
    want("handed: no floor", 20);
    want("handed: a gap of 0", 1_500);
    want("handed: a gap above 0", 200);
    want("handed after a first gap above 0", 100);
    want("the first stands after a first gap above 0", 20);
    want("handed: other amounts than the first stage's", 1_500);
    for (name, least) in stages::WANTED {
        want(name, least);
    }
    for stage in ["first", "second"] {
        want(&format!("{stage} stages with a factor"), 15);
        want(&format!("{stage} stages with dual steps"), 100);
    }
    want("second stages without a factor after a first with one", 5);
    for (k, least) in [(1, 300), (2, 200), (3, 150)] {
        want(
            &format!("nights whose plans in 1/{k} were all tried"),
            least,
        );
    }
    want("nights with more than one plan among them", 500);
    wanted
}

/// What a night has reached.
pub fn count(night: &Night, told: &Told, memory: &Memory, tried: &mut Tried) {
    let mut reach = |name: String| tried.reach(name);
    reach("seeded nights".into());
    if told.short {
        for (name, lent, needed) in reference::lengths(night) {
            if lent < needed {
                reach(format!("short memory: {name}"));
            }
        }
        return;
    }
    let kind = KINDS[told.kind - 1];
    reach(kind.into());
    let first = told.first.as_ref().expect("every other answer has it");
    let second = told.second.as_ref();
    let last = second.unwrap_or(first);
    reach(format!("{kind}: {}", outcome(last)));
    if matches!(first.audit, Audit::Judged(Verdict::Gap(1..))) {
        reach(format!("{kind} after a first gap above 0"));
    }
    let columns = night.plan.columns as usize;
    let (own, handed) = (&memory.whole[FIRST..], &memory.whole[HANDED..]);
    if told.kind == 7 && own[..columns] != handed[..columns] {
        reach("handed: other amounts than the first stage's".into());
    }
    for (name, stage) in [("first", Some(first)), ("second", second)] {
        let state = stage.and_then(|stage| stage.run.state.as_ref());
        if state.is_some_and(|state| state.factor.is_some()) {
            reach(format!("{name} stages with a factor"));
        }
        if state.is_some_and(|state| state.dual_steps > 0) {
            reach(format!("{name} stages with dual steps"));
        }
    }
    let factor = |stage: &Stage| stage.run.state.as_ref().map(|state| state.factor.is_some());
    if factor(first) == Some(true) && second.and_then(factor) == Some(false) {
        reach("second stages without a factor after a first with one".into());
    }
    stages::count(night, told, memory, &mut reach);
}
