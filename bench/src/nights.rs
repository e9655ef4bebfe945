//! Whole nights: two solves and their audits by one call of the library, beside the same over the oracles.

use driver::nights::reference::{night as oracle_night, Memory, Night, Told, WHOLE};
use driver::plans::Lengths;
use oracle::answer::Answer;
use oracle::rng::Rng;
use oracle_sheet::reference::{Sheet, LE};
use tevalumi::raw::{sections, Workspace};

use crate::ffi::{self, tevalumi_night};
use crate::plans::SEED;
use crate::race::{Case, Made, Repeated, Set, Side, LIBRARY, ORACLE};
use crate::sides::bits;

const COUNT: usize = 50;
/// The second stage's amounts are handed out.
const HANDED: usize = 7;

/// The memory that a night is lent.
pub struct Lent {
    work: Box<Workspace>,
    values: Vec<f64>,
    whole: Vec<i64>,
}

impl Lent {
    pub fn new(night: &Night) -> Lent {
        Lent {
            work: Box::default(),
            values: vec![0.0; night.lent.values],
            whole: vec![0; night.whole],
        }
    }

    pub fn run(&mut self, night: &Night) -> ffi::Night {
        let (plan, work) = (&night.plan, &mut self.work);
        tevalumi_night(
            plan.rows as usize,
            plan.columns as usize,
            &plan.coef,
            &plan.cost,
            &night.reports,
            &plan.lower,
            &plan.upper,
            &plan.haslow,
            &plan.hasup,
            &plan.rhs,
            &plan.ops,
            night.budget,
            night.tolerance,
            &mut self.values,
            &mut work.numbers,
            &mut work.doubles,
            &mut work.factor_numbers,
            &mut work.factor_coeffs,
            &mut self.whole,
        )
    }
}

/// The oracles' memory, as it is lent.
fn blank(night: &Night) -> Memory {
    Memory {
        values: vec![0.0; night.lent.values],
        numbers: vec![0; night.lent.numbers],
        doubles: vec![0.0; night.lent.doubles],
        factor_numbers: vec![0; night.lent.factor_numbers],
        factor_coeffs: vec![0.0; night.lent.factor_coeffs],
        whole: vec![0; night.whole],
        emptied: vec![],
    }
}

/// Units share the air, each field's units a mast, and of half of them alarm and soil reports a radio; those behind the
/// hill take air twice.
fn night(rng: &mut Rng) -> Night {
    let (units, fields) = (rng.between(16, 56), rng.between(3, 8));
    let ten = |rng: &mut Rng, low, high| 10 * rng.between(low, high) as i64;
    let (mut alarms, mut reports, mut uppers) = (vec![], vec![], vec![]);
    // The air, then the masts, then the radios.
    let mut rows = vec![vec![]; 1 + fields];
    for unit in 0..units {
        let (field, takes) = (unit % fields, if rng.one_in(4) { 2 } else { 1 });
        let mut radio = vec![];
        for alarm in [true, false] {
            if alarm && rng.one_in(3) {
                continue;
            }
            let column = uppers.len();
            let cost = -(rng.between(1, 9) as i64);
            alarms.push(if alarm { cost } else { 0 });
            reports.push(if alarm { 0 } else { cost });
            uppers.push(if alarm {
                ten(rng, 20, 120)
            } else {
                ten(rng, 150, 450)
            });
            rows[0].push((column, takes));
            rows[1 + field].push((column, 1));
            radio.push((column, 1));
        }
        if rng.one_in(2) {
            rows.push(radio);
        }
    }
    let (count, columns) = (rows.len(), uppers.len());
    let mut plan = Sheet {
        rows: count as u64,
        columns: columns as u64,
        coef: vec![0; count * columns],
        cost: alarms,
        lower: vec![0; columns],
        upper: uppers,
        haslow: vec![1; columns],
        hasup: vec![1; columns],
        ops: vec![LE; count],
        ..Sheet::default()
    };
    for (i, row) in rows.iter().enumerate() {
        for &(j, coef) in row {
            plan.coef[i * columns + j] = coef;
        }
        // There is room for a third to two thirds of what is wanted.
        let wanted: i64 = row.iter().map(|&(j, coef)| coef * plan.upper[j]).sum();
        plan.rhs.push(wanted * rng.between(3, 7) as i64 / 100 * 10);
    }
    Night {
        family: "bench",
        plan,
        reports,
        budget: 10_000,
        tolerance: 1e-6,
        lent: Lengths {
            values: columns + count + 1,
            numbers: sections::NUMBERS,
            doubles: sections::DOUBLES,
            factor_numbers: sections::FACTOR_NUMBERS,
            factor_coeffs: sections::FACTOR_COEFFS,
        },
        whole: WHOLE,
    }
}

/// The first seeded nights whose second stage's amounts are handed out.
pub fn all() -> Vec<Night> {
    let mut rng = Rng::named(SEED, "nights");
    let mut nights = vec![];
    while nights.len() < COUNT {
        let night = night(&mut rng);
        if Lent::new(&night).run(&night).kind == HANDED {
            nights.push(night);
        }
    }
    nights
}

/// A stage's run on both sides: status, steps and objective.
fn run_differs(ours: ffi::Answer, theirs: &Answer) -> bool {
    ours.status != usize::from(theirs.outcome.number())
        || ours.steps != theirs.steps as usize
        || ours.objective.to_bits() != theirs.objective.to_bits()
}

/// Where the two sides differ in kind, runs, values or whole numbers.
fn differs(ours: &ffi::Night, lent: &Lent, told: &Told, memory: &Memory) -> Option<String> {
    let runs = [
        (ours.first.run, &told.first),
        (ours.second.run, &told.second),
    ];
    let stage = |(ours, told): (ffi::Answer, &Option<_>)| match told {
        Some(stage) => run_differs(ours, &driver::nights::reference::Stage::clone(stage).run),
        None => true,
    };
    let differs = ours.kind != told.kind
        || runs.into_iter().any(stage)
        || bits(&lent.values) != bits(&memory.values)
        || lent.whole != memory.whole;
    differs.then(|| {
        format!(
            "the library's night is {ours:?}, the oracles' {}",
            told.kind
        )
    })
}

/// Every night; or how some differ.
pub fn set(nights: &[Night]) -> Made<'_> {
    let mut set = Set::new("night: two stages", &[LIBRARY, ORACLE]);
    let mut differ = vec![];
    for (at, night) in nights.iter().enumerate() {
        let (mut lent, mut memory) = (Lent::new(night), blank(night));
        let ours = lent.run(night);
        let told = oracle_night(night, &mut memory);
        let how = differs(&ours, &lent, &told, &memory);
        differ.extend(how.map(|how| format!("night.{at}: {how}")));
        let steps = ours.first.run.steps + ours.second.run.steps;
        let library = Repeated(move || {
            std::hint::black_box(lent.run(night));
        });
        let oracle = Repeated(move || {
            std::hint::black_box(oracle_night(night, &mut memory));
        });
        set.cases.push(Case {
            id: format!("night.{at}"),
            sides: vec![Side::new(steps, library), Side::new(steps, oracle)],
        });
    }
    set.made(differ)
}
