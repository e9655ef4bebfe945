//! What 01 says of lent lengths, tried on plans of every answer: "a lent array is too short" gives
//! 1 and changes nothing, longer is fine, and what stands past the needed length is no part of the
//! plan. Every line also says where a call changed a cell that it must leave.

use std::collections::BTreeMap;

use driver::plans::{line, Lengths};
use oracle::exchange::{answer_line, Extras, Item, Reader};
use oracle::families::Draft;
use oracle::gate;
use oracle::limits;
use oracle::plan::{Lent, Plan};
use oracle::rng::Rng;
use oracle::shown::Options;

const STATE: Extras = Extras {
    state: true,
    why: false,
};

const READ: [&str; 8] = [
    "cost", "lower", "upper", "starts", "cols", "coef", "ops", "rhs",
];

fn told(plan: &Plan) -> String {
    answer_line(&plan.id, &gate::solve(plan, Options::default()), STATE)
}

fn refused(plan: &Plan) -> String {
    let way = if plan.any { " way 0 0" } else { "" };
    format!("{} 1 - 0000000000000000 0 0{way}", plan.id)
}

fn needed(plan: &Plan, name: &str) -> usize {
    match name {
        "cost" | "lower" | "upper" => plan.columns as usize,
        "starts" => plan.rows as usize + 1,
        "cols" | "coef" => plan.entries as usize,
        _ => plan.rows as usize,
    }
}

/// Lends so many cells of an array that is read. Cells past its end are NaN, or numbers that no
/// plan may hold.
fn lend(plan: &mut Plan, name: &str, length: usize) {
    match name {
        "cost" => plan.cost.resize(length, f64::NAN),
        "lower" => plan.lower.resize(length, f64::NAN),
        "upper" => plan.upper.resize(length, f64::NAN),
        "starts" => plan.starts.resize(length, u64::MAX),
        "cols" => plan.cols.resize(length, u64::MAX),
        "coef" => plan.coef.resize(length, f64::NAN),
        "ops" => plan.ops.resize(length, 255),
        _ => plan.rhs.resize(length, f64::NAN),
    }
}

fn length(plan: &Plan, name: &str) -> usize {
    match name {
        "cost" => plan.cost.len(),
        "lower" => plan.lower.len(),
        "upper" => plan.upper.len(),
        "starts" => plan.starts.len(),
        "cols" => plan.cols.len(),
        "coef" => plan.coef.len(),
        "ops" => plan.ops.len(),
        _ => plan.rhs.len(),
    }
}

/// The plans of the fixed list whose sizes fit and whose arrays are long enough, cut to just that.
fn plans() -> Vec<Plan> {
    let text = include_str!("../../oracle/fixed.txt");
    let mut plans = vec![];
    for item in Reader::new(text.as_bytes()) {
        let Ok(Item::Plan(mut plan)) = item else {
            panic!("the fixed list holds plans");
        };
        let small = plan.columns <= limits::COLUMNS
            && plan.rows <= limits::ROWS
            && plan.entries <= limits::ENTRIES;
        if !small
            || READ
                .iter()
                .any(|name| length(&plan, name) < needed(&plan, name))
        {
            continue;
        }
        for name in READ {
            let length = needed(&plan, name);
            lend(&mut plan, name, length);
        }
        (plan.room, plan.short) = (None, vec![]);
        plans.push(plan);
    }
    plans
}

/// One cell short, and in every fifth plan no cell at all.
fn too_short(needed: usize, plan: usize) -> Vec<usize> {
    match plan % 5 {
        0 => vec![needed - 1, 0],
        _ => vec![needed - 1],
    }
}

/// How often each name was tried; each must have been tried often.
#[derive(Default)]
struct Tried(BTreeMap<String, usize>);

impl Tried {
    fn add(&mut self, name: &str) {
        *self.0.entry(name.to_string()).or_default() += 1;
    }

    fn assert(&self, names: usize, least: usize) {
        assert_eq!(self.0.len(), names);
        for (name, &count) in &self.0 {
            assert!(count >= least, "{name} was tried {count} times");
        }
    }
}

#[test]
fn just_long_enough_gives_the_oracles_answer() {
    let mut tried = Tried::default();
    for plan in plans() {
        assert_eq!(line(&plan, &Lengths::needed(&plan), true), told(&plan));
        tried.add(
            &gate::solve(&plan, Options::default())
                .outcome
                .number()
                .to_string(),
        );
    }
    // 0 to 5, 7, 20, 21 and 23 to 26: since 02 no plan is answered with 6 or 22.
    tried.assert(13, 1);
}

#[test]
fn a_read_array_too_short_gives_1() {
    let mut tried = Tried::default();
    for (i, plan) in plans().into_iter().enumerate() {
        for name in READ {
            let needed = needed(&plan, name);
            if needed == 0 {
                continue;
            }
            for length in too_short(needed, i) {
                let mut short = plan.clone();
                lend(&mut short, name, length);
                let lengths = Lengths::needed(&short);
                assert_eq!(line(&short, &lengths, true), refused(&plan), "{name}");
            }
            tried.add(name);
        }
    }
    tried.assert(READ.len(), 300);
}

#[test]
fn a_written_array_too_short_gives_1() {
    let mut tried = Tried::default();
    for (i, plan) in plans().into_iter().enumerate() {
        let needed = Lengths::needed(&plan);
        type Cut = fn(&mut Lengths, usize);
        let arrays: [(&str, usize, Cut); 5] = [
            ("values", needed.values, |l, to| l.values = to),
            ("numbers", needed.numbers, |l, to| l.numbers = to),
            ("doubles", needed.doubles, |l, to| l.doubles = to),
            ("factor_numbers", needed.factor_numbers, |l, to| {
                l.factor_numbers = to;
            }),
            ("factor_coeffs", needed.factor_coeffs, |l, to| {
                l.factor_coeffs = to;
            }),
        ];
        for (name, least, cut) in arrays {
            if least == 0 {
                continue;
            }
            for length in too_short(least, i) {
                let mut short = needed.clone();
                cut(&mut short, length);
                assert_eq!(line(&plan, &short, true), refused(&plan), "{name}");
            }
            tried.add(name);
        }
    }
    tried.assert(5, 300);
}

/// The steps of an answer line.
fn steps(line: &str) -> usize {
    let word = line.split(' ').nth(4).expect("a line has its steps");
    word.parse().expect("steps are a number")
}

/// A section that is said to be shorter than needed, or just as long, and an array of them: as the oracle answers. Each
/// plan is solved some forty times, so long runs are left to the other tests.
#[test]
fn a_short_section_gives_1_and_one_just_long_enough_does_not() {
    let mut tried = Tried::default();
    for plan in plans() {
        let told = told(&plan);
        if steps(&told) > 60 {
            continue;
        }
        for name in Lent::ALL.into_iter().chain(Lent::ARRAYS) {
            let needed = name.needed(plan.columns, plan.rows);
            for length in [needed.checked_sub(1), Some(needed)].into_iter().flatten() {
                let mut said = plan.clone();
                said.short = vec![(name, length)];
                let lengths = Lengths::told(&said, &mut Rng::named(1, "told"));
                let want = match length < needed {
                    true => refused(&plan),
                    false => told.clone(),
                };
                assert_eq!(line(&said, &lengths, true), want, "{}", name.name());
            }
            tried.add(name.name());
        }
    }
    tried.assert(20, 300);
}

#[test]
fn what_stands_past_the_end_is_not_seen() {
    for (i, plan) in plans().into_iter().enumerate() {
        let told = told(&plan);
        let mut lengths = Lengths::needed(&plan);
        lengths.values += i % 3;
        lengths.numbers += i % 4;
        lengths.doubles += (i + 1) % 4;
        lengths.factor_numbers += (i + 2) % 4;
        lengths.factor_coeffs += (i + 3) % 4;
        let mut longer = plan.clone();
        for (at, name) in READ.iter().enumerate() {
            let length = needed(&plan, name) + 1 + (i + at) % 3;
            lend(&mut longer, name, length);
        }
        assert_eq!(line(&longer, &lengths, true), told);
    }
}

/// A plan with every size at its limit.
fn largest() -> Plan {
    let mut draft = Draft {
        cost: (0..128).map(|j| -1.0 - (j % 7) as f64).collect(),
        lower: vec![0.0; 128],
        upper: vec![f64::INFINITY; 128],
        budget: limits::BUDGET,
        tolerance: 1e-6,
        ..Draft::default()
    };
    for i in 0..96 {
        // 32 rows of 22 entries, then 64 of 21: 2,048.
        let many = if i < 32 { 22 } else { 21 };
        let entry = |k: usize| (k * 5 + i % 23, 1.0 + ((i * k) % 5) as f64);
        draft.rows.push(oracle::families::Row {
            entries: (0..many).map(entry).collect(),
            op: 0,
            rhs: 100.0 + i as f64,
        });
    }
    let plan = draft.plan();
    Plan {
        id: "largest".into(),
        ..plan
    }
}

#[test]
fn every_limit_and_one_past_it() {
    let plan = largest();
    let sizes = (plan.columns, plan.rows, plan.entries, plan.budget);
    assert_eq!(sizes, (128, 96, 2048, 10_000));
    let told = told(&plan);
    assert!(told.starts_with("largest 0 "), "{told}");
    assert_eq!(line(&plan, &Lengths::needed(&plan), true), told);

    // Long enough for one more of anything.
    let mut longer = plan.clone();
    for name in READ {
        let length = needed(&plan, name) + 1;
        lend(&mut longer, name, length);
    }
    longer.starts[97] = 2048;
    let past: [fn(&mut Plan, u64); 4] = [
        |plan, more| plan.columns = plan.columns.saturating_add(more),
        |plan, more| plan.rows = plan.rows.saturating_add(more),
        |plan, more| plan.entries = plan.entries.saturating_add(more),
        |plan, more| plan.budget = plan.budget.saturating_add(more),
    ];
    for grow in past {
        for more in [1, u64::MAX] {
            let mut plan = longer.clone();
            grow(&mut plan, more);
            assert_eq!(line(&plan, &Lengths::needed(&plan), true), refused(&plan));
        }
    }
}

#[test]
fn nothing_at_all_is_a_plan() {
    let plan = Plan {
        id: "nothing".into(),
        starts: vec![0],
        ..Plan::default()
    };
    let told = told(&plan);
    assert!(told.starts_with("nothing 0 x:0000000000000000 0000000000000000 0 0 |"));
    assert_eq!(line(&plan, &Lengths::needed(&plan), true), told);
    let no_starts = Plan {
        starts: vec![],
        ..plan
    };
    let lengths = Lengths::needed(&no_starts);
    assert_eq!(line(&no_starts, &lengths, true), refused(&no_starts));
}
