//! Doubles to whole numbers through the library, beside a rounding of its own in 128-bit whole numbers.

use oracle::exchange::{Item, Reader};
use oracle::plan::Plan;
use oracle::rng::Rng;

use crate::lent::{Cell, Lent};
use crate::library::{
    tevalumi_amount, tevalumi_multiplier, tevalumi_propose, tevalumi_solve, Proposal, Whole,
};
use crate::{sections, EXTRA};

const AMOUNT: u128 = 1 << 16;
const MULTIPLIER: u128 = 1 << 20;

/// A double's case. Of the double that is beyond, its bits.
#[derive(Clone, Copy, Debug, PartialEq)]
pub enum Case {
    Whole(i64),
    Beyond(u64),
    NotANumber,
}

/// What has been seen, and what went wrong.
#[derive(Debug, Default)]
pub struct Tally {
    passed: u64,
    failed: u64,
    doubles: u64,
    whole: u64,
    beyond: u64,
    not_numbers: u64,
    plans: u64,
    proposed: u64,
    amounts: u64,
    multipliers: u64,
    nothing: u64,
    damaged: u64,
}

impl Tally {
    fn check(&mut self, good: bool, what: impl FnOnce() -> String) {
        match good {
            true => self.passed += 1,
            false => {
                self.failed += 1;
                if self.failed <= 20 {
                    println!("wholes: {}", what());
                }
            }
        }
    }

    /// Prints the counts; whether all is well and each case was met.
    pub fn report(mut self) -> bool {
        println!(
            "doubles: {}, as amounts {} whole, {} beyond, {} not numbers",
            self.doubles, self.whole, self.beyond, self.not_numbers
        );
        println!(
            "plans: {} Optimal, {} proposed, {} with an amount and {} with a multiplier beyond; {} others; {} damaged memories",
            self.plans, self.proposed, self.amounts, self.multipliers, self.nothing, self.damaged
        );
        let met = [
            ("whole", self.whole),
            ("beyond", self.beyond),
            ("not a number", self.not_numbers),
            ("proposed", self.proposed),
            ("an amount beyond", self.amounts),
            ("a multiplier beyond", self.multipliers),
            ("a status that isn't 0", self.nothing),
        ];
        for (name, count) in met {
            self.check(count > 0, || format!("no case of {name}"));
        }
        println!("{} passed, {} failed", self.passed, self.failed);
        self.failed == 0
    }
}

// ---- the rounding

/// A finite double is exactly m * 2^e, negative or not.
fn exactly(x: f64) -> (bool, u128, i32) {
    let bits = x.to_bits();
    let (exponent, fraction) = ((bits >> 52) & 0x7ff, bits & ((1 << 52) - 1));
    let (m, e) = match exponent {
        0 => (fraction, -1074),
        _ => (fraction | 1 << 52, exponent as i32 - 1075),
    };
    (bits >> 63 == 1, u128::from(m), e)
}

/// The whole number nearest to m * 2^e, a tie to the even one; none past 2^120.
fn nearest(m: u128, e: i32) -> Option<u128> {
    if m == 0 {
        return Some(0);
    }
    if e >= 0 {
        return (e < 50).then(|| m << e);
    }
    let digits = -e as u32;
    if digits > 120 {
        return Some(0);
    }
    let (floor, rest, half) = (m >> digits, m % (1 << digits), 1 << (digits - 1));
    let up = rest > half || (rest == half && floor % 2 == 1);
    Some(floor + u128::from(up))
}

fn case(x: f64, times: u128, turned: bool, limit: u128, beyond: f64) -> Case {
    if x.is_nan() {
        return Case::NotANumber;
    }
    if x.is_infinite() {
        return Case::Beyond(beyond.to_bits());
    }
    let (negative, m, e) = exactly(x);
    match nearest(m * times, e) {
        Some(w) if w <= limit && negative != turned => Case::Whole(-(w as i64)),
        Some(w) if w <= limit => Case::Whole(w as i64),
        _ => Case::Beyond(beyond.to_bits()),
    }
}

pub(crate) fn amount(x: f64) -> Case {
    case(x, 1, false, AMOUNT, x)
}

pub(crate) fn multiplier(op: u8, price: f64) -> Case {
    match case(price, 1024, true, MULTIPLIER, -1024.0 * price) {
        Case::Whole(w) if (op == 0 && w > 0) || (op >= 2 && w < 0) => Case::Whole(0),
        other => other,
    }
}

/// The library's answer; what it doesn't use has to be 0.
fn told(whole: Whole) -> Option<Case> {
    let beyond = whole.beyond.to_bits();
    match (whole.kind, whole.number, beyond) {
        (0, w, 0) => Some(Case::Whole(w)),
        (1, 0, _) => Some(Case::Beyond(beyond)),
        (2, 0, 0) => Some(Case::NotANumber),
        _ => None,
    }
}

// ---- single doubles

fn one(x: f64, tally: &mut Tally) {
    let ours = amount(x);
    tally.doubles += 1;
    match ours {
        Case::Whole(_) => tally.whole += 1,
        Case::Beyond(_) => tally.beyond += 1,
        Case::NotANumber => tally.not_numbers += 1,
    }
    let good = told(tevalumi_amount(x)) == Some(ours)
        && [0, 1, 2, 255]
            .into_iter()
            .all(|op| told(tevalumi_multiplier(op, x)) == Some(multiplier(op, x)));
    if !good {
        tally.check(false, || format!("{x:e} ({:#x})", x.to_bits()));
    }
}

/// x with its neighbours and their negatives.
fn around(x: f64, tally: &mut Tally) {
    for bits in [x.to_bits() - 1, x.to_bits(), x.to_bits() + 1] {
        one(f64::from_bits(bits), tally);
        one(-f64::from_bits(bits), tally);
    }
}

/// So many doubles: every exponent, halves and whole numbers of amounts and of multipliers with their neighbours, the
/// edges, and then random bits and random sizes.
pub fn doubles(count: u64, tally: &mut Tally) {
    let failed = tally.failed;
    for x in [0.0, f64::INFINITY, f64::NAN, f64::MAX, f64::MIN_POSITIVE] {
        one(x, tally);
        one(-x, tally);
    }
    for exponent in 0..2047u64 {
        for fraction in [0, 1, 1 << 51, (1 << 51) - 1, (1 << 52) - 1] {
            let x = f64::from_bits(exponent << 52 | fraction);
            one(x, tally);
            one(-x, tally);
        }
    }
    for k in 1..=(2 * AMOUNT + 8) as u64 {
        around(k as f64 / 2.0, tally);
    }
    for k in 1..=(2 * MULTIPLIER + 8) as u64 {
        if k < 1 << 15 || k % 64 < 3 || k + 64 > (2 * MULTIPLIER) as u64 {
            around(k as f64 / 2048.0, tally);
        }
    }
    let mut rng = Rng::named(1, "wholes");
    while tally.doubles < count {
        one(f64::from_bits(rng.next()), tally);
        one(rng.sized(-40, 40), tally);
    }
    tally.check(tally.failed == failed, || "doubles differ".into());
}

// ---- the memory of runs

struct Run {
    status: usize,
    starts: Vec<usize>,
    ops: Vec<u8>,
    values: Vec<f64>,
    numbers: Vec<usize>,
    doubles: Vec<f64>,
}

fn run(plan: &Plan) -> Run {
    let places = |from: &[u64]| from.iter().map(|&n| n as usize).collect::<Vec<_>>();
    let ops: Vec<u8> = plan.ops.iter().map(|&op| op.min(255) as u8).collect();
    let starts = places(&plan.starts);
    let mut values = vec![f64::MARK; plan.cost.len() + plan.rhs.len()];
    let mut numbers = vec![usize::MARK; sections::NUMBERS];
    let mut doubles = vec![f64::MARK; sections::DOUBLES];
    let mut factor_numbers = vec![usize::MARK; sections::FACTOR_NUMBERS];
    let mut factor_coeffs = vec![f64::MARK; sections::FACTOR_COEFFS];
    let answer = tevalumi_solve(
        plan.columns as usize,
        plan.rows as usize,
        plan.entries as usize,
        plan.budget as usize,
        plan.tolerance,
        &plan.cost,
        &plan.lower,
        &plan.upper,
        &starts,
        &places(&plan.cols),
        &plan.coef,
        &ops,
        &plan.rhs,
        &mut values,
        &mut numbers,
        &mut doubles,
        &mut factor_numbers,
        &mut factor_coeffs,
    );
    Run {
        status: answer.status,
        starts,
        ops,
        values,
        numbers,
        doubles,
    }
}

/// The multiplier's case of each row: by the kept rows' own list, the rest is dropped.
fn multipliers(plan: &Plan, run: &Run) -> Vec<Case> {
    let columns = plan.columns as usize;
    let mut cases = vec![Case::Whole(0); plan.rows as usize];
    let kept = run.numbers[sections::COUNTS][0];
    for (k, &row) in run.numbers[sections::KEPT][..kept].iter().enumerate() {
        let place = run.numbers[sections::VAR_STATES][columns + k];
        if place < columns {
            cases[row] = multiplier(run.ops[row], run.doubles[sections::PRICES][place]);
        }
    }
    cases
}

/// Calls with arrays that are longer than needed; what is left of them, and whether a cell changed that must not.
fn propose(plan: &Plan, run: &Run, extra: usize) -> (Proposal, Vec<i64>, Vec<i64>, bool) {
    let (columns, rows) = (plan.columns as usize, plan.rows as usize);
    let mut amounts = Lent::<i64>::marked(columns + extra);
    let mut mults = Lent::<i64>::marked(rows + extra);
    let before = (amounts.clone(), mults.clone());
    let told = tevalumi_propose(
        columns,
        rows,
        &run.starts,
        &run.ops,
        &run.values,
        &run.numbers,
        &run.doubles,
        amounts.lend(),
        mults.lend(),
    );
    let wrote = told.status == 0 && told.kind == 0;
    let stayed = amounts.stayed(&before.0, if wrote { columns } else { 0 })
        && mults.stayed(&before.1, if wrote { rows } else { 0 });
    let (amounts, mults) = (&amounts.get()[..columns], &mults.get()[..rows]);
    (told, amounts.to_vec(), mults.to_vec(), stayed)
}

/// Whether an answer names no number.
fn bare(told: &Proposal, status: usize, kind: usize) -> bool {
    (told.status, told.kind, told.place) == (status, kind, 0)
        && self::told(told.answer) == Some(Case::Whole(0))
}

fn optimal(plan: &Plan, run: &Run, rng: &mut Rng, tally: &mut Tally) {
    let columns = plan.columns as usize;
    let amounts: Vec<Case> = run.values[..columns].iter().map(|&x| amount(x)).collect();
    let mults = multipliers(plan, run);
    let whole = |case: &Case| matches!(case, Case::Whole(_));
    let (answer, x, y, stayed) = propose(plan, run, rng.below(EXTRA));
    let named = |kind: usize, place: usize, case: Case| {
        (answer.status, answer.kind, answer.place) == (0, kind, place)
            && told(answer.answer) == Some(case)
    };
    let same = |ours: &[i64], cases: &[Case]| {
        ours.iter()
            .zip(cases)
            .all(|(&w, &case)| case == Case::Whole(w))
    };
    let good = match (
        amounts.iter().position(|case| !whole(case)),
        mults.iter().position(|case| !whole(case)),
    ) {
        (Some(j), _) => {
            tally.amounts += 1;
            named(2, j, amounts[j])
        }
        (None, Some(i)) => {
            tally.multipliers += 1;
            named(3, i, mults[i])
        }
        (None, None) => {
            tally.proposed += 1;
            bare(&answer, 0, 0) && same(&x, &amounts) && same(&y, &mults)
        }
    };
    tally.plans += 1;
    tally.check(good && stayed, || {
        format!("{}: {answer:?} {x:?} {y:?}", plan.id)
    });
}

/// One cell of the memory changed so that the rows or maps aren't the run's any more.
fn damage(plan: &Plan, run: &mut Run, rng: &mut Rng) -> bool {
    let columns = plan.columns as usize;
    let kept = run.numbers[sections::COUNTS][0];
    let cell =
        |from: usize, cells: usize, rng: &mut Rng| (cells > 0).then(|| from + rng.below(cells));
    let at = match rng.below(5) {
        0 => Some(sections::COUNTS.start),
        1 => cell(sections::KEPT.start, kept, rng),
        2 => cell(sections::BASIC_VARS.start, kept, rng),
        3 => cell(sections::NB_VARS.start, columns, rng),
        _ => cell(sections::VAR_STATES.start, columns + kept, rng),
    };
    let Some(at) = at else { return false };
    let old = run.numbers[at];
    run.numbers[at] = match rng.below(3) {
        0 => old.wrapping_add(1),
        1 => usize::MAX,
        _ => rng.below(columns + kept + 2),
    };
    run.numbers[at] != old
}

fn others(plan: &Plan, run: &mut Run, rng: &mut Rng, tally: &mut Tally) {
    let status = run.numbers[sections::COUNTS.start + 4];
    run.numbers[sections::COUNTS.start + 4] = rng.between(1, 30);
    let (answer, _, _, stayed) = propose(plan, run, 0);
    tally.check(bare(&answer, 0, 1) && stayed, || {
        format!("{}: another status gives {answer:?}", plan.id)
    });
    run.numbers[sections::COUNTS.start + 4] = status;
    if damage(plan, run, rng) {
        let (answer, _, _, stayed) = propose(plan, run, 0);
        tally.damaged += 1;
        tally.check(bare(&answer, 41, 0) && stayed, || {
            format!("{}: a damaged memory gives {answer:?}", plan.id)
        });
    }
    run.doubles.pop();
    let (answer, _, _, stayed) = propose(plan, run, 0);
    tally.check(bare(&answer, 1, 0) && stayed, || {
        format!("{}: a short array gives {answer:?}", plan.id)
    });
}

/// The memory of every plan of the text that is solved, each Optimal one also damaged.
pub fn plans(text: &str, tally: &mut Tally) -> Result<(), String> {
    let mut rng = Rng::named(1, "proposals");
    for item in Reader::new(text.as_bytes()) {
        let Item::Plan(plan) = item? else { continue };
        let mut run = run(&plan);
        match run.status {
            0 => {
                optimal(&plan, &run, &mut rng, tally);
                others(&plan, &mut run, &mut rng, tally);
            }
            20..=26 => {
                let (answer, _, _, stayed) = propose(&plan, &run, 0);
                tally.nothing += 1;
                tally.check(bare(&answer, 0, 1) && stayed, || {
                    format!("{}: {} gives {answer:?}", plan.id, run.status)
                });
            }
            _ => {}
        }
    }
    Ok(())
}
