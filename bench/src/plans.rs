//! 200 seeded plans of the gateway's sizes, and 100 longer ones: units that want radio milliseconds, and
//! rows that share them out. And 100 whose start isn't feasible, so that they begin with dual steps.

use oracle::limits;
use oracle::plan::Plan;
use oracle::rng::Rng;

pub const COUNT: usize = 200;
pub const LONG_COUNT: usize = 100;
pub const DUAL_COUNT: usize = 100;
pub const SEED: u64 = 2_026;

/// 10 to 64 rows, 20 to 128 columns, 5 to 20 % dense.
pub fn gateway() -> Vec<Plan> {
    let mut rng = Rng::named(SEED, "bench");
    let next = |number| {
        let (rows, columns) = (rng.between(10, 64), rng.between(20, 128));
        let percent = rng.between(5, 20);
        plan(format!("bench.{number}"), rows, columns, percent, &mut rng)
    };
    (0..COUNT).map(next).collect()
}

/// 64 to 96 rows, 128 columns, 10 to 20 % dense, as far as the entries' limit allows: most runs factor their basis.
pub fn long() -> Vec<Plan> {
    let mut rng = Rng::named(SEED, "long");
    let mut plans = vec![];
    while plans.len() < LONG_COUNT {
        let (rows, percent) = (rng.between(64, 96), rng.between(10, 20));
        let columns = limits::COLUMNS as usize;
        let id = format!("long.{}", plans.len());
        let plan = plan(id, rows, columns, percent, &mut rng);
        if plan.entries <= limits::ENTRIES {
            plans.push(plan);
        }
    }
    plans
}

/// 10 to 64 rows, 20 to 128 columns, 5 to 20 % dense. In turn: rows that ask for something that costs, and
/// columns with a most, all worth having, that the rows have no room for.
pub fn dual() -> Vec<Plan> {
    let mut rng = Rng::named(SEED, "dual");
    let next = |number| {
        let (rows, columns) = (rng.between(10, 64), rng.between(20, 128));
        let percent = rng.between(5, 20);
        let asks = number % 2 == 0;
        dual_plan(
            format!("dual.{number}"),
            rows,
            columns,
            percent,
            asks,
            &mut rng,
        )
    };
    (0..DUAL_COUNT).map(next).collect()
}

fn dual_plan(
    id: String,
    rows: usize,
    columns: usize,
    percent: usize,
    asks: bool,
    rng: &mut Rng,
) -> Plan {
    let mut plan = sized(id, rows, columns);
    for _ in 0..columns {
        let cost = 1.0 + rng.unit() * 30.0;
        plan.cost.push(if asks { cost } else { -cost });
        plan.lower.push(0.0);
        plan.upper.push(if asks {
            f64::INFINITY
        } else {
            rng.between(1, 60) as f64
        });
    }
    for _ in 0..rows {
        let owner = rng.below(columns);
        let mut sum = 0.0;
        for column in 0..columns {
            if rng.below(100) < percent || owner == column {
                let coef = rng.between(1, 40) as f64 + rng.unit();
                plan.cols.push(column as u64);
                plan.coef.push(coef);
                sum += coef * if asks { 1.0 } else { plan.upper[column] };
            }
        }
        // The start gives 0 of what is asked; or it takes all of `sum`, of which there is room for a part.
        let share = 0.2 + 0.6 * rng.unit();
        plan.ops.push(if asks { 2 } else { 0 });
        plan.rhs.push(sum * share);
        plan.starts.push(plan.cols.len() as u64);
    }
    plan.entries = plan.cols.len() as u64;
    plan
}

/// A plan of these sizes without columns and rows.
fn sized(id: String, rows: usize, columns: usize) -> Plan {
    Plan {
        id,
        columns: columns as u64,
        rows: rows as u64,
        budget: 10_000,
        tolerance: 1e-6,
        starts: vec![0],
        ..Plan::default()
    }
}

pub fn plan(id: String, rows: usize, columns: usize, percent: usize, rng: &mut Rng) -> Plan {
    let mut plan = sized(id, rows, columns);
    let mut start = vec![];
    for _ in 0..columns {
        // Most columns are reports worth sending, with or without a most; some only cost.
        let cost = if rng.one_in(8) {
            rng.between(1, 9) as f64
        } else {
            -1.0 - rng.unit() * 30.0
        };
        let upper = match rng.below(4) {
            0 => rng.between(1, 60) as f64,
            _ => f64::INFINITY,
        };
        plan.cost.push(cost);
        plan.lower.push(0.0);
        plan.upper.push(upper);
        start.push(if cost < 0.0 && upper.is_finite() {
            upper
        } else {
            0.0
        });
    }
    // One row in twelve asks for at least something, which the start already gives. Every column
    // has an entry in another row, and only a column with a most gives room back in some, so no
    // sum can grow without end.
    let asks: Vec<bool> = (0..rows).map(|row| row > 0 && rng.one_in(12)).collect();
    let sharing: Vec<usize> = (0..rows).filter(|&row| !asks[row]).collect();
    let owner: Vec<usize> = (0..columns).map(|_| rng.pick(&sharing)).collect();
    for (row, &asks) in asks.iter().enumerate() {
        let mut sum = 0.0;
        for column in 0..columns {
            let drawn = rng.below(100) < percent;
            if drawn || owner[column] == row {
                let size = rng.between(1, 40) as f64 + rng.unit();
                let back = plan.upper[column].is_finite() && rng.one_in(3);
                let coef = if back { -size / 8.0 } else { size };
                plan.cols.push(column as u64);
                plan.coef.push(coef);
                sum += coef * start[column];
            }
        }
        let room = rng.between(50, 900) as f64;
        plan.ops.push(if asks { 2 } else { 0 });
        plan.rhs.push(if asks { sum - room } else { sum + room });
        plan.starts.push(plan.cols.len() as u64);
    }
    plan.entries = plan.cols.len() as u64;
    plan
}
