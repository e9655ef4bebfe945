//! Whole amounts and multipliers for a sheet, several of each. The sheet judges every one and the best
//! are kept.
//!
//! A run ends with doubles. Rounded to the nearest they often break a row, or leave a price that
//! needs an absent bound, though good whole numbers are near. This search isn't proved and needs no
//! proof: what it finds is opened as a [`Sheet`], and the verdict is the sheet's.
//!
//! ```
//! use tevalumi::proposals::best;
//! use tevalumi::sheet::{Figures, Verdict};
//! use tevalumi::ComparisonOp;
//!
//! // Minimise -6 x0 - 2 x1 with 2 x0 + x1 <= 11: the run says 5.5 and 0, and 6 is too much.
//! let plan = Figures {
//!     rows: 1,
//!     columns: 2,
//!     coefs: vec![2, 1],
//!     costs: vec![-6, -2],
//!     lowers: vec![Some(0), Some(0)],
//!     uppers: vec![None, None],
//!     rhs: vec![11],
//!     ops: vec![ComparisonOp::Le],
//!     amounts: vec![6, 0],
//!     mults: vec![-3 * 1024],
//! };
//! let sheet = best(&plan, &[5.5, 0.0], &[-3.0])?;
//! assert_eq!((sheet.amount(0), sheet.amount(1)), (5, 1));
//! assert_eq!(sheet.verdict(), Verdict::Gap(1024));
//! # Ok::<(), tevalumi::sheet::Refusal>(())
//! ```

use crate::raw::limits::{SHEET_AMOUNT, SHEET_MULTIPLIER};
use crate::sheet::{Figures, Refusal, Sheet, Verdict};
use crate::ComparisonOp;

/// A search ends early where the gap is at most the cost's 10,000th part.
const CLOSE: i128 = 10_000;

/// The sheet with the best of several proposals. The figures have the first one; `values` are a
/// run's amounts and `mults` its multipliers, in units of cost.
///
/// # Errors
///
/// Why the sheet isn't opened with the first one.
pub fn best(figures: &Figures, values: &[f64], mults: &[f64]) -> Result<Sheet, Refusal> {
    let mut kept = Sheet::open(figures)?;
    let parts = Parts::new(figures);
    let mut figures = figures.clone();
    let cost = figures.costs.iter().zip(values);
    let cost: f64 = cost.map(|(&cost, &value)| cost as f64 * value).sum();
    for start in starts(&figures, mults) {
        let mut climber = Climber::at(&figures, &parts, start);
        climber.climb();
        figures.mults = climber.y;
        keep_the_better(&mut kept, &figures, floor_rank);
        // No floor is above what the run's plan costs.
        let left = cost * 1024.0 - kept.floor() as f64;
        if floor_rank(&kept).0 == 0 && left * 2.0 * CLOSE as f64 <= cost.abs() * 1024.0 {
            break;
        }
    }
    figures.mults = (0..figures.rows).map(|i| kept.multiplier(i)).collect();
    for base in bases(&figures, &parts, values) {
        if near(&kept) {
            break;
        }
        let mut amounts = Amounts::at(&figures, &parts, base);
        if amounts.repair() {
            amounts.fill();
            amounts.swap();
        }
        figures.amounts = amounts.x;
        keep_the_better(&mut kept, &figures, plan_rank);
    }
    Ok(kept)
}

/// The amounts of the sheets that are compared are the same, or their multipliers are: the gap is the
/// difference of a cost and a floor.
fn keep_the_better<R: Ord>(kept: &mut Sheet, figures: &Figures, rank: fn(&Sheet) -> R) {
    if let Ok(sheet) = Sheet::open(figures) {
        if rank(&sheet) < rank(kept) {
            *kept = sheet;
        }
    }
}

fn floor_rank(sheet: &Sheet) -> (usize, i64) {
    (sheet.wrong_signs() + sheet.absent_bounds(), -sheet.floor())
}

fn plan_rank(sheet: &Sheet) -> (usize, i64) {
    (sheet.rows_broken() + sheet.amounts_out(), sheet.cost())
}

fn near(sheet: &Sheet) -> bool {
    let cost = i128::from(sheet.cost()).abs() * 1024;
    matches!(sheet.verdict(), Verdict::Gap(gap) if i128::from(gap) * CLOSE <= cost)
}

/// The coefficients that aren't 0, by row and by column.
struct Parts {
    rows: Vec<Vec<(usize, i64)>>,
    columns: Vec<Vec<(usize, i64)>>,
}

impl Parts {
    fn new(plan: &Figures) -> Parts {
        let mut rows = vec![Vec::new(); plan.rows];
        let mut columns = vec![Vec::new(); plan.columns];
        for (i, row) in rows.iter_mut().enumerate() {
            for (j, column) in columns.iter_mut().enumerate() {
                let a = plan.coefs[i * plan.columns + j];
                if a != 0 {
                    row.push((j, a));
                    column.push((i, a));
                }
            }
        }
        Parts { rows, columns }
    }
}

/// Where the search for amounts begins: rounded the way that hurts fewer rows, down, up, the first
/// proposal, and the bounds that a run starts at, which a plan with a feasible start keeps.
fn bases(plan: &Figures, parts: &Parts, values: &[f64]) -> Vec<Vec<i64>> {
    let hurts = |j: usize| {
        let up = parts.columns[j].iter().map(|&(i, a)| match plan.ops[i] {
            ComparisonOp::Le => a.signum(),
            ComparisonOp::Ge => -a.signum(),
            ComparisonOp::Eq => 0,
        });
        up.sum::<i64>()
    };
    let rounded = |round: &dyn Fn(usize, f64) -> f64| {
        let whole = values.iter().take(plan.columns).enumerate();
        // A value that is a whole number but for the run's rounding is that number.
        let whole = whole.map(|(j, &x)| match (x - x.round()).abs() < 1e-6 {
            true => x.round() as i64,
            false => round(j, x) as i64,
        });
        let mut whole: Vec<i64> = whole.collect();
        whole.resize(plan.columns, 0);
        whole
    };
    let by_rows = |j: usize, x: f64| match hurts(j) {
        hurts if hurts > 0 => x.floor(),
        hurts if hurts < 0 => x.ceil(),
        _ => x.round(),
    };
    let start = (0..plan.columns).map(|j| match plan.costs[j] < 0 {
        true => plan.uppers[j].or(plan.lowers[j]).unwrap_or(0),
        false => plan.lowers[j].or(plan.uppers[j]).unwrap_or(0),
    });
    vec![
        rounded(&by_rows),
        rounded(&|_, x| x.floor()),
        rounded(&|_, x| x.ceil()),
        plan.amounts.clone(),
        start.collect(),
    ]
}

/// Whole amounts within their bounds, and each row's sum.
struct Amounts<'a> {
    plan: &'a Figures,
    parts: &'a Parts,
    x: Vec<i64>,
    sums: Vec<i64>,
}

/// A change of an amount: the column, and by how much.
type Step = (usize, i64);

impl<'a> Amounts<'a> {
    fn at(plan: &'a Figures, parts: &'a Parts, base: Vec<i64>) -> Amounts<'a> {
        let mut amounts = Amounts {
            plan,
            parts,
            x: vec![0; plan.columns],
            sums: vec![0; plan.rows],
        };
        for (j, x) in base.into_iter().enumerate() {
            let (low, high) = amounts.bounds(j);
            amounts.take((j, x.clamp(low, high)));
        }
        amounts
    }

    fn bounds(&self, j: usize) -> (i64, i64) {
        let low = self.plan.lowers[j].unwrap_or(-SHEET_AMOUNT);
        (low, self.plan.uppers[j].unwrap_or(SHEET_AMOUNT))
    }

    fn allowed(&self, (j, by): Step) -> bool {
        let (low, high) = self.bounds(j);
        (low..=high).contains(&(self.x[j] + by))
    }

    fn take(&mut self, (j, by): Step) {
        self.x[j] += by;
        for &(i, a) in &self.parts.columns[j] {
            self.sums[i] += a * by;
        }
    }

    fn cost(&self, (j, by): Step) -> i64 {
        self.plan.costs[j] * by
    }

    /// By how much a sum breaks row i.
    fn off(&self, i: usize, sum: i64) -> i64 {
        let over = sum - self.plan.rhs[i];
        match self.plan.ops[i] {
            ComparisonOp::Le => over.max(0),
            ComparisonOp::Ge => (-over).max(0),
            ComparisonOp::Eq => over.abs(),
        }
    }

    fn broken(&self) -> i64 {
        let off = self.sums.iter().enumerate();
        off.map(|(i, &sum)| self.off(i, sum)).sum()
    }

    /// What a step adds to [`broken`](Amounts::broken).
    fn change(&self, (j, by): Step) -> i64 {
        let rows = self.parts.columns[j].iter();
        rows.map(|&(i, a)| self.off(i, self.sums[i] + a * by) - self.off(i, self.sums[i]))
            .sum()
    }

    /// Steps until every row is kept: the one that costs least for what it mends, or else two
    /// together. Says whether every row is.
    fn repair(&mut self) -> bool {
        for _ in 0..4 * (self.plan.rows + self.plan.columns) {
            if self.broken() == 0 {
                return true;
            }
            match self.mending() {
                Some((step, _)) => self.take(step),
                None => match self.mending_pair() {
                    Some([first, second]) => {
                        self.take(first);
                        self.take(second);
                    }
                    None => return false,
                },
            }
        }
        self.broken() == 0
    }

    /// The step that mends at the least cost for each unit, with the change.
    fn mending(&self) -> Option<(Step, i64)> {
        let mut best: Option<(Step, i64)> = None;
        for j in 0..self.plan.columns {
            for step in self.tries(j) {
                let change = self.change(step);
                if change >= 0 {
                    continue;
                }
                let dearer = |(other, changed): (Step, i64)| {
                    let (this, that) = (self.cost(step) as i128, self.cost(other) as i128);
                    let (this, that) = (this * -changed as i128, that * -change as i128);
                    this > that || this == that && change >= changed
                };
                if !best.is_some_and(dearer) {
                    best = Some((step, change));
                }
            }
        }
        best
    }

    /// One up, one down, and what would mend each broken row of the column.
    fn tries(&self, j: usize) -> impl Iterator<Item = Step> + '_ {
        let mends = self.parts.columns[j].iter().filter_map(move |&(i, a)| {
            let over = self.sums[i] - self.plan.rhs[i];
            let off = self.off(i, self.sums[i]);
            // Away from the side that is broken, far enough.
            let steps = (off + a.abs() - 1) / a.abs();
            (off > 0).then_some((j, -over.signum() * a.signum() * steps))
        });
        let tries = [(j, 1), (j, -1)].into_iter().chain(mends);
        tries.filter(|&step| self.allowed(step))
    }

    /// Two steps that mend together what none mends alone.
    fn mending_pair(&mut self) -> Option<[Step; 2]> {
        for j in 0..self.plan.columns {
            let firsts: Vec<Step> = self.tries(j).collect();
            for first in firsts {
                let change = self.change(first);
                self.take(first);
                let second = self.mending();
                self.take((first.0, -first.1));
                match second {
                    Some((second, mended)) if change + mended < 0 => return Some([first, second]),
                    _ => {}
                }
            }
        }
        None
    }

    /// How far a column can go this way (1 or -1) while every row is kept.
    fn room(&self, j: usize, way: i64) -> i64 {
        let (low, high) = self.bounds(j);
        let own = if way > 0 {
            high - self.x[j]
        } else {
            self.x[j] - low
        };
        let rows = self.parts.columns[j].iter().map(|&(i, a)| {
            let left = self.plan.rhs[i] - self.sums[i];
            match (self.plan.ops[i], a * way > 0) {
                (ComparisonOp::Le, true) => left / a.abs(),
                (ComparisonOp::Ge, false) => -left / a.abs(),
                (ComparisonOp::Eq, _) => 0,
                _ => i64::MAX,
            }
        });
        rows.fold(own, i64::min)
    }

    /// The way that makes the plan cheaper; 0 where the cost is 0.
    fn way(&self, j: usize) -> i64 {
        -self.plan.costs[j].signum()
    }

    /// While some column can be moved to make the plan cheaper: the one that gains most.
    fn fill(&mut self) {
        loop {
            let columns = (0..self.plan.columns).filter(|&j| self.way(j) != 0);
            let steps = columns.map(|j| (j, self.way(j) * self.room(j, self.way(j))));
            match steps.min_by_key(|&step| self.cost(step)) {
                Some(step) if self.cost(step) < 0 => self.take(step),
                _ => return,
            }
        }
    }

    /// Pairs of steps that make the plan cheaper, while there are some.
    fn swap(&mut self) {
        const ROUNDS: usize = 40;
        for _ in 0..ROUNDS {
            let mut changed = false;
            for j in 0..self.plan.columns {
                for by in [1, -1, 2, -2, 3, -3] {
                    changed |= self.allowed((j, by)) && self.swapped((j, by));
                }
            }
            if !changed {
                return;
            }
            self.fill();
        }
    }

    /// Takes a step together with another where both make the plan cheaper and keep every row.
    fn swapped(&mut self, first: Step) -> bool {
        let cost = self.cost(first);
        self.take(first);
        let broken = self.first_broken(first.0);
        let second = (0..self.plan.columns).find_map(|k| {
            let by = match broken {
                // The first step makes room for a better one.
                None => self.way(k) * self.room(k, self.way(k)),
                // Or the second mends what the first breaks.
                Some(i) => self.mending_by(i, k)?,
            };
            let step = (k, by);
            let better = k != first.0 && by != 0 && cost + self.cost(step) < 0;
            (better && self.allowed(step) && self.keeps(first.0, step)).then_some(step)
        });
        match second {
            Some(second) => self.take(second),
            None => self.take((first.0, -first.1)),
        }
        second.is_some()
    }

    fn first_broken(&self, j: usize) -> Option<usize> {
        let mut rows = self.parts.columns[j].iter().map(|&(i, _)| i);
        rows.find(|&i| self.off(i, self.sums[i]) > 0)
    }

    /// The step of column k that mends row i.
    fn mending_by(&self, i: usize, k: usize) -> Option<i64> {
        let a = self.plan.coefs[i * self.plan.columns + k];
        let over = self.sums[i] - self.plan.rhs[i];
        let off = self.off(i, self.sums[i]);
        (a != 0).then(|| -over.signum() * a.signum() * ((off + a.abs() - 1) / a.abs()))
    }

    /// Whether every row of the step's column and of column j is kept behind the step.
    fn keeps(&self, j: usize, (k, by): Step) -> bool {
        let kept = |i: usize| {
            let a = self.plan.coefs[i * self.plan.columns + k];
            self.off(i, self.sums[i] + a * by) == 0
        };
        let columns = &self.parts.columns;
        columns[k].iter().chain(&columns[j]).all(|&(i, _)| kept(i))
    }
}

/// Where the climb begins: at the nearest multipliers, below and above, and at a little more and a
/// little less of each.
fn starts(plan: &Figures, mults: &[f64]) -> Vec<Vec<i64>> {
    let each = |turn: &dyn Fn(f64) -> f64| -> Vec<i64> {
        mults.iter().map(|y| turn(y * 1024.0) as i64).collect()
    };
    let mut starts = vec![
        plan.mults.clone(),
        each(&|y| (y - 1e-6).floor()),
        each(&|y| (y + 1e-6).ceil()),
    ];
    for part in [4096.0, 1024.0, 256.0, 64.0] {
        starts.push(each(&|y| (y * (1.0 + 1.0 / part)).round()));
        starts.push(each(&|y| (y * (1.0 - 1.0 / part)).round()));
    }
    starts
}

/// Whole multipliers of the right sign, and each column's price.
struct Climber<'a> {
    plan: &'a Figures,
    parts: &'a Parts,
    y: Vec<i64>,
    prices: Vec<i64>,
}

/// By how much prices are on the side of an absent bound, and the floor turned round: less is better.
type Rank = (i128, i128);

impl<'a> Climber<'a> {
    fn at(plan: &'a Figures, parts: &'a Parts, start: Vec<i64>) -> Climber<'a> {
        let mut climber = Climber {
            plan,
            parts,
            y: vec![0; plan.rows],
            prices: plan.costs.iter().map(|cost| cost * 1024).collect(),
        };
        for (i, y) in start.into_iter().take(plan.rows).enumerate() {
            let (low, high) = climber.limits(i);
            climber.take((i, y.clamp(low, high)));
        }
        climber
    }

    fn limits(&self, i: usize) -> (i64, i64) {
        match self.plan.ops[i] {
            ComparisonOp::Le => (-SHEET_MULTIPLIER, 0),
            ComparisonOp::Ge => (0, SHEET_MULTIPLIER),
            ComparisonOp::Eq => (-SHEET_MULTIPLIER, SHEET_MULTIPLIER),
        }
    }

    fn take(&mut self, (i, by): (usize, i64)) {
        self.y[i] += by;
        for &(j, a) in &self.parts.rows[i] {
            self.prices[j] -= a * by;
        }
    }

    fn of_price(&self, j: usize, price: i64) -> Rank {
        let bound = match price.signum() {
            1 => self.plan.lowers[j],
            -1 => self.plan.uppers[j],
            _ => Some(0),
        };
        match bound {
            Some(bound) => (0, -i128::from(price) * i128::from(bound)),
            None => (i128::from(price).abs(), 0),
        }
    }

    /// What a step adds to the rank.
    fn change(&self, (i, by): (usize, i64)) -> Rank {
        let own = -i128::from(by) * i128::from(self.plan.rhs[i]);
        let row = self.parts.rows[i].iter();
        row.fold((0, own), |sum, &(j, a)| {
            let (is, was) = (
                self.of_price(j, self.prices[j] - a * by),
                self.of_price(j, self.prices[j]),
            );
            (sum.0 + is.0 - was.0, sum.1 + is.1 - was.1)
        })
    }

    /// Until the floor is as high as single steps, and a few double ones, get it.
    fn climb(&mut self) {
        const ROUNDS: usize = 60;
        const PAIRS: usize = 24;
        let mut pairs = 0;
        for _ in 0..ROUNDS {
            let mut climbed = false;
            for i in 0..self.plan.rows {
                climbed |= self.moved(i);
            }
            if climbed {
                continue;
            }
            pairs += 1;
            if pairs > PAIRS || !self.moved_pair() {
                return;
            }
        }
    }

    /// The best of steps of 1, 2, 4, .. while they get better.
    fn best(&self, i: usize) -> Option<(i64, Rank)> {
        let (low, high) = self.limits(i);
        let mut best: Option<(i64, Rank)> = None;
        for way in [1, -1] {
            let mut by = way;
            while (low..=high).contains(&(self.y[i] + by)) {
                let change = self.change((i, by));
                if change >= best.map_or((0, 0), |(_, change)| change) {
                    break;
                }
                best = Some((by, change));
                by *= 2;
            }
        }
        best
    }

    fn moved(&mut self, i: usize) -> bool {
        let best = self.best(i);
        if let Some((by, _)) = best {
            self.take((i, by));
        }
        best.is_some()
    }

    /// Two rows by one each, where neither alone helps.
    fn moved_pair(&mut self) -> bool {
        for i in 0..self.plan.rows {
            let (low, high) = self.limits(i);
            for by in [1, -1] {
                if self.parts.rows[i].is_empty() || !(low..=high).contains(&(self.y[i] + by)) {
                    continue;
                }
                let first = self.change((i, by));
                self.take((i, by));
                for k in 0..self.plan.rows {
                    let Some((second, change)) = self.best(k).filter(|_| k != i) else {
                        continue;
                    };
                    if (first.0 + change.0, first.1 + change.1) < (0, 0) {
                        self.take((k, second));
                        return true;
                    }
                }
                self.take((i, -by));
            }
        }
        false
    }
}
