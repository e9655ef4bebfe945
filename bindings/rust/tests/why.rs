//! Why there is no plan: what is found is tested in 128-bit numbers and by the sheet itself.

mod common;

use common::Rng;
use tevalumi::raw::limits::ROWS;
use tevalumi::raw::Workspace;
use tevalumi::sheet::{Figures, Sheet};
use tevalumi::why::{proposal, reason, reason_after, Reason};
use tevalumi::ComparisonOp::{self, Eq, Ge, Le};
use tevalumi::{OptimizationDirection, Place, Problem};

/// The sheet's own sums with all costs 0: right signs, no absent bound needed, and the floor.
fn floor(plan: &Figures, mults: &[i64]) -> i128 {
    assert_eq!(mults.len(), plan.rows);
    let mut floor = 0;
    for (i, &y) in mults.iter().enumerate() {
        assert!(y.abs() <= 1 << 20);
        match plan.ops[i] {
            Le => assert!(y <= 0),
            Ge => assert!(y >= 0),
            Eq => {}
        }
        floor += i128::from(y) * i128::from(plan.rhs[i]);
    }
    for j in 0..plan.columns {
        let mut price = 0;
        for (i, &y) in mults.iter().enumerate() {
            price -= i128::from(y) * i128::from(plan.coefs[i * plan.columns + j]);
        }
        if price > 0 {
            floor += price * i128::from(plan.lowers[j].expect("no absent lower bound is needed"));
        } else if price < 0 {
            floor += price * i128::from(plan.uppers[j].expect("no absent upper bound is needed"));
        }
    }
    floor
}

/// The multipliers of a reason, tested; none where the search gave up.
fn shown(plan: &Figures) -> Option<Vec<i64>> {
    tested(plan, reason(plan))
}

fn tested(plan: &Figures, found: Reason) -> Option<Vec<i64>> {
    let mults = match found {
        Reason::Multipliers(mults) => mults,
        Reason::GivenUp => return None,
        Reason::SomePlan => panic!("no amounts keep {plan:?}"),
    };
    let floor = floor(plan, &mults);
    assert!(floor > 0);
    let sheet = Sheet::open(&proposal(plan, mults.clone())).unwrap();
    assert_eq!((sheet.wrong_signs(), sheet.absent_bounds()), (0, 0));
    assert_eq!(i128::from(sheet.floor()), floor);
    Some(mults)
}

fn plan(
    coefs: &[&[i64]],
    rows: &[(ComparisonOp, i64)],
    bounds: &[(Option<i64>, Option<i64>)],
) -> Figures {
    Figures {
        rows: rows.len(),
        columns: bounds.len(),
        coefs: coefs.concat(),
        costs: vec![7; bounds.len()],
        lowers: bounds.iter().map(|&(lower, _)| lower).collect(),
        uppers: bounds.iter().map(|&(_, upper)| upper).collect(),
        rhs: rows.iter().map(|&(_, right)| right).collect(),
        ops: rows.iter().map(|&(op, _)| op).collect(),
        ..Figures::default()
    }
}

const UP: (Option<i64>, Option<i64>) = (Some(0), None);
const FREE: (Option<i64>, Option<i64>) = (None, None);

#[test]
fn small_reasons() {
    // A row against a row, a bound, and an empty row.
    let two = plan(&[&[1, 1], &[1, 1]], &[(Ge, 5), (Le, 3)], &[FREE, FREE]);
    assert_eq!(shown(&two), Some(vec![1024, -1024]));
    let bound = plan(&[&[2]], &[(Ge, 9)], &[(Some(0), Some(4))]);
    assert_eq!(shown(&bound), Some(vec![1024]));
    let empty = plan(&[&[0]], &[(Le, -1)], &[UP]);
    assert_eq!(shown(&empty), Some(vec![-1024]));
    let no_columns = plan(&[&[]], &[(Eq, 3)], &[]);
    assert_eq!(shown(&no_columns), Some(vec![1024]));

    // 2 x = 3 y, 3 y = 5 z, 2 x = 5 z + 1: three equalities, each needed.
    let three = plan(
        &[&[2, -3, 0], &[0, 3, -5], &[2, 0, -5]],
        &[(Eq, 0), (Eq, 0), (Eq, 1)],
        &[FREE; 3],
    );
    assert_eq!(shown(&three), Some(vec![-1024, -1024, 1024]));

    // 1/3 and 1/7 of rows: whole in 1/1024 all the same.
    let parts = plan(&[&[3], &[7]], &[(Ge, 1), (Le, 2)], &[FREE]);
    assert_eq!(shown(&parts), Some(vec![7 * 1024, -3 * 1024]));
}

#[test]
fn plans_that_exist() {
    for some in [
        plan(&[&[1, 1], &[1, 1]], &[(Ge, 5), (Le, 5)], &[FREE, FREE]),
        // Half of one: fractional amounts are amounts.
        plan(&[&[2]], &[(Eq, 1)], &[(Some(0), Some(1))]),
        plan(&[&[0]], &[(Eq, 0)], &[UP]),
        plan(&[], &[], &[(Some(-3), Some(-3))]),
        Figures::default(),
    ] {
        assert_eq!(reason(&some), Reason::SomePlan);
    }
}

/// No sheet is opened with these, so nothing is looked for.
#[test]
fn what_the_sheet_refuses_is_given_up() {
    let fine = plan(&[&[1]], &[(Ge, 5)], &[(Some(0), Some(4))]);
    assert!(shown(&fine).is_some());
    for bad in [
        plan(&[&[4097]], &[(Ge, 5)], &[(Some(0), Some(0))]),
        plan(&[&[1]], &[(Ge, (1 << 31) + 1)], &[(Some(0), Some(4))]),
        plan(&[&[1]], &[(Ge, 5)], &[(Some(0), Some((1 << 16) + 1))]),
        plan(&[&[1]], &[(Ge, 5)], &[(Some(3), Some(2))]),
        plan(&[&[1], &[1]], &[(Ge, 5)], &[UP]),
        plan(&[&[i64::MIN]], &[(Ge, i64::MIN)], &[(Some(i64::MIN), None)]),
        Figures {
            rows: usize::MAX,
            columns: usize::MAX,
            ..Figures::default()
        },
        plan(&[&[0][..]; ROWS + 1], &[(Le, -1); ROWS + 1], &[UP]),
    ] {
        assert_eq!(reason(&bad), Reason::GivenUp);
    }
}

/// Every limit at once.
#[test]
fn the_largest_numbers() {
    let wide = (Some(-1 << 16), Some(1 << 16));
    let full = Figures {
        rows: ROWS,
        columns: 128,
        coefs: vec![4096; ROWS * 128],
        lowers: vec![wide.0; 128],
        uppers: vec![wide.1; 128],
        rhs: (0..ROWS).map(|i| [1 << 31, -1 << 31][i % 2]).collect(),
        ops: vec![Eq; ROWS],
        ..Figures::default()
    };
    assert!(shown(&full).is_some());
}

/// A plan with so many rows around a few that can't be kept together.
struct Made {
    plan: Figures,
    rng: Rng,
    most: i64,
    filled: usize,
}

/// What can't be kept together.
#[derive(Clone, Copy, Debug)]
enum Core {
    /// Rows, and their sum with a right side that is too small.
    Rows,
    /// A row that asks for more than the bounds leave.
    Bounds,
    /// Equalities, and their sum with another right side.
    Equalities,
    /// Rows, their sum and the bounds.
    Mixed,
}

const CORES: [Core; 4] = [Core::Rows, Core::Bounds, Core::Equalities, Core::Mixed];

impl Made {
    fn of(mut rng: Rng, core: Core, rows: usize, columns: usize) -> Figures {
        let most = [1, 9, 100, 340][rng.below(4)];
        let filled = rng.between(5, 100) as usize;
        let bounds = |rng: &mut Rng| {
            let low = rng.between(-100, 100);
            let high = low + rng.between(0, 200);
            match rng.below(10) {
                0..=4 => (Some(low), Some(high)),
                5..=7 => (Some(low), None),
                8 => (None, Some(high)),
                _ => (None, None),
            }
        };
        let bounds: Vec<_> = (0..columns).map(|_| bounds(&mut rng)).collect();
        let mut made = Made {
            plan: plan(&[], &[], &bounds),
            rng,
            most,
            filled,
        };
        let point: Vec<i64> = bounds
            .iter()
            .map(|&(low, high)| low.or(high).unwrap_or(0))
            .collect();
        for _ in 0..rows {
            made.random_row(&point);
        }
        match core {
            Core::Rows => made.sum(false, false),
            Core::Bounds => made.beyond_bounds(),
            Core::Equalities => made.sum(true, false),
            Core::Mixed => made.sum(false, true),
        }
        made.shuffled()
    }

    fn push(&mut self, coefs: &[i64], op: ComparisonOp, right: i64) {
        self.plan.coefs.extend(coefs);
        self.plan.ops.push(op);
        self.plan.rhs.push(right);
        self.plan.rows += 1;
    }

    fn number(&mut self) -> i64 {
        self.rng.between(-self.most, self.most)
    }

    /// A row that is kept, or nearly, where each column stands at a bound.
    fn random_row(&mut self, point: &[i64]) {
        let mut coefs = vec![0; self.plan.columns];
        for coef in &mut coefs {
            if self.rng.below(100) < self.filled {
                *coef = self.number();
            }
        }
        let sum: i64 = coefs.iter().zip(point).map(|(a, x)| a * x).sum();
        let off = self.rng.between(-3, 3) * self.most;
        let op = [Le, Le, Ge, Ge, Eq][self.rng.below(5)];
        self.push(&coefs, op, sum + off);
    }

    /// Up to four rows with their weights, as ">=" or, where they are made so, as "=".
    fn sum(&mut self, equal: bool, with_bounds: bool) {
        let columns = self.plan.columns;
        let (mut coefs, mut right) = (vec![0; columns], 0);
        for _ in 0..self.rng.between(1, 4) {
            let i = self.rng.below(self.plan.rows);
            if equal {
                self.plan.ops[i] = Eq;
            }
            let turned = match self.plan.ops[i] {
                Le => -1,
                Eq => [-1, 1][self.rng.below(2)],
                Ge => 1,
            };
            let weight = turned * self.rng.between(1, 3);
            for (j, coef) in coefs.iter_mut().enumerate() {
                *coef += weight * self.plan.coefs[i * columns + j];
            }
            right += weight * self.plan.rhs[i];
        }
        if with_bounds {
            // More in some columns, by what their bounds allow at least.
            for (j, coef) in coefs.iter_mut().enumerate() {
                let more = self.rng.between(0, 5);
                match (self.plan.lowers[j], self.plan.uppers[j]) {
                    (Some(low), _) => (*coef, right) = (*coef + more, right + more * low),
                    (_, Some(high)) => (*coef, right) = (*coef - more, right - more * high),
                    _ => {}
                }
            }
        }
        let less = 1 + self.rng.between(0, self.most);
        match equal {
            true => self.push(&coefs, Eq, right - less),
            false => self.push(&coefs, Le, right - less),
        }
    }

    fn beyond_bounds(&mut self) {
        let mut coefs = vec![0; self.plan.columns];
        let mut most = 0;
        for (j, coef) in coefs.iter_mut().enumerate() {
            let size = self.rng.between(0, self.most);
            match (self.plan.lowers[j], self.plan.uppers[j]) {
                (_, Some(high)) => (*coef, most) = (size, most + size * high),
                (Some(low), _) => (*coef, most) = (-size, most - size * low),
                _ => {}
            }
        }
        let over = 1 + self.rng.between(0, self.most);
        self.push(&coefs, Ge, most + over);
    }

    /// The rows in any order, so that the core isn't at the end.
    fn shuffled(mut self) -> Figures {
        let columns = self.plan.columns;
        for i in (1..self.plan.rows).rev() {
            let other = self.rng.below(i + 1);
            self.plan.ops.swap(i, other);
            self.plan.rhs.swap(i, other);
            for j in 0..columns {
                self.plan.coefs.swap(i * columns + j, other * columns + j);
            }
        }
        self.plan
    }
}

/// A plan of one of four sizes, and the number of its core.
fn made(seed: u64) -> (usize, Figures) {
    let mut rng = Rng(seed);
    let core = seed as usize % CORES.len();
    let (rows, columns) = match seed / 4 % 4 {
        0 => (rng.between(1, 4), rng.between(1, 6)),
        1 => (rng.between(2, 12), rng.between(2, 16)),
        2 => (rng.between(8, 30), rng.between(8, 50)),
        _ => (rng.between(30, 63), rng.between(50, 128)),
    };
    let plan = Made::of(rng, CORES[core], rows as usize, columns as usize);
    (core, plan)
}

/// Of plans of every size that can't be kept by the way they were made, nearly all get their reason.
/// `TEVALUMI_WHY` says how many are tried.
#[test]
fn made_plans_get_their_reason() {
    let tried = std::env::var("TEVALUMI_WHY").ok();
    let tried: u64 = tried.map_or(200, |count| count.parse().expect("a number"));
    let mut found = [0; 4];
    for seed in 0..tried {
        let (core, plan) = made(seed);
        found[core] += u64::from(shown(&plan).is_some());
    }
    let all: u64 = found.iter().sum();
    println!("{all} of {tried} plans got their reason: {found:?} of {CORES:?}");
    assert!(all * 100 >= tried * 90);
}

/// The plan as the solver has it, with costs that prefer bounds that are there, so that dual steps begin.
fn preferring(plan: &Figures, rng: &mut Rng) -> Problem {
    let mut problem = Problem::new(OptimizationDirection::Minimize);
    let mut vars = vec![];
    for (lower, upper) in plan.lowers.iter().zip(&plan.uppers) {
        let (least, most) = (
            -9 * i64::from(upper.is_some()),
            9 * i64::from(lower.is_some()),
        );
        let low = lower.map_or(f64::NEG_INFINITY, |low| low as f64);
        let high = upper.map_or(f64::INFINITY, |high| high as f64);
        vars.push(problem.add_var(rng.between(least, most) as f64, (low, high)));
    }
    for i in 0..plan.rows {
        let cells = &plan.coefs[i * plan.columns..][..plan.columns];
        let terms = vars.iter().zip(cells).filter(|(_, &cell)| cell != 0);
        let terms: Vec<_> = terms.map(|(&var, &cell)| (var, cell as f64)).collect();
        problem.add_constraint(terms, plan.ops[i], plan.rhs[i] as f64);
    }
    problem
}

/// A run that ends in 26 leaves its reason: nearly all of them are shown. `TEVALUMI_WHY` says how many are tried.
#[test]
fn runs_that_end_in_26_get_their_reason() {
    let tried = std::env::var("TEVALUMI_WHY").ok();
    let tried: u64 = tried.map_or(200, |count| count.parse().expect("a number"));
    let mut work = Workspace::new();
    let (mut ended, mut found) = (0, 0);
    for seed in 0..tried {
        let (_, plan) = made(seed);
        let problem = preferring(&plan, &mut Rng(seed));
        let failure = problem.solve_in(&mut work).unwrap_err();
        // Some have an empty row that is false, or too many entries.
        if failure.status().is_refusal() {
            continue;
        }
        let Place::KeptRow(row) = failure.place() else {
            panic!("{failure}");
        };
        assert_eq!(failure.number(), 26);
        ended += 1;
        found += u64::from(tested(&plan, reason_after(&plan, &work, row)).is_some());
    }
    println!("{found} of {ended} runs that end in 26 get their reason");
    assert!(ended * 2 >= tried && found * 100 >= ended * 95);
}

/// Memory that isn't a run's over this plan says nothing: the plan is looked at as without it.
#[test]
fn memory_of_another_run() {
    let two = plan(&[&[1, 1], &[1, 1]], &[(Ge, 5), (Le, 3)], &[UP, UP]);
    let mut work = Workspace::new();
    let wanted = Some(vec![1024, -1024]);
    assert_eq!(tested(&two, reason_after(&two, &work, 0)), wanted);
    let failure = preferring(&two, &mut Rng(1))
        .solve_in(&mut work)
        .unwrap_err();
    assert_eq!(failure.place(), Place::KeptRow(1));
    for row in [0, 1, 2, usize::MAX] {
        assert_eq!(tested(&two, reason_after(&two, &work, row)), wanted);
    }
    for cell in 0..work.numbers.len() {
        let was = work.numbers[cell];
        for now in [0, 1, 4, 97, usize::MAX] {
            work.numbers[cell] = now;
            assert_eq!(tested(&two, reason_after(&two, &work, 1)), wanted);
        }
        work.numbers[cell] = was;
    }
    let some = plan(&[&[1, 1], &[1, 1]], &[(Ge, 5), (Le, 9)], &[UP, UP]);
    assert_eq!(reason_after(&some, &work, 1), Reason::SomePlan);
}
