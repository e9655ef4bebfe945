//! Every answer of the solver, through the problem and through the raw call.

mod common;

use common::Rng;
use std::collections::BTreeSet;
use tevalumi::raw::{limits, sections, solve_into, solve_lent, PlanRef, Workspace};
use tevalumi::{
    ComparisonOp, Failure, LinearExpr, OptimizationDirection, Place, Problem, Status, Variable,
};

const INF: f64 = f64::INFINITY;
const LE: ComparisonOp = ComparisonOp::Le;
const EQ: ComparisonOp = ComparisonOp::Eq;
const GE: ComparisonOp = ComparisonOp::Ge;

fn minimise() -> Problem {
    Problem::new(OptimizationDirection::Minimize)
}

/// One column and rows over it.
fn one_column(cost: f64, bounds: (f64, f64), rows: &[(f64, ComparisonOp, f64)]) -> Problem {
    let mut problem = minimise();
    let x = problem.add_var(cost, bounds);
    for &(coeff, op, rhs) in rows {
        problem.add_constraint([(x, coeff)], op, rhs);
    }
    problem
}

fn error(problem: &Problem) -> Failure {
    problem.answer().unwrap_err()
}

/// Many rows and many steps: each exchange adds up to 96 entries to the store.
fn crowded() -> Problem {
    let mut rng = Rng(1);
    let mut problem = minimise();
    let vars: Vec<Variable> = (0..100)
        .map(|_| problem.add_var(rng.between(-20, -1) as f64, (0.0, INF)))
        .collect();
    for _ in 0..limits::ROWS {
        let mut expr = LinearExpr::empty();
        for &var in &vars {
            if rng.below(5) == 0 {
                expr.add(var, rng.between(-6, 9) as f64 + rng.unit());
            }
        }
        problem.add_constraint(expr, LE, rng.between(100, 500) as f64);
    }
    problem
}

/// A cube in the manner of Klee and Minty, whose run goes to nearly all corners: 262 steps, so that the store is full once.
fn cube() -> (Problem, Vec<Variable>) {
    let mut problem = minimise();
    let vars: Vec<Variable> = (0..8)
        .map(|k| problem.add_var(-0.1 * 1.25f64.powi(7 - k), (0.0, INF)))
        .collect();
    problem.add_constraint([(vars[0], 0.001)], LE, 0.001);
    let mut right = 0.016;
    for pair in vars.windows(2) {
        problem.add_constraint([(pair[0], -0.004), (pair[1], 0.001)], GE, 0.0);
        problem.add_constraint([(pair[0], 0.004), (pair[1], 0.001)], LE, right);
        right *= 16.0;
    }
    (problem, vars)
}

/// The cube beside two rows that each have a pivot over EPS in a step, and together none in a factor.
fn near_singular() -> Problem {
    let (mut problem, _) = cube();
    let [x, y, z] = [-10.0, -0.1, -10_000.0].map(|cost| problem.add_var(cost, (0.0, INF)));
    problem.add_constraint([(x, 1e-5), (z, 3e-7)], LE, 1e-9);
    problem.add_constraint([(y, 1e-5), (z, 0.001)], LE, 10.0);
    problem
}

/// x <= 1 and 1000 x <= 1000.000001: the second is met, and the first is missed by a billionth.
fn nearly(tolerance: f64) -> Problem {
    let rows = [(1.0, LE, 1.0), (1000.0, LE, 1000.000001)];
    let mut problem = one_column(-1.0, (0.0, INF), &rows);
    problem.set_tolerance(tolerance);
    problem
}

/// Tenths: a row is missed by the last digit of its sum.
fn rounded() -> Problem {
    let mut problem = minimise();
    let x = problem.add_var(-1.0, (0.0, INF));
    let y = problem.add_var(-1.0, (0.0, INF));
    problem.add_constraint([(x, 0.1), (y, 0.4)], LE, 0.4);
    problem.add_constraint([(x, 0.6), (y, 0.1)], LE, 0.8);
    problem.set_tolerance(0.0);
    problem
}

/// A column for each row, with a little over EPS there and a large entry in the next row, and a cost for
/// the last one: each step makes numbers 2^59 times as large, until a norm is past the largest double.
fn growing() -> Problem {
    let (pivot, large) = (2.0f64.powi(-26), 2.0f64.powi(33));
    let mut problem = minimise();
    let vars: Vec<Variable> = (0..10)
        .map(|j| problem.add_var(if j == 9 { -1.0 } else { 0.0 }, (0.0, INF)))
        .collect();
    problem.add_constraint([(vars[0], pivot)], LE, 0.0);
    for pair in vars.windows(2) {
        problem.add_constraint([(pair[0], -large), (pair[1], pivot)], LE, 0.0);
    }
    problem
}

/// 02: 6 and 22 are no longer given. 41 to 44 are a fix's and an unfix's (tests/fix.rs).
fn given() -> impl Iterator<Item = Status> {
    let all = Status::ALL.into_iter();
    all.filter(|status| {
        ![Status::StartNotFinite, Status::NoRoom].contains(status) && status.number() < 41
    })
}

/// A problem for each number that is given.
fn reaching(status: Status) -> Problem {
    let n1 = || one_column(-1.0, (0.0, INF), &[(1.0, LE, 4.0)]);
    match status {
        Status::Optimal => n1(),
        Status::BadSize => {
            let mut problem = n1();
            problem.set_budget(limits::BUDGET + 1);
            problem
        }
        Status::BadNumber => one_column(f64::NAN, (0.0, INF), &[]),
        Status::BadEntry => {
            let mut problem = minimise();
            let x = problem.add_var(1.0, (0.0, 1.0));
            let y = problem.add_var(1.0, (0.0, 1.0));
            problem.add_constraint([(x, 1.0)], LE, 1.0);
            problem.add_constraint([(y, 1.0), (x, 1.0), (y, 2.0)], LE, 1.0);
            problem
        }
        Status::CrossedBounds => one_column(1.0, (3.0, 2.0), &[]),
        Status::FalseEmptyRow => {
            let mut problem = n1();
            problem.add_constraint(LinearExpr::empty(), EQ, 0.0);
            problem.add_constraint(LinearExpr::empty(), LE, -1.0);
            problem
        }
        Status::StartNotFinite | Status::NoRoom => unreachable!("no longer given"),
        Status::NotKept | Status::UnknownColumn | Status::ValueOutside | Status::NotFixed => {
            unreachable!("not a solve's")
        }
        // 0, where it starts, breaks the row, and its cost prefers the bound that it hasn't.
        Status::SlackOutside => {
            let mut problem = one_column(-1.0, (0.0, INF), &[(1.0, GE, 1.0)]);
            problem.set_plain(true);
            problem
        }
        Status::Unbounded => one_column(-1.0, (0.0, INF), &[(-1.0, LE, 4.0)]),
        Status::Spent => {
            let mut problem = n1();
            problem.set_budget(0);
            problem
        }
        Status::NotFinite => growing(),
        Status::Rejected => nearly(0.0),
        Status::Singular => near_singular(),
        Status::Infeasible => one_column(1.0, (0.0, 1.0), &[(1.0, LE, 5.0), (1.0, GE, 2.0)]),
    }
}

#[test]
fn every_number_is_reached_by_a_problem() {
    for status in given() {
        let problem = reaching(status);
        match problem.answer() {
            Ok(_) => assert_eq!(status, Status::Optimal),
            Err(error) => {
                assert_eq!(error.status(), status, "{error}");
                assert_eq!(error.number(), status.number());
                assert!(error
                    .to_string()
                    .starts_with(&format!("{}: ", status.number())));
                assert!(!status.is_refusal() || error.steps() == 0);
                let _: &dyn std::error::Error = &error;
            }
        }
    }
}

#[test]
fn every_number_is_reached_by_the_raw_call() {
    let mut work = Workspace::new();
    for status in given() {
        let problem = reaching(status);
        let plan = problem.plan();
        let mut values = [7.5; limits::COLUMNS + limits::ROWS];
        let answer = solve_into(&plan, &mut work, &mut values);
        assert_eq!(answer.status, status);
        assert_eq!(Status::from_number(status.number().into()), Some(status));
        if status != Status::Optimal {
            assert!(values.iter().all(|&value| value == 7.5));
        }
        if status.is_refusal() {
            assert_eq!((answer.objective.to_bits(), answer.steps), (0, 0));
        } else {
            assert_eq!(answer.excess > 0.0, status == Status::Rejected);
            let counts = &work.numbers[sections::COUNTS];
            assert_eq!(counts[3], answer.steps);
            assert_eq!(counts[4], usize::from(status.number()));
            let objective = work.doubles[sections::OBJECTIVE][0];
            assert_eq!(objective.to_bits(), answer.objective.to_bits());
        }
    }
}

#[test]
fn numbers_and_sentences_are_told_apart() {
    let numbers: Vec<u8> = Status::ALL.iter().map(|status| status.number()).collect();
    assert_eq!(
        numbers,
        [0, 1, 2, 3, 4, 5, 6, 7, 20, 21, 22, 23, 24, 25, 26, 41, 42, 43, 44]
    );
    let sentences: BTreeSet<&str> = Status::ALL.iter().map(|status| status.sentence()).collect();
    assert_eq!(sentences.len(), Status::ALL.len());
    for number in (8..20).chain(27..41).chain(45..60) {
        assert_eq!(Status::from_number(number), None);
    }
}

#[test]
fn each_limit_is_named() {
    let mut problem = minimise();
    let vars: Vec<Variable> = (0..128).map(|_| problem.add_var(0.0, (0.0, 1.0))).collect();
    assert!(problem.solve().is_ok());
    let _ = problem.add_var(0.0, (0.0, 1.0));
    assert_eq!(
        error(&problem).to_string(),
        "1: 129 variables are too many, at most 128 are allowed"
    );

    let mut problem = minimise();
    for _ in 0..96 {
        problem.add_constraint(LinearExpr::empty(), LE, 0.0);
    }
    assert!(problem.solve().is_ok());
    problem.add_constraint(LinearExpr::empty(), LE, 0.0);
    assert_eq!(
        error(&problem).to_string(),
        "1: 97 constraints are too many, at most 96 are allowed"
    );

    let mut problem = minimise();
    for _ in &vars {
        let _ = problem.add_var(0.0, (0.0, 1.0));
    }
    for _ in 0..16 {
        problem.add_constraint(vars.iter().map(|&var| (var, 1.0)), LE, 1.0);
    }
    assert!(problem.solve().is_ok());
    problem.add_constraint([(vars[0], 1.0)], LE, 1.0);
    assert_eq!(
        error(&problem).to_string(),
        "1: 2049 terms are too many, at most 2048 are allowed"
    );

    assert_eq!(
        error(&reaching(Status::BadSize)).to_string(),
        "1: 10001 steps of budget are too many, at most 10000 are allowed"
    );

    // Far over every limit.
    let mut problem = minimise();
    for _ in 0..1_000 {
        let x = problem.add_var(1.0, (0.0, 1.0));
        problem.add_constraint([(x, 1.0), (x, f64::NAN)], GE, INF);
    }
    assert_eq!(error(&problem).status(), Status::BadSize);
}

#[test]
fn every_bad_number_is_2() {
    for cost in [f64::NAN, INF, -INF] {
        assert_eq!(error(&one_column(cost, (0.0, 1.0), &[])).number(), 2);
    }
    for bounds in [(f64::NAN, 1.0), (0.0, f64::NAN), (INF, INF), (-INF, -INF)] {
        assert_eq!(error(&one_column(1.0, bounds, &[])).number(), 2);
    }
    for bad in [f64::NAN, INF, -INF] {
        let row = one_column(1.0, (0.0, 1.0), &[(bad, LE, 1.0)]);
        assert_eq!(error(&row).number(), 2);
        let row = one_column(1.0, (0.0, 1.0), &[(1.0, LE, bad)]);
        assert_eq!(error(&row).number(), 2);
    }
    for tolerance in [f64::NAN, -1e-300, 1.0000000000000002, INF] {
        let mut problem = one_column(1.0, (0.0, 1.0), &[]);
        problem.set_tolerance(tolerance);
        assert_eq!(error(&problem).number(), 2);
    }
    for tolerance in [0.0, -0.0, 1.0] {
        let mut problem = one_column(1.0, (0.0, 1.0), &[]);
        problem.set_tolerance(tolerance);
        assert!(problem.solve().is_ok());
    }
}

/// 02: "1e12 itself is accepted", and "Infinite bounds stay allowed".
#[test]
fn a_number_above_1e12_is_2() {
    let places: [fn(f64) -> Problem; 5] = [
        |x| one_column(x, (0.0, 1.0), &[]),
        |x| one_column(1.0, (x, INF), &[]),
        |x| one_column(1.0, (-INF, x), &[]),
        |x| one_column(1.0, (0.0, 1.0), &[(x, LE, 1.0)]),
        |x| one_column(1.0, (0.0, 1.0), &[(1.0, LE, x)]),
    ];
    let above = f64::from_bits(limits::NUMBER.to_bits() + 1);
    for with in places {
        for sign in [1.0, -1.0] {
            let number = |x: f64| with(sign * x).answer().map_or_else(|e| e.number(), |_| 0);
            assert_ne!(number(limits::NUMBER), 2);
            for x in [above, 1e200, f64::MAX] {
                assert_eq!(number(x), 2, "{x}");
            }
        }
    }
    let largest = one_column(1e12, (1e12, INF), &[(1e12, GE, 0.0)]);
    assert_eq!(largest.solve().unwrap().objective(), 1e24);
    // 6 before, by a slack, by the objective and by a norm.
    for problem in [
        one_column(0.0, (1e200, 1e200), &[(1e200, LE, 0.0)]),
        one_column(1e200, (1e200, INF), &[]),
        one_column(1.0, (0.0, INF), &[(1e200, LE, 1.0)]),
    ] {
        assert_eq!(error(&problem).number(), 2);
    }
}

#[test]
fn places_are_said_in_the_callers_numbers() {
    // The terms were written y, x, y; sorted, the second y stands at place 2.
    let repeated = error(&reaching(Status::BadEntry));
    assert_eq!(repeated.place(), Place::Entry { row: 1, within: 2 });
    assert_eq!(repeated.constraint(), Some(1));
    assert_eq!(repeated.variable().map(|var| var.idx()), Some(1));

    // A variable of a larger problem.
    let mut larger = minimise();
    let strangers = [(); 3].map(|()| larger.add_var(0.0, (0.0, 1.0)));
    let mut problem = minimise();
    let x = problem.add_var(0.0, (0.0, 1.0));
    problem.add_constraint([(strangers[2], 1.0), (x, 1.0)], LE, 1.0);
    let stranger = error(&problem);
    assert_eq!(stranger.place(), Place::Entry { row: 0, within: 1 });
    assert_eq!(stranger.variable(), Some(strangers[2]));

    let crossed = error(&reaching(Status::CrossedBounds));
    assert_eq!(crossed.place(), Place::Column(0));
    assert_eq!(crossed.variable().map(|var| var.idx()), Some(0));
    assert_eq!(crossed.constraint(), None);

    let empty = error(&reaching(Status::FalseEmptyRow));
    assert_eq!(empty.place(), Place::Row(2));
    assert_eq!((empty.constraint(), empty.variable()), (Some(2), None));
    assert_eq!(
        empty.to_string(),
        "5: a row without entries is false (constraint 2)"
    );

    let outside = error(&reaching(Status::SlackOutside));
    assert_eq!(outside.place(), Place::Nowhere);
    assert_eq!((outside.constraint(), outside.variable()), (Some(0), None));
    assert!(outside.to_string().ends_with(" (constraint 0)"));

    // The first that doesn't hold at 4 and 0, where the costs want them; the third has no such bound.
    let mut second = minimise();
    let x = second.add_var(-1.0, (0.0, 4.0));
    let y = second.add_var(1.0, (0.0, INF));
    let _ = second.add_var(-1.0, (0.0, INF));
    second.add_constraint([(x, 1.0), (y, 1.0)], LE, 4.0);
    second.add_constraint([(x, 1.0), (y, -1.0)], LE, 3.0);
    second.add_constraint([(y, 1.0)], GE, 1.0);
    second.set_plain(true);
    let outside = error(&second);
    assert_eq!((outside.number(), outside.constraint()), (7, Some(1)));

    // Behind a dropped row, kept row 1 is constraint 2.
    let mut behind = minimise();
    let x = behind.add_var(1.0, (0.0, 1.0));
    behind.add_constraint(LinearExpr::empty(), EQ, 0.0);
    behind.add_constraint([(x, 1.0)], LE, 5.0);
    behind.add_constraint([(x, 1.0)], GE, 2.0);
    let none = error(&behind);
    assert_eq!(none.place(), Place::KeptRow(1));
    assert_eq!((none.constraint(), none.variable()), (Some(2), None));
    assert_eq!((none.number(), none.excess()), (26, 0.0));
    assert!(none
        .to_string()
        .ends_with(" at least 1e-8 in size there (constraint 2)"));
}

/// Amounts between 0 and what is wanted start at what is wanted, which is more than there is: dual steps.
#[test]
fn more_is_wanted_than_there_is() {
    let mut problem = Problem::new(OptimizationDirection::Maximize);
    let wanted = [(3.0, 50.0), (2.0, 300.0), (5.0, 750.0)];
    let vars = wanted.map(|(worth, most)| problem.add_var(worth, (0.0, most)));
    problem.add_constraint(vars.map(|var| (var, 1.0)), LE, 900.0);
    let solution = problem.solve().unwrap();
    assert_eq!(solution.objective(), 4100.0);
    assert_eq!(vars.map(|var| solution[var]), [50.0, 100.0, 750.0]);
    assert_eq!((solution.steps(), solution.slack(0)), (1, Some(0.0)));
    assert_eq!(
        (solution.multiplier(0), solution.price(vars[2])),
        (2.0, 3.0)
    );

    problem.set_budget(0);
    let spent = error(&problem);
    assert_eq!((spent.number(), spent.objective()), (21, 4500.0));
}

/// N4's first: "becomes Optimal 1 after 1 step".
#[test]
fn a_dual_step_leaves_both_kinds_of_norm() {
    let mut work = Workspace::new();
    let n4 = one_column(1.0, (0.0, INF), &[(2.0, GE, 2.0)]);
    let solution = n4.solve_in(&mut work).unwrap();
    assert_eq!((solution.objective(), solution.steps()), (1.0, 1));
    // 1 over the pivot's square, and 1 and it as much.
    assert_eq!(work.doubles[sections::DUAL_NORMS][0], 0.25);
    assert_eq!(work.doubles[sections::NORMS][0], 1.25);

    let mut work = Workspace::new();
    let failure = reaching(Status::Infeasible)
        .solve_in(&mut work)
        .unwrap_err();
    assert_eq!(
        (failure.number(), failure.steps(), failure.objective()),
        (26, 1, 2.0)
    );
    // The state after the step: the column stands in kept row 1, above its bound.
    assert_eq!(work.numbers[sections::BASIC_VARS][..2], [1, 0]);
    assert_eq!(work.doubles[sections::BASIC_VAR_VALS][..2], [3.0, 2.0]);
    assert_eq!(work.numbers[sections::COUNTS][4], 26);
}

/// A coefficient under EPS counts as 0: b could be 1e9, and 26 is given.
#[test]
fn a_row_that_only_a_tiny_coefficient_could_mend() {
    let mut problem = minimise();
    let a = problem.add_var(1.0, (0.0, 1.0));
    let b = problem.add_var(1.0, (0.0, INF));
    problem.add_constraint([(a, 1e9), (b, 1.0)], GE, 2e9);
    let failure = error(&problem);
    assert_eq!((failure.number(), failure.constraint()), (26, Some(0)));
    assert!(failure.to_string().contains("1e-8"), "{failure}");
}

#[test]
fn the_final_check_names_values_slacks_and_rows() {
    // The slack of constraint 0 is below 0 by a billionth.
    assert!(nearly(1e-6).solve().is_ok());
    let slack = error(&nearly(0.0));
    assert_eq!(slack.place(), Place::Value(1));
    assert_eq!((slack.constraint(), slack.variable()), (Some(0), None));
    assert_eq!(slack.steps(), 1);

    // Behind a dropped row, the same place is constraint 1.
    let mut behind = minimise();
    let x = behind.add_var(-1.0, (0.0, INF));
    behind.add_constraint(LinearExpr::empty(), EQ, 0.0);
    behind.add_constraint([(x, 1.0)], LE, 1.0);
    behind.add_constraint([(x, 1000.0)], LE, 1000.000001);
    behind.set_tolerance(0.0);
    let slack = error(&behind);
    assert_eq!(slack.place(), Place::Value(1));
    assert_eq!(slack.constraint(), Some(1));
    assert!(slack.excess() > 0.0 && slack.excess() < 2e-9);
    assert_eq!(
        slack.to_string(),
        "24: the final check rejects the values (constraint 1)"
    );

    // A column below its own lower bound: x enters first, then y drives it out by a billionth.
    let mut past = minimise();
    let x = past.add_var(-1.0, (0.0, INF));
    let y = past.add_var(-3.0, (0.0, INF));
    past.add_constraint([(x, 1.0), (y, 1.0)], LE, 1.0);
    past.add_constraint([(y, 1000.0)], LE, 1000.000001);
    past.set_tolerance(0.0);
    let value = error(&past);
    assert_eq!(value.place(), Place::Value(0));
    assert_eq!((value.constraint(), value.variable()), (None, Some(x)));

    let row = error(&rounded());
    assert_eq!(row.place(), Place::KeptRow(1));
    assert_eq!((row.constraint(), row.variable()), (Some(1), None));
}

#[test]
fn the_night_cases() {
    let n1 = one_column(-1.0, (0.0, INF), &[(1.0, LE, 4.0)]);
    let solution = n1.solve().unwrap();
    assert_eq!((solution.objective(), solution.steps()), (-4.0, 1));
    assert_eq!(solution.slack(0), Some(0.0));

    let n2 = || {
        let mut problem = minimise();
        let x = problem.add_var(-3.0, (0.0, INF));
        let y = problem.add_var(-1.0, (0.0, 2.0));
        problem.add_constraint([(x, 1.0), (y, 1.0)], LE, 4.0);
        problem
    };
    let solution = n2().solve().unwrap();
    assert_eq!((solution.objective(), solution.steps()), (-12.0, 2));
    assert!(solution.iter().map(|(_, &value)| value).eq([4.0, 0.0]));
    let mut spent = n2();
    spent.set_budget(1);
    let spent = error(&spent);
    assert_eq!((spent.number(), spent.steps()), (21, 1));
    assert_eq!(spent.objective(), -8.0);

    assert_eq!(error(&reaching(Status::Unbounded)).steps(), 0);
    let n4 = one_column(1.0, (0.0, INF), &[(1.0, GE, 0.0)]);
    assert_eq!(n4.solve().unwrap().objective(), 0.0);

    let fixed = one_column(1.0, (3.0, 3.0), &[]);
    assert_eq!(fixed.solve().unwrap().objective(), 3.0);
}

#[test]
fn maximising_negates() {
    let mut problem = Problem::new(OptimizationDirection::Maximize);
    let x = problem.add_var(3.0, (0.0, INF));
    let y = problem.add_var(1.0, (0.0, 2.0));
    problem.add_constraint([(x, 1.0), (y, 1.0)], LE, 4.0);
    assert_eq!(problem.plan().costs, [-3.0, -1.0]);
    let solution = problem.solve().unwrap();
    assert_eq!(solution.objective(), 12.0);
    // One more on the right side brings 3 more; each unit of y loses 2.
    assert_eq!(solution.multiplier(0), 3.0);
    assert_eq!(solution.price(y), -2.0);
    assert_eq!(solution.price(x), 0.0);

    let mut spent = problem.clone();
    spent.set_budget(1);
    assert_eq!(error(&spent).objective(), 8.0);
}

/// Prices are costs less the multipliers' sums, and the objective is what the multipliers make of
/// the right sides and the prices of the bounds.
#[test]
fn prices_and_multipliers_belong_together() {
    let mut rng = Rng(2);
    let mut work = Workspace::new();
    let mut solved = 0;
    for _ in 0..400 {
        let maximise = rng.below(2) == 0;
        let mut problem = Problem::new(match maximise {
            true => OptimizationDirection::Maximize,
            false => OptimizationDirection::Minimize,
        });
        let columns = rng.between(1, 12) as usize;
        let costs: Vec<f64> = (0..columns).map(|_| rng.between(-9, 9) as f64).collect();
        let vars: Vec<Variable> = costs
            .iter()
            .map(|&cost| problem.add_var(cost, (0.0, [INF, INF, 5.0][rng.below(3)])))
            .collect();
        let mut rows = vec![];
        for _ in 0..rng.between(1, 10) {
            let coeffs: Vec<f64> = (0..columns).map(|_| rng.between(-2, 6) as f64).collect();
            let rhs = rng.between(0, 50) as f64;
            let terms = vars.iter().copied().zip(coeffs.iter().copied());
            problem.add_constraint(terms, LE, rhs);
            rows.push((coeffs, rhs));
        }
        let Ok(solution) = problem.solve_in(&mut work) else {
            continue;
        };
        solved += 1;
        let close = |a: f64, b: f64| (a - b).abs() < 1e-6;
        let mut dual = 0.0;
        for (row, (coeffs, rhs)) in rows.iter().enumerate() {
            let sum: f64 = vars.iter().zip(coeffs).map(|(&v, c)| c * solution[v]).sum();
            assert!(close(solution.slack(row).unwrap(), rhs - sum));
            dual += solution.multiplier(row) * rhs;
        }
        for (col, &var) in vars.iter().enumerate() {
            let sum: f64 = rows
                .iter()
                .enumerate()
                .map(|(row, (coeffs, _))| coeffs[col] * solution.multiplier(row))
                .sum();
            assert!(close(solution.price(var), costs[col] - sum));
            dual += solution.price(var) * solution[var];
        }
        assert!(close(dual, solution.objective()));
    }
    assert!(solved > 100, "{solved}");
}

/// The same plan with one array a cell too short, or with a cell more than needed.
#[test]
fn a_short_array_is_1_and_a_long_one_is_fine() {
    let problem = reaching(Status::Optimal);
    let plan = problem.plan();
    let mut work = Workspace::new();
    let mut values = [7.5; 3];
    let answer = solve_into(&plan, &mut work, &mut values);
    assert_eq!(answer.status, Status::Optimal);
    assert_eq!(values, [4.0, 0.0, 7.5]);

    let shorter: [fn(&mut PlanRef); 8] = [
        |plan| plan.costs = &plan.costs[1..],
        |plan| plan.lowers = &plan.lowers[1..],
        |plan| plan.uppers = &plan.uppers[1..],
        |plan| plan.starts = &plan.starts[..1],
        |plan| plan.cols = &plan.cols[1..],
        |plan| plan.coeffs = &plan.coeffs[1..],
        |plan| plan.ops = &plan.ops[1..],
        |plan| plan.rhs = &plan.rhs[1..],
    ];
    for shorten in shorter {
        let mut short = plan;
        shorten(&mut short);
        let answer = solve_into(&short, &mut work, &mut values);
        assert_eq!(answer.status, Status::BadSize);
    }
    let answer = solve_into(&plan, &mut work, &mut values[..1]);
    assert_eq!(answer.status, Status::BadSize);
    for starts in [&[1, 1], &[0, 0], &[0, 2]] {
        let answer = solve_into(&PlanRef { starts, ..plan }, &mut work, &mut values);
        assert_eq!(answer.status, Status::BadSize);
    }
    let answer = solve_into(&PlanRef { ops: &[3], ..plan }, &mut work, &mut values);
    assert_eq!(answer.status, Status::BadNumber);
}

#[test]
fn a_short_workspace_is_1() {
    let problem = reaching(Status::Optimal);
    let plan = problem.plan();
    let mut values = [7.5; 2];
    fn cut<T>(cells: &mut &mut [T], to: usize) {
        *cells = &mut std::mem::take(cells)[..to];
    }
    type Cut = fn(&mut tevalumi::raw::WorkspaceMut);
    // A cell less than needed, or none at all.
    let cuts: [Cut; 8] = [
        |work| cut(&mut work.numbers, sections::NUMBERS - 1),
        |work| cut(&mut work.numbers, 0),
        |work| cut(&mut work.doubles, sections::DOUBLES - 1),
        |work| cut(&mut work.doubles, 0),
        |work| cut(&mut work.factor_numbers, sections::FACTOR_NUMBERS - 1),
        |work| cut(&mut work.factor_numbers, 0),
        |work| cut(&mut work.factor_coeffs, sections::FACTOR_COEFFS - 1),
        |work| cut(&mut work.factor_coeffs, 0),
    ];
    for (which, cut) in cuts.into_iter().enumerate() {
        let mut work = Workspace::new();
        let mut lent = work.lend();
        cut(&mut lent);
        let answer = solve_lent(&plan, &mut lent, &mut values);
        assert_eq!(answer.status, Status::BadSize, "cut {which}");
    }
    // A cell more, which stays.
    let mut numbers = vec![77; sections::NUMBERS + 1];
    let mut doubles = vec![77.0; sections::DOUBLES + 1];
    let mut factor_numbers = vec![77; sections::FACTOR_NUMBERS + 1];
    let mut factor_coeffs = vec![77.0; sections::FACTOR_COEFFS + 1];
    let mut lent = tevalumi::raw::WorkspaceMut {
        numbers: &mut numbers,
        doubles: &mut doubles,
        factor_numbers: &mut factor_numbers,
        factor_coeffs: &mut factor_coeffs,
    };
    let answer = solve_lent(&plan, &mut lent, &mut values);
    assert_eq!(answer.status, Status::Optimal);
    assert_eq!(
        (numbers[sections::NUMBERS], doubles[sections::DOUBLES]),
        (77, 77.0)
    );
    // No factor was made.
    assert!(factor_numbers.iter().all(|&cell| cell == 77));
    assert!(factor_coeffs.iter().all(|&cell| cell == 77.0));
}

/// A run of more exchanges than the store has room for: its basis is factored once, and the counts say so.
#[test]
fn a_long_run_factors_its_basis() {
    let mut work = Workspace::new();
    let solution = reaching(Status::Optimal).solve_in(&mut work).unwrap();
    assert_eq!((solution.steps(), work.factorings()), (1, 0));
    let (problem, _) = cube();
    let solution = problem.solve_in(&mut work).unwrap();
    assert_eq!((solution.steps(), work.factorings()), (262, 1));
    let counts = &work.numbers[sections::COUNTS];
    assert_eq!(counts[..2], [15, 5], "the rows, and the exchanges since");
    assert_eq!(counts[5..], [1, 1]);
    let pivots = &work.factor_numbers[sections::PIVOTS];
    let places = &work.factor_numbers[sections::PIVOT_PLACES];
    assert!((0..15).all(|row| pivots[places[row]] == row));
    let diagonal = &work.factor_coeffs[sections::DIAG][..15];
    assert!(diagonal.iter().all(|pivot| pivot.abs() >= 1e-8));
}

/// 25 has its sentence, and the memory is that of a run whose budget ends before the exchange.
#[test]
fn a_basis_that_has_no_factor() {
    let mut problem = near_singular();
    let mut work = Workspace::new();
    let error = problem.solve_in(&mut work).unwrap_err();
    assert_eq!(
        error.to_string(),
        "25: the basis after an exchange can't be factored: every remaining entry of some column is under EPS"
    );
    problem.set_budget(error.steps());
    let mut spent = Workspace::new();
    let other = problem.solve_in(&mut spent).unwrap_err();
    assert_eq!(other.status(), Status::Spent);
    assert_eq!(other.objective().to_bits(), error.objective().to_bits());
    spent.numbers[sections::COUNTS][4] = 25;
    assert_eq!(format!("{work:?}"), format!("{spent:?}"));
}

#[test]
fn a_refusal_changes_no_cell_and_a_solve_keeps_the_tails() {
    let bits = |work: &Workspace| format!("{work:?}");
    let mut work = Workspace::new();
    let solution = reaching(Status::Optimal).solve_in(&mut work).unwrap();
    assert_eq!(solution.steps(), 1);
    let before = bits(&work);
    for status in given().filter(|status| status.is_refusal()) {
        assert!(reaching(status).solve_in(&mut work).is_err());
        assert_eq!(bits(&work), before, "{status:?}");
    }

    let mut marked = Workspace::new();
    marked.numbers.fill(77);
    marked.doubles.fill(77.0);
    marked.factor_numbers.fill(77);
    assert!(reaching(Status::Optimal).solve_in(&mut marked).is_ok());
    let past_first = |cells: std::ops::Range<usize>| cells.start + 1..cells.end;
    let kept = &marked.numbers[past_first(sections::KEPT)];
    assert!(kept.iter().all(|&cell| cell == 77));
    for section in [
        sections::NB_VAR_VALS,
        sections::ETA_COEFFS,
        sections::DUAL_NORMS,
    ] {
        let cells = &marked.doubles[past_first(section)];
        assert!(cells.iter().all(|&cell| cell == 77.0));
    }
    assert_eq!(marked.kept_rows(), 1);
    assert!(marked.factor_numbers.iter().all(|&cell| cell == 77));
    assert_eq!(marked.doubles[sections::ETA_COEFFS][0], 0.0);
}

#[test]
fn threads_share_nothing() {
    let want = crowded().solve().map_err(|error| error.to_string());
    let want = format!("{want:?}");
    let threads: Vec<_> = (0..4)
        .map(|_| {
            std::thread::spawn(|| {
                format!("{:?}", crowded().solve().map_err(|error| error.to_string()))
            })
        })
        .collect();
    for thread in threads {
        assert_eq!(thread.join().unwrap(), want);
    }
}

/// A number that a careless caller might hand in.
fn careless(rng: &mut Rng) -> f64 {
    match rng.below(12) {
        0 => f64::NAN,
        1 => INF,
        2 => -INF,
        3 => f64::from_bits(rng.bits()),
        4 => f64::MAX,
        5 => -0.0,
        _ => rng.between(-9, 9) as f64,
    }
}

/// Every problem is answered, and what an answer names is there.
#[test]
fn whatever_is_put_in_is_answered() {
    let mut rng = Rng(4);
    let mut work = Workspace::new();
    let mut seen = BTreeSet::new();
    for turn in 0..4_000 {
        let mut problem = Problem::new(match turn % 2 {
            0 => OptimizationDirection::Minimize,
            _ => OptimizationDirection::Maximize,
        });
        // Half of them have no careless number at all.
        let number = |rng: &mut Rng| match turn % 4 {
            0 | 1 => rng.between(-9, 9) as f64,
            _ if rng.below(10) > 0 => rng.between(-9, 9) as f64,
            _ => careless(rng),
        };
        let columns = rng.below(6);
        let vars: Vec<Variable> = (0..=columns)
            .map(|_| {
                let low = number(&mut rng);
                let high = [low + 3.0, INF, number(&mut rng)][rng.below(3)];
                problem.add_var(number(&mut rng), (low, high))
            })
            .collect();
        let rows = rng.below(5);
        for _ in 0..rows {
            let terms: Vec<(Variable, f64)> = (0..rng.below(4))
                .map(|_| (vars[rng.below(vars.len())], number(&mut rng)))
                .collect();
            let op = [LE, EQ, GE][rng.below(3)];
            problem.add_constraint(terms, op, 40.0 * number(&mut rng));
        }
        problem.set_tolerance(number(&mut rng).abs().min(1.0));
        problem.set_budget(rng.below(30));
        problem.set_plain(rng.below(2) == 0);
        match problem.solve_in(&mut work) {
            Ok(solution) => {
                seen.insert(0);
                assert!(solution.iter().all(|(_, value)| value.is_finite()));
                assert!(solution.objective().is_finite());
                for row in 0..rows {
                    let _ = (solution.slack(row), solution.multiplier(row));
                }
            }
            Err(error) => {
                seen.insert(error.number());
                assert!(error.constraint().is_none_or(|row| row < rows));
                assert!(error.variable().is_none_or(|var| var.idx() <= columns));
                assert!(!error.to_string().is_empty());
            }
        }
    }
    // The rest needs plans that are made for it; see above.
    for number in [0, 2, 3, 4, 5, 7, 20, 26] {
        assert!(seen.contains(&number), "{number} of {seen:?}");
    }
}
