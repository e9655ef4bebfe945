//! Columns held still and let go, through the solution and through the raw calls.

mod common;

use common::{near, Rng};
use tevalumi::raw::{fix_into, sections, solve_into, unfix_into, Status, Workspace};
use tevalumi::{
    ComparisonOp, Error, LinearExpr, OptimizationDirection, Problem, Solution, Variable,
};

const INF: f64 = f64::INFINITY;
const LE: ComparisonOp = ComparisonOp::Le;

/// Night case N2: costs -3, -1; bounds 0 to +inf, 0 to 2; x + y <= 4.
fn n2() -> (Problem, Variable, Variable) {
    let mut problem = Problem::new(OptimizationDirection::Minimize);
    let x = problem.add_var(-3.0, (0.0, INF));
    let y = problem.add_var(-1.0, (0.0, 2.0));
    problem.add_constraint([(x, 1.0), (y, 1.0)], LE, 4.0);
    (problem, x, y)
}

/// A plan of the gateway's kind, all bounds finite: 8 columns share 5 rows.
fn shared(rng: &mut Rng, held: &[(usize, f64)]) -> (Problem, Vec<Variable>) {
    let mut problem = Problem::new(OptimizationDirection::Maximize);
    let vars = (0..8)
        .map(|j| {
            let (cost, upper) = (rng.between(1, 20) as f64, rng.between(2, 30) as f64);
            let held = held.iter().find(|(column, _)| *column == j);
            problem.add_var(
                cost,
                held.map_or((0.0, upper), |&(_, value)| (value, value)),
            )
        })
        .collect::<Vec<_>>();
    for _ in 0..5 {
        let mut expr = LinearExpr::empty();
        for &var in &vars {
            if rng.below(3) != 0 {
                expr.add(var, rng.between(1, 9) as f64);
            }
        }
        problem.add_constraint(expr, LE, rng.between(20, 120) as f64);
    }
    (problem, vars)
}

/// Holding columns one after another ends where a fresh solve of the same plan with those bounds does, and letting them
/// go ends where it began. The steps are few: in all fewer than fresh solves take.
#[test]
fn as_a_fresh_solve() {
    let (mut warm, mut fresh) = (0, 0);
    for seed in 0..300 {
        let (problem, vars) = shared(&mut Rng(seed), &[]);
        let first = problem.solve().expect("0 keeps every row");
        let mut solution: Solution = first.clone();
        let mut held = Vec::new();
        for turn in 0..3 {
            let column = (seed as usize + 3 * turn) % 8;
            // Half of what it has keeps every row; a rounding may have left it below 0.
            let value = (solution[vars[column]] / 2.0).floor().max(0.0);
            held.push((column, value));
            solution = solution
                .fix_var(vars[column], value)
                .expect("there is a plan");
            let anew = shared(&mut Rng(seed), &held)
                .0
                .solve()
                .expect("the same plan");
            assert!(near(solution.objective(), anew.objective()), "seed {seed}");
            for &(column, value) in &held {
                assert_eq!(
                    solution[vars[column]].to_bits(),
                    value.to_bits(),
                    "seed {seed}"
                );
            }
            warm += solution.steps();
            fresh += anew.steps();
        }
        for &(column, _) in &held {
            let (after, was) = solution.unfix_var(vars[column]);
            assert!(was, "seed {seed}");
            solution = after;
        }
        assert!(near(solution.objective(), first.objective()), "seed {seed}");
    }
    assert!(2 * warm < fresh, "{warm} steps, {fresh} afresh");
}

#[test]
fn what_is_not_fixed_stays() {
    let (problem, x, y) = n2();
    let solution = problem.solve().unwrap();
    let (solution, was) = solution.unfix_var(y);
    assert!(!was);
    assert_eq!(
        (solution[x], solution[y], solution.objective()),
        (4.0, 0.0, -12.0)
    );
    // Fixed again elsewhere, it moves.
    let solution = solution.fix_var(y, 1.0).unwrap().fix_var(y, 2.0).unwrap();
    assert_eq!(
        (solution[x], solution[y], solution.objective()),
        (2.0, 2.0, -8.0)
    );
}

/// A row more is solved anew, and what was held is held again.
#[test]
fn held_through_another_row() {
    let (problem, x, y) = n2();
    let solution = problem.solve().unwrap().fix_var(x, 1.0).unwrap();
    assert_eq!((solution[x], solution[y]), (1.0, 2.0));
    let solution = solution
        .add_constraint([(x, 1.0), (y, 2.0)], LE, 4.0)
        .unwrap();
    assert_eq!((solution[x], solution[y]), (1.0, 1.5));
    let (solution, was) = solution.unfix_var(x);
    assert_eq!((was, solution[x], solution[y]), (true, 4.0, 0.0));
}

#[test]
fn errors_of_a_fix() {
    let (problem, x, y) = n2();
    let solution = || problem.solve().unwrap();
    assert_eq!(solution().fix_var(y, 3.0).unwrap_err(), Error::Infeasible);
    for value in [-1.0, f64::NAN, INF, 2.5] {
        let failure = solution().fix(y, value).unwrap_err();
        assert_eq!(
            (failure.number(), failure.steps(), failure.objective()),
            (43, 0, 0.0)
        );
    }
    // No plan has x at 5.
    assert_eq!(solution().fix_var(x, 5.0).unwrap_err(), Error::Infeasible);
    let failure = solution().fix(x, 5.0).unwrap_err();
    assert_eq!((failure.number(), failure.constraint()), (26, Some(0)));
}

/// Every refusal changes nothing, and what a call that isn't Optimal leaves is refused with 41.
#[test]
fn refusals_of_the_raw_calls() {
    let (mut problem, x, y) = n2();
    let mut work = Workspace::new();
    let mut values = [7.5; 3];
    let plan = problem.plan();
    assert_eq!(
        solve_into(&plan, &mut work, &mut values).status,
        Status::Optimal
    );
    let before = work.clone();
    for (answer, status) in [
        (
            fix_into(&plan, &mut work, &mut values, 2, 1.0),
            Status::UnknownColumn,
        ),
        (
            fix_into(&plan, &mut work, &mut values, 2, f64::NAN),
            Status::UnknownColumn,
        ),
        (
            fix_into(&plan, &mut work, &mut values, y.idx(), 3.0),
            Status::ValueOutside,
        ),
        (
            unfix_into(&plan, &mut work, &mut values, usize::MAX),
            Status::UnknownColumn,
        ),
        (
            unfix_into(&plan, &mut work, &mut values, x.idx()),
            Status::NotFixed,
        ),
        (
            unfix_into(&plan, &mut work, &mut values, y.idx()),
            Status::NotFixed,
        ),
    ] {
        assert_eq!(
            (answer.status, answer.objective.to_bits(), answer.steps),
            (status, 0, 0)
        );
        assert!(answer.status.is_refusal());
    }
    assert_eq!(work.numbers, before.numbers);
    assert_eq!(values, [4.0, 0.0, 0.0]);
    // The flags cell of a place, the map back, the status and a price: each makes it another's memory.
    for cell in [
        sections::FLAGS.start,
        sections::VAR_STATES.start,
        sections::COUNTS.start + 4,
        sections::COUNTS.start + 5,
    ] {
        let mut damaged = before.clone();
        damaged.numbers[cell] = 5;
        let answer = fix_into(&plan, &mut damaged, &mut values, y.idx(), 1.0);
        assert_eq!(answer.status, Status::NotKept, "cell {cell}");
    }
    let mut damaged = before.clone();
    damaged.doubles[sections::PRICES.start] = f64::NAN;
    assert_eq!(
        unfix_into(&plan, &mut damaged, &mut values, 0).status,
        Status::NotKept
    );
    // Budget 0: a basic column can't be moved, and the memory isn't an Optimal run's any more.
    problem.set_budget(0);
    let plan = problem.plan();
    let answer = fix_into(&plan, &mut work, &mut values, x.idx(), 1.0);
    assert_eq!(
        (answer.status, answer.objective, answer.steps),
        (Status::Spent, -12.0, 0)
    );
    assert_eq!(work.numbers[sections::COUNTS][4], 21);
    assert_eq!(
        unfix_into(&plan, &mut work, &mut values, x.idx()).status,
        Status::NotKept
    );
    assert_eq!(values, [4.0, 0.0, 0.0]);
}
