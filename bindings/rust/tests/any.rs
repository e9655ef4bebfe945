//! A solve from any start, and another objective, through the solution and through the raw calls.

mod common;

use common::{near, Rng};
use tevalumi::raw::{
    fix_into, reprice_into, sections, solve_any_into, solve_into, Status, Way, Workspace,
};
use tevalumi::{ComparisonOp, LinearExpr, OptimizationDirection, Problem, Variable};

const INF: f64 = f64::INFINITY;
const LE: ComparisonOp = ComparisonOp::Le;
const GE: ComparisonOp = ComparisonOp::Ge;

/// 8 columns share 5 rows and must have something together: each at least 0, half of them with no upper bound, so that
/// the start is mostly neither feasible nor dual feasible. `costs` are the objective's coefficients.
fn shared(seed: u64, costs: &[f64]) -> (Problem, Vec<Variable>) {
    let mut rng = Rng(seed);
    let mut problem = Problem::new(OptimizationDirection::Maximize);
    let vars: Vec<Variable> = costs
        .iter()
        .map(|&cost| {
            let upper = match rng.below(2) {
                0 => rng.between(4, 30) as f64,
                _ => INF,
            };
            problem.add_var(cost, (0.0, upper))
        })
        .collect();
    for _ in 0..5 {
        let mut expr = LinearExpr::empty();
        for &var in &vars {
            expr.add(var, rng.between(1, 9) as f64);
        }
        problem.add_constraint(expr, LE, rng.between(40, 120) as f64);
    }
    let all = vars.iter().map(|&var| (var, 1.0));
    problem.add_constraint(all, GE, rng.between(1, 4) as f64);
    (problem, vars)
}

fn costs(rng: &mut Rng) -> Vec<f64> {
    (0..8).map(|_| rng.between(-9, 20) as f64).collect()
}

/// Where a plain solve is refused with 7 there is a solution all the same, and other objectives put in one after another
/// end where fresh solves do, in fewer steps.
#[test]
fn as_fresh_solves() {
    let (mut sevens, mut warm, mut fresh) = (0, 0, 0);
    for seed in 0..300 {
        let mut rng = Rng(1000 + seed);
        let (mut problem, vars) = shared(seed, &costs(&mut rng));
        let mut solution = problem.solve().expect("every row can be kept");
        problem.set_plain(true);
        match problem.answer() {
            Ok(plain) => {
                assert_eq!(solution.costless_steps(), None, "seed {seed}");
                assert_eq!(solution.objective(), plain.objective(), "seed {seed}");
            }
            Err(failure) => {
                assert_eq!(failure.number(), 7, "seed {seed}");
                assert!(solution.costless_steps().is_some(), "seed {seed}");
                sevens += 1;
            }
        }
        for _ in 0..3 {
            let other = costs(&mut rng);
            let terms = vars.iter().copied().zip(other.iter().copied());
            solution = solution.with_objective(terms).expect("every row is kept");
            let anew = shared(seed, &other).0.solve().expect("the same plan");
            assert!(near(solution.objective(), anew.objective()), "seed {seed}");
            warm += solution.steps();
            fresh += anew.steps() + anew.costless_steps().unwrap_or(0);
        }
    }
    assert!(sevens >= 200, "{sevens}");
    assert!(warm < fresh, "{warm} steps, {fresh} afresh");
}

/// Variables that are fixed stay so; one that isn't named has coefficient 0, one that is named twice the sum.
#[test]
fn another_objective() {
    let mut problem = Problem::new(OptimizationDirection::Maximize);
    let x = problem.add_var(3.0, (0.0, INF));
    let y = problem.add_var(1.0, (0.0, 2.0));
    problem.add_constraint([(x, 1.0), (y, 1.0)], LE, 4.0);
    let solution = problem.solve().unwrap().fix_var(x, 3.0).unwrap();
    assert_eq!((solution[x], solution[y]), (3.0, 1.0));
    let solution = solution.with_objective([(y, -1.0)]).unwrap();
    assert_eq!(
        (solution[x], solution[y], solution.objective()),
        (3.0, 0.0, 0.0)
    );
    let solution = solution
        .with_objective([(x, 1.0), (x, 1.0), (y, 1.0)])
        .unwrap();
    assert_eq!(
        (solution[x], solution[y], solution.objective()),
        (3.0, 1.0, 7.0)
    );
    let (solution, was) = solution.unfix_var(x);
    assert!(was);
    assert_eq!(
        (solution[x], solution[y], solution.objective()),
        (4.0, 0.0, 8.0)
    );
    let none = solution
        .clone()
        .with_objective(LinearExpr::empty())
        .unwrap();
    assert_eq!((none.objective(), none.steps()), (0.0, 0));
    let failure = solution.with_objective([(x, f64::NAN)]).unwrap_err();
    assert_eq!(failure.number(), 2);
}

/// Each way of the raw call; what a refusal with 7 and one with 41 leave; and that the budget holds for each run.
#[test]
fn the_raw_calls() {
    // Least cost * x + y with 2 <= x + y <= most.
    let plan = |budget: usize, most: f64, cost: f64| {
        let mut problem = Problem::new(OptimizationDirection::Minimize);
        let x = problem.add_var(cost, (0.0, INF));
        let y = problem.add_var(1.0, (0.0, INF));
        problem.add_constraint([(x, 1.0), (y, 1.0)], GE, 2.0);
        problem.add_constraint([(x, 1.0), (y, 1.0)], LE, most);
        problem.set_budget(budget);
        problem
    };
    let mut work = Workspace::new();
    let mut values = [7.5; 4];
    let problem = plan(1, 5.0, -1.0);
    assert_eq!(
        solve_into(&problem.plan(), &mut work, &mut values).status,
        Status::SlackOutside
    );
    assert_eq!(values, [7.5; 4]);
    assert_eq!(
        reprice_into(&problem.plan(), &mut work, &mut values).status,
        Status::NotKept
    );
    assert_eq!(values, [7.5; 4]);
    let any = solve_any_into(&problem.plan(), &mut work, &mut values);
    assert_eq!((any.way, any.costless_steps), (Way::Repriced, 1));
    assert_eq!((any.answer.status, any.answer.steps), (Status::Optimal, 1));
    assert_eq!(
        (values, any.answer.objective),
        ([5.0, 0.0, -3.0, 0.0], -5.0)
    );
    // Not even one step: the run with costs 0 spends the budget.
    let any = solve_any_into(&plan(0, 5.0, -1.0).plan(), &mut work, &mut values);
    assert_eq!((any.way, any.costless_steps), (Way::Halted, 0));
    assert_eq!(any.answer.status, Status::Spent);
    // No plan: that run says so.
    let any = solve_any_into(&plan(9, 1.0, -1.0).plan(), &mut work, &mut values);
    assert_eq!(
        (any.way, any.answer.status),
        (Way::Halted, Status::Infeasible)
    );
    // A start that dual steps begin at.
    let any = solve_any_into(&plan(9, 5.0, 1.0).plan(), &mut work, &mut values);
    assert_eq!((any.way, any.costless_steps), (Way::Direct, 0));
    assert_eq!(
        (any.answer.status, any.answer.objective),
        (Status::Optimal, 2.0)
    );
    // Other costs over what that left; then a fix goes on from there.
    let answer = reprice_into(&problem.plan(), &mut work, &mut values);
    assert_eq!((answer.status, answer.objective), (Status::Optimal, -5.0));
    let answer = fix_into(&problem.plan(), &mut work, &mut values, 0, 4.0);
    assert_eq!((answer.status, answer.objective), (Status::Optimal, -4.0));
    assert_eq!(work.numbers[sections::COUNTS][4], 0);
}
