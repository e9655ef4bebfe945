//! What a program that uses minilp finds here: only the first line differs.

// `&[…]` is how minilp's pages write it.
#![allow(clippy::needless_borrows_for_generic_args)]

use tevalumi as minilp;

use minilp::{ComparisonOp, LinearExpr, OptimizationDirection, Problem, Solution, Variable};

/// The example on minilp's first page.
fn first_page() -> (Problem, Variable, Variable) {
    let mut problem = Problem::new(OptimizationDirection::Maximize);
    let x = problem.add_var(1.0, (0.0, f64::INFINITY));
    let y = problem.add_var(2.0, (0.0, 3.0));
    problem.add_constraint(&[(x, 1.0), (y, 1.0)], ComparisonOp::Le, 4.0);
    problem.add_constraint(&[(x, 2.0), (y, 1.0)], ComparisonOp::Ge, 2.0);
    (problem, x, y)
}

#[test]
fn the_first_page_maximises() {
    let (problem, x, y) = first_page();
    let solution = problem.solve().unwrap();
    assert_eq!(solution.objective(), 7.0);
    assert_eq!(solution[x], 1.0);
    assert_eq!(solution[y], 3.0);
    assert_eq!(*solution.var_value(x), 1.0);
}

#[test]
fn a_problem_can_be_solved_again_and_grown() {
    let (mut problem, x, y) = first_page();
    let before = problem.clone();
    assert_eq!(problem.solve().unwrap().objective(), 7.0);
    problem.add_constraint([(y, 1.0)], ComparisonOp::Le, 3.5);
    let z = problem.add_var(-1.0, (0.0, f64::INFINITY));
    problem.add_constraint([(x, 1.0), (z, 1.0)], ComparisonOp::Le, 0.5);
    let solution = problem.solve().unwrap();
    assert_eq!(solution.objective(), 6.5);
    assert_eq!([solution[x], solution[y], solution[z]], [0.5, 3.0, 0.0]);
    assert_eq!(before.solve().unwrap().objective(), 7.0);
}

/// x + y <= 4, written by `add`, to be told apart by nothing but how it is written.
fn objective_of(add: impl Fn(&mut Problem, Variable, Variable)) -> f64 {
    let mut problem = Problem::new(OptimizationDirection::Minimize);
    let x = problem.add_var(-3.0, (0.0, f64::INFINITY));
    let y = problem.add_var(-1.0, (0.0, 2.0));
    add(&mut problem, x, y);
    problem.solve().unwrap().objective()
}

#[test]
fn every_way_of_writing_a_left_side() {
    const LE: ComparisonOp = ComparisonOp::Le;
    assert_eq!(
        objective_of(|p, x, y| p.add_constraint(&[(x, 1.0), (y, 1.0)], LE, 4.0)),
        -12.0
    );
    assert_eq!(
        objective_of(|p, x, y| p.add_constraint([(x, 1.0), (y, 1.0)], LE, 4.0)),
        -12.0
    );
    assert_eq!(
        objective_of(|p, x, y| p.add_constraint(vec![(x, 1.0), (y, 1.0)], LE, 4.0)),
        -12.0
    );
    assert_eq!(
        objective_of(|p, x, y| p.add_constraint([x, y].iter().map(|&v| (v, 1.0)), LE, 4.0)),
        -12.0
    );
    assert_eq!(
        objective_of(|p, x, y| {
            let mut expr = LinearExpr::empty();
            expr.add(x, 1.0);
            expr.extend([(y, 1.0)]);
            p.add_constraint(expr, LE, 4.0)
        }),
        -12.0
    );
    assert_eq!(
        objective_of(|p, x, y| {
            let expr: LinearExpr = [(x, 1.0), (y, 1.0)].into_iter().collect();
            p.add_constraint(expr.clone(), LE, 4.0)
        }),
        -12.0
    );
}

#[test]
fn terms_may_come_in_any_order() {
    let solve = |order: [usize; 3]| {
        let mut problem = Problem::new(OptimizationDirection::Minimize);
        let vars: Vec<Variable> = (0..3)
            .map(|k| problem.add_var(-1.0 - k as f64, (0.0, f64::INFINITY)))
            .collect();
        let coeffs = [3.0, 5.0, 7.0];
        let terms = order.map(|k| (vars[k], coeffs[k]));
        problem.add_constraint(terms, ComparisonOp::Le, 11.0);
        let solution = problem.solve().unwrap();
        let bits: Vec<u64> = solution.iter().map(|(_, value)| value.to_bits()).collect();
        (solution.objective().to_bits(), bits)
    };
    let rising = solve([0, 1, 2]);
    for order in [[0, 2, 1], [1, 0, 2], [1, 2, 0], [2, 0, 1], [2, 1, 0]] {
        assert_eq!(solve(order), rising);
    }
}

#[test]
fn iteration_goes_over_the_variables_alone() {
    let (problem, x, y) = first_page();
    let solution = problem.solve().unwrap();
    let pairs: Vec<(Variable, f64)> = solution.iter().map(|(var, &value)| (var, value)).collect();
    assert_eq!(pairs, [(x, 1.0), (y, 3.0)]);
    let mut count = 0;
    for (var, value) in &solution {
        assert_eq!(*value, solution[var]);
        assert_eq!(var.idx(), count);
        count += 1;
    }
    assert_eq!(count, 2);
}

#[test]
fn empty_problems() {
    let problem = Problem::new(OptimizationDirection::Minimize);
    let solution = problem.solve().unwrap();
    assert_eq!(solution.objective(), 0.0);
    assert_eq!(solution.iter().count(), 0);

    // Constraints without terms that hold are dropped, and the others keep their numbers.
    let mut problem = Problem::new(OptimizationDirection::Maximize);
    let x = problem.add_var(1.0, (0.0, f64::INFINITY));
    let none: [(Variable, f64); 0] = [];
    problem.add_constraint(none, ComparisonOp::Eq, 0.0);
    problem.add_constraint([(x, 1.0)], ComparisonOp::Le, 4.0);
    problem.add_constraint(LinearExpr::empty(), ComparisonOp::Ge, -1.0);
    problem.add_constraint([(x, 2.0)], ComparisonOp::Le, 10.0);
    let solution = problem.solve().unwrap();
    assert_eq!(solution.objective(), 4.0);
    let slacks: Vec<Option<f64>> = (0..4).map(|row| solution.slack(row)).collect();
    assert_eq!(slacks, [None, Some(0.0), None, Some(2.0)]);
    let multipliers: Vec<f64> = (0..4).map(|row| solution.multiplier(row)).collect();
    assert_eq!(multipliers, [0.0, 1.0, 0.0, 0.0]);
}

/// A variable with no bounds, no coefficient and no constraint has nothing to gain: no error 20.
#[test]
fn an_idle_variable_stays() {
    let mut problem = Problem::new(OptimizationDirection::Maximize);
    let idle = problem.add_var(0.0, (f64::NEG_INFINITY, f64::INFINITY));
    let sold = problem.add_var(1.0, (0.0, f64::INFINITY));
    problem.add_constraint([(sold, 1.0)], ComparisonOp::Le, 4.0);
    let solution = problem.solve().unwrap();
    assert_eq!(solution.objective(), 4.0);
    assert_eq!((solution[idle], solution[sold]), (0.0, 4.0));
}

#[test]
fn bounds_of_every_kind() {
    let mut problem = Problem::new(OptimizationDirection::Minimize);
    let fixed = problem.add_var(5.0, (3.0, 3.0));
    let free = problem.add_var(1.0, (f64::NEG_INFINITY, f64::INFINITY));
    let from_above = problem.add_var(-1.0, (f64::NEG_INFINITY, -2.0));
    let from_below = problem.add_var(1.0, (-7.0, f64::INFINITY));
    problem.add_constraint([(free, 1.0), (fixed, 1.0)], ComparisonOp::Ge, -1.0);
    let solution = problem.solve().unwrap();
    assert_eq!(solution[fixed], 3.0);
    assert_eq!(solution[free], -4.0);
    assert_eq!(solution[from_above], -2.0);
    assert_eq!(solution[from_below], -7.0);
    assert_eq!(solution.objective(), 15.0 - 4.0 + 2.0 - 7.0);
}

#[test]
fn debug_shows_sizes_not_data() {
    let (problem, ..) = first_page();
    assert_eq!(
        format!("{problem:?}"),
        "Problem { direction: Maximize, num_vars: 2, num_constraints: 2 }"
    );
    let solution: Solution = problem.solve().unwrap();
    assert_eq!(
        format!("{:?}", solution.clone()),
        "Solution { direction: Maximize, num_vars: 2, num_constraints: 2, objective: 7.0 }"
    );
}

#[test]
#[should_panic]
fn a_variable_of_a_larger_problem_has_no_value() {
    let (problem, ..) = first_page();
    let mut larger = problem.clone();
    let stranger = larger.add_var(0.0, (0.0, 1.0));
    let _ = problem.solve().unwrap()[stranger];
}
