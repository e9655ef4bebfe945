//! The crate as minilp's twin: tests/minilp/lib.rs.txt is the text of minilp 0.2.2's src/lib.rs, and each public item
//! and each example of it is had, or stands in the list of what is left out.

// `&[…]` is how minilp's pages write it.
#![allow(clippy::needless_borrows_for_generic_args)]

use tevalumi as minilp;

use std::collections::{BTreeSet, HashMap};
use std::iter::FromIterator;

use minilp::{
    ComparisonOp, Error, LinearExpr, LinearTerm, MpsFile, OptimizationDirection, Problem, Solution,
    SolutionIter, Variable,
};

const THEIRS: &str = include_str!("minilp/lib.rs.txt");

/// Each is used below as minilp's users do.
const HAD: [&str; 33] = [
    "enum OptimizationDirection",
    "struct Variable",
    "fn idx",
    "struct LinearExpr",
    "fn empty",
    "fn add",
    "struct LinearTerm",
    "impl From<(Variable, f64)> for LinearTerm",
    "impl<'a> From<&'a (Variable, f64)> for LinearTerm",
    "impl<I: IntoIterator<Item = impl Into<LinearTerm>>> From<I> for LinearExpr",
    "impl std::iter::FromIterator<(Variable, f64)> for LinearExpr",
    "impl std::iter::Extend<(Variable, f64)> for LinearExpr",
    "enum ComparisonOp",
    "enum Error",
    "impl std::fmt::Display for Error",
    "impl std::error::Error for Error",
    "struct Problem",
    "impl std::fmt::Debug for Problem",
    "fn new",
    "fn add_var",
    "fn add_constraint",
    "fn solve",
    "struct Solution",
    "impl std::fmt::Debug for Solution",
    "fn objective",
    "fn var_value",
    "fn iter",
    "fn fix_var",
    "fn unfix_var",
    "impl std::ops::Index<Variable> for Solution",
    "struct SolutionIter",
    "impl<'a> Iterator for SolutionIter<'a>",
    "impl<'a> IntoIterator for &'a Solution",
];

/// Had, but by another line: `pub use mps::MpsFile`.
const USED: [&str; 1] = ["use mps::MpsFile"];

const LEFT_OUT: [&str; 1] = ["fn add_gomory_cut"];

#[test]
fn every_public_item_is_had_or_left_out() {
    let mut theirs = BTreeSet::new();
    for line in THEIRS.lines().map(str::trim_start) {
        if let Some(item) = line.strip_prefix("pub ") {
            let end = item.find(['(', '{', '<', ';']).unwrap_or(item.len());
            theirs.insert(item[..end].trim_end());
        } else if line.starts_with("impl") && line.contains(" for ") {
            let end = line.find(" {").unwrap_or(line.len());
            theirs.insert(&line[..end]);
        }
    }
    let ours = HAD.into_iter().chain(USED).chain(LEFT_OUT).collect();
    assert_eq!(theirs, ours);
}

/// The examples stand in our own pages, where they are run, with nothing but the `use` line changed.
#[test]
fn every_example_is_one_of_ours() {
    let bare = |text: &str| -> String {
        let lines = text.lines().map(|line| line.trim_start());
        let lines = lines.map(|line| line.strip_prefix("///").unwrap_or(line).trim());
        lines.collect::<Vec<_>>().join("\n")
    };
    let ours = bare(include_str!("../src/lib.rs")) + &bare(include_str!("../src/problem.rs"));
    let theirs = bare(THEIRS);
    let examples: Vec<&str> = theirs.split("\n```\n").skip(1).step_by(2).collect();
    assert_eq!(examples.len(), 2);
    for example in examples {
        assert_eq!(example.matches("use minilp::").count(), 1);
        let changed = example.replace("use minilp::", "use tevalumi::");
        let here = ours.contains(&format!("\n```\n{changed}\n```\n"));
        assert!(here, "{changed}");
    }
}

/// x <= 4 and y <= 2 with the objective x + y.
fn small() -> (Problem, Variable, Variable) {
    let mut problem = Problem::new(OptimizationDirection::Maximize);
    let x = problem.add_var(1.0, (0.0, f64::INFINITY));
    let y = problem.add_var(1.0, (0.0, 2.0));
    problem.add_constraint(&[(x, 1.0)], ComparisonOp::Le, 4.0);
    (problem, x, y)
}

#[test]
fn expressions() {
    let (mut problem, x, y) = small();
    let terms: [LinearTerm; 2] = [LinearTerm::from((x, 1.0)), (&(y, 1.0)).into()];
    let mut expr = LinearExpr::from(terms);
    expr.extend(None);
    problem.add_constraint(expr.clone(), ComparisonOp::Le, 5.0);
    let mut expr = LinearExpr::empty();
    expr.add(x, 1.0);
    problem.add_constraint(expr, ComparisonOp::Ge, 0.0);
    problem.add_constraint(LinearExpr::from_iter([(y, 1.0)]), ComparisonOp::Eq, 2.0);
    problem.add_constraint(vec![(x, 1.0)], ComparisonOp::Le, 9.0);
    assert_eq!(problem.solve().unwrap().objective(), 5.0);
    assert_eq!((x.idx(), y.idx(), x < y), (0, 1, true));
    assert_eq!(HashMap::from([(x, "x")])[&x], "x");
}

#[test]
fn solutions() {
    let (problem, x, y) = small();
    let solution: Solution = problem.clone().solve().unwrap();
    assert_eq!((solution[x], *solution.var_value(y)), (4.0, 2.0));
    let values: SolutionIter<'_> = solution.iter();
    assert_eq!(values.clone().count(), 2);
    for (var, &value) in &solution {
        assert_eq!(value, solution[var]);
    }
    assert!(format!("{problem:?} {solution:?}").contains("objective: 6.0"));
    let solution = solution.add_constraint(&[(x, 1.0), (y, 1.0)], ComparisonOp::Le, 5.0);
    assert_eq!(solution.unwrap().objective(), 5.0);
}

#[test]
fn errors_by_name() {
    let named = |problem: &Problem| match problem.solve() {
        Ok(_) => "solved".to_string(),
        Err(Error::Infeasible) => "infeasible".to_string(),
        Err(Error::Unbounded) => "unbounded".to_string(),
        Err(Error::Other(failure)) => failure.number().to_string(),
    };
    let (problem, x, y) = small();
    assert_eq!(named(&problem), "solved");

    let mut unbounded = problem.clone();
    unbounded.add_var(1.0, (0.0, f64::INFINITY));
    assert_eq!(named(&unbounded), "unbounded");
    let error = unbounded.solve().unwrap_err();
    assert_eq!(error, Error::Unbounded);
    assert_eq!(error.to_string(), "problem is unbounded");
    let _: Box<dyn std::error::Error> = error.into();

    let mut crossed = problem.clone();
    crossed.add_var(1.0, (1.0, 0.0));
    assert_eq!(named(&crossed), "infeasible");
    let mut empty = problem.clone();
    empty.add_constraint(LinearExpr::empty(), ComparisonOp::Ge, 1.0);
    assert_eq!(empty.solve().unwrap_err(), Error::Infeasible);
    assert_eq!(
        empty.solve().unwrap_err().to_string(),
        "problem is infeasible"
    );

    let mut outside = problem.clone();
    outside.add_constraint(&[(x, 1.0), (y, 1.0)], ComparisonOp::Ge, 3.0);
    assert_eq!(named(&outside), "solved");
    outside.set_plain(true);
    assert_eq!(named(&outside), "7");
    let mut none = Problem::new(OptimizationDirection::Minimize);
    let z = none.add_var(1.0, (0.0, f64::INFINITY));
    none.add_constraint(&[(z, 1.0)], ComparisonOp::Ge, 3.0);
    assert_eq!(named(&none), "solved");
    none.add_constraint(&[(z, 1.0)], ComparisonOp::Le, 2.0);
    assert_eq!(named(&none), "infeasible");
    assert_eq!(none.answer().unwrap_err().number(), 26);
    let mut twice = problem.clone();
    twice.add_constraint(&[(x, 1.0), (x, 1.0)], ComparisonOp::Le, 3.0);
    assert_eq!(named(&twice), "3");
    assert_eq!(
        twice.solve().unwrap_err().to_string(),
        twice.answer().unwrap_err().to_string()
    );
}

const DIRECTION: OptimizationDirection = OptimizationDirection::Minimize;

#[test]
fn mps_files() {
    let text = "\
* a comment
NAME all of it
OBJSENSE
 MAX
ROWS
 N cost
 N spare
 L a
 G b
 E c
 E d
COLUMNS
 x cost 1 a 2
 x b 3
 y cost 4 c 5 $ a comment
 z d 1 spare 9
 w a 1
 v a 1
RHS
 RHS a 10 b 1
 RHS c 2
 RHS cost 7
 OTHER a 99
RANGES
 R a 4 b 6
 R c -1
 R d 3
BOUNDS
 UP B x 8
 MI B y
 UP B y 1e20
 FX B z 2
 UP B w -3
 FR B v
ENDATA
";
    let file = MpsFile::parse(text.as_bytes(), DIRECTION).unwrap();
    assert_eq!(file.problem_name, "all of it");
    assert_eq!((file.variables.len(), file.variables["w"].idx()), (5, 3));
    assert_eq!(file.constant, -7.0);
    let plan = file.problem.plan();
    let none = f64::INFINITY;
    assert_eq!(plan.costs, [1.0, 4.0, 0.0, 0.0, 0.0]);
    assert_eq!(plan.lowers, [0.0, -none, 2.0, -none, -none]);
    assert_eq!(plan.uppers, [8.0, none, 2.0, -3.0, none]);
    assert_eq!(plan.ops, [0, 2, 0, 2, 0, 2, 0, 2]);
    assert_eq!(plan.rhs, [10.0, 6.0, 7.0, 1.0, 2.0, 1.0, 3.0, 0.0]);
    assert_eq!(plan.starts, [0, 3, 6, 7, 8, 9, 10, 11, 12]);
    assert_eq!(plan.cols, [0, 3, 4, 0, 3, 4, 0, 0, 1, 1, 2, 2]);
    assert!(format!("{file:?}").starts_with("MpsFile { problem_name: \"all of it\", num_vars: 5"));
    let maximised = MpsFile::parse(text.as_bytes(), OptimizationDirection::Maximize).unwrap();
    assert_eq!(maximised.problem.plan().costs[..2], [-1.0, -4.0]);
}

/// The bundled plans, as the night tells of them.
#[test]
fn bundled_plans() {
    let read = |text: &str| MpsFile::parse(text.as_bytes(), DIRECTION).unwrap();
    let small = read(include_str!("../plans/two-tunnels.mps"));
    let solution = small.problem.solve().unwrap();
    assert_eq!(solution[small.variables["north"]], 4.5);
    let night = read(include_str!("../plans/night-as-priced.mps"));
    assert_eq!(night.problem.solve().unwrap().steps(), 51);
}

#[test]
fn faults_of_mps_files() {
    for (text, says) in [
        ("", "line 0: expected ENDATA"),
        ("ROWS\n X c\nENDATA", "line 2: expected N, L, G or E"),
        ("ROWS\n N c\n N c\nENDATA", "line 3: row `c` stands twice"),
        ("QUADOBJ\nENDATA", "line 1: expected a section of MPS"),
        (
            " N c\nENDATA",
            "line 1: expected a section such as NAME or ROWS",
        ),
        (
            "ROWS\n N c\nCOLUMNS\n x d 1\nENDATA",
            "line 4: expected a row named in ROWS, found `d`",
        ),
        (
            "ROWS\n N c\nCOLUMNS\n x c one\nENDATA",
            "line 4: expected a number, found `one`",
        ),
        (
            "ROWS\n N c\nCOLUMNS\n x c\nENDATA",
            "line 4: expected a column",
        ),
        (
            "ROWS\n N c\nCOLUMNS\n x c 1 c 2\nENDATA",
            "line 4: column `x` has row `c` twice",
        ),
        (
            "ROWS\n N c\nCOLUMNS\n x c 1\n y c 1\n x c 2\nENDATA",
            "line 6: column `x` stands twice",
        ),
        (
            "ROWS\n N c\nCOLUMNS\n M 'MARKER' 'INTORG'\nENDATA",
            "line 4: a stretch of columns",
        ),
        (
            "ROWS\n N c\nRHS\n R c 1\n R c 1\nENDATA",
            "line 5: row `c` stands twice in this section",
        ),
        (
            "ROWS\n N c\nCOLUMNS\n x c 1\nBOUNDS\n UP B y 1\nENDATA",
            "line 6: expected a column named",
        ),
        (
            "ROWS\n N c\nCOLUMNS\n x c 1\nBOUNDS\n BV B x\nENDATA",
            "line 6: expected a bound's kind",
        ),
        (
            "ROWS\n N c\nCOLUMNS\n x c 1\nBOUNDS\n UP B x\nENDATA",
            "line 6: expected a number",
        ),
    ] {
        let error = MpsFile::parse(text.as_bytes(), DIRECTION).unwrap_err();
        assert_eq!(error.kind(), std::io::ErrorKind::InvalidData);
        assert!(error.to_string().starts_with(says), "{error}");
    }
}
