/*!
Small linear programs and their audit sheet, over a library whose every function is proved.

[Linear programming](https://en.wikipedia.org/wiki/Linear_programming) is a technique for
finding the minimum (or maximum) of a linear function of a set of continuous variables
subject to linear equality and inequality constraints.

The solver is the part of [minilp](https://crates.io/crates/minilp) 0.2.2 that a gateway uses, the
simplex from a slack start, ported and proved to follow its written rules (documents 01 and 02), step
by step and bit by bit. A start that is neither feasible nor dual feasible is left by a run with an
objective of 0. It adds a step budget, a final check, and an audit
sheet in whole numbers that bounds how much cheaper any other plan could be.

| module | for whom |
|---|---|
| this one | programs that use minilp: the same [`Problem`], [`LinearExpr`], [`Solution`], [`MpsFile`] |
| [`sheet`] | whoever must say, after a bad night, whether a plan was the cheapest one |
| [`proposals`] | whoever wants the best whole plan near a run's doubles |
| [`why`] | whoever must say why there was no plan at all |
| [`night`] | whoever must send alarms first, and then the rest |
| [`raw`], [`triangle`] | firmware: the library's calls over lent memory, without allocation |

# Example

```
use tevalumi::{Problem, OptimizationDirection, ComparisonOp};

// Maximize an objective function x + 2 * y of two variables x >= 0 and 0 <= y <= 3
let mut problem = Problem::new(OptimizationDirection::Maximize);
let x = problem.add_var(1.0, (0.0, f64::INFINITY));
let y = problem.add_var(2.0, (0.0, 3.0));

// subject to constraints: x + y <= 4 and 2 * x + y >= 2.
problem.add_constraint(&[(x, 1.0), (y, 1.0)], ComparisonOp::Le, 4.0);
problem.add_constraint(&[(x, 2.0), (y, 1.0)], ComparisonOp::Ge, 2.0);

// Optimal value is 7, achieved at x = 1 and y = 3.
let solution = problem.solve().unwrap();
assert_eq!(solution.objective(), 7.0);
assert_eq!(solution[x], 1.0);
assert_eq!(solution[y], 3.0);
```

# Coming from minilp

Change `use minilp::…` to `use tevalumi::…`. What differs:

| minilp 0.2.2 | here |
|---|---|
| any size | at most 128 variables, 96 constraints and 2,048 terms, else error 1 |
| any start | any start; where neither kind of step begins there, the problem is solved with an objective of 0 first. [`Problem::set_plain`] gives error 7 instead |
| runs until it is done | at most [`Problem::set_budget`] steps (10,000 unless set), else error 21 |
| no check of the result | every value and constraint is checked within [`Problem::set_tolerance`] (1e-6 unless set), else error 24 |
| refactors the basis as soon as its exchanges have as many entries as it, and panics where it can't | refactors when a store of 256 exchanges and 4,096 entries is full; where it can't, error 25 |
| NaN, numbers above 1e12 and overflow go on | errors 2 and 23 |
| a variable with no bounds enters at any reduced cost: one with coefficient 0 in no constraint can be called unbounded | it enters only where its reduced cost is at least 1e-8 in size, as every variable does |
| `Error::Infeasible`, `Error::Unbounded` | the same, and a third case: [`Error::Other`] with every other number. [`Status::CrossedBounds`] (4), [`Status::FalseEmptyRow`] (5) and [`Status::Infeasible`] (26) are `Infeasible` |
| `add_constraint` panics where a variable stands twice or is of a larger problem | [`Problem::solve`] gives error 3 and names the constraint |
| `Solution::add_constraint` goes on from the solution | [`Solution::add_constraint`] solves the longer problem anew |
| `MpsFile` | [`MpsFile`], with `constant` beside its fields |
| `fix_var`, `unfix_var` | [`Solution::fix_var`], [`Solution::unfix_var`], in a few steps from the solution on; [`Solution::fix`] and [`Solution::unfix`] with the number of an error |
| no other objective | [`Solution::with_objective`], from the solution on |
| `add_gomory_cut` | left out |

The page docs/FROM-MINILP.md of the repository has each public item of minilp beside ours.

A variable starts at its fixed value; at 0 if it has no bounds; else at the bound that its
objective coefficient prefers, or at its other bound if that one is infinite; at its lower bound,
if there is one, where the coefficient is 0.

# Errors

Every solve answers; none panics, whatever it is given. [`Problem::solve`] has minilp's names for the
errors; [`Problem::answer`] says document 01's number, the place, and a sentence in a [`Failure`]:

```
# use tevalumi::*;
let mut problem = Problem::new(OptimizationDirection::Minimize);
let _ = problem.add_var(1.0, (0.0, 9.0));
let _ = problem.add_var(1.0, (3.0, 2.0));
assert_eq!(problem.solve().unwrap_err(), Error::Infeasible);
let failure = problem.answer().unwrap_err();
assert_eq!(failure.number(), 4);
assert_eq!(failure.variable().map(|var| var.idx()), Some(1));
assert_eq!(failure.to_string(), "4: a lower bound is above its upper bound (variable 1)");
```

# What is proved and what is trusted

Proved: every function of the static library meets its contract, for every input. The contracts
say what document 01 says: which number is answered when, each step, each written cell.
Trusted: the library's compiler, the C boundary and this crate around it. Its `unsafe` calls
stand in one module of the source, `ffi`, with the reason for each.

# Linking

The static library `libtevalumi.a` is looked for in `target/staticlib` of the repository, where
`make library` writes it, or in the folder that the environment variable
`TEVALUMI_LIB_DIR` names when the crate is built. It is code for x86-64 Linux.
*/

#![deny(unsafe_code)]
#![deny(missing_debug_implementations)]
#![warn(missing_docs)]

mod ffi;
mod mps;
pub mod night;
mod problem;
pub mod proposals;
pub mod raw;
mod sections;
pub mod sheet;
pub mod triangle;
pub mod wholes;
pub mod why;

pub use mps::MpsFile;
pub use problem::{
    ComparisonOp, Error, Failure, LinearExpr, LinearTerm, OptimizationDirection, Problem, Solution,
    SolutionIter, Variable,
};
pub use raw::{Place, Status};

/// README's Rust example, run with the other examples.
#[cfg(doctest)]
#[doc = include_str!("../../../README.md")]
struct Readme;
