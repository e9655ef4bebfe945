//! The shape of minilp's own interface.
//!
//! From minilp 0.2.2, src/lib.rs, Apache-2.0, changed: the problem is kept as the library's arrays,
//! an error carries document 01's number and place, and what document 01 leaves out is left out.

use std::fmt;

use crate::raw::{
    fix_into, limits, ops, reprice_into, sections, solve_any_into, solve_into, unfix_into, Answer,
    Place, PlanRef, Status, Way, Workspace,
};

/// An enum indicating whether to minimize or maximize objective function.
#[derive(Clone, Copy, Debug, PartialEq, Eq, Hash)]
pub enum OptimizationDirection {
    /// Minimize the objective function.
    Minimize,
    /// Maximize the objective function.
    Maximize,
}

impl OptimizationDirection {
    /// Maximising is minimising the negated costs.
    fn turn(self, number: f64) -> f64 {
        match self {
            OptimizationDirection::Minimize => number,
            OptimizationDirection::Maximize => -number,
        }
    }
}

/// A reference to a variable in a linear programming problem.
#[derive(Clone, Copy, Debug, PartialEq, Eq, PartialOrd, Ord, Hash)]
pub struct Variable(pub(crate) usize);

impl Variable {
    /// Sequence number of the variable.
    ///
    /// Variables are referenced by their number in the addition sequence. The method returns
    /// this number.
    pub fn idx(&self) -> usize {
        self.0
    }
}

/// A sum of variables multiplied by constant coefficients used as a left-hand side
/// when defining constraints.
#[derive(Clone, Debug)]
pub struct LinearExpr {
    terms: Vec<(usize, f64)>,
}

impl LinearExpr {
    /// Creates an empty linear expression.
    pub fn empty() -> Self {
        Self { terms: vec![] }
    }

    /// Add a single term to the linear expression.
    ///
    /// Variables can be added to an expression in any order, but adding the same variable
    /// several times is forbidden: [`Problem::solve`] will answer with error 3.
    pub fn add(&mut self, var: Variable, coeff: f64) {
        self.terms.push((var.0, coeff));
    }
}

/// A single `variable * constant` term in a linear expression.
/// This is an auxiliary struct for specifying conversions.
#[doc(hidden)]
#[derive(Clone, Copy, Debug)]
pub struct LinearTerm(Variable, f64);

impl From<(Variable, f64)> for LinearTerm {
    fn from(term: (Variable, f64)) -> Self {
        LinearTerm(term.0, term.1)
    }
}

impl<'a> From<&'a (Variable, f64)> for LinearTerm {
    fn from(term: &'a (Variable, f64)) -> Self {
        LinearTerm(term.0, term.1)
    }
}

impl<I: IntoIterator<Item = impl Into<LinearTerm>>> From<I> for LinearExpr {
    fn from(iter: I) -> Self {
        let mut expr = LinearExpr::empty();
        for term in iter {
            let LinearTerm(var, coeff) = term.into();
            expr.add(var, coeff);
        }
        expr
    }
}

impl FromIterator<(Variable, f64)> for LinearExpr {
    fn from_iter<I: IntoIterator<Item = (Variable, f64)>>(iter: I) -> Self {
        let mut expr = LinearExpr::empty();
        expr.extend(iter);
        expr
    }
}

impl Extend<(Variable, f64)> for LinearExpr {
    fn extend<I: IntoIterator<Item = (Variable, f64)>>(&mut self, iter: I) {
        for term in iter {
            self.add(term.0, term.1)
        }
    }
}

/// An operator specifying the relation between left-hand and right-hand sides of the constraint.
#[derive(Clone, Copy, Debug, PartialEq, Eq, Hash)]
pub enum ComparisonOp {
    /// The == operator (equal to)
    Eq,
    /// The <= operator (less than or equal to)
    Le,
    /// The >= operator (greater than or equal to)
    Ge,
}

impl ComparisonOp {
    /// The library's code for it, one of [`ops`].
    pub const fn code(self) -> u8 {
        match self {
            ComparisonOp::Le => ops::LE,
            ComparisonOp::Eq => ops::EQ,
            ComparisonOp::Ge => ops::GE,
        }
    }
}

/// A specification of a linear programming problem.
#[derive(Clone)]
pub struct Problem {
    direction: OptimizationDirection,
    budget: usize,
    tolerance: f64,
    plain: bool,
    costs: Vec<f64>,
    lowers: Vec<f64>,
    uppers: Vec<f64>,
    starts: Vec<usize>,
    cols: Vec<usize>,
    coeffs: Vec<f64>,
    ops: Vec<u8>,
    rhs: Vec<f64>,
}

impl fmt::Debug for Problem {
    fn fmt(&self, f: &mut fmt::Formatter<'_>) -> fmt::Result {
        // Only printing lengths here because actual data is probably huge.
        f.debug_struct("Problem")
            .field("direction", &self.direction)
            .field("num_vars", &self.costs.len())
            .field("num_constraints", &self.rhs.len())
            .finish()
    }
}

impl Problem {
    /// The step budget of a new problem: the largest that there is.
    pub const DEFAULT_BUDGET: usize = limits::BUDGET;
    /// The final check's tolerance of a new problem.
    pub const DEFAULT_TOLERANCE: f64 = 1e-6;

    /// Create a new problem instance.
    pub fn new(direction: OptimizationDirection) -> Self {
        Problem {
            direction,
            budget: Self::DEFAULT_BUDGET,
            tolerance: Self::DEFAULT_TOLERANCE,
            plain: false,
            costs: vec![],
            lowers: vec![],
            uppers: vec![],
            starts: vec![0],
            cols: vec![],
            coeffs: vec![],
            ops: vec![],
            rhs: vec![],
        }
    }

    /// Add a new variable to the problem.
    ///
    /// `obj_coeff` is a coefficient of the term in the objective function corresponding to this
    /// variable, `min` and `max` are the minimum and maximum (inclusive) bounds of this
    /// variable. If one of the bounds is absent, use `f64::NEG_INFINITY` for minimum and
    /// `f64::INFINITY` for maximum.
    pub fn add_var(&mut self, obj_coeff: f64, (min, max): (f64, f64)) -> Variable {
        let var = Variable(self.costs.len());
        self.costs.push(self.direction.turn(obj_coeff));
        self.lowers.push(min);
        self.uppers.push(max);
        var
    }

    /// Add a linear constraint to the problem.
    ///
    /// The variables may come in any order. A variable that stands twice, or that belongs to a
    /// larger problem, is found by [`solve`](Problem::solve), which then gives error 3.
    ///
    /// # Examples
    ///
    /// Left-hand side of the constraint can be specified in several ways:
    /// ```
    /// # use tevalumi::*;
    /// let mut problem = Problem::new(OptimizationDirection::Minimize);
    /// let x = problem.add_var(1.0, (0.0, f64::INFINITY));
    /// let y = problem.add_var(1.0, (0.0, f64::INFINITY));
    ///
    /// // Add an x + y >= 2 constraint, specifying the left-hand side expression:
    ///
    /// // * by passing a slice of pairs (useful when explicitly enumerating variables)
    /// problem.add_constraint(&[(x, 1.0), (y, 1.0)], ComparisonOp::Ge, 2.0);
    ///
    /// // * by passing an iterator of variable-coefficient pairs.
    /// let vars = [x, y];
    /// problem.add_constraint(vars.iter().map(|&v| (v, 1.0)), ComparisonOp::Ge, 2.0);
    ///
    /// // * by manually constructing a LinearExpr.
    /// let mut lhs = LinearExpr::empty();
    /// for &v in &vars {
    ///     lhs.add(v, 1.0);
    /// }
    /// problem.add_constraint(lhs, ComparisonOp::Ge, 2.0);
    /// ```
    pub fn add_constraint(&mut self, expr: impl Into<LinearExpr>, cmp_op: ComparisonOp, rhs: f64) {
        let mut terms = expr.into().terms;
        // A variable that stands twice stays so, side by side: the library answers 3 and names it.
        terms.sort_by_key(|&(var, _)| var);
        self.cols.extend(terms.iter().map(|&(var, _)| var));
        self.coeffs.extend(terms.iter().map(|&(_, coeff)| coeff));
        self.starts.push(self.cols.len());
        self.ops.push(cmp_op.code());
        self.rhs.push(rhs);
    }

    /// Set the most steps that a solve may take: 0 to 10,000, which is also the default.
    ///
    /// ```
    /// # use tevalumi::*;
    /// let mut problem = Problem::new(OptimizationDirection::Maximize);
    /// let x = problem.add_var(1.0, (0.0, f64::INFINITY));
    /// problem.add_constraint([(x, 1.0)], ComparisonOp::Le, 4.0);
    /// assert_eq!(problem.solve().unwrap().steps(), 1);
    ///
    /// problem.set_budget(0);
    /// assert_eq!(problem.answer().unwrap_err().status(), Status::Spent);
    /// ```
    pub fn set_budget(&mut self, steps: usize) {
        self.budget = steps;
    }

    /// Set the tolerance of the final check: 0 to 1. The default is 1e-6.
    ///
    /// Every value must lie within its bounds and every constraint must be met up to this much,
    /// else the solve ends with error 24. It doesn't change the steps.
    pub fn set_tolerance(&mut self, tolerance: f64) {
        self.tolerance = tolerance;
    }

    /// Keep to document 01's start, which is what the library's plain solve does: a problem whose start
    /// neither kind of step begins at ends with error 7. The default is to solve it all the same, first
    /// with an objective of 0 and from there with its own.
    ///
    /// ```
    /// # use tevalumi::*;
    /// // x starts at 0, where x >= 2 doesn't hold, and y would rise without end but for the last row.
    /// let mut problem = Problem::new(OptimizationDirection::Maximize);
    /// let x = problem.add_var(-1.0, (0.0, f64::INFINITY));
    /// let y = problem.add_var(1.0, (0.0, f64::INFINITY));
    /// problem.add_constraint([(x, 1.0)], ComparisonOp::Ge, 2.0);
    /// problem.add_constraint([(x, 1.0), (y, 1.0)], ComparisonOp::Le, 5.0);
    /// let solution = problem.solve()?;
    /// assert_eq!((solution[x], solution[y], solution.objective()), (2.0, 3.0, 1.0));
    ///
    /// problem.set_plain(true);
    /// assert_eq!(problem.answer().unwrap_err().number(), 7);
    /// # Ok::<(), Error>(())
    /// ```
    pub fn set_plain(&mut self, plain: bool) {
        self.plain = plain;
    }

    /// The problem as the library's arrays, for the calls of [`raw`](crate::raw). They minimise:
    /// the costs of a problem that is to be maximised stand there negated.
    pub fn plan(&self) -> PlanRef<'_> {
        PlanRef {
            columns: self.costs.len(),
            rows: self.rhs.len(),
            entries: self.cols.len(),
            budget: self.budget,
            tolerance: self.tolerance,
            costs: &self.costs,
            lowers: &self.lowers,
            uppers: &self.uppers,
            starts: &self.starts,
            cols: &self.cols,
            coeffs: &self.coeffs,
            ops: &self.ops,
            rhs: &self.rhs,
        }
    }

    /// The first constraint that doesn't hold where the variables start, for an error's words. The
    /// library has settled that there is one.
    fn broken_at_start(&self) -> Option<usize> {
        let start = |var: usize| {
            let wanted = match self.costs[var] < 0.0 {
                true => [self.uppers[var], self.lowers[var]],
                false => [self.lowers[var], self.uppers[var]],
            };
            wanted.into_iter().find(|x| x.is_finite()).unwrap_or(0.0)
        };
        (0..self.rhs.len()).find(|&row| {
            let terms = self.starts[row]..self.starts[row + 1];
            let sum = terms.fold(0.0, |sum, e| sum + self.coeffs[e] * start(self.cols[e]));
            let slack = self.rhs[row] - sum;
            match self.ops[row] {
                ops::LE => slack < 0.0,
                ops::EQ => slack != 0.0,
                _ => slack > 0.0,
            }
        })
    }

    /// Solve the problem, finding the optimal objective function value and variable values.
    ///
    /// # Errors
    ///
    /// Will return an error for every [`Status`] but [`Optimal`](Status::Optimal): if the problem
    /// is over a limit, if the constraints can't be satisfied, if the objective value is unbounded, if
    /// the budget is spent, if a number isn't finite, if a basis can't be factored, or if the final check
    /// rejects the values; and where [`set_plain`](Problem::set_plain) asks for it, if neither kind of
    /// step begins at the start.
    pub fn solve(&self) -> Result<Solution, Error> {
        Ok(self.answer()?)
    }

    /// As [`solve`](Problem::solve), with document 01's number, the place and a sentence in every error.
    ///
    /// # Errors
    ///
    /// As [`solve`](Problem::solve).
    pub fn answer(&self) -> Result<Solution, Failure> {
        self.solve_in(&mut Box::default())
    }

    /// As [`answer`](Problem::answer), in a workspace that can be used again and again.
    ///
    /// After errors 20 to 26 the workspace holds the state after the last whole step.
    ///
    /// # Errors
    ///
    /// As [`solve`](Problem::solve).
    pub fn solve_in(&self, work: &mut Workspace) -> Result<Solution, Failure> {
        let plan = self.plan();
        let mut values = vec![0.0; plan.columns + plan.rows];
        let (answer, costless_steps) = match self.plain {
            true => (solve_into(&plan, work, &mut values), None),
            false => {
                let any = solve_any_into(&plan, work, &mut values);
                let repriced = any.way == Way::Repriced;
                (any.answer, repriced.then_some(any.costless_steps))
            }
        };
        if answer.status != Status::Optimal {
            return Err(Failure {
                costless_steps,
                ..Failure::new(self, work, answer)
            });
        }
        Ok(Solution {
            costless_steps,
            ..Solution::new(self, work, answer, values)
        })
    }
}

/// Why a problem wasn't solved: document 01's number, the place, and a sentence.
///
/// [`Display`](fmt::Display) writes all three:
///
/// ```
/// # use tevalumi::*;
/// let mut problem = Problem::new(OptimizationDirection::Minimize);
/// let x = problem.add_var(1.0, (0.0, 9.0));
/// problem.add_constraint([(x, 1.0), (x, 2.0)], ComparisonOp::Le, 4.0);
/// let failure = problem.answer().unwrap_err();
/// assert_eq!(failure.number(), 3);
/// assert_eq!(failure.place(), Place::Entry { row: 0, within: 1 });
/// assert_eq!(
///     failure.to_string(),
///     "3: a row names a column twice, out of order, or that isn't there (constraint 0, variable 0)"
/// );
/// ```
#[derive(Clone, Debug, PartialEq)]
pub struct Failure {
    direction: OptimizationDirection,
    answer: Answer,
    costless_steps: Option<usize>,
    variable: Option<Variable>,
    constraint: Option<usize>,
    /// Boxed, since an error is handed back by value and few have it.
    over: Option<Box<Over>>,
}

/// The first size of a problem that passes its limit.
#[derive(Clone, Debug, PartialEq)]
struct Over {
    what: &'static str,
    size: usize,
    limit: usize,
}

impl Failure {
    fn new(problem: &Problem, work: &Workspace, answer: Answer) -> Failure {
        let columns = problem.costs.len();
        let (variable, constraint) = match answer.place {
            Place::Nowhere if answer.status == Status::SlackOutside => {
                (None, problem.broken_at_start())
            }
            Place::Nowhere => (None, None),
            Place::Entry { row, within } => {
                let var = problem.cols[problem.starts[row] + within];
                (Some(Variable(var)), Some(row))
            }
            Place::Column(column) => (Some(Variable(column)), None),
            Place::Row(row) => (None, Some(row)),
            Place::Value(value) if value < columns => (Some(Variable(value)), None),
            Place::Value(value) => (None, Some(work.kept()[value - columns])),
            Place::KeptRow(row) => (None, Some(work.kept()[row])),
        };
        let sizes = [
            ("variables", columns, limits::COLUMNS),
            ("constraints", problem.rhs.len(), limits::ROWS),
            ("terms", problem.cols.len(), limits::ENTRIES),
            ("steps of budget", problem.budget, limits::BUDGET),
        ];
        Failure {
            direction: problem.direction,
            answer,
            costless_steps: None,
            variable,
            constraint,
            over: sizes
                .into_iter()
                .find(|&(_, size, limit)| size > limit)
                .map(|(what, size, limit)| Box::new(Over { what, size, limit })),
        }
    }

    /// How the solve ended; never [`Status::Optimal`].
    pub fn status(&self) -> Status {
        self.answer.status
    }

    /// Document 01's number: 1 to 7, 20 to 26, or 41 to 44 of a fix.
    pub fn number(&self) -> u8 {
        self.answer.status.number()
    }

    /// The place as the library names it. The terms of a constraint count in the order of their
    /// variables.
    pub fn place(&self) -> Place {
        self.answer.place
    }

    /// The variable that the place names, if it names one.
    pub fn variable(&self) -> Option<Variable> {
        self.variable
    }

    /// The constraint that the place names, if it names one: its number in the order of
    /// [`Problem::add_constraint`], from 0. With error 7, whose place names none, the first constraint
    /// that doesn't hold where the variables start.
    pub fn constraint(&self) -> Option<usize> {
        self.constraint
    }

    /// Whole steps of the run that ended so; 0 on a refusal.
    pub fn steps(&self) -> usize {
        self.answer.steps
    }

    /// The steps of the run with an objective of 0 before that, where there was one that found values
    /// for every constraint.
    pub fn costless_steps(&self) -> Option<usize> {
        self.costless_steps
    }

    /// The objective function's value after the last whole step; 0 on a refusal.
    pub fn objective(&self) -> f64 {
        self.direction.turn(self.answer.objective)
    }

    /// With error 24 the largest excess: how far a value is beyond its bound, or a constraint's sum
    /// off its right side, at the place that is named. Infinite where the value isn't finite. 0 with
    /// every other error.
    pub fn excess(&self) -> f64 {
        self.answer.excess
    }
}

impl fmt::Display for Failure {
    fn fmt(&self, f: &mut fmt::Formatter<'_>) -> fmt::Result {
        write!(f, "{}: ", self.number())?;
        match self.over.as_deref() {
            Some(Over { what, size, limit }) => {
                write!(f, "{size} {what} are too many, at most {limit} are allowed")?
            }
            None => f.write_str(self.status().sentence())?,
        }
        match (self.constraint, self.variable) {
            (Some(row), Some(var)) => write!(f, " (constraint {row}, variable {})", var.0),
            (Some(row), None) => write!(f, " (constraint {row})"),
            (None, Some(var)) => write!(f, " (variable {})", var.0),
            (None, None) => Ok(()),
        }
    }
}

impl std::error::Error for Failure {}

/// An error encountered while solving a problem, by minilp's names.
///
/// [`Infeasible`](Error::Infeasible) and [`Unbounded`](Error::Unbounded) have no room for document 01's
/// number, the place and the sentence: [`Problem::answer`] has them for every error.
///
/// ```
/// # use tevalumi::*;
/// let mut problem = Problem::new(OptimizationDirection::Maximize);
/// let x = problem.add_var(1.0, (0.0, f64::INFINITY));
/// match problem.solve() {
///     Err(Error::Infeasible) => println!("no values keep every constraint"),
///     Err(Error::Unbounded) => println!("the objective rises without end"),
///     Err(Error::Other(failure)) => println!("number {}", failure.number()),
///     Ok(solution) => println!("{}", solution[x]),
/// }
/// assert_eq!(problem.solve().unwrap_err(), Error::Unbounded);
/// assert_eq!(problem.answer().unwrap_err().number(), 20);
/// ```
#[derive(Clone, Debug, PartialEq)]
pub enum Error {
    /// Constraints can't simultaneously be satisfied: numbers 4 (a lower bound above its upper bound),
    /// 5 (a constraint without terms that is false), 26 (no variable can mend a constraint, as far as
    /// coefficients of at least 1e-8 in size say) and 43 (a variable fixed outside its bounds).
    Infeasible,
    /// The objective function is unbounded: number 20.
    Unbounded,
    /// Every other number. minilp has none of them.
    Other(Failure),
}

impl From<Failure> for Error {
    fn from(failure: Failure) -> Error {
        match failure.status() {
            Status::CrossedBounds
            | Status::FalseEmptyRow
            | Status::Infeasible
            | Status::ValueOutside => Error::Infeasible,
            Status::Unbounded => Error::Unbounded,
            _ => Error::Other(failure),
        }
    }
}

impl fmt::Display for Error {
    fn fmt(&self, f: &mut fmt::Formatter<'_>) -> fmt::Result {
        match self {
            Error::Infeasible => f.write_str("problem is infeasible"),
            Error::Unbounded => f.write_str("problem is unbounded"),
            Error::Other(failure) => failure.fmt(f),
        }
    }
}

impl std::error::Error for Error {}

/// A solution of a problem: optimal objective function value and variable values.
///
/// Beyond minilp's it has the steps, and each constraint's slack and multiplier:
///
/// ```
/// # use tevalumi::*;
/// let mut problem = Problem::new(OptimizationDirection::Minimize);
/// let x = problem.add_var(-3.0, (0.0, f64::INFINITY));
/// let y = problem.add_var(-1.0, (0.0, 2.0));
/// problem.add_constraint([(x, 1.0), (y, 1.0)], ComparisonOp::Le, 4.0);
/// problem.add_constraint([(x, 1.0)], ComparisonOp::Le, 9.0);
///
/// let solution = problem.solve().unwrap();
/// assert_eq!(solution.objective(), -12.0);
/// assert_eq!(solution.iter().map(|(_, &value)| value).collect::<Vec<_>>(), [4.0, 0.0]);
/// assert_eq!(solution.steps(), 2);
///
/// // One more unit on the right side of constraint 0 saves 3; constraint 1 has 5 to spare.
/// assert_eq!((solution.slack(0), solution.multiplier(0)), (Some(0.0), -3.0));
/// assert_eq!((solution.slack(1), solution.multiplier(1)), (Some(5.0), 0.0));
/// // Each unit of y would cost 2.
/// assert_eq!(solution.price(y), 2.0);
/// ```
#[derive(Clone)]
pub struct Solution {
    problem: Problem,
    direction: OptimizationDirection,
    num_vars: usize,
    num_constraints: usize,
    objective: f64,
    steps: usize,
    costless_steps: Option<usize>,
    excess: f64,
    /// Columns, then kept slacks.
    values: Vec<f64>,
    /// Of the minimised costs; columns, then kept slacks.
    prices: Vec<f64>,
    /// The plan's number of each kept row.
    kept: Vec<usize>,
    /// What the run left.
    work: Box<Workspace>,
    /// The variables that are held still, with their values.
    fixed: Vec<(Variable, f64)>,
}

impl fmt::Debug for Solution {
    fn fmt(&self, f: &mut fmt::Formatter<'_>) -> fmt::Result {
        // Only printing lengths here because actual data is probably huge.
        f.debug_struct("Solution")
            .field("direction", &self.direction)
            .field("num_vars", &self.num_vars)
            .field("num_constraints", &self.num_constraints)
            .field("objective", &self.objective())
            .finish()
    }
}

impl Solution {
    fn new(problem: &Problem, work: &Workspace, answer: Answer, mut values: Vec<f64>) -> Solution {
        let num_vars = problem.costs.len();
        let kept = work.kept().to_vec();
        values.truncate(num_vars + kept.len());
        let mut prices = vec![0.0; values.len()];
        let nonbasic = work.numbers[sections::NB_VARS]
            .iter()
            .zip(&work.doubles[sections::PRICES]);
        for (&var, &price) in nonbasic.take(num_vars) {
            prices[var] = price;
        }
        Solution {
            problem: problem.clone(),
            direction: problem.direction,
            num_vars,
            num_constraints: problem.rhs.len(),
            objective: answer.objective,
            steps: answer.steps,
            costless_steps: None,
            excess: answer.excess,
            values,
            prices,
            kept,
            work: Box::new(work.clone()),
            fixed: Vec::new(),
        }
    }

    pub(crate) fn values(&self) -> &[f64] {
        &self.values
    }

    pub(crate) fn work(&self) -> &Workspace {
        &self.work
    }

    /// Optimal value of the objective function.
    pub fn objective(&self) -> f64 {
        self.direction.turn(self.objective)
    }

    /// Value of the variable at optimum.
    ///
    /// Note that you can use indexing operations to get variable values.
    ///
    /// # Panics
    ///
    /// Will panic if the variable belongs to a larger problem.
    pub fn var_value(&self, var: Variable) -> &f64 {
        assert!(var.0 < self.num_vars);
        &self.values[var.0]
    }

    /// Iterate over the variable-value pairs of the solution.
    pub fn iter(&self) -> SolutionIter<'_> {
        SolutionIter {
            solution: self,
            var_idx: 0,
        }
    }

    /// Add another constraint and return the solution to the updated problem.
    ///
    /// This method will consume the solution and not return it in case of error. See also
    /// examples of specifying the left-hand side in the docs for the [`Problem::add_constraint`]
    /// method. The updated problem is solved anew, not from this solution on, so that its start is the
    /// problem's, not this solution.
    ///
    /// ```
    /// # use tevalumi::*;
    /// let mut problem = Problem::new(OptimizationDirection::Maximize);
    /// let x = problem.add_var(3.0, (0.0, f64::INFINITY));
    /// let y = problem.add_var(1.0, (0.0, f64::INFINITY));
    /// problem.add_constraint([(x, 1.0), (y, 1.0)], ComparisonOp::Le, 4.0);
    /// let solution = problem.solve()?;
    /// assert_eq!(solution.objective(), 12.0);
    ///
    /// let solution = solution.add_constraint([(x, 1.0)], ComparisonOp::Le, 3.0)?;
    /// assert_eq!((solution[x], solution[y], solution.objective()), (3.0, 1.0, 10.0));
    /// # Ok::<(), Error>(())
    /// ```
    ///
    /// # Errors
    ///
    /// As [`Problem::solve`].
    pub fn add_constraint(
        self,
        expr: impl Into<LinearExpr>,
        cmp_op: ComparisonOp,
        rhs: f64,
    ) -> Result<Self, Error> {
        let mut problem = self.problem;
        problem.add_constraint(expr, cmp_op, rhs);
        let mut solution = problem.solve()?;
        for (var, val) in self.fixed {
            solution = solution.fix_var(var, val)?;
        }
        Ok(solution)
    }

    /// Fix the variable to the specified value and return the solution to the updated problem.
    ///
    /// This method will consume the solution and not return it in case of error. The solver goes on from
    /// this solution, mostly in a few steps, which [`steps`](Solution::steps) then counts.
    ///
    /// ```
    /// # use tevalumi::*;
    /// let mut problem = Problem::new(OptimizationDirection::Maximize);
    /// let x = problem.add_var(3.0, (0.0, f64::INFINITY));
    /// let y = problem.add_var(1.0, (0.0, 2.0));
    /// problem.add_constraint([(x, 1.0), (y, 1.0)], ComparisonOp::Le, 4.0);
    /// let solution = problem.solve()?;
    /// assert_eq!((solution[x], solution[y], solution.objective()), (4.0, 0.0, 12.0));
    ///
    /// let solution = solution.fix_var(x, 3.0)?;
    /// assert_eq!((solution[x], solution[y], solution.objective()), (3.0, 1.0, 10.0));
    ///
    /// let (solution, was_fixed) = solution.unfix_var(x);
    /// assert!(was_fixed);
    /// assert_eq!((solution[x], solution[y], solution.objective()), (4.0, 0.0, 12.0));
    /// # Ok::<(), Error>(())
    /// ```
    ///
    /// # Errors
    ///
    /// Will return an error if the problem becomes infeasible with the additional constraint, or where
    /// the solver ends otherwise than with a solution; [`fix`](Solution::fix) has the number.
    ///
    /// # Panics
    ///
    /// Will panic if the variable belongs to a larger problem.
    pub fn fix_var(self, var: Variable, val: f64) -> Result<Self, Error> {
        assert!(var.0 < self.num_vars);
        self.fix(var, val).map_err(Error::from)
    }

    /// If the variable was fixed with [`fix_var`](Solution::fix_var) before, remove that constraint
    /// and return the solution to the updated problem and a boolean indicating if the variable was
    /// really fixed before.
    ///
    /// # Panics
    ///
    /// Will panic if the variable belongs to a larger problem, and, as minilp's, if the solver finds no
    /// solution without the constraint; [`unfix`](Solution::unfix) returns the error.
    pub fn unfix_var(self, var: Variable) -> (Self, bool) {
        assert!(var.0 < self.num_vars);
        self.unfix(var)
            .expect("the problem was solvable before the variable was fixed")
    }

    /// As [`fix_var`](Solution::fix_var), with document 01's number, the place and the sentence of an
    /// error.
    ///
    /// # Errors
    ///
    /// 43 where the value isn't finite or is outside the variable's bounds; else how the run ended.
    pub fn fix(mut self, var: Variable, val: f64) -> Result<Self, Failure> {
        let mut values = vec![0.0; self.num_vars + self.num_constraints];
        let plan = self.problem.plan();
        let answer = fix_into(&plan, &mut self.work, &mut values, var.0, val);
        let mut fixed = self.fixed;
        fixed.retain(|&(other, _)| other != var);
        fixed.push((var, val));
        Solution::gone_on(self.problem, &self.work, answer, values, fixed)
    }

    /// As [`unfix_var`](Solution::unfix_var), with the error in place of a panic.
    ///
    /// # Errors
    ///
    /// How the run after it ended, where that isn't with a solution.
    pub fn unfix(mut self, var: Variable) -> Result<(Self, bool), Failure> {
        let mut values = vec![0.0; self.num_vars + self.num_constraints];
        let plan = self.problem.plan();
        let answer = unfix_into(&plan, &mut self.work, &mut values, var.0);
        if answer.status == Status::NotFixed {
            return Ok((self, false));
        }
        let mut fixed = self.fixed;
        fixed.retain(|&(other, _)| other != var);
        let solution = Solution::gone_on(self.problem, &self.work, answer, values, fixed)?;
        Ok((solution, true))
    }

    /// The solution that a call over the workspace has left.
    fn gone_on(
        problem: Problem,
        work: &Workspace,
        answer: Answer,
        values: Vec<f64>,
        fixed: Vec<(Variable, f64)>,
    ) -> Result<Solution, Failure> {
        if answer.status != Status::Optimal {
            return Err(Failure::new(&problem, work, answer));
        }
        let mut solution = Solution::new(&problem, work, answer, values);
        solution.fixed = fixed;
        Ok(solution)
    }

    /// The solution with another objective: the terms give the new coefficients, a variable that isn't
    /// named has 0, and one that is named twice has the sum. The direction stays.
    ///
    /// This method will consume the solution and not return it in case of error. The solver goes on from
    /// this solution, which keeps every constraint whatever the objective, mostly in fewer steps than
    /// solving anew takes. Variables that are fixed stay so.
    ///
    /// ```
    /// # use tevalumi::*;
    /// let mut problem = Problem::new(OptimizationDirection::Maximize);
    /// let x = problem.add_var(3.0, (0.0, f64::INFINITY));
    /// let y = problem.add_var(1.0, (0.0, 2.0));
    /// problem.add_constraint([(x, 1.0), (y, 1.0)], ComparisonOp::Le, 4.0);
    /// let solution = problem.solve()?;
    /// assert_eq!((solution[x], solution[y], solution.objective()), (4.0, 0.0, 12.0));
    ///
    /// // A quarter of an hour later y pays better.
    /// let solution = solution.with_objective([(x, 3.0), (y, 5.0)])?;
    /// assert_eq!((solution[x], solution[y], solution.objective()), (2.0, 2.0, 16.0));
    /// # Ok::<(), Error>(())
    /// ```
    ///
    /// # Errors
    ///
    /// 2 where a coefficient isn't allowed; else how the run ended, where that isn't with a solution.
    ///
    /// # Panics
    ///
    /// Will panic if a variable belongs to a larger problem.
    pub fn with_objective(mut self, expr: impl Into<LinearExpr>) -> Result<Self, Failure> {
        let mut costs = vec![self.direction.turn(0.0); self.num_vars];
        for (var, coeff) in expr.into().terms {
            costs[var] += self.direction.turn(coeff);
        }
        self.problem.costs = costs;
        let mut values = vec![0.0; self.num_vars + self.num_constraints];
        let answer = reprice_into(&self.problem.plan(), &mut self.work, &mut values);
        Solution::gone_on(self.problem, &self.work, answer, values, self.fixed)
    }

    /// How many steps the solver took for the problem's own objective. With
    /// [`costless_steps`](Solution::costless_steps) these are all; the budget holds for each of the two.
    pub fn steps(&self) -> usize {
        self.steps
    }

    /// How many steps the solver took before with an objective of 0; none where it didn't begin so, since
    /// one of the two kinds of step begins at the problem's start.
    pub fn costless_steps(&self) -> Option<usize> {
        self.costless_steps
    }

    /// The largest excess of the values over a bound, or of a constraint's sum over or under its right
    /// side: at most the tolerance, and 0 where nothing exceeds 0.
    pub fn excess(&self) -> f64 {
        self.excess
    }

    /// What is left between a constraint and its right side: the right side less the row's sum.
    ///
    /// None for a constraint without terms, which the solver drops.
    ///
    /// # Panics
    ///
    /// Will panic if the problem has no such constraint.
    pub fn slack(&self, constraint: usize) -> Option<f64> {
        self.slack_place(constraint).map(|place| self.values[place])
    }

    /// The variable's price (reduced cost): how much the objective moves for each unit by which
    /// the variable is moved from its value. 0 for a basic variable.
    ///
    /// # Panics
    ///
    /// Will panic if the variable belongs to a larger problem.
    pub fn price(&self, var: Variable) -> f64 {
        assert!(var.0 < self.num_vars);
        self.direction.turn(self.prices[var.0])
    }

    /// The constraint's multiplier (shadow price): how much the objective moves for each unit by
    /// which its right side is raised. 0 where its slack is basic or the constraint has no terms.
    ///
    /// # Panics
    ///
    /// Will panic if the problem has no such constraint.
    pub fn multiplier(&self, constraint: usize) -> f64 {
        match self.slack_place(constraint) {
            Some(place) if self.prices[place] != 0.0 => self.direction.turn(-self.prices[place]),
            _ => 0.0,
        }
    }

    fn slack_place(&self, constraint: usize) -> Option<usize> {
        assert!(constraint < self.num_constraints);
        let kept = self.kept.binary_search(&constraint).ok()?;
        Some(self.num_vars + kept)
    }
}

impl std::ops::Index<Variable> for Solution {
    type Output = f64;

    fn index(&self, var: Variable) -> &Self::Output {
        self.var_value(var)
    }
}

/// An iterator over the variable-value pairs of a [`Solution`].
#[derive(Debug, Clone)]
pub struct SolutionIter<'a> {
    solution: &'a Solution,
    var_idx: usize,
}

impl<'a> Iterator for SolutionIter<'a> {
    type Item = (Variable, &'a f64);

    fn next(&mut self) -> Option<Self::Item> {
        if self.var_idx < self.solution.num_vars {
            let var_idx = self.var_idx;
            self.var_idx += 1;
            Some((Variable(var_idx), &self.solution.values[var_idx]))
        } else {
            None
        }
    }
}

impl<'a> IntoIterator for &'a Solution {
    type Item = (Variable, &'a f64);
    type IntoIter = SolutionIter<'a>;

    fn into_iter(self) -> Self::IntoIter {
        self.iter()
    }
}
