//! The solvers, each behind one call on memory that is prepared beforehand.

use oracle::answer::Answer;
use oracle::gate::{self, Session};
use oracle::plan::{Call, Plan};
use oracle::shown::Options;
use tevalumi::raw::{fix_into, sections, solve_into, unfix_into, PlanRef, Status, Workspace};
use tevalumi::wholes::propose_into;

/// What is compared and shown of an answer.
#[derive(Clone, Copy, Debug, PartialEq)]
pub struct Seen {
    pub number: u8,
    pub steps: usize,
    pub objective: f64,
}

impl Seen {
    pub fn optimal(self) -> bool {
        self.number == Status::Optimal.number()
    }

    /// Whether nothing was done: 1 to 7, 41 to 44.
    pub fn refused(self) -> bool {
        Status::from_number(self.number.into()).is_none_or(Status::is_refusal)
    }

    /// Whether the objectives agree to this part of their size.
    pub fn near(self, other: Seen, part: f64) -> bool {
        let size = self.objective.abs().max(1.0);
        (self.objective - other.objective).abs() <= part * size
    }

    fn library(answer: tevalumi::raw::Answer) -> Seen {
        Seen {
            number: answer.status.number(),
            steps: answer.steps,
            objective: answer.objective,
        }
    }

    fn oracle(answer: Answer) -> (Seen, Vec<f64>) {
        let seen = Seen {
            number: answer.outcome.number(),
            steps: answer.steps as usize,
            objective: answer.objective,
        };
        (seen, answer.values)
    }
}

/// A plan in the library's arrays, with the memory of its calls.
pub struct Library {
    arrays: Arrays,
    values: Vec<f64>,
    work: Box<Workspace>,
}

/// A plan's whole numbers in the library's types.
pub struct Arrays {
    pub starts: Vec<usize>,
    pub cols: Vec<usize>,
    pub ops: Vec<u8>,
}

impl Arrays {
    pub fn of(plan: &Plan) -> Arrays {
        Arrays {
            starts: plan.starts.iter().map(|&at| at as usize).collect(),
            cols: plan.cols.iter().map(|&col| col as usize).collect(),
            ops: plan.ops.iter().map(|&op| op as u8).collect(),
        }
    }

    fn lent<'a>(&'a self, plan: &'a Plan) -> PlanRef<'a> {
        PlanRef {
            columns: plan.columns as usize,
            rows: plan.rows as usize,
            entries: plan.entries as usize,
            budget: plan.budget as usize,
            tolerance: plan.tolerance,
            costs: &plan.cost,
            lowers: &plan.lower,
            uppers: &plan.upper,
            starts: &self.starts,
            cols: &self.cols,
            coeffs: &plan.coef,
            ops: &self.ops,
            rhs: &plan.rhs,
        }
    }
}

impl Library {
    pub fn new(plan: &Plan) -> Library {
        Library {
            arrays: Arrays::of(plan),
            values: vec![0.0; (plan.columns + plan.rows) as usize],
            work: Box::default(),
        }
    }

    pub fn solve(&mut self, plan: &Plan) -> Seen {
        let lent = self.arrays.lent(plan);
        Seen::library(solve_into(&lent, &mut self.work, &mut self.values))
    }

    /// Holds a column still, from what the last call left.
    pub fn fix(&mut self, plan: &Plan, column: usize, value: f64) -> Seen {
        let lent = self.arrays.lent(plan);
        let (work, values) = (&mut self.work, &mut self.values);
        Seen::library(fix_into(&lent, work, values, column, value))
    }

    /// Goes on from what the last call left, with the plan's costs, which may be others.
    pub fn reprice(&mut self, plan: &Plan) -> Seen {
        let lent = self.arrays.lent(plan);
        let (work, values) = (&mut self.work, &mut self.values);
        Seen::library(tevalumi::raw::reprice_into(&lent, work, values))
    }

    /// Solves from any start.
    pub fn solve_any(&mut self, plan: &Plan) {
        let lent = self.arrays.lent(plan);
        let (work, values) = (&mut self.work, &mut self.values);
        tevalumi::raw::solve_any_into(&lent, work, values);
    }

    /// Lets a column go that is held still.
    pub fn unfix(&mut self, plan: &Plan, column: usize) -> Seen {
        let lent = self.arrays.lent(plan);
        let (work, values) = (&mut self.work, &mut self.values);
        Seen::library(unfix_into(&lent, work, values, column))
    }

    /// Whether the last call's numbers are whole ones of a sheet, which are written then.
    pub fn propose(&self, plan: &Plan, amounts: &mut [i64], mults: &mut [i64]) -> bool {
        let lent = self.arrays.lent(plan);
        propose_into(&lent, &self.values, &self.work, amounts, mults).is_ok()
    }

    /// The same memory, as another's calls left it.
    pub fn take(&mut self, from: &Library) {
        self.work.clone_from(&from.work);
    }

    /// The values of the last call, columns and kept slacks, where it was Optimal.
    pub fn written(&self, seen: Seen) -> &[f64] {
        match seen.optimal() {
            true => &self.values[..self.work.kept_rows() + self.columns()],
            false => &[],
        }
    }

    /// Whether the last call ended in 0.
    pub fn solved(&self) -> bool {
        self.work.numbers[sections::COUNTS][4] == 0
    }

    /// The value of a column after an Optimal call, and whether it is basic.
    pub fn stands(&self, column: usize) -> (f64, bool) {
        let place = self.work.numbers[sections::VAR_STATES][column];
        (self.values[column], place >= self.columns())
    }

    fn columns(&self) -> usize {
        self.values.len() - (self.arrays.starts.len() - 1)
    }
}

pub fn oracle(plan: &Plan) -> (Seen, Vec<f64>) {
    Seen::oracle(gate::solve(plan, Options::default()))
}

/// The oracle with the memory of the plan's run.
pub fn oracle_solved(plan: &Plan) -> Session {
    let mut session = Session::new(plan, Options::default());
    session.solve();
    session
}

/// The oracle's call, over the memory that it keeps.
pub fn oracle_call(session: &mut Session, call: &Call) -> (Seen, Vec<f64>) {
    Seen::oracle(session.call(call).expect("these calls have an answer"))
}

pub fn bits(values: &[f64]) -> Vec<u64> {
    values.iter().map(|value| value.to_bits()).collect()
}
