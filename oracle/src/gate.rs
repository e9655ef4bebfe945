//! The whole call: refusals 1 to 3, then the solver, then the final check. All ours, from the
//! table "When the gateway says no" of document 01. 4 and 5 are given by try_new, in its own order,
//! which is theirs. Then the calls of document 02's Ask 9 and our repricing, over the memory that a call
//! left, and the solve from any start.

use crate::{
    answer::{Answer, Outcome, State, Way},
    limits,
    memory::Memory,
    plan::{Call, Lent, Plan},
    shown::{Correction, Options},
    solver::Solver,
    sprs::CsVec,
    ComparisonOp,
};

/// The plan's run: from its start, or from any where the plan says so.
pub fn solve(plan: &Plan, options: Options) -> Answer {
    match plan.any {
        true => Session::new(plan, options).solve(),
        false => from_start(plan, options),
    }
}

fn from_start(plan: &Plan, options: Options) -> Answer {
    let run = |solver: &mut Solver| {
        solver.refuse_start()?;
        solver.initial_solve()
    };
    match prepare(plan, options) {
        Ok(solver) => answer(solver, plan.tolerance, run),
        Err(outcome) => Answer::refusal(outcome),
    }
}

/// The run's answer, then those of the calls after it.
pub fn answers(plan: &Plan, options: Options) -> Vec<Answer> {
    if plan.calls.is_empty() {
        return vec![solve(plan, options)];
    }
    let mut session = Session::new(plan, options);
    let first = session.solve();
    let calls = plan.calls.iter().filter_map(|call| session.call(call));
    std::iter::once(first).chain(calls).collect()
}

/// A plan with the memory that the last call over it left.
pub struct Session {
    plan: Plan,
    options: Options,
    memory: Memory,
}

impl Session {
    pub fn new(plan: &Plan, options: Options) -> Session {
        Session {
            plan: plan.clone(),
            options,
            memory: Memory::lent(),
        }
    }

    pub fn solve(&mut self) -> Answer {
        let first = from_start(&self.plan, self.options);
        self.memory.keep(&first);
        match (self.plan.any, first.outcome) {
            (false, _) => first,
            (true, Outcome::SlackOutside) => self.solve_costless(),
            (true, _) => by(Way::Direct, 0, first),
        }
    }

    // "on 7, `solve` with costs 0 over the same memory", and where that is Optimal a repricing.
    fn solve_costless(&mut self) -> Answer {
        let costless = Plan {
            cost: vec![0.0; self.plan.cost.len()],
            ..self.plan.clone()
        };
        let second = from_start(&costless, self.options);
        self.memory.keep(&second);
        let steps = second.steps;
        if second.outcome != Outcome::Optimal {
            return by(Way::Halted, steps, second);
        }
        let mut last = self.go_on(|solver, _| solver.reprice());
        self.memory.keep(&last);
        if last.outcome != Outcome::Optimal {
            // "the values array holds what the last Optimal run wrote".
            last.values = second.values;
        }
        by(Way::Repriced, steps, last)
    }

    /// A call's answer; a poke has none.
    pub fn call(&mut self, call: &Call) -> Option<Answer> {
        let answer = match *call {
            Call::Poke { lent, index, bits } => {
                self.memory.poke(lent, index, bits);
                return None;
            }
            Call::Fix { column, value } => {
                self.go_on(|solver, plan| solver.fix_var(known(plan, column)?, value))
            }
            Call::Unfix { column } => self.go_on(|solver, plan| {
                let was_fixed = solver.unfix_var(known(plan, column)?)?;
                was_fixed.then_some(()).ok_or(Outcome::NotFixed)
            }),
            Call::Reprice { ref cost } => {
                self.plan.cost.clone_from(cost);
                self.go_on(|solver, _| solver.reprice())
            }
        };
        self.memory.keep(&answer);
        Some(answer)
    }

    /// What stands in a lent cell; a double by its bits.
    pub fn peek(&self, lent: Lent, index: usize) -> u64 {
        self.memory.peek(lent, index)
    }

    /// The state that a call would go on with.
    pub fn left(&self) -> Option<State> {
        self.resumed().ok().map(|solver| solver.state())
    }

    // Refused with 1 to 5 and 41 before a call begins.
    fn resumed(&self) -> Result<Solver, Outcome> {
        let mut solver = prepare(&self.plan, self.options)?;
        let columns = self.plan.columns as usize;
        let left = self.memory.state(columns, solver.kept_rows());
        let (state, objective) = left.ok_or(Outcome::NoRun)?;
        solver.resume(&state, objective);
        Ok(solver)
    }

    // One call over the memory.
    fn go_on(&self, run: impl FnOnce(&mut Solver, &Plan) -> Result<(), Outcome>) -> Answer {
        match self.resumed() {
            Ok(solver) => answer(solver, self.plan.tolerance, |solver| {
                run(solver, &self.plan)
            }),
            Err(outcome) => Answer::refusal(outcome),
        }
    }
}

fn by(way: Way, costless_steps: u64, answer: Answer) -> Answer {
    Answer {
        way: Some((way, costless_steps)),
        ..answer
    }
}

// 42: "column not below the plan's columns".
fn known(plan: &Plan, column: u64) -> Result<usize, Outcome> {
    let column = (column < plan.columns).then_some(column as usize);
    column.ok_or(Outcome::UnknownColumn)
}

/// Refusals 1 to 5, then the solver at its start.
fn prepare(plan: &Plan, options: Options) -> Result<Solver, Outcome> {
    refuse(plan, options)?;

    // Refusal 1 has passed: the sizes fit and every array has the cells that are read.
    let columns = plan.columns as usize;
    let mut constraints = vec![];
    for row in 0..plan.rows as usize {
        let range = row_range(plan, row);
        let indices = plan.cols[range.clone()].iter().map(|&c| c as usize);
        let coeffs = CsVec::new(columns, indices.collect(), plan.coef[range].to_vec());
        let cmp_op = match plan.ops[row] {
            0 => ComparisonOp::Le,
            1 => ComparisonOp::Eq,
            _ => ComparisonOp::Ge,
        };
        constraints.push((coeffs, cmp_op, plan.rhs[row]));
    }

    Solver::try_new(
        &plan.cost[..columns],
        &plan.lower[..columns],
        &plan.upper[..columns],
        &constraints,
        plan.budget,
        options,
    )
}

/// What the steps give, and the final check after them.
fn answer(
    mut solver: Solver,
    tolerance: f64,
    run: impl FnOnce(&mut Solver) -> Result<(), Outcome>,
) -> Answer {
    let (outcome, excess) = match run(&mut solver) {
        Ok(()) => solver.final_check(tolerance),
        Err(outcome) if outcome.is_refusal() => return Answer::refusal(outcome),
        Err(outcome) => (outcome, 0.0),
    };
    Answer {
        outcome,
        objective: solver.cur_obj_val,
        steps: solver.steps(),
        excess,
        values: match outcome {
            Outcome::Optimal => solver.values(),
            _ => vec![],
        },
        state: Some(solver.state()),
        way: None,
    }
}

fn row_range(plan: &Plan, row: usize) -> std::ops::Range<usize> {
    plan.starts[row] as usize..plan.starts[row + 1] as usize
}

fn refuse(plan: &Plan, options: Options) -> Result<(), Outcome> {
    if !sizes_fit(plan) {
        return Err(Outcome::BadSize);
    }
    if !numbers_fit(plan, options) {
        return Err(Outcome::BadNumber);
    }

    // 3: "a column number is too large or doesn't rise: the first bad entry, row by row, is the one
    // named, by row and place"
    for row in 0..plan.rows as usize {
        let cols = &plan.cols[row_range(plan, row)];
        for place in 0..cols.len() {
            if cols[place] >= plan.columns || (place > 0 && cols[place] <= cols[place - 1]) {
                return Err(Outcome::BadEntry { row, place });
            }
        }
    }

    Ok(())
}

// 1: "a size or the budget passes its limit, a lent array is too short, or the row starts don't
// begin at 0, fall, or don't end at the entry count". No cell is read before the sizes are known.
fn sizes_fit(plan: &Plan) -> bool {
    if plan.columns > limits::COLUMNS
        || plan.rows > limits::ROWS
        || plan.entries > limits::ENTRIES
        || plan.budget > limits::BUDGET
    {
        return false;
    }

    let columns = plan.columns as usize;
    let rows = plan.rows as usize;
    let entries = plan.entries as usize;
    if plan.cost.len() < columns
        || plan.lower.len() < columns
        || plan.upper.len() < columns
        || plan.starts.len() < rows + 1
        || plan.cols.len() < entries
        || plan.coef.len() < entries
        || plan.ops.len() < rows
        || plan.rhs.len() < rows
        || !plan.lends_enough_values()
        || !Lent::ALL.iter().all(|&lent| plan.lends_enough(lent))
        || !Lent::ARRAYS.iter().all(|&lent| plan.lends_enough(lent))
    {
        return false;
    }

    let starts = &plan.starts[..rows + 1];
    starts[0] == 0 && starts.windows(2).all(|w| w[0] <= w[1]) && starts[rows] == plan.entries
}

// 2: "NaN anywhere in the plan; an infinite cost, coefficient or right side; lower bound +inf, upper
// -inf; tolerance outside 0 to 1; a comparison above 2". 02: "every finite cost, coefficient, right
// side or bound whose size is above 1e12". What stands past the needed length is no part of the plan.
fn numbers_fit(plan: &Plan, options: Options) -> bool {
    let columns = plan.columns as usize;
    let rows = plan.rows as usize;
    let entries = plan.entries as usize;
    // "The source lets NaN bounds through: a difference."
    let nan_fits = options.shows(Correction::NanBounds);
    // The source takes a finite number of any size.
    let largest = if options.shows(Correction::Wild) {
        f64::MAX
    } else {
        limits::NUMBER
    };
    let number = |val: f64| val.abs() <= largest;
    let bound =
        |val: f64, infinite: f64| val == infinite || number(val) || (nan_fits && val.is_nan());
    let numbers = |vals: &[f64]| vals.iter().all(|&val| number(val));
    let bounds = |vals: &[f64], infinite| vals.iter().all(|&val| bound(val, infinite));

    numbers(&plan.cost[..columns])
        && bounds(&plan.lower[..columns], f64::NEG_INFINITY)
        && bounds(&plan.upper[..columns], f64::INFINITY)
        && numbers(&plan.coef[..entries])
        && numbers(&plan.rhs[..rows])
        && plan.tolerance >= 0.0
        && plan.tolerance <= 1.0
        && plan.ops[..rows].iter().all(|&op| op <= 2)
}
