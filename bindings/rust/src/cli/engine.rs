//! Hands a plan to the library and keeps what it answers.

use tevalumi::raw::{
    fix_into, limits, sections, solve_any_lent, solve_lent, Answer, PlanRef, Status, Way,
    Workspace, WorkspaceMut,
};

use super::plan::Plan;

/// An answer with what the workspace says beside it.
#[derive(Clone, Debug)]
pub struct Solved {
    pub answer: Answer,
    /// On status 0 the columns' values, then the kept rows' slacks; else empty.
    pub values: Vec<f64>,
    /// The plan's number of each kept row; empty on a refusal.
    pub kept: Vec<usize>,
    /// What the run left.
    pub work: Box<Workspace>,
    /// The steps that were taken with costs 0 before the plan's own costs were put in.
    pub costless: Option<usize>,
    /// Where the call was a fix.
    pub fix: Option<Fix>,
}

/// A column that is to be held still, where it stood and where it is to stand.
#[derive(Clone, Copy, Debug)]
pub struct Fix {
    pub column: usize,
    pub from: f64,
    pub value: f64,
}

/// Where a variable of a solved plan stands.
#[derive(Clone, Copy, Debug, PartialEq)]
pub enum Stands {
    Basic,
    AtLower,
    AtUpper,
    Fixed,
    /// Non-basic, with no bound to stand at.
    Free,
}

impl Solved {
    /// The price of each column and of each kept row's slack, as minimised, and where it stands. Only
    /// of a run that wasn't refused.
    pub fn ends(&self, plan: &Plan) -> Vec<(f64, Stands)> {
        let mut ends = vec![(0.0, Stands::Basic); plan.columns + self.kept.len()];
        let (numbers, doubles) = (&self.work.numbers, &self.work.doubles);
        let vars = numbers[sections::NB_VARS].iter().take(plan.columns);
        let flags = &numbers[sections::FLAGS];
        for ((&var, &price), &flag) in vars.zip(&doubles[sections::PRICES]).zip(flags) {
            let stands = match flag {
                1 => Stands::AtLower,
                2 => Stands::AtUpper,
                3 | 7 => Stands::Fixed,
                _ => Stands::Free,
            };
            if let Some(end) = ends.get_mut(var) {
                *end = (price, stands);
            }
        }
        ends
    }

    /// The variable that stands in a kept row, and its value.
    pub fn basic(&self, row: usize) -> (usize, f64) {
        let var = self.work.numbers[sections::BASIC_VARS][row];
        (var, self.work.doubles[sections::BASIC_VAR_VALS][row])
    }

    /// The fix whose own first part found no column for this kept row: what it was to hold is basic there still.
    pub fn unmoved(&self, row: usize) -> Option<Fix> {
        self.fix.filter(|fix| self.basic(row).0 == fix.column)
    }

    /// Each row's multiplier, as minimised: minus the price of its slack, 0 for a dropped row.
    pub fn multipliers(&self, plan: &Plan) -> Vec<f64> {
        let mut mults = vec![0.0; plan.rows];
        let ends = self.ends(plan);
        for (&i, &(price, _)) in self.kept.iter().zip(ends.iter().skip(plan.columns)) {
            // A difference, so that 0 stays 0.
            mults[i] = 0.0 - price;
        }
        mults
    }
}

/// The plan's arrays as they are lent.
pub fn lent(plan: &Plan) -> PlanRef<'_> {
    PlanRef {
        columns: plan.columns,
        rows: plan.rows,
        entries: plan.entries,
        budget: plan.budget,
        tolerance: plan.tolerance,
        costs: &plan.costs,
        lowers: &plan.lowers,
        uppers: &plan.uppers,
        starts: &plan.starts,
        cols: &plan.cols,
        coeffs: &plan.coeffs,
        ops: &plan.ops,
        rhs: &plan.rhs,
    }
}

pub fn solve(plan: &Plan) -> Solved {
    let mut work = Box::new(Workspace::new());
    // Enough for every plan that isn't refused for its size.
    let mut values = vec![0.0; limits::COLUMNS + limits::ROWS];
    let mut memory = work.lend();
    let mut values_lent = values.as_mut_slice();
    for (&name, &length) in &plan.shorter {
        cut(plan, &mut memory, &mut values_lent, name, length);
    }
    if plan.plain {
        let answer = solve_lent(&lent(plan), &mut memory, values_lent);
        return after(plan, answer, values, work, None);
    }
    let any = solve_any_lent(&lent(plan), &mut memory, values_lent);
    let mut solved = after(plan, any.answer, values, work, None);
    solved.costless = (any.way == Way::Repriced).then_some(any.costless_steps);
    solved
}

/// Holds a column still, from where the call before it left off.
pub fn fix(plan: &Plan, before: &Solved, fix: Fix) -> Solved {
    let mut work = before.work.clone();
    let mut values = vec![0.0; limits::COLUMNS + limits::ROWS];
    let lent = lent(plan);
    let answer = fix_into(&lent, &mut work, &mut values, fix.column, fix.value);
    after(plan, answer, values, work, Some(fix))
}

/// An answer of a call with what it left.
fn after(
    plan: &Plan,
    answer: Answer,
    mut values: Vec<f64>,
    work: Box<Workspace>,
    fix: Option<Fix>,
) -> Solved {
    if answer.status.is_refusal() {
        return Solved {
            answer,
            values: Vec::new(),
            kept: Vec::new(),
            work,
            costless: None,
            fix,
        };
    }
    let kept = work.kept().to_vec();
    values.truncate(plan.columns + kept.len());
    if answer.status != Status::Optimal {
        values.clear();
    }
    Solved {
        answer,
        values,
        kept,
        work,
        costless: None,
        fix,
    }
}

/// Lends no more than `length` cells of the named array. A section that is to be shorter than the plan needs makes the
/// array that holds it a cell short.
fn cut(
    plan: &Plan,
    memory: &mut WorkspaceMut<'_>,
    values: &mut &mut [f64],
    name: &str,
    length: usize,
) {
    fn to<T>(slice: &mut &mut [T], length: usize) {
        let all = std::mem::take(slice);
        let length = length.min(all.len());
        *slice = &mut all[..length];
    }
    let (columns, rows) = (plan.columns, plan.rows);
    let (in_numbers, needed) = match name {
        "values" => return to(values, length),
        "numbers" => return to(&mut memory.numbers, length),
        "doubles" => return to(&mut memory.doubles, length),
        "factor_numbers" | "fnum" => return to(&mut memory.factor_numbers, length),
        "factor_coeffs" | "fval" => return to(&mut memory.factor_coeffs, length),
        "kept" | "basic" => (true, rows),
        "bval" => (false, rows),
        "nonbasic" | "flags" => (true, columns),
        "nval" | "price" | "norm" => (false, columns),
        "where" => (true, columns.saturating_add(rows)),
        "etarow" => (true, sections::ETA_LEAVING.len()),
        "etaptr" => (true, sections::ETA_STARTS.len()),
        "etaidx" => (true, sections::ETA_ROWS.len()),
        "etaval" => (false, sections::ETA_COEFFS.len()),
        "dnorm" => (false, rows),
        "counts" => (true, sections::COUNTS.len()),
        "obj" => (false, sections::OBJECTIVE.len()),
        _ => return,
    };
    match (length < needed, in_numbers) {
        (false, _) => {}
        (true, true) => to(&mut memory.numbers, sections::NUMBERS - 1),
        (true, false) => to(&mut memory.doubles, sections::DOUBLES - 1),
    }
}
