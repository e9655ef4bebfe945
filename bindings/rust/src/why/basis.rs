//! The reason that a run's last basis has. A run that ends in 26 has found a row in which nothing has room; the
//! multipliers are that row of the inverse basis, worked out again in fractions, since the run's own are doubles.

use super::{
    can_be_opened, coef, exact, in_whole_numbers, reason, rounded, End, Fraction, Number, Reason,
    Side, TooLarge, TINY,
};
use crate::raw::{sections, Workspace};
use crate::sheet::Figures;

/// As [`reason`], but first the row is looked at that a run over the same numbers ended in 26 with: the kept row that
/// its place names, in the memory that it left.
///
/// ```
/// use tevalumi::raw::{solve_into, Place, PlanRef, Status, Workspace};
/// use tevalumi::sheet::Figures;
/// use tevalumi::why::{reason_after, Reason};
/// use tevalumi::ComparisonOp::{Ge, Le};
///
/// // x0 + x1 >= 9, but x0 + 2 x1 <= 4, with amounts of 0 and more.
/// let run = PlanRef {
///     columns: 2,
///     rows: 2,
///     entries: 4,
///     budget: 100,
///     tolerance: 1e-6,
///     costs: &[1.0, 1.0],
///     lowers: &[0.0, 0.0],
///     uppers: &[f64::INFINITY, f64::INFINITY],
///     starts: &[0, 2, 4],
///     cols: &[0, 1, 0, 1],
///     coeffs: &[1.0, 1.0, 1.0, 2.0],
///     ops: &[2, 0],
///     rhs: &[9.0, 4.0],
/// };
/// let mut work = Workspace::new();
/// let answer = solve_into(&run, &mut work, &mut [0.0; 4]);
/// assert_eq!((answer.status, answer.place), (Status::Infeasible, Place::KeptRow(1)));
///
/// let plan = Figures {
///     rows: 2,
///     columns: 2,
///     coefs: vec![1, 1, 1, 2],
///     costs: vec![1, 1],
///     lowers: vec![Some(0), Some(0)],
///     uppers: vec![None, None],
///     rhs: vec![9, 4],
///     ops: vec![Ge, Le],
///     ..Figures::default()
/// };
/// assert_eq!(reason_after(&plan, &work, 1), Reason::Multipliers(vec![1024, -1024]));
/// ```
pub fn reason_after(plan: &Figures, work: &Workspace, row: usize) -> Reason {
    if !can_be_opened(plan) {
        return Reason::GivenUp;
    }
    let found = Basis::of(plan, work, row).and_then(|basis| basis.multipliers(plan));
    found.map_or_else(|| reason(plan), Reason::Multipliers)
}

/// The kept rows, the variable that stands in each, and the row in question.
struct Basis {
    sides: Vec<Side>,
    basic: Vec<usize>,
    row: usize,
}

impl Basis {
    /// None where the memory isn't that of a run over such a plan.
    fn of(plan: &Figures, work: &Workspace, row: usize) -> Option<Basis> {
        let kept = work.numbers[sections::KEPT].get(..work.kept_rows())?;
        let basic = &work.numbers[sections::BASIC_VARS][..kept.len()];
        let known = kept.iter().all(|&i| i < plan.rows)
            && basic.iter().all(|&var| var < plan.columns + kept.len())
            && row < kept.len();
        known.then(|| Basis {
            sides: kept.iter().map(|&i| Side::of(plan, i)).collect(),
            basic: basic.to_vec(),
            row,
        })
    }

    /// Multipliers that show it: the row itself where it is in whole numbers within the limit, else what a search over
    /// the rows that count there finds.
    fn multipliers(&self, plan: &Figures) -> Option<Vec<i64>> {
        let sides = &self.sides;
        if let Ok(Some(found)) = self.inverse_row::<Fraction>(plan) {
            // Its sign is that of the way in which the variable is out of its bounds.
            let turned: Vec<Fraction> = found.iter().map(Number::negated).collect();
            let whole = in_whole_numbers(plan, sides, &found);
            let whole = whole.or_else(|| in_whole_numbers(plan, sides, &turned));
            if whole.is_some() {
                return whole;
            }
        }
        let found = self.inverse_row::<f64>(plan).ok()??;
        let largest = found.iter().fold(0.0, |most: f64, y| most.max(y.abs()));
        let counts = sides.iter().zip(&found);
        let few = counts.filter(|(_, y)| y.abs() > largest * TINY);
        let few: Vec<Side> = few.map(|(&side, _)| side).collect();
        let searched = match exact(plan, &few) {
            End::Conflict(found) => in_whole_numbers(plan, &few, &found),
            End::Kept | End::GivenUp => None,
        };
        searched.or_else(|| rounded(plan, &few))
    }

    /// The row of the inverse basis: a number for each kept row, so that the columns of the basic variables, each times
    /// these numbers, give 0, and 1 for the variable in question. None where no basis has these columns.
    fn inverse_row<T: Number>(&self, plan: &Figures) -> Result<Option<Vec<T>>, TooLarge> {
        let (columns, out) = (plan.columns, self.basic[self.row]);
        let slack = |k: usize| self.basic.contains(&(columns + k));
        // A slack's column is 1 in its own row alone, so that the numbers of these rows are known.
        let mut numbers = vec![T::whole(0); self.sides.len()];
        if let Some(k) = out.checked_sub(columns) {
            numbers[k] = T::whole(1);
        }
        let unknown: Vec<usize> = (0..numbers.len()).filter(|&k| !slack(k)).collect();
        let own = self.basic.iter().filter(|&&var| var < columns);
        let equation = |&var: &usize| {
            let cell = |k: usize| coef(plan, self.sides[k].row, var);
            let right = match out.checked_sub(columns) {
                Some(k) => -cell(k),
                None => i64::from(var == out),
            };
            let left = unknown.iter().map(|&k| cell(k));
            left.chain([right]).map(T::whole).collect()
        };
        let Some(found) = solved(own.map(equation).collect(), unknown.len())? else {
            return Ok(None);
        };
        for (&k, number) in unknown.iter().zip(found) {
            numbers[k] = number;
        }
        Ok(Some(numbers))
    }
}

/// Solves equations in so many unknowns, each a number for every unknown and then its right side. None where they
/// aren't as many, or don't settle every unknown.
fn solved<T: Number>(
    mut equations: Vec<Vec<T>>,
    unknowns: usize,
) -> Result<Option<Vec<T>>, TooLarge> {
    if equations.len() != unknowns {
        return Ok(None);
    }
    let mut settled = vec![None; unknowns];
    for _ in 0..unknowns {
        let Some((at, unknown)) = pivot(&equations, &settled) else {
            return Ok(None);
        };
        settled[unknown] = Some(at);
        let inverse = equations[at][unknown].inverse()?;
        for cell in &mut equations[at] {
            *cell = cell.times(&inverse)?;
        }
        let one = equations[at].clone();
        for (other, cells) in equations.iter_mut().enumerate() {
            if other != at && !cells[unknown].is_zero() {
                take(cells, &one, unknown)?;
            }
        }
    }
    let right = |at: Option<usize>| at.map(|at| equations[at][unknowns].clone());
    Ok(settled.into_iter().map(right).collect())
}

/// Takes an equation from another as often as leaves 0 of its unknown, of which it has 1.
fn take<T: Number>(cells: &mut [T], one: &[T], unknown: usize) -> Result<(), TooLarge> {
    let times = cells[unknown].negated();
    for (cell, part) in cells.iter_mut().zip(one) {
        if !part.is_zero() {
            *cell = cell.plus(&part.times(&times)?)?;
        }
    }
    cells[unknown] = T::whole(0);
    Ok(())
}

/// The equation and the unknown to settle next: those that fill up the others least, and no number there that is small
/// beside others of its equation.
fn pivot<T: Number>(equations: &[Vec<T>], settled: &[Option<usize>]) -> Option<(usize, usize)> {
    let open = |at: usize| !settled.contains(&Some(at));
    let sizes: Vec<Vec<f64>> = equations
        .iter()
        .map(|cells| cells.iter().map(|cell| cell.near().abs()).collect())
        .collect();
    let filled: Vec<usize> = (0..settled.len())
        .map(|u| equations.iter().filter(|cells| !cells[u].is_zero()).count())
        .collect();
    let mut best: Option<(usize, (usize, usize))> = None;
    for at in (0..equations.len()).filter(|&at| open(at)) {
        let left =
            (0..settled.len()).filter(|&u| settled[u].is_none() && !equations[at][u].is_zero());
        let left: Vec<usize> = left.collect();
        let largest = left
            .iter()
            .fold(0.0, |most: f64, &u| most.max(sizes[at][u]));
        for &u in left.iter().filter(|&&u| sizes[at][u] * 16.0 >= largest) {
            let score = (left.len() - 1) * (filled[u] - 1);
            if best.is_none_or(|(least, _)| score < least) {
                best = Some((score, (at, u)));
            }
        }
    }
    best.map(|(_, place)| place)
}
