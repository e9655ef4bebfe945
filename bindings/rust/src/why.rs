//! Why there is no plan: multipliers that show it.
//!
//! Rows, each times its multiplier, add up to one row. Where the bounds leave no amounts that keep
//! that one, no amounts keep them all. [`reason`] looks for such multipliers; a sheet that is opened
//! with them and with all costs 0 says [`Verdict::NoneExists`](crate::sheet::Verdict::NoneExists).
//! The search needs no trust: the sheet judges what it finds, and a bad find only shows nothing.
//!
//! ```
//! use tevalumi::sheet::Figures;
//! use tevalumi::why::{reason, Reason};
//! use tevalumi::ComparisonOp::{Ge, Le};
//!
//! // x0 + x1 >= 9, but x0 + 2 x1 <= 4, with amounts of 0 and more.
//! let plan = Figures {
//!     rows: 2,
//!     columns: 2,
//!     coefs: vec![1, 1, 1, 2],
//!     costs: vec![-3, -1],
//!     lowers: vec![Some(0), Some(0)],
//!     uppers: vec![None, None],
//!     rhs: vec![9, 4],
//!     ops: vec![Ge, Le],
//!     ..Figures::default()
//! };
//! // The first row less the second asks for -x1 >= 5.
//! assert_eq!(reason(&plan), Reason::Multipliers(vec![1024, -1024]));
//! ```
//!
//! The search is a simplex in exact fractions, each of two 128-bit numbers: a variable that is out
//! of its bounds leaves, one with room for the move enters, and where none has room the row that
//! they stand in is the reason. Where a fraction would grow too large, doubles say which rows to
//! look at, and the exact search is made over these alone; where that is too large as well, the
//! doubles are rounded. What is answered has been tested in whole numbers, as the sheet tests it.
//! [`reason_after`] begins where a run of the solver ended in 26.

mod basis;

use std::cmp::Ordering;

pub use basis::reason_after;

use crate::raw::limits;
use crate::sheet::Figures;
use crate::ComparisonOp;

/// What a search ends with.
#[derive(Clone, Debug, PartialEq, Eq)]
pub enum Reason {
    /// A multiplier in 1/1024 for each row, within the sheet's limit. They show that no amounts,
    /// whole or fractional, keep every row and bound.
    Multipliers(Vec<i64>),
    /// Some amounts, whole or fractional, keep every row and bound.
    SomePlan,
    /// Nothing was found and nothing is known: numbers grew too large, the search took too long, or
    /// no sheet can be opened with this plan.
    GivenUp,
}

/// Looks for multipliers that show that a plan in whole numbers has no solution. The costs, amounts
/// and multipliers of `plan` aren't looked at.
pub fn reason(plan: &Figures) -> Reason {
    if !can_be_opened(plan) {
        return Reason::GivenUp;
    }
    let all: Vec<Side> = (0..plan.rows).map(|row| Side::of(plan, row)).collect();
    let found = exact(plan, &all);
    if let End::Kept = found {
        return Reason::SomePlan;
    }
    let (mults, few) = among(plan, &all, found);
    let mults = mults.or_else(|| {
        // Without a row of that conflict there may be another with smaller numbers.
        few.iter().take(TRIES).find_map(|left_out| {
            let others = all.iter().filter(|side| side.row != left_out.row);
            let others: Vec<Side> = others.copied().collect();
            among(plan, &others, exact(plan, &others)).0
        })
    });
    mults.map_or(Reason::GivenUp, Reason::Multipliers)
}

/// How often a row is left out.
const TRIES: usize = 16;

/// Multipliers of these rows, by what a search over them has found or by one over fewer of them; and
/// where there are none, rows that can't be kept together as the doubles have it.
fn among(plan: &Figures, sides: &[Side], found: End<Fraction>) -> (Option<Vec<i64>>, Vec<Side>) {
    let whole = |sides: &[Side], found: End<Fraction>| match found {
        End::Conflict(found) => in_whole_numbers(plan, sides, &found),
        End::Kept | End::GivenUp => None,
    };
    if let End::Kept = found {
        return (None, vec![]);
    }
    let mults = whole(sides, found);
    if mults.is_some() {
        return (mults, vec![]);
    }
    let few = few_rows(plan, sides);
    let mults = whole(&few, exact(plan, &few)).or_else(|| rounded(plan, &few));
    (mults, few)
}

/// The figures of the sheet that shows it: all costs and amounts 0, and these multipliers.
pub fn proposal(plan: &Figures, mults: Vec<i64>) -> Figures {
    Figures {
        costs: vec![0; plan.columns],
        amounts: vec![0; plan.columns],
        mults,
        ..plan.clone()
    }
}

/// Whether the sheet takes the plan's own numbers.
fn can_be_opened(plan: &Figures) -> bool {
    let (rows, columns) = (plan.rows, plan.columns);
    let within = |numbers: &[i64], most: i64| numbers.iter().all(|n| (-most..=most).contains(n));
    let bounds = |bounds: &[Option<i64>]| {
        let present: Vec<i64> = bounds.iter().flatten().copied().collect();
        bounds.len() == columns && within(&present, limits::SHEET_AMOUNT)
    };
    let mut pairs = plan.lowers.iter().zip(&plan.uppers);
    rows <= limits::ROWS
        && columns <= limits::COLUMNS
        && plan.coefs.len() == rows * columns
        && plan.rhs.len() == rows
        && plan.ops.len() == rows
        && within(&plan.coefs, limits::SHEET_COEFFICIENT)
        && within(&plan.rhs, limits::SHEET_RIGHT)
        && bounds(&plan.lowers)
        && bounds(&plan.uppers)
        && pairs.all(|(lower, upper)| lower.is_none() || upper.is_none() || lower <= upper)
}

/// Whether the sheet with all costs 0 has right signs, needs no absent bound, and has a floor above 0.
fn shows(plan: &Figures, mults: &[i64]) -> bool {
    let mut floor = 0i128;
    for (i, &mult) in mults.iter().enumerate() {
        let wrong = match plan.ops[i] {
            ComparisonOp::Le => mult > 0,
            ComparisonOp::Eq => false,
            ComparisonOp::Ge => mult < 0,
        };
        if wrong || mult.abs() > limits::SHEET_MULTIPLIER {
            return false;
        }
        floor += i128::from(mult) * i128::from(plan.rhs[i]);
    }
    for j in 0..plan.columns {
        let coef = |i: usize| i128::from(plan.coefs[i * plan.columns + j]);
        let terms = mults.iter().enumerate();
        let price = -terms.map(|(i, &y)| coef(i) * i128::from(y)).sum::<i128>();
        let bound = match price.cmp(&0) {
            Ordering::Greater => plan.lowers[j],
            Ordering::Less => plan.uppers[j],
            Ordering::Equal => Some(0),
        };
        match bound {
            Some(bound) => floor += price * i128::from(bound),
            None => return false,
        }
    }
    floor > 0
}

/// A row as a search has it. Of an "=" it may be one side alone.
#[derive(Clone, Copy, Debug)]
struct Side {
    row: usize,
    op: ComparisonOp,
}

impl Side {
    fn of(plan: &Figures, row: usize) -> Side {
        let op = plan.ops[row];
        Side { row, op }
    }
}

fn exact(plan: &Figures, sides: &[Side]) -> End<Fraction> {
    Tableau::new(plan, sides, |side, j| {
        Fraction::whole(coef(plan, side.row, j))
    })
    .map_or(End::GivenUp, Tableau::run)
}

fn coef(plan: &Figures, row: usize, column: usize) -> i64 {
    plan.coefs[row * plan.columns + column]
}

/// The smallest whole numbers in these proportions, times 1024 where the limit allows, else times
/// the largest power of 2 that it does: so a multiplier of 1 is shown as 1.0.
fn in_whole_numbers(plan: &Figures, sides: &[Side], found: &[Fraction]) -> Option<Vec<i64>> {
    let mut common = 1i128;
    for y in found {
        common = (common / gcd(common, y.below)).checked_mul(y.below)?;
    }
    let whole = found.iter().map(|y| y.above.checked_mul(common / y.below));
    let whole: Vec<i128> = whole.collect::<Option<_>>()?;
    let shared = whole.iter().fold(0, |shared, &y| gcd(shared, y)).max(1);

    let most = i128::from(limits::SHEET_MULTIPLIER);
    let largest = whole.iter().map(|y| (y / shared).abs()).max()?;
    let powers = (0..=10).rev().map(|power| 1i128 << power);
    let times = powers.into_iter().find(|times| largest <= most / times)?;
    let mut mults = vec![0; plan.rows];
    for (side, y) in sides.iter().zip(&whole) {
        mults[side.row] = (y / shared * times) as i64;
    }
    shows(plan, &mults).then_some(mults)
}

/// Rows that can't be kept together, by a search in doubles: as few as come out by leaving out one
/// after the other. None where the doubles keep them all.
fn few_rows(plan: &Figures, sides: &[Side]) -> Vec<Side> {
    let conflict = |sides: &[Side]| -> Option<Vec<Side>> {
        let found = in_doubles(plan, sides, 0.0)?;
        let largest = found.iter().fold(0.0, |most: f64, y| most.max(y.abs()));
        let counts = found.iter().map(|y| y.abs() > largest * TINY);
        let some = sides.iter().zip(counts).filter(|&(_, counts)| counts);
        Some(some.map(|(&side, _)| side).collect())
    };
    let mut few = conflict(sides).unwrap_or_default();
    let mut at = 0;
    while at < few.len() {
        let mut without = few.clone();
        without.remove(at);
        match conflict(&without) {
            // Those before it are needed, so they are among these.
            Some(fewer) => few = fewer,
            None => at += 1,
        }
    }
    few
}

/// Multipliers of a conflict by a search in doubles.
///
/// A column that lacks a bound bears no price of one sign. So that rounding leaves its price on the
/// right side of 0, its coefficients are moved by `margin` of their sum towards keeping the rows: then
/// the prices of a conflict are that much away from 0.
fn in_doubles(plan: &Figures, sides: &[Side], margin: f64) -> Option<Vec<f64>> {
    let moves: Vec<f64> = (0..plan.columns)
        .map(|j| {
            let sum: i64 = sides.iter().map(|side| coef(plan, side.row, j).abs()).sum();
            match (plan.lowers[j], plan.uppers[j]) {
                (Some(_), None) => sum as f64 * margin,
                (None, Some(_)) => -(sum as f64) * margin,
                _ => 0.0,
            }
        })
        .collect();
    let moved = |side: Side, j: usize| {
        coef(plan, side.row, j) as f64
            + match side.op {
                ComparisonOp::Le => -moves[j],
                ComparisonOp::Eq => 0.0,
                ComparisonOp::Ge => moves[j],
            }
    };
    match Tableau::new(plan, sides, moved).map(Tableau::run) {
        Ok(End::Conflict(found)) => Some(found),
        _ => None,
    }
}

/// Multipliers in doubles, made as large as the limit allows and rounded.
fn rounded(plan: &Figures, few: &[Side]) -> Option<Vec<i64>> {
    // Of an "=" both sides, since its coefficients can't be moved towards keeping it.
    let both = few.iter().flat_map(|&side| {
        match side.op {
            ComparisonOp::Eq => vec![ComparisonOp::Le, ComparisonOp::Ge],
            op => vec![op],
        }
        .into_iter()
        .map(move |op| Side { op, ..side })
    });
    let both: Vec<Side> = both.collect();
    let most = limits::SHEET_MULTIPLIER as f64;
    [1.0, 16.0, 0.0].into_iter().find_map(|margin| {
        let found = in_doubles(plan, &both, margin / most)?;
        let mut sums = vec![0.0; plan.rows];
        for (side, y) in both.iter().zip(&found) {
            sums[side.row] += y;
        }
        let largest = sums.iter().fold(0.0, |most: f64, y| most.max(y.abs()));
        let whole = sums.iter().map(|y| (y / largest * most).round() as i64);
        let mults: Vec<i64> = whole.collect();
        shows(plan, &mults).then_some(mults)
    })
}

/// A number would grow too large.
struct TooLarge;

/// What the search reckons with: fractions, or doubles that stand in for them.
trait Number: Clone {
    fn whole(number: i64) -> Self;
    fn plus(&self, other: &Self) -> Result<Self, TooLarge>;
    fn times(&self, other: &Self) -> Result<Self, TooLarge>;
    /// 1 over it; it isn't 0.
    fn inverse(&self) -> Result<Self, TooLarge>;
    fn negated(&self) -> Self;
    fn against(&self, bound: i64) -> Result<Ordering, TooLarge>;
    fn is_zero(&self) -> bool;
    fn is_positive(&self) -> bool;
    /// Near it, for choices that may be made in any way.
    fn near(&self) -> f64;
}

/// `above / below`, with no common factor, `below` over 0, and neither as low as `i128::MIN`.
#[derive(Clone, Copy, Debug, PartialEq, Eq)]
struct Fraction {
    above: i128,
    below: i128,
}

/// The greatest common divisor of two numbers that aren't as low as `i128::MIN`; 0 of two zeros.
fn gcd(a: i128, b: i128) -> i128 {
    let (mut a, mut b) = (a.unsigned_abs(), b.unsigned_abs());
    while b != 0 {
        // Most are small, and 64 bits are divided much faster.
        if let (Ok(x), Ok(y)) = (u64::try_from(a), u64::try_from(b)) {
            (a, b) = (u128::from(y), u128::from(x % y));
        } else {
            (a, b) = (b, a % b);
        }
    }
    a as i128
}

fn checked(number: Option<i128>) -> Result<i128, TooLarge> {
    number.filter(|&n| n != i128::MIN).ok_or(TooLarge)
}

impl Number for Fraction {
    fn whole(number: i64) -> Fraction {
        Fraction {
            above: number.into(),
            below: 1,
        }
    }

    fn plus(&self, other: &Fraction) -> Result<Fraction, TooLarge> {
        if self.above == 0 || other.above == 0 {
            return Ok(if self.above == 0 { *other } else { *self });
        }
        let shared = gcd(self.below, other.below);
        let (ours, theirs) = (self.below / shared, other.below / shared);
        let above = checked(self.above.checked_mul(theirs))?;
        let above = checked(above.checked_add(checked(other.above.checked_mul(ours))?))?;
        // Only a factor of `shared` can be common to the sum and the product below it.
        let again = gcd(above, shared);
        Ok(Fraction {
            above: above / again,
            below: checked(ours.checked_mul(other.below / again))?,
        })
    }

    fn times(&self, other: &Fraction) -> Result<Fraction, TooLarge> {
        let (across, back) = (gcd(self.above, other.below), gcd(other.above, self.below));
        Ok(Fraction {
            above: checked((self.above / across).checked_mul(other.above / back))?,
            below: checked((self.below / back).checked_mul(other.below / across))?,
        })
    }

    fn inverse(&self) -> Result<Fraction, TooLarge> {
        Ok(Fraction {
            above: self.below * self.above.signum(),
            below: self.above.abs(),
        })
    }

    fn negated(&self) -> Fraction {
        Fraction {
            above: -self.above,
            below: self.below,
        }
    }

    fn against(&self, bound: i64) -> Result<Ordering, TooLarge> {
        let bound = checked(i128::from(bound).checked_mul(self.below))?;
        Ok(self.above.cmp(&bound))
    }

    fn is_zero(&self) -> bool {
        self.above == 0
    }

    fn is_positive(&self) -> bool {
        self.above > 0
    }

    fn near(&self) -> f64 {
        self.above as f64 / self.below as f64
    }
}

/// A double of this size or less counts as 0.
const TINY: f64 = 1e-9;

/// A value within this of its bound counts as at it.
const NEAR: f64 = 1e-6;

impl Number for f64 {
    fn whole(number: i64) -> f64 {
        number as f64
    }

    fn plus(&self, other: &f64) -> Result<f64, TooLarge> {
        let sum = self + other;
        Ok(if sum.abs() <= TINY { 0.0 } else { sum })
    }

    fn times(&self, other: &f64) -> Result<f64, TooLarge> {
        let product = self * other;
        if product.is_finite() {
            Ok(product)
        } else {
            Err(TooLarge)
        }
    }

    fn inverse(&self) -> Result<f64, TooLarge> {
        Ok(1.0 / self)
    }

    fn negated(&self) -> f64 {
        -self
    }

    fn against(&self, bound: i64) -> Result<Ordering, TooLarge> {
        let over = self - bound as f64;
        Ok(if over.abs() <= NEAR {
            Ordering::Equal
        } else {
            over.total_cmp(&0.0)
        })
    }

    fn is_zero(&self) -> bool {
        self.abs() <= TINY
    }

    fn is_positive(&self) -> bool {
        *self > TINY
    }

    fn near(&self) -> f64 {
        *self
    }
}

/// How a search ends.
enum End<T> {
    /// Every row and bound is kept.
    Kept,
    /// These multipliers of the rows are the reason why they aren't.
    Conflict(Vec<T>),
    GivenUp,
}

/// After so many exchanges the lowest variables leave and enter (Bland's rule), so that no basis
/// comes back; after so many in all the search is given up.
const BLAND: usize = 300;
const MOST: usize = 1_000;

/// The columns' amounts and the rows' activities are variables alike, each with bounds. Those of
/// `basic` are sums of the others, which stand at a bound or at 0.
struct Tableau<T> {
    columns: usize,
    lower: Vec<Option<i64>>,
    upper: Vec<Option<i64>>,
    /// Each basic variable's sum: a number for each place.
    rows: Vec<Vec<T>>,
    basic: Vec<usize>,
    /// The variable of each place.
    places: Vec<usize>,
    values: Vec<T>,
}

/// A basic variable that is out of its bounds, by its row.
#[derive(Clone, Copy)]
struct Leaving {
    row: usize,
    /// The bound that it is to come to, from below or from above.
    to: i64,
    rises: bool,
}

/// Where a value stands to a bound that it comes to by rising, or by falling.
fn before(rises: bool) -> Ordering {
    match rises {
        true => Ordering::Less,
        false => Ordering::Greater,
    }
}

impl<T: Number> Tableau<T> {
    fn new(
        plan: &Figures,
        sides: &[Side],
        cell: impl Fn(Side, usize) -> T,
    ) -> Result<Tableau<T>, TooLarge> {
        let columns = plan.columns;
        let right = |side: &Side| Some(plan.rhs[side.row]);
        let row_lower = sides.iter().map(|side| match side.op {
            ComparisonOp::Le => None,
            _ => right(side),
        });
        let row_upper = sides.iter().map(|side| match side.op {
            ComparisonOp::Ge => None,
            _ => right(side),
        });
        let start = |j: usize| T::whole(plan.lowers[j].or(plan.uppers[j]).unwrap_or(0));
        let row = |&side: &Side| (0..columns).map(|j| cell(side, j)).collect();
        let mut tableau = Tableau {
            columns,
            lower: plan.lowers.iter().copied().chain(row_lower).collect(),
            upper: plan.uppers.iter().copied().chain(row_upper).collect(),
            rows: sides.iter().map(row).collect(),
            basic: (columns..columns + sides.len()).collect(),
            places: (0..columns).collect(),
            values: (0..columns).map(start).collect(),
        };
        for row in &tableau.rows {
            let mut sum = T::whole(0);
            for (coef, value) in row.iter().zip(&tableau.values) {
                sum = sum.plus(&coef.times(value)?)?;
            }
            tableau.values.push(sum);
        }
        Ok(tableau)
    }

    fn run(mut self) -> End<T> {
        self.search().unwrap_or(End::GivenUp)
    }

    fn search(&mut self) -> Result<End<T>, TooLarge> {
        for exchanges in 0..MOST {
            let bland = exchanges >= BLAND;
            let Some(leaving) = self.leaving(bland)? else {
                return Ok(End::Kept);
            };
            let Some(place) = self.entering(leaving, bland)? else {
                return Ok(End::Conflict(self.multipliers(leaving)));
            };
            self.exchange(leaving, place)?;
        }
        Ok(End::GivenUp)
    }

    /// The variable that is farthest out of its bounds, measured by its row.
    fn leaving(&self, bland: bool) -> Result<Option<Leaving>, TooLarge> {
        let mut best: Option<(f64, Leaving)> = None;
        for row in 0..self.basic.len() {
            let Some(out) = self.out_of_bounds(row)? else {
                continue;
            };
            let variable = self.basic[row];
            let score = if bland {
                -(variable as f64)
            } else {
                let squares = self.rows[row].iter().map(|coef| coef.near().powi(2));
                (self.values[variable].near() - out.to as f64).abs() / squares.sum::<f64>().sqrt()
            };
            if best.is_none_or(|(most, _)| score > most) {
                best = Some((score, out));
            }
        }
        Ok(best.map(|(_, leaving)| leaving))
    }

    fn out_of_bounds(&self, row: usize) -> Result<Option<Leaving>, TooLarge> {
        let variable = self.basic[row];
        for (bound, rises) in [(self.lower[variable], true), (self.upper[variable], false)] {
            if let Some(to) = bound {
                if self.values[variable].against(to)? == before(rises) {
                    return Ok(Some(Leaving { row, to, rises }));
                }
            }
        }
        Ok(None)
    }

    /// The place whose variable can move so that the leaving one comes nearer to its bound: the one
    /// that stands in the fewest rows, so that these fill up least.
    fn entering(&self, leaving: Leaving, bland: bool) -> Result<Option<usize>, TooLarge> {
        let mut best: Option<(f64, usize)> = None;
        for (place, coef) in self.rows[leaving.row].iter().enumerate() {
            let rises = coef.is_positive() == leaving.rises;
            if coef.is_zero() || !self.has_room(self.places[place], rises)? {
                continue;
            }
            let score = if bland {
                -(self.places[place] as f64)
            } else {
                let filled = self.rows.iter().filter(|row| !row[place].is_zero());
                // Of equals the largest, up to a size that counts less than one row.
                coef.near().abs().min(999.0) / 2_000.0 - filled.count() as f64
            };
            if best.is_none_or(|(most, _)| score > most) {
                best = Some((score, place));
            }
        }
        Ok(best.map(|(_, place)| place))
    }

    fn has_room(&self, variable: usize, rises: bool) -> Result<bool, TooLarge> {
        let ahead = match rises {
            true => self.upper[variable],
            false => self.lower[variable],
        };
        match ahead {
            Some(bound) => Ok(self.values[variable].against(bound)? == before(rises)),
            None => Ok(true),
        }
    }

    /// The leaving variable takes its bound and the place, the place's variable the row.
    fn exchange(&mut self, leaving: Leaving, place: usize) -> Result<(), TooLarge> {
        let Leaving { row, to, .. } = leaving;
        let (out, into) = (self.basic[row], self.places[place]);
        let inverse = self.rows[row][place].inverse()?;
        let way = T::whole(to).plus(&self.values[out].negated())?;
        let moved = way.times(&inverse)?;
        for (other, &variable) in self.basic.iter().enumerate() {
            let coef = &self.rows[other][place];
            if other != row && !coef.is_zero() {
                self.values[variable] = self.values[variable].plus(&coef.times(&moved)?)?;
            }
        }
        self.values[into] = self.values[into].plus(&moved)?;
        self.values[out] = T::whole(to);

        let mut turned = Vec::with_capacity(self.columns);
        for (at, coef) in self.rows[row].iter().enumerate() {
            turned.push(match at == place {
                true => inverse.clone(),
                false => coef.times(&inverse)?.negated(),
            });
        }
        for (other, cells) in self.rows.iter_mut().enumerate() {
            let coef = cells[place].clone();
            if other == row || coef.is_zero() {
                continue;
            }
            cells[place] = T::whole(0);
            for (cell, turned) in cells.iter_mut().zip(&turned) {
                if !turned.is_zero() {
                    *cell = cell.plus(&coef.times(turned)?)?;
                }
            }
        }
        self.rows[row] = turned;
        self.basic[row] = into;
        self.places[place] = out;
        Ok(())
    }

    /// Of the row in which nothing has room: the leaving variable less its sum is 0 for all amounts,
    /// so the multipliers are the numbers of the rows' variables there, 1 of the leaving one.
    fn multipliers(&self, leaving: Leaving) -> Vec<T> {
        let mut mults = vec![T::whole(0); self.basic.len()];
        let mut put = |variable: usize, number: T| {
            if let Some(side) = variable.checked_sub(self.columns) {
                mults[side] = match leaving.rises {
                    true => number,
                    false => number.negated(),
                };
            }
        };
        put(self.basic[leaving.row], T::whole(1));
        for (&variable, coef) in self.places.iter().zip(&self.rows[leaving.row]) {
            put(variable, coef.negated());
        }
        mults
    }
}

#[cfg(test)]
mod tests {
    use super::*;

    fn fraction(above: i128, below: i128) -> Fraction {
        Fraction { above, below }
    }

    #[test]
    fn fractions_have_no_common_factor() {
        let sum = |a: Fraction, b: Fraction| a.plus(&b).ok();
        let product = |a: Fraction, b: Fraction| a.times(&b).ok();
        let (third, sixth) = (fraction(1, 3), fraction(-1, 6));
        assert_eq!(sum(third, sixth), Some(fraction(1, 6)));
        assert_eq!(sum(third, third.negated()), Some(fraction(0, 1)));
        assert_eq!(sum(fraction(0, 1), sixth), Some(sixth));
        assert_eq!(product(third, sixth), Some(fraction(-1, 18)));
        assert_eq!(product(fraction(6, 1), sixth), Some(fraction(-1, 1)));
        assert_eq!(product(fraction(0, 1), sixth), Some(fraction(0, 1)));
        assert_eq!(sixth.inverse().ok(), Some(fraction(-6, 1)));
        assert_eq!(sixth.against(0).ok(), Some(Ordering::Less));
        assert_eq!(fraction(7, 2).against(3).ok(), Some(Ordering::Greater));
        assert_eq!((gcd(0, 0), gcd(0, -4), gcd(12, -18)), (0, 4, 6));
        assert_eq!(gcd(i128::MAX, 1 << 70), 1);
    }

    /// Nothing wraps round: what doesn't fit is an error.
    #[test]
    fn large_fractions_are_given_up() {
        let large = fraction(i128::MAX, 1);
        let small = fraction(1, i128::MAX);
        assert!(large.plus(&large).is_err() && large.plus(&small).is_err());
        assert!(large.times(&large).is_err() && small.times(&small).is_err());
        assert!(large.negated().plus(&fraction(-1, 1)).is_err());
        assert!(fraction(-1 << 126, 1).times(&fraction(2, 1)).is_err());
        assert!(small.against(2).is_err());
        assert_eq!(large.times(&small).ok(), Some(fraction(1, 1)));
        assert_eq!(large.plus(&large.negated()).ok(), Some(fraction(0, 1)));
    }

    /// What is proposed has been held to the sheet's conditions, each of which can fail.
    #[test]
    fn every_condition_counts() {
        let plan = Figures {
            rows: 2,
            columns: 1,
            coefs: vec![1, 1],
            lowers: vec![Some(0)],
            uppers: vec![None],
            rhs: vec![5, 3],
            ops: vec![ComparisonOp::Ge, ComparisonOp::Le],
            ..Figures::default()
        };
        assert!(shows(&plan, &[1, -1]));
        assert!(shows(&plan, &[3, -4]), "a price above 0 and a lower bound");
        assert!(!shows(&plan, &[3, -5]), "a floor of 0");
        assert!(
            !shows(&plan, &[2, -1]),
            "a price below 0 and no upper bound"
        );
        assert!(!shows(&plan, &[-1, -1]) && !shows(&plan, &[1, 1]), "signs");
        assert!(shows(&plan, &[1 << 20, -1 << 20]));
        assert!(!shows(&plan, &[(1 << 20) + 1, -(1 << 20) - 1]), "the limit");
    }
}
