//! A second solver, written from documents 01 and 02 alone, plain and slow. It shares no code with
//! solver.rs; a test compares the two, so that a mistake in putting the oracle together shows.

use crate::answer::{Answer, Factor, Named, Outcome, Rejected, StartNumber, State};
use crate::plan::{Lent, Plan};

mod calls;

pub use calls::answers;

/// "EPS is the double nearest 1e-8".
const EPS: f64 = 1e-8;

/// 02: "1e12 itself is accepted".
const LARGEST: f64 = 1e12;

/// "A touched list grows at first touch; a place that becomes 0.0 stays".
#[derive(Clone, Default)]
struct Touched(Vec<(usize, f64)>);

impl Touched {
    /// An untouched place counts as 0.0.
    fn get(&self, place: usize) -> f64 {
        let found = self.0.iter().find(|(p, _)| *p == place);
        found.map_or(0.0, |&(_, val)| val)
    }

    fn touch(&mut self, place: usize) -> &mut f64 {
        let at = match self.0.iter().position(|(p, _)| *p == place) {
            Some(at) => at,
            None => {
                self.0.push((place, 0.0));
                self.0.len() - 1
            }
        };
        &mut self.0[at].1
    }
}

#[derive(Clone)]
struct Eta {
    row: usize,
    entries: Vec<(usize, f64)>,
}

/// 02's factor of a basis. Entries are by columns, in stored order, rows as pivot numbers.
#[derive(Clone, Default)]
struct Triangles {
    /// The kept row of each pivot number.
    pivots: Vec<usize>,
    lower: Vec<Vec<(usize, f64)>>,
    upper: Vec<Vec<(usize, f64)>>,
    diag: Vec<f64>,
}

/// A plan that has passed refusals 1 to 5, its empty rows dropped.
struct Rules {
    columns: usize,
    kept: Vec<usize>,
    /// Each kept row's entries, the slack's 1.0 last.
    rows: Vec<Vec<(usize, f64)>>,
    rhs: Vec<f64>,
    /// Of columns, then slacks.
    lower: Vec<f64>,
    upper: Vec<f64>,
}

/// What a step changes.
#[derive(Clone)]
struct Now {
    basic: Vec<usize>,
    nonbasic: Vec<usize>,
    bval: Vec<f64>,
    nval: Vec<f64>,
    price: Vec<f64>,
    norm: Vec<f64>,
    dual_norm: Vec<f64>,
    at_lower: Vec<bool>,
    at_upper: Vec<bool>,
    /// A fixed column "counts as at both bounds".
    fixed: Vec<bool>,
    etas: Vec<Eta>,
    factor: Option<Triangles>,
    factorings: usize,
    objective: f64,
    steps: u64,
    dual_steps: u64,
}

/// The plan's run, from any start where the plan says so.
pub fn solve(plan: &Plan) -> Answer {
    match plan.any {
        true => calls::solve_any(plan, &mut calls::Cells::default()),
        false => solve_from_start(plan),
    }
}

fn solve_from_start(plan: &Plan) -> Answer {
    let (rules, now, dual_feasible) = match laid_out(plan).and_then(started) {
        Ok(started) => started,
        Err(outcome) => return Answer::refusal(outcome),
    };
    run(&rules, now, plan, dual_feasible)
}

/// Dual steps where they are asked for, primal steps, the final check.
fn run(rules: &Rules, mut now: Now, plan: &Plan, is_dual: bool) -> Answer {
    let mut dual_ended = Ok(());
    if is_dual {
        dual_ended = repeat(&mut now, &|now| dual_step(rules, now, plan.budget));
    }
    let in_dual = dual_ended.is_err();
    let ended = dual_ended.and_then(|()| repeat(&mut now, &|now| step(rules, now, plan.budget)));

    let (outcome, excess) = match ended {
        Err(stopped) => (stopped, 0.0),
        Ok(()) => checked(rules, &now, plan.tolerance),
    };
    let mut answer = stood(rules, &now, outcome);
    answer.excess = excess;
    if let Some(state) = &mut answer.state {
        state.in_dual = in_dual;
    }
    answer
}

/// An answer with the state as it stands.
fn stood(rules: &Rules, now: &Now, outcome: Outcome) -> Answer {
    Answer {
        outcome,
        objective: now.objective,
        steps: now.steps,
        excess: 0.0,
        values: if outcome == Outcome::Optimal {
            values(rules, now)
        } else {
            vec![]
        },
        state: Some(state(rules, now)),
        way: None,
    }
}

/// Step after step, until there is none or one stops the run.
fn repeat(
    now: &mut Now,
    step: &dyn Fn(&Now) -> Result<Option<Now>, Outcome>,
) -> Result<(), Outcome> {
    while let Some(next) = step(now)? {
        *now = next;
    }
    Ok(())
}

/// Refusal 1.
fn too_large_or_short(plan: &Plan) -> bool {
    let (columns, rows, entries) = (plan.columns, plan.rows, plan.entries);
    if columns > 128 || rows > 96 || entries > 2048 || plan.budget > 10_000 {
        return true;
    }

    let room = plan.room.unwrap_or([columns + rows, 256, 4096]);
    let mut lengths = vec![
        (plan.cost.len() as u64, columns),
        (plan.lower.len() as u64, columns),
        (plan.upper.len() as u64, columns),
        (plan.starts.len() as u64, rows + 1),
        (plan.cols.len() as u64, entries),
        (plan.coef.len() as u64, entries),
        (plan.ops.len() as u64, rows),
        (plan.rhs.len() as u64, rows),
        (room[0], columns + rows),
    ];
    for lent in Lent::ALL.into_iter().chain(Lent::ARRAYS) {
        let (by_default, needed) = match lent.name() {
            "kept" | "basic" | "bval" | "dnorm" => (rows, rows),
            "where" => (columns + rows, columns + rows),
            "etarow" => (room[1], 256),
            "etaptr" => (room[1].saturating_add(1), 257),
            "etaidx" | "etaval" => (room[2], 4096),
            "counts" => (7, 7),
            "obj" => (1, 1),
            "numbers" => (5288, 5288),
            "doubles" => (4673, 4673),
            "factor_numbers" => (18820, 18820),
            "factor_coeffs" => (18336, 18336),
            _ => (columns, columns),
        };
        let mut length = by_default;
        for (name, shorter) in &plan.short {
            if *name == lent {
                length = *shorter;
            }
        }
        lengths.push((length, needed));
    }
    if lengths.iter().any(|(have, needed)| have < needed) {
        return true;
    }

    let rows = rows as usize;
    (0..rows).any(|r| plan.starts[r] > plan.starts[r + 1])
        || plan.starts[0] != 0
        || plan.starts[rows] != entries
}

/// NaN, an infinity, or a size above 1e12.
fn off(number: f64) -> bool {
    !(-LARGEST..=LARGEST).contains(&number)
}

/// Refusal 2.
fn bad_number(plan: &Plan) -> bool {
    let columns = plan.columns as usize;
    let rows = plan.rows as usize;
    for c in 0..columns {
        if off(plan.cost[c])
            || plan.lower[c] != f64::NEG_INFINITY && off(plan.lower[c])
            || plan.upper[c] != f64::INFINITY && off(plan.upper[c])
        {
            return true;
        }
    }
    for e in 0..plan.entries as usize {
        if off(plan.coef[e]) {
            return true;
        }
    }
    for r in 0..rows {
        if off(plan.rhs[r]) || plan.ops[r] > 2 {
            return true;
        }
    }
    !(plan.tolerance >= 0.0 && plan.tolerance <= 1.0)
}

/// Refusals 1 to 5 and the start; the flag says whether it is dual feasible.
fn laid_out(plan: &Plan) -> Result<(Rules, Now, bool), Outcome> {
    if too_large_or_short(plan) {
        return Err(Outcome::BadSize);
    }
    if bad_number(plan) {
        return Err(Outcome::BadNumber);
    }
    let columns = plan.columns as usize;
    let row_entries = |r: usize| plan.starts[r] as usize..plan.starts[r + 1] as usize;

    for row in 0..plan.rows as usize {
        let mut before = None;
        for (place, e) in row_entries(row).enumerate() {
            let col = plan.cols[e];
            if col >= plan.columns || before.is_some_and(|b| col <= b) {
                return Err(Outcome::BadEntry { row, place });
            }
            before = Some(col);
        }
    }
    for column in 0..columns {
        if plan.lower[column] > plan.upper[column] {
            return Err(Outcome::CrossedBounds { column });
        }
    }
    for row in 0..plan.rows as usize {
        let rhs = plan.rhs[row];
        let holds = match plan.ops[row] {
            0 => 0.0 <= rhs,
            1 => 0.0 == rhs,
            _ => 0.0 >= rhs,
        };
        if row_entries(row).is_empty() && !holds {
            return Err(Outcome::FalseEmptyRow { row });
        }
    }

    let mut rules = Rules {
        columns,
        kept: (0..plan.rows as usize)
            .filter(|&r| !row_entries(r).is_empty())
            .collect(),
        rows: vec![],
        rhs: vec![],
        lower: plan.lower[..columns].to_vec(),
        upper: plan.upper[..columns].to_vec(),
    };
    let mut now = Now {
        basic: vec![],
        nonbasic: (0..columns).collect(),
        bval: vec![],
        nval: vec![],
        price: plan.cost[..columns].to_vec(),
        norm: vec![],
        dual_norm: vec![],
        at_lower: vec![],
        at_upper: vec![],
        fixed: vec![false; columns],
        etas: vec![],
        factor: None,
        factorings: 0,
        objective: 0.0,
        steps: 0,
        dual_steps: 0,
    };

    let mut dual_feasible = true;
    for c in 0..columns {
        let (lower, upper, cost) = (plan.lower[c], plan.upper[c], plan.cost[c]);
        let val = if lower == upper {
            lower
        } else if lower == f64::NEG_INFINITY && upper == f64::INFINITY {
            dual_feasible &= cost == 0.0;
            0.0
        } else if cost < 0.0 {
            dual_feasible &= upper < f64::INFINITY;
            if upper < f64::INFINITY {
                upper
            } else {
                lower
            }
        } else {
            dual_feasible &= cost == 0.0 || lower > f64::NEG_INFINITY;
            if lower > f64::NEG_INFINITY {
                lower
            } else {
                upper
            }
        };
        now.nval.push(val);
        now.at_lower.push(val == lower);
        now.at_upper.push(val == upper);
        now.objective += cost * val;
    }

    for (k, &row) in rules.kept.iter().enumerate() {
        let mut sum = 0.0;
        let mut entries = vec![];
        for e in row_entries(row) {
            let col = plan.cols[e] as usize;
            entries.push((col, plan.coef[e]));
            sum += plan.coef[e] * now.nval[col];
        }
        entries.push((columns + k, 1.0));
        rules.rows.push(entries);
        rules.rhs.push(plan.rhs[row]);
        let op = plan.ops[row];
        rules
            .lower
            .push(if op == 2 { f64::NEG_INFINITY } else { 0.0 });
        rules.upper.push(if op == 0 { f64::INFINITY } else { 0.0 });
        now.basic.push(columns + k);
        now.dual_norm.push(1.0);
        now.bval.push(plan.rhs[row] - sum);
    }
    for c in 0..columns {
        now.norm.push(sum_of_squares(&column(&rules, c)) + 1.0);
    }
    Ok((rules, now, dual_feasible))
}

/// Refusals 6 and 7 of a start.
fn started(laid_out: (Rules, Now, bool)) -> Result<(Rules, Now, bool), Outcome> {
    let (rules, now, dual_feasible) = laid_out;
    if now.bval.iter().any(|val| !val.is_finite()) {
        return Err(Outcome::StartNotFinite(StartNumber::Value));
    }
    if !now.objective.is_finite() {
        return Err(Outcome::StartNotFinite(StartNumber::Objective));
    }
    if now.norm.iter().any(|val| !val.is_finite()) {
        return Err(Outcome::StartNotFinite(StartNumber::Norm));
    }
    for (k, &val) in now.bval.iter().enumerate() {
        let slack = rules.columns + k;
        let outside = val < rules.lower[slack] || val > rules.upper[slack];
        if outside && !dual_feasible {
            return Err(Outcome::SlackOutside);
        }
    }
    Ok((rules, now, dual_feasible))
}

/// A variable's column of the kept rows, rows rising.
fn column(rules: &Rules, var: usize) -> Touched {
    let mut col = Touched::default();
    for (r, entries) in rules.rows.iter().enumerate() {
        for &(v, a) in entries {
            if v == var {
                col.0.push((r, a));
            }
        }
    }
    col
}

fn sum_of_squares(list: &Touched) -> f64 {
    let mut sum = 0.0;
    for &(_, val) in &list.0 {
        sum += val * val;
    }
    sum
}

/// A post-order walk from a place: each child before its parent, visited places once.
fn walk(
    place: usize,
    children: &dyn Fn(usize) -> Vec<usize>,
    finished: &mut Vec<usize>,
    seen: &mut Vec<usize>,
) {
    seen.push(place);
    for child in children(place) {
        if !seen.contains(&child) {
            walk(child, children, finished, seen);
        }
    }
    finished.push(place);
}

/// Walks from the listed places that `begins` accepts, in listed order, and lists what is new; the
/// places in finishing order.
fn reached(
    list: &mut Touched,
    begins: &dyn Fn(usize) -> bool,
    children: &dyn Fn(usize) -> Vec<usize>,
) -> Vec<usize> {
    let (mut finished, mut seen) = (vec![], vec![]);
    for &(place, _) in &list.0 {
        if begins(place) && !seen.contains(&place) {
            walk(place, children, &mut finished, &mut seen);
        }
    }
    for &place in &finished {
        list.touch(place);
    }
    finished
}

/// 01's sparse solve: "Processing is the reverse of finishing order".
fn solve_triangle(
    columns: &[Vec<(usize, f64)>],
    diag: Option<&[f64]>,
    mut list: Touched,
) -> Touched {
    let rows = |place: usize| columns[place].iter().map(|&(r, _)| r).collect();
    for &place in reached(&mut list, &|_| true, &rows).iter().rev() {
        if let Some(diag) = diag {
            *list.touch(place) /= diag[place];
        }
        let x = list.get(place);
        for &(r, a) in &columns[place] {
            *list.touch(r) -= x * a;
        }
    }
    list
}

/// "A transposed column lists its entries by FALLING column number of the original".
fn transposed(columns: &[Vec<(usize, f64)>]) -> Vec<Vec<(usize, f64)>> {
    let mut rows = vec![vec![]; columns.len()];
    for (c, column) in columns.iter().enumerate().rev() {
        for &(r, a) in column {
            rows[r].push((c, a));
        }
    }
    rows
}

/// 02: "Factor the basis with the shown lu_factorize in a stated order: columns left to right, pivot in
/// each the remaining row with the largest size, first on a tie".
fn factored(rules: &Rules, basic: &[usize]) -> Result<Triangles, Outcome> {
    let mut made = Triangles::default();
    for &var in basic {
        let number = |row: usize| made.pivots.iter().position(|&pivot| pivot == row);
        let below = |row: usize| number(row).map_or(vec![], |j| made.lower[j].clone());
        let mut col = column(rules, var);
        let begins = |row: usize| number(row).is_some();
        let children = |row: usize| below(row).iter().map(|&(r, _)| r).collect();
        for &row in reached(&mut col, &begins, &children).iter().rev() {
            let x = col.get(row);
            for (r, a) in below(row) {
                *col.touch(r) -= x * a;
            }
        }
        for &(_, val) in &col.0 {
            finite(Named::Factor, val, false)?;
        }
        let mut pivot: Option<(usize, f64)> = None;
        for &(row, val) in &col.0 {
            let larger = val.abs() > pivot.map_or(0.0, |(_, best)| best.abs());
            if number(row).is_none() && larger {
                pivot = Some((row, val));
            }
        }
        let Some((row, pivot)) = pivot.filter(|(_, val)| val.abs() >= EPS) else {
            return Err(Outcome::Singular);
        };
        let (mut lower, mut upper) = (vec![], vec![]);
        for &(r, val) in col.0.iter().filter(|&&(r, val)| val != 0.0 && r != row) {
            match number(r) {
                Some(j) => upper.push((j, val)),
                None => lower.push((r, val / pivot)),
            }
        }
        made.pivots.push(row);
        made.lower.push(lower);
        made.upper.push(upper);
        made.diag.push(pivot);
    }
    for (row, _) in made.lower.iter_mut().flatten() {
        *row = made.pivots.iter().position(|pivot| pivot == row).unwrap();
    }
    Ok(made)
}

fn with_places(list: Touched, place: impl Fn(usize) -> usize) -> Touched {
    Touched(list.0.into_iter().map(|(p, val)| (place(p), val)).collect())
}

/// "The first factor is the identity": with no factor a solve is its etas.
fn solve_column(now: &Now, mut col: Touched) -> Touched {
    if let Some(factor) = &now.factor {
        let number = |row| factor.pivots.iter().position(|&p| p == row).unwrap();
        col = solve_triangle(&factor.lower, None, with_places(col, number));
        col = solve_triangle(&factor.upper, Some(&factor.diag), col);
    }
    for eta in &now.etas {
        let factor = col.get(eta.row);
        for &(r, val) in &eta.entries {
            *col.touch(r) -= factor * val;
        }
    }
    col
}

fn solve_row(now: &Now, mut row: Touched) -> Touched {
    for eta in now.etas.iter().rev() {
        let mut sum = 0.0;
        for &(r, val) in &eta.entries {
            sum += val * row.get(r);
        }
        *row.touch(eta.row) -= sum;
    }
    if let Some(factor) = &now.factor {
        row = solve_triangle(&transposed(&factor.upper), Some(&factor.diag), row);
        row = solve_triangle(&transposed(&factor.lower), None, row);
        row = with_places(row, |number| factor.pivots[number]);
    }
    row
}

/// The sum of the kept rows with these factors, by place of the non-basic variables.
fn over_nonbasic(rules: &Rules, now: &Now, factors: &Touched) -> Touched {
    let mut sums = Touched::default();
    for &(r, factor) in &factors.0 {
        for &(var, a) in &rules.rows[r] {
            if let Some(place) = now.nonbasic.iter().position(|&v| v == var) {
                *sums.touch(place) += a * factor;
            }
        }
    }
    sums
}

fn finite(named: Named, val: f64, flip: bool) -> Result<(), Outcome> {
    if val.is_finite() {
        Ok(())
    } else {
        Err(Outcome::NotFinite { named, flip })
    }
}

/// "Order: entering column (none: final check); budget; column solve; ratio; Unbounded; row solve; all
/// new numbers; store." 02: "then the eta entries (where the column fits) or the factor (where not)".
fn step(rules: &Rules, now: &Now, budget: u64) -> Result<Option<Now>, Outcome> {
    let mut entering: Option<(usize, f64)> = None;
    for c in 0..rules.columns {
        let price = now.price[c];
        // It would rise or fall by its price, and isn't at the bound in the way. 02: "a column at
        // neither bound enters only if its price's size is at least EPS".
        let may_rise = price <= -EPS && !now.at_upper[c];
        let may_fall = price >= EPS && !now.at_lower[c];
        if !may_rise && !may_fall {
            continue;
        }
        let score = price * price / now.norm[c];
        if score > entering.map_or(f64::NEG_INFINITY, |(_, best)| best) {
            entering = Some((c, score));
        }
    }
    let Some((c, _)) = entering else {
        return Ok(None);
    };
    if now.steps >= budget {
        return Err(Outcome::Spent);
    }

    let var = now.nonbasic[c];
    let rises = now.price[c] < 0.0;
    let other = if rises {
        rules.upper[var]
    } else {
        rules.lower[var]
    };
    let distance = (other - now.nval[c]).abs();
    let col = solve_column(now, column(rules, var));
    for &(_, a) in &col.0 {
        finite(Named::Column, a, false)?;
    }

    // The ratio. A basic value rises where the entering one rises against a negative coefficient.
    let ahead = |r: usize, a: f64| -> (f64, f64) {
        let val = now.bval[r];
        if rises == (a < 0.0) {
            let bound = rules.upper[now.basic[r]];
            (bound, if val < bound { bound - val } else { 0.0 })
        } else {
            let bound = rules.lower[now.basic[r]];
            (bound, if val > bound { val - bound } else { 0.0 })
        }
    };
    let mut max_step = distance;
    for &(r, a) in &col.0 {
        if a.abs() < EPS {
            continue;
        }
        let (bound, limit) = ahead(r, a);
        let quotient = (limit + EPS) / a.abs();
        if bound.is_finite() {
            finite(Named::Limit, limit, false)?;
            finite(Named::Quotient, quotient, false)?;
        }
        if quotient < max_step {
            max_step = quotient;
        }
    }
    if other.is_finite() {
        finite(Named::Distance, distance, false)?;
    }
    let mut leaving: Option<(usize, f64, f64)> = None;
    for &(r, a) in &col.0 {
        let (bound, limit) = ahead(r, a);
        let candidate = a.abs() >= EPS && bound.is_finite() && limit / a.abs() <= max_step;
        if candidate && leaving.is_none_or(|(_, pivot, _)| a.abs() > pivot.abs()) {
            leaving = Some((r, a, bound));
        }
    }

    let Some((row, pivot, leaving_val)) = leaving else {
        if other.is_infinite() {
            return Err(Outcome::Unbounded);
        }
        let mut next = now.clone();
        next.steps += 1;
        let difference = other - now.nval[c];
        next.objective += now.price[c] * difference;
        finite(Named::Objective, next.objective, true)?;
        for &(r, a) in &col.0 {
            next.bval[r] -= difference * a;
            finite(Named::Basic, next.bval[r], true)?;
        }
        next.nval[c] = other;
        next.at_lower[c] = other == rules.lower[var];
        next.at_upper[c] = other == rules.upper[var];
        return Ok(Some(next));
    };

    let (rho, coefs) = row_of(rules, now, row)?;
    let difference = (now.bval[row] - leaving_val) / pivot;
    let exchange = Exchange {
        c,
        row,
        pivot,
        leaving_val,
        difference,
        col,
        rho,
        coefs,
    };
    exchanged(rules, now, exchange).map(Some)
}

/// The row solve's result, and the row over the non-basic places.
fn row_of(rules: &Rules, now: &Now, row: usize) -> Result<(Touched, Touched), Outcome> {
    let rho = solve_row(now, Touched(vec![(row, 1.0)]));
    let coefs = over_nonbasic(rules, now, &rho);
    for &(_, a) in &coefs.0 {
        finite(Named::Row, a, false)?;
    }
    Ok((rho, coefs))
}

/// The row whose basic value is outside by more than EPS and has the largest score, the infeasibility
/// squared over the dual norm; with the bound that it leaves to.
fn leaving_row(rules: &Rules, now: &Now) -> Option<(usize, f64)> {
    let mut best = f64::NEG_INFINITY;
    let mut leaving = None;
    for (r, &val) in now.bval.iter().enumerate() {
        let (lower, upper) = (rules.lower[now.basic[r]], rules.upper[now.basic[r]]);
        let (outside, bound) = if val < lower - EPS {
            (lower - val, lower)
        } else if val > upper + EPS {
            (val - upper, upper)
        } else {
            continue;
        };
        let score = outside * outside / now.dual_norm[r];
        if score > best {
            best = score;
            leaving = Some((r, bound));
        }
    }
    leaving
}

/// 02, Ask 8, "One dual step, in this order".
fn dual_step(rules: &Rules, now: &Now, budget: u64) -> Result<Option<Now>, Outcome> {
    let Some((row, leaving_val)) = leaving_row(rules, now) else {
        return Ok(None);
    };
    left(rules, now, budget, row, leaving_val).map(Some)
}

/// From "Budget" on: this row's variable leaves at this value.
fn left(
    rules: &Rules,
    now: &Now,
    budget: u64,
    row: usize,
    leaving_val: f64,
) -> Result<Now, Outcome> {
    if now.steps >= budget {
        return Err(Outcome::Spent);
    }
    let (rho, coefs) = row_of(rules, now, row)?;

    // Every eligible place with its coefficient and the size of its clamped price. The leaving value
    // grows by -a times what the entering one grows by. 02, Ask 9: where the two are equal "nothing has to
    // move, and no bound is in the way".
    let stands = leaving_val == now.bval[row];
    let grows = leaving_val > now.bval[row];
    let mut eligible = vec![];
    for &(c, a) in &coefs.0 {
        let rises = (a > 0.0) != grows;
        let in_the_way = if stands {
            now.fixed[c]
        } else if rises {
            now.at_upper[c]
        } else {
            now.at_lower[c]
        };
        if a.abs() >= EPS && !in_the_way {
            let wrong_sign =
                now.at_lower[c] && now.price[c] < 0.0 || now.at_upper[c] && now.price[c] > 0.0;
            eligible.push((c, a, if wrong_sign { 0.0 } else { now.price[c].abs() }));
        }
    }
    let mut least = f64::INFINITY;
    for &(_, a, price) in &eligible {
        let quotient = (price + EPS) / a.abs();
        finite(Named::DualQuotient, quotient, false)?;
        least = least.min(quotient);
    }
    let mut entering: Option<(usize, f64)> = None;
    for &(c, a, price) in &eligible {
        let larger = entering.is_none_or(|(_, pivot)| a.abs() > pivot.abs());
        if price / a.abs() <= least && larger {
            entering = Some((c, a));
        }
    }
    let Some((c, pivot)) = entering else {
        return Err(Outcome::Infeasible { row });
    };

    let col = solve_column(now, column(rules, now.nonbasic[c]));
    for &(_, a) in &col.0 {
        finite(Named::Column, a, false)?;
    }
    let exchange = Exchange {
        c,
        row,
        pivot,
        leaving_val,
        difference: (now.bval[row] - leaving_val) / pivot,
        col,
        rho,
        coefs,
    };
    let mut next = exchanged(rules, now, exchange)?;
    next.dual_steps += 1;
    Ok(next)
}

/// What either kind of step has found when it exchanges.
struct Exchange {
    /// The entering place and the leaving row.
    c: usize,
    row: usize,
    pivot: f64,
    leaving_val: f64,
    difference: f64,
    col: Touched,
    /// The row solve's result, and the row.
    rho: Touched,
    coefs: Touched,
}

/// The state after an exchange of either kind.
fn exchanged(rules: &Rules, now: &Now, exchange: Exchange) -> Result<Now, Outcome> {
    let Exchange {
        c,
        row,
        pivot,
        leaving_val,
        difference,
        mut col,
        rho,
        mut coefs,
    } = exchange;
    let mut next = now.clone();
    next.steps += 1;
    // The two touches.
    coefs.touch(c);
    col.touch(row);
    let helper = over_nonbasic(rules, now, &solve_row(now, col.clone()));
    for &(_, h) in &helper.0 {
        finite(Named::Helper, h, false)?;
    }
    let tau = solve_column(now, rho.clone());
    for &(_, t) in &tau.0 {
        finite(Named::Tau, t, false)?;
    }

    next.objective += now.price[c] * difference;
    finite(Named::Objective, next.objective, false)?;
    finite(Named::Value, now.nval[c] + difference, false)?;
    for &(r, a) in &col.0 {
        next.bval[r] = if r == row {
            now.nval[c] + difference
        } else {
            now.bval[r] - difference * a
        };
        finite(Named::Basic, next.bval[r], false)?;
    }
    let left = now.basic[row];
    next.nval[c] = leaving_val;
    next.at_lower[c] = leaving_val == rules.lower[left];
    next.at_upper[c] = leaving_val == rules.upper[left];

    let pivot_price = now.price[c] / pivot;
    for &(p, a) in &coefs.0 {
        next.price[p] = if p == c {
            -pivot_price
        } else {
            now.price[p] - pivot_price * a
        };
        finite(Named::Price, next.price[p], false)?;
    }
    let norm = sum_of_squares(&col) + 1.0;
    for &(p, a) in &coefs.0 {
        next.norm[p] = if p == c {
            norm / (pivot * pivot)
        } else {
            now.norm[p] + (-2.0 * a * helper.get(p) / pivot + norm * a * a / (pivot * pivot))
        };
        finite(Named::Norm, next.norm[p], false)?;
    }
    let squares = sum_of_squares(&rho);
    for &(r, a) in &col.0 {
        next.dual_norm[r] = if r == row {
            squares / (pivot * pivot)
        } else {
            let change = -2.0 * a * tau.get(r) / pivot + squares * a * a / (pivot * pivot);
            now.dual_norm[r] + change
        };
        finite(Named::DualNorm, next.dual_norm[r], false)?;
    }

    next.basic[row] = now.nonbasic[c];
    next.nonbasic[c] = left;
    let stored: usize = now.etas.iter().map(|eta| eta.entries.len()).sum();
    if now.etas.len() < 256 && stored + col.0.len() <= 4096 {
        next.etas.push(eta(&col, row, pivot)?);
    } else {
        next.factor = Some(factored(rules, &next.basic)?);
        next.factorings = next.factorings.wrapping_add(1);
        next.etas.clear();
    }
    Ok(next)
}

fn eta(col: &Touched, row: usize, pivot: f64) -> Result<Eta, Outcome> {
    let mut entries = vec![];
    for &(r, a) in &col.0 {
        let val = if r == row {
            1.0 - 1.0 / pivot
        } else {
            a / pivot
        };
        finite(Named::Eta, val, false)?;
        entries.push((r, val));
    }
    Ok(Eta { row, entries })
}

fn values(rules: &Rules, now: &Now) -> Vec<f64> {
    let mut values = vec![0.0; rules.columns + rules.rows.len()];
    for (&var, &val) in now.basic.iter().zip(&now.bval) {
        values[var] = val;
    }
    for (&var, &val) in now.nonbasic.iter().zip(&now.nval) {
        values[var] = val;
    }
    values
}

/// Every excess in order with its place, an infinite bound's left out; then the largest of them.
fn checked(rules: &Rules, now: &Now, tol: f64) -> (Outcome, f64) {
    let values = values(rules, now);
    let mut all = vec![];
    for (var, &val) in values.iter().enumerate() {
        let place = Rejected::Value(var);
        if val.is_nan() || val.is_infinite() {
            all.push((f64::INFINITY, place));
        } else {
            if rules.lower[var] > f64::NEG_INFINITY {
                all.push((rules.lower[var] - val, place));
            }
            if rules.upper[var] < f64::INFINITY {
                all.push((val - rules.upper[var], place));
            }
        }
    }
    for (k, entries) in rules.rows.iter().enumerate() {
        let (slack, own) = entries.split_last().unwrap();
        let sum = own.iter().fold(0.0, |sum, (v, a)| sum + a * values[*v]);
        let size = (rules.rhs[k] - (sum + values[slack.0])).abs();
        let counted = if size.is_nan() { f64::INFINITY } else { size };
        all.push((counted, Rejected::Row(k)));
    }
    let mut worst = (0.0, None);
    for (excess, place) in all {
        if excess > worst.0 {
            worst = (excess, Some(place));
        }
    }
    match worst {
        (excess, Some(place)) if excess > tol => (Outcome::Rejected(place), excess),
        (excess, _) => (Outcome::Optimal, excess),
    }
}

fn state(rules: &Rules, now: &Now) -> State {
    let mut state = State {
        kept: rules.kept.clone(),
        basic: now.basic.clone(),
        nonbasic: now.nonbasic.clone(),
        bval: now.bval.clone(),
        nval: now.nval.clone(),
        price: now.price.clone(),
        norm: now.norm.clone(),
        dnorm: now.dual_norm.clone(),
        etaptr: vec![0],
        factor: now.factor.as_ref().map(stored_factor),
        factorings: now.factorings,
        dual_steps: now.dual_steps,
        ..State::default()
    };
    for c in 0..rules.columns {
        let bounds = u8::from(now.at_lower[c]) + 2 * u8::from(now.at_upper[c]);
        state.flags.push(bounds + 4 * u8::from(now.fixed[c]));
    }
    for eta in &now.etas {
        state.etarow.push(eta.row);
        for &(r, val) in &eta.entries {
            state.etaidx.push(r);
            state.etaval.push(val);
        }
        state.etaptr.push(state.etaidx.len());
    }
    state
}

fn stored_factor(factor: &Triangles) -> Factor {
    let parts = |columns: &[Vec<(usize, f64)>]| {
        let (mut starts, mut rows, mut vals) = (vec![0], vec![], vec![]);
        for column in columns {
            rows.extend(column.iter().map(|&(r, _)| r));
            vals.extend(column.iter().map(|&(_, val)| val));
            starts.push(rows.len());
        }
        (starts, rows, vals)
    };
    let (lptr, lidx, lval) = parts(&factor.lower);
    let (uptr, uidx, uval) = parts(&factor.upper);
    Factor {
        pivots: factor.pivots.clone(),
        lptr,
        lidx,
        lval,
        uptr,
        uidx,
        uval,
        udiag: factor.diag.clone(),
        col_order: None,
    }
}
