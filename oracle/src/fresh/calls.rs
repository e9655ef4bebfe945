//! The calls of 02's Ask 9, our repricing and our solve from any start, for the second solver; and the
//! lent cells between them, each by its name in a poke.

use std::collections::HashMap;

use super::{
    column, factored, finite, laid_out, left, run, solve_column, solve_from_start, stood,
    transposed, Eta, Now, Rules, Triangles, EPS,
};
use crate::answer::{Answer, Factor, Named, Outcome, State, Way};
use crate::plan::{Call, Plan};

/// Where the factor's parts stand in its two arrays.
const NUMBER: usize = 96;
const LPTR: usize = 192;
const LIDX: usize = 289;
const UPTR: usize = 4849;
const UIDX: usize = 4946;
const UVAL: usize = 4560;
const UDIAG: usize = 18240;

/// The answers of a plan's run and of the calls after it.
pub fn answers(plan: &Plan) -> Vec<Answer> {
    let mut plan = plan.clone();
    let mut cells = Cells::default();
    cells.set("counts", 4, 99);
    let mut answers = vec![match plan.any {
        true => solve_any(&plan, &mut cells),
        false => solve_from_start(&plan),
    }];
    cells.keep(&answers[0]);
    for call in plan.calls.clone() {
        match call {
            Call::Poke { lent, index, bits } => {
                cells.set(lent.poke_name(), index, bits);
                continue;
            }
            Call::Reprice { ref cost } => plan.cost.clone_from(cost),
            _ => {}
        }
        let answer = called(&plan, &cells, &call).unwrap_or_else(Answer::refusal);
        cells.keep(&answer);
        answers.push(answer);
    }
    answers
}

/// A solve; on 7 one with costs 0, and after its 0 a repricing with the plan's costs.
pub(super) fn solve_any(plan: &Plan, cells: &mut Cells) -> Answer {
    let mut answer = solve_from_start(plan);
    let mut way = (Way::Direct, 0);
    if answer.outcome == Outcome::SlackOutside {
        let mut costless = plan.clone();
        costless.cost.fill(0.0);
        answer = solve_from_start(&costless);
        cells.keep(&answer);
        way = (Way::Halted, answer.steps);
        if answer.outcome == Outcome::Optimal {
            let call = Call::Reprice {
                cost: plan.cost.clone(),
            };
            let written = answer.values;
            answer = called(plan, cells, &call).unwrap_or_else(Answer::refusal);
            if answer.outcome != Outcome::Optimal {
                answer.values = written;
            }
            way.0 = Way::Repriced;
        }
    }
    answer.way = Some(way);
    answer
}

/// A call's answer, or its refusal: "1 to 5 as solve gives them", then 41 to 44.
fn called(plan: &Plan, cells: &Cells, call: &Call) -> Result<Answer, Outcome> {
    let (rules, ..) = laid_out(plan)?;
    if cells.breaks_a_limit(&rules) {
        return Err(Outcome::NoRun);
    }
    let now = cells.now(&rules);
    match *call {
        Call::Fix { column, value } => {
            let var = known(&rules, column)?;
            let within = value >= rules.lower[var] && value <= rules.upper[var];
            if !within || value.is_infinite() {
                return Err(Outcome::BadValue);
            }
            Ok(match fixed(&rules, &now, plan.budget, var, value) {
                Ok(next) => run(&rules, next, plan, true),
                Err(stopped) => stood(&rules, &now, stopped),
            })
        }
        Call::Unfix { column } => {
            let var = known(&rules, column)?;
            let place = now.nonbasic.iter().position(|&v| v == var);
            let place = place.filter(|&c| now.fixed[c]).ok_or(Outcome::NotFixed)?;
            let mut next = now;
            next.fixed[place] = false;
            next.at_lower[place] = next.nval[place] == rules.lower[var];
            next.at_upper[place] = next.nval[place] == rules.upper[var];
            Ok(run(&rules, next, plan, false))
        }
        _ => Ok(match repriced(&rules, &now, &plan.cost) {
            Ok(next) => run(&rules, next, plan, false),
            Err(stopped) => stood(&rules, &now, stopped),
        }),
    }
}

/// 42.
fn known(rules: &Rules, column: u64) -> Result<usize, Outcome> {
    if column < rules.columns as u64 {
        Ok(column as usize)
    } else {
        Err(Outcome::UnknownColumn)
    }
}

/// A fix's own part: the column at its value, with the mark.
fn fixed(rules: &Rules, now: &Now, budget: u64, var: usize, value: f64) -> Result<Now, Outcome> {
    let mut next = match now.basic.iter().position(|&v| v == var) {
        Some(row) => left(rules, now, budget, row, value)?,
        None => moved(rules, now, var, value)?,
    };
    let place = next.nonbasic.iter().position(|&v| v == var).unwrap();
    next.at_lower[place] = true;
    next.at_upper[place] = true;
    next.fixed[place] = true;
    Ok(next)
}

fn moved(rules: &Rules, now: &Now, var: usize, value: f64) -> Result<Now, Outcome> {
    let place = now.nonbasic.iter().position(|&v| v == var).unwrap();
    let col = solve_column(now, column(rules, var));
    for &(_, a) in &col.0 {
        finite(Named::Column, a, false)?;
    }
    let mut next = now.clone();
    let diff = value - now.nval[place];
    next.objective += diff * now.price[place];
    finite(Named::Objective, next.objective, false)?;
    for &(r, a) in &col.0 {
        next.bval[r] -= diff * a;
        finite(Named::Basic, next.bval[r], false)?;
    }
    next.nval[place] = value;
    Ok(next)
}

fn repriced(rules: &Rules, now: &Now, costs: &[f64]) -> Result<Now, Outcome> {
    let mut next = now.clone();
    if !now.etas.is_empty() {
        next.factor = Some(factored(rules, &now.basic)?);
        next.factorings = next.factorings.wrapping_add(1);
        next.etas.clear();
    }
    let cost = |var: usize| if var < rules.columns { costs[var] } else { 0.0 };

    let mut mults: Vec<f64> = now.basic.iter().map(|&var| cost(var)).collect();
    if let Some(factor) = &next.factor {
        let size = mults.len();
        let (lower, upper) = (transposed(&factor.lower), transposed(&factor.upper));
        for j in 0..size {
            mults[j] /= factor.diag[j];
            for &(i, a) in &upper[j] {
                mults[i] -= mults[j] * a;
            }
        }
        for j in (0..size).rev() {
            for &(i, a) in &lower[j] {
                mults[i] -= mults[j] * a;
            }
        }
        let by_number = mults.clone();
        for (number, &row) in factor.pivots.iter().enumerate() {
            mults[row] = by_number[number];
        }
    }
    for &mult in &mults {
        finite(Named::Multiplier, mult, false)?;
    }

    next.objective = 0.0;
    for (&var, &val) in now.basic.iter().zip(&now.bval) {
        next.objective += cost(var) * val;
    }
    for (&var, &val) in now.nonbasic.iter().zip(&now.nval) {
        next.objective += cost(var) * val;
    }
    finite(Named::Objective, next.objective, false)?;
    for (place, &var) in now.nonbasic.iter().enumerate() {
        let mut sum = 0.0;
        for &(r, a) in &column(rules, var).0 {
            sum += a * mults[r];
        }
        next.price[place] = cost(var) - sum;
        finite(Named::Price, next.price[place], false)?;
    }
    Ok(next)
}

/// Lent cells by a poke's name and index, doubles by their bits. One that nobody wrote holds 0.
#[derive(Default)]
pub(super) struct Cells(HashMap<(&'static str, usize), u64>);

impl Cells {
    fn set(&mut self, name: &'static str, index: usize, bits: u64) {
        self.0.insert((name, index), bits);
    }

    fn set_all(&mut self, name: &'static str, first: usize, from: &[usize]) {
        for (i, &number) in from.iter().enumerate() {
            self.set(name, first + i, number as u64);
        }
    }

    fn set_doubles(&mut self, name: &'static str, first: usize, from: &[f64]) {
        for (i, number) in from.iter().enumerate() {
            self.set(name, first + i, number.to_bits());
        }
    }

    fn at(&self, name: &'static str, index: usize) -> u64 {
        self.0.get(&(name, index)).copied().unwrap_or(0)
    }

    fn some(&self, name: &'static str, first: usize, count: usize) -> Vec<u64> {
        (first..first + count).map(|i| self.at(name, i)).collect()
    }

    /// Cells whose numbers have passed 41.
    fn places(&self, name: &'static str, first: usize, count: usize) -> Vec<usize> {
        let cells = self.some(name, first, count).into_iter();
        cells.map(|cell| cell as usize).collect()
    }

    fn doubles(&self, name: &'static str, first: usize, count: usize) -> Vec<f64> {
        let cells = self.some(name, first, count).into_iter();
        cells.map(f64::from_bits).collect()
    }

    /// On 0 and 20 to 26 the state, with the call's status and steps.
    fn keep(&mut self, answer: &Answer) {
        let Some(state) = &answer.state else { return };
        self.set_all("kept", 0, &state.kept);
        self.set_all("basic", 0, &state.basic);
        self.set_all("nonbasic", 0, &state.nonbasic);
        let columns = state.nonbasic.len();
        for (place, &var) in state.nonbasic.iter().chain(&state.basic).enumerate() {
            self.set("states", var, place as u64);
        }
        for place in 0..columns {
            self.set("flags", place, state.flags[place].into());
        }
        self.set_all("etarow", 0, &state.etarow);
        self.set_all("etaptr", 0, &state.etaptr);
        self.set_all("etaidx", 0, &state.etaidx);
        for (name, numbers) in [
            ("bval", &state.bval),
            ("nval", &state.nval),
            ("price", &state.price),
            ("norm", &state.norm),
            ("dnorm", &state.dnorm),
            ("etaval", &state.etaval),
            ("objective", &vec![answer.objective]),
        ] {
            self.set_doubles(name, 0, numbers);
        }
        if let Some(factor) = &state.factor {
            self.keep_factor(factor);
        }
        self.keep_counts(state, answer);
    }

    fn keep_counts(&mut self, state: &State, answer: &Answer) {
        let counts = [
            state.kept.len(),
            state.etarow.len(),
            state.etaidx.len(),
            answer.steps as usize,
            answer.outcome.number().into(),
            state.factor.is_some().into(),
            state.factorings,
        ];
        self.set_all("counts", 0, &counts);
    }

    fn keep_factor(&mut self, factor: &Factor) {
        self.set_all("fnum", 0, &factor.pivots);
        for (number, &row) in factor.pivots.iter().enumerate() {
            self.set("fnum", NUMBER + row, number as u64);
        }
        self.set_all("fnum", LPTR, &factor.lptr);
        self.set_all("fnum", LIDX, &factor.lidx);
        self.set_all("fnum", UPTR, &factor.uptr);
        self.set_all("fnum", UIDX, &factor.uidx);
        self.set_doubles("fval", 0, &factor.lval);
        self.set_doubles("fval", UVAL, &factor.uval);
        self.set_doubles("fval", UDIAG, &factor.udiag);
    }

    /// 41, "exactly when one of these holds".
    fn breaks_a_limit(&self, rules: &Rules) -> bool {
        let (columns, rows) = (rules.columns, rules.rows.len());
        if self.at("counts", 4) != 0 || self.at("counts", 0) != rows as u64 {
            return true;
        }
        let kept = self.some("kept", 0, rows).into_iter();
        if kept.zip(&rules.kept).any(|(cell, &row)| cell != row as u64) {
            return true;
        }
        self.maps_break(columns, rows)
            || self.store_breaks(rows)
            || self.at("counts", 5) > 1
            || self.at("counts", 5) == 1 && self.factor_breaks(rows)
            || self.not_finite("bval", 0, rows)
            || self.not_finite("dnorm", 0, rows)
            || self.not_finite("nval", 0, columns)
            || self.not_finite("price", 0, columns)
            || self.not_finite("norm", 0, columns)
            || self.not_finite("objective", 0, 1)
    }

    fn not_finite(&self, name: &'static str, first: usize, count: usize) -> bool {
        let numbers = self.doubles(name, first, count);
        numbers.iter().any(|number| !number.is_finite())
    }

    fn maps_break(&self, columns: usize, rows: usize) -> bool {
        let total = columns + rows;
        for place in 0..total {
            let var = if place < columns {
                self.at("nonbasic", place)
            } else {
                self.at("basic", place - columns)
            };
            // Every variable has its place: as many of them as places, and each led back to.
            if var >= total as u64
                || self.at("states", place) >= total as u64
                || self.at("states", var as usize) != place as u64
            {
                return true;
            }
        }
        let flags = self.some("flags", 0, columns);
        flags.iter().any(|cell| ![0, 1, 2, 3, 7].contains(cell))
    }

    fn store_breaks(&self, rows: usize) -> bool {
        let (etas, entries) = (self.at("counts", 1), self.at("counts", 2));
        if etas > 256 || entries > 4096 {
            return true;
        }
        let (etas, last) = (etas as usize, entries as usize);
        let starts = self.some("etaptr", 0, etas + 1);
        let beyond = |cells: Vec<u64>| cells.iter().any(|&row| row >= rows as u64);
        starts[0] != 0
            || !starts.is_sorted()
            || starts[etas] != entries
            || beyond(self.some("etarow", 0, etas))
            || beyond(self.some("etaidx", 0, last))
            || self.not_finite("etaval", 0, last)
    }

    fn factor_breaks(&self, rows: usize) -> bool {
        for number in 0..rows {
            let row = self.at("fnum", number);
            if row >= rows as u64 || self.at("fnum", NUMBER + row as usize) != number as u64 {
                return true;
            }
            let diag = f64::from_bits(self.at("fval", UDIAG + number));
            if !diag.is_finite() || diag.abs() < EPS {
                return true;
            }
        }
        let below = |column: u64, row: u64| row > column && row < rows as u64;
        let above = |column: u64, row: u64| row < column;
        self.triangle_breaks(rows, LPTR, LIDX, &below)
            || { self.triangle_breaks(rows, UPTR, UIDX, &above) }
            || self.not_finite("fval", 0, self.at("fnum", LPTR + rows) as usize)
            || self.not_finite("fval", UVAL, self.at("fnum", UPTR + rows) as usize)
    }

    fn triangle_breaks(
        &self,
        rows: usize,
        ptr: usize,
        idx: usize,
        may_be: &dyn Fn(u64, u64) -> bool,
    ) -> bool {
        let starts = self.some("fnum", ptr, rows + 1);
        if starts[0] != 0 || !starts.is_sorted() || starts[rows] > 4560 {
            return true;
        }
        for column in 0..rows {
            for at in starts[column]..starts[column + 1] {
                if !may_be(column as u64, self.at("fnum", idx + at as usize)) {
                    return true;
                }
            }
        }
        false
    }

    /// What the cells say, once they have passed 41. "Steps are counted from 0 in each call".
    fn now(&self, rules: &Rules) -> Now {
        let (columns, kept) = (rules.columns, rules.rows.len());
        let flags = self.some("flags", 0, columns);
        let has = |mark: u64| flags.iter().map(|cell| cell & mark != 0).collect();
        let etas = self.at("counts", 1) as usize;
        let starts = self.places("etaptr", 0, etas + 1);
        let eta = |i: usize| Eta {
            row: self.at("etarow", i) as usize,
            entries: self.entries(("etaidx", 0), ("etaval", 0), starts[i], starts[i + 1]),
        };
        Now {
            basic: self.places("basic", 0, kept),
            nonbasic: self.places("nonbasic", 0, columns),
            bval: self.doubles("bval", 0, kept),
            nval: self.doubles("nval", 0, columns),
            price: self.doubles("price", 0, columns),
            norm: self.doubles("norm", 0, columns),
            dual_norm: self.doubles("dnorm", 0, kept),
            at_lower: has(1),
            at_upper: has(2),
            fixed: has(4),
            etas: (0..etas).map(eta).collect(),
            factor: (self.at("counts", 5) == 1).then(|| self.triangles(kept)),
            factorings: self.at("counts", 6) as usize,
            objective: f64::from_bits(self.at("objective", 0)),
            steps: 0,
            dual_steps: 0,
        }
    }

    /// The rows and numbers from one start to the next.
    fn entries(
        &self,
        rows: (&'static str, usize),
        vals: (&'static str, usize),
        start: usize,
        end: usize,
    ) -> Vec<(usize, f64)> {
        let rows = self.places(rows.0, rows.1 + start, end - start);
        let vals = self.doubles(vals.0, vals.1 + start, end - start);
        rows.into_iter().zip(vals).collect()
    }

    fn triangles(&self, size: usize) -> Triangles {
        let columns = |ptr: usize, idx: usize, val: usize| {
            let starts = self.places("fnum", ptr, size + 1);
            let column =
                |j: usize| self.entries(("fnum", idx), ("fval", val), starts[j], starts[j + 1]);
            (0..size).map(column).collect()
        };
        Triangles {
            pivots: self.places("fnum", 0, size),
            lower: columns(LPTR, LIDX, 0),
            upper: columns(UPTR, UIDX, UVAL),
            diag: self.doubles("fval", UDIAG, size),
        }
    }
}
