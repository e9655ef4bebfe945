//! Lists of calls with repricings among them. All ours.

use super::{damaged_by, fix, fix_or_unfix, poke_factor, some, unfix, List};
use super::{DIAG, U_COEFFS};
use crate::answer::Outcome;
use crate::gate::Session;
use crate::limits;
use crate::plan::{Call, Lent, Plan};
use crate::rng::Rng;
use crate::shown::Options;

/// Some of the plan's costs are others.
fn changed(rng: &mut Rng, list: &List) -> Vec<f64> {
    let mut cost = list.plan.cost.clone();
    for val in &mut cost {
        match rng.below(4) {
            0 => *val = rng.whole(9),
            1 => *val += 0.1 * rng.whole(9),
            _ => {}
        }
    }
    cost
}

fn reprice(rng: &mut Rng, list: &mut List) {
    let cost = changed(rng, list);
    list.push(Call::Reprice { cost });
}

/// New costs before, among and after the other calls.
pub(super) fn repriced(rng: &mut Rng, list: &mut List) {
    for _ in 0..rng.between(1, 5) {
        if !list.is_optimal() {
            return;
        }
        if rng.one_in(3) {
            fix_or_unfix(rng, list);
        } else {
            reprice(rng, list);
        }
    }
}

/// Right after a fix and right after an unfix, with marks that stay; and one more after an end.
pub(super) fn after_fixes(rng: &mut Rng, list: &mut List) {
    for _ in 0..rng.between(1, 3) {
        if !list.is_optimal() {
            break;
        }
        fix(rng, list);
        if list.is_optimal() && rng.one_in(3) {
            unfix(rng, list);
        }
        if list.state.is_some() {
            reprice(rng, list);
        }
    }
}

/// Costs whose signs are turned, all or some of them, and back.
pub(super) fn turned(rng: &mut Rng, list: &mut List) {
    for _ in 0..rng.between(1, 3) {
        if !list.is_optimal() {
            return;
        }
        let all = rng.one_in(2);
        let turn = |&val: &f64| if all || rng.one_in(2) { -val } else { val };
        let cost = list.plan.cost.iter().map(turn).collect();
        list.push(Call::Reprice { cost });
    }
}

/// Costs of about EPS, far under it, and zeros.
pub(super) fn tiny(rng: &mut Rng, list: &mut List) {
    for _ in 0..rng.between(1, 3) {
        if !list.is_optimal() {
            return;
        }
        let sizes = [0.0, -0.0, 5e-324, 1e-300, 9.99e-9, 1e-8, 2e-8, 1e-7];
        let mut tiny = |_: &f64| rng.pick(&sizes) * rng.pick(&[1.0, -1.0]);
        let cost = list.plan.cost.iter().map(&mut tiny).collect();
        list.push(Call::Reprice { cost });
    }
}

/// The largest costs, beside numbers in the memory that are as large as one likes: a basic value, a value
/// at a place, or the factor's, for an objective, prices and multipliers that aren't finite.
pub(super) fn huge(rng: &mut Rng, list: &mut List) {
    if !list.is_optimal() {
        return;
    }
    let state = list.state.clone().expect("a run that had a start");
    let (columns, rows) = (state.nonbasic.len(), state.kept.len());
    let number: f64 = rng.pick(&[1e290, 1e300, -1e305, 1.7e308]);
    match rng.below(4) {
        0 if rows > 0 => list.poke(Lent::Bval, rng.below(rows), number.to_bits()),
        1 => list.poke(Lent::Nval, rng.below(columns), number.to_bits()),
        2 | 3 if rows > 1 => poke_large_factor(rng, list),
        _ => {}
    }
    let mut cost = vec![];
    for _ in 0..columns {
        cost.push(limits::NUMBER * rng.pick(&[1.0, -1.0, 0.5, 1e-3]));
    }
    list.push(Call::Reprice { cost });
    reprice(rng, list);
}

/// A factor by pokes with one large number, and no eta columns: it is the one that multipliers come by.
fn poke_large_factor(rng: &mut Rng, list: &mut List) {
    poke_factor(rng, list);
    without_etas(list);
    let Some(factor) = list.session.left().and_then(|state| state.factor) else {
        return;
    };
    // With costs of 1e12 a multiplier near the largest double, or past it.
    let size = rng.pick(&[1e296, 1e296, 1e290, 1e308]) * (0.2 + 1.5 * rng.unit());
    let large = size * rng.pick(&[1.0, -1.0]);
    let (lower, upper) = (factor.lidx.len(), factor.uidx.len());
    match rng.below(2) {
        0 if upper > 0 => {
            let at = U_COEFFS + rng.below(upper);
            list.poke(Lent::FactorCoeffs, at, large.to_bits());
        }
        _ if lower > 0 => list.poke(Lent::FactorCoeffs, rng.below(lower), large.to_bits()),
        _ => {
            let at = DIAG + rng.below(factor.udiag.len());
            list.poke(Lent::FactorCoeffs, at, 1e-8f64.to_bits());
        }
    }
}

fn without_etas(list: &mut List) {
    list.poke(Lent::Counts, 1, 0);
    list.poke(Lent::Counts, 2, 0);
}

/// A factor by pokes, with the run's eta columns or with none; then repricings and other calls.
pub(super) fn with_factor(rng: &mut Rng, list: &mut List) {
    if !list.is_optimal() {
        return;
    }
    poke_factor(rng, list);
    if rng.below(3) < 2 {
        without_etas(list);
    }
    reprice(rng, list);
    some(rng, list, 3);
    reprice(rng, list);
}

/// Causes of a 41 before a repricing.
pub(super) fn damaged(rng: &mut Rng, list: &mut List) {
    damaged_by(rng, list, reprice);
}

/// The maps name another basis than the eta columns do. Where it has no factor it is 25.
pub(super) fn another_basis(rng: &mut Rng, list: &mut List) {
    let state = match (&list.state, list.is_optimal()) {
        (Some(state), true) if !state.etarow.is_empty() => state.clone(),
        _ => return,
    };
    list.swap(rng, &state);
    if rng.one_in(4) {
        list.poke(Lent::Counts, 6, u64::MAX);
    }
    reprice(rng, list);
    reprice(rng, list);
}

/// A budget that the run keeps, and a repricing doesn't.
pub(super) fn spent(rng: &mut Rng, list: &mut List) {
    let run = Session::new(&list.plan, Options::default()).solve();
    if run.outcome != Outcome::Optimal || run.steps > 2 {
        return;
    }
    let mut plan = list.plan.clone();
    plan.budget = run.steps;
    for _ in 0..4 {
        let mut tried = List::new(plan.clone());
        turned(rng, &mut tried);
        if tried.is_spent {
            reprice(rng, &mut tried);
            *list = tried;
            return;
        }
    }
}

/// A plan that isn't run, or new costs that aren't allowed or too few.
pub(super) fn refused(rng: &mut Rng, list: &mut List) {
    if list.state.is_none() {
        return reprice(rng, list);
    }
    for _ in 0..2 {
        let mut cost = changed(rng, list);
        let at = rng.below(list.columns());
        match rng.below(5) {
            0 => cost.truncate(at),
            1 => cost.push(f64::NAN),
            _ => cost[at] = rng.pick(&[f64::NAN, f64::INFINITY, -f64::INFINITY, 1e13, -1.1e12]),
        }
        list.push(Call::Reprice { cost });
    }
    reprice(rng, list);
}

/// The plans that the repricings of a list solve, as a caller would say them from the start: with the new
/// costs, and no other value for a column that is held still. None of them where a cell was written between.
pub fn solved_by(plan: &Plan) -> Vec<Plan> {
    if plan
        .calls
        .iter()
        .any(|call| matches!(call, Call::Poke { .. }))
    {
        return vec![];
    }
    let mut session = Session::new(plan, Options::default());
    session.solve();
    let mut solved = vec![];
    for (k, call) in plan.calls.iter().enumerate() {
        if let (Call::Reprice { cost }, Some(state)) = (call, session.left()) {
            let mut one = Plan {
                id: format!("{}/{}", plan.id, k + 1),
                cost: cost.clone(),
                any: true,
                calls: vec![],
                ..plan.clone()
            };
            for (place, &var) in state.nonbasic.iter().enumerate() {
                if state.flags[place] == 7 && var < one.lower.len() {
                    one.lower[var] = state.nval[place];
                    one.upper[var] = state.nval[place];
                }
            }
            solved.push(one);
        }
        session.call(call);
    }
    solved
}

/// Calls after a solve from any start.
pub(super) fn after_any(rng: &mut Rng, list: &mut List) {
    if list.state.is_none() {
        return;
    }
    if !list.is_optimal() {
        return reprice(rng, list);
    }
    repriced(rng, list);
}
