//! The oracle gives 01's night cases, the fixed lists, and what the second solver gives.

use std::io::Cursor;

use oracle::answer::{Answer, Outcome, State, Way};
use oracle::call_families;
use oracle::exchange::{
    answer_line, answer_lines, factors_answer_line, tri_answer_line, Extras, Item, Reader,
};
use oracle::families;
use oracle::fresh;
use oracle::gate;
use oracle::lu_families;
use oracle::night;
use oracle::plan::{Call, Plan};
use oracle::shown::{Correction, Options};
use oracle::tri::{self, Factors, Tri};

const STATE: Extras = Extras {
    state: true,
    why: false,
};
const ALL: Extras = Extras {
    state: true,
    why: true,
};

fn items(text: &str) -> Vec<Item> {
    let reader = Reader::new(Cursor::new(text));
    reader.map(|item| item.expect("well-formed text")).collect()
}

fn plans(text: &str) -> Vec<Plan> {
    let plan = |item| match item {
        Item::Plan(plan) => plan,
        Item::Tri(tri) => panic!("{} is a triangle", tri.id),
        Item::Factors(both) => panic!("{} is two triangles", both.id),
    };
    items(text).into_iter().map(plan).collect()
}

fn line(plan: &Plan, options: Options) -> String {
    answer_line(&plan.id, &gate::solve(plan, options), ALL)
}

/// Every answer line of a text, compared with a kept list.
fn assert_answers(text: &str, answers: &str) {
    let lines = items(text).into_iter().flat_map(|item| match item {
        Item::Plan(plan) => {
            let all = gate::answers(&plan, Options::default());
            answer_lines(&plan.id, &all, STATE)
        }
        Item::Tri(tri) => vec![tri_answer_line(&tri.id, &tri::solve(&tri))],
        Item::Factors(both) => vec![factors_answer_line(&both.id, &tri::solve_dense(&both))],
    });
    let lines: Vec<String> = lines.collect();
    assert_eq!(lines.len(), answers.lines().count());
    for (line, expected) in lines.iter().zip(answers.lines()) {
        assert_eq!(line, expected);
    }
}

#[test]
fn night_cases_in_the_words_of_01() {
    for (plan, case) in night::cases() {
        let answer = gate::solve(&plan, Options::default());
        let name = case.name;
        assert_eq!(answer.outcome.number(), case.number, "{}", name);
        assert_eq!(answer.objective, case.objective, "{}", name);
        assert_eq!(answer.steps, case.steps, "{}", name);
        assert_eq!(answer.values, case.values, "{}", name);
        let rows = answer.state.map_or(vec![], |state| state.etarow);
        assert_eq!(rows, case.leaving, "{}", name);
    }
}

#[test]
fn night_cases_as_kept() {
    assert_answers(
        include_str!("../night.txt"),
        include_str!("../night.answers"),
    );
}

#[test]
fn fixed_plans_as_kept() {
    assert_answers(
        include_str!("../fixed.txt"),
        include_str!("../fixed.answers"),
    );
}

#[test]
fn fixed_triangles_as_kept() {
    assert_answers(
        include_str!("../fixed-tri.txt"),
        include_str!("../fixed-tri.answers"),
    );
}

#[test]
fn fixed_pairs_as_kept() {
    assert_answers(
        include_str!("../fixed-lu.txt"),
        include_str!("../fixed-lu.answers"),
    );
}

#[test]
fn fixed_calls_as_kept() {
    assert_answers(
        include_str!("../fixed-calls.txt"),
        include_str!("../fixed-calls.answers"),
    );
}

/// The solver written from 01 and 02 alone gives the same answers, places, values and states. Of the
/// family "cycle", whose runs are long, every 45th plan is tried.
#[test]
fn the_second_solver_agrees() {
    let mut compared = 0;
    let mut seen = 0;
    families::make(2, &|_| true, &mut |plan| {
        seen += 1;
        if plan.id.starts_with("cycle.") && seen % 45 != 0 {
            return;
        }
        let ours: Answer = gate::solve(&plan, Options::default());
        let fresh = fresh::solve(&plan);
        assert_eq!(
            answer_line(&plan.id, &ours, ALL),
            answer_line(&plan.id, &fresh, ALL)
        );
        assert_eq!(ours.outcome, fresh.outcome);
        assert_eq!(families::factorings(&ours), families::factorings(&fresh));
        let dual = |answer: &Answer| {
            let state = answer.state.as_ref();
            state.map(|state| (state.dual_steps, state.in_dual))
        };
        assert_eq!(dual(&ours), dual(&fresh), "{}", plan.id);
        compared += 1;
    });
    assert!(compared > 120_000);
}

/// So it does for every call after a run, over cells that were written between calls too.
#[test]
fn the_second_solver_agrees_on_calls() {
    let mut compared = 0;
    call_families::make(2, &mut |plan| {
        let ours = gate::answers(&plan, Options::default());
        let fresh = fresh::answers(&plan);
        assert_eq!(
            answer_lines(&plan.id, &ours, ALL),
            answer_lines(&plan.id, &fresh, ALL)
        );
        compared += ours.len();
    });
    assert!(compared > 40_000);
}

/// Each kept plan shows its correction, and only that one's switch changes it as kept.
#[test]
fn differences_as_kept() {
    let plans = plans(include_str!("../differences.txt"));
    let mut answers = include_str!("../differences.answers").lines();
    for plan in &plans {
        let name = plan.id.split('.').next().unwrap_or_default();
        let correction = Correction::ALL.into_iter().find(|c| c.name() == name);
        let shown = Options::showing(correction.expect("a plan named for its correction"));
        let lines = |options| answer_lines(&plan.id, &gate::answers(plan, options), ALL);
        let (ours, theirs) = (lines(Options::default()), lines(shown));
        assert_ne!(ours, theirs);
        for line in ours.into_iter().chain(theirs) {
            assert_eq!(Some(line.as_str()), answers.next());
        }
    }
    assert_eq!(answers.next(), None);
}

/// recalc_obj_coeffs from 0.0 changes no bit, and no plan reads a stale helper place.
#[test]
fn corrections_that_no_plan_shows() {
    let wanted = |family: &str| ["plain", "ties", "huge", "wild", "long", "dual"].contains(&family);
    families::make(3, &wanted, &mut |plan| {
        let ours = line(&plan, Options::default());
        for correction in [Correction::Recalc, Correction::StaleHelper] {
            assert_eq!(ours, line(&plan, Options::showing(correction)));
        }
    });
}

/// The shown factor of the first basis solves as the identity does: with the switch on, the first
/// answers to differ come after a reset.
#[test]
fn plans_without_a_reset_are_the_same_as_shown() {
    let mut same = 0;
    families::make(4, &|family| family == "plain", &mut |plan| {
        let answer = gate::solve(&plan, Options::default());
        let etas = answer.state.as_ref().map_or(0, |state| state.etarow.len());
        if etas <= 1 {
            let ours = answer_line(&plan.id, &answer, ALL);
            let shown = line(&plan, Options::showing(Correction::Reset));
            assert_eq!(ours, shown);
            same += 1;
        }
    });
    assert!(same > 1_000);
}

/// Makes the plans whose runs fill the eta store: once, twice and ten times, ends in 25 among them.
fn refactoring(seed: u64, take: &mut dyn FnMut(Plan, Answer, State)) {
    let wanted = |family: &str| ["entries", "refactor"].contains(&family);
    families::make(seed, &wanted, &mut |plan| {
        let answer = gate::solve(&plan, Options::default());
        if families::factorings(&answer) > 0 {
            let state = answer.state.clone().expect("a run has a state");
            take(plan, answer, state);
        }
    });
}

/// Where the shown factorisation, by its own order and pivots, ends Optimal too, the objective is the
/// same to 1e-9 of its size.
#[test]
fn objectives_are_those_of_the_shown_factor() {
    let mut both = 0;
    refactoring(8, &mut |plan, answer, _| {
        let shown = gate::solve(&plan, Options::showing(Correction::Reset));
        if (answer.outcome, shown.outcome) == (Outcome::Optimal, Outcome::Optimal) {
            let apart = (answer.objective - shown.objective).abs();
            assert!(
                apart <= 1e-9 * answer.objective.abs().max(1.0),
                "{}",
                plan.id
            );
            both += 1;
        }
    });
    assert!(both >= 200, "{}", both);
}

/// Rows of L's column i are above i and its numbers at most 1 in size, rows of U's column i are below i
/// and its numbers aren't 0.0, a diagonal's size is at least EPS, the pivot rows are a permutation.
#[test]
fn a_factor_keeps_its_shape() {
    let mut seen = 0;
    refactoring(9, &mut |plan, _, state| {
        let Some(factor) = state.factor else { return };
        let size = state.kept.len();
        let mut pivots = factor.pivots.clone();
        pivots.sort_unstable();
        assert_eq!(pivots, (0..size).collect::<Vec<_>>(), "{}", plan.id);
        assert!(factor.udiag.len() == size && factor.udiag.iter().all(|val| val.abs() >= 1e-8));
        for col in 0..size {
            let lower = factor.lptr[col]..factor.lptr[col + 1];
            assert!(factor.lidx[lower.clone()].iter().all(|&row| row > col));
            assert!(factor.lval[lower].iter().all(|val| val.abs() <= 1.0));
            let upper = factor.uptr[col]..factor.uptr[col + 1];
            assert!(factor.uidx[upper.clone()].iter().all(|&row| row < col));
            assert!(factor.uval[upper].iter().all(|&val| val != 0.0));
        }
        seen += 1;
    });
    assert!(seen >= 250, "{}", seen);
}

/// "On 23 and 25 the state is the one before the step": it is what a budget of the steps taken leaves.
#[test]
fn a_25_leaves_the_state_before_the_step() {
    let mut seen = 0;
    refactoring(10, &mut |plan, answer, state| {
        if answer.outcome != Outcome::Singular {
            return;
        }
        let spent = gate::solve(
            &Plan {
                budget: answer.steps,
                ..plan.clone()
            },
            Options::default(),
        );
        assert_eq!(spent.outcome, Outcome::Spent, "{}", plan.id);
        assert_eq!(spent.objective.to_bits(), answer.objective.to_bits());
        assert_eq!(spent.state, Some(state), "{}", plan.id);
        seen += 1;
    });
    assert!(seen >= 100, "{}", seen);
}

/// Makes the plans of the family "dual" whose runs have a state.
fn dual_runs(seed: u64, take: &mut dyn FnMut(Plan, Answer, State)) {
    families::make(seed, &|family| family == "dual", &mut |plan| {
        let answer = gate::solve(&plan, Options::default());
        if let Some(state) = answer.state.clone() {
            take(plan, answer, state);
        }
    });
}

/// 26 leaves the state of the last whole step: it is what a budget of the steps taken leaves, and its
/// row is outside its bounds by more than EPS there.
#[test]
fn a_26_leaves_the_state_before_the_step() {
    let mut seen = 0;
    dual_runs(11, &mut |plan, answer, state| {
        let Outcome::Infeasible { row } = answer.outcome else {
            return;
        };
        let spent = gate::solve(
            &Plan {
                budget: answer.steps,
                ..plan.clone()
            },
            Options::default(),
        );
        assert_eq!(spent.outcome, Outcome::Spent, "{}", plan.id);
        assert_eq!(spent.objective.to_bits(), answer.objective.to_bits());
        let (lower, upper) = bounds(&plan, &state, state.basic[row]);
        let val = state.bval[row];
        assert!(val < lower - 1e-8 || val > upper + 1e-8, "{}", plan.id);
        assert_eq!(spent.state, Some(state), "{}", plan.id);
        seen += 1;
    });
    assert!(seen >= 1_000, "{}", seen);
}

/// Bounds of a column or of a kept row's slack.
fn bounds(plan: &Plan, state: &State, var: usize) -> (f64, f64) {
    let columns = plan.columns as usize;
    if var < columns {
        return (plan.lower[var], plan.upper[var]);
    }
    match plan.ops[state.kept[var - columns]] {
        0 => (0.0, f64::INFINITY),
        1 => (0.0, 0.0),
        _ => (f64::NEG_INFINITY, 0.0),
    }
}

/// 02: 7 "exactly when a slack is outside and the start isn't dual feasible". Where it isn't outside by
/// more than EPS no dual step is taken.
#[test]
fn a_start_that_is_outside_is_refused_or_has_dual_steps() {
    let x_at_least = |rhs: f64, cost: f64| {
        small_plan(|plan| {
            plan.cost[0] = cost;
            plan.ops[0] = 2;
            plan.rhs[0] = rhs;
        })
    };
    assert_eq!(number_of(&x_at_least(1.0, 1.0)), 0);
    assert_eq!(number_of(&x_at_least(1.0, 0.0)), 0);
    assert_eq!(number_of(&x_at_least(1.0, -1.0)), 7);
    assert_eq!(number_of(&x_at_least(5e-324, -1.0)), 7);
    assert_eq!(number_of(&x_at_least(0.0, -1.0)), 20);
    for (rhs, steps) in [(5e-324, 0), (1e-8, 0), (1.0000001e-8, 1), (1.0, 1)] {
        let answer = gate::solve(&x_at_least(rhs, 1.0), Options::default());
        assert_eq!(answer.steps, steps, "{}", rhs);
        // small_plan's tolerance is 0.0.
        let number = if steps == 0 { 24 } else { 0 };
        assert_eq!(answer.outcome.number(), number, "{}", rhs);
    }
}

/// Where the shown dual steps, with their own factorisation and no primal steps after them, end Optimal
/// too, the objective is the same to 1e-9 of its size; and where they find no entering column, so do
/// ours.
#[test]
fn dual_steps_agree_with_the_shown_text() {
    let mut both = [0; 2];
    let mut shown = Options::showing(Correction::Reset);
    assert!(shown.show("after-dual"));
    dual_runs(12, &mut |plan, answer, state| {
        let theirs = gate::solve(&plan, shown);
        // Prices of about EPS: what the primal steps after them gain is small, or they end in 20.
        if families::of_both_kinds(&answer) || state.dual_steps == 0 {
            return;
        }
        match (answer.outcome, theirs.outcome) {
            (Outcome::Optimal, Outcome::Optimal) => {
                let apart = (answer.objective - theirs.objective).abs();
                let size = answer.objective.abs().max(1.0);
                assert!(apart <= 1e-9 * size, "{}", plan.id);
                both[0] += 1;
            }
            (Outcome::Infeasible { .. }, Outcome::Infeasible { .. }) => both[1] += 1,
            (Outcome::Optimal, Outcome::Infeasible { .. })
            | (Outcome::Infeasible { .. }, Outcome::Optimal) => panic!("{}", plan.id),
            _ => {}
        }
    });
    assert!(both[0] > 2_000 && both[1] > 500, "{:?}", both);
}

/// One column x from 0.0 up with cost 1.0 and one row x <= 1.0, changed.
fn small_plan(change: impl Fn(&mut Plan)) -> Plan {
    let mut plan = Plan {
        columns: 1,
        rows: 1,
        entries: 1,
        budget: 10,
        cost: vec![1.0],
        lower: vec![0.0],
        upper: vec![f64::INFINITY],
        starts: vec![0, 1],
        cols: vec![0],
        coef: vec![1.0],
        ops: vec![0],
        rhs: vec![1.0],
        ..Plan::default()
    };
    change(&mut plan);
    plan
}

fn number_of(plan: &Plan) -> u8 {
    let number = gate::solve(plan, Options::default()).outcome.number();
    assert_eq!(fresh::solve(plan).outcome.number(), number);
    number
}

/// 02: "Refuse under 2, before solving, every finite cost, coefficient, right side or bound whose size
/// is above 1e12. Infinite bounds stay allowed. 1e12 itself is accepted."
#[test]
fn numbers_up_to_1e12() {
    let next = |x: f64| f64::from_bits(x.to_bits() + 1);
    let before = |x: f64| f64::from_bits(x.to_bits() - 1);
    let (inf, nan) = (f64::INFINITY, f64::NAN);
    let places: [fn(&mut Plan, f64); 5] = [
        |plan, x| plan.cost[0] = x,
        |plan, x| plan.lower[0] = x,
        |plan, x| plan.upper[0] = x,
        |plan, x| plan.coef[0] = x,
        |plan, x| plan.rhs[0] = x,
    ];
    for (place, put) in places.iter().enumerate() {
        let with = |x| small_plan(|plan| put(plan, x));
        for sign in [1.0, -1.0] {
            for size in [5e-324, before(1e12), 1e12] {
                assert_ne!(
                    number_of(&with(sign * size)),
                    2,
                    "{} {}",
                    place,
                    sign * size
                );
            }
            for size in [next(1e12), 2e12, 1e200, f64::MAX] {
                let plan = with(sign * size);
                assert_eq!(number_of(&plan), 2, "{} {}", place, sign * size);
                // Only this correction refuses it.
                let shown = gate::solve(&plan, Options::showing(Correction::Wild));
                assert_ne!(shown.outcome.number(), 2, "{} {}", place, sign * size);
            }
            // A lower bound may be -inf and an upper one +inf.
            let allowed = (place, sign) == (1, -1.0) || (place, sign) == (2, 1.0);
            assert_eq!(number_of(&with(sign * inf)) != 2, allowed, "{}", place);
        }
        assert_eq!(number_of(&with(nan)), 2, "{}", place);
    }
}

/// 2 comes after 1 and before 3, 4 and 5; what stands past the needed length is no part of the plan.
#[test]
fn a_wild_number_among_other_reasons() {
    let wild = |change: &dyn Fn(&mut Plan)| {
        number_of(&small_plan(|plan| {
            plan.cost[0] = 1e200;
            change(plan);
        }))
    };
    assert_eq!(wild(&|plan| plan.budget = 10_001), 1);
    assert_eq!(wild(&|plan| plan.cols[0] = 1), 2);
    assert_eq!(wild(&|plan| plan.upper[0] = -1.0), 2);
    assert_eq!(wild(&|plan| plan.rhs[0] = -1.0), 2);
    let past = small_plan(|plan| {
        plan.cost.push(1e200);
        plan.lower.push(1e200);
        plan.coef.push(f64::NAN);
    });
    assert_eq!(number_of(&past), 0);
}

/// 02: "Update the cases where 6 was reached by overflow": these are refused under 2.
#[test]
fn six_is_two() {
    let slack = small_plan(|plan| {
        plan.lower[0] = 1e300;
        plan.coef[0] = 1e300;
    });
    let objective = small_plan(|plan| {
        plan.cost[0] = 1e200;
        plan.lower[0] = 1e200;
        plan.ops[0] = 2;
    });
    let norm = small_plan(|plan| plan.coef[0] = 1e200);
    for plan in [slack, objective, norm] {
        let shown = gate::solve(&plan, Options::showing(Correction::Wild));
        assert_eq!(shown.outcome.number(), 6);
        assert_eq!(number_of(&plan), 2);
    }
    // The largest that is let through: sums of products of 1e12 are far from the largest double.
    let largest = small_plan(|plan| {
        plan.cost[0] = 1e12;
        plan.lower[0] = 1e12;
        plan.coef[0] = 1e12;
        plan.ops[0] = 2;
        plan.rhs[0] = 0.0;
    });
    let answer = gate::solve(&largest, Options::default());
    assert_eq!((answer.outcome.number(), answer.objective), (0, 1e24));
}

/// A refusal has objective 0.0, 0 steps, no values and no state, whatever it is.
#[test]
fn refusals_carry_nothing() {
    families::make(5, &|family| family == "damaged", &mut |plan| {
        let answer = gate::solve(&plan, Options::default());
        if answer.outcome.number() < 20 && answer.outcome != Outcome::Optimal {
            assert_eq!(answer.objective.to_bits(), 0);
            assert_eq!(answer.excess.to_bits(), 0);
            assert_eq!(answer.steps, 0);
            assert!(answer.values.is_empty() && answer.state.is_none());
        }
    });
}

/// "After k steps the store has at most k columns and k times the row count of entries", and the
/// step count is at most the budget.
#[test]
fn the_store_keeps_pace_with_the_steps() {
    let wanted = |family: &str| ["plain", "spent", "big"].contains(&family);
    families::make(6, &wanted, &mut |plan| {
        let answer = gate::solve(&plan, Options::default());
        if let Some(state) = answer.state {
            let (columns, entries) = (state.etarow.len() as u64, state.etaidx.len() as u64);
            assert!(answer.steps <= plan.budget);
            assert!(columns <= answer.steps && entries <= answer.steps * plan.rows);
            assert_eq!(state.etaptr.len() as u64, columns + 1);
        }
    });
}

#[test]
fn texts_come_back_as_they_were() {
    let wanted = |family: &str| ["number", "short", "damaged", "limits"].contains(&family);
    families::make(7, &wanted, &mut |plan| {
        let text = plan.to_string();
        assert_eq!(plans(&text)[0].to_string(), text);
    });
    call_families::make(7, &mut |plan| {
        let text = plan.to_string();
        assert_eq!(plans(&text)[0].to_string(), text);
    });
    for text in [
        include_str!("../fixed-tri.txt"),
        include_str!("../fixed-lu.txt"),
    ] {
        let back: String = items(text)
            .iter()
            .map(|item| match item {
                Item::Plan(plan) => plan.to_string(),
                Item::Tri(tri) => tri.to_string(),
                Item::Factors(both) => both.to_string(),
            })
            .collect();
        assert_eq!(back, text);
    }
}

/// The same seed gives the same plans, another seed others; no two plans have one name.
#[test]
fn the_generator_is_seeded() {
    let text = |seed| {
        let mut text = String::new();
        families::make(seed, &|family| family == "plain", &mut |plan| {
            text += &plan.to_string();
        });
        text
    };
    assert!(text(1) == text(1));
    assert!(text(1) != text(2));
}

#[test]
fn malformed_text_is_an_error() {
    for text in [
        "plan",
        "plan a",
        "plan a\ndims 1 1\nend",
        "plan a\ncost 3ff\nend",
        "plan a\ncost zzzzzzzzzzzzzzzz\nend",
        "plan a\ncost +ff0000000000000\nend",
        "plan a\nstarts -1\nend",
        "plan a\nstarts 18446744073709551616\nend",
        "plan a\nshort nothing 1\nend",
        "plan a\nwhat 1\nend",
        "plan a\nfix 0\nend",
        "plan a\nunfix\nend",
        "plan a\nreprice 0\nend",
        "plan a\npoke basic 96 0\nend",
        "plan a\npoke bval 0 1\nend",
        "plan a\npoke numbers 0 0\nend",
        "tri a middle 1 0\nend",
        "lu a 1 0\nend",
        "lu a 1 0 0\nstarts 0 0\nend",
        "lu a 1 0 0\nvalues 0\nend",
        "sheet a 1 1\nend",
    ] {
        let first = Reader::new(Cursor::new(text)).next();
        assert!(matches!(first, Some(Err(_))), "{}", text);
    }
}

/// The plan's calls with their answers, the run's first and without a call. A poke has none.
fn called(plan: &Plan) -> Vec<(Option<Call>, Answer)> {
    let is_call = |call: &&Call| !matches!(call, Call::Poke { .. });
    let calls = plan.calls.iter().filter(is_call).cloned().map(Some);
    let answers = gate::answers(plan, Options::default());
    std::iter::once(None).chain(calls).zip(answers).collect()
}

/// The plan in which each marked column has no other value than the one it is held at.
fn narrowed(plan: &Plan, state: &State) -> Plan {
    let mut narrowed = plan.clone();
    for (place, &var) in state.nonbasic.iter().enumerate() {
        if state.flags[place] == 7 && var < plan.columns as usize {
            narrowed.lower[var] = state.nval[place];
            narrowed.upper[var] = state.nval[place];
        }
    }
    narrowed
}

/// A fixed column has its value, bit for bit, through later calls, and what is found is what a run over
/// the plan finds whose bounds say the same; a 26 is one there too, or the run is refused (7). Left out are
/// a fix of a basic column a rounding beside its value, which gets 26 where no place allows the move, and
/// prices of about EPS, where two ends may differ by EPS times a value.
#[test]
fn a_fix_is_a_narrowed_plan() {
    let (mut held, mut optimal, mut infeasible) = (0, 0, 0);
    call_families::make(3, &mut |plan| {
        let is_poked = |call: &Call| matches!(call, Call::Poke { .. });
        let other = ["reprice", "call-huge", "call-small"];
        if plan.calls.iter().any(is_poked) || other.iter().any(|name| plan.id.starts_with(name)) {
            return;
        }
        let mut before: Option<State> = None;
        for (call, answer) in called(&plan) {
            let Some(state) = answer.state else { continue };
            if let (Some(Call::Fix { column, value }), Outcome::Optimal) = (&call, answer.outcome) {
                let found = answer.values[*column as usize];
                assert_eq!(found.to_bits(), value.to_bits(), "{}", plan.id);
                held += 1;
            }
            let mut narrow = narrowed(&plan, &state);
            let mut is_beside = false;
            if let (Some(Call::Fix { column, value }), Some(before)) = (&call, &before) {
                let column = *column as usize;
                narrow.lower[column] = *value;
                narrow.upper[column] = *value;
                let row = before.basic.iter().position(|&var| var == column);
                is_beside = row.is_some_and(|row| (before.bval[row] - value).abs() < 1e-8);
            }
            let fresh = gate::solve(&narrow, Options::default());
            match (answer.outcome, fresh.outcome) {
                (Outcome::Optimal, Outcome::Optimal) => {
                    let size = 1.0 + fresh.objective.abs();
                    let apart = (answer.objective - fresh.objective).abs();
                    assert!(apart <= 1e-6 * size, "{}", plan.id);
                    optimal += 1;
                }
                (Outcome::Infeasible { .. }, number) if !is_beside => {
                    let alike = matches!(number.number(), 7 | 26);
                    assert!(alike, "{} {:?}", plan.id, number);
                    infeasible += 1;
                }
                _ => {}
            }
            before = Some(state);
        }
    });
    assert!(held > 4_000 && optimal > 5_000 && infeasible > 1_000);
}

/// A refused call carries nothing, and the calls after it are answered as if it hadn't been made.
#[test]
fn a_refused_call_changes_nothing() {
    let mut left_out = 0;
    call_families::make(4, &mut |plan| {
        if plan
            .calls
            .iter()
            .any(|call| matches!(call, Call::Poke { .. } | Call::Reprice { .. }))
        {
            return;
        }
        let all = called(&plan);
        let stays = |answer: &Answer| !matches!(answer.outcome.number(), 41..=44);
        let mut fewer = plan.clone();
        fewer.calls = vec![];
        for (call, answer) in &all {
            match call {
                Some(call) if stays(answer) => fewer.calls.push(call.clone()),
                Some(_) => {
                    assert_eq!(answer.objective.to_bits(), 0);
                    assert!(answer.steps == 0 && answer.state.is_none());
                    assert!(answer.values.is_empty());
                    left_out += 1;
                }
                None => {}
            }
        }
        let kept = all.iter().filter(|(_, answer)| stays(answer));
        let kept: Vec<String> = kept
            .map(|(_, answer)| answer_line("", answer, ALL))
            .collect();
        let again: Vec<String> = called(&fewer)
            .iter()
            .map(|(_, answer)| answer_line("", answer, ALL))
            .collect();
        assert_eq!(kept, again);
    });
    assert!(left_out > 2_000);
}

/// A basic value that a rounding has left beside the value is a move, and gets 26 where no place allows
/// it: fix b at 6.2, unfix b, and a stands at 4.4e-16.
#[test]
fn equal_is_meant_by_ieee() {
    let double = |val: f64| format!("{:016x}", val.to_bits());
    let doubles = |vals: &[f64]| vals.iter().map(|&val| double(val)).collect::<Vec<_>>();
    let numbers = |vals: &[f64]| doubles(vals).join(" ");
    let text = [
        format!("plan beside\ndims 2 1 2 10 {}", double(1e-6)),
        format!("cost {}", numbers(&[5.0, -3.0])),
        format!("lower {}", numbers(&[0.0, 4.0])),
        format!("upper {}", numbers(&[f64::INFINITY, 9.0])),
        format!("starts 0 2\ncols 0 1\ncoef {}", numbers(&[-3.0, -2.0])),
        format!("ops 0\nrhs {}", double(-18.0)),
        format!("fix 1 {}\nunfix 1", double(6.2)),
        format!("fix 0 {}\nend", double(0.0)),
    ];
    let plan = &plans(&text.join("\n"))[0];
    let answers = gate::answers(plan, Options::default());
    let numbers: Vec<u8> = answers.iter().map(|a| a.outcome.number()).collect();
    assert_eq!(numbers, [0, 0, 0, 26]);
    assert_eq!(answers[2].values[0], 2.0 * f64::EPSILON);
}

/// Ask 9: "what an Optimal run leaves is never 41", and what another run leaves is.
#[test]
fn only_an_optimal_run_goes_on() {
    let wanted = |family: &str| ["plain", "dropped", "dual", "refactor"].contains(&family);
    let (mut optimal, mut others) = (0, 0);
    families::make(8, &wanted, &mut |mut plan| {
        if plan.columns == 0 {
            return;
        }
        plan.calls = vec![Call::Unfix { column: 0 }];
        let answers = gate::answers(&plan, Options::default());
        let numbers = (answers[0].outcome.number(), answers[1].outcome.number());
        match numbers {
            (0, number) => {
                assert_eq!(number, 44, "{}", plan.id);
                optimal += 1;
            }
            (first @ 1..=5, number) => assert_eq!(first, number, "{}", plan.id),
            (_, number) => {
                assert_eq!(number, 41, "{}", plan.id);
                others += 1;
            }
        }
    });
    assert!(optimal > 1_000 && others > 1_000);
}

/// Where no column is held, a repricing finds what a run over the plan with the new costs finds.
#[test]
fn a_reprice_is_a_run_with_the_new_costs() {
    let mut compared = 0;
    call_families::make(5, &mut |plan| {
        if plan
            .calls
            .iter()
            .any(|call| matches!(call, Call::Poke { .. }))
        {
            return;
        }
        for (call, answer) in called(&plan) {
            let (Some(Call::Reprice { cost }), Some(state)) = (call, &answer.state) else {
                continue;
            };
            let mut fresh = narrowed(&plan, state);
            fresh.cost = cost;
            let fresh = gate::solve(&fresh, Options::default());
            if answer.outcome == Outcome::Optimal && fresh.outcome == Outcome::Optimal {
                let size = 1.0 + fresh.objective.abs();
                let apart = (answer.objective - fresh.objective).abs();
                assert!(apart <= 1e-6 * size, "{}", plan.id);
                compared += 1;
            }
        }
    });
    assert!(compared > 2_000);
}

/// On 7, from any start: a run with costs 0, and where it ends in 0 a repricing; else what the run says. The
/// values are then the last that were written.
#[test]
fn a_solve_from_any_start_is_its_calls() {
    let wanted = |family: &str| ["neither", "any"].contains(&family);
    let mut ways = [0; 3];
    families::make(6, &wanted, &mut |plan| {
        let answer = gate::solve(&plan, Options::default());
        let (way, costless_steps) = answer.way.expect("a plan from any start");
        ways[way as usize] += 1;
        let mut parts = Plan {
            any: false,
            ..plan.clone()
        };
        let direct = gate::solve(&parts, Options::default());
        assert_eq!(direct.outcome == Outcome::SlackOutside, way != Way::Direct);
        let mut told = direct;
        if way != Way::Direct {
            let cost = std::mem::replace(&mut parts.cost, vec![0.0; plan.cost.len()]);
            parts.calls = vec![Call::Reprice { cost }];
            let mut both = gate::answers(&parts, Options::default());
            let repriced = both.pop().expect("a call's answer");
            told = both.remove(0);
            assert_eq!(told.steps, costless_steps, "{}", plan.id);
            assert_eq!(told.outcome == Outcome::Optimal, way == Way::Repriced);
            if way == Way::Repriced {
                let written = told.values;
                told = repriced;
                if told.outcome != Outcome::Optimal {
                    told.values = written;
                }
            } else {
                assert_eq!(repriced.outcome, Outcome::NoRun, "{}", plan.id);
            }
        }
        told.way = answer.way;
        let line = |answer| answer_line(&plan.id, answer, ALL);
        assert_eq!(line(&answer), line(&told));
    });
    assert!(ways.iter().all(|&count| count > 800), "{:?}", ways);
}

fn triangle(upper: bool, columns: &[&[(u64, f64)]], list: &[(u64, f64)]) -> Tri {
    let mut tri = Tri {
        upper,
        size: columns.len() as u64,
        starts: vec![0],
        ..Tri::default()
    };
    for column in columns {
        for &(row, val) in *column {
            tri.rows.push(row);
            tri.vals.push(val);
        }
        tri.starts.push(tri.rows.len() as u64);
    }
    tri.entries = tri.rows.len() as u64;
    tri.list = list.iter().map(|&(place, _)| place).collect();
    tri.lvals = list.iter().map(|&(_, val)| val).collect();
    tri
}

fn bits(vals: &[f64]) -> Vec<u64> {
    vals.iter().map(|val| val.to_bits()).collect()
}

fn bits_differ(tri: &Tri) -> bool {
    let answer = tri::solve(tri);
    assert_eq!(answer.status, 0);
    bits(&answer.sparse) != bits(&answer.dense)
}

/// The smallest triangle where sparse and dense bits differ has one place and no entry: the dense
/// solve divides an unlisted 0.0 by the negative diagonal, the sparse one doesn't visit it.
#[test]
fn the_smallest_triangle_whose_bits_differ() {
    let mut tri = triangle(false, &[&[]], &[]);
    tri.diag = Some(vec![-1.0]);
    let answer = tri::solve(&tri);
    assert_eq!(bits(&answer.sparse), bits(&[0.0]));
    assert_eq!(bits(&answer.dense), bits(&[-0.0]));

    // Nothing is smaller: no place, or one place without a diagonal.
    assert!(!bits_differ(&triangle(false, &[], &[])));
    for list in [&[][..], &[(0, 1.0)], &[(0, -0.0)], &[(0, 0.1)]] {
        assert!(!bits_differ(&triangle(false, &[&[]], list)));
    }
}

/// Without a diagonal two places and one entry are the smallest: -0.0 - (0.0 * -1.0) is 0.0.
#[test]
fn the_smallest_without_a_diagonal() {
    let numbers = [0.0, -0.0, 1.0, -1.0, 0.1];
    for (a, b) in numbers.iter().flat_map(|&a| numbers.map(|b| (a, b))) {
        for list in [vec![], vec![(0, a)], vec![(1, b)], vec![(1, b), (0, a)]] {
            assert!(!bits_differ(&triangle(false, &[&[], &[]], &list)));
        }
    }
    assert!(bits_differ(&triangle(
        false,
        &[&[(1, -1.0)], &[]],
        &[(1, -0.0)]
    )));
}

/// The order of subtraction shows with three places: the list is finished as 2, 0, 1, so the sparse
/// solve takes column 1 first, the dense one column 0.
#[test]
fn the_order_of_subtraction_shows() {
    let tri = triangle(
        false,
        &[&[(2, 1.0)], &[(2, 1.0)], &[]],
        &[(0, 0.1), (1, 0.2), (2, 1.0)],
    );
    let answer = tri::solve(&tri);
    assert_eq!(answer.list, [0, 1, 2]);
    assert_eq!(answer.dense[2], 1.0 - 0.1 - 0.2);
    assert_eq!(answer.sparse[2], 1.0 - 0.2 - 0.1);
    assert_ne!(answer.dense[2], answer.sparse[2]);
}

/// "solve_dense (no permutations)" is the lower triangle's dense solve, then the upper one's. A
/// number between the two that isn't finite goes on, though a triangle alone would refuse it.
#[test]
fn a_pair_is_one_dense_solve_after_the_other() {
    let dense = |tri: &Tri, vals: &[f64]| {
        tri::solve(&Tri {
            list: (0..tri.size).collect(),
            lvals: vals.to_vec(),
            ..tri.clone()
        })
    };
    let (mut same, mut refused) = (0, 0);
    lu_families::make(1, &mut |pair: Factors| {
        let answer = tri::solve_dense(&pair);
        if answer.status != 0 {
            return;
        }
        let size = pair.size() as usize;
        let between = dense(&pair.lower, &pair.values[..size]);
        let last = dense(&pair.upper, &between.dense);
        if between.dense.iter().all(|val| val.is_finite()) {
            // A NaN's payload is nobody's.
            let one_nan = |vals: &[f64]| -> Vec<u64> {
                let nan = f64::NAN.to_bits();
                let one = |val: &f64| if val.is_nan() { nan } else { val.to_bits() };
                vals.iter().map(one).collect()
            };
            assert_eq!(one_nan(&last.dense), one_nan(&answer.dense), "{}", pair.id);
            same += 1;
        } else {
            assert_eq!(last.status, 2, "{}", pair.id);
            refused += 1;
        }
    });
    assert!(same > 8_000 && refused > 500, "{} {}", same, refused);
}

/// Each pair that was made to be refused is refused, and by the number that it was made for.
#[test]
fn a_pair_is_refused_by_its_cause() {
    let mut seen = [0; 3];
    lu_families::make(2, &mut |pair: Factors| {
        let number = match pair.id.split_once('.') {
            Some(("lu-shape" | "lu-both", _)) => 1,
            Some(("lu-number", _)) => 2,
            _ => 0,
        };
        assert_eq!(tri::solve_dense(&pair).status, number, "{}", pair.id);
        seen[number as usize] += 1;
    });
    assert!(seen.into_iter().all(|count| count >= 500), "{:?}", seen);
}
