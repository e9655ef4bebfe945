//! What seeded lists of calls reach: kinds of calls with their answers, counted. All ours.

use std::collections::BTreeMap;

use super::damage::{self, CAUSES};
use super::List;
use crate::answer::{Answer, Outcome, State};
use crate::plan::{Call, Plan};

/// The kinds of a plan's calls with their answers.
fn kinds(plan: &Plan) -> Vec<String> {
    let bare = Plan {
        calls: vec![],
        ..plan.clone()
    };
    let mut list = List::new(bare);
    let mut kinds = vec![];
    let mut poked = None;
    let mut last = if plan.any { "any" } else { "solve" };
    for call in &plan.calls {
        let what = kind(&list, call);
        let left = list.session.left();
        let Some(answer) = list.session.call(call) else {
            poked = Some(call);
            continue;
        };
        let number = answer.outcome.number();
        if let (Call::Reprice { .. }, Some(left)) = (call, left) {
            kinds.extend(reprices(last, &left, &answer));
        }
        last = name(call);
        kinds.push("calls".into());
        kinds.push(format!("answer {}", number));
        kinds.push(format!("{}, answer {}", what, number));
        let was_optimal = list.is_optimal();
        match (poked.take(), &list.state) {
            (Some(&Call::Poke { lent, index, bits }), Some(state))
                if number == 41 && was_optimal =>
            {
                let cause = damage::named(state, (lent, index, bits));
                kinds.push(match call {
                    Call::Reprice { .. } => format!("reprice, 41 by {}", cause),
                    _ => format!("41 by {}", cause),
                });
            }
            (Some(_), _) => kinds.push(format!("right after a poke, answer {}", number)),
            (None, _) => {}
        }
        if let (Some(before), Some(after)) = (&list.state, &answer.state) {
            kinds.extend(fixes(&list, call, number));
            kinds.extend(steps(&what, call, before, after, &answer));
        }
        list.note(answer);
    }
    kinds
}

/// What a call is about.
fn kind(list: &List, call: &Call) -> String {
    let is_reprice = matches!(call, Call::Reprice { .. });
    let state = match &list.state {
        Some(state) if list.number == 0 => state,
        Some(_) if is_reprice => return "reprice after an end".into(),
        None if is_reprice => return "reprice after a refused plan".into(),
        Some(_) => return "after an end".into(),
        None => return "after a refused plan".into(),
    };
    match *call {
        Call::Fix { column, .. } | Call::Unfix { column } if column >= list.plan.columns => {
            "unknown column".into()
        }
        Call::Fix { column, value } => match list.value(column as usize) {
            (now, None) if now == value => "fix of a basic column at its value".into(),
            (_, None) => "fix of a basic column".into(),
            (_, Some(place)) if state.flags[place] == 7 => "fix of a fixed column".into(),
            (_, Some(_)) => "fix of a non-basic column".into(),
        },
        Call::Unfix { column } => {
            let column = column as usize;
            match is_bound(&list.plan, column, list.value(column).0) {
                true => "unfix at a bound".into(),
                false => "unfix between bounds".into(),
            }
        }
        Call::Reprice { .. } => "reprice".into(),
        Call::Poke { .. } => "poke".into(),
    }
}

fn is_bound(plan: &Plan, column: usize, value: f64) -> bool {
    value == plan.lower[column] || value == plan.upper[column]
}

/// Where a fix that isn't refused finds its column, and where it takes it.
fn fixes(list: &List, call: &Call, number: u8) -> Vec<String> {
    let &Call::Fix { column, value } = call else {
        return vec![];
    };
    let column = column as usize;
    let stands = match list.value(column).1 {
        Some(_) => "a non-basic column",
        None => "a basic column",
    };
    let at = match is_bound(&list.plan, column, value) {
        true => "at a bound",
        false => "inside its bounds",
    };
    vec![
        format!("{} is fixed", stands),
        format!("{} is fixed {}", stands, at),
        format!("answer {} out of a fix", number),
    ]
}

fn name(call: &Call) -> &'static str {
    match call {
        Call::Fix { .. } => "fix",
        Call::Unfix { .. } => "unfix",
        Call::Reprice { .. } => "reprice",
        Call::Poke { .. } => "poke",
    }
}

/// What a repricing that isn't refused comes after, what it finds, and where a 23 arises.
fn reprices(last: &str, left: &State, answer: &Answer) -> Vec<String> {
    if answer.state.is_none() {
        return vec![];
    }
    let found = match (left.etarow.is_empty(), left.factor.is_some()) {
        (true, false) => "neither eta columns nor a factor",
        (true, true) => "a factor alone",
        (false, false) => "eta columns alone",
        (false, true) => "eta columns and a factor",
    };
    let mut kinds = vec![
        format!("reprice after {}", last),
        format!("reprice that finds {}", found),
    ];
    if left.flags.contains(&7) {
        kinds.push("reprice beside marks".into());
    }
    if let Outcome::NotFinite { named, .. } = answer.outcome {
        // The first of a step's numbers is an entry of its column.
        let own = ["multiplier", "price", "objective", "factor"].contains(&named.name());
        let part = if own && answer.steps == 0 {
            ""
        } else {
            " of a step"
        };
        kinds.push(format!("reprice, 23 by {}{}", named.name(), part));
    }
    kinds
}

/// Which steps a call took.
fn steps(what: &str, call: &Call, before: &State, after: &State, answer: &Answer) -> Vec<String> {
    let mut kinds = vec![];
    let name = name(call);
    match (after.dual_steps, answer.steps - after.dual_steps) {
        (0, 0) => kinds.push(format!("{} without steps", name)),
        (0, _) => kinds.push(format!("{} with primal steps alone", name)),
        (_, 0) => kinds.push(format!("{} with dual steps alone", name)),
        _ => kinds.push(format!("{}, both kinds of step", what)),
    }
    if before.factor.is_some() {
        kinds.push(format!("{} with a factor", name));
    }
    if after.factorings > before.factorings {
        kinds.push(format!("{} that factors", name));
    }
    let marks = |state: &State| state.flags.iter().filter(|&&cell| cell == 7).count();
    if marks(before) > 1 {
        kinds.push(format!("{} beside other marks", name));
    }
    kinds
}

/// The fixed list: the first two plans for each kind.
#[derive(Default)]
pub struct Fixed {
    taken: BTreeMap<String, u64>,
}

impl Fixed {
    pub fn takes(&mut self, plan: &Plan) -> bool {
        let mut takes = false;
        for kind in kinds(plan) {
            let taken = self.taken.entry(kind).or_default();
            if *taken < 2 {
                *taken += 1;
                takes = true;
            }
        }
        takes
    }
}

#[derive(Default)]
pub struct Survey {
    plans: u64,
    counts: BTreeMap<String, u64>,
}

impl Survey {
    pub fn add(&mut self, plan: &Plan) {
        self.plans += 1;
        for kind in kinds(plan) {
            *self.counts.entry(kind).or_default() += 1;
        }
    }

    pub fn table(&self) -> String {
        let mut table = format!("{} plans\n", self.plans);
        for (name, count) in &self.counts {
            table += &format!("{}: {}\n", name, count);
        }
        table
    }

    /// What must be reached: a name, the least count and the count.
    pub fn targets(&self) -> Vec<(String, u64, u64)> {
        let mut targets = vec![("plans".to_string(), 12_000, self.plans)];
        let mut at_least = |least: u64, name: &str| {
            let count = self.counts.get(name).copied().unwrap_or(0);
            targets.push((name.to_string(), least, count));
        };
        for (least, name) in ALL {
            at_least(least, name);
        }
        for (what, answers) in ANSWERS {
            for &(number, least) in answers {
                at_least(least, &format!("{}, answer {}", what, number));
            }
        }
        for cause in CAUSES {
            at_least(200, &format!("41 by {}", cause.name));
            at_least(60, &format!("reprice, 41 by {}", cause.name));
        }
        for (least, name) in REPRICES {
            at_least(least, name);
        }
        for (least, name) in STEPS {
            at_least(least, name);
        }
        targets
    }
}

/// All calls, by their answers and by what they fix.
const ALL: [(u64, &str); 15] = [
    (40_000, "calls"),
    (2_000, "answer 41"),
    (200, "answer 42"),
    (200, "answer 43"),
    (200, "answer 44"),
    (2_000, "a basic column is fixed"),
    (2_000, "a non-basic column is fixed"),
    (500, "a basic column is fixed at a bound"),
    (500, "a basic column is fixed inside its bounds"),
    (500, "a non-basic column is fixed at a bound"),
    (500, "a non-basic column is fixed inside its bounds"),
    (200, "answer 21 out of a fix"),
    (40, "answer 23 out of a fix"),
    (200, "answer 24 out of a fix"),
    (1_000, "answer 26 out of a fix"),
];

/// What calls are about, and the least count of their answers.
const ANSWERS: [(&str, &[(u8, u64)]); 12] = [
    (
        "fix of a basic column",
        &[
            (0, 1_000),
            (21, 100),
            (23, 4),
            (24, 80),
            (26, 500),
            (41, 300),
            (43, 100),
        ],
    ),
    (
        "fix of a basic column at its value",
        &[(0, 1_000), (21, 2), (24, 5), (26, 10)],
    ),
    (
        "fix of a non-basic column",
        &[
            (0, 1_500),
            (21, 40),
            (23, 20),
            (24, 80),
            (26, 300),
            (41, 200),
            (43, 100),
        ],
    ),
    (
        "fix of a fixed column",
        &[(0, 300), (21, 5), (26, 80), (43, 30)],
    ),
    ("unfix at a bound", &[(0, 400), (21, 3), (44, 150)]),
    ("unfix between bounds", &[(0, 400), (21, 30), (44, 150)]),
    ("unknown column", &[(41, 20), (42, 150)]),
    (
        "after a refused plan",
        &[(1, 100), (2, 100), (3, 100), (4, 100), (5, 100), (41, 60)],
    ),
    (
        "right after a poke",
        &[
            (0, 300),
            (24, 80),
            (25, 2),
            (26, 150),
            (42, 15),
            (43, 30),
            (44, 40),
        ],
    ),
    (
        "reprice",
        &[
            (0, 4_000),
            (1, 10),
            (2, 40),
            (20, 300),
            (21, 150),
            (23, 200),
            (24, 200),
            (25, 40),
        ],
    ),
    (
        "reprice after a refused plan",
        &[(1, 60), (2, 30), (3, 50), (4, 50), (5, 40), (41, 40)],
    ),
    ("reprice after an end", &[(41, 1_000)]),
];

/// What repricings come after, what they find, and where their 23s arise: at each of the numbers that they
/// work out themselves, and in steps.
const REPRICES: [(u64, &str); 14] = [
    (1_500, "reprice after solve"),
    (150, "reprice after any"),
    (300, "reprice after fix"),
    (150, "reprice after unfix"),
    (1_500, "reprice after reprice"),
    (500, "reprice beside marks"),
    (500, "reprice that finds neither eta columns nor a factor"),
    (1_000, "reprice that finds a factor alone"),
    (1_000, "reprice that finds eta columns alone"),
    (800, "reprice that finds eta columns and a factor"),
    (40, "reprice, 23 by multiplier"),
    (20, "reprice, 23 by price"),
    (60, "reprice, 23 by objective"),
    (60, "reprice, 23 by helper of a step"),
];

const STEPS: [(u64, &str); 17] = [
    (2_000, "fix without steps"),
    (2_000, "fix with dual steps alone"),
    (3, "fix with primal steps alone"),
    (
        100,
        "fix of a basic column at its value, both kinds of step",
    ),
    (40, "fix of a basic column, both kinds of step"),
    (15, "fix of a non-basic column, both kinds of step"),
    (200, "fix with a factor"),
    (60, "fix that factors"),
    (300, "fix beside other marks"),
    (400, "unfix without steps"),
    (500, "unfix with primal steps alone"),
    (60, "unfix with a factor"),
    (150, "unfix beside other marks"),
    (1_500, "reprice without steps"),
    (1_500, "reprice with primal steps alone"),
    (2_000, "reprice that factors"),
    (1_500, "reprice with a factor"),
];
