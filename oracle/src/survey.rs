//! Counts what a list of plans reaches, and checks it against the list of what must be reached.
//! All ours.

use std::collections::{BTreeMap, HashSet};
use std::hash::{DefaultHasher, Hash, Hasher};

use crate::answer::{Answer, Named, Outcome, Rejected, StartNumber, State, Way};
use crate::families::{
    bad_number_kind, factorings, of_both_kinds, BAD_NUMBERS, DUAL_PLACES, FREE_KINDS, LARGEST,
    SHORT_KINDS, TURNING,
};
use crate::gate;
use crate::limits;
use crate::plan::Plan;
use crate::shown::{Correction, Options};

/// The answers of the table. 02: 6 and 22 are no longer given.
pub const NUMBERS: [u8; 15] = [0, 1, 2, 3, 4, 5, 6, 7, 20, 21, 22, 23, 24, 25, 26];

/// The answers of the table that no plan gets.
const GONE: [u8; 2] = [6, 22];

#[derive(Default)]
pub struct Survey {
    plans: u64,
    /// The plans of each answer, by hash, so that equal plans count once.
    different: BTreeMap<u8, HashSet<u64>>,
    /// Every other count, by name.
    counts: BTreeMap<String, u64>,
}

impl Survey {
    pub fn add(&mut self, plan: &Plan, answer: &Answer) {
        let number = answer.outcome.number();
        self.plans += 1;
        if let Some((family, _)) = family(plan) {
            self.count(format!("family {}", family));
        }
        if let Some((way, costless_steps)) = answer.way {
            return self.add_any(plan, answer, way, costless_steps);
        }
        self.different
            .entry(number)
            .or_default()
            .insert(hash_of(plan));

        if number >= 20 && answer.steps >= 3 {
            self.count(format!("{} after 3 or more steps", number));
        }
        match answer.outcome {
            Outcome::NotFinite { named, flip } => {
                let on = if flip { " on a flip" } else { "" };
                self.count(format!("23 by {}{}", named.name(), on));
            }
            Outcome::Rejected(Rejected::Value(var)) if var < plan.columns as usize => {
                self.count("24 by a column")
            }
            Outcome::Rejected(Rejected::Value(_)) => self.count("24 by a slack"),
            Outcome::Rejected(Rejected::Row(_)) => self.count("24 by a row"),
            _ => {}
        }
        match family(plan) {
            Some(("number", index)) if number == 2 => {
                self.count(format!("2 by {}", bad_number_kind(index)))
            }
            Some(("largest", index)) if number != 2 => {
                self.count(format!("accepted: {}", LARGEST[index % LARGEST.len()]))
            }
            Some(("overflow", _)) if number == 2 => self.count_six(plan),
            _ => {}
        }

        if plan.rows == limits::ROWS && plan.columns == limits::COLUMNS && answer.state.is_some() {
            self.count("96 rows and 128 columns");
        }
        if plan.rows > 64 && answer.state.is_some() {
            self.count("runs with 65 to 96 rows");
        }
        if answer.steps > 60 {
            self.count("runs of over 60 steps");
        }
        self.add_factorings(plan, answer);
        if let Some(state) = &answer.state {
            if (state.kept.len() as u64) < plan.rows {
                self.count("runs with dropped rows");
            }
            self.add_free(plan, answer, state);
            if state.dual_steps > 0 || state.in_dual {
                self.add_dual(plan, answer, state);
            }
        }
    }

    /// Plans that are solved from any start; they count by their way alone.
    fn add_any(&mut self, plan: &Plan, answer: &Answer, way: Way, costless_steps: u64) {
        let number = answer.outcome.number();
        self.count(format!("{}, answer {}", way.name(), number));
        if way == Way::Direct {
            return;
        }
        if plan.rows == limits::ROWS && plan.columns == limits::COLUMNS {
            self.count("costs 0, 96 rows and 128 columns");
        }
        if (plan.rows, plan.columns) == (1, 1) {
            self.count("costs 0, 1 row and 1 column");
        }
        if way == Way::Repriced {
            self.count(match (costless_steps, answer.steps) {
                (0, _) => "repriced after no step",
                (_, 0) => "repriced after steps, and none more",
                _ => "repriced after steps, and more of them",
            });
        }
    }

    /// How often a run factored its basis, a last try that gives 25 counted.
    fn add_factorings(&mut self, plan: &Plan, answer: &Answer) {
        let number = answer.outcome.number();
        match factorings(answer) {
            0 => return,
            1 => self.count("factored once"),
            2 => self.count("factored twice"),
            3..=9 => self.count("factored 3 to 9 times"),
            _ => self.count("factored 10 times or more"),
        }
        if plan.rows == limits::ROWS && plan.columns == limits::COLUMNS {
            self.count("factored, 96 rows and 128 columns");
        }
        self.count(format!("factored, answer {}", number));
        if number == 25 && factorings(answer) > 1 {
            self.count("25 after a factor");
        }
    }

    /// Runs that begin with dual steps, or stop in the first.
    fn add_dual(&mut self, plan: &Plan, answer: &Answer, state: &State) {
        let number = answer.outcome.number();
        let kinds = match of_both_kinds(answer) {
            true => "both kinds of step",
            false => "dual steps alone",
        };
        self.count(format!("{}, answer {}", kinds, number));
        match answer.outcome {
            Outcome::Infeasible { .. } => self.count(match answer.steps {
                0 => "26 after no step",
                1 => "26 after 1 step",
                2..=19 => "26 after 2 to 19 steps",
                _ => "26 after 20 steps or more",
            }),
            Outcome::NotFinite { named, .. } if state.in_dual => {
                self.count(format!("23 by {} in a dual step", named.name()))
            }
            Outcome::Spent | Outcome::Singular if state.in_dual => {
                self.count(format!("{} in a dual step", number))
            }
            _ => {}
        }
        if !of_both_kinds(answer) && state.factorings > 0 {
            self.count(format!("factored in dual steps, answer {}", number));
        }
        if plan.rows == limits::ROWS && plan.columns == limits::COLUMNS {
            self.count("dual steps, 96 rows and 128 columns");
        }
        if plan.rows == 1 && plan.columns == 1 {
            self.count("dual steps, 1 row and 1 column");
        }
        if matches!(family(plan), Some(("dual", _))) {
            self.add_first_dual(plan, answer);
        }
    }

    /// Where the first dual step has a tie of the leaving row, and where the dual steps leave the
    /// objective as it was. A budget of 0 leaves the start.
    fn add_first_dual(&mut self, plan: &Plan, answer: &Answer) {
        let first = gate::solve(
            &Plan {
                budget: 0,
                ..plan.clone()
            },
            Options::default(),
        );
        let Some(start) = &first.state else { return };
        let row_ops = start.kept.iter().map(|&row| plan.ops[row]);
        let outside: Vec<f64> = start
            .bval
            .iter()
            .zip(row_ops)
            .map(|(&slack, op)| match op {
                0 => -slack,
                1 => slack.abs(),
                _ => slack,
            })
            .collect();
        let most = outside.iter().copied().fold(0.0, f64::max);
        if outside.iter().filter(|&&past| past == most).count() > 1 {
            self.count("dual steps from a tie of the leaving row");
        }
        if answer.steps > 0 && first.objective.to_bits() == answer.objective.to_bits() {
            self.count("dual steps that leave the objective");
        }
    }

    /// What a plan that is refused under 2 answered when numbers of any size were taken.
    fn count_six(&mut self, plan: &Plan) {
        match of_any_size(plan) {
            Outcome::StartNotFinite(StartNumber::Value) => self.count("2, once 6 by a slack"),
            Outcome::StartNotFinite(StartNumber::Objective) => {
                self.count("2, once 6 by the objective")
            }
            Outcome::StartNotFinite(StartNumber::Norm) => self.count("2, once 6 by a norm"),
            _ => {}
        }
    }

    /// Free columns of a turning price that are left when the run ends, with its answer, or that a run
    /// of one step took in. A price of zero counts after a step: a dual feasible start asks nothing.
    fn add_free(&mut self, plan: &Plan, answer: &Answer, state: &State) {
        for col in 0..plan.columns as usize {
            if plan.lower[col].is_finite() || plan.upper[col].is_finite() {
                continue;
            }
            let (price, what) = match state.nonbasic.iter().position(|&var| var == col) {
                Some(at) if state.price[at] == 0.0 && answer.steps == 0 => continue,
                Some(at) => (
                    state.price[at],
                    format!("left, answer {}", answer.outcome.number()),
                ),
                // Its price was its cost.
                None if answer.steps == 1 => (plan.cost[col], "entered".to_string()),
                None => continue,
            };
            let same = |(_, turning): &&(&str, f64)| turning.to_bits() == price.to_bits();
            if let Some((name, _)) = TURNING.iter().find(same) {
                let in_row = plan.cols[..plan.entries as usize].contains(&(col as u64));
                self.count(free_column(name, in_row, &what));
            }
        }
    }

    fn count(&mut self, name: impl Into<String>) {
        *self.counts.entry(name.into()).or_default() += 1;
    }

    fn get(&self, name: &str) -> u64 {
        self.counts.get(name).copied().unwrap_or(0)
    }

    fn different(&self, number: u8) -> u64 {
        self.different
            .get(&number)
            .map_or(0, |set| set.len() as u64)
    }

    /// Every count, one a line.
    pub fn table(&self) -> String {
        let mut table = format!("{} plans\n", self.plans);
        for number in NUMBERS {
            table += &format!(
                "answer {}: {} different plans\n",
                number,
                self.different(number)
            );
        }
        for (name, count) in &self.counts {
            table += &format!("{}: {}\n", name, count);
        }
        table
    }

    /// What must be reached: a name, the least count and the count.
    pub fn targets(&self) -> Vec<(String, u64, u64)> {
        let mut targets = vec![("plans".to_string(), 120_000, self.plans)];
        for number in NUMBERS {
            let different = self.different(number);
            if GONE.contains(&number) {
                let name = format!("plans not for {}", number);
                targets.push((name, self.plans, self.plans - different));
            } else {
                let least = if number == 25 { 100 } else { 1_000 };
                targets.push((format!("different plans for {}", number), least, different));
            }
        }
        let mut at_least = |least: u64, name: String| {
            let count = self.get(&name);
            targets.push((name, least, count));
        };
        for number in [20, 21, 23, 24, 25, 26] {
            at_least(100, format!("{} after 3 or more steps", number));
        }
        for kind in BAD_NUMBERS {
            at_least(50, format!("2 by {}", kind));
        }
        for place in LARGEST {
            at_least(50, format!("accepted: {}", place));
        }
        for (least, name) in [
            (100, "2, once 6 by a slack"),
            (100, "2, once 6 by the objective"),
            (100, "2, once 6 by a norm"),
            (500, "factored once"),
            (50, "factored twice"),
            (30, "factored 10 times or more"),
            (100, "factored, 96 rows and 128 columns"),
            (500, "factored, answer 0"),
            (20, "factored, answer 20"),
            (10, "factored, answer 21"),
            (20, "factored, answer 24"),
            (10, "25 after a factor"),
            (100, "24 by a column"),
            (100, "24 by a slack"),
            (100, "24 by a row"),
            (200, "96 rows and 128 columns"),
            (1_000, "runs with 65 to 96 rows"),
            (200, "runs of over 60 steps"),
            (1_000, "runs with dropped rows"),
            (100_000, "family tiny"),
            (1_000, "family limits"),
            (1_000, "family largest"),
            (1_000, "family short"),
            (1_000, "family ties"),
            (1_000, "family wild"),
            (1_000, "family damaged"),
            (1_000, "family free"),
            (400, "family refactor"),
            (5_000, "family dual"),
            (2_000, "dual steps alone, answer 0"),
            (100, "dual steps alone, answer 24"),
            (200, "26 after no step"),
            (200, "26 after 1 step"),
            (200, "26 after 2 to 19 steps"),
            (100, "26 after 20 steps or more"),
            (200, "21 in a dual step"),
            (40, "25 in a dual step"),
            (100, "both kinds of step, answer 0"),
            (30, "both kinds of step, answer 20"),
            (20, "both kinds of step, answer 21"),
            (30, "both kinds of step, answer 24"),
            (40, "factored in dual steps, answer 0"),
            (10, "factored in dual steps, answer 26"),
            (50, "dual steps, 96 rows and 128 columns"),
            (100, "dual steps, 1 row and 1 column"),
            (200, "dual steps from a tie of the leaving row"),
            (200, "dual steps that leave the objective"),
            (3_000, "family neither"),
            (1_500, "family any"),
            (10, "costs 0, 96 rows and 128 columns"),
            (50, "costs 0, 1 row and 1 column"),
            (50, "repriced after no step"),
            (200, "repriced after steps, and none more"),
            (1_500, "repriced after steps, and more of them"),
        ] {
            at_least(least, name.into());
        }
        for (way, answers) in BY_WAYS {
            for &(number, least) in answers {
                at_least(least, format!("{}, answer {}", way.name(), number));
            }
        }
        for named in Named::ALL {
            if !UNREACHED.contains(&named) {
                at_least(20, format!("23 by {}", named.name()));
            }
        }
        for named in DUAL_PLACES {
            at_least(50, format!("23 by {} in a dual step", named.name()));
        }
        // In no row nothing stops a free column that enters: 20.
        for (name, price) in TURNING {
            for in_row in [true, false] {
                let what = match (price.abs() < 1e-8, in_row) {
                    (true, _) => "left, answer 0",
                    (false, true) => "entered",
                    (false, false) => "left, answer 20",
                };
                at_least(20, free_column(name, in_row, what));
            }
        }
        at_least(20, "23 by objective on a flip".into());
        at_least(20, "23 by basic on a flip".into());
        targets
    }
}

fn of_any_size(plan: &Plan) -> Outcome {
    gate::solve(plan, Options::showing(Correction::Wild)).outcome
}

/// Prints each target that is missed and how many aren't; whether none is missed.
pub fn met(targets: &[(String, u64, u64)]) -> bool {
    let missed: Vec<_> = targets
        .iter()
        .filter(|target| target.2 < target.1)
        .collect();
    for (name, least, count) in &missed {
        println!("missed: {}: {} of at least {}", name, count, least);
    }
    println!(
        "{} passed, {} failed",
        targets.len() - missed.len(),
        missed.len()
    );
    missed.is_empty()
}

/// Each way of a solve from any start, and the least count of its answers. The first is never 7; the run
/// with costs 0 has no price that lets a column enter, so it never ends in 20; and the steps after it are
/// primal ones, which never end in 26.
const BY_WAYS: [(Way, &[(u8, u64)]); 3] = [
    (
        Way::Direct,
        &[
            (0, 300),
            (1, 100),
            (2, 60),
            (3, 30),
            (4, 30),
            (5, 40),
            (20, 200),
            (21, 20),
            (23, 30),
            (24, 60),
            (25, 10),
            (26, 20),
        ],
    ),
    (
        Way::Halted,
        &[(21, 150), (23, 40), (24, 60), (25, 10), (26, 500)],
    ),
    (
        Way::Repriced,
        &[
            (0, 1_000),
            (20, 500),
            (21, 150),
            (23, 40),
            (24, 60),
            (25, 50),
        ],
    ),
];

/// Places of document 01's order that no plan reaches; docs/DECISIONS.md, "23's places", says why.
pub const UNREACHED: [Named; 6] = [
    Named::Limit,
    Named::Distance,
    Named::Value,
    Named::Leaving,
    Named::Eta,
    Named::Factor,
];

/// The name of a count of free columns.
fn free_column(price: &str, in_row: bool, what: &str) -> String {
    let place = if in_row { "in a row" } else { "in no row" };
    format!("free column of price {} {}: {}", price, place, what)
}

/// The family of a plan and its number there, from its name.
fn family(plan: &Plan) -> Option<(&str, usize)> {
    let (family, index) = plan.id.split_once('.')?;
    Some((family, index.parse().ok()?))
}

/// The plan's text without its name.
fn hash_of(plan: &Plan) -> u64 {
    let nameless = Plan {
        id: String::new(),
        ..plan.clone()
    };
    let mut hasher = DefaultHasher::new();
    nameless.to_string().hash(&mut hasher);
    hasher.finish()
}

/// Which steps a run had, where dual ones are among them.
fn dual_kind(answer: &Answer) -> &'static str {
    match &answer.state {
        Some(_) if of_both_kinds(answer) => ", both kinds",
        Some(state) if state.dual_steps > 0 || state.in_dual => ", dual",
        _ => "",
    }
}

/// Picks the plans of the fixed list: of each family, of each kind of answer, the first few that
/// are short. A 23, a 25 and a run with a factor may be long.
#[derive(Default)]
pub struct Fixed {
    taken: BTreeMap<(String, String), usize>,
}

impl Fixed {
    pub fn takes(&mut self, plan: &Plan) -> bool {
        let answer = gate::solve(plan, Options::default());
        let (family, index) = family(plan).unwrap_or(("", 0));
        let by_way = |(way, costless_steps): (Way, u64)| {
            let (why, steps) = (answer.outcome.why(), answer.steps.min(2));
            let number = answer.outcome.number();
            let costless_steps = costless_steps.min(2);
            format!("{way:?} {number} {why:?} {costless_steps} {steps}")
        };
        let kind = match answer.outcome {
            _ if answer.way.is_some() => answer.way.map(by_way).unwrap_or_default(),
            // The families "short", "number", "largest" and "free" go through their kinds in turn.
            Outcome::BadSize if family == "short" => format!("1, {}", index % SHORT_KINDS),
            Outcome::BadNumber if family == "number" => bad_number_kind(index).to_string(),
            Outcome::BadNumber if family == "overflow" => match of_any_size(plan) {
                Outcome::Infeasible { .. } => "2, once 26".to_string(),
                once => format!("2, once {:?}", once),
            },
            outcome if family == "largest" && outcome != Outcome::BadNumber => {
                LARGEST[index % LARGEST.len()].to_string()
            }
            outcome if family == "free" => {
                format!("{}, {}", outcome.number(), index % FREE_KINDS)
            }
            outcome if factorings(&answer) > 0 => {
                let times = factorings(&answer).min(3);
                format!("{}, factored {}", outcome.number(), times)
            }
            Outcome::BadEntry { .. } => "3".to_string(),
            Outcome::CrossedBounds { .. } => "4".to_string(),
            Outcome::FalseEmptyRow { .. } => "5".to_string(),
            Outcome::Rejected(Rejected::Value(_)) => "24 by a value".to_string(),
            Outcome::Rejected(Rejected::Row(_)) => "24 by a row".to_string(),
            Outcome::Infeasible { .. } => format!("26 {}", answer.steps.min(3)),
            outcome => format!(
                "{:?} {}{}",
                outcome,
                answer.steps.min(3),
                dual_kind(&answer)
            ),
        };
        let (most_taken, longest) = match answer.outcome.number() {
            25 if answer.way.is_some() => (2, 2_000),
            _ if answer.way.is_some() => (2, 900),
            _ if factorings(&answer) > 0 => (1, usize::MAX),
            23 => (2, usize::MAX),
            1 | 2 => (1, 700),
            3..=7 => (4, 700),
            _ if family == "free" => (1, 900),
            _ => (2, 900),
        };
        let taken = self.taken.entry((family.to_string(), kind)).or_default();
        if *taken >= most_taken || plan.to_string().len() > longest {
            return false;
        }
        *taken += 1;
        true
    }
}
