//! `solve --fix NAME=VALUE`: columns of a solved plan held still, one after another, each from where the call before it
//! left off, and what a fresh solve with the same columns held takes.

use tevalumi::raw::Status;

use super::desk::found;
use super::engine::{self, Fix, Solved};
use super::html::Page;
use super::plan::{counted, shown, Plan};
use super::report;
use super::show::{json, number, quoted};

/// A column that was held still, what came of it, and the same plan solved anew with its bounds there.
pub struct Held {
    fix: Fix,
    pub after: Solved,
    /// The plan with the bounds of every column that is held so far at its value.
    pub bound: Plan,
    fresh: Solved,
}

/// The columns and values that `--fix` names.
pub fn named(plan: &Plan, fixes: &[String]) -> Result<Vec<(usize, f64)>, String> {
    let one = |fix: &String| {
        let wanted = || {
            format!(
                "expected a column's name, = and a number behind --fix, found `{}`",
                shown(fix)
            )
        };
        let (name, value) = fix.rsplit_once('=').ok_or_else(wanted)?;
        let value = value.parse().map_err(|_| wanted())?;
        let column = found(name, "column", plan.columns, |j| plan.column_name(j))?;
        Ok((column, value))
    };
    fixes.iter().map(one).collect()
}

/// Holds each in turn, until one doesn't end in 0.
pub fn hold(plan: &Plan, solved: &Solved, fixes: &[(usize, f64)]) -> Vec<Held> {
    let mut held: Vec<Held> = Vec::new();
    let mut bound = plan.clone();
    for &(column, value) in fixes {
        let before = held.last().map_or(solved, |held| &held.after);
        let fix = Fix {
            column,
            from: before.values[column],
            value,
        };
        let after = engine::fix(plan, before, fix);
        (bound.lowers[column], bound.uppers[column]) = (value, value);
        let ended = after.answer.status;
        held.push(Held {
            fix,
            after,
            fresh: engine::solve(&bound),
            bound: bound.clone(),
        });
        if ended != Status::Optimal {
            break;
        }
    }
    held
}

impl Held {
    fn name(&self, plan: &Plan) -> String {
        plan.column_name(self.fix.column)
    }

    /// What solving anew takes, in words.
    fn anew(&self) -> String {
        let answer = &self.fresh.answer;
        match answer.status {
            Status::Optimal => format!("a fresh solve takes {}", answer.steps),
            refused if refused.is_refusal() => {
                format!("a fresh solve is refused with {}", refused.number())
            }
            ended => format!(
                "a fresh solve ends in {} after {}",
                ended.number(),
                counted(answer.steps, "step", "steps")
            ),
        }
    }

    fn text(&self, plan: &Plan) -> String {
        let answer = &self.after.answer;
        let mut out = format!(
            "\nfixed      {} at {}, from {}\nstatus     {}, {}\n",
            self.name(plan),
            number(self.fix.value),
            number(self.fix.from),
            answer.status.number(),
            report::sentence(plan, &self.after)
        );
        if !answer.status.is_refusal() {
            out += &report::result(plan, &self.after, false);
            out += &format!("steps      {}; {}\n", answer.steps, self.anew());
        }
        out
    }

    fn as_json(&self, plan: &Plan) -> String {
        let (answer, fresh) = (&self.after.answer, &self.fresh.answer);
        format!(
            "{{\"column\":{},\"value\":{},\"from\":{},\"status\":{},\"sentence\":{},\"objective\":{},\"steps\":{},\"fresh_status\":{},\"fresh_steps\":{}}}",
            quoted(&self.name(plan)),
            json(self.fix.value),
            json(self.fix.from),
            answer.status.number(),
            quoted(&report::sentence(plan, &self.after)),
            json(plan.objective(answer.objective)),
            answer.steps,
            fresh.status.number(),
            fresh.steps
        )
    }
}

/// What is told behind the solved plan: each column that was held, then the plan as it is left.
pub fn text(plan: &Plan, held: &[Held], with_bits: bool) -> String {
    let mut out: String = held.iter().map(|one| one.text(plan)).collect();
    if let Some(last) = held.last() {
        out += &report::values(plan, &last.after, with_bits);
    }
    out
}

/// A list in the JSON of the plan as it is left.
pub fn as_json(plan: &Plan, held: &[Held]) -> String {
    let all: Vec<String> = held.iter().map(|one| one.as_json(plan)).collect();
    format!(",\"fixed\":[{}]", all.join(","))
}

/// The page of the plan as it is left, with what was held.
pub fn page(plan: &Plan, held: &[Held], last: &Solved) -> Page {
    let mut page = report::page(plan, last);
    for one in held {
        page.text(&format!(
            "{} was fixed at {}, from {}: {} {}; {}.",
            one.name(plan),
            number(one.fix.value),
            number(one.fix.from),
            report::sentence(plan, &one.after),
            counted(one.after.answer.steps, "step", "steps"),
            one.anew()
        ));
    }
    page
}
