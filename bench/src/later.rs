//! Calls that go on from what a plan's run left, beside a fresh solve of the plan that they solve and beside the oracle's
//! call: a column held still, let go, other costs.

use std::rc::Rc;

use oracle::gate::Session;
use oracle::plan::{Call, Plan};
use oracle::rng::Rng;
use tevalumi::raw::Status;

use crate::plans::SEED;
use crate::race::{Case, Made, Prepared, Set, Side, ANEW, LIBRARY, ORACLE};
use crate::sides::{self, bits, Library, Seen};

/// What is done to a solved plan.
#[derive(Clone, Copy, Debug, PartialEq)]
pub enum Kind {
    /// The first basic column is held at half its value, rounded down.
    Halved,
    /// The first basic column is held at its lower bound: 02's unit under repair.
    Stopped,
    /// The first column that isn't basic is held in the middle between its bounds, rounded down; at 1 where it has no
    /// upper one.
    NonBasic,
    /// The column of `Halved` is let go again.
    LetGo,
    /// One column in four has another cost, by up to a third.
    Repriced,
}

impl Kind {
    pub const ALL: &[Kind] = &[
        Kind::Halved,
        Kind::Stopped,
        Kind::NonBasic,
        Kind::LetGo,
        Kind::Repriced,
    ];

    fn sentence(self) -> &'static str {
        match self {
            Kind::Halved => "fix: a basic column at half its value",
            Kind::Stopped => "fix: a basic column at its lower bound",
            Kind::NonBasic => "fix: a column that isn't basic",
            Kind::LetGo => "unfix: the halved column",
            Kind::Repriced => "reprice: one cost in four",
        }
    }

    /// The calls over the plan's run, the last of which is the one, and the plan that it solves; none where the plan has
    /// no such column.
    fn of(self, plan: &Plan, solved: &Library) -> Option<(Vec<Call>, Plan)> {
        let mut target = plan.clone();
        if self == Kind::Repriced {
            let mut rng = Rng::named(SEED, &format!("reprice {}", plan.id));
            for cost in &mut target.cost {
                if rng.one_in(4) {
                    *cost *= 1.0 + (rng.unit() * 2.0 - 1.0) / 3.0;
                }
            }
            let cost = target.cost.clone();
            return Some((vec![Call::Reprice { cost }], target));
        }
        let wanted = self != Kind::NonBasic;
        let at = (0..plan.columns as usize).find(|&at| solved.stands(at).1 == wanted)?;
        let (lower, upper) = (plan.lower[at], plan.upper[at]);
        let value = match self {
            Kind::Stopped => lower,
            Kind::NonBasic if upper == f64::INFINITY => 1.0,
            Kind::NonBasic => ((lower + upper) / 2.0).floor(),
            _ => (solved.stands(at).0 / 2.0).floor().max(lower),
        };
        let column = at as u64;
        let fix = Call::Fix { column, value };
        if self == Kind::LetGo {
            return Some((vec![fix, Call::Unfix { column }], target));
        }
        (target.lower[at], target.upper[at]) = (value, value);
        Some((vec![fix], target))
    }
}

/// The library's call.
fn library(memory: &mut Library, plan: &Plan, target: &Plan, call: &Call) -> Seen {
    match *call {
        Call::Fix { column, value } => memory.fix(plan, column as usize, value),
        Call::Unfix { column } => memory.unfix(plan, column as usize),
        Call::Reprice { .. } => memory.reprice(target),
        _ => unreachable!("no kind of {target:?} has such a call"),
    }
}

/// The oracle with the memory that these calls leave.
fn oracle(plan: &Plan, calls: &[Call]) -> Session {
    let mut session = sides::oracle_solved(plan);
    for call in calls {
        session.call(call);
    }
    session
}

/// Why there is nothing to time.
enum Left {
    /// The fresh solve is refused with 7.
    Refused,
    /// The plan has no such column, or one of the two doesn't end in 0.
    Unsolved,
    /// The sides don't answer alike.
    Differs(String),
}

/// The call once on both sides, and the fresh solve once on both.
fn case(plan: &Plan, kind: Kind) -> Result<Case<'_>, Left> {
    let mut solved = Library::new(plan);
    if !solved.solve(plan).optimal() {
        return Err(Left::Unsolved);
    }
    let (calls, target) = kind.of(plan, &solved).ok_or(Left::Unsolved)?;
    let (last, before) = calls.split_last().expect("a call");
    for call in before {
        if !library(&mut solved, plan, &target, call).optimal() {
            return Err(Left::Unsolved);
        }
    }
    let mut memory = Library::new(plan);
    memory.take(&solved);
    let seen = library(&mut memory, plan, &target, last);
    let told = sides::oracle_call(&mut oracle(plan, before), last);
    alike("the call", &memory, seen, &told)?;
    let anew = memory.solve(&target);
    alike("the fresh solve", &memory, anew, &sides::oracle(&target))?;
    if anew.number == Status::SlackOutside.number() {
        return Err(Left::Refused);
    }
    if !seen.optimal() || !anew.optimal() {
        return Err(Left::Unsolved);
    }
    if !seen.near(anew, 1e-9) {
        return Err(Left::Differs(format!("{seen:?}, anew {anew:?}")));
    }
    let (last, before) = (last.clone(), before.to_vec());
    let solved = Rc::new(solved);
    Ok(Case {
        id: plan.id.clone(),
        sides: vec![
            Side::new(seen.steps, {
                let (solved, target, last) = (solved.clone(), target.clone(), last.clone());
                Prepared {
                    memory: Library::new(plan),
                    prepare: move |memory: &mut Library| memory.take(&solved),
                    call: move |memory: &mut Library| {
                        library(memory, plan, &target, &last);
                    },
                }
            }),
            Side::new(told.0.steps, {
                Prepared {
                    memory: None,
                    prepare: move |memory: &mut Option<Session>| {
                        *memory = Some(oracle(plan, &before));
                    },
                    call: move |memory: &mut Option<Session>| {
                        let session = memory.as_mut().expect("it is prepared");
                        sides::oracle_call(session, &last);
                    },
                }
            }),
            // Its memory is prepared too, so that it finds it in the caches as the call does.
            Side::new(anew.steps, {
                Prepared {
                    memory: Library::new(plan),
                    prepare: move |memory: &mut Library| memory.take(&solved),
                    call: move |memory: &mut Library| {
                        memory.solve(&target);
                    },
                }
            }),
        ],
    })
}

/// The library's answer and the oracle's, bit by bit.
fn alike(what: &str, library: &Library, seen: Seen, oracle: &(Seen, Vec<f64>)) -> Result<(), Left> {
    match seen == oracle.0 && bits(library.written(seen)) == bits(&oracle.1) {
        true => Ok(()),
        false => Err(Left::Differs(format!(
            "{what}: library {seen:?}, oracle {:?}",
            oracle.0
        ))),
    }
}

/// Each of the plans, with the call of this kind; or how some differ.
pub fn set(kind: Kind, plans: &[Plan]) -> Made<'_> {
    let mut set = Set::new(kind.sentence(), &[LIBRARY, ORACLE, ANEW]);
    let (mut refused, mut unsolved, mut differ) = (0, 0, vec![]);
    for plan in plans {
        match case(plan, kind) {
            Ok(case) => set.cases.push(case),
            Err(Left::Refused) => refused += 1,
            Err(Left::Unsolved) => unsolved += 1,
            Err(Left::Differs(how)) => differ.push(format!("{}: {how}", plan.id)),
        }
    }
    if refused + unsolved > 0 {
        set.remark = format!(
            "left out: {refused} whose fresh solve is refused with 7, {unsolved} where one of the two doesn't end in 0"
        );
    }
    set.made(differ)
}
