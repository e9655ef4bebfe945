//! Nights (02, Ask 14) through the library, beside the reference over the oracles: the answer field by field, every
//! lent cell, and what a night promises.

mod cases;
mod promises;
pub mod reference;

use oracle::rng::Rng;
use oracle_sheet::file_cases::Tried;
use oracle_sheet::reference::Verdict;

use crate::lent::{same, Cell, Lent};
use crate::library::{self, tevalumi_night};
use crate::plans::{self, Given};
use crate::wholes::Case;
use crate::EXTRA;

use promises::Gaps;
use reference::{Audit, Memory, Night, Section, Stage, Told};

/// Whether the library is asked too, or the seeded nights are counted alone.
#[derive(Clone, Copy, Debug, PartialEq)]
pub enum Asked {
    Both,
    Reference,
}

/// Every seeded night.
pub fn run(asked: Asked, seed: u64) -> Tried {
    let mut tried = Tried::default();
    for (name, least) in cases::wanted() {
        tried.want(name, least);
    }
    let mut rng = Rng::named(seed, "lent nights");
    cases::nights(seed, &mut |night| {
        let before = blank(&night);
        let mut memory = before.clone();
        let told = reference::night(&night, &mut memory);
        cases::count(&night, &told, &memory, &mut tried);
        let mut whole = memory.whole.clone();
        if asked == Asked::Both {
            let fault = compare(&night, &told, memory, &mut whole, &mut rng);
            tried.see("nights", fault.is_none(), || {
                format!("{}: {}", night.family, fault.unwrap_or_default())
            });
        }
        if let Some(gaps) = gaps(&told) {
            promises::test(&night, &gaps, &whole, &mut tried);
        }
    });
    tried
}

/// The gaps, where amounts are handed out.
fn gaps(told: &Told) -> Option<Gaps> {
    let gap = |stage: Option<&Stage>| match stage?.audit {
        Audit::Judged(Verdict::Gap(gap)) => Some(gap),
        _ => None,
    };
    Some(Gaps {
        first: gap(told.first.as_ref()).filter(|_| told.kind > 5)?,
        second: gap(told.second.as_ref()),
    })
}

/// The memory before a night: marked cells.
fn blank(night: &Night) -> Memory {
    let lent = &night.lent;
    Memory {
        values: vec![Cell::MARK; lent.values],
        numbers: vec![Cell::MARK; lent.numbers],
        doubles: vec![Cell::MARK; lent.doubles],
        factor_numbers: vec![Cell::MARK; lent.factor_numbers],
        factor_coeffs: vec![Cell::MARK; lent.factor_coeffs],
        whole: vec![Cell::MARK; night.whole],
        emptied: vec![],
    }
}

/// A night's arrays as lent to be read, some longer than they are by marked cells.
#[derive(Clone)]
struct Arrays {
    numbers: [Lent<i64>; 6],
    bytes: [Lent<u8>; 3],
}

impl Arrays {
    /// An array that is too short stays so.
    fn of(night: &Night, rng: &mut Rng) -> Arrays {
        let plan = &night.plan;
        let longer = reference::lengths(night)
            .iter()
            .all(|(_, lent, needed)| lent >= needed);
        let mut extra = || if longer { rng.below(EXTRA) } else { 0 };
        Arrays {
            numbers: [
                &plan.coef,
                &plan.cost,
                &night.reports,
                &plan.lower,
                &plan.upper,
                &plan.rhs,
            ]
            .map(|cells| Lent::longer(cells, extra())),
            bytes: [&plan.haslow, &plan.hasup, &plan.ops].map(|cells| Lent::longer(cells, extra())),
        }
    }

    fn stayed(&self, before: &Arrays) -> bool {
        let numbers = self.numbers.iter().zip(&before.numbers);
        let bytes = self.bytes.iter().zip(&before.bytes);
        numbers.into_iter().all(|(is, was)| is.stayed(was, 0))
            && bytes.into_iter().all(|(is, was)| is.stayed(was, 0))
    }

    fn night(
        &self,
        night: &Night,
        memory: &mut plans::Memory,
        whole: &mut Lent<i64>,
    ) -> library::Night {
        let [coefs, alarms, reports, lowers, uppers, rhs] = &self.numbers;
        let [lower_marks, upper_marks, ops] = &self.bytes;
        tevalumi_night(
            night.plan.rows as usize,
            night.plan.columns as usize,
            coefs.get(),
            alarms.get(),
            reports.get(),
            lowers.get(),
            uppers.get(),
            lower_marks.get(),
            upper_marks.get(),
            rhs.get(),
            ops.get(),
            night.budget,
            night.tolerance,
            memory.values.lend(),
            memory.numbers.lend(),
            memory.doubles.lend(),
            memory.factor_numbers.lend(),
            memory.factor_coeffs.lend(),
            whole.lend(),
        )
    }
}

/// The library's night: what differs from the reference's, or what it changed that it must leave. Its whole numbers are
/// handed back.
fn compare(
    night: &Night,
    told: &Told,
    memory: Memory,
    own: &mut Vec<i64>,
    rng: &mut Rng,
) -> Option<String> {
    let arrays = Arrays::of(night, rng);
    let arrays_before = arrays.clone();
    let lent_before = plans::Memory::marked(&night.lent);
    let whole_before = Lent::<i64>::marked(night.whole);
    let (mut lent, mut whole) = (lent_before.clone(), whole_before.clone());
    let answer = arrays.night(night, &mut lent, &mut whole);
    *own = whole.get().to_vec();
    if !arrays.stayed(&arrays_before) {
        return Some("the plan changed".into());
    }
    if let Some(field) = differing(&answer, &numbers(told)) {
        return Some(field);
    }
    if !whole.stayed(&whole_before, night.whole) {
        return Some("a cell beside the whole numbers changed".into());
    }
    if let Some(at) = (0..night.whole).find(|&at| whole.get()[at] != memory.whole[at]) {
        return Some(format!(
            "whole cell {at} is {}, not {}",
            whole.get()[at],
            memory.whole[at]
        ));
    }
    let left = memory_differs(night, &lent, &lent_before, memory);
    left.or_else(|| solves_differ(told, &lent, lent_before))
        .map(|array| format!("{array} of a night of kind {}", told.kind))
}

/// The first of the solver's arrays that isn't as the oracle has it, to the bit.
fn memory_differs(
    night: &Night,
    lent: &plans::Memory,
    before: &plans::Memory,
    mut memory: Memory,
) -> Option<&'static str> {
    for section in std::mem::take(&mut memory.emptied) {
        match section {
            Section::Numbers(cells) => {
                memory.numbers[cells.clone()].copy_from_slice(&lent.numbers.get()[cells]);
            }
            Section::Doubles(cells) => {
                memory.doubles[cells.clone()].copy_from_slice(&lent.doubles.get()[cells]);
            }
        }
    }
    let guards = &night.lent;
    let same = [
        (
            "values",
            same(lent.values.get(), &memory.values)
                && lent.values.stayed(&before.values, guards.values),
        ),
        (
            "numbers",
            same(lent.numbers.get(), &memory.numbers)
                && lent.numbers.stayed(&before.numbers, guards.numbers),
        ),
        (
            "doubles",
            same(lent.doubles.get(), &memory.doubles)
                && lent.doubles.stayed(&before.doubles, guards.doubles),
        ),
        (
            "factor_numbers",
            same(lent.factor_numbers.get(), &memory.factor_numbers)
                && lent
                    .factor_numbers
                    .stayed(&before.factor_numbers, guards.factor_numbers),
        ),
        (
            "factor_coeffs",
            same(lent.factor_coeffs.get(), &memory.factor_coeffs)
                && lent
                    .factor_coeffs
                    .stayed(&before.factor_coeffs, guards.factor_coeffs),
        ),
    ];
    same.into_iter()
        .find(|(_, same)| !same)
        .map(|(name, _)| name)
}

/// The same arrays beside those that the library's own solve leaves, one stage's plan after the other: so for the cells
/// that a factoring emptied too, which the oracle doesn't tell.
fn solves_differ(
    told: &Told,
    lent: &plans::Memory,
    mut own: plans::Memory,
) -> Option<&'static str> {
    for plan in &told.solved {
        own.solve(plan, &Given::of(plan));
    }
    let same = [
        same(lent.values.get(), own.values.get()),
        same(lent.numbers.get(), own.numbers.get()),
        same(lent.doubles.get(), own.doubles.get()),
        same(lent.factor_numbers.get(), own.factor_numbers.get()),
        same(lent.factor_coeffs.get(), own.factor_coeffs.get()),
    ];
    same.contains(&false)
        .then_some("an array beside two solves")
}

// ---- the answer as the header has it

fn numbers(told: &Told) -> library::Night {
    library::Night {
        status: usize::from(told.short),
        kind: told.kind,
        column: told.column,
        first: stage_numbers(told.first.as_ref()),
        second: stage_numbers(told.second.as_ref()),
    }
}

/// All zeros where the stage wasn't run; what an audit doesn't use is 0 too.
fn stage_numbers(stage: Option<&Stage>) -> library::Stage {
    let mut numbers = library::Stage {
        run: library::Answer {
            status: 0,
            objective: 0.0,
            steps: 0,
            place: 0,
            at: 0,
            within: 0,
            excess: 0.0,
        },
        audit: 0,
        opening: 0,
        proposal: library::Proposal {
            status: 0,
            kind: 0,
            place: 0,
            answer: library::Whole {
                kind: 0,
                number: 0,
                beyond: 0.0,
            },
        },
        verdict: library::SheetVerdict {
            status: 0,
            kind: 0,
            value: 0,
        },
    };
    let Some(Stage { run, audit }) = stage else {
        return numbers;
    };
    let [place, at, within] = reference::place(run.outcome);
    numbers.run = library::Answer {
        status: run.outcome.number().into(),
        objective: run.objective,
        steps: run.steps as usize,
        place,
        at,
        within,
        excess: run.excess,
    };
    match audit {
        Audit::NotRun => {}
        Audit::NotWhole(missed) => {
            numbers.audit = 1;
            (numbers.proposal.kind, numbers.proposal.place) = (missed.kind, missed.place);
            let answer = &mut numbers.proposal.answer;
            match missed.case {
                Case::Whole(_) => unreachable!("it isn't whole"),
                Case::Beyond(bits) => {
                    (answer.kind, answer.beyond) = (1, f64::from_bits(bits));
                }
                Case::NotANumber => answer.kind = 2,
            }
        }
        Audit::NotOpened(refused) => {
            (numbers.audit, numbers.opening) = (2, (*refused).into());
        }
        Audit::Judged(verdict) => {
            numbers.audit = 3;
            let (kind, value) = match *verdict {
                Verdict::NoPlan => (0, 0),
                Verdict::NoFloor => (1, 0),
                Verdict::Gap(gap) => (2, i64::try_from(gap).expect("of an opened sheet")),
                Verdict::NoneExists => (3, 0),
                Verdict::Refused(_) => unreachable!("the sheet was opened"),
            };
            (numbers.verdict.kind, numbers.verdict.value) = (kind, value);
        }
    }
    numbers
}

type Field = (&'static str, u64);

fn stage_fields(stage: &library::Stage) -> [Field; 18] {
    let (run, proposal) = (&stage.run, &stage.proposal);
    [
        ("status", run.status.bits()),
        ("objective", run.objective.bits()),
        ("steps", run.steps.bits()),
        ("place", run.place.bits()),
        ("at", run.at.bits()),
        ("within", run.within.bits()),
        ("excess", run.excess.bits()),
        ("audit", stage.audit.bits()),
        ("opening", stage.opening.bits()),
        ("proposal's status", proposal.status.bits()),
        ("proposal's kind", proposal.kind.bits()),
        ("proposal's place", proposal.place.bits()),
        ("answer's kind", proposal.answer.kind.bits()),
        ("answer's number", proposal.answer.number.bits()),
        ("answer's beyond", proposal.answer.beyond.bits()),
        ("verdict's status", stage.verdict.status.bits()),
        ("verdict's kind", stage.verdict.kind.bits()),
        ("verdict's value", stage.verdict.value.bits()),
    ]
}

/// The first field that differs, to the bit.
fn differing(ours: &library::Night, theirs: &library::Night) -> Option<String> {
    let fields = |night: &library::Night| {
        [
            ("status", night.status.bits()),
            ("kind", night.kind.bits()),
            ("column", night.column.bits()),
        ]
    };
    let mut parts = [
        ("night", fields(ours).to_vec(), fields(theirs).to_vec()),
        (
            "first stage",
            stage_fields(&ours.first).to_vec(),
            stage_fields(&theirs.first).to_vec(),
        ),
        (
            "second stage",
            stage_fields(&ours.second).to_vec(),
            stage_fields(&theirs.second).to_vec(),
        ),
    ]
    .into_iter();
    parts.find_map(|(part, ours, theirs)| {
        let mut both = ours.into_iter().zip(theirs);
        let ((name, is), (_, wanted)) = both.find(|(ours, theirs)| ours != theirs)?;
        Some(format!("the {part}'s {name} is {is:#x}, not {wanted:#x}"))
    })
}

/// A run's status.
fn status(stage: &Stage) -> u8 {
    stage.run.outcome.number()
}
