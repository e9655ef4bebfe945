//! The night (02, Ask 14) over the oracles: the solver's and the sheet's, with the rounding of `wholes`. It shares no
//! code with the library.

use std::ops::Range;

use oracle::answer::{Answer, Factor, Outcome, Rejected, State};
use oracle::gate::solve;
use oracle::limits;
use oracle::plan::Plan;
use oracle::shown::Options;
use oracle_sheet::reference::{self, open, within, Sheet, Verdict};

use crate::plans::{Columns, Lengths};
use crate::sections;
use crate::wholes::{amount, multiplier, Case};

const ROWS: usize = limits::ROWS as usize;
const COLUMNS: usize = limits::COLUMNS as usize;

/// Where the sections of the whole numbers stand.
pub const FIRST: usize = 0;
pub const SECOND: usize = FIRST + STAGE;
pub const HANDED: usize = SECOND + STAGE;
pub const COEFS: usize = HANDED + COLUMNS;
pub const WHOLE: usize = COEFS + ROWS * COLUMNS;
/// A stage's section: amounts, multipliers, R, D, C, B and the counts.
pub const MULTS: usize = COLUMNS;
pub const COST: usize = 2 * (COLUMNS + ROWS);
pub const FLOOR: usize = COST + 1;
pub const STAGE: usize = FLOOR + 5;

/// A night as lent.
#[derive(Clone, Debug)]
pub struct Night {
    pub family: &'static str,
    /// With the alarm costs.
    pub plan: Sheet,
    pub reports: Vec<i64>,
    pub budget: usize,
    pub tolerance: f64,
    pub lent: Lengths,
    pub whole: usize,
}

/// Every cell that a night may write.
#[derive(Clone)]
pub struct Memory {
    pub values: Vec<f64>,
    pub numbers: Vec<usize>,
    pub doubles: Vec<f64>,
    pub factor_numbers: Vec<usize>,
    pub factor_coeffs: Vec<f64>,
    pub whole: Vec<i64>,
    /// The cells of the eta store that may hold what a factoring emptied, which no oracle tells.
    pub emptied: Vec<Section>,
}

/// A section of `numbers` or of `doubles`.
#[derive(Clone, Debug, PartialEq)]
pub enum Section {
    Numbers(Range<usize>),
    Doubles(Range<usize>),
}

/// A proposed number that isn't whole: 2 an amount, 3 a multiplier.
#[derive(Clone, Copy, Debug)]
pub struct Missed {
    pub kind: usize,
    pub place: usize,
    pub case: Case,
}

#[derive(Clone, Debug)]
pub enum Audit {
    NotRun,
    NotWhole(Missed),
    NotOpened(u8),
    Judged(Verdict),
}

#[derive(Clone, Debug)]
pub struct Stage {
    pub run: Answer,
    pub audit: Audit,
}

/// What a night says.
#[derive(Clone, Debug)]
pub struct Told {
    pub short: bool,
    /// 1 no gap, 2 rows full, 3 entries full, 4 cost beyond, 5 found beyond, 6 the first stands, 7 handed.
    pub kind: usize,
    pub column: usize,
    pub first: Option<Stage>,
    pub second: Option<Stage>,
    /// The plans that were handed to the solver.
    pub solved: Vec<Plan>,
    /// All that would stop it after its first stage; the first of these does.
    pub stops: Vec<(usize, usize)>,
}

// ---- the solver's memory

/// A section's first cells.
fn put<T: Copy>(to: &mut [T], section: Range<usize>, cells: &[T]) {
    to[section][..cells.len()].copy_from_slice(cells);
}

fn past(section: Range<usize>, written: usize) -> Range<usize> {
    section.start + written..section.end
}

impl Memory {
    /// What a solve leaves: nothing where it is refused.
    fn store(&mut self, columns: usize, run: &Answer) {
        let Some(state) = &run.state else { return };
        put(&mut self.values, 0..run.values.len(), &run.values);
        self.store_numbers(columns, state);
        let doubles = [
            (sections::BASIC_VAR_VALS, &state.bval),
            (sections::NB_VAR_VALS, &state.nval),
            (sections::PRICES, &state.price),
            (sections::NORMS, &state.norm),
            (sections::ETA_COEFFS, &state.etaval),
            (sections::DUAL_NORMS, &state.dnorm),
            (sections::OBJECTIVE, &vec![run.objective]),
        ];
        for (section, cells) in doubles {
            put(&mut self.doubles, section, cells);
        }
        let counts = [
            state.kept.len(),
            state.etarow.len(),
            state.etaidx.len(),
            run.steps as usize,
            run.outcome.number().into(),
            usize::from(state.factor.is_some()),
            state.factorings,
        ];
        put(&mut self.numbers, sections::COUNTS, &counts);
        self.note_emptied(state);
        if let Some(factor) = &state.factor {
            self.store_factor(state.kept.len(), factor);
        }
    }

    fn store_numbers(&mut self, columns: usize, state: &State) {
        let mut places = vec![0; columns + state.kept.len()];
        for (place, &var) in state.nonbasic.iter().enumerate() {
            places[var] = place;
        }
        for (row, &var) in state.basic.iter().enumerate() {
            places[var] = columns + row;
        }
        let flags = state.flags.iter().map(|&flag| flag.into()).collect();
        let numbers = [
            (sections::BASIC_VARS, &state.basic),
            (sections::NB_VARS, &state.nonbasic),
            (sections::VAR_STATES, &places),
            (sections::FLAGS, &flags),
            (sections::ETA_LEAVING, &state.etarow),
            (sections::ETA_STARTS, &state.etaptr),
            (sections::ETA_ROWS, &state.etaidx),
            (sections::KEPT, &state.kept),
        ];
        for (section, cells) in numbers {
            put(&mut self.numbers, section, cells);
        }
    }

    /// The eta store past what it holds: after a factoring of this run it isn't known, and else it is as it was.
    fn note_emptied(&mut self, state: &State) {
        let (etas, entries) = (state.etarow.len(), state.etaidx.len());
        let store = [
            Section::Numbers(past(sections::ETA_LEAVING, etas)),
            Section::Numbers(past(sections::ETA_STARTS, etas + 1)),
            Section::Numbers(past(sections::ETA_ROWS, entries)),
            Section::Doubles(past(sections::ETA_COEFFS, entries)),
        ];
        if state.factorings > 0 {
            self.emptied = store.to_vec();
        } else if !self.emptied.is_empty() {
            for (emptied, left) in self.emptied.iter_mut().zip(&store) {
                match (emptied, left) {
                    (Section::Numbers(cells), Section::Numbers(left))
                    | (Section::Doubles(cells), Section::Doubles(left)) => {
                        cells.start = cells.start.max(left.start);
                    }
                    _ => unreachable!("the sections stand in one order"),
                }
            }
        }
    }

    /// A factoring writes each part whole: 0 where there is no number, and the most rows as the pivot number of a row
    /// that isn't kept.
    fn store_factor(&mut self, size: usize, factor: &Factor) {
        let mut places = vec![ROWS; ROWS];
        for (number, &row) in factor.pivots.iter().enumerate() {
            places[row] = number;
        }
        let turned = |starts: &[usize], rows: &[usize], vals: &[f64]| {
            Columns::transposed(size, starts, rows, vals).expect("the oracle's factor")
        };
        let lt = turned(&factor.lptr, &factor.lidx, &factor.lval);
        let ut = turned(&factor.uptr, &factor.uidx, &factor.uval);
        let numbers = [
            (sections::PIVOTS, &factor.pivots),
            (sections::PIVOT_PLACES, &places),
            (sections::L_STARTS, &factor.lptr),
            (sections::L_ROWS, &factor.lidx),
            (sections::U_STARTS, &factor.uptr),
            (sections::U_ROWS, &factor.uidx),
            (sections::LT_STARTS, &lt.starts),
            (sections::LT_ROWS, &lt.rows),
            (sections::UT_STARTS, &ut.starts),
            (sections::UT_ROWS, &ut.rows),
        ];
        let coeffs = [
            (sections::L_COEFFS, &factor.lval),
            (sections::U_COEFFS, &factor.uval),
            (sections::LT_COEFFS, &lt.vals),
            (sections::UT_COEFFS, &ut.vals),
            (sections::DIAG, &factor.udiag),
        ];
        self.factor_numbers[..sections::FACTOR_NUMBERS].fill(0);
        self.factor_coeffs[..sections::FACTOR_COEFFS].fill(0.0);
        for (section, cells) in numbers {
            put(&mut self.factor_numbers, section, cells);
        }
        for (section, cells) in coeffs {
            put(&mut self.factor_coeffs, section, cells);
        }
    }
}

// ---- a stage

/// Whether sizes are within their limits: else no cell is read.
fn small(plan: &Sheet) -> bool {
    plan.rows <= limits::ROWS && plan.columns <= limits::COLUMNS
}

/// "handed to the solver as the same numbers in doubles, absent bounds infinite and zero coefficients left out".
fn in_doubles(plan: &Sheet, budget: usize, tolerance: f64) -> Plan {
    let mut doubles = Plan {
        columns: plan.columns,
        rows: plan.rows,
        budget: budget as u64,
        tolerance,
        ..Plan::default()
    };
    if !small(plan) {
        return doubles;
    }
    let (rows, columns) = (plan.rows as usize, plan.columns as usize);
    let bound = |mark: u8, number: i64, absent: f64| match mark {
        1 => number as f64,
        _ => absent,
    };
    for j in 0..columns {
        doubles.cost.push(plan.cost[j] as f64);
        let (lower, upper) = (f64::NEG_INFINITY, f64::INFINITY);
        doubles
            .lower
            .push(bound(plan.haslow[j], plan.lower[j], lower));
        doubles
            .upper
            .push(bound(plan.hasup[j], plan.upper[j], upper));
    }
    doubles.starts.push(0);
    for i in 0..rows {
        for j in 0..columns {
            let coef = plan.coef[i * columns + j];
            if coef != 0 {
                doubles.cols.push(j as u64);
                doubles.coef.push(coef as f64);
            }
        }
        doubles.starts.push(doubles.cols.len() as u64);
        doubles.ops.push(plan.ops[i].into());
        doubles.rhs.push(plan.rhs[i] as f64);
    }
    doubles.entries = doubles.cols.len() as u64;
    doubles
}

/// The amounts and multipliers of an Optimal run, in cells of 0; or the first number that isn't whole.
fn proposed(plan: &Plan, run: &Answer, state: &State) -> Result<(Vec<i64>, Vec<i64>), Missed> {
    let columns = plan.columns as usize;
    let mut amounts = vec![0; COLUMNS];
    for (place, &value) in run.values[..columns].iter().enumerate() {
        match amount(value) {
            Case::Whole(whole) => amounts[place] = whole,
            case => {
                return Err(Missed {
                    kind: 2,
                    place,
                    case,
                })
            }
        }
    }
    let mut mults = vec![0; ROWS];
    for (k, &place) in state.kept.iter().enumerate() {
        // The rows that are kept rise, so the first one that isn't whole is met first.
        let slack = state.nonbasic.iter().position(|&var| var == columns + k);
        let Some(at) = slack else { continue };
        match multiplier(plan.ops[place] as u8, state.price[at]) {
            Case::Whole(whole) => mults[place] = whole,
            case => {
                return Err(Missed {
                    kind: 3,
                    place,
                    case,
                })
            }
        }
    }
    Ok((amounts, mults))
}

/// A stage's section of the whole numbers.
fn section(sheet: &Sheet) -> Vec<i64> {
    let mut cells = [&sheet.amount[..], &sheet.mult[..]].concat();
    let kept = &sheet.kept;
    let kept = kept.r.iter().chain(&kept.d).chain([&kept.c, &kept.b]);
    let kept = kept.chain(&sheet.kept.counts);
    cells.extend(kept.map(|&cell| i64::try_from(cell).expect("an opened sheet's")));
    assert_eq!(cells.len(), STAGE);
    cells
}

/// Solve, round, audit. The sheet where it was opened.
fn audited(plan: &Sheet, doubles: &Plan, run: &Answer) -> (Audit, Option<Sheet>) {
    let Some(state) = run
        .state
        .as_ref()
        .filter(|_| run.outcome == Outcome::Optimal)
    else {
        return (Audit::NotRun, None);
    };
    let (amount, mult) = match proposed(doubles, run, state) {
        Ok(proposed) => proposed,
        Err(missed) => return (Audit::NotWhole(missed), None),
    };
    let mut sheet = Sheet {
        amount,
        mult,
        ..plan.clone()
    };
    sheet.kept.r = vec![0; ROWS];
    sheet.kept.d = vec![0; COLUMNS];
    match open(&mut sheet) {
        0 => (Audit::Judged(reference::verdict(&sheet)), Some(sheet)),
        refused => (Audit::NotOpened(refused), None),
    }
}

fn stage(
    night: &Night,
    plan: &Sheet,
    memory: &mut Memory,
    solved: &mut Vec<Plan>,
) -> (Stage, Option<Sheet>) {
    let doubles = in_doubles(plan, night.budget, night.tolerance);
    let run = solve(&doubles, Options::default());
    memory.store(doubles.columns as usize, &run);
    let (audit, sheet) = audited(plan, &doubles, &run);
    solved.push(doubles);
    (Stage { run, audit }, sheet)
}

// ---- the night

/// The lent arrays by name, with the cells lent and the cells needed.
pub fn lengths(night: &Night) -> [(&'static str, usize, usize); 15] {
    let plan = &night.plan;
    let (rows, columns) = (plan.rows as usize, plan.columns as usize);
    let lent = &night.lent;
    [
        ("coefs", plan.coef.len(), rows.saturating_mul(columns)),
        ("alarm costs", plan.cost.len(), columns),
        ("report costs", night.reports.len(), columns),
        ("lowers", plan.lower.len(), columns),
        ("uppers", plan.upper.len(), columns),
        ("lower marks", plan.haslow.len(), columns),
        ("upper marks", plan.hasup.len(), columns),
        ("right sides", plan.rhs.len(), rows),
        ("comparisons", plan.ops.len(), rows),
        (
            "values",
            lent.values,
            columns.saturating_add(rows).saturating_add(1),
        ),
        ("numbers", lent.numbers, sections::NUMBERS),
        ("doubles", lent.doubles, sections::DOUBLES),
        (
            "factor_numbers",
            lent.factor_numbers,
            sections::FACTOR_NUMBERS,
        ),
        ("factor_coeffs", lent.factor_coeffs, sections::FACTOR_COEFFS),
        ("whole", night.whole, WHOLE),
    ]
}

/// The coefficients that aren't 0.
fn nonzeros(cells: &[i64]) -> usize {
    cells.iter().filter(|&&cell| cell != 0).count()
}

/// What stops a night after its first stage, by 02's order: the kind, and the column of an alarm cost that is beyond.
fn stops(plan: &Sheet, stage: &Stage, opened: Option<&Sheet>) -> Vec<(usize, usize)> {
    let mut stops = vec![];
    let gap = matches!(stage.audit, Audit::Judged(Verdict::Gap(_)));
    let Some(sheet) = opened.filter(|_| gap) else {
        return vec![(1, 0)];
    };
    if plan.rows == limits::ROWS {
        stops.push((2, 0));
    }
    let (rows, columns) = (plan.rows as usize, plan.columns as usize);
    let costs = &plan.cost[..columns];
    let entries = nonzeros(&plan.coef[..rows * columns]) + nonzeros(costs);
    if entries as u64 > limits::ENTRIES {
        stops.push((3, 0));
    }
    let beyond = |&cost: &i64| !within(cost.into(), reference::COEF);
    if let Some(column) = costs.iter().position(beyond) {
        stops.push((4, column));
    }
    if !within(sheet.kept.c, reference::RHS) {
        stops.push((5, 0));
    }
    stops
}

/// The plan with "alarm cost at most what was found" as its last row, and the report costs.
fn second_plan(night: &Night, found: i64) -> Sheet {
    let plan = &night.plan;
    let (rows, columns) = (plan.rows as usize, plan.columns as usize);
    let mut second = Sheet {
        rows: plan.rows + 1,
        cost: night.reports.clone(),
        ..plan.clone()
    };
    second.coef = [&plan.coef[..rows * columns], &plan.cost[..columns]].concat();
    second.rhs.truncate(rows);
    second.rhs.push(found);
    second.ops.truncate(rows);
    second.ops.push(reference::LE);
    second
}

/// The night, and what it leaves in the memory.
pub fn night(night: &Night, memory: &mut Memory) -> Told {
    let mut told = Told {
        short: false,
        kind: 0,
        column: 0,
        first: None,
        second: None,
        solved: vec![],
        stops: vec![],
    };
    let plan = &night.plan;
    if small(plan) && lengths(night).iter().any(|(_, lent, needed)| lent < needed) {
        told.short = true;
        return told;
    }
    let (first, opened) = stage(night, plan, memory, &mut told.solved);
    if let Some(sheet) = &opened {
        put(&mut memory.whole, FIRST..FIRST + STAGE, &section(sheet));
    }
    told.stops = stops(plan, &first, opened.as_ref());
    told.first = Some(first);
    if let Some(&stop) = told.stops.first() {
        (told.kind, told.column) = stop;
        return told;
    }
    let first = opened.expect("a gap verdict");
    let found = i64::try_from(first.kept.c).expect("within 2^31");
    let next = second_plan(night, found);
    put(&mut memory.whole, COEFS..WHOLE, &next.coef);
    let (second, opened) = stage(night, &next, memory, &mut told.solved);
    if let Some(sheet) = &opened {
        put(&mut memory.whole, SECOND..SECOND + STAGE, &section(sheet));
    }
    let stands = !matches!(
        second.audit,
        Audit::Judged(Verdict::Gap(_) | Verdict::NoFloor)
    );
    let amounts = match opened {
        Some(sheet) if !stands => sheet.amount,
        _ => first.amount,
    };
    put(&mut memory.whole, HANDED..COEFS, &amounts);
    told.kind = if stands { 6 } else { 7 };
    told.second = Some(second);
    told
}

/// 1 a row and a place in it, 2 a column, 3 a row, 4 a value, 5 a kept row; with what they number.
pub fn place(outcome: Outcome) -> [usize; 3] {
    match outcome {
        Outcome::BadEntry { row, place } => [1, row, place],
        Outcome::CrossedBounds { column } => [2, column, 0],
        Outcome::FalseEmptyRow { row } => [3, row, 0],
        Outcome::Rejected(Rejected::Value(var)) => [4, var, 0],
        Outcome::Rejected(Rejected::Row(row)) | Outcome::Infeasible { row } => [5, row, 0],
        _ => [0, 0, 0],
    }
}
