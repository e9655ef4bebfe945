//! Plans through the library, and the calls after a run.

use std::ops::Range;

use oracle::answer::{Factor, State};
use oracle::exchange::{Line, Place};
use oracle::limits;
use oracle::plan::{Call, Lent as Name, Plan};
use oracle::rng::Rng;

use crate::lent::{Cell, Lent};
use crate::library::{
    tevalumi_fix, tevalumi_reprice, tevalumi_solve, tevalumi_solve_any, tevalumi_unfix, Answer,
    AnyAnswer,
};
use crate::{sections, EXTRA};

/// A section of one of the arrays that hold the state.
#[derive(Clone, Debug)]
pub enum Section {
    Numbers(Range<usize>),
    Doubles(Range<usize>),
    FactorNumbers(Range<usize>),
    FactorCoeffs(Range<usize>),
}

/// Where each array of docs/EXCHANGE.md stands.
pub fn section(name: Name) -> Section {
    match name {
        Name::Kept => Section::Numbers(sections::KEPT),
        Name::Basic => Section::Numbers(sections::BASIC_VARS),
        Name::Bval => Section::Doubles(sections::BASIC_VAR_VALS),
        Name::Nonbasic => Section::Numbers(sections::NB_VARS),
        Name::Nval => Section::Doubles(sections::NB_VAR_VALS),
        Name::Price => Section::Doubles(sections::PRICES),
        Name::Norm => Section::Doubles(sections::NORMS),
        Name::Flags => Section::Numbers(sections::FLAGS),
        Name::Where => Section::Numbers(sections::VAR_STATES),
        Name::Etarow => Section::Numbers(sections::ETA_LEAVING),
        Name::Etaptr => Section::Numbers(sections::ETA_STARTS),
        Name::Etaidx => Section::Numbers(sections::ETA_ROWS),
        Name::Etaval => Section::Doubles(sections::ETA_COEFFS),
        Name::Dnorm => Section::Doubles(sections::DUAL_NORMS),
        Name::Counts => Section::Numbers(sections::COUNTS),
        Name::Obj => Section::Doubles(sections::OBJECTIVE),
        Name::Numbers => Section::Numbers(0..sections::NUMBERS),
        Name::Doubles => Section::Doubles(0..sections::DOUBLES),
        Name::FactorNumbers => Section::FactorNumbers(0..sections::FACTOR_NUMBERS),
        Name::FactorCoeffs => Section::FactorCoeffs(0..sections::FACTOR_COEFFS),
    }
}

/// How many cells are lent of each array that is written.
#[derive(Clone, Debug)]
pub struct Lengths {
    pub values: usize,
    pub numbers: usize,
    pub doubles: usize,
    pub factor_numbers: usize,
    pub factor_coeffs: usize,
}

/// A size past its limit is said, but not lent.
fn sizes(plan: &Plan) -> (u64, u64) {
    (
        plan.columns.min(limits::COLUMNS + 1),
        plan.rows.min(limits::ROWS + 1),
    )
}

impl Lengths {
    /// Just what the plan needs.
    pub fn needed(plan: &Plan) -> Lengths {
        let (columns, rows) = sizes(plan);
        Lengths {
            values: (columns + rows) as usize,
            numbers: sections::NUMBERS,
            doubles: sections::DOUBLES,
            factor_numbers: sections::FACTOR_NUMBERS,
            factor_coeffs: sections::FACTOR_COEFFS,
        }
    }

    /// What the plan's text says, and where it says nothing, a few cells more than needed. A section that is said to be
    /// shorter than the plan needs makes its array a cell short.
    pub fn told(plan: &Plan, rng: &mut Rng) -> Lengths {
        let needed = Lengths::needed(plan);
        let mut lengths = Lengths {
            values: match plan.room {
                Some([values, _, _]) => told(values, needed.values),
                None => needed.values + rng.below(EXTRA),
            },
            numbers: needed.numbers + rng.below(EXTRA),
            doubles: needed.doubles + rng.below(EXTRA),
            factor_numbers: needed.factor_numbers + rng.below(EXTRA),
            factor_coeffs: needed.factor_coeffs + rng.below(EXTRA),
        };
        // A plan that is too large is refused whatever is lent.
        let small = plan.columns <= limits::COLUMNS && plan.rows <= limits::ROWS;
        for name in Name::ALL {
            let short = small && !plan.lends_enough(name);
            match section(name) {
                Section::Numbers(_) if short => lengths.numbers = needed.numbers - 1,
                Section::Doubles(_) if short => lengths.doubles = needed.doubles - 1,
                _ => {}
            }
        }
        for &(name, length) in &plan.short {
            match name {
                Name::Numbers => lengths.numbers = told(length, needed.numbers),
                Name::Doubles => lengths.doubles = told(length, needed.doubles),
                Name::FactorNumbers => {
                    lengths.factor_numbers = told(length, needed.factor_numbers);
                }
                Name::FactorCoeffs => lengths.factor_coeffs = told(length, needed.factor_coeffs),
                _ => {}
            }
        }
        lengths
    }
}

/// A length as said; one far past what is needed is cut down.
fn told(length: u64, needed: usize) -> usize {
    length.min((needed + EXTRA) as u64) as usize
}

/// The plan's arrays as lent to be read.
#[derive(Clone)]
pub(crate) struct Given {
    costs: Lent<f64>,
    lowers: Lent<f64>,
    uppers: Lent<f64>,
    starts: Lent<usize>,
    cols: Lent<usize>,
    coeffs: Lent<f64>,
    ops: Lent<u8>,
    rhs: Lent<f64>,
}

impl Given {
    pub fn of(plan: &Plan) -> Given {
        let places = |from: &[u64]| from.iter().map(|&n| n as usize).collect::<Vec<_>>();
        // A comparison is a byte here; every one above 2 is as unknown as 255.
        let ops: Vec<u8> = plan.ops.iter().map(|&op| op.min(255) as u8).collect();
        Given {
            costs: Lent::holding(&plan.cost),
            lowers: Lent::holding(&plan.lower),
            uppers: Lent::holding(&plan.upper),
            starts: Lent::holding(&places(&plan.starts)),
            cols: Lent::holding(&places(&plan.cols)),
            coeffs: Lent::holding(&plan.coef),
            ops: Lent::holding(&ops),
            rhs: Lent::holding(&plan.rhs),
        }
    }

    fn stayed(&self, before: &Given) -> bool {
        self.costs.stayed(&before.costs, 0)
            && self.lowers.stayed(&before.lowers, 0)
            && self.uppers.stayed(&before.uppers, 0)
            && self.starts.stayed(&before.starts, 0)
            && self.cols.stayed(&before.cols, 0)
            && self.coeffs.stayed(&before.coeffs, 0)
            && self.ops.stayed(&before.ops, 0)
            && self.rhs.stayed(&before.rhs, 0)
    }
}

/// The memory lent to be written: marked cells, so that every change shows.
#[derive(Clone)]
pub(crate) struct Memory {
    pub values: Lent<f64>,
    pub numbers: Lent<usize>,
    pub doubles: Lent<f64>,
    pub factor_numbers: Lent<usize>,
    pub factor_coeffs: Lent<f64>,
}

/// How much of the state an answer of 0 or 20 to 26 wrote.
#[derive(Clone, Copy)]
struct Wrote {
    values: usize,
    columns: usize,
    kept: usize,
    etas: usize,
    entries: usize,
    /// Since the start, and in this call.
    factorings: usize,
    made: usize,
    /// The entries of L and U, where there is a factor.
    factor: Option<[usize; 2]>,
}

impl Wrote {
    /// The written cells of a section.
    fn cells(&self, name: Name) -> usize {
        match name {
            Name::Kept | Name::Basic | Name::Bval | Name::Dnorm => self.kept,
            Name::Nonbasic | Name::Nval | Name::Price | Name::Norm | Name::Flags => self.columns,
            Name::Where => self.columns + self.kept,
            // What a factoring emptied may have been longer.
            Name::Etarow | Name::Etaptr | Name::Etaidx | Name::Etaval if self.made > 0 => {
                name.needed(0, 0) as usize
            }
            Name::Etarow => self.etas,
            Name::Etaptr => self.etas + 1,
            Name::Etaidx | Name::Etaval => self.entries,
            Name::Counts => 7,
            Name::Obj => 1,
            Name::Numbers | Name::Doubles | Name::FactorNumbers | Name::FactorCoeffs => 0,
        }
    }

    /// The cells of `factor_numbers` that a factor with these entries doesn't use. A factoring writes each part whole: no
    /// number there, and no pivot number of a row that isn't kept.
    fn factor_numbers_unused(&self, [lower, upper]: [usize; 2]) -> [(Range<usize>, usize); 10] {
        let (rows, starts) = (self.kept, self.kept + 1);
        [
            (past(sections::PIVOTS, rows), 0),
            (past(sections::PIVOT_PLACES, rows), sections::PIVOTS.len()),
            (past(sections::L_STARTS, starts), 0),
            (past(sections::L_ROWS, lower), 0),
            (past(sections::U_STARTS, starts), 0),
            (past(sections::U_ROWS, upper), 0),
            (past(sections::LT_STARTS, starts), 0),
            (past(sections::LT_ROWS, lower), 0),
            (past(sections::UT_STARTS, starts), 0),
            (past(sections::UT_ROWS, upper), 0),
        ]
    }

    /// The cells of `factor_coeffs` that it doesn't use: each holds 0.0.
    fn factor_coeffs_unused(&self, [lower, upper]: [usize; 2]) -> [Range<usize>; 5] {
        [
            past(sections::L_COEFFS, lower),
            past(sections::U_COEFFS, upper),
            past(sections::LT_COEFFS, lower),
            past(sections::UT_COEFFS, upper),
            past(sections::DIAG, self.kept),
        ]
    }
}

/// What a call begins with, by its counts: a run has neither.
#[derive(Clone, Copy, Default)]
struct Begins {
    has_factor: bool,
    factorings: usize,
    /// A repricing factors the basis of a store that isn't empty, which is no step.
    own: usize,
}

/// What a call says.
struct Said {
    answer: Answer,
    /// Of a solve from any start: its way, and the steps of the run with costs 0.
    way: Option<(usize, usize)>,
}

impl From<Answer> for Said {
    fn from(answer: Answer) -> Said {
        Said { answer, way: None }
    }
}

impl From<AnyAnswer> for Said {
    fn from(any: AnyAnswer) -> Said {
        Said {
            answer: any.answer,
            way: Some((any.way, any.costless_steps)),
        }
    }
}

impl Said {
    /// Whether a run with costs 0 was Optimal, and so wrote its values.
    fn is_repriced(&self) -> bool {
        matches!(self.way, Some((2, _)))
    }

    /// So many bases may have been factored.
    fn most_factorings(&self, begins: Begins) -> usize {
        match self.way {
            Some((2, costless)) => costless.saturating_add(self.answer.steps).saturating_add(1),
            _ => self.answer.steps.saturating_add(begins.own),
        }
    }
}

/// One of the library's calls with what all of them are lent, and its own arguments.
macro_rules! over {
    ($call:ident, $plan:expr, $given:expr, $memory:expr, $($own:expr),*) => {
        $call(
            $plan.columns as usize,
            $plan.rows as usize,
            $plan.entries as usize,
            $plan.budget as usize,
            $plan.tolerance,
            $given.costs.get(),
            $given.lowers.get(),
            $given.uppers.get(),
            $given.starts.get(),
            $given.cols.get(),
            $given.coeffs.get(),
            $given.ops.get(),
            $given.rhs.get(),
            $memory.values.lend(),
            $memory.numbers.lend(),
            $memory.doubles.lend(),
            $memory.factor_numbers.lend(),
            $memory.factor_coeffs.lend(),
            $($own),*
        )
    };
}

/// Cells of `counts`.
const ETAS: usize = 1;
const STATUS: usize = 4;
const HAS_FACTOR: usize = 5;
const FACTORINGS: usize = 6;

/// What stands in the status cell before the first run: no status of a run.
const NO_RUN: usize = 99;

/// The cells of a section past its written ones.
fn past(section: Range<usize>, written: usize) -> Range<usize> {
    section.start + written..section.end
}

impl Memory {
    pub fn marked(lengths: &Lengths) -> Memory {
        Memory {
            values: Lent::marked(lengths.values),
            numbers: Lent::marked(lengths.numbers),
            doubles: Lent::marked(lengths.doubles),
            factor_numbers: Lent::marked(lengths.factor_numbers),
            factor_coeffs: Lent::marked(lengths.factor_coeffs),
        }
    }

    /// No run yet, for calls that may find none.
    fn without_a_run(mut self) -> Memory {
        let counts = self.numbers.lend().get_mut(sections::COUNTS);
        for (i, cell) in counts.into_iter().flatten().enumerate() {
            *cell = if i == STATUS { NO_RUN } else { 0 };
        }
        self
    }

    /// Writes one cell between calls; one that isn't lent stays out of it.
    fn poke(&mut self, name: Name, index: usize, bits: u64) {
        let number = bits as usize;
        let double = f64::from_bits(bits);
        match section(name) {
            Section::Numbers(cells) => put(&mut self.numbers, cells.start + index, number),
            Section::Doubles(cells) => put(&mut self.doubles, cells.start + index, double),
            Section::FactorNumbers(cells) => {
                put(&mut self.factor_numbers, cells.start + index, number);
            }
            Section::FactorCoeffs(cells) => {
                put(&mut self.factor_coeffs, cells.start + index, double);
            }
        }
    }

    pub fn solve(&mut self, plan: &Plan, given: &Given) -> Answer {
        over!(tevalumi_solve, plan, given, self,)
    }

    fn fix(&mut self, plan: &Plan, given: &Given, column: u64, value: f64) -> Answer {
        over!(tevalumi_fix, plan, given, self, column as usize, value)
    }

    fn unfix(&mut self, plan: &Plan, given: &Given, column: u64) -> Answer {
        over!(tevalumi_unfix, plan, given, self, column as usize)
    }

    fn reprice(&mut self, plan: &Plan, given: &Given) -> Answer {
        over!(tevalumi_reprice, plan, given, self,)
    }

    fn solve_any(&mut self, plan: &Plan, given: &Given) -> AnyAnswer {
        over!(tevalumi_solve_any, plan, given, self,)
    }

    /// What a call over this memory begins with. Where it is refused nobody asks.
    fn begins(&self) -> Begins {
        let counts = self.numbers.get().get(sections::COUNTS);
        counts.map_or(Begins::default(), |counts| Begins {
            has_factor: counts[HAS_FACTOR] == 1,
            factorings: counts[FACTORINGS],
            own: 0,
        })
    }

    /// What a repricing over this memory begins with.
    fn begins_repricing(&self) -> Begins {
        let counts = self.numbers.get().get(sections::COUNTS);
        Begins {
            own: counts.map_or(0, |counts| usize::from(counts[ETAS] > 0)),
            ..self.begins()
        }
    }

    /// The first array or section with a changed cell past what the answer may have written.
    fn changed(&self, before: &Memory, wrote: Option<Wrote>) -> Option<&'static str> {
        let values = wrote.map_or(0, |wrote| wrote.values);
        if !self.values.stayed(&before.values, values) {
            return Some("values");
        }
        let Some(wrote) = wrote else {
            return self.array_changed(before, [0; 4]);
        };
        // What an answer wrote was lent whole: each section past its written cells, then what stands past the sections.
        let left = |cells: Range<usize>, name| past(cells, wrote.cells(name));
        let kept = |&name: &Name| match section(name) {
            Section::Numbers(cells) => self.numbers.kept(&before.numbers, left(cells, name)),
            Section::Doubles(cells) => self.doubles.kept(&before.doubles, left(cells, name)),
            Section::FactorNumbers(_) | Section::FactorCoeffs(_) => true,
        };
        if let Some(name) = Name::ALL.into_iter().find(|name| !kept(name)) {
            return Some(name.name());
        }
        let mut whole = Name::ARRAYS.map(|name| name.needed(0, 0) as usize);
        match wrote.factor {
            None => whole[2..].fill(0),
            Some(entries) => {
                // A call that factors nothing makes the transposes anew and leaves the rest as it was.
                if wrote.made == 0 && !self.factor_stayed(before) {
                    return Some("the factor");
                }
                if let Some(name) = self.factor_unused_changed(before, wrote, entries) {
                    return Some(name);
                }
            }
        }
        self.array_changed(before, whole)
    }

    /// Pivots, L, U and the diagonal.
    fn factor_stayed(&self, before: &Memory) -> bool {
        let numbers = 0..sections::LT_STARTS.start;
        let coeffs = [0..sections::LT_COEFFS.start, sections::DIAG];
        self.factor_numbers.kept(&before.factor_numbers, numbers)
            && coeffs
                .into_iter()
                .all(|cells| self.factor_coeffs.kept(&before.factor_coeffs, cells))
    }

    /// The first of the factor's arrays with an unused cell that a factoring doesn't leave, and that isn't as it was. Where
    /// one was made every unused cell is blank.
    fn factor_unused_changed(
        &self,
        before: &Memory,
        wrote: Wrote,
        entries: [usize; 2],
    ) -> Option<&'static str> {
        let made = wrote.made > 0;
        let (is, was) = (self.factor_numbers.get(), before.factor_numbers.get());
        let mut numbers = wrote.factor_numbers_unused(entries).into_iter();
        let blank = |(mut cells, blank): (Range<usize>, usize)| {
            cells.all(|at| is[at] == blank || !made && is[at] == was[at])
        };
        if !numbers.all(blank) {
            return Some("factor_numbers");
        }
        let (is, was) = (self.factor_coeffs.get(), before.factor_coeffs.get());
        let mut coeffs = wrote.factor_coeffs_unused(entries).into_iter();
        let blank = |mut cells: Range<usize>| {
            cells.all(|at| {
                let bits = is[at].to_bits();
                bits == 0 || !made && bits == was[at].to_bits()
            })
        };
        if !coeffs.all(blank) {
            return Some("factor_coeffs");
        }
        None
    }

    /// The first of the state's arrays with a changed cell past so many of each.
    fn array_changed(&self, before: &Memory, written: [usize; 4]) -> Option<&'static str> {
        let [numbers, doubles, factor_numbers, factor_coeffs] = written;
        let (was, is) = (before, self);
        let stayed = [
            is.numbers.stayed(&was.numbers, numbers),
            is.doubles.stayed(&was.doubles, doubles),
            is.factor_numbers
                .stayed(&was.factor_numbers, factor_numbers),
            is.factor_coeffs.stayed(&was.factor_coeffs, factor_coeffs),
        ];
        let changed = Name::ARRAYS
            .into_iter()
            .zip(stayed)
            .find(|(_, stayed)| !stayed);
        changed.map(|(name, _)| name.name())
    }

    fn numbers(&self, cells: Range<usize>, count: usize) -> &[usize] {
        &self.numbers.get()[cells][..count]
    }

    fn doubles(&self, cells: Range<usize>, count: usize) -> Vec<f64> {
        self.doubles.get()[cells][..count].to_vec()
    }

    /// The state as the oracle has it. The counts are known to fit.
    fn state(&self, wrote: Wrote) -> State {
        let Wrote {
            columns,
            kept,
            etas,
            entries,
            ..
        } = wrote;
        // A flag past a byte shows as 255.
        let flag = |&cell: &usize| u8::try_from(cell).unwrap_or(u8::MAX);
        State {
            kept: self.numbers(sections::KEPT, kept).to_vec(),
            basic: self.numbers(sections::BASIC_VARS, kept).to_vec(),
            nonbasic: self.numbers(sections::NB_VARS, columns).to_vec(),
            bval: self.doubles(sections::BASIC_VAR_VALS, kept),
            nval: self.doubles(sections::NB_VAR_VALS, columns),
            price: self.doubles(sections::PRICES, columns),
            norm: self.doubles(sections::NORMS, columns),
            flags: self
                .numbers(sections::FLAGS, columns)
                .iter()
                .map(flag)
                .collect(),
            etarow: self.numbers(sections::ETA_LEAVING, etas).to_vec(),
            etaptr: self.numbers(sections::ETA_STARTS, etas + 1).to_vec(),
            etaidx: self.numbers(sections::ETA_ROWS, entries).to_vec(),
            etaval: self.doubles(sections::ETA_COEFFS, entries),
            factor: wrote.factor.map(|entries| self.factor(kept, entries)),
            dnorm: self.doubles(sections::DUAL_NORMS, kept),
            factorings: wrote.factorings,
            // No cell says it, and no line shows it.
            dual_steps: 0,
            in_dual: false,
        }
    }

    fn factor_numbers(&self, cells: Range<usize>, count: usize) -> Vec<usize> {
        self.factor_numbers.get()[cells][..count].to_vec()
    }

    fn factor_coeffs(&self, cells: Range<usize>, count: usize) -> Vec<f64> {
        self.factor_coeffs.get()[cells][..count].to_vec()
    }

    fn factor(&self, size: usize, [lower, upper]: [usize; 2]) -> Factor {
        Factor {
            pivots: self.factor_numbers(sections::PIVOTS, size),
            lptr: self.factor_numbers(sections::L_STARTS, size + 1),
            lidx: self.factor_numbers(sections::L_ROWS, lower),
            lval: self.factor_coeffs(sections::L_COEFFS, lower),
            uptr: self.factor_numbers(sections::U_STARTS, size + 1),
            uidx: self.factor_numbers(sections::U_ROWS, upper),
            uval: self.factor_coeffs(sections::U_COEFFS, upper),
            udiag: self.factor_coeffs(sections::DIAG, size),
            col_order: None,
        }
    }

    /// The entries of L and U; an error says what of a factor's arrays doesn't agree with the rest of them.
    fn factor_entries(&self, size: usize) -> Result<[usize; 2], String> {
        let ends = [sections::L_STARTS, sections::U_STARTS]
            .map(|starts| self.factor_numbers.get()[starts.start + size]);
        if ends.into_iter().any(|end| end > sections::L_ROWS.len()) {
            return Err(format!("a factor of {ends:?} entries doesn't fit"));
        }
        let factor = self.factor(size, ends);
        let places = self.factor_numbers(sections::PIVOT_PLACES, size);
        let back = |(number, &row): (usize, &usize)| places.get(row) == Some(&number);
        if !factor.pivots.iter().enumerate().all(back) {
            return Err("the pivot places aren't the pivots' inverse".into());
        }
        let [lower, upper] = ends;
        let lt = Columns {
            starts: self.factor_numbers(sections::LT_STARTS, size + 1),
            rows: self.factor_numbers(sections::LT_ROWS, lower),
            vals: self.factor_coeffs(sections::LT_COEFFS, lower),
        };
        let ut = Columns {
            starts: self.factor_numbers(sections::UT_STARTS, size + 1),
            rows: self.factor_numbers(sections::UT_ROWS, upper),
            vals: self.factor_coeffs(sections::UT_COEFFS, upper),
        };
        let of = |starts: &[usize], rows: &[usize], vals: &[f64]| {
            Columns::transposed(size, starts, rows, vals)
        };
        if of(&factor.lptr, &factor.lidx, &factor.lval).as_ref() != Some(&lt) {
            return Err("the transpose of L isn't L's".into());
        }
        if of(&factor.uptr, &factor.uidx, &factor.uval).as_ref() != Some(&ut) {
            return Err("the transpose of U isn't U's".into());
        }
        Ok(ends)
    }

    /// Whether each variable's cell says where the maps have it: a place below the columns, or the
    /// columns plus a row.
    fn places_agree(&self, columns: usize, kept: usize) -> bool {
        let cells = self.numbers(sections::VAR_STATES, columns + kept);
        let at = |var: &usize, place: usize| cells.get(*var) == Some(&place);
        let non_basic = self.numbers(sections::NB_VARS, columns).iter();
        let basic = self.numbers(sections::BASIC_VARS, kept).iter();
        non_basic.enumerate().all(|(c, var)| at(var, c))
            && basic.enumerate().all(|(r, var)| at(var, columns + r))
    }
}

/// A matrix by columns.
#[derive(PartialEq)]
pub(crate) struct Columns {
    pub starts: Vec<usize>,
    pub rows: Vec<usize>,
    pub vals: Vec<f64>,
}

impl Columns {
    /// 02's transpose: a column lists its entries by falling column number of the original. None where the starts
    /// or rows are out of range.
    pub fn transposed(
        size: usize,
        starts: &[usize],
        rows: &[usize],
        vals: &[f64],
    ) -> Option<Columns> {
        let mut columns = vec![vec![]; size];
        for col in (0..size).rev() {
            let cells = starts[col]..starts[col + 1];
            let entries = rows.get(cells.clone())?.iter().zip(vals.get(cells)?);
            for (&row, &val) in entries {
                columns.get_mut(row)?.push((col, val));
            }
        }
        let mut ends = vec![0];
        for column in &columns {
            ends.push(ends[ends.len() - 1] + column.len());
        }
        Some(Columns {
            starts: ends,
            rows: columns.iter().flatten().map(|&(row, _)| row).collect(),
            vals: columns.iter().flatten().map(|&(_, val)| val).collect(),
        })
    }
}

/// Writes a cell that is lent.
fn put<T: Cell>(array: &mut Lent<T>, at: usize, cell: T) {
    if let Some(lent) = array.lend().get_mut(at) {
        *lent = cell;
    }
}

/// The answer line of a plan's run.
pub fn line(plan: &Plan, lengths: &Lengths, with_state: bool) -> String {
    let memory = Memory::marked(lengths);
    Session::new(plan, memory, with_state).run()
}

/// The answer lines of a plan's run and of the calls after it, each over the memory that the one before it left.
pub fn lines(plan: &Plan, lengths: &Lengths, with_state: bool) -> Vec<String> {
    let mut lines = vec![];
    each(plan, lengths, with_state, |line, _| lines.push(line));
    lines
}

/// How many factorings stand in `counts` after the run and after each call.
pub fn factorings(plan: &Plan, lengths: &Lengths) -> Vec<usize> {
    let mut factorings = vec![];
    each(plan, lengths, false, |_, memory| {
        factorings.push(memory.begins().factorings);
    });
    factorings
}

/// The run and the calls after it: the line of each, with the memory that it left.
fn each(plan: &Plan, lengths: &Lengths, with_state: bool, mut take: impl FnMut(String, &Memory)) {
    if plan.calls.is_empty() {
        let mut session = Session::new(plan, Memory::marked(lengths), with_state);
        return take(session.run(), &session.memory);
    }
    let memory = Memory::marked(lengths).without_a_run();
    let mut session = Session::new(plan, memory, with_state);
    take(session.run(), &session.memory);
    let mut calls = 0;
    for call in &plan.calls {
        if let Call::Poke { lent, index, bits } = *call {
            session.memory.poke(lent, index, bits);
            continue;
        }
        calls += 1;
        take(
            session.call(&format!("{}/{calls}", plan.id), call),
            &session.memory,
        );
    }
}

/// A plan with the memory that its calls are lent.
struct Session<'a> {
    plan: &'a Plan,
    given: Given,
    memory: Memory,
    with_state: bool,
}

impl Session<'_> {
    fn new(plan: &Plan, memory: Memory, with_state: bool) -> Session<'_> {
        Session {
            plan,
            given: Given::of(plan),
            memory,
            with_state,
        }
    }

    fn run(&mut self) -> String {
        let plan = self.plan;
        self.line(&plan.id, Begins::default(), |memory, given| {
            match plan.any {
                true => memory.solve_any(plan, given).into(),
                false => memory.solve(plan, given).into(),
            }
        })
    }

    /// A call over the memory as it stands, which is no poke.
    fn call(&mut self, id: &str, call: &Call) -> String {
        let plan = self.plan;
        let mut begins = self.memory.begins();
        if let Call::Reprice { cost } = call {
            // The plan's costs are these from here on.
            self.given.costs = Lent::holding(cost);
            begins = self.memory.begins_repricing();
        }
        self.line(id, begins, |memory, given| {
            let answer = match *call {
                Call::Fix { column, value } => memory.fix(plan, given, column, value),
                Call::Unfix { column } => memory.unfix(plan, given, column),
                _ => memory.reprice(plan, given),
            };
            answer.into()
        })
    }

    /// The line of one call; what it changed that it must leave stands at its end.
    fn line(
        &mut self,
        id: &str,
        begins: Begins,
        call: impl FnOnce(&mut Memory, &Given) -> Said,
    ) -> String {
        let (given_before, before) = (self.given.clone(), self.memory.clone());
        let said = call(&mut self.memory, &self.given);
        let answer = &said.answer;
        let memory = &self.memory;

        let mut faults = vec![];
        if !self.given.stayed(&given_before) {
            faults.push("the plan changed".to_string());
        }
        let wrote = match answer.status {
            0 | 20..=26 => wrote(self.plan, &said, memory, begins)
                .map_err(|fault| faults.push(fault))
                .ok(),
            _ => None,
        };
        if let Some(name) = memory.changed(&before, wrote) {
            faults.push(format!("a cell of {name} changed"));
        }

        let state = wrote.map(|wrote| memory.state(wrote));
        let line = Line {
            status: answer.status,
            place: place(answer),
            objective: answer.objective,
            steps: answer.steps,
            values: &memory.values.get()[..wrote.map_or(0, |wrote| wrote.values)],
            way: said.way,
            why: None,
            state: state.as_ref().filter(|_| self.with_state),
        };
        faults.into_iter().fold(line.text(id), |line, fault| {
            format!("{line} fault: {fault}")
        })
    }
}

/// What an answer of 0 or 20 to 26 wrote, by its own counts, and whether these are the answer's.
fn wrote(plan: &Plan, said: &Said, memory: &Memory, begins: Begins) -> Result<Wrote, String> {
    let answer = &said.answer;
    let columns = plan.columns as usize;
    let counts = memory.numbers(sections::COUNTS, 7);
    let [kept, etas, entries, steps, status, factor, factorings] = *counts else {
        unreachable!("seven counts were lent")
    };
    let made = factorings.wrapping_sub(begins.factorings);
    let fits = kept <= plan.rows as usize
        && etas as u64 <= limits::ETA_COLUMNS
        && entries as u64 <= limits::ETA_ENTRIES
        && factor == usize::from(begins.has_factor || made > 0)
        && made <= said.most_factorings(begins);
    if !fits || (steps, status) != (answer.steps, answer.status) {
        return Err(format!("counts {counts:?} don't fit"));
    }
    let objective = memory.doubles(sections::OBJECTIVE, 1)[0];
    if objective.to_bits() != answer.objective.to_bits() {
        return Err("the objective's cell isn't the answer's".into());
    }
    if !memory.places_agree(columns, kept) {
        return Err("the map back doesn't agree with the maps".into());
    }
    Ok(Wrote {
        values: match status == 0 || said.is_repriced() {
            true => columns + kept,
            false => 0,
        },
        columns,
        kept,
        etas,
        entries,
        factorings,
        made,
        factor: match factor {
            0 => None,
            _ => Some(memory.factor_entries(kept)?),
        },
    })
}

fn place(answer: &Answer) -> Place {
    let excess = answer.excess;
    match answer.place {
        0 if answer.status == 0 => Place::Accepted { excess },
        0 => Place::Nowhere,
        1 => Place::Entry {
            row: answer.at,
            place: answer.within,
        },
        2 => Place::Column(answer.at),
        3 => Place::Row(answer.at),
        4 => Place::Value {
            var: answer.at,
            excess,
        },
        5 if answer.status == 26 => Place::Leaving { row: answer.at },
        5 => Place::Kept {
            row: answer.at,
            excess,
        },
        other => panic!("{other} is no kind of place"),
    }
}
