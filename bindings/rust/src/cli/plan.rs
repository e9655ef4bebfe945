//! A plan as the program holds it: the arrays that the library is lent, and the names beside them.

use std::collections::BTreeMap;

use tevalumi::Problem;

/// The comparisons in 01's numbers.
pub const LE: u8 = 0;
pub const EQ: u8 = 1;
pub const GE: u8 = 2;

/// The budget and tolerance where neither the file nor the command line says one: the crate's.
pub const BUDGET: usize = Problem::DEFAULT_BUDGET;
pub const TOLERANCE: f64 = Problem::DEFAULT_TOLERANCE;

/// Found where a file ends too early.
pub const END: &str = "the end of the file";

/// What is wrong with a file, and where. Line 0 means the file as a whole.
#[derive(Clone, Debug, PartialEq)]
pub struct Fault {
    pub line: usize,
    pub what: String,
}

impl Fault {
    pub fn new(line: usize, what: impl Into<String>) -> Fault {
        let what = what.into();
        Fault { line, what }
    }

    /// The usual sentence.
    pub fn expected(line: usize, wanted: &str, found: &str) -> Fault {
        let found = match found.trim() {
            "" => "nothing".to_string(),
            END => END.to_string(),
            text => format!("`{}`", shown(text)),
        };
        Fault::new(line, format!("expected {wanted}, found {found}"))
    }
}

/// A piece of a file as it may stand in a message or a table: no control characters, not endless.
pub fn shown(text: &str) -> String {
    const MOST: usize = 60;
    match text.char_indices().nth(MOST) {
        Some((end, _)) => shown_whole(&text[..end]) + "...",
        None => shown_whole(text),
    }
}

/// As [`shown`], however long.
pub fn shown_whole(text: &str) -> String {
    let mut out = String::new();
    for c in text.chars() {
        if c.is_control() {
            out.extend(c.escape_default());
        } else {
            out.push(c);
        }
    }
    out
}

/// A number and the line of the file that says it. Line 0: no line does, and the format's rule stands.
#[derive(Clone, Copy, Debug, Default, PartialEq)]
pub struct Number {
    pub line: usize,
    pub value: f64,
}

impl Number {
    pub fn new(line: usize, value: f64) -> Number {
        Number { line, value }
    }
}

/// The line of each number of a plan, cell by cell.
#[derive(Clone, Debug, Default)]
pub struct Lines {
    pub costs: Vec<usize>,
    pub lowers: Vec<usize>,
    pub uppers: Vec<usize>,
    pub coeffs: Vec<usize>,
    pub ops: Vec<usize>,
    pub rhs: Vec<usize>,
}

/// The sizes and arrays are what the library is lent, wrong ones too: refusing is its part.
#[derive(Clone, Debug, Default)]
pub struct Plan {
    pub name: String,
    pub objective_name: String,
    /// The costs are those of the file negated; every objective shown is negated back.
    pub maximise: bool,
    /// What the file adds to the objective. The library never sees it.
    pub constant: f64,
    pub columns: usize,
    pub rows: usize,
    pub entries: usize,
    pub budget: usize,
    pub tolerance: f64,
    /// Solved from its start alone, and refused with 7 where no step begins there.
    pub plain: bool,
    pub costs: Vec<f64>,
    pub lowers: Vec<f64>,
    pub uppers: Vec<f64>,
    pub starts: Vec<usize>,
    pub cols: Vec<usize>,
    pub coeffs: Vec<f64>,
    pub ops: Vec<u8>,
    pub rhs: Vec<f64>,
    pub lines: Lines,
    pub column_names: Vec<String>,
    pub row_names: Vec<String>,
    /// The length said of a lent array or section, by its name in docs/EXCHANGE.md.
    pub shorter: BTreeMap<&'static str, usize>,
    /// What the reader left out or took for granted, for the person who reads the answer.
    pub notes: Vec<String>,
}

impl Plan {
    pub fn column_name(&self, j: usize) -> String {
        match self.column_names.get(j) {
            Some(name) => shown(name),
            None => format!("x{j}"),
        }
    }

    pub fn row_name(&self, i: usize) -> String {
        match self.row_names.get(i) {
            Some(name) => shown(name),
            None => format!("r{i}"),
        }
    }

    /// A number of the minimised costs as the file means it. A difference, so that 0 stays 0.
    pub fn signed(&self, of_the_library: f64) -> f64 {
        match self.maximise {
            true => 0.0 - of_the_library,
            false => of_the_library,
        }
    }

    /// The objective as the file means it.
    pub fn objective(&self, of_the_library: f64) -> f64 {
        let signed = if self.maximise {
            -of_the_library
        } else {
            of_the_library
        };
        if self.constant == 0.0 {
            signed
        } else {
            signed + self.constant
        }
    }

    /// Row i's entries, where the lent starts and arrays have them.
    pub fn row(&self, i: usize) -> Option<(&[usize], &[f64])> {
        let (from, to) = (*self.starts.get(i)?, *self.starts.get(i + 1)?);
        Some((self.cols.get(from..to)?, self.coeffs.get(from..to)?))
    }

    /// Turns the direction round: costs, and the mark that says so.
    pub fn turn(&mut self, maximise: bool) {
        if self.maximise != maximise {
            self.maximise = maximise;
            // A difference, so that 0 stays 0.
            self.costs.iter_mut().for_each(|c| *c = 0.0 - *c);
        }
    }
}

/// A plan while an MPS or LP file is read.
#[derive(Debug, Default)]
pub struct Draft {
    pub name: String,
    pub objective_name: String,
    pub maximise: bool,
    pub constant: f64,
    pub columns: Vec<DraftColumn>,
    pub rows: Vec<DraftRow>,
    pub notes: Vec<String>,
}

#[derive(Debug)]
pub struct DraftColumn {
    pub name: String,
    pub cost: Number,
    pub lower: Option<Number>,
    pub upper: Option<Number>,
    /// The line that says this column is to be whole.
    pub whole: Option<usize>,
}

impl DraftColumn {
    pub fn new(name: &str) -> DraftColumn {
        DraftColumn {
            name: name.to_string(),
            cost: Number::default(),
            lower: None,
            upper: None,
            whole: None,
        }
    }

    /// The bounds with what the formats take for granted: 0 below; none below where only an upper
    /// bound under 0 is given; 0 to 1 for a whole column of which no bound is given.
    fn bounds(&self) -> (Number, Number) {
        let granted = |value: f64| Number::new(0, value);
        match (self.lower, self.upper) {
            (None, None) if self.whole.is_some() => (granted(0.0), granted(1.0)),
            (None, Some(upper)) if upper.value < 0.0 => (granted(f64::NEG_INFINITY), upper),
            (lower, upper) => (
                lower.unwrap_or(granted(0.0)),
                upper.unwrap_or(granted(f64::INFINITY)),
            ),
        }
    }
}

/// low and high, one of them infinite or both the same where there is one comparison.
#[derive(Debug)]
pub struct DraftRow {
    pub name: String,
    pub low: Number,
    pub high: Number,
    pub entries: Vec<(usize, Number)>,
}

/// Bounds of this size mean none, as for HiGHS and CPLEX (Clp writes 1e30).
pub const NO_BOUND: f64 = 1e20;

/// A bound as read from a file.
pub fn bound(read: Number) -> Number {
    if read.value.abs() >= NO_BOUND {
        Number::new(read.line, f64::INFINITY.copysign(read.value))
    } else {
        read
    }
}

impl Draft {
    /// The arrays. A whole column is refused unless `relax` says that it may be fractional.
    pub fn finish(mut self, relax: bool) -> Result<Plan, Fault> {
        let whole = self.columns.iter().filter(|c| c.whole.is_some()).count();
        if let Some(column) = self.columns.iter().find(|c| c.whole.is_some() && !relax) {
            return Err(Fault::new(
                column.whole.unwrap_or(0),
                format!(
                    "column `{}` is to be whole, which this solver doesn't keep; --relax solves the plan with fractions allowed",
                    shown(&column.name)
                ),
            ));
        }
        if whole > 0 {
            self.notes.push(format!(
                "{} to be whole in the file; fractions are allowed here (--relax).",
                counted(whole, "column is", "columns are")
            ));
        }
        let mut plan = Plan {
            name: self.name,
            objective_name: self.objective_name,
            maximise: false,
            constant: self.constant,
            columns: self.columns.len(),
            budget: BUDGET,
            tolerance: TOLERANCE,
            starts: vec![0],
            notes: self.notes,
            ..Plan::default()
        };
        for column in self.columns {
            let (lower, upper) = column.bounds();
            plan.costs.push(column.cost.value);
            plan.lines.costs.push(column.cost.line);
            plan.lowers.push(lower.value);
            plan.lines.lowers.push(lower.line);
            plan.uppers.push(upper.value);
            plan.lines.uppers.push(upper.line);
            plan.column_names.push(column.name);
        }
        let entries = self.rows.iter().map(|row| row.entries.len()).sum();
        plan.cols.reserve(entries);
        plan.coeffs.reserve(entries);
        plan.lines.coeffs.reserve(entries);
        let mut parted = 0;
        for row in self.rows {
            parted += usize::from(plan.push(row));
        }
        if parted > 0 {
            plan.notes.push(format!(
                "{} two rows, one for each end.",
                counted(parted, "range became", "ranges became")
            ));
        }
        plan.rows = plan.ops.len();
        plan.entries = plan.cols.len();
        plan.turn(self.maximise);
        Ok(plan)
    }
}

impl Plan {
    /// A row has one comparison, so a range is two rows of one name. Says whether it was.
    fn push(&mut self, row: DraftRow) -> bool {
        let sides = if row.low.value == row.high.value {
            vec![(EQ, row.low)]
        } else if row.low.value == f64::NEG_INFINITY {
            vec![(LE, row.high)]
        } else if row.high.value == f64::INFINITY {
            vec![(GE, row.low)]
        } else {
            vec![(LE, row.high), (GE, row.low)]
        };
        for &(op, rhs) in &sides {
            for &(column, coeff) in &row.entries {
                self.cols.push(column);
                self.coeffs.push(coeff.value);
                self.lines.coeffs.push(coeff.line);
            }
            self.starts.push(self.cols.len());
            self.ops.push(op);
            self.rhs.push(rhs.value);
            self.lines.rhs.push(rhs.line);
            self.row_names.push(row.name.clone());
        }
        sides.len() == 2
    }
}

/// `1 column is`, `2 columns are`.
pub fn counted(n: usize, one: &str, more: &str) -> String {
    format!("{n} {}", if n == 1 { one } else { more })
}
