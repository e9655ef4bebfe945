//! MPS files, in the shape of minilp's own reader.

use std::collections::HashMap;
use std::{fmt, io};

use crate::{ComparisonOp, OptimizationDirection, Problem, Variable};

/// A linear programming problem parsed from an MPS file.
///
/// The fields of a line are parted by blanks (free MPS). A negative UP without a lower bound means no
/// lower bound; bounds of 1e20 and more mean none; a range becomes two constraints; N rows after the
/// first are left out, and so are sets of RHS, RANGES and BOUNDS after the first. Columns that are to
/// be whole are an error.
///
/// ```
/// use tevalumi::{MpsFile, OptimizationDirection};
///
/// let text = "\
/// NAME two-tunnels
/// ROWS
///  N worth
///  L air
/// COLUMNS
///  north worth 6 air 2
///  south worth 2 air 1
/// RHS
///  RHS air 9
/// ENDATA
/// ";
/// let file = MpsFile::parse(text.as_bytes(), OptimizationDirection::Maximize)?;
/// let solution = file.problem.solve()?;
/// assert_eq!(file.problem_name, "two-tunnels");
/// assert_eq!((solution.objective(), solution[file.variables["north"]]), (27.0, 4.5));
/// # Ok::<(), Box<dyn std::error::Error>>(())
/// ```
#[derive(Clone)]
pub struct MpsFile {
    /// Value of the NAME field.
    pub problem_name: String,
    /// A mapping of unique variable names to variables.
    pub variables: HashMap<String, Variable>,
    /// Parsed problem.
    pub problem: Problem,
    /// What the file adds to the objective: minus the right side of the objective's row. The problem
    /// doesn't have it.
    pub constant: f64,
}

impl fmt::Debug for MpsFile {
    fn fmt(&self, f: &mut fmt::Formatter<'_>) -> fmt::Result {
        // Only printing lengths here because actual data is probably huge.
        f.debug_struct("MpsFile")
            .field("problem_name", &self.problem_name)
            .field("num_vars", &self.variables.len())
            .field("problem", &self.problem)
            .finish()
    }
}

impl MpsFile {
    /// Parses a problem from an MPS file. The direction is the caller's: MPS files mostly don't say it,
    /// and what one says under OBJSENSE is left out.
    ///
    /// # Errors
    ///
    /// Those of the input, and [`io::ErrorKind::InvalidData`] with the line and what was expected.
    pub fn parse<R: io::BufRead>(
        input: R,
        direction: OptimizationDirection,
    ) -> io::Result<MpsFile> {
        let mut reader = Reader::default();
        for line in input.lines() {
            reader.at += 1;
            if reader.line(&line?)? {
                return Ok(reader.file(direction));
            }
        }
        Err(reader.expected("ENDATA", "the end of the file"))
    }
}

#[derive(Default)]
struct Column {
    name: String,
    lower: Option<f64>,
    upper: Option<f64>,
}

impl Column {
    /// With what the format takes for granted.
    fn bounds(&self) -> (f64, f64) {
        let lower = match (self.lower, self.upper) {
            (None, Some(upper)) if upper < 0.0 => f64::NEG_INFINITY,
            (lower, _) => lower.unwrap_or(0.0),
        };
        (lower, self.upper.unwrap_or(f64::INFINITY))
    }
}

#[derive(Default)]
struct Row {
    /// N, L, G or E.
    kind: u8,
    rhs: Option<f64>,
    range: Option<f64>,
    entries: Vec<(usize, f64)>,
}

impl Row {
    /// A range R reaches from the right side down on L, up on G, and by its sign on E.
    fn ends(&self) -> Vec<(ComparisonOp, f64)> {
        let rhs = self.rhs.unwrap_or(0.0);
        let (low, high) = match (self.kind, self.range) {
            (b'L', None) => return vec![(ComparisonOp::Le, rhs)],
            (b'G', None) => return vec![(ComparisonOp::Ge, rhs)],
            (b'E', None | Some(0.0)) => return vec![(ComparisonOp::Eq, rhs)],
            (b'L', Some(reach)) => (rhs - reach.abs(), rhs),
            (b'E', Some(reach)) if reach < 0.0 => (rhs + reach, rhs),
            (_, Some(reach)) => (rhs, rhs + reach.abs()),
            (_, None) => return vec![],
        };
        vec![(ComparisonOp::Le, high), (ComparisonOp::Ge, low)]
    }
}

#[derive(Default)]
struct Reader {
    at: usize,
    section: String,
    name: String,
    columns: Vec<Column>,
    rows: Vec<Row>,
    column_places: HashMap<String, usize>,
    row_places: HashMap<String, usize>,
    /// The first set that each section names; lines of others are left out.
    sets: HashMap<String, String>,
}

impl Reader {
    fn wrong(&self, what: String) -> io::Error {
        io::Error::new(
            io::ErrorKind::InvalidData,
            format!("line {}: {what}", self.at),
        )
    }

    fn expected(&self, wanted: &str, found: &str) -> io::Error {
        self.wrong(format!("expected {wanted}, found `{found}`"))
    }

    /// True at ENDATA.
    fn line(&mut self, line: &str) -> io::Result<bool> {
        let words: Vec<&str> = line.split_whitespace().collect();
        let comment = |word: &&str| word.starts_with('$');
        let end = words.iter().skip(1).position(comment);
        let words = &words[..end.map_or(words.len(), |end| end + 1)];
        if words.is_empty() || line.starts_with('*') {
            return Ok(false);
        }
        if !line.starts_with(char::is_whitespace) {
            return self.header(words);
        }
        match self.section.as_str() {
            "OBJSENSE" => {}
            "ROWS" => self.row(words)?,
            "COLUMNS" => self.column(words)?,
            "RHS" | "RANGES" => self.right_side(words)?,
            "BOUNDS" => self.bound(words)?,
            _ => return Err(self.expected("a section such as NAME or ROWS", line.trim())),
        }
        Ok(false)
    }

    fn header(&mut self, words: &[&str]) -> io::Result<bool> {
        match words[0] {
            "NAME" => self.name = words[1..].join(" "),
            "OBJSENSE" | "ROWS" | "COLUMNS" | "RHS" | "RANGES" | "BOUNDS" | "ENDATA" => {}
            word => return Err(self.expected("a section of MPS", word)),
        }
        self.section = words[0].to_string();
        Ok(words[0] == "ENDATA")
    }

    fn row(&mut self, words: &[&str]) -> io::Result<()> {
        let &[kind @ ("N" | "L" | "G" | "E"), name] = words else {
            return Err(self.expected("N, L, G or E and a row's name", &words.join(" ")));
        };
        if self
            .row_places
            .insert(name.to_string(), self.rows.len())
            .is_some()
        {
            return Err(self.wrong(format!("row `{name}` stands twice")));
        }
        self.rows.push(Row {
            kind: kind.as_bytes()[0],
            ..Row::default()
        });
        Ok(())
    }

    fn column(&mut self, words: &[&str]) -> io::Result<()> {
        if words.get(1) == Some(&"'MARKER'") {
            let what = "a stretch of columns that are to be whole is no part of a linear program";
            return Err(self.wrong(what.to_string()));
        }
        let (name, pairs) = match words {
            [name, pairs @ ..] if matches!(pairs.len(), 2 | 4) => (*name, pairs),
            _ => return Err(self.expected("a column, then rows and numbers", &words.join(" "))),
        };
        let goes_on = self.columns.last().is_some_and(|last| last.name == name);
        if !goes_on {
            let place = self.columns.len();
            if self.column_places.insert(name.to_string(), place).is_some() {
                return Err(
                    self.wrong(format!("column `{name}` stands twice, with others between"))
                );
            }
            self.columns.push(Column {
                name: name.to_string(),
                ..Column::default()
            });
        }
        let place = self.columns.len() - 1;
        for pair in pairs.chunks(2) {
            let (row, number) = (self.place_of_row(pair[0])?, self.number(pair[1])?);
            if self.rows[row].entries.last().is_some_and(|e| e.0 == place) {
                return Err(self.wrong(format!("column `{name}` has row `{}` twice", pair[0])));
            }
            self.rows[row].entries.push((place, number));
        }
        Ok(())
    }

    fn right_side(&mut self, words: &[&str]) -> io::Result<()> {
        let (set, pairs) = match words {
            [set, pairs @ ..] if matches!(pairs.len(), 2 | 4) => (*set, pairs),
            pairs if matches!(pairs.len(), 2 | 4) => ("", pairs),
            _ => return Err(self.expected("rows with a number each", &words.join(" "))),
        };
        if !self.takes(set) {
            return Ok(());
        }
        for pair in pairs.chunks(2) {
            let (row, number) = (self.place_of_row(pair[0])?, self.number(pair[1])?);
            let row = &mut self.rows[row];
            let cell = match self.section.as_str() {
                "RHS" => &mut row.rhs,
                _ => &mut row.range,
            };
            if cell.replace(number).is_some() {
                return Err(self.wrong(format!("row `{}` stands twice in this section", pair[0])));
            }
        }
        Ok(())
    }

    fn bound(&mut self, words: &[&str]) -> io::Result<()> {
        let known = |name: &str| self.column_places.contains_key(name);
        let (set, name, number) = match words {
            [_, set, name, number] => (*set, *name, Some(*number)),
            [_, set, name] if known(name) => (*set, *name, None),
            [_, name, number] => ("", *name, Some(*number)),
            [_, name] => ("", *name, None),
            _ => {
                return Err(self.expected("a bound's kind, a column and a number", &words.join(" ")))
            }
        };
        let Some(&place) = self.column_places.get(name) else {
            return Err(self.expected("a column named in COLUMNS", name));
        };
        if !self.takes(set) {
            return Ok(());
        }
        let number = self
            .number(number.unwrap_or(""))
            .map(|number| match number {
                none if none.abs() >= 1e20 => f64::INFINITY.copysign(none),
                bound => bound,
            });
        let (lower, upper) = match words[0] {
            "UP" => (None, Some(number?)),
            "LO" => (Some(number?), None),
            "FX" => number.map(|number| (Some(number), Some(number)))?,
            "FR" => (Some(f64::NEG_INFINITY), Some(f64::INFINITY)),
            "MI" => (Some(f64::NEG_INFINITY), None),
            "PL" => (None, Some(f64::INFINITY)),
            kind => return Err(self.expected("a bound's kind UP, LO, FX, FR, MI or PL", kind)),
        };
        let column = &mut self.columns[place];
        (column.lower, column.upper) = (lower.or(column.lower), upper.or(column.upper));
        Ok(())
    }

    fn takes(&mut self, set: &str) -> bool {
        let first = self.sets.entry(self.section.clone());
        first.or_insert_with(|| set.to_string()) == set
    }

    fn place_of_row(&self, name: &str) -> io::Result<usize> {
        let place = self.row_places.get(name).copied();
        place.ok_or_else(|| self.expected("a row named in ROWS", name))
    }

    fn number(&self, word: &str) -> io::Result<f64> {
        word.parse().map_err(|_| self.expected("a number", word))
    }

    fn file(self, direction: OptimizationDirection) -> MpsFile {
        let mut problem = Problem::new(direction);
        let mut costs = vec![0.0; self.columns.len()];
        let mut constant = 0.0;
        if let Some(objective) = self.rows.iter().find(|row| row.kind == b'N') {
            constant = 0.0 - objective.rhs.unwrap_or(0.0);
            for &(column, cost) in &objective.entries {
                costs[column] = cost;
            }
        }
        let columns = self.columns.iter().zip(costs);
        let vars: Vec<Variable> = columns
            .map(|(column, cost)| problem.add_var(cost, column.bounds()))
            .collect();
        for row in &self.rows {
            for (op, rhs) in row.ends() {
                let terms = row.entries.iter().map(|&(column, c)| (vars[column], c));
                problem.add_constraint(terms, op, rhs);
            }
        }
        let names = self.columns.into_iter().map(|column| column.name);
        MpsFile {
            problem_name: self.name,
            variables: names.zip(vars).collect(),
            problem,
            constant,
        }
    }
}
