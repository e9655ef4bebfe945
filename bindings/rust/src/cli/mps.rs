//! MPS, free and fixed, as GLPK, Clp and HiGHS write it.
//!
//! Where writers differ: a negative upper bound with no lower one means no lower bound (Clp, HiGHS);
//! a whole column without bounds is 0 to 1 (all three); the objective's right side is the constant
//! with its sign turned (Clp, HiGHS), but not turned in files with glpsol's heading (GLPK).

use std::collections::HashMap;

use super::plan::{bound, counted, shown, Draft, DraftColumn, DraftRow, Fault, Number, END};
use super::source::Progress;

#[derive(Clone, Copy, Debug, PartialEq)]
pub enum Layout {
    /// Fields are parted by blanks.
    Free,
    /// Fields stand in fixed columns, so that names may hold blanks.
    Fixed,
}

/// Free first. Names with blanks fail there and stand only in fixed columns; where both fail, the
/// fault of the reading that got further is the one to mend.
pub fn read_either(text: &str) -> Result<Draft, Fault> {
    read(text, Layout::Free).or_else(|free| {
        read(text, Layout::Fixed).map_err(|fixed| if fixed.line > free.line { fixed } else { free })
    })
}

pub fn read(text: &str, layout: Layout) -> Result<Draft, Fault> {
    let mut reader = Reader::new(layout);
    let mut progress = Progress::new();
    let mut last = 0;
    for (i, line) in text.lines().enumerate() {
        last = i + 1;
        progress.line(last);
        if reader.line(last, line.trim_end())? {
            return reader.finish();
        }
    }
    Err(Fault::expected(last, "ENDATA", END))
}

#[derive(Clone, Copy, Debug, PartialEq)]
enum Section {
    Before,
    Sense,
    Objective,
    Rows,
    Columns,
    Rhs,
    Ranges,
    Bounds,
}

#[derive(Clone, Copy, Debug, PartialEq)]
enum Kind {
    N,
    L,
    G,
    E,
}

struct Row {
    kind: Kind,
    name: String,
    rhs: Option<Number>,
    range: Option<Number>,
    entries: Vec<(usize, Number)>,
}

/// The first set named in RHS, RANGES or BOUNDS counts; lines of others are left out.
#[derive(Default)]
struct Set {
    first: Option<String>,
    last: String,
    others: usize,
}

impl Set {
    /// In fixed columns a line that names no set belongs to the one of the line before, as GLPK reads it.
    fn takes(&mut self, name: &str, layout: Layout) -> bool {
        if layout == Layout::Free || !name.is_empty() {
            self.last = name.to_string();
        }
        let name = self.last.as_str();
        let taken = self.first.get_or_insert_with(|| name.to_string()) == name;
        self.others += usize::from(!taken);
        taken
    }
}

struct Reader {
    layout: Layout,
    section: Section,
    draft: Draft,
    rows: Vec<Row>,
    row_places: HashMap<String, usize>,
    column_places: HashMap<String, usize>,
    objective: Option<usize>,
    objective_name: Option<String>,
    /// The line of the marker that opened a stretch of whole columns.
    whole: Option<usize>,
    by_glpk: bool,
    /// A comment says so, as GLPK's do; and whether the file itself has a direction.
    said_maximum: bool,
    has_sense: bool,
    rhs_set: Set,
    range_set: Set,
    bound_set: Set,
}

impl Reader {
    fn new(layout: Layout) -> Reader {
        Reader {
            layout,
            section: Section::Before,
            draft: Draft::default(),
            rows: Vec::new(),
            row_places: HashMap::new(),
            column_places: HashMap::new(),
            objective: None,
            objective_name: None,
            whole: None,
            by_glpk: false,
            said_maximum: false,
            has_sense: false,
            rhs_set: Set::default(),
            range_set: Set::default(),
            bound_set: Set::default(),
        }
    }

    /// True at ENDATA.
    fn line(&mut self, at: usize, line: &str) -> Result<bool, Fault> {
        if line.starts_with('*') {
            self.by_glpk |= line.starts_with("* Format:") && line.ends_with("MPS");
            self.said_maximum |= line.to_ascii_lowercase().contains("maxim");
            return Ok(false);
        }
        if line.is_empty() {
            return Ok(false);
        }
        if !line.starts_with(char::is_whitespace) {
            return self.header(at, line);
        }
        let line = self.uncommented(line);
        match self.section {
            Section::Before => Err(Fault::expected(
                at,
                "a section such as NAME or ROWS at the start of the line",
                line,
            )),
            Section::Sense => self.sense(at, line.trim()).map(|()| false),
            Section::Objective => {
                self.objective_name = Some(line.trim().to_string());
                Ok(false)
            }
            Section::Rows => self.row(at, line).map(|()| false),
            Section::Columns => self.column(at, line).map(|()| false),
            Section::Rhs | Section::Ranges => self.right_side(at, line).map(|()| false),
            Section::Bounds => self.bound(at, line).map(|()| false),
        }
    }

    /// A `$` at the start of a field, in fixed columns the third or fifth, begins a comment.
    fn uncommented<'a>(&self, line: &'a str) -> &'a str {
        let starts = line.char_indices().zip(line.chars().skip(1));
        let mut starts = starts.filter(|&((_, before), c)| before.is_whitespace() && c == '$');
        let cut = match self.layout {
            Layout::Free => starts.find(|&((i, _), _)| !line[..i].trim().is_empty()),
            Layout::Fixed => starts.find(|&((i, _), _)| i == 13 || i == 38),
        };
        cut.map_or(line, |((i, _), _)| &line[..i])
    }

    fn header(&mut self, at: usize, line: &str) -> Result<bool, Fault> {
        let word = line.split_whitespace().next().unwrap_or("");
        let rest = line[word.len()..].trim();
        self.section = match word {
            "NAME" => {
                // Clp writes FREE behind the name of a free file.
                self.draft.name = rest
                    .strip_suffix(" FREE")
                    .unwrap_or(rest)
                    .trim()
                    .to_string();
                Section::Before
            }
            "OBJSENSE" | "OBJSENCE" => {
                if !rest.is_empty() {
                    self.sense(at, rest)?;
                }
                Section::Sense
            }
            "MAX" | "MAXIMIZE" | "MAXIMISE" | "MIN" | "MINIMIZE" | "MINIMISE"
                if self.section == Section::Sense =>
            {
                self.sense(at, word)?;
                Section::Sense
            }
            "OBJNAME" => Section::Objective,
            "ROWS" => Section::Rows,
            "COLUMNS" => {
                self.choose_objective(at)?;
                Section::Columns
            }
            "RHS" => Section::Rhs,
            "RANGES" => Section::Ranges,
            "BOUNDS" => Section::Bounds,
            "ENDATA" => return Ok(true),
            "QUADOBJ" | "QMATRIX" | "QSECTION" | "QCMATRIX" | "CSECTION" | "SOS" | "SOS1"
            | "SOS2" | "INDICATORS" | "GENCONS" | "PWLOBJ" => {
                return Err(Fault::new(
                    at,
                    format!("section {word} is no part of a linear program"),
                ))
            }
            _ => {
                return Err(Fault::expected(
                    at,
                    "a section (NAME, OBJSENSE, ROWS, COLUMNS, RHS, RANGES, BOUNDS or ENDATA)",
                    word,
                ))
            }
        };
        Ok(false)
    }

    fn sense(&mut self, at: usize, word: &str) -> Result<(), Fault> {
        self.has_sense = true;
        self.draft.maximise = match word.to_ascii_uppercase().as_str() {
            "MAX" | "MAXIMIZE" | "MAXIMISE" => true,
            "MIN" | "MINIMIZE" | "MINIMISE" => false,
            _ => return Err(Fault::expected(at, "MAX or MIN", word)),
        };
        Ok(())
    }

    fn row(&mut self, at: usize, line: &str) -> Result<(), Fault> {
        let (kind, name) = match self.layout {
            Layout::Free => {
                let words: Vec<&str> = line.split_whitespace().collect();
                match words[..] {
                    [kind, name] => (kind, name),
                    _ => return Err(Fault::expected(at, "a row's kind and its name", line)),
                }
            }
            Layout::Fixed => (field(line, 1, 4), field(line, 4, 12)),
        };
        let kind = match kind {
            "N" | "n" => Kind::N,
            "L" | "l" => Kind::L,
            "G" | "g" => Kind::G,
            "E" | "e" => Kind::E,
            _ => return Err(Fault::expected(at, "a row's kind N, L, G or E", kind)),
        };
        if name.is_empty() {
            return Err(Fault::expected(at, "a row's name", ""));
        }
        let place = self.rows.len();
        if self.row_places.insert(name.to_string(), place).is_some() {
            return Err(Fault::new(
                at,
                format!("row `{}` stands twice", shown(name)),
            ));
        }
        self.rows.push(Row {
            kind,
            name: name.to_string(),
            rhs: None,
            range: None,
            entries: Vec::new(),
        });
        Ok(())
    }

    fn choose_objective(&mut self, at: usize) -> Result<(), Fault> {
        let first = self.rows.iter().position(|r| r.kind == Kind::N);
        self.objective = match &self.objective_name {
            None => first,
            Some(name) => match self.row_places.get(name) {
                Some(&i) if self.rows[i].kind == Kind::N => Some(i),
                _ => return Err(Fault::expected(at, "OBJNAME to name an N row", name)),
            },
        };
        Ok(())
    }

    fn column(&mut self, at: usize, line: &str) -> Result<(), Fault> {
        if self.marker(at, line)? {
            return Ok(());
        }
        let (head, pairs) = self.pairs(at, line)?;
        // In fixed columns a line without a name goes on with the column before, as GLPK reads it.
        let before = self.draft.columns.last().map(|column| column.name.clone());
        let name = match before {
            Some(before) if head.is_empty() => before,
            _ => head.to_string(),
        };
        let name = name.as_str();
        if name.is_empty() {
            return Err(Fault::expected(
                at,
                "a column's name, then rows and numbers",
                line,
            ));
        }
        let j = self.place_of_column(at, name)?;
        for (row, number) in pairs {
            let value = number_of(at, number)?;
            let i = self.place_of_row(at, row)?;
            let entries = &mut self.rows[i].entries;
            if entries.last().is_some_and(|&(column, _)| column == j) {
                return Err(Fault::new(
                    at,
                    format!("column `{}` has row `{}` twice", shown(name), shown(row)),
                ));
            }
            entries.push((j, value));
        }
        Ok(())
    }

    /// The lines that open and close a stretch of whole columns.
    fn marker(&mut self, at: usize, line: &str) -> Result<bool, Fault> {
        let mut words = line.split_whitespace().skip(1);
        if words.next() != Some("'MARKER'") {
            return Ok(false);
        }
        let word = words.next().unwrap_or("");
        self.whole = match word {
            "'INTORG'" => Some(at),
            "'INTEND'" => None,
            _ => return Err(Fault::expected(at, "'INTORG' or 'INTEND'", word)),
        };
        Ok(true)
    }

    /// A column's lines stand together.
    fn place_of_column(&mut self, at: usize, name: &str) -> Result<usize, Fault> {
        let columns = &mut self.draft.columns;
        if columns.last().is_some_and(|c| c.name == name) {
            return Ok(columns.len() - 1);
        }
        let place = columns.len();
        if self.column_places.insert(name.to_string(), place).is_some() {
            return Err(Fault::new(
                at,
                format!("column `{}` stands twice, with others between", shown(name)),
            ));
        }
        columns.push(DraftColumn {
            whole: self.whole.map(|_| at),
            ..DraftColumn::new(name)
        });
        Ok(place)
    }

    fn place_of_row(&self, at: usize, name: &str) -> Result<usize, Fault> {
        let place = self.row_places.get(name).copied();
        place.ok_or_else(|| Fault::expected(at, "a row named in ROWS", name))
    }

    /// The name at the head of a line, and its one or two pairs. In RHS and RANGES the name may be
    /// left out.
    fn pairs<'a>(&self, at: usize, line: &'a str) -> Result<Headed<'a>, Fault> {
        if self.layout == Layout::Fixed {
            let mut pairs = vec![(field(line, 14, 22), field(line, 24, 36))];
            let second = (field(line, 39, 47), field(line, 49, 61));
            if second != ("", "") {
                pairs.push(second);
            }
            return Ok((field(line, 4, 12), pairs));
        }
        let words: Vec<&str> = line.split_whitespace().collect();
        match words[..] {
            [head, a, b] => Ok((head, vec![(a, b)])),
            [head, a, b, c, d] => Ok((head, vec![(a, b), (c, d)])),
            [a, b] if self.section != Section::Columns => Ok(("", vec![(a, b)])),
            [a, b, c, d] if self.section != Section::Columns => Ok(("", vec![(a, b), (c, d)])),
            _ => Err(Fault::expected(
                at,
                "a name, then one or two rows with a number each",
                line,
            )),
        }
    }

    fn right_side(&mut self, at: usize, line: &str) -> Result<(), Fault> {
        let (set, pairs) = self.pairs(at, line)?;
        let ranges = self.section == Section::Ranges;
        let sets = if ranges {
            &mut self.range_set
        } else {
            &mut self.rhs_set
        };
        if !sets.takes(set, self.layout) {
            return Ok(());
        }
        for (name, number) in pairs {
            let value = number_of(at, number)?;
            let i = self.place_of_row(at, name)?;
            let cell = if ranges {
                &mut self.rows[i].range
            } else {
                &mut self.rows[i].rhs
            };
            if cell.replace(value).is_some() {
                return Err(Fault::new(
                    at,
                    format!("row `{}` stands twice in this section", shown(name)),
                ));
            }
        }
        Ok(())
    }

    fn bound(&mut self, at: usize, line: &str) -> Result<(), Fault> {
        let (kind, set, name, value) = match self.layout {
            Layout::Free => self.free_bound(at, line)?,
            Layout::Fixed => (
                field(line, 1, 4),
                field(line, 4, 12),
                field(line, 14, 22),
                Some(field(line, 24, 36)).filter(|text| !text.is_empty()),
            ),
        };
        if !self.bound_set.takes(set, self.layout) {
            return Ok(());
        }
        let place = self.column_places.get(name).copied();
        let j = place.ok_or_else(|| Fault::expected(at, "a column named in COLUMNS", name))?;
        let number = match value {
            Some(text) => number_of(at, text).map(bound),
            None => Err(Fault::expected(at, "a number behind the column", "")),
        };
        bind(&mut self.draft.columns[j], at, kind, number)
    }

    /// Kind, set, column, number. The set may be left out, and kinds without a number may have one.
    fn free_bound<'a>(&self, at: usize, line: &'a str) -> Result<FreeBound<'a>, Fault> {
        let words: Vec<&str> = line.split_whitespace().collect();
        match words[..] {
            [kind, set, name, value] => Ok((kind, set, name, Some(value))),
            [kind, a, b] => {
                let bare = ["FR", "MI", "PL", "BV"].contains(&kind.to_ascii_uppercase().as_str());
                if bare && self.column_places.contains_key(b) {
                    Ok((kind, a, b, None))
                } else {
                    Ok((kind, "", a, Some(b)))
                }
            }
            [kind, name] => Ok((kind, "", name, None)),
            _ => Err(Fault::expected(
                at,
                "a bound's kind, the set, a column and a number",
                line,
            )),
        }
    }

    fn finish(mut self) -> Result<Draft, Fault> {
        let mut left_out = 0;
        for (i, row) in self.rows.into_iter().enumerate() {
            if self.objective == Some(i) {
                self.draft.objective_name = row.name;
                for (j, cost) in row.entries {
                    self.draft.columns[j].cost = cost;
                }
                let right = row.rhs.unwrap_or_default().value;
                self.draft.constant = if self.by_glpk { right } else { 0.0 - right };
            } else if row.kind == Kind::N {
                left_out += 1;
            } else {
                self.draft.rows.push(row.drafted());
            }
        }
        let notes = &mut self.draft.notes;
        if self.objective.is_none() {
            notes.push("The file has no N row, so every plan costs 0.".to_string());
        }
        if left_out > 0 {
            notes.push(format!(
                "{} left out: only one can be the objective.",
                counted(left_out, "N row is", "N rows are")
            ));
        }
        if self.draft.constant != 0.0 && self.by_glpk {
            notes.push(
                "glpsol wrote this file: the objective's right side is its constant.".to_string(),
            );
        }
        if self.said_maximum && !self.has_sense {
            notes.push(
                "A comment says that the objective is a maximum, but the file has no OBJSENSE and is minimised: --max may be meant.".to_string(),
            );
        }
        let others = self.rhs_set.others + self.range_set.others + self.bound_set.others;
        if others > 0 {
            notes.push(format!(
                "{} left out: only the first set of RHS, RANGES and BOUNDS counts.",
                counted(others, "line is", "lines are")
            ));
        }
        Ok(self.draft)
    }
}

/// Sets a column's bound. Only some kinds need the number.
fn bind(
    column: &mut DraftColumn,
    at: usize,
    kind: &str,
    number: Result<Number, Fault>,
) -> Result<(), Fault> {
    let kind = kind.to_ascii_uppercase();
    let said = |value: f64| Some(Number::new(at, value));
    let (lower, upper) = (&mut column.lower, &mut column.upper);
    match kind.as_str() {
        "UP" | "UI" => *upper = Some(number?),
        "LO" | "LI" => *lower = Some(number?),
        "FX" => {
            let number = number?;
            (*lower, *upper) = (Some(number), Some(number));
        }
        "FR" => (*lower, *upper) = (said(f64::NEG_INFINITY), said(f64::INFINITY)),
        "MI" => *lower = said(f64::NEG_INFINITY),
        "PL" => *upper = said(f64::INFINITY),
        "BV" => (*lower, *upper) = (said(0.0), said(1.0)),
        "SC" | "SI" => {
            let what = "a semi-continuous bound is no part of a linear program";
            return Err(Fault::new(at, what));
        }
        _ => {
            let wanted = "a bound's kind UP, LO, FX, FR, MI, PL, BV, LI or UI";
            return Err(Fault::expected(at, wanted, &kind));
        }
    }
    if matches!(kind.as_str(), "BV" | "LI" | "UI") {
        column.whole = column.whole.or(Some(at));
    }
    Ok(())
}

type Headed<'a> = (&'a str, Vec<(&'a str, &'a str)>);
type FreeBound<'a> = (&'a str, &'a str, &'a str, Option<&'a str>);

impl Row {
    /// A range R reaches from the right side down on L, up on G, and by its sign on E.
    fn drafted(self) -> DraftRow {
        let rhs = self.rhs.unwrap_or_default();
        let end = |value: f64| Number::new(self.range.unwrap_or(rhs).line, value);
        let (low, high) = match (self.kind, self.range.map(|range| range.value)) {
            (Kind::L, None) => (end(f64::NEG_INFINITY), rhs),
            (Kind::G, None) => (rhs, end(f64::INFINITY)),
            (Kind::L, Some(r)) => (end(rhs.value - r.abs()), rhs),
            (Kind::G, Some(r)) => (rhs, end(rhs.value + r.abs())),
            (Kind::E, Some(r)) if r < 0.0 => (end(rhs.value + r), rhs),
            (Kind::E, Some(r)) => (rhs, end(rhs.value + r)),
            (Kind::E | Kind::N, _) => (rhs, rhs),
        };
        DraftRow {
            name: self.name,
            low,
            high,
            entries: self.entries,
        }
    }
}

/// The text between two columns of a fixed line, counted from 0, without the blanks around it.
fn field(line: &str, from: usize, to: usize) -> &str {
    let place = |n: usize| line.char_indices().nth(n).map_or(line.len(), |(i, _)| i);
    line[place(from)..place(to)].trim()
}

fn number_of(at: usize, text: &str) -> Result<Number, Fault> {
    let value = text.parse();
    let value = value.map_err(|_| Fault::expected(at, "a number", text))?;
    Ok(Number::new(at, value))
}
