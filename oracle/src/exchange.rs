//! The exchange text: plans, triangles and pairs of them in, answer lines out. All ours.
//!
//! Doubles are the 16 hex digits of their bits, whole numbers are decimal. The number of tokens on
//! an array's line is the lent array's length; an array without a line has length 0.

use std::fmt::{self, Write as _};
use std::io::{self, BufRead};

use crate::{
    answer::{Answer, Factor, Outcome, Rejected, State, PANICKED},
    memory,
    plan::{Call, Lent, Plan},
    tri::{Factors, FactorsAnswer, Tri, TriAnswer},
};

pub enum Item {
    Plan(Plan),
    Tri(Tri),
    Factors(Factors),
}

/// Reads block after block.
pub struct Reader<R> {
    lines: io::Lines<R>,
    line: usize,
}

impl<R: BufRead> Reader<R> {
    pub fn new(input: R) -> Reader<R> {
        Reader {
            lines: input.lines(),
            line: 0,
        }
    }

    /// The next line that isn't blank.
    fn line(&mut self) -> Result<Option<String>, String> {
        for line in self.lines.by_ref() {
            self.line += 1;
            let line = line.map_err(|err| err.to_string())?;
            if !line.trim().is_empty() {
                return Ok(Some(line));
            }
        }
        Ok(None)
    }

    fn block(&mut self) -> Result<Option<Item>, String> {
        let Some(head) = self.line()? else {
            return Ok(None);
        };
        let mut words = head.split_whitespace();
        match words.next() {
            Some("plan") => {
                let mut plan = Plan {
                    id: word(words.next())?,
                    ..Plan::default()
                };
                while self.field(|key, words| plan_field(&mut plan, key, words))? {}
                Ok(Some(Item::Plan(plan)))
            }
            Some("tri") => {
                let mut tri = Tri {
                    id: word(words.next())?,
                    upper: match words.next() {
                        Some("lower") => false,
                        Some("upper") => true,
                        _ => return Err("a triangle is lower or upper".into()),
                    },
                    size: whole(words.next())?,
                    entries: whole(words.next())?,
                    ..Tri::default()
                };
                while self.field(|key, words| tri_field(&mut tri, key, words))? {}
                Ok(Some(Item::Tri(tri)))
            }
            Some("lu") => {
                let mut factors = Factors {
                    id: word(words.next())?,
                    ..Factors::default()
                };
                factors.upper.upper = true;
                factors.set_size(whole(words.next())?);
                factors.lower.entries = whole(words.next())?;
                factors.upper.entries = whole(words.next())?;
                while self.field(|key, words| factors_field(&mut factors, key, words))? {}
                Ok(Some(Item::Factors(factors)))
            }
            _ => Err("a block begins with plan, tri or lu".into()),
        }
    }

    /// One line of a block: false at its end.
    fn field<F>(&mut self, mut set: F) -> Result<bool, String>
    where
        F: FnMut(&str, &mut dyn Iterator<Item = &str>) -> Result<(), String>,
    {
        let line = self.line()?.ok_or("a block without its end")?;
        let mut words = line.split_whitespace();
        match words.next() {
            Some("end") => Ok(false),
            Some(key) => set(key, &mut words).map(|()| true),
            None => Ok(true),
        }
    }
}

impl<R: BufRead> Iterator for Reader<R> {
    type Item = Result<Item, String>;

    fn next(&mut self) -> Option<Result<Item, String>> {
        match self.block() {
            Ok(item) => item.map(Ok),
            Err(err) => Some(Err(format!("line {}: {}", self.line, err))),
        }
    }
}

fn plan_field(
    plan: &mut Plan,
    key: &str,
    words: &mut dyn Iterator<Item = &str>,
) -> Result<(), String> {
    match key {
        "dims" => {
            plan.columns = whole(words.next())?;
            plan.rows = whole(words.next())?;
            plan.entries = whole(words.next())?;
            plan.budget = whole(words.next())?;
            plan.tolerance = double(words.next())?;
        }
        "cost" => plan.cost = doubles(words)?,
        "lower" => plan.lower = doubles(words)?,
        "upper" => plan.upper = doubles(words)?,
        "starts" => plan.starts = wholes(words)?,
        "cols" => plan.cols = wholes(words)?,
        "coef" => plan.coef = doubles(words)?,
        "ops" => plan.ops = wholes(words)?,
        "rhs" => plan.rhs = doubles(words)?,
        "room" => {
            let mut room = || whole(words.next());
            plan.room = Some([room()?, room()?, room()?]);
        }
        "short" => {
            let name = word(words.next())?;
            let lent = Lent::named(&name).ok_or_else(|| format!("no lent array {}", name))?;
            plan.short.push((lent, whole(words.next())?));
        }
        "any" => plan.any = true,
        "fix" => plan.calls.push(Call::Fix {
            column: whole(words.next())?,
            value: double(words.next())?,
        }),
        "unfix" => plan.calls.push(Call::Unfix {
            column: whole(words.next())?,
        }),
        "reprice" => plan.calls.push(Call::Reprice {
            cost: doubles(words)?,
        }),
        "poke" => plan.calls.push(poke(words)?),
        _ => return Err(format!("no line {} in a plan", key)),
    }
    Ok(())
}

fn poke(words: &mut dyn Iterator<Item = &str>) -> Result<Call, String> {
    let name = word(words.next())?;
    let lent = Lent::poked(&name).ok_or_else(|| format!("no poke in {}", name))?;
    let (cells, are_doubles) = memory::cells(lent);
    let index = whole(words.next())?;
    if index >= cells as u64 {
        return Err(format!("{} has {} cells", name, cells));
    }
    let bits = if are_doubles {
        double(words.next())?.to_bits()
    } else {
        whole(words.next())?
    };
    Ok(Call::Poke {
        lent,
        index: index as usize,
        bits,
    })
}

fn tri_field(
    tri: &mut Tri,
    key: &str,
    words: &mut dyn Iterator<Item = &str>,
) -> Result<(), String> {
    match key {
        "starts" => tri.starts = wholes(words)?,
        "rows" => tri.rows = wholes(words)?,
        "vals" => tri.vals = doubles(words)?,
        "diag" => tri.diag = Some(doubles(words)?),
        "list" => tri.list = wholes(words)?,
        "lvals" => tri.lvals = doubles(words)?,
        _ => return Err(format!("no line {} in a triangle", key)),
    }
    Ok(())
}

fn factors_field(
    factors: &mut Factors,
    key: &str,
    words: &mut dyn Iterator<Item = &str>,
) -> Result<(), String> {
    let Factors { lower, upper, .. } = factors;
    match key {
        "lstarts" => lower.starts = wholes(words)?,
        "lrows" => lower.rows = wholes(words)?,
        "lvals" => lower.vals = doubles(words)?,
        "ldiag" => lower.diag = Some(doubles(words)?),
        "ustarts" => upper.starts = wholes(words)?,
        "urows" => upper.rows = wholes(words)?,
        "uvals" => upper.vals = doubles(words)?,
        "udiag" => upper.diag = Some(doubles(words)?),
        "values" => factors.values = doubles(words)?,
        _ => return Err(format!("no line {} in two triangles", key)),
    }
    Ok(())
}

fn word(word: Option<&str>) -> Result<String, String> {
    word.map(str::to_string).ok_or("a word is missing".into())
}

fn whole(word: Option<&str>) -> Result<u64, String> {
    let word = word.ok_or("a whole number is missing")?;
    word.parse()
        .map_err(|_| format!("{} isn't a whole number", word))
}

fn double(word: Option<&str>) -> Result<f64, String> {
    let word = word.ok_or("a double is missing")?;
    let is_hex = word.len() == 16 && word.bytes().all(|b| b.is_ascii_hexdigit());
    match u64::from_str_radix(word, 16) {
        Ok(bits) if is_hex => Ok(f64::from_bits(bits)),
        _ => Err(format!("{} isn't a double's 16 hex digits", word)),
    }
}

fn wholes(words: &mut dyn Iterator<Item = &str>) -> Result<Vec<u64>, String> {
    words.map(|w| whole(Some(w))).collect()
}

fn doubles(words: &mut dyn Iterator<Item = &str>) -> Result<Vec<f64>, String> {
    words.map(|w| double(Some(w))).collect()
}

/// A plan in the exchange text.
impl fmt::Display for Plan {
    fn fmt(&self, f: &mut fmt::Formatter<'_>) -> fmt::Result {
        writeln!(f, "plan {}", self.id)?;
        writeln!(
            f,
            "dims {} {} {} {} {:016x}",
            self.columns,
            self.rows,
            self.entries,
            self.budget,
            self.tolerance.to_bits()
        )?;
        write_doubles_line(f, "cost", &self.cost)?;
        write_doubles_line(f, "lower", &self.lower)?;
        write_doubles_line(f, "upper", &self.upper)?;
        write_wholes_line(f, "starts", &self.starts)?;
        write_wholes_line(f, "cols", &self.cols)?;
        write_doubles_line(f, "coef", &self.coef)?;
        write_wholes_line(f, "ops", &self.ops)?;
        write_doubles_line(f, "rhs", &self.rhs)?;
        if let Some(room) = &self.room {
            write_wholes_line(f, "room", room)?;
        }
        for (lent, length) in &self.short {
            writeln!(f, "short {} {}", lent.name(), length)?;
        }
        if self.any {
            writeln!(f, "any")?;
        }
        for call in &self.calls {
            write!(f, "{}", call)?;
        }
        writeln!(f, "end")
    }
}

/// A call, or a cell written between calls, as a line of its plan.
impl fmt::Display for Call {
    fn fmt(&self, f: &mut fmt::Formatter<'_>) -> fmt::Result {
        match *self {
            Call::Fix { column, value } => writeln!(f, "fix {} {:016x}", column, value.to_bits()),
            Call::Unfix { column } => writeln!(f, "unfix {}", column),
            Call::Reprice { ref cost } => write_doubles_line(f, "reprice", cost),
            Call::Poke { lent, index, bits } => {
                write!(f, "poke {} {} ", lent.poke_name(), index)?;
                match memory::cells(lent) {
                    (_, true) => writeln!(f, "{:016x}", bits),
                    (_, false) => writeln!(f, "{}", bits),
                }
            }
        }
    }
}

/// A triangle in the exchange text.
impl fmt::Display for Tri {
    fn fmt(&self, f: &mut fmt::Formatter<'_>) -> fmt::Result {
        let side = if self.upper { "upper" } else { "lower" };
        writeln!(f, "tri {} {} {} {}", self.id, side, self.size, self.entries)?;
        write_wholes_line(f, "starts", &self.starts)?;
        write_wholes_line(f, "rows", &self.rows)?;
        write_doubles_line(f, "vals", &self.vals)?;
        if let Some(diag) = &self.diag {
            write_doubles_line(f, "diag", diag)?;
        }
        write_wholes_line(f, "list", &self.list)?;
        write_doubles_line(f, "lvals", &self.lvals)?;
        writeln!(f, "end")
    }
}

/// Two triangles in the exchange text.
impl fmt::Display for Factors {
    fn fmt(&self, f: &mut fmt::Formatter<'_>) -> fmt::Result {
        let entries = (self.lower.entries, self.upper.entries);
        writeln!(
            f,
            "lu {} {} {} {}",
            self.id,
            self.size(),
            entries.0,
            entries.1
        )?;
        for (side, tri) in [("l", &self.lower), ("u", &self.upper)] {
            write_wholes_line(f, &format!("{}starts", side), &tri.starts)?;
            write_wholes_line(f, &format!("{}rows", side), &tri.rows)?;
            write_doubles_line(f, &format!("{}vals", side), &tri.vals)?;
            if let Some(diag) = &tri.diag {
                write_doubles_line(f, &format!("{}diag", side), diag)?;
            }
        }
        write_doubles_line(f, "values", &self.values)?;
        writeln!(f, "end")
    }
}

// Input keeps each NaN's own bits; answers print one.
fn write_doubles_line(f: &mut fmt::Formatter<'_>, key: &str, vals: &[f64]) -> fmt::Result {
    f.write_str(key)?;
    for val in vals {
        write!(f, " {:016x}", val.to_bits())?;
    }
    writeln!(f)
}

fn write_wholes_line(f: &mut fmt::Formatter<'_>, key: &str, vals: &[u64]) -> fmt::Result {
    f.write_str(key)?;
    for val in vals {
        write!(f, " {}", val)?;
    }
    writeln!(f)
}

/// What an answer line shows besides the answer.
#[derive(Clone, Copy, Debug, Default)]
pub struct Extras {
    pub state: bool,
    pub why: bool,
}

/// What stands in a plan's answer line.
#[derive(Clone, Debug)]
pub struct Line<'a> {
    pub status: usize,
    pub place: Place,
    pub objective: f64,
    pub steps: usize,
    pub values: &'a [f64],
    /// Of a solve from any start: its way, and the steps of the run with costs 0.
    pub way: Option<(usize, usize)>,
    pub why: Option<&'a str>,
    pub state: Option<&'a State>,
}

/// The place that an answer names.
#[derive(Clone, Copy, Debug, PartialEq)]
pub enum Place {
    Nowhere,
    /// An answer 0 names no place, but its excess.
    Accepted {
        excess: f64,
    },
    Entry {
        row: usize,
        place: usize,
    },
    Column(usize),
    Row(usize),
    Value {
        var: usize,
        excess: f64,
    },
    Kept {
        row: usize,
        excess: f64,
    },
    /// A 26 has no excess.
    Leaving {
        row: usize,
    },
}

impl fmt::Display for Place {
    fn fmt(&self, f: &mut fmt::Formatter<'_>) -> fmt::Result {
        match self {
            Place::Nowhere => f.write_str("-"),
            Place::Entry { row, place } => write!(f, "e:{}:{}", row, place),
            Place::Column(column) => write!(f, "c:{}", column),
            Place::Row(row) => write!(f, "r:{}", row),
            Place::Accepted { excess } => write!(f, "x:{:016x}", excess.to_bits()),
            Place::Value { var, excess } => write!(f, "v:{}:{:016x}", var, excess.to_bits()),
            Place::Kept { row, excess } => write!(f, "k:{}:{:016x}", row, excess.to_bits()),
            Place::Leaving { row } => write!(f, "k:{}", row),
        }
    }
}

impl From<&Answer> for Place {
    fn from(answer: &Answer) -> Place {
        let excess = answer.excess;
        match answer.outcome {
            Outcome::Optimal => Place::Accepted { excess },
            Outcome::BadEntry { row, place } => Place::Entry { row, place },
            Outcome::CrossedBounds { column } => Place::Column(column),
            Outcome::FalseEmptyRow { row } => Place::Row(row),
            Outcome::Rejected(Rejected::Value(var)) => Place::Value { var, excess },
            Outcome::Rejected(Rejected::Row(row)) => Place::Kept { row, excess },
            Outcome::Infeasible { row } => Place::Leaving { row },
            _ => Place::Nowhere,
        }
    }
}

/// The answers of a plan's run and of the calls after it, a line each. The calls are named ID/K.
pub fn answer_lines(id: &str, answers: &[Answer], extras: Extras) -> Vec<String> {
    let line = |(k, answer): (usize, &Answer)| match k {
        0 => answer_line(id, answer, extras),
        _ => answer_line(&format!("{}/{}", id, k), answer, extras),
    };
    answers.iter().enumerate().map(line).collect()
}

/// The oracle's answer as a line.
pub fn answer_line(id: &str, answer: &Answer, extras: Extras) -> String {
    let line = Line {
        status: answer.outcome.number() as usize,
        place: answer.into(),
        objective: answer.objective,
        steps: answer.steps as usize,
        values: &answer.values,
        way: answer
            .way
            .map(|(way, steps)| (way as usize, steps as usize)),
        why: answer.outcome.why().filter(|_| extras.why),
        state: answer.state.as_ref().filter(|_| extras.state),
    };
    line.text(id)
}

impl Line<'_> {
    /// `ID STATUS PLACE OBJECTIVE STEPS COUNT hex*`, then ` way WAY STEPS`, ` why NAME` and ` | ` with the
    /// state where they are there.
    pub fn text(&self, id: &str) -> String {
        let mut line = match self.status {
            PANICKED => format!("{} panic {}", id, self.place),
            status => format!("{} {} {}", id, status, self.place),
        };
        push_doubles(&mut line, &[self.objective]);
        push(
            &mut line,
            format_args!(" {} {}", self.steps, self.values.len()),
        );
        push_doubles(&mut line, self.values);

        if let Some((way, steps)) = self.way {
            push(&mut line, format_args!(" way {} {}", way, steps));
        }
        if let Some(why) = self.why {
            push(&mut line, format_args!(" why {}", why));
        }
        if let Some(state) = self.state {
            push_state(&mut line, state);
        }
        line
    }
}

fn push_state(line: &mut String, state: &State) {
    line.push_str(" |");
    push_list(line, "kept", &state.kept);
    push_list(line, "basic", &state.basic);
    push_list(line, "nonbasic", &state.nonbasic);
    push_double_list(line, "bval", &state.bval);
    push_double_list(line, "nval", &state.nval);
    push_double_list(line, "price", &state.price);
    push_double_list(line, "norm", &state.norm);
    push_list(line, "flags", &state.flags);
    push_list(line, "etarow", &state.etarow);
    push_list(line, "etaptr", &state.etaptr);
    push_list(line, "etaidx", &state.etaidx);
    push_double_list(line, "etaval", &state.etaval);
    line.push_str(" factor");
    match &state.factor {
        None => line.push_str(" none"),
        Some(factor) => push_factor(line, factor),
    }
    push_double_list(line, "dnorm", &state.dnorm);
}

fn push_factor(line: &mut String, factor: &Factor) {
    push_list(line, "pivots", &factor.pivots);
    push_list(line, "lptr", &factor.lptr);
    push_list(line, "lidx", &factor.lidx);
    push_double_list(line, "lval", &factor.lval);
    push_list(line, "uptr", &factor.uptr);
    push_list(line, "uidx", &factor.uidx);
    push_double_list(line, "uval", &factor.uval);
    push_double_list(line, "udiag", &factor.udiag);
}

/// `ID STATUS` and, where STATUS is 0, `list dec* sparse hex* dense hex*`.
pub fn tri_answer_line(id: &str, answer: &TriAnswer) -> String {
    let mut line = format!("{} {}", id, answer.status);
    if answer.status == 0 {
        push_list(&mut line, "list", &answer.list);
        push_double_list(&mut line, "sparse", &answer.sparse);
        push_double_list(&mut line, "dense", &answer.dense);
    }
    line
}

/// `ID STATUS` and, where STATUS is 0, `dense hex*`.
pub fn factors_answer_line(id: &str, answer: &FactorsAnswer) -> String {
    let mut line = format!("{} {}", id, answer.status);
    if answer.status == 0 {
        push_double_list(&mut line, "dense", &answer.dense);
    }
    line
}

fn push(line: &mut String, val: impl fmt::Display) {
    write!(line, "{}", val).expect("a String takes every text");
}

fn push_list<T: fmt::Display>(line: &mut String, key: &str, vals: &[T]) {
    push(line, format_args!(" {}", key));
    for val in vals {
        push(line, format_args!(" {}", val));
    }
}

fn push_double_list(line: &mut String, key: &str, vals: &[f64]) {
    push(line, format_args!(" {}", key));
    push_doubles(line, vals);
}

/// "NaN results count as one": all are printed as 7ff8000000000000.
fn push_doubles(line: &mut String, vals: &[f64]) {
    for val in vals {
        let bits = if val.is_nan() {
            0x7ff8_0000_0000_0000
        } else {
            val.to_bits()
        };
        push(line, format_args!(" {:016x}", bits));
    }
}
