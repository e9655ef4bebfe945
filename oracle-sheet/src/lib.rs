//! Sheets as text: reading and writing the sheet blocks and answer lines of the exchange format,
//! and playing a block on the reference. The format is described in README.md.

pub mod file;
pub mod file_cases;
pub mod generate;
pub mod journal;
pub mod journal_cases;
pub mod reference;
pub mod tally;

use reference::{Edit, Sheet, Verdict, COLUMNS, ROWS};
use std::fmt::Write;

/// Every array that a line can name: the ten plan arrays in their order, then the kept ones.
#[derive(Clone, Copy, Debug, PartialEq, Eq, PartialOrd, Ord)]
pub enum Array {
    Coef,
    Cost,
    Lower,
    Upper,
    Haslow,
    Hasup,
    Rhs,
    Ops,
    Amount,
    Mult,
    R,
    D,
    C,
    B,
    Counts,
}

pub const PLAN_ARRAYS: [Array; 10] = [
    Array::Coef,
    Array::Cost,
    Array::Lower,
    Array::Upper,
    Array::Haslow,
    Array::Hasup,
    Array::Rhs,
    Array::Ops,
    Array::Amount,
    Array::Mult,
];

pub const KEPT_ARRAYS: [Array; 5] = [Array::R, Array::D, Array::C, Array::B, Array::Counts];

impl Array {
    pub fn name(self) -> &'static str {
        match self {
            Array::Coef => "coef",
            Array::Cost => "cost",
            Array::Lower => "lower",
            Array::Upper => "upper",
            Array::Haslow => "haslow",
            Array::Hasup => "hasup",
            Array::Rhs => "rhs",
            Array::Ops => "ops",
            Array::Amount => "amount",
            Array::Mult => "mult",
            Array::R => "R",
            Array::D => "D",
            Array::C => "C",
            Array::B => "B",
            Array::Counts => "counts",
        }
    }

    pub fn named(name: &str) -> Option<Array> {
        PLAN_ARRAYS
            .iter()
            .chain(KEPT_ARRAYS.iter())
            .copied()
            .find(|a| a.name() == name)
    }

    /// Marks and comparisons are lent as bytes.
    pub fn of_bytes(self) -> bool {
        matches!(self, Array::Haslow | Array::Hasup | Array::Ops)
    }
}

/// Reading and writing one lent cell by its array's name.
impl Sheet {
    pub fn length(&self, array: Array) -> usize {
        match array {
            Array::Coef => self.coef.len(),
            Array::Cost => self.cost.len(),
            Array::Lower => self.lower.len(),
            Array::Upper => self.upper.len(),
            Array::Haslow => self.haslow.len(),
            Array::Hasup => self.hasup.len(),
            Array::Rhs => self.rhs.len(),
            Array::Ops => self.ops.len(),
            Array::Amount => self.amount.len(),
            Array::Mult => self.mult.len(),
            Array::R => self.kept.r.len(),
            Array::D => self.kept.d.len(),
            Array::C | Array::B => 1,
            Array::Counts => 4,
        }
    }

    pub fn read(&self, array: Array, index: usize) -> i128 {
        match array {
            Array::Coef => i128::from(self.coef[index]),
            Array::Cost => i128::from(self.cost[index]),
            Array::Lower => i128::from(self.lower[index]),
            Array::Upper => i128::from(self.upper[index]),
            Array::Haslow => i128::from(self.haslow[index]),
            Array::Hasup => i128::from(self.hasup[index]),
            Array::Rhs => i128::from(self.rhs[index]),
            Array::Ops => i128::from(self.ops[index]),
            Array::Amount => i128::from(self.amount[index]),
            Array::Mult => i128::from(self.mult[index]),
            Array::R => self.kept.r[index],
            Array::D => self.kept.d[index],
            Array::C => self.kept.c,
            Array::B => self.kept.b,
            Array::Counts => self.kept.counts[index],
        }
    }

    pub fn write(&mut self, array: Array, index: usize, number: i64) {
        let byte = if array.of_bytes() {
            u8::try_from(number).expect("marks and comparisons are bytes")
        } else {
            0
        };
        match array {
            Array::Coef => self.coef[index] = number,
            Array::Cost => self.cost[index] = number,
            Array::Lower => self.lower[index] = number,
            Array::Upper => self.upper[index] = number,
            Array::Haslow => self.haslow[index] = byte,
            Array::Hasup => self.hasup[index] = byte,
            Array::Rhs => self.rhs[index] = number,
            Array::Ops => self.ops[index] = byte,
            Array::Amount => self.amount[index] = number,
            Array::Mult => self.mult[index] = number,
            Array::R => self.kept.r[index] = i128::from(number),
            Array::D => self.kept.d[index] = i128::from(number),
            Array::C => self.kept.c = i128::from(number),
            Array::B => self.kept.b = i128::from(number),
            Array::Counts => self.kept.counts[index] = i128::from(number),
        }
    }

    /// Lends fewer cells, or more (of 0), from here on. C, B and the counts have their one length.
    pub fn lend(&mut self, array: Array, length: usize) {
        match array {
            Array::Coef => self.coef.resize(length, 0),
            Array::Cost => self.cost.resize(length, 0),
            Array::Lower => self.lower.resize(length, 0),
            Array::Upper => self.upper.resize(length, 0),
            Array::Haslow => self.haslow.resize(length, 0),
            Array::Hasup => self.hasup.resize(length, 0),
            Array::Rhs => self.rhs.resize(length, 0),
            Array::Ops => self.ops.resize(length, 0),
            Array::Amount => self.amount.resize(length, 0),
            Array::Mult => self.mult.resize(length, 0),
            Array::R => self.kept.r.resize(length, 0),
            Array::D => self.kept.d.resize(length, 0),
            Array::C | Array::B | Array::Counts => panic!("{} has one length", array.name()),
        }
    }

    /// The kept arrays as they are lent to opening: as many cells as the sheet says, but never
    /// more than an accepted sheet can need, since sizes may be any number.
    pub fn lend_kept(&mut self) {
        self.kept.r = vec![0; self.rows.min(ROWS) as usize];
        self.kept.d = vec![0; self.columns.min(COLUMNS) as usize];
    }
}

/// What a script does after the opening, in order.
#[derive(Clone, Debug, PartialEq, Eq)]
pub enum Step {
    Keep(Array, Vec<i64>),
    Poke(Array, usize, i64),
    Edit(Edit),
    /// Ours, beside the exchange format: lends only so many cells of an array from here on.
    Short(Array, usize),
}

#[derive(Clone, Debug, Default, PartialEq, Eq)]
pub struct Block {
    pub id: String,
    pub sheet: Sheet,
    pub steps: Vec<Step>,
}

fn number<T: std::str::FromStr>(token: Option<&str>, line: &str) -> Result<T, String> {
    token
        .and_then(|t| t.parse::<T>().ok())
        .ok_or_else(|| format!("not a fitting number: {line}"))
}

fn nothing_left(mut tokens: std::str::SplitWhitespace, line: &str) -> Result<(), String> {
    match tokens.next() {
        None => Ok(()),
        Some(_) => Err(format!("too many tokens: {line}")),
    }
}

/// Reads a script. Blocks of another kind (plans, triangles) are an error: they belong to another
/// oracle.
pub fn parse(text: &str) -> Result<Vec<Block>, String> {
    let mut blocks = Vec::new();
    let mut open: Option<Block> = None;
    for line in text.lines() {
        let mut tokens = line.split_whitespace();
        let Some(word) = tokens.next() else { continue };
        if word == "sheet" {
            if open.is_some() {
                return Err(format!("a sheet inside a sheet: {line}"));
            }
            let mut block = Block {
                id: tokens.next().ok_or("a sheet without a name")?.to_string(),
                ..Block::default()
            };
            block.sheet.rows = number(tokens.next(), line)?;
            block.sheet.columns = number(tokens.next(), line)?;
            nothing_left(tokens, line)?;
            block.sheet.lend_kept();
            open = Some(block);
            continue;
        }
        let block = open
            .as_mut()
            .ok_or_else(|| format!("outside a sheet: {line}"))?;
        match word {
            "end" => {
                nothing_left(tokens, line)?;
                blocks.extend(open.take());
            }
            "keep" | "poke" | "short" => {
                let array = tokens
                    .next()
                    .and_then(Array::named)
                    .ok_or_else(|| format!("unknown array: {line}"))?;
                let step = match word {
                    "keep" => {
                        if !KEPT_ARRAYS.contains(&array) {
                            return Err(format!("not a kept array: {line}"));
                        }
                        let mut cells = Vec::new();
                        for t in tokens {
                            cells.push(number(Some(t), line)?);
                        }
                        Step::Keep(array, cells)
                    }
                    "poke" => {
                        let index = number(tokens.next(), line)?;
                        let cell: i64 = number(tokens.next(), line)?;
                        nothing_left(tokens, line)?;
                        if array.of_bytes() && u8::try_from(cell).is_err() {
                            return Err(format!("not a byte: {line}"));
                        }
                        Step::Poke(array, index, cell)
                    }
                    _ => {
                        let length = number(tokens.next(), line)?;
                        nothing_left(tokens, line)?;
                        Step::Short(array, length)
                    }
                };
                block.steps.push(step);
            }
            "edit" => {
                let kind = number(tokens.next(), line)?;
                let row = number(tokens.next(), line)?;
                let column = number(tokens.next(), line)?;
                let number = number(tokens.next(), line)?;
                nothing_left(tokens, line)?;
                block.steps.push(Step::Edit(Edit {
                    kind,
                    row,
                    column,
                    number,
                }));
            }
            _ => {
                let array = Array::named(word)
                    .filter(|a| PLAN_ARRAYS.contains(a))
                    .ok_or_else(|| format!("unknown line: {line}"))?;
                let mut cells: Vec<i64> = Vec::new();
                for t in tokens {
                    if array.of_bytes() {
                        cells.push(i64::from(number::<u8>(Some(t), line)?));
                    } else {
                        cells.push(number(Some(t), line)?);
                    }
                }
                block.sheet.lend(array, cells.len());
                for (index, cell) in cells.iter().enumerate() {
                    block.sheet.write(array, index, *cell);
                }
            }
        }
    }
    match open {
        None => Ok(blocks),
        Some(block) => Err(format!("sheet {} has no end", block.id)),
    }
}

fn print_cells(sheet: &Sheet, array: Array, out: &mut String) {
    for index in 0..sheet.length(array) {
        write!(out, " {}", sheet.read(array, index)).unwrap();
    }
}

/// Writes a block, as `parse` reads it.
pub fn print(block: &Block, out: &mut String) {
    let sheet = &block.sheet;
    writeln!(out, "sheet {} {} {}", block.id, sheet.rows, sheet.columns).unwrap();
    for array in PLAN_ARRAYS {
        out.push_str(array.name());
        print_cells(sheet, array, out);
        out.push('\n');
    }
    for step in &block.steps {
        match step {
            Step::Keep(array, cells) => {
                write!(out, "keep {}", array.name()).unwrap();
                for cell in cells {
                    write!(out, " {cell}").unwrap();
                }
                out.push('\n');
            }
            Step::Poke(array, index, cell) => {
                writeln!(out, "poke {} {index} {cell}", array.name()).unwrap();
            }
            Step::Edit(e) => {
                writeln!(out, "edit {} {} {} {}", e.kind, e.row, e.column, e.number).unwrap();
            }
            Step::Short(array, length) => {
                writeln!(out, "short {} {length}", array.name()).unwrap();
            }
        }
    }
    out.push_str("end\n");
}

/// What is seen while a block is played.
pub enum Moment<'a> {
    /// The opening's answer, and the sheet as it left it.
    Opened(u8, &'a Sheet),
    /// The sheet before the edit, the edit, its answer, and the sheet after it.
    Edited(&'a Sheet, Edit, u8, &'a Sheet),
    /// The sheet after the last step. Not seen after a refused opening.
    Ended(&'a Sheet),
}

/// Applies a step that isn't an edit. A line that names a cell which isn't there is a mistake of
/// the script's writer.
pub fn disturb(sheet: &mut Sheet, step: &Step) {
    match step {
        Step::Keep(array, cells) => {
            for (index, cell) in cells.iter().enumerate() {
                sheet.write(*array, index, *cell);
            }
        }
        Step::Poke(array, index, cell) => sheet.write(*array, *index, *cell),
        Step::Short(array, length) => sheet.lend(*array, *length),
        Step::Edit(_) => unreachable!("edits are played by the reference"),
    }
}

/// The three calls: the reference's, or those of a library that is compared with it.
pub trait Calls {
    fn open(&mut self, sheet: &mut Sheet) -> u8;
    fn edit(&mut self, sheet: &mut Sheet, edit: Edit) -> u8;
    fn verdict(&mut self, sheet: &Sheet) -> Verdict;
}

pub struct Reference;

impl Calls for Reference {
    fn open(&mut self, sheet: &mut Sheet) -> u8 {
        reference::open(sheet)
    }

    fn edit(&mut self, sheet: &mut Sheet, edit: Edit) -> u8 {
        reference::edit(sheet, edit)
    }

    fn verdict(&mut self, sheet: &Sheet) -> Verdict {
        reference::verdict(sheet)
    }
}

/// Plays a block on the reference and shows every moment of it.
pub fn play(block: &Block, see: &mut dyn FnMut(Moment)) {
    play_on(&mut Reference, block, &mut |_, moment| see(moment));
}

fn play_on<C: Calls>(calls: &mut C, block: &Block, see: &mut dyn FnMut(&mut C, Moment)) {
    let mut sheet = block.sheet.clone();
    let status = calls.open(&mut sheet);
    see(calls, Moment::Opened(status, &sheet));
    if status != 0 {
        return;
    }
    for step in &block.steps {
        match step {
            Step::Edit(edit) => {
                let before = sheet.clone();
                let status = calls.edit(&mut sheet, *edit);
                see(calls, Moment::Edited(&before, *edit, status, &sheet));
            }
            other => disturb(&mut sheet, other),
        }
    }
    see(calls, Moment::Ended(&sheet));
}

fn print_kept(sheet: &Sheet, verdict: Verdict, out: &mut String) {
    for array in KEPT_ARRAYS {
        write!(out, " {}", array.name()).unwrap();
        print_cells(sheet, array, out);
    }
    match verdict {
        Verdict::Refused(status) => write!(out, " verdict {status}"),
        Verdict::NoneExists => write!(out, " verdict none"),
        Verdict::NoPlan => write!(out, " verdict no-plan"),
        Verdict::NoFloor => write!(out, " verdict no-floor"),
        Verdict::Gap(gap) => write!(out, " verdict gap:{gap}"),
    }
    .unwrap();
}

fn print_plan(sheet: &Sheet, out: &mut String) {
    for array in PLAN_ARRAYS {
        write!(out, " {}", array.name()).unwrap();
        print_cells(sheet, array, out);
    }
}

/// The answer lines of a block. With `cells`, every line but the last also carries all plan cells
/// as they then stand, after a bar, so that no change between two edits can hide.
pub fn answer<C: Calls>(calls: &mut C, block: &Block, cells: bool, out: &mut String) {
    play_on(calls, block, &mut |calls, moment| {
        let (what, status, sheet) = match moment {
            Moment::Opened(status, sheet) => ("open", status, sheet),
            Moment::Edited(_, _, status, sheet) => ("edit", status, sheet),
            Moment::Ended(sheet) => {
                write!(out, "{} end", block.id).unwrap();
                print_plan(sheet, out);
                out.push('\n');
                return;
            }
        };
        write!(out, "{} {what} {status}", block.id).unwrap();
        if what == "edit" || status == 0 {
            print_kept(sheet, calls.verdict(sheet), out);
            if cells {
                out.push_str(" |");
                print_plan(sheet, out);
            }
        }
        out.push('\n');
    });
}
