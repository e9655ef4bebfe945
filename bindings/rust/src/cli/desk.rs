//! A sheet and its journal: `what-if`, `undo`, `replay`. The sheet is the kept one, or the one that
//! `audit` would open; the journal is replayed on it before anything else.

use std::ffi::OsStr;
use std::io::ErrorKind;

use tevalumi::raw::{limits, Status};
use tevalumi::sheet::{Edit, Entry, Journal, Sheet};

use super::args::Request;
use super::moved::Change;
use super::plan::{counted, shown, Plan};
use super::show::{of_1024, quoted};
use super::source::{self, Format};
use super::{audit, engine, kept, report, wrong, Files, Outcome};

/// What is done with the sheet.
#[derive(Clone, Copy, Debug, PartialEq)]
pub enum Act {
    WhatIf,
    Undo,
    Replay,
}

/// The exit status where the sheet or the journal refuses an edit.
const REFUSED: u8 = 1;

/// The most bytes of a journal's file: 65,535 blocks.
const JOURNAL: usize = 65_535 * limits::BLOCK;

/// What ends a command early.
type Ended = Outcome;

pub fn run(request: &Request, act: Act, files: &dyn Files) -> Outcome {
    match act_on(request, act, files) {
        Ok(outcome) | Err(outcome) => outcome,
    }
}

fn act_on(request: &Request, act: Act, files: &dyn Files) -> Result<Outcome, Ended> {
    let (plan, mut sheet) = opened(request, files)?;
    let mut journal = match request.journal.is_empty() {
        true => None,
        false => Some(replayed(&request.journal, act, &mut sheet, files)?),
    };
    let mut changes = Vec::new();
    match (act, &mut journal) {
        (Act::WhatIf, journal) => {
            for set in &request.sets {
                let before = sheet.clone();
                let words = edited(set, &plan, &mut sheet, journal.as_mut())?;
                changes.push(Change::new(words, &plan, &before, &sheet));
            }
        }
        (Act::Undo, Some(journal)) => {
            let before = sheet.clone();
            let words = undone(&plan, &mut sheet, journal)?;
            changes.push(Change::new(words, &plan, &before, &sheet));
        }
        (Act::Undo | Act::Replay, _) => {}
    }
    let written = match &journal {
        Some(_) if act == Act::Replay => None,
        Some(journal) => Some((&request.journal, journal.file().to_vec())),
        None => None,
    };
    let new = (!request.out.is_empty()).then(|| (&request.out, sheet.to_bytes()));
    for (file, bytes) in written.iter().chain(&new) {
        let told = |error| wrong(format!("{}: can't be written: {error}", name(file)));
        files.keep(file, bytes).map_err(told)?;
    }
    let entries = journal.map_or(Vec::new(), |journal| journal.entries());
    let kept = new.map(|(file, bytes)| (name(file), bytes.len()));
    Ok(told(request, act, &plan, &sheet, &changes, &entries, kept))
}

fn name(file: &OsStr) -> String {
    shown(&file.to_string_lossy())
}

/// The plan's sheet: as it was kept, or with what `audit` proposes.
fn opened(request: &Request, files: &dyn Files) -> Result<(Plan, Sheet), Ended> {
    let file = name(&request.file);
    let (bytes, format) =
        source::load(request, files).map_err(|what| wrong(format!("{file}: {what}")))?;
    let fault = |fault| wrong(source::told(&file, fault));
    if format == Format::Kept || format == Format::Auto && source::is_kept(&bytes) {
        let sheet = kept::sheet(&bytes).map_err(fault)?;
        return Ok((kept::plan(&sheet), sheet));
    }
    let mut plans = source::read(&bytes, format, request.relax).map_err(fault)?;
    let (Some(mut plan), true) = (plans.pop(), plans.is_empty()) else {
        return Err(wrong(format!("{file}: expected one plan")));
    };
    request.settle(&mut plan);
    let solved = engine::solve(&plan);
    let status = solved.answer.status;
    if status != Status::Optimal {
        let out = match request.json {
            true => report::as_json(&request.file.to_string_lossy(), &plan, &solved, false, ""),
            false => report::head(&plan, &solved, false),
        };
        let exit = report::exit(status);
        return Err(Outcome {
            out,
            exit,
            ..Outcome::default()
        });
    }
    match audit::open(&plan, &solved) {
        Ok(sheet) => Ok((plan, sheet)),
        Err(what) => Err(wrong(super::not_whole(&file, &plan, &what))),
    }
}

/// The journal in a file, replayed on the sheet. `what-if` begins one where there is no such file.
fn replayed(
    file: &OsStr,
    act: Act,
    sheet: &mut Sheet,
    files: &dyn Files,
) -> Result<Journal, Ended> {
    let bytes = match files.read(file, JOURNAL) {
        Ok(bytes) => bytes,
        Err(error) if error.kind() == ErrorKind::NotFound && act == Act::WhatIf => {
            return Ok(Journal::new(2));
        }
        Err(error) => return Err(wrong(format!("{}: can't be read: {error}", name(file)))),
    };
    let told = |refusal| wrong(format!("{}: {refusal}", name(file)));
    sheet.replay(&bytes).map_err(told)?;
    Ok(Journal::from_bytes(&bytes, 1))
}

fn refused(what: String) -> Ended {
    Outcome {
        err: format!("tevalumi: {what}\n"),
        exit: REFUSED,
        ..Outcome::default()
    }
}

/// One `--set`, in words.
fn edited(
    set: &str,
    plan: &Plan,
    sheet: &mut Sheet,
    journal: Option<&mut Journal>,
) -> Result<String, Ended> {
    let edit =
        edit_of(set, plan, sheet).map_err(|what| wrong(format!("--set {}: {what}", shown(set))))?;
    let told = |refusal| refused(format!("--set {}: {refusal}", shown(set)));
    // The words come from an entry, so there is always a journal.
    let mut own = Journal::new(2);
    let journal = match journal {
        None => &mut own,
        Some(journal) => {
            *journal = Journal::from_bytes(journal.file(), 1);
            journal
        }
    };
    sheet.edit_journaled(edit, journal).map_err(told)?;
    let entry = journal.entries().pop();
    Ok(entry.map_or(String::new(), |entry| words(plan, &entry, false)))
}

fn undone(plan: &Plan, sheet: &mut Sheet, journal: &mut Journal) -> Result<String, Ended> {
    let last = journal.entries().pop();
    let told = |refusal| refused(format!("{refusal}"));
    sheet.undo(journal).map_err(told)?;
    Ok(last.map_or(String::new(), |entry| words(plan, &entry, true)))
}

/// The edit that `WHAT:NAME=NUMBER` asks for.
fn edit_of(set: &str, plan: &Plan, sheet: &Sheet) -> Result<Edit, String> {
    const WANTED: &str = "expected amount, cost, lower, upper, right, mult or coef, then : and a name (coef: two), then = and a number";
    let (place, number) = set.rsplit_once('=').ok_or(WANTED)?;
    let (what, place) = place.split_once(':').ok_or(WANTED)?;
    let column = || found(place, "column", sheet.columns(), |j| plan.column_name(j));
    let row = |place: &str| found(place, "row", sheet.rows(), |i| plan.row_name(i));
    let to = || whole(number);
    Ok(match (what, number) {
        ("amount", _) => Edit::Amount {
            column: column()?,
            to: to()?,
        },
        ("cost", _) => Edit::Cost {
            column: column()?,
            to: to()?,
        },
        ("lower", "none") => Edit::DropLower { column: column()? },
        ("upper", "none") => Edit::DropUpper { column: column()? },
        ("lower", _) => Edit::Lower {
            column: column()?,
            to: to()?,
        },
        ("upper", _) => Edit::Upper {
            column: column()?,
            to: to()?,
        },
        ("right", _) => Edit::Right {
            row: row(place)?,
            to: to()?,
        },
        ("mult", _) => Edit::Multiplier {
            row: row(place)?,
            to: parts(number)?,
        },
        ("coef", _) => {
            let (of_row, of_column) = place.split_once(':').ok_or(WANTED)?;
            Edit::Coefficient {
                row: row(of_row)?,
                column: found(of_column, "column", sheet.columns(), |j| {
                    plan.column_name(j)
                })?,
                to: to()?,
            }
        }
        _ => return Err(WANTED.to_string()),
    })
}

/// The place of a name, which must stand once.
pub fn found(
    name: &str,
    what: &str,
    places: usize,
    named: impl Fn(usize) -> String,
) -> Result<usize, String> {
    let mut all = (0..places).filter(|&place| named(place) == shown(name));
    match (all.next(), all.next()) {
        (Some(place), None) => Ok(place),
        (None, _) => Err(format!("there is no {what} `{}`", shown(name))),
        (Some(_), Some(_)) => Err(format!("more than one {what} is `{}`", shown(name))),
    }
}

fn whole(number: &str) -> Result<i64, String> {
    let wrong = |_| format!("expected a whole number, found `{}`", shown(number));
    number.parse().map_err(wrong)
}

/// A multiplier as a decimal number, in 1/1024.
fn parts(number: &str) -> Result<i64, String> {
    let wrong = || format!("expected a multiple of 1/1024, found `{}`", shown(number));
    let exact = number.parse::<f64>().map_err(|_| wrong())? * 1024.0;
    // Past this a double isn't every whole number; the sheet refuses it long before.
    match exact.fract() == 0.0 && exact.abs() < 9e15 {
        true => Ok(exact as i64),
        false => Err(wrong()),
    }
}

/// An entry in words: `amount of north from 4 to 3`. Taken back it goes the other way.
fn words(plan: &Plan, entry: &Entry, back: bool) -> String {
    let (row, column) = (plan.row_name(entry.row), plan.column_name(entry.column));
    let what = match entry.kind {
        1 => format!("amount of {column}"),
        2 => format!("cost of {column}"),
        3 | 8 => format!("lower bound of {column}"),
        4 | 9 => format!("upper bound of {column}"),
        5 => format!("right side of {row}"),
        6 => format!("coefficient of {column} in {row}"),
        _ => format!("multiplier of {row}"),
    };
    let number = |number: i64, present: bool| match (present, entry.kind) {
        (false, _) => "none".to_string(),
        (true, 7) => of_1024(number),
        (true, _) => number.to_string(),
    };
    let old = number(entry.old, entry.before);
    let new = number(entry.new, !matches!(entry.kind, 8 | 9));
    match back {
        true => format!("{what} from {new} back to {old}"),
        false => format!("{what} from {old} to {new}"),
    }
}

/// The answer: what was done, the sheet, and its verdict.
fn told(
    request: &Request,
    act: Act,
    plan: &Plan,
    sheet: &Sheet,
    changes: &[Change],
    entries: &[Entry],
    kept: Option<(String, usize)>,
) -> Outcome {
    let out = if request.json {
        let said: Vec<String> = changes.iter().map(|change| quoted(&change.words)).collect();
        let changes: Vec<String> = changes.iter().map(Change::as_json).collect();
        let kept = kept.map_or(String::new(), |(file, bytes)| kept::as_json(&file, bytes));
        format!(
            "{{\"version\":{},\"file\":{},\"plan\":{},\"edits\":[{}],\"entries\":{},\"changes\":[{}]{kept}{}}}\n",
            report::JSON_VERSION,
            quoted(&request.file.to_string_lossy()),
            quoted(&plan.name),
            said.join(","),
            entries.len(),
            changes.join(","),
            audit::as_json(plan, sheet)
        )
    } else {
        let mut out = report::title(plan);
        let before = if act == Act::Undo { "undone" } else { "edit" };
        for change in changes {
            out += &format!("{before:<9}  {}\n{}", change.words, change.text());
        }
        if !request.journal.is_empty() {
            let file = name(&request.journal);
            let entries = counted(entries.len(), "entry", "entries");
            out += &format!("journal    {file}: {entries}\n");
        }
        if let Some((file, bytes)) = kept {
            out += &kept::line(&file, bytes);
        }
        out + &audit::tables(plan, sheet) + &format!("\n{}\n", audit::verdict(plan, sheet))
    };
    Outcome {
        out,
        ..Outcome::default()
    }
}
