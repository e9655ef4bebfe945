//! The command line.

use std::ffi::{OsStr, OsString};

use super::desk::Act;
use super::plan::{shown, Plan};
use super::source::Format;
use super::units::MOST_GROUPS;
use super::Task;

#[derive(Clone, Debug)]
pub enum Command {
    /// The help text of a command, or of the program.
    Help(&'static str),
    Version,
    Plans(Task, Request),
    Desk(Act, Request),
    /// The night that comes with the program.
    Bundled(Request),
}

#[derive(Clone, Debug, Default)]
pub struct Request {
    pub file: OsString,
    pub format: Format,
    /// The most bytes that a file may have, packed or not.
    pub most: usize,
    pub relax: bool,
    pub maximise: Option<bool>,
    pub budget: Option<usize>,
    pub tolerance: Option<f64>,
    pub plain: bool,
    pub bits: bool,
    pub json: bool,
    /// Where `keep` puts the plan.
    pub out: OsString,
    /// Where a page goes, and a list in glpsol's form.
    pub html: OsString,
    pub sol: OsString,
    /// The columns that `solve` holds still, with their values.
    pub fixes: Vec<String>,
    /// What `what-if` changes, and the journal's file.
    pub sets: Vec<String>,
    pub journal: OsString,
    /// The groups whose columns `night` plans first; none: all are planned at once.
    pub alarms: Vec<String>,
    /// How `night` tells.
    pub groups: Vec<String>,
    pub short: bool,
    pub ascii: bool,
    pub sheets: bool,
}

impl Request {
    /// Budget, tolerance, start and direction as the command line says.
    pub fn settle(&self, plan: &mut Plan) {
        plan.budget = self.budget.unwrap_or(plan.budget);
        plan.tolerance = self.tolerance.unwrap_or(plan.tolerance);
        plan.plain = self.plain;
        plan.turn(self.maximise.unwrap_or(plan.maximise));
    }
}

/// In MB: the most that is read where the command line says nothing, and the most that it may say.
const MB: usize = 1 << 20;
const MOST: usize = 64;
const MOST_OF_ALL: usize = 4_000;

pub const HELP: &str = "\
tevalumi: small linear programs, solved and audited by a library whose every function is proved.

usage: tevalumi solve FILE    solve a plan and print its values
       tevalumi audit FILE    solve a plan in whole numbers and say how much cheaper another could be
       tevalumi why FILE      say why a plan in whole numbers has no solution
       tevalumi keep FILE -o PLAN.tev
                              keep a solved plan in whole numbers over a power cut
       tevalumi what-if FILE --set WHAT:NAME=NUMBER [--journal JOURNAL]
                              change numbers of the sheet and say what it then says
       tevalumi undo FILE JOURNAL
                              take the journal's last change back
       tevalumi replay FILE JOURNAL [-o PLAN.tev]
                              make the journal's changes on the plan's sheet again
       tevalumi night FILE    which unit gets what it wants, and how good the plan is
       tevalumi night FILE --alarms GROUP
                              alarms first, then the rest, and how good each of the two is
       tevalumi night         the bundled frost night, with its prices and with alarms first
       tevalumi COMMAND --help

exit status: 0 Optimal; 1 refused (answers 1 to 7; a change of the sheet: 11 to 16, 35 to 37);
             3 not solved (answers 20 to 26); 4 an audit shows no gap;
             2 the command line or a file is wrong, or what was to be written isn't
";

pub const HELP_SOLVE: &str = "\
usage: tevalumi solve [OPTIONS] FILE

Solves the plan in FILE (- is standard input) and prints the status with its number and a
sentence, the objective, the steps, and by name the columns with value, bounds, cost, price (reduced
cost) and where each stands, and the rows with activity, right side, slack and multiplier (dual).
At most 128 columns, 96 rows and 2,048 entries.

The run begins with each column at the bound that its cost wants: below 0 the upper one, else the
lower one; the other where that is infinite, 0 where both are. Where a row isn't kept there and a
column has no bound on the side that its cost wants, the plan is solved with costs 0 first, and with
its own from there on; the budget holds for each of the two.

formats: MPS, free or fixed, as GLPK, Clp and HiGHS write it; CPLEX-LP; the project's own text
         (docs/EXCHANGE.md); a plan that `tevalumi keep` wrote; each of them packed by gzip, where
         that program is there. Which one is told by the content; a name that ends in .tev is a kept
         plan's.

options:
  --format F   auto, mps, free-mps, fixed-mps, lp, text or kept
  --max, --min maximise or minimise, whatever the file says (GLPK and Clp don't write it)
  --relax      allow fractions where the file wants whole numbers; without it they are refused
  --budget N   take at most N steps (0 to 10000; 10000 where the file says none)
  --tol X      the final check's tolerance (0 to 1; 1e-6 where the file says none)
  --plain      never solve with costs 0 first: such a plan is refused with 7
  --max-size N read files of at most N MB, packed or not (64)
  --bits       print the 16 hex digits of each double too
  --json       print one JSON object a plan, on one line
  --sol FILE   write a solved plan in the form of `glpsol -o`
  --html FILE  write one page to keep or print
  --fix COLUMN=X
               hold a column of the solved plan still at X and go on from there; again for more. The
               plan is shown before and after, with the steps that each took beside a fresh solve's

in LP:  `x <= -3` alone leaves the lower bound 0, as GLPK and Clp read it, and the bounds cross
in MPS: a negative UP without a lower bound means no lower bound; bounds of 1e20 and more mean
        none; a range becomes two rows; N rows after the first are left out; the objective's right
        side is a constant with its sign turned (in files of glpsol, as glpsol does, not turned)

exit status: 0 Optimal; 1 refused (answers 1 to 7; a fix: 43); 3 not solved (answers 20 to 26);
             2 the command line or the file is wrong
";

pub const HELP_AUDIT: &str = "\
usage: tevalumi audit [OPTIONS] FILE

Solves the plan in FILE as `tevalumi solve` does, looks for good whole amounts and for good
multipliers of 1/1024 near its values and prices, opens the audit sheet with several of each, keeps
the best, and prints the sheet and its verdict. The verdict is the sheet's: a bad proposal only
makes it worse, never prettier. A plan with a number that isn't whole or is over the sheet's limits
is said to be so, and no sheet is shown. Where the plan isn't solved and the sheet shows that none
exists, it says why, as `tevalumi why` does.

limits: coefficients 4,096, costs 2^20, right sides 2^31, bounds and amounts 2^16, multipliers 1,024

options: --format, --max, --min, --relax, --budget, --tol, --plain, --max-size, --json, --html as
         for `tevalumi solve`

exit status: 0 the sheet shows a gap; 4 it shows none; 1 refused (answers 1 to 7); 3 not solved
             (answers 20 to 26); 2 the command line or the file is wrong, or the plan isn't in
             whole numbers
";

pub const HELP_WHY: &str = "\
usage: tevalumi why [OPTIONS] FILE

Looks for the reason why the plan in FILE has no solution: a multiplier for each row, so that the
rows together ask for more than the bounds leave. The audit sheet is opened with them and with all
costs 0, and where its verdict is that no plan exists, whole or fractional, the rows and columns
that count are printed. Nothing else is taken for a reason, so a plan without one may have a
solution or none. Numbers must be whole and within the sheet's limits; costs aren't looked at.

limits: coefficients 4,096, right sides 2^31, bounds 2^16

options: --format, --max, --min, --relax, --max-size, --json, --html as for `tevalumi solve`

exit status: 0 no plan exists; 3 that isn't shown; 1 refused (answers 1 to 4); 2 the command line or
             the file is wrong, or the plan isn't in whole numbers
";

pub const HELP_KEEP: &str = "\
usage: tevalumi keep [OPTIONS] FILE -o PLAN.tev

Solves the plan in FILE, finds whole amounts and multipliers as `tevalumi audit` does, and keeps
plan, amounts and multipliers in PLAN.tev: blocks of 512 bytes, each with a check (docs/FILES.md).
The file is written to another name, put on the disk and renamed, so a power cut leaves the old one
or the new one whole. A file with a changed byte, a block that is missing, cut or misplaced, or
numbers that a sheet refuses isn't read: the number, the block and a sentence say why. Every command
reads PLAN.tev where it reads FILE. Names aren't kept, nor a constant; where FILE maximises, the
costs are kept with their signs turned.

limits: as for `tevalumi audit`

options: --format, --max, --min, --relax, --budget, --tol, --plain, --max-size, --json as for
         `tevalumi solve`

exit status: 0 kept; 1 and 3 the plan isn't solved, as for `tevalumi solve`, and nothing is kept;
             2 the command line or a file is wrong, or the plan isn't in whole numbers
";

pub const HELP_WHAT_IF: &str = "\
usage: tevalumi what-if [OPTIONS] FILE --set WHAT:NAME=NUMBER ...

Opens the sheet of the plan in FILE, as it was kept or else as `tevalumi audit` would, changes the
numbers that are named, one after another, and prints for each the kept numbers of the sheet that
moved and the verdict after and before, then the sheet and its verdict. Nothing is solved again: the
sheet says what the changed amounts, costs and bounds mean.

  --set amount:COLUMN=N    a column's amount     --set cost:COLUMN=N      its cost
  --set lower:COLUMN=N     its lower bound       --set upper:COLUMN=N     its upper bound
  --set lower:COLUMN=none  drops it              --set upper:COLUMN=none  drops it
  --set right:ROW=N        a row's right side    --set mult:ROW=X         its multiplier
  --set coef:ROW:COLUMN=N  a coefficient

  --journal JOURNAL        a file with the changes so far, which are made first (it is begun where
                           there is none); the new ones are appended to it
  -o PLAN.tev              keep the changed sheet, as `tevalumi keep` does

The sheet of a maximised plan minimises: its costs are those of the file with their signs turned.
Where a change is refused nothing is written. Columns of a kept plan are x0, x1, .. and its rows r0,
r1, ..

options: --format, --max, --min, --relax, --budget, --tol, --plain, --max-size, --json as for
         `tevalumi solve`

exit status: 0 done, whatever the verdict; 1 a change is refused (11 to 16); 1 and 3 the plan isn't
             solved, as for `tevalumi solve`; 2 the command line or a file is wrong, or the plan
             isn't in whole numbers
";

pub const HELP_UNDO: &str = "\
usage: tevalumi undo [OPTIONS] FILE JOURNAL

Makes the changes of JOURNAL on the sheet of the plan in FILE, takes the last one back, and writes
JOURNAL without it. The sheet is then as it was before that change, every number of it.

options: -o PLAN.tev and those of `tevalumi what-if`

exit status: 0 done; 1 no change is left (35); else as for `tevalumi what-if`
";

pub const HELP_REPLAY: &str = "\
usage: tevalumi replay [OPTIONS] FILE JOURNAL

Makes the changes of JOURNAL on the sheet of the plan in FILE again, as after a power cut, and
prints the sheet and its verdict. A change that the sheet refuses, or whose old number the sheet
doesn't hold (36), and a damaged journal (31 to 34) are told by number.

options: -o PLAN.tev and those of `tevalumi what-if`

exit status: 0 done; else as for `tevalumi what-if`
";

pub const HELP_NIGHT: &str = "\
usage: tevalumi night [OPTIONS] FILE
       tevalumi night [OPTIONS] FILE --alarms GROUP[,GROUP]
       tevalumi night [--ascii] [--sheets] [--html FILE] [--json]

With FILE: solves and audits that plan and tells which unit gets how much of what it wants. Columns
are named GROUP.UNIT, such as alarm.A01 and soil.A01. A column wants as much as its upper bound, or
as an \"at most\" row of it alone. The first three lines have the answer: who is cut, what the plan
costs, and how much cheaper another could be.

With --alarms: alarms first, then the rest, by one proved call. The plan is solved with the costs of
these groups' columns alone, rounded and audited. Then the row \"alarm cost at most what was found\"
is added, and it is solved with all other costs, those of the reports. So the alarms that are handed
out are never worth less than the first stage's, and by at most the first gap less than any plan's.
The answer: who is cut, how good the alarms are, how good the reports are beside them; then which
rows are full and what the alarms take of each. The plan has to be in whole numbers within the
limits of `tevalumi audit`. Nothing is handed out, and it is said why, where (1) the alarms' audit
shows no gap, (2) the plan has 96 rows, (3) the alarms' row would pass 2,048 entries, (4) an alarm
cost is over 4,096 in size or (5) what was found is over 2^31. The alarms' own amounts are handed
out where (6) the second stage gives no plan; else (7) the second stage's.

Without: tells the bundled frost night. Alarms and soil reports share the air of a quarter hour; the
same plan is solved and audited with the costs that lost the alarms, and with alarms first.

options:
  --alarms A,B one to three groups whose columns are planned first
  --groups A,B one to three groups to tell of (alarm,soil; with --alarms these, then the others)
  --short      at most 24 lines of 80 columns: the units that are cut most
  --ascii      draw the bars with # and .
  --sheets     print the audit sheets in full, as `tevalumi audit` would
  --html FILE  write one page to keep or print
  --json       print one JSON object a plan, on one line
  with FILE also --format, --max, --min, --relax, --budget, --tol, --plain and --max-size, as for
  `tevalumi solve`

exit status: as for `tevalumi audit`; 4 too where the plan isn't in whole numbers; 2 too where no
             column has such a name. With --alarms: 0 both audits show a gap; 1 and 3 the alarms
             alone are refused or not solved; 4 every other answer; 2 as for `tevalumi audit`
";

/// What is wrong with the command line.
pub type Usage = String;

pub fn parse(args: &[OsString]) -> Result<Command, Usage> {
    let Some((command, rest)) = args.split_first() else {
        return Err(
            "expected a command: solve, audit, why, keep, what-if, undo, replay or night"
                .to_string(),
        );
    };
    let help = match command.to_str() {
        Some("solve") => HELP_SOLVE,
        Some("audit") => HELP_AUDIT,
        Some("why") => HELP_WHY,
        Some("keep") => HELP_KEEP,
        Some("what-if") => HELP_WHAT_IF,
        Some("undo") => HELP_UNDO,
        Some("replay") => HELP_REPLAY,
        Some("night") => HELP_NIGHT,
        Some("--help" | "-h") => return Ok(Command::Help(HELP)),
        Some("--version" | "-V") => return Ok(Command::Version),
        Some("help") => {
            return match rest.first() {
                None => Ok(Command::Help(HELP)),
                Some(topic) => parse(&[topic.clone(), "--help".into()]),
            }
        }
        _ => {
            return Err(format!(
                "expected solve, audit, why, keep, what-if, undo, replay or night, found `{}`",
                text(command)
            ))
        }
    };
    if rest.iter().any(|arg| arg == "--help" || arg == "-h") {
        return Ok(Command::Help(help));
    }
    match command.to_str() {
        Some("night") => night(rest),
        Some("audit") => Ok(Command::Plans(Task::Audit, request(rest, &["--html"])?)),
        Some("why") => Ok(Command::Plans(Task::Why, request(rest, &["--html"])?)),
        Some("keep") => match request(rest, &["-o"])? {
            Request { out, .. } if out.is_empty() => {
                Err("expected a file to keep the plan in (-o PLAN.tev)".to_string())
            }
            request => Ok(Command::Plans(Task::Keep, request)),
        },
        Some("what-if") => {
            let own = ["-o", "--set", "--journal"];
            request(rest, &own).map(|request| Command::Desk(Act::WhatIf, request))
        }
        Some("undo") => with_journal(rest).map(|request| Command::Desk(Act::Undo, request)),
        Some("replay") => with_journal(rest).map(|request| Command::Desk(Act::Replay, request)),
        _ => Ok(Command::Plans(
            Task::Solve,
            request(rest, &["--bits", "--sol", "--html", "--fix"])?,
        )),
    }
}

fn text(arg: &OsStr) -> String {
    shown(&arg.to_string_lossy())
}

/// The bundled night has a few options; one's own has a file and all of them.
fn night(args: &[OsString]) -> Result<Command, Usage> {
    let mut bundled = Request::default();
    let mut rest = args.iter();
    while let Some(arg) = rest.next() {
        match arg.to_str() {
            Some("--ascii") => bundled.ascii = true,
            Some("--sheets") => bundled.sheets = true,
            Some("--json") => bundled.json = true,
            Some("--html") => {
                let file = rest.next().ok_or("expected a file behind --html")?;
                bundled.html.clone_from(file);
            }
            _ => {
                let own = [
                    "--ascii", "--sheets", "--short", "--groups", "--alarms", "--html",
                ];
                return Ok(Command::Plans(Task::Night, request(args, &own)?));
            }
        }
    }
    Ok(Command::Bundled(bundled))
}

/// A file and a journal.
fn with_journal(args: &[OsString]) -> Result<Request, Usage> {
    match request(args, &["-o", JOURNAL])? {
        Request { journal, .. } if journal.is_empty() => Err("expected a journal".to_string()),
        request => Ok(request),
    }
}

/// Among a command's own options: its second file is a journal.
const JOURNAL: &str = "JOURNAL";

/// `own` are the options that not every command has.
fn request(args: &[OsString], own: &[&str]) -> Result<Request, Usage> {
    let mut file = None;
    let mut request = Request {
        most: MOST * MB,
        ..Request::default()
    };
    let mut args = args.iter();
    let mut only_files = false;
    while let Some(arg) = args.next() {
        let word = arg.to_str().unwrap_or("");
        if only_files || !word.starts_with('-') || word == "-" {
            match &file {
                None => file = Some(arg.clone()),
                Some(_) if own.contains(&JOURNAL) && request.journal.is_empty() => {
                    request.journal.clone_from(arg);
                }
                Some(_) if own.contains(&JOURNAL) => {
                    return Err(format!("expected two files, found `{}` too", text(arg)));
                }
                Some(_) => return Err(format!("expected one file, found `{}` too", text(arg))),
            }
            continue;
        }
        let (option, given) = match word.split_once('=') {
            Some((option, value)) => (option, Some(value.to_string())),
            None => (word, None),
        };
        let mut value = || match given.clone() {
            Some(value) => Ok(value),
            None => args
                .next()
                .map(|value| value.to_string_lossy().into_owned())
                .ok_or(format!("expected a value behind {option}")),
        };
        match option {
            "--" => only_files = true,
            "--format" => request.format = format(&value()?)?,
            "--budget" => request.budget = Some(budget(&value()?)?),
            "--tol" => request.tolerance = Some(tolerance(&value()?)?),
            "--max" => request.maximise = Some(true),
            "--min" => request.maximise = Some(false),
            "--relax" => request.relax = true,
            "--plain" => request.plain = true,
            "--json" => request.json = true,
            "--max-size" => request.most = max_size(&value()?)?,
            "--bits" if own.contains(&option) => request.bits = true,
            "--short" if own.contains(&option) => request.short = true,
            "--ascii" if own.contains(&option) => request.ascii = true,
            "--sheets" if own.contains(&option) => request.sheets = true,
            "--groups" if own.contains(&option) => request.groups = groups(option, &value()?)?,
            "--alarms" if own.contains(&option) => request.alarms = groups(option, &value()?)?,
            "--set" if own.contains(&option) => request.sets.push(value()?),
            "--fix" if own.contains(&option) => request.fixes.push(value()?),
            "-o" | "--journal" | "--html" | "--sol" if own.contains(&option) => {
                let file = given.map(OsString::from).or_else(|| args.next().cloned());
                let file = file.ok_or(format!("expected a file behind {option}"))?;
                match option {
                    "-o" => request.out = file,
                    "--html" => request.html = file,
                    "--sol" => request.sol = file,
                    _ => request.journal = file,
                }
            }
            _ => return Err(format!("there is no option `{}` here", text(arg))),
        }
    }
    request.file = file.ok_or("expected a file (- is standard input)")?;
    Ok(request)
}

fn format(name: &str) -> Result<Format, Usage> {
    let found = Format::NAMES.into_iter().find(|&(n, _)| n == name);
    found.map(|(_, format)| format).ok_or(format!(
        "expected auto, mps, free-mps, fixed-mps, lp, text or kept behind --format, found `{}`",
        shown(name)
    ))
}

/// Over its limit it is the library's to refuse.
fn budget(word: &str) -> Result<usize, Usage> {
    let wrong = |_| {
        format!(
            "expected a whole number behind --budget, found `{}`",
            shown(word)
        )
    };
    word.parse().map_err(wrong)
}

fn max_size(word: &str) -> Result<usize, Usage> {
    let size = word.parse().ok();
    let size = size.filter(|size| (1..=MOST_OF_ALL).contains(size));
    size.map(|size| size * MB).ok_or(format!(
        "expected 1 to {MOST_OF_ALL} (MB) behind --max-size, found `{}`",
        shown(word)
    ))
}

/// One to three, parted by commas: more don't fit beside each other.
fn groups(option: &str, word: &str) -> Result<Vec<String>, Usage> {
    let groups: Vec<String> = word
        .split(',')
        .map(|group| group.trim().to_string())
        .collect();
    match groups.len() > MOST_GROUPS || groups.iter().any(String::is_empty) {
        true => Err(format!(
            "expected one to three names, parted by commas, behind {option}, found `{}`",
            shown(word)
        )),
        false => Ok(groups),
    }
}

fn tolerance(word: &str) -> Result<f64, Usage> {
    let wrong = |_| format!("expected a number behind --tol, found `{}`", shown(word));
    word.parse().map_err(wrong)
}
