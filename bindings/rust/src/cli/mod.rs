//! The command-line program. Everything goes through [`run`], which doesn't panic, and prints nothing but
//! how far a long file is read.

pub mod args;
pub mod audit;
pub mod desk;
pub mod engine;
pub mod fix;
pub mod html;
pub mod kept;
pub mod lp;
pub mod moved;
pub mod mps;
pub mod night;
pub mod plan;
pub mod report;
pub mod show;
pub mod sol;
pub mod source;
pub mod stages;
pub mod text;
pub mod units;
pub mod why;

use std::ffi::{OsStr, OsString};
use std::io;

use tevalumi::raw::Status;

use args::{Command, Request};
use engine::Solved;
use plan::{shown, Plan};

/// The exit status for a wrong command line or file.
pub const WRONG: u8 = 2;

/// What goes to standard output and standard error, and the exit status.
#[derive(Clone, Debug, Default)]
pub struct Outcome {
    pub out: String,
    pub err: String,
    pub exit: u8,
}

/// The files that the program reads and keeps.
pub trait Files {
    /// A file's content; `-` is standard input. One of more bytes than `most` is too large.
    fn read(&self, file: &OsStr, most: usize) -> io::Result<Vec<u8>>;
    /// What gzip has packed, of at most so many bytes.
    fn unpack(&self, packed: &[u8], most: usize) -> io::Result<Vec<u8>>;
    /// Puts a file in place whole, or leaves what was there.
    fn keep(&self, file: &OsStr, bytes: &[u8]) -> io::Result<()>;
}

/// What is done with each plan of a file.
#[derive(Clone, Copy, Debug, PartialEq)]
pub enum Task {
    Solve,
    Audit,
    Why,
    Keep,
    Night,
}

pub fn run(args: &[OsString], files: &dyn Files) -> Outcome {
    let (task, request) = match args::parse(args) {
        Ok(Command::Help(text)) => return said(text.to_string()),
        Ok(Command::Version) => return said(format!("tevalumi {}\n", env!("CARGO_PKG_VERSION"))),
        Ok(Command::Bundled(request)) => return bundled(&request, files),
        Ok(Command::Plans(task, request)) => (task, request),
        Ok(Command::Desk(act, request)) => return desk::run(&request, act, files),
        Err(usage) => return wrong(format!("{usage}\nTry `tevalumi --help`.")),
    };
    let file = shown(&request.file.to_string_lossy());
    let written = [&request.out, &request.html, &request.sol];
    let one = written.iter().any(|file| !file.is_empty()) || task == Task::Night;
    match source::load(&request, files) {
        Ok((bytes, format)) => match source::read(&bytes, format, request.relax) {
            Ok(plans) if one && plans.len() != 1 => {
                wrong(format!("{file}: expected one plan, found {}", plans.len()))
            }
            Ok(plans) => answer(&file, plans, &request, task, files),
            Err(fault) => wrong(source::told(&file, fault)),
        },
        Err(what) => wrong(format!("{file}: {what}")),
    }
}

/// The night that comes with the program.
fn bundled(request: &Request, files: &dyn Files) -> Outcome {
    let (story, page) = match night::tell(request) {
        Ok(told) => told,
        Err(what) => return wrong(format!("a bundled plan isn't solved: {what}")),
    };
    let page = (!request.html.is_empty()).then(|| page.finish());
    match put(&request.html, page, files) {
        Ok(()) if request.json => bundled_json(request, files),
        Ok(()) => said(story),
        Err(outcome) => outcome,
    }
}

/// Its plan as `night FILE --json` tells it, then with `--alarms`; it has no file's name, and the page is written.
fn bundled_json(request: &Request, files: &dyn Files) -> Outcome {
    let plan = match night::read() {
        Ok(plan) => plan,
        Err(what) => return wrong(format!("a bundled plan isn't read: {what}")),
    };
    let told = [Vec::new(), night::alarms()].map(|alarms| {
        let request = Request {
            html: OsString::new(),
            alarms,
            ..request.clone()
        };
        answer("", vec![plan.clone()], &request, Task::Night, files)
    });
    let [mut left, right] = told;
    left.out += &right.out;
    left.err += &right.err;
    left.exit = left.exit.max(right.exit);
    left
}

/// Puts a page or a list in its file, where one is asked for.
fn put(file: &OsStr, text: Option<String>, files: &dyn Files) -> Result<(), Outcome> {
    let Some(text) = text.filter(|_| !file.is_empty()) else {
        return Ok(());
    };
    let name = shown(&file.to_string_lossy());
    let kept = files.keep(file, text.as_bytes());
    kept.map_err(|error| wrong(format!("{name}: can't be written: {error}")))
}

fn said(out: String) -> Outcome {
    Outcome {
        out,
        ..Outcome::default()
    }
}

fn wrong(what: String) -> Outcome {
    Outcome {
        err: format!("tevalumi: {what}\n"),
        exit: WRONG,
        ..Outcome::default()
    }
}

fn not_whole(file: &str, plan: &Plan, what: &str) -> String {
    format!(
        "{file}: plan {} isn't in whole numbers within the sheet's limits: {what}",
        shown(&plan.name)
    )
}

/// Each plan in turn. The exit status of several is 2 if one has it, else the largest.
fn answer(
    file: &str,
    plans: Vec<Plan>,
    request: &Request,
    task: Task,
    files: &dyn Files,
) -> Outcome {
    let mut all = Outcome::default();
    for mut plan in plans {
        request.settle(&mut plan);
        let one = match one(file, &plan, request, task, files) {
            Ok(one) | Err(one) => one,
        };
        if !(request.json || all.out.is_empty() || one.out.is_empty()) {
            all.out.push('\n');
        }
        all.out += &one.out;
        all.err += &one.err;
        all.exit = match (all.exit, one.exit) {
            (WRONG, _) | (_, WRONG) => WRONG,
            (before, this) => before.max(this),
        };
    }
    all
}

/// A solved plan with what it is to be told with.
struct Case<'a> {
    file: &'a str,
    plan: &'a Plan,
    solved: Solved,
    request: &'a Request,
}

/// What is told of a plan: the text or the JSON, the exit status, and the page where one is asked for.
struct Told {
    out: String,
    exit: u8,
    page: Option<html::Page>,
}

fn one(
    file: &str,
    plan: &Plan,
    request: &Request,
    task: Task,
    files: &dyn Files,
) -> Result<Outcome, Outcome> {
    let solved = engine::solve(plan);
    let status = solved.answer.status;
    let case = Case {
        file,
        plan,
        solved,
        request,
    };
    // 1 to 4 say that there are no rows and bounds to look at.
    let looks = !matches!(status.number(), 1..=4);
    let told = match task {
        Task::Night => case.night()?,
        Task::Audit if status == Status::Optimal => case.audit()?,
        Task::Keep if status == Status::Optimal => case.keep(files)?,
        Task::Why if looks => case.why()?,
        // An audit says why there is no plan, where that is shown.
        Task::Audit if looks => case.unsolved(),
        Task::Solve | Task::Audit | Task::Why | Task::Keep => case.solve(files)?,
    };
    put(&request.html, told.page.map(html::Page::finish), files)?;
    Ok(Outcome {
        out: told.out,
        err: String::new(),
        exit: told.exit,
    })
}

impl Case<'_> {
    /// The text, or one JSON object with more behind the run's own fields.
    fn told(&self, text: String, more: &str, exit: u8) -> Told {
        let name = self.request.file.to_string_lossy();
        let out = match self.request.json {
            true => report::as_json(&name, self.plan, &self.solved, self.request.bits, more),
            false => text,
        };
        Told {
            out,
            exit,
            page: None,
        }
    }

    fn with_page(&self, told: Told, page: impl FnOnce() -> html::Page) -> Told {
        let page = (!self.request.html.is_empty()).then(page);
        Told { page, ..told }
    }

    fn exit(&self) -> u8 {
        report::exit(self.solved.answer.status)
    }

    /// A sentence that names the first number that doesn't fit the sheet.
    fn not_whole(&self, what: String) -> Outcome {
        wrong(not_whole(self.file, self.plan, &what))
    }

    fn solve(&self, files: &dyn Files) -> Result<Told, Outcome> {
        let (plan, bits) = (self.plan, self.request.bits);
        let fixes = fix::named(plan, &self.request.fixes)
            .map_err(|what| wrong(format!("{}: {what}", self.file)))?;
        let held = match self.solved.answer.status {
            Status::Optimal => fix::hold(plan, &self.solved, &fixes),
            _ => Vec::new(),
        };
        let last = held.last().map_or(&self.solved, |held| &held.after);
        let optimal = last.answer.status == Status::Optimal;
        // The list of a plan whose columns are held is that of the plan with their bounds there.
        let bound = held.last().map_or(plan, |held| &held.bound);
        let list = optimal.then(|| sol::printed(bound, last));
        put(&self.request.sol, list, files)?;
        if !held.is_empty() {
            let text = report::head(plan, &self.solved, bits)
                + &report::values(plan, &self.solved, bits)
                + &fix::text(plan, &held, bits);
            let name = self.request.file.to_string_lossy();
            let out = match self.request.json {
                true => report::as_json(&name, plan, last, bits, &fix::as_json(plan, &held)),
                false => text,
            };
            let told = Told {
                out,
                exit: report::exit(last.answer.status),
                page: None,
            };
            return Ok(self.with_page(told, || fix::page(plan, &held, last)));
        }
        let text =
            report::head(plan, &self.solved, bits) + &report::values(plan, &self.solved, bits);
        let told = self.told(text, "", self.exit());
        Ok(self.with_page(told, || report::page(plan, &self.solved)))
    }

    fn audit(&self) -> Result<Told, Outcome> {
        let plan = self.plan;
        let sheet = audit::open(plan, &self.solved).map_err(|what| self.not_whole(what))?;
        let text = report::head(plan, &self.solved, false)
            + &audit::tables(plan, &sheet)
            + &format!("\n{}\n", audit::verdict(plan, &sheet));
        let told = self.told(text, &audit::as_json(plan, &sheet), audit::exit(&sheet));
        Ok(self.with_page(told, || audit::page(plan, &sheet)))
    }

    fn unsolved(&self) -> Told {
        let looked = why::look(self.plan, &self.solved).ok();
        let head = report::head(self.plan, &self.solved, false);
        match looked.filter(|looked| looked.exit() == 0) {
            Some(why) => {
                let told = self.told(head + &why.text(self.plan), &why.as_json(), self.exit());
                self.with_page(told, || why.page(self.plan))
            }
            None => {
                let told = self.told(head, "", self.exit());
                self.with_page(told, || report::page(self.plan, &self.solved))
            }
        }
    }

    fn keep(&self, files: &dyn Files) -> Result<Told, Outcome> {
        let sheet = audit::open(self.plan, &self.solved).map_err(|what| self.not_whole(what))?;
        let file = shown(&self.request.out.to_string_lossy());
        let bytes = sheet.to_bytes();
        let kept = files.keep(&self.request.out, &bytes);
        kept.map_err(|error| wrong(format!("{file}: can't be written: {error}")))?;
        let text = report::head(self.plan, &self.solved, false) + &kept::line(&file, bytes.len());
        Ok(self.told(text, &kept::as_json(&file, bytes.len()), self.exit()))
    }

    fn why(&self) -> Result<Told, Outcome> {
        let looked = why::look(self.plan, &self.solved).map_err(|what| self.not_whole(what))?;
        let text = report::title(self.plan) + &looked.text(self.plan);
        let told = self.told(text, &looked.as_json(), looked.exit());
        Ok(self.with_page(told, || looked.page(self.plan)))
    }

    fn night(&self) -> Result<Told, Outcome> {
        if !self.request.alarms.is_empty() {
            return self.stages();
        }
        let night = units::Night::new(self.plan, &self.solved, self.request);
        let night = night.map_err(|what| wrong(format!("{}: {what}", self.file)))?;
        let told = self.told(night.text(self.request), &night.as_json(), night.exit());
        Ok(self.with_page(told, || night.page()))
    }

    fn stages(&self) -> Result<Told, Outcome> {
        let stages = stages::Stages::new(self.plan, &self.solved, self.request);
        let stages = stages.map_err(|fault| match fault {
            stages::Wrong::Names(what) => wrong(format!("{}: {what}", self.file)),
            stages::Wrong::NotWhole(what) => self.not_whole(what),
        })?;
        let out = match self.request.json {
            true => stages.as_json(&self.request.file.to_string_lossy()),
            false => stages.text(self.request),
        };
        let told = Told {
            out,
            exit: stages.exit(),
            page: None,
        };
        Ok(self.with_page(told, || stages.page()))
    }
}
