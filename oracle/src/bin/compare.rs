//! Feeds the same text to two programs and compares their answer lines.
//!
//! compare COMMAND COMMAND FILE..
//!     Prints the first differing pairs of lines and how often the first program gave each answer,
//!     and ends with `N passed, M failed`. The files are gone through at the same time.
//! compare --shown ORACLE FILE..
//!     Prints how many answers each `--shown` switch of the oracle changes.
//!
//! A command is a program and its arguments, parted by spaces: "build/oracle --state".

use std::collections::BTreeMap;
use std::fs::File;
use std::hash::{DefaultHasher, Hash, Hasher};
use std::io::{BufRead, BufReader, Lines};
use std::process::{Child, ChildStdout, Command, ExitCode, Stdio};
use std::sync::Mutex;
use std::thread;

use oracle::shown::Correction;

/// How many differing pairs are printed.
const PRINTED: u64 = 5;

fn main() -> ExitCode {
    let args: Vec<String> = std::env::args().skip(1).collect();
    let args: Vec<&str> = args.iter().map(String::as_str).collect();
    let result = match args[..] {
        ["--shown", oracle, ref files @ ..] if !files.is_empty() => shown(oracle, files),
        [first, second, ref files @ ..] if !files.is_empty() => compare(first, second, files),
        _ => Err("takes two commands and files, or --shown, a command and files".into()),
    };
    match result {
        Ok(true) => ExitCode::SUCCESS,
        Ok(false) => ExitCode::FAILURE,
        Err(err) => {
            eprintln!("compare: {}", err);
            ExitCode::from(2)
        }
    }
}

/// A program that reads a file and whose answer lines are read here.
struct Program {
    command: String,
    child: Child,
    lines: Lines<BufReader<ChildStdout>>,
}

impl Program {
    fn start(command: &str, file: &str) -> Result<Program, String> {
        let input = File::open(file).map_err(|err| format!("{}: {}", file, err))?;
        let mut words = command.split_whitespace();
        let mut child = Command::new(words.next().ok_or("an empty command")?)
            .args(words)
            .stdin(Stdio::from(input))
            .stdout(Stdio::piped())
            .spawn()
            .map_err(|err| format!("{}: {}", command, err))?;
        let stdout = child.stdout.take().ok_or("no standard output")?;
        Ok(Program {
            command: command.to_string(),
            child,
            lines: BufReader::new(stdout).lines(),
        })
    }

    fn line(&mut self) -> Result<Option<String>, String> {
        let line = self.lines.next().transpose();
        line.map_err(|err| format!("{}: {}", self.command, err))
    }

    /// A program that fails has not answered, whatever it wrote.
    fn finish(mut self) -> Result<(), String> {
        let status = self.child.wait().map_err(|err| err.to_string())?;
        if status.success() {
            Ok(())
        } else {
            Err(format!("{}: {}", self.command, status))
        }
    }
}

/// Goes through both programs' lines in step and hands each pair on; a missing line is None.
fn pairs(
    first: &str,
    second: &str,
    file: &str,
    mut pair: impl FnMut(Option<String>, Option<String>),
) -> Result<(), String> {
    let mut programs = [Program::start(first, file)?, Program::start(second, file)?];
    loop {
        let lines = (programs[0].line()?, programs[1].line()?);
        if lines == (None, None) {
            break;
        }
        pair(lines.0, lines.1);
    }
    programs.into_iter().try_for_each(Program::finish)
}

/// What a comparison has seen.
#[derive(Default)]
struct Tally {
    passed: u64,
    failed: u64,
    answers: BTreeMap<(String, Option<u64>), u64>,
}

fn compare(first: &str, second: &str, files: &[&str]) -> Result<bool, String> {
    let tally = Mutex::new(Tally::default());
    thread::scope(|scope| {
        let compared: Vec<_> = files
            .iter()
            .map(|file| scope.spawn(|| compare_file(first, second, file, &tally)))
            .collect();
        compared.into_iter().try_for_each(|file| {
            let result = file.join();
            result.unwrap_or_else(|_| Err("a comparison panicked".into()))
        })
    })?;
    let tally = tally.into_inner().map_err(|err| err.to_string())?;
    // Nothing compared shows nothing.
    if tally.passed + tally.failed == 0 {
        return Err("no answer lines".into());
    }
    for ((what, number), count) in tally.answers {
        let number = number.map_or(String::new(), |number| format!(" {}", number));
        println!("{}{}: {} lines", what, number, count);
    }
    println!("{} passed, {} failed", tally.passed, tally.failed);
    Ok(tally.failed == 0)
}

fn compare_file(first: &str, second: &str, file: &str, tally: &Mutex<Tally>) -> Result<(), String> {
    pairs(first, second, file, |ours, theirs| {
        let mut tally = tally.lock().expect("no comparison panics");
        *tally.answers.entry(kind(ours.as_deref())).or_default() += 1;
        if ours == theirs {
            tally.passed += 1;
            return;
        }
        tally.failed += 1;
        if tally.failed <= PRINTED {
            let text = |line: Option<String>| line.unwrap_or("(no line)".into());
            println!("{}:", file);
            println!("  {}: {}", first, text(ours));
            println!("  {}: {}", second, text(theirs));
        }
    })
}

/// What a line answers, and by which number: `ID 20 ..` for plans and triangles, `ID edit 14 ..` or
/// `ID end ..` for sheets.
fn kind(line: Option<&str>) -> (String, Option<u64>) {
    let words: Vec<&str> = line.unwrap_or_default().splitn(4, ' ').collect();
    let number = |at: usize| words.get(at).and_then(|word| word.parse().ok());
    match number(1) {
        Some(answer) => ("answer".into(), Some(answer)),
        None => (words.get(1).unwrap_or(&"none").to_string(), number(2)),
    }
}

/// Every answer's name and the hash of its line.
fn answers(command: &str, files: &[&str]) -> Result<Vec<(String, u64)>, String> {
    let mut answers = vec![];
    for file in files {
        let mut program = Program::start(command, file)?;
        while let Some(line) = program.line()? {
            let mut hasher = DefaultHasher::new();
            line.hash(&mut hasher);
            let id = line.split(' ').next().unwrap_or_default();
            answers.push((id.to_string(), hasher.finish()));
        }
        program.finish()?;
    }
    Ok(answers)
}

fn shown(oracle: &str, files: &[&str]) -> Result<bool, String> {
    let ours = answers(oracle, files)?;
    let names = Correction::ALL.map(Correction::name);
    for name in names.into_iter().chain(["all"]) {
        let shown = answers(&format!("{} --shown {}", oracle, name), files)?;
        let changed: Vec<&str> = ours
            .iter()
            .zip(&shown)
            .filter(|(ours, shown)| ours != shown)
            .map(|(ours, _)| ours.0.as_str())
            .collect();
        let first = changed
            .first()
            .map_or(String::new(), |id| format!(", first {}", id));
        println!(
            "--shown {}: {} of {} answers change{}",
            name,
            changed.len(),
            ours.len(),
            first
        );
    }
    Ok(true)
}
