//! Seeded eta stores for the program `replay_eta`.
//!
//! etas [--seed N] [--first N] [--answers | --compare FILE]
//!
//! Writes the stores as words. With --first only so many of them; with --answers it writes what the
//! shown BasisSolver makes of them; with --compare it holds a file to that, store by store, and to what
//! the stores must reach, and ends with `N passed, M failed`.

use std::io::{self, BufWriter, Write};
use std::process::ExitCode;

use oracle::limits;
use oracle::solver::etas::{self, Store};

fn main() -> ExitCode {
    match run() {
        Ok(true) => ExitCode::SUCCESS,
        Ok(false) => ExitCode::FAILURE,
        Err(err) => {
            eprintln!("etas: {}", err);
            ExitCode::from(2)
        }
    }
}

fn run() -> Result<bool, String> {
    let (mut seed, mut first) = (1, usize::MAX);
    let (mut answers, mut compare) = (false, None);
    let mut args = std::env::args().skip(1);
    while let Some(arg) = args.next() {
        match arg.as_str() {
            "--seed" => seed = number(args.next(), "--seed")? as u64,
            "--first" => first = number(args.next(), "--first")?,
            "--answers" => answers = true,
            "--compare" => compare = Some(args.next().ok_or("--compare takes a file")?),
            _ => return Err(format!("unknown argument {}", arg)),
        }
    }

    let mut stores = etas::make(seed);
    stores.truncate(first);
    if let Some(path) = compare {
        let text = std::fs::read_to_string(&path).map_err(|err| format!("{}: {}", path, err))?;
        return Ok(hold(&stores, &text));
    }
    let mut out = BufWriter::new(io::stdout().lock());
    let written = if answers {
        stores
            .iter()
            .try_for_each(|store| out.write_all(store.answer().as_bytes()))
    } else {
        write_words(&mut out, &[stores.len() as u64]).and_then(|()| {
            stores
                .iter()
                .try_for_each(|store| write_words(&mut out, &store.words()))
        })
    };
    written
        .and_then(|()| out.flush())
        .map_err(|err| err.to_string())?;
    Ok(true)
}

fn number(word: Option<String>, name: &str) -> Result<usize, String> {
    word.and_then(|word| word.parse().ok())
        .ok_or(format!("{} takes a number", name))
}

fn write_words(out: &mut impl Write, words: &[u64]) -> io::Result<()> {
    words
        .iter()
        .try_for_each(|word| out.write_all(&word.to_le_bytes()))
}

fn hold(stores: &[Store], text: &str) -> bool {
    let (mut passed, mut failed) = (0, 0);
    let mut check = |holds: bool, what: String| {
        if holds {
            passed += 1;
        } else {
            failed += 1;
            println!("FAILED: {}", what);
        }
    };
    let mut rest = text;
    for (i, store) in stores.iter().enumerate() {
        let answer = store.answer();
        let same = rest.starts_with(&answer);
        check(same, format!("store {} has another answer", i));
        // The next store's lines are only known where this one's were right.
        if !same {
            break;
        }
        rest = &rest[answer.len()..];
    }
    check(rest.is_empty(), "lines are left".to_string());
    let columns = limits::ETA_COLUMNS as usize;
    let entries = limits::ETA_ENTRIES as usize;
    let at = |test: &dyn Fn(&Store) -> bool| stores.iter().filter(|store| test(store)).count();
    check(stores.len() >= 2_000, "fewer than 2,000 stores".to_string());
    let reached = [
        ("256 columns", at(&|s| s.columns() == columns)),
        ("4,096 entries", at(&|s| s.entries() == entries)),
        (
            "256 columns and 4,096 entries",
            at(&|s| s.columns() == columns && s.entries() == entries),
        ),
        ("no column", at(&|s| s.columns() == 0)),
    ];
    for (what, count) in reached {
        println!("{:5} stores with {}", count, what);
        check(count >= 40, format!("fewer than 40 stores with {}", what));
    }
    println!("{} passed, {} failed", passed, failed);
    failed == 0
}
