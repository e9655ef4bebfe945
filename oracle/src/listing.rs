//! What the programs that write seeded items share: their arguments, what they write, how they end. All ours.

use std::fmt::Display;
use std::io::{self, BufWriter, Write};
use std::process::ExitCode;

#[derive(Clone, Copy, PartialEq)]
pub enum Mode {
    Write,
    Count,
    Require,
    Fixed,
}

impl Mode {
    /// The mode that an argument names.
    pub fn named(arg: &str) -> Option<Mode> {
        match arg {
            "--count" => Some(Mode::Count),
            "--require" => Some(Mode::Require),
            "--fixed" => Some(Mode::Fixed),
            _ => None,
        }
    }
}

/// What stands behind `--seed`.
pub fn seed(args: &mut impl Iterator<Item = String>) -> Result<u64, String> {
    let number = args.next().unwrap_or_default();
    number
        .parse()
        .map_err(|_| "--seed takes a number".to_string())
}

/// `[--seed N] [--count | --require | --fixed]`
pub fn arguments() -> Result<(u64, Mode), String> {
    let (mut first, mut mode) = (1, Mode::Write);
    let mut args = std::env::args().skip(1);
    while let Some(arg) = args.next() {
        match Mode::named(&arg) {
            Some(named) => mode = named,
            None if arg == "--seed" => first = seed(&mut args)?,
            None => return Err(format!("unknown argument {}", arg)),
        }
    }
    Ok((first, mode))
}

/// Writes those of the items made that are taken.
pub fn write<T: Display>(
    make: impl FnOnce(&mut dyn FnMut(T)),
    mut takes: impl FnMut(&T) -> bool,
) -> Result<bool, String> {
    let mut out = BufWriter::new(io::stdout().lock());
    let mut written = Ok(());
    make(&mut |item| {
        if written.is_ok() && takes(&item) {
            written = write!(out, "{}", item);
        }
    });
    written
        .and_then(|()| out.flush())
        .map_err(|err| err.to_string())?;
    Ok(true)
}

/// Status 0, 1 where a count is missed, 2 where an argument is wrong or nothing can be written.
pub fn ended(program: &str, done: Result<bool, String>) -> ExitCode {
    match done {
        Ok(true) => ExitCode::SUCCESS,
        Ok(false) => ExitCode::FAILURE,
        Err(err) => {
            eprintln!("{}: {}", program, err);
            ExitCode::from(2)
        }
    }
}
