//! Reads plans with their calls, triangles, pairs of them and sheets in the exchange text from standard
//! input, hands them to the proved library, and writes their answer lines.
//!
//! driver [--state] [--cells]
//!
//! --state appends a plan's state after the last whole step, --cells a sheet's cells after every
//! edit.

use std::io::{self, BufRead, BufWriter, Write};
use std::process::ExitCode;

use driver::{answers, Shown};
use oracle::rng::Rng;

fn main() -> ExitCode {
    match run() {
        Ok(()) => ExitCode::SUCCESS,
        Err(err) => {
            eprintln!("driver: {err}");
            ExitCode::from(2)
        }
    }
}

fn run() -> Result<(), String> {
    let mut shown = Shown::default();
    for arg in std::env::args().skip(1) {
        match arg.as_str() {
            "--state" => shown.state = true,
            "--cells" => shown.cells = true,
            _ => return Err(format!("unknown argument {arg}")),
        }
    }

    let mut rng = Rng::named(1, "driver");
    let mut out = BufWriter::new(io::stdout().lock());
    let mut block = String::new();
    for line in io::stdin().lock().lines() {
        let line = line.map_err(|err| err.to_string())?;
        block += &line;
        block.push('\n');
        if line.trim() == "end" {
            let lines = answers(&block, shown, &mut rng)?;
            out.write_all(lines.as_bytes())
                .map_err(|err| err.to_string())?;
            block.clear();
        }
    }
    // What has no end is an error of the reader's.
    answers(&block, shown, &mut rng)?;
    out.flush().map_err(|err| err.to_string())
}
