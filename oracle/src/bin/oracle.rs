//! Reads plans, triangles and pairs of them in the exchange text from standard input and writes an
//! answer line for each, and for each call after a plan.
//!
//! oracle [--state] [--why] [--shown NAME]..
//!
//! --state appends the state after the last whole step, --why where a 6 or 23 arose, and
//! --shown switches the named correction of document 01 off (`all`: every one).

use std::io::{self, BufWriter, Write};
use std::process::ExitCode;

use oracle::exchange::{answer_lines, factors_answer_line, tri_answer_line, Extras, Item, Reader};
use oracle::shown::{Correction, Options};
use oracle::{gate, tri};

fn main() -> ExitCode {
    match run() {
        Ok(()) => ExitCode::SUCCESS,
        Err(err) => {
            eprintln!("oracle: {}", err);
            ExitCode::from(2)
        }
    }
}

fn run() -> Result<(), String> {
    let mut extras = Extras::default();
    let mut options = Options::default();
    let mut args = std::env::args().skip(1);
    while let Some(arg) = args.next() {
        match arg.as_str() {
            "--state" => extras.state = true,
            "--why" => extras.why = true,
            "--shown" => {
                let name = args.next().unwrap_or_default();
                if !options.show(&name) {
                    let names = Correction::ALL.map(Correction::name).join(", ");
                    return Err(format!("--shown takes one of all, {}", names));
                }
            }
            _ => return Err(format!("unknown argument {}", arg)),
        }
    }

    let mut out = BufWriter::new(io::stdout().lock());
    for item in Reader::new(io::stdin().lock()) {
        let lines = match item? {
            Item::Plan(plan) => answer_lines(&plan.id, &gate::answers(&plan, options), extras),
            Item::Tri(tri) => vec![tri_answer_line(&tri.id, &tri::solve(&tri))],
            Item::Factors(both) => vec![factors_answer_line(&both.id, &tri::solve_dense(&both))],
        };
        for line in lines {
            writeln!(out, "{}", line).map_err(|err| err.to_string())?;
        }
    }
    out.flush().map_err(|err| err.to_string())
}
