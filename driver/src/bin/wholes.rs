//! Doubles to whole numbers through the proved library, beside a rounding of its own in 128-bit whole
//! numbers: single doubles, and the memory of every Optimal plan of the exchange text.
//!
//! wholes DOUBLES PLANS

use std::process::ExitCode;

use driver::wholes::{doubles, plans, Tally};

fn main() -> ExitCode {
    let mut args = std::env::args().skip(1);
    let (Some(Ok(count)), Some(file)) = (args.next().map(|n| n.parse()), args.next()) else {
        eprintln!("wholes: expected a number of doubles and a file of plans");
        return ExitCode::from(2);
    };
    let text = match std::fs::read_to_string(&file) {
        Ok(text) => text,
        Err(error) => {
            eprintln!("wholes: {file}: {error}");
            return ExitCode::from(2);
        }
    };
    let mut tally = Tally::default();
    doubles(count, &mut tally);
    if let Err(error) = plans(&text, &mut tally) {
        eprintln!("wholes: {error}");
        return ExitCode::from(2);
    }
    ExitCode::from(u8::from(!tally.report()))
}
