//! Sheets with a journal through the proved library: each answer, lent cell and byte beside the
//! reference's, and what a journal promises.
//!
//! journals [SEED]

use std::process::ExitCode;

use driver::files::Library;
use oracle_sheet::journal_cases::{run, WHOLE};

fn main() -> ExitCode {
    let seed = match std::env::args().nth(1).map(|word| word.parse()) {
        None => 1,
        Some(Ok(seed)) => seed,
        Some(Err(_)) => {
            eprintln!("journals: expected a seed");
            return ExitCode::from(2);
        }
    };
    let mut out = String::new();
    let good = run(&mut Library::default(), seed, &WHOLE).report(&mut out);
    print!("{out}");
    ExitCode::from(u8::from(!good))
}
