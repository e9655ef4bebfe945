//! Seeded pairs of triangles in families.
//!
//! factors [--seed N] [--count | --require | --fixed]
//!
//! Writes the pairs in the exchange text. With --count it solves them and prints what they reach;
//! with --require it checks these counts, one a line, and ends with `N passed, M failed`; with
//! --fixed it writes only the pairs of the fixed list.

use std::process::ExitCode;

use oracle::listing::{self, Mode};
use oracle::lu_families::{self, Fixed, Survey};
use oracle::survey::met;
use oracle::tri;

fn main() -> ExitCode {
    listing::ended("factors", run())
}

fn run() -> Result<bool, String> {
    let (seed, mode) = listing::arguments()?;
    if mode == Mode::Write || mode == Mode::Fixed {
        let mut short = Fixed::default();
        return listing::write(
            |take| lu_families::make(seed, take),
            |factors| mode == Mode::Write || short.takes(factors),
        );
    }

    let mut survey = Survey::default();
    lu_families::make(seed, &mut |factors| {
        survey.add(&factors, &tri::solve_dense(&factors));
    });
    if mode == Mode::Count {
        print!("{}", survey.table());
        return Ok(true);
    }

    Ok(met(&survey.targets()))
}
