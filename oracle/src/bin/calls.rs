//! Seeded lists of calls over plans.
//!
//! calls [--seed N] [--count | --require | --fixed]
//! calls --repriced
//!
//! Writes the plans with their calls in the exchange text. With --count it makes the calls and prints what
//! they reach; with --require it checks these counts and ends with `N passed, M failed`; with --fixed it
//! writes only the plans of the fixed list. With --repriced it writes the plans that the repricings solve, by
//! the names of their answer lines, for other solvers.

use std::process::ExitCode;

use oracle::call_families::{self, Fixed, Survey};
use oracle::listing::{self, Mode};
use oracle::plan::Plan;
use oracle::survey::met;

fn main() -> ExitCode {
    listing::ended("calls", run())
}

fn run() -> Result<bool, String> {
    if std::env::args().skip(1).eq(["--repriced"]) {
        let make = |take: &mut dyn FnMut(Plan)| {
            call_families::make(1, &mut |plan| {
                call_families::solved_by(&plan)
                    .into_iter()
                    .for_each(&mut *take);
            });
        };
        return listing::write(make, |_| true);
    }

    let (seed, mode) = listing::arguments()?;
    if mode == Mode::Write || mode == Mode::Fixed {
        let mut short = Fixed::default();
        return listing::write(
            |take| call_families::make(seed, take),
            |plan| mode == Mode::Write || short.takes(plan),
        );
    }

    let mut survey = Survey::default();
    call_families::make(seed, &mut |plan| survey.add(&plan));
    if mode == Mode::Count {
        print!("{}", survey.table());
        return Ok(true);
    }

    Ok(met(&survey.targets()))
}
