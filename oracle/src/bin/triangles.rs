//! Seeded triangles in families.
//!
//! triangles [--seed N] [--count | --require | --fixed]
//!
//! Writes the triangles in the exchange text. With --count it solves them and prints what they
//! reach; with --require it checks these counts, one a line, and ends with `N passed, M failed`;
//! with --fixed it writes only the triangles of the fixed list.

use std::process::ExitCode;

use oracle::listing::{self, Mode};
use oracle::survey::met;
use oracle::tri;
use oracle::tri_families::{self, Survey};

fn main() -> ExitCode {
    listing::ended("triangles", run())
}

fn run() -> Result<bool, String> {
    let (seed, mode) = listing::arguments()?;
    if mode == Mode::Write || mode == Mode::Fixed {
        let mut index = 0;
        return listing::write(
            |take| tri_families::make(seed, take),
            |tri: &tri::Tri| {
                // Every 97th that is short.
                index += 1;
                mode == Mode::Write || index % 97 == 0 && tri.to_string().len() <= 2_000
            },
        );
    }

    let mut survey = Survey::default();
    tri_families::make(seed, &mut |tri| survey.add(&tri, &tri::solve(&tri)));
    if mode == Mode::Count {
        print!("{}", survey.table());
        return Ok(true);
    }

    Ok(met(&survey.targets()))
}
