//! Seeded plans in families.
//!
//! plans [--seed N] [--family NAME].. [--count | --require | --fixed]
//!
//! Writes the plans in the exchange text. With --count it solves them and prints how often each
//! answer and place is reached; with --require it checks these counts, one a line, and ends with
//! `N passed, M failed`; with --fixed it writes only the few hundred plans of the fixed list.

use std::process::ExitCode;

use oracle::listing::{self, Mode};
use oracle::shown::Options;
use oracle::survey::{self, met, Survey};
use oracle::{families, gate};

fn main() -> ExitCode {
    listing::ended("plans", run())
}

fn run() -> Result<bool, String> {
    let mut seed = 1;
    let mut names: Vec<String> = vec![];
    let mut mode = Mode::Write;
    let mut args = std::env::args().skip(1);
    while let Some(arg) = args.next() {
        match arg.as_str() {
            "--seed" => seed = listing::seed(&mut args)?,
            "--family" => {
                let name = args.next().unwrap_or_default();
                if !families::FAMILIES.iter().any(|(family, _)| *family == name) {
                    return Err(format!("no family {}", name));
                }
                names.push(name);
            }
            _ => match Mode::named(&arg) {
                Some(named) => mode = named,
                None => return Err(format!("unknown argument {}", arg)),
            },
        }
    }
    let wanted = |family: &str| names.is_empty() || names.iter().any(|name| name == family);

    if mode == Mode::Write || mode == Mode::Fixed {
        let mut fixed = survey::Fixed::default();
        return listing::write(
            |take| families::make(seed, &wanted, take),
            |plan| mode == Mode::Write || fixed.takes(plan),
        );
    }

    let mut survey = Survey::default();
    families::make(seed, &wanted, &mut |plan| {
        survey.add(&plan, &gate::solve(&plan, Options::default()));
    });
    if mode == Mode::Count {
        print!("{}", survey.table());
        return Ok(true);
    }

    Ok(met(&survey.targets()))
}
