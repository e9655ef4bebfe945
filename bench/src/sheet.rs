//! The sum behind R beside its plain form, which goes over every cell: rows of 96 x 128 sheets
//! summed by both, and the same sheets opened by the library and by the library with the plain form
//! in the sum's place. `bench/native --sums` makes both sides from the library's module.
//!
//! `sheet [--rounds N]` prints a line for each arrangement and share of nonzeros, with the ratios of
//! median times. It ends with status 1 where the two sides don't answer alike.

mod sheets;
mod sums;
mod times;

use std::process::ExitCode;

use sheets::{Arrangement, Sheet, ROWS};
use sums::Side;
use times::{median, quantile, timed, ROUNDS, SAMPLE_NANOS};

/// The different sheets that are gone through in turn, where it isn't one again and again: more
/// rows than a processor learns by heart.
const MANY: usize = 24;

fn main() -> ExitCode {
    match rounds().and_then(run) {
        Ok(()) => ExitCode::SUCCESS,
        Err(message) => {
            eprintln!("sheet: {message}");
            ExitCode::FAILURE
        }
    }
}

fn rounds() -> Result<usize, String> {
    let args: Vec<String> = std::env::args().skip(1).collect();
    match args.iter().map(String::as_str).collect::<Vec<_>>()[..] {
        [] => Ok(ROUNDS),
        ["--rounds", n] => match n.parse() {
            Ok(n) if n > 0 => Ok(n),
            _ => Err(format!("--rounds wants a number above 0, not {n}")),
        },
        _ => Err("usage: sheet [--rounds N]".to_string()),
    }
}

fn run(rounds: usize) -> Result<(), String> {
    let shares = [1, 5, 20, 100];
    let mut races = vec![];
    for (name, arrangement, count) in [
        ("stairs", Arrangement::Stairs, 1),
        ("a stretch", Arrangement::Stretch, 1),
        ("a stretch, 24 sheets", Arrangement::Stretch, MANY),
        ("scattered", Arrangement::Scattered, 1),
        ("scattered, 24 sheets", Arrangement::Scattered, MANY),
    ] {
        for percent in shares {
            races.push(Race::new(name, arrangement, percent, count)?);
        }
    }
    let first_empty = Arrangement::FirstEmpty;
    races.push(Race::new("all but the first", first_empty, 99, 1)?);
    for race in &mut races {
        for round in 0..rounds {
            race.round(round);
        }
        println!("{}", race.line());
    }
    println!();
    println!("{rounds} rounds; a sample is repeated calls of about 0.5 ms; medians of the rounds; sums and kept numbers are the same on both sides");
    println!(
        "noise: each side against its own second samples, from the same rounds: sums {}, opening {}",
        noise(&races, 0),
        noise(&races, 1)
    );
    Ok(())
}

/// The least and the largest ratio of a side's two medians.
fn noise(races: &[Race], kind: usize) -> String {
    let sides = races.iter().flat_map(|race| &race.times[kind]);
    let ratios: Vec<f64> = sides
        .map(|times| median(&times.samples) / median(&times.again))
        .collect();
    let (low, high) = (quantile(&ratios, 0.0), quantile(&ratios, 1.0));
    format!("{low:.3} to {high:.3}")
}

/// The samples of one side, in nanoseconds; the second ones say how far two medians of the same
/// thing differ.
#[derive(Default)]
struct Times {
    samples: Vec<f64>,
    again: Vec<f64>,
}

/// Sheets of one arrangement and share. `times` has the sums' and then the opening's, each with the
/// library's and then the plain form's, for a row and for a sheet.
struct Race {
    name: &'static str,
    percent: usize,
    sheets: Vec<Sheet>,
    repeats: [usize; 2],
    times: [[Times; 2]; 2],
}

impl Race {
    /// Sums and opens every sheet once on both sides; an error says where they differ.
    fn new(
        name: &'static str,
        arrangement: Arrangement,
        percent: usize,
        count: usize,
    ) -> Result<Race, String> {
        let mut sheets = sheets::all(arrangement, percent, count);
        for sheet in &mut sheets {
            sums::compare(sheet).map_err(|differ| format!("{name}, {percent} %: {differ}"))?;
        }
        let mut race = Race {
            name,
            percent,
            sheets,
            repeats: [1, 1],
            times: Default::default(),
        };
        for kind in 0..2 {
            let once = race.sample(kind, Side::Plain) * race.calls(kind);
            race.repeats[kind] = (SAMPLE_NANOS / once).ceil() as usize;
        }
        Ok(race)
    }

    /// How many rows a pass over the sheets sums, or how many sheets it opens.
    fn calls(&self, kind: usize) -> f64 {
        (self.sheets.len() * [ROWS, 1][kind]) as f64
    }

    /// For a row or a sheet, over repeated passes over all sheets.
    fn sample(&mut self, kind: usize, side: Side) -> f64 {
        let (repeats, sheets) = (self.repeats[kind], &mut self.sheets);
        let pass = match kind {
            0 => timed(repeats, || {
                sheets.iter().for_each(|sheet| sums::sum_rows(side, sheet))
            }),
            _ => timed(repeats, || {
                sheets.iter_mut().for_each(|sheet| {
                    sums::open(side, sheet);
                })
            }),
        };
        pass / self.calls(kind)
    }

    /// Two samples of each side, the two sides in turn, of the sums and of the opening.
    fn round(&mut self, round: usize) {
        for kind in 0..2 {
            for turn in 0..2 {
                for (at, side) in [Side::Library, Side::Plain].into_iter().enumerate() {
                    let nanos = self.sample(kind, side);
                    let times = &mut self.times[kind][at];
                    match (round + turn) % 2 {
                        0 => times.samples.push(nanos),
                        _ => times.again.push(nanos),
                    }
                }
            }
        }
    }

    fn line(&self) -> String {
        let of = |kind: usize, side: usize| median(&self.times[kind][side].samples);
        format!(
            "{:<21} {:>3} %  a row: library {:>6.1}, plain {:>6.1} ns, ratio {:.2}   opening: library {:>6.2}, plain {:>6.2} us, ratio {:.2}",
            self.name,
            self.percent,
            of(0, 0),
            of(0, 1),
            of(0, 0) / of(0, 1),
            of(1, 0) / 1e3,
            of(1, 1) / 1e3,
            of(1, 0) / of(1, 1),
        )
    }
}
