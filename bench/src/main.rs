//! The proved library beside the oracles and, where they are built in, GLPK, Clp and lp_solve: all release builds, called
//! in one process on memory that is prepared beforehand. docs/BENCHMARKS.md says what each set is.
//!
//! | call | what it does |
//! |---|---|
//! | `bench [--rounds N] [--lines FILE]` | alternating rounds; a table with a row for each set, and one with a row for each side; into FILE a line for each case |
//! | `bench --check` | only compares the answers |
//! | `bench --count` | each call once, under callgrind, which counts what it executes; with the feature `counts` |
//! | `bench --growth [--rounds N]` | plans by rows, columns, density and steps: a line for each point |
//! | `bench --growth --count` | the same points under callgrind |
//! | `bench --memory` | what each call of the library is lent, and the stack that it touches |
//!
//! Each ends with status 1 where the sides don't answer alike.

mod books;
/// The calls of the library, as the Rust crate over it has them.
#[allow(dead_code)]
#[path = "../../bindings/rust/src/ffi.rs"]
mod ffi;
mod growth;
mod later;
mod memory;
mod nights;
mod peers;
mod plans;
mod race;
/// Some arrangements are those of the other program.
#[allow(dead_code)]
mod sheets;
mod sides;
mod solves;
mod table;
mod times;

use std::process::ExitCode;

use race::Made;
use solves::Beside;
use times::ROUNDS;

/// What is done with each set.
#[derive(Clone, PartialEq)]
enum Mode {
    Time,
    Check,
    #[cfg(feature = "counts")]
    Count,
}

struct Asked {
    mode: Mode,
    growth: bool,
    memory: bool,
    rounds: usize,
    lines: Option<String>,
}

fn main() -> ExitCode {
    let failed = match asked() {
        Ok(asked) if asked.memory => memory::tell(),
        Ok(asked) => run(asked),
        Err(message) => {
            eprintln!("bench: {message}");
            return ExitCode::from(2);
        }
    };
    match failed {
        0 => ExitCode::SUCCESS,
        _ => ExitCode::FAILURE,
    }
}

fn asked() -> Result<Asked, String> {
    let mut asked = Asked {
        mode: Mode::Time,
        growth: false,
        memory: false,
        rounds: ROUNDS,
        lines: None,
    };
    let mut args = std::env::args().skip(1);
    while let Some(arg) = args.next() {
        match arg.as_str() {
            "--check" => asked.mode = Mode::Check,
            #[cfg(feature = "counts")]
            "--count" => asked.mode = Mode::Count,
            "--growth" => asked.growth = true,
            "--memory" => asked.memory = true,
            "--lines" => asked.lines = Some(args.next().ok_or("--lines wants a file")?),
            "--rounds" => {
                let number = args.next().unwrap_or_default();
                let rounds = number.parse().ok().filter(|&rounds| rounds > 0);
                asked.rounds = rounds.ok_or("--rounds wants a number above 0")?;
            }
            _ => return Err("usage: bench [--growth | --memory] [--check | --count] [--rounds N] [--lines FILE]".into()),
        }
    }
    Ok(asked)
}

/// Hands each set on, one after another, so that only one holds its memory.
fn each_set(growth: bool, see: &mut dyn FnMut(Made)) {
    if growth {
        for (name, plans) in growth::points() {
            see(solves::set(name, &plans, Beside::Oracle));
        }
        return;
    }
    let gateway = plans::gateway();
    let long = plans::long();
    let dual = plans::dual();
    see(solves::set("the 200 plans", &gateway, Beside::Peers));
    see(solves::set("the 100 longer plans", &long, Beside::Peers));
    see(solves::set("the 100 dual starts", &dual, Beside::Peers));
    for &kind in later::Kind::ALL {
        see(later::set(kind, &gateway));
    }
    let sheets = books::opened();
    for set in books::sheet_sets(&sheets) {
        see(set);
    }
    for set in books::file_sets(&sheets) {
        see(set);
    }
    see(nights::set(&nights::all()));
}

/// How many cases failed.
fn run(asked: Asked) -> usize {
    let (mut passed, mut failed) = (0, 0);
    let (mut details, mut lines, mut remarks) = (vec![], String::new(), vec![]);
    if asked.mode == Mode::Time && !asked.growth {
        println!("{}", table::head());
    }
    each_set(asked.growth, &mut |set| {
        let mut set = match set {
            Ok(set) => set,
            Err(differ) => {
                failed += differ.len();
                differ.iter().for_each(|how| println!("{how}"));
                return;
            }
        };
        passed += set.cases.len();
        match asked.mode {
            Mode::Check => {}
            #[cfg(feature = "counts")]
            Mode::Count => set.count(),
            Mode::Time => {
                set.time(asked.rounds);
                lines += &set.lines();
                if asked.growth {
                    println!("{}", growth::line(&set));
                    return;
                }
                println!("{}", table::row(&set));
                details.extend(table::details(&set));
                if !set.remark.is_empty() {
                    remarks.push(format!("{}: {}.", set.name, set.remark));
                }
            }
        }
    });
    if let Some(file) = asked.lines {
        std::fs::write(file, lines).expect("the lines' file can be written");
    }
    if asked.mode == Mode::Check {
        println!("{passed} passed, {failed} failed");
    } else if asked.mode == Mode::Time && !asked.growth {
        tell(asked.rounds, &details, &remarks);
    }
    failed
}

/// What stands under the table.
fn tell(rounds: usize, details: &[String], remarks: &[String]) {
    let absent: Vec<&str> = (peers::NAMES.into_iter())
        .filter(|name| !peers::methods().any(|method| method.name.starts_with(name)))
        .collect();
    println!("\nThe library's time over the other side's, all in a row, and the share of the cases where it is below 1; of a peer the method that is faster over the set. Noise: the side whose second samples, from the same rounds, are furthest from its first. {rounds} rounds, medians.");
    if !absent.is_empty() {
        println!("Absent: {}.", absent.join(", "));
    }
    for remark in remarks {
        println!("{remark}");
    }
    println!("\n{}", table::detail_head());
    for row in details {
        println!("{row}");
    }
}
