//! All of 01's night cases, starred or not, through the library, with the answers that 01 gives.

use driver::plans::{line, Lengths};
use driver::sheets;
use oracle::exchange::{Line, Place};
use oracle::night;
use oracle::rng::Rng;
use oracle_sheet::generate::{night_sheet, NIGHT};
use oracle_sheet::Block;

/// The place that 01 names; only refusals 4 and 5 of the night name one. The values of an Optimal case
/// keep every bound and row exactly.
fn place(number: u8) -> Place {
    match number {
        0 => Place::Accepted { excess: 0.0 },
        4 => Place::Column(0),
        5 => Place::Row(0),
        _ => Place::Nowhere,
    }
}

#[test]
fn plans() {
    for (plan, case) in night::cases() {
        let told = Line {
            status: case.number.into(),
            place: place(case.number),
            objective: case.objective,
            steps: case.steps as usize,
            values: case.values,
            way: None,
            why: None,
            state: None,
        };
        let lengths = Lengths::needed(&plan);
        assert_eq!(line(&plan, &lengths, false), told.text(case.name));

        let with_state = line(&plan, &lengths, true);
        if let Some((_, state)) = with_state.split_once(" etarow") {
            let (rows, _) = state.split_once(" etaptr").expect("a whole state");
            let leaving: String = case.leaving.iter().map(|row| format!(" {row}")).collect();
            assert_eq!(rows, leaving, "{}", case.name);
        }
    }
}

#[test]
fn sheets() {
    let told = [
        "N5.1 open 0 R 4 D 0 2048 C -12 B -12288 counts 0 0 0 0 verdict gap:0",
        "N5.2 open 0 R 4 D 1024 3072 C -12 B -16384 counts 0 0 0 0 verdict gap:4096",
        "N5.3 open 0 R 4 D -1024 1024 C -12 B -8192 counts 0 0 0 1 verdict no-floor",
        "N5.4 open 0 R 3 D 0 2048 C -9 B -12288 counts 0 0 0 0 verdict gap:3072",
        "N5.5 open 0 R 5 D 0 2048 C -15 B -12288 counts 1 0 0 0 verdict no-plan",
    ];
    for ((id, amount, mult), told) in NIGHT.into_iter().zip(told) {
        let block = Block {
            id: id.to_string(),
            sheet: night_sheet(amount, mult),
            steps: vec![],
        };
        let mut lines = String::new();
        sheets::lines(&block, false, &mut Rng::new(5), &mut lines);
        assert_eq!(lines.lines().next(), Some(told));
    }
}
