//! Calls after a run, through the library: the kept list with arrays just long enough and longer, and
//! an array too short, which gives 1 for the run and for every call after it.

use driver::plans::{factorings, lines, Lengths};
use oracle::exchange::{answer_lines, Extras, Item, Reader};
use oracle::gate;
use oracle::plan::Plan;
use oracle::shown::Options;

const STATE: Extras = Extras {
    state: true,
    why: false,
};

/// The plans of the kept list that aren't said to lend too little.
fn plans() -> Vec<Plan> {
    let text = include_str!("../../oracle/fixed-calls.txt");
    let plan = |item| match item {
        Ok(Item::Plan(plan)) => plan,
        _ => panic!("the kept list holds plans"),
    };
    let plans = Reader::new(text.as_bytes()).map(plan);
    let whole = plans.filter(|plan| plan.room.is_none() && plan.short.is_empty());
    whole.collect()
}

fn told(plan: &Plan) -> Vec<String> {
    answer_lines(&plan.id, &gate::answers(plan, Options::default()), STATE)
}

fn called(plan: &Plan, lengths: &Lengths) -> Vec<String> {
    lines(plan, lengths, true)
}

#[test]
fn just_long_enough_and_longer_give_the_oracles_answers() {
    let mut tried = 0;
    for (i, plan) in plans().iter().enumerate() {
        let told = told(plan);
        let mut lengths = Lengths::needed(plan);
        assert_eq!(called(plan, &lengths), told);
        lengths.values += i % 3;
        lengths.numbers += i % 4;
        lengths.doubles += (i + 1) % 4;
        lengths.factor_numbers += (i + 2) % 4;
        lengths.factor_coeffs += (i + 3) % 4;
        assert_eq!(called(plan, &lengths), told);
        tried += told.len();
    }
    assert!(tried > 500);
}

/// A poke of a cell that isn't lent is left out.
#[test]
fn a_written_array_too_short_gives_1() {
    type Cut = fn(&mut Lengths);
    let cuts: [Cut; 5] = [
        |lengths| lengths.values -= 1,
        |lengths| lengths.numbers -= 1,
        |lengths| lengths.doubles = 0,
        |lengths| lengths.factor_numbers = 100,
        |lengths| lengths.factor_coeffs -= 1,
    ];
    for plan in plans() {
        for cut in cuts {
            let mut lengths = Lengths::needed(&plan);
            cut(&mut lengths);
            for (k, line) in called(&plan, &lengths).iter().enumerate() {
                let (_, answer) = line.split_once(' ').expect("a line has its answer");
                let way = if plan.any && k == 0 { " way 0 0" } else { "" };
                assert_eq!(answer, format!("1 - 0000000000000000 0 0{way}"), "{line}");
            }
        }
    }
}

/// The one count that no line shows: a refused call leaves what stood there.
#[test]
fn the_factorings_are_the_oracles() {
    let (mut tried, mut factored) = (0, 0);
    for plan in plans() {
        let told = gate::answers(&plan, Options::default());
        let kept = factorings(&plan, &Lengths::needed(&plan));
        assert_eq!(kept.len(), told.len());
        for (kept, told) in kept.into_iter().zip(told) {
            if let Some(state) = told.state {
                assert_eq!(kept, state.factorings, "{}", plan.id);
                tried += 1;
                factored += usize::from(kept > 0);
            }
        }
    }
    assert!(tried > 400 && factored > 40, "{tried} {factored}");
}
