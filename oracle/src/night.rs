//! 01's night cases that are plans, starred or not, each with the answer that 01 gives; N4's first has
//! 02's. All ours.

use crate::exchange::{Item, Reader};
use crate::plan::Plan;

/// What 01 says of a night case.
#[derive(Clone, Copy, Debug)]
pub struct Case {
    pub name: &'static str,
    pub number: u8,
    pub objective: f64,
    pub steps: u64,
    /// Columns, then slacks.
    pub values: &'static [f64],
    /// The rows that left, in order.
    pub leaving: &'static [usize],
}

const fn case(
    name: &'static str,
    number: u8,
    objective: f64,
    steps: u64,
    values: &'static [f64],
    leaving: &'static [usize],
) -> Case {
    Case {
        name,
        number,
        objective,
        steps,
        values,
        leaving,
    }
}

const CASES: [Case; 14] = [
    case("N1", 0, -4.0, 1, &[4.0, 0.0], &[0]),
    case("N1-budget-0", 21, 0.0, 0, &[], &[]),
    // An exchange, then a flip: one leaving row, two steps.
    case("N2", 0, -12.0, 2, &[4.0, 0.0, 0.0], &[0]),
    case("N2-budget-1", 21, -8.0, 1, &[], &[0]),
    case("N3", 20, 0.0, 0, &[], &[]),
    case("N4-at-least-1", 0, 1.0, 1, &[1.0, 0.0], &[0]),
    case("N4-at-least-0", 0, 0.0, 0, &[0.0, 0.0], &[]),
    case("bounds-3-to-2", 4, 0.0, 0, &[], &[]),
    case("bounds-3-to-3", 0, 3.0, 0, &[3.0], &[]),
    case("empty-eq-minus-zero", 0, 0.0, 0, &[0.0], &[]),
    case("empty-ge-minus-1", 0, 0.0, 0, &[0.0], &[]),
    case("empty-le-minus-1", 5, 0.0, 0, &[], &[]),
    case("N1-two-rows-1-leaves", 0, -4.0, 1, &[4.0, 0.0, 0.0], &[1]),
    case("N1-same-row-0-leaves", 0, -4.0, 1, &[4.0, 0.0, 0.0], &[0]),
];

/// The plans of night.txt, each with its case.
pub fn cases() -> Vec<(Plan, Case)> {
    let plans: Vec<Plan> = Reader::new(include_str!("../night.txt").as_bytes())
        .map(|item| match item {
            Ok(Item::Plan(plan)) => plan,
            _ => panic!("night.txt holds plans"),
        })
        .collect();
    assert_eq!(plans.len(), CASES.len());
    let paired: Vec<(Plan, Case)> = plans.into_iter().zip(CASES).collect();
    assert!(paired.iter().all(|(plan, case)| plan.id == case.name));
    paired
}
