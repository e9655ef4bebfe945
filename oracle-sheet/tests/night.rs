//! 01's N5: N2 as a sheet, its five starred cases, with D and B as 01 gives them; and 02's sheet on which none exists.

use oracle_sheet::generate::night_sheet;
use oracle_sheet::reference::{edit, open, verdict, Edit, Sheet, Verdict, LE};

fn opened(amount: i64, mult: i64) -> Sheet {
    let mut sheet = night_sheet(amount, mult);
    assert_eq!(open(&mut sheet), 0);
    sheet
}

/// An edit of the first row or column.
fn first(kind: u64, number: i64) -> Edit {
    Edit {
        kind,
        row: 0,
        column: 0,
        number,
    }
}

#[test]
fn the_plan_is_the_cheapest() {
    let sheet = opened(4, -3072);
    assert_eq!(sheet.kept.d, [0, 2048]);
    assert_eq!(sheet.kept.b, -12288);
    assert_eq!(sheet.kept.c, -12);
    assert_eq!(sheet.kept.r, [4]);
    assert_eq!(sheet.kept.counts, [0, 0, 0, 0]);
    assert_eq!(verdict(&sheet), Verdict::Gap(0));
}

#[test]
fn another_multiplier_shows_a_gap() {
    let sheet = opened(4, -4096);
    assert_eq!(sheet.kept.d, [1024, 3072]);
    assert_eq!(sheet.kept.b, -16384);
    assert_eq!(verdict(&sheet), Verdict::Gap(4096));
}

#[test]
fn an_absent_bound_is_needed() {
    let sheet = opened(4, -2048);
    assert_eq!(sheet.kept.d, [-1024, 1024]);
    assert_eq!(sheet.kept.counts, [0, 0, 0, 1]);
    assert_eq!(verdict(&sheet), Verdict::NoFloor);
}

#[test]
fn a_smaller_amount_costs_more() {
    let sheet = opened(3, -3072);
    assert_eq!(sheet.kept.d, [0, 2048]);
    assert_eq!(sheet.kept.b, -12288);
    assert_eq!(verdict(&sheet), Verdict::Gap(3072));
}

#[test]
fn a_larger_amount_breaks_the_row() {
    let sheet = opened(5, -3072);
    assert_eq!(sheet.kept.counts, [1, 0, 0, 0]);
    assert_eq!(verdict(&sheet), Verdict::NoPlan);
}

#[test]
fn edits_lead_from_case_to_case() {
    let cases = [(4, -3072), (4, -4096), (4, -2048), (3, -3072), (5, -3072)];
    for from in cases {
        for to in cases {
            let mut sheet = opened(from.0, from.1);
            for (kind, number) in [(1, to.0), (7, to.1)] {
                assert_eq!(edit(&mut sheet, first(kind, number)), 0);
            }
            assert_eq!(sheet, opened(to.0, to.1));
        }
    }
}

#[test]
fn none_exists() {
    // Cost 0, bounds 0 up, row x <= -1, multiplier -1.
    let mut sheet = Sheet {
        rows: 1,
        columns: 1,
        coef: vec![1],
        cost: vec![0],
        lower: vec![0],
        upper: vec![0],
        haslow: vec![1],
        hasup: vec![0],
        rhs: vec![-1],
        ops: vec![LE],
        amount: vec![0],
        mult: vec![-1024],
        ..Sheet::default()
    };
    sheet.lend_kept();
    assert_eq!(open(&mut sheet), 0);
    assert_eq!((sheet.kept.d[0], sheet.kept.b), (1024, 1024));
    assert_eq!(verdict(&sheet), Verdict::NoneExists);
    let edits = [
        (2, 1, Verdict::NoPlan),
        (2, 0, Verdict::NoneExists),
        (5, 0, Verdict::Gap(0)),
        (5, -1, Verdict::NoneExists),
        (7, 0, Verdict::NoPlan),
        (7, -1, Verdict::NoneExists),
        (8, 0, Verdict::NoPlan),
    ];
    for (kind, number, said) in edits {
        assert_eq!(edit(&mut sheet, first(kind, number)), 0);
        assert_eq!(verdict(&sheet), said, "after kind {kind}, {number}");
    }
}
