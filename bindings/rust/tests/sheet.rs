//! The audit sheet: opening, the nine edits, the verdicts, the refusals.

mod common;

use common::Rng;
use tevalumi::raw::{ops, SheetMut};
use tevalumi::sheet::{Edit, Figures, Parts, Refusal, Sheet, Verdict};
use tevalumi::ComparisonOp;

/// Night case N2 as a sheet: costs -3, -1, bounds 0 to +inf and 0 to 2, row x0 + x1 <= 4.
fn n5(amounts: [i64; 2], mult: i64) -> Figures {
    Figures {
        rows: 1,
        columns: 2,
        coefs: vec![1, 1],
        costs: vec![-3, -1],
        lowers: vec![Some(0), Some(0)],
        uppers: vec![None, Some(2)],
        rhs: vec![4],
        ops: vec![ComparisonOp::Le],
        amounts: amounts.to_vec(),
        mults: vec![mult],
    }
}

fn open(figures: &Figures) -> Sheet {
    Sheet::open(figures).unwrap()
}

#[test]
fn the_night_cases() {
    let sheet = open(&n5([4, 0], -3072));
    assert_eq!([sheet.price(0), sheet.price(1)], [0, 2048]);
    assert_eq!(sheet.floor(), -12288);
    assert_eq!(sheet.cost(), -12);
    assert_eq!(sheet.activity(0), 4);
    assert_eq!(sheet.verdict(), Verdict::Gap(0));
    assert_eq!(open(&n5([4, 0], -4096)).verdict(), Verdict::Gap(4096));
    assert_eq!(open(&n5([4, 0], -2048)).verdict(), Verdict::NoFloor);
    assert_eq!(open(&n5([3, 0], -3072)).verdict(), Verdict::Gap(3072));
    assert_eq!(open(&n5([5, 0], -3072)).verdict(), Verdict::NotAPlan);
}

#[test]
fn a_sheet_shows_its_numbers() {
    let sheet = open(&n5([4, 0], -3072));
    assert_eq!((sheet.rows(), sheet.columns()), (1, 2));
    assert_eq!((sheet.coefficient(0, 1), sheet.cost_of(0)), (1, -3));
    assert_eq!((sheet.lower(0), sheet.upper(0)), (Some(0), None));
    assert_eq!((sheet.lower(1), sheet.upper(1)), (Some(0), Some(2)));
    assert_eq!((sheet.right(0), sheet.op(0)), (4, ComparisonOp::Le));
    assert_eq!((sheet.amount(0), sheet.multiplier(0)), (4, -3072));
    assert_eq!((sheet.rows_broken(), sheet.amounts_out()), (0, 0));
    assert_eq!((sheet.wrong_signs(), sheet.absent_bounds()), (0, 0));

    let bad = open(&n5([-1, 9], 1024));
    assert_eq!((bad.rows_broken(), bad.amounts_out()), (1, 2));
    assert_eq!((bad.wrong_signs(), bad.absent_bounds()), (1, 1));

    let empty = open(&Figures::default());
    assert_eq!(empty.verdict(), Verdict::Gap(0));
}

#[test]
fn verdicts_are_sentences() {
    assert_eq!(
        Verdict::Gap(3 * 1024).to_string(),
        "No plan, whole or fractional, is cheaper than this one by more than 3.0."
    );
    assert!(Verdict::NotAPlan.to_string().contains("no plan"));
    assert!(Verdict::NoFloor.to_string().contains("say nothing"));
}

#[test]
fn parts_are_exact_decimals() {
    for (parts, shown) in [
        (0, "0.0"),
        (1, "0.0009765625"),
        (-1, "-0.0009765625"),
        (512, "0.5"),
        (1024, "1.0"),
        (-1025, "-1.0009765625"),
        (1023, "0.9990234375"),
        (i64::MIN, "-9007199254740992.0"),
        (i64::MAX, "9007199254740991.9990234375"),
    ] {
        assert_eq!(Parts(parts).to_string(), shown);
    }
    assert_eq!(format!("{:>8}", Parts(1536)), "     1.5");
}

/// Each edit gives the sheet that would be opened with the number changed.
#[test]
fn each_edit_is_a_fresh_sheet() {
    type Change = fn(&mut Figures);
    let edits: [(Edit, Change); 9] = [
        (Edit::Amount { column: 1, to: 2 }, |f| f.amounts[1] = 2),
        (Edit::Cost { column: 1, to: -5 }, |f| f.costs[1] = -5),
        (Edit::Lower { column: 1, to: -7 }, |f| {
            f.lowers[1] = Some(-7)
        }),
        (Edit::Upper { column: 0, to: 3 }, |f| f.uppers[0] = Some(3)),
        (Edit::Right { row: 0, to: 3 }, |f| f.rhs[0] = 3),
        (
            Edit::Coefficient {
                row: 0,
                column: 1,
                to: -2,
            },
            |f| f.coefs[1] = -2,
        ),
        (Edit::Multiplier { row: 0, to: 77 }, |f| f.mults[0] = 77),
        (Edit::DropLower { column: 0 }, |f| f.lowers[0] = None),
        (Edit::DropUpper { column: 1 }, |f| f.uppers[1] = None),
    ];
    for (at, (edit, change)) in edits.into_iter().enumerate() {
        assert_eq!(edit.kind(), at + 1);
        let mut figures = n5([4, 0], -3072);
        let mut sheet = open(&figures);
        sheet.edit(edit).unwrap();
        change(&mut figures);
        assert_eq!(sheet, open(&figures), "{edit:?}");
    }
}

fn random_edit(rng: &mut Rng, rows: usize, columns: usize) -> Edit {
    // Now and then an index outside, or a number over its limit.
    let (row, column) = (rng.below(rows + 1), rng.below(columns + 1));
    let to = match rng.below(20) {
        0 => rng.between(-1 << 33, 1 << 33),
        _ => rng.between(-9, 9),
    };
    match rng.below(9) {
        0 => Edit::Amount { column, to },
        1 => Edit::Cost { column, to },
        2 => Edit::Lower { column, to },
        3 => Edit::Upper { column, to },
        4 => Edit::Right { row, to: 3 * to },
        5 => Edit::Coefficient { row, column, to },
        6 => Edit::Multiplier { row, to: 512 * to },
        7 => Edit::DropLower { column },
        _ => Edit::DropUpper { column },
    }
}

fn apply(figures: &mut Figures, edit: Edit) {
    match edit {
        Edit::Amount { column, to } => figures.amounts[column] = to,
        Edit::Cost { column, to } => figures.costs[column] = to,
        Edit::Lower { column, to } => figures.lowers[column] = Some(to),
        Edit::Upper { column, to } => figures.uppers[column] = Some(to),
        Edit::Right { row, to } => figures.rhs[row] = to,
        Edit::Coefficient { row, column, to } => figures.coefs[row * figures.columns + column] = to,
        Edit::Multiplier { row, to } => figures.mults[row] = to,
        Edit::DropLower { column } => figures.lowers[column] = None,
        Edit::DropUpper { column } => figures.uppers[column] = None,
    }
}

/// Long runs of edits: an accepted one gives the fresh sheet, a refused one changes nothing, and
/// 14 never comes.
#[test]
fn edits_in_long_runs() {
    let mut rng = Rng(3);
    let (mut accepted, mut refused) = (0, [0; 3]);
    let mut seen = [0; 3];
    for _ in 0..200 {
        let (rows, columns) = (1 + rng.below(5), 1 + rng.below(7));
        let ops = [ComparisonOp::Le, ComparisonOp::Le, ComparisonOp::Eq];
        let mut figures = Figures {
            rows,
            columns,
            coefs: (0..rows * columns).map(|_| rng.between(-4, 4)).collect(),
            costs: (0..columns).map(|_| rng.between(-9, 9)).collect(),
            lowers: (0..columns).map(|_| Some(rng.between(-5, 0))).collect(),
            uppers: (0..columns)
                .map(|_| Some(rng.between(0, 5)).filter(|up| up % 2 == 0))
                .collect(),
            rhs: (0..rows).map(|_| rng.between(0, 30)).collect(),
            ops: (0..rows).map(|row| ops[row % 3]).collect(),
            amounts: vec![0; columns],
            mults: vec![0; rows],
        };
        let mut sheet = open(&figures);
        for _ in 0..20 {
            let edit = random_edit(&mut rng, rows, columns);
            let before = sheet.clone();
            match sheet.edit(edit) {
                Ok(()) => {
                    accepted += 1;
                    apply(&mut figures, edit);
                    assert_eq!(sheet, open(&figures), "{edit:?}");
                }
                Err(refusal) => {
                    assert_eq!(sheet, before, "{edit:?}");
                    refused[usize::from(refusal.number() - 11)] += 1;
                }
            }
            match sheet.verdict() {
                Verdict::NotAPlan => seen[0] += 1,
                Verdict::NoFloor => seen[1] += 1,
                Verdict::Gap(gap) => {
                    seen[2] += 1;
                    assert!(gap >= 0);
                    assert_eq!(gap, 1024 * sheet.cost() - sheet.floor());
                }
                // Costs are seldom all 0 here; tests/why.rs asks for it.
                Verdict::NoneExists => assert!(sheet.floor() > 0),
            }
        }
    }
    assert!(accepted > 1_000);
    assert!(refused.iter().all(|&count| count > 20), "{refused:?}");
    assert!(seen.iter().all(|&count| count > 50), "{seen:?}");
}

#[test]
fn opening_refuses_by_number() {
    let bad = |change: fn(&mut Figures)| {
        let mut figures = n5([4, 0], -3072);
        change(&mut figures);
        Sheet::open(&figures).unwrap_err()
    };
    // 11: sizes over their limits, and each array too short.
    let sizes: [fn(&mut Figures); 14] = [
        |f| f.rows = 97,
        |f| f.columns = 129,
        |f| f.rows = usize::MAX,
        |f| f.columns = usize::MAX,
        |f| f.coefs.truncate(1),
        |f| f.costs.truncate(1),
        |f| f.lowers.truncate(1),
        |f| f.uppers.truncate(1),
        |f| f.rhs.clear(),
        |f| f.ops.clear(),
        |f| f.amounts.truncate(1),
        |f| f.mults.clear(),
        |f| f.rows = 2,
        |f| f.columns = 3,
    ];
    for change in sizes {
        assert_eq!(bad(change), Refusal::BadSize);
    }
    // 12: one past each limit; the limit itself is fine.
    let numbers: [fn(&mut Figures, i64); 7] = [
        |f, past| f.coefs[0] = 4_096 + past,
        |f, past| f.costs[0] = -(1 << 20) - past,
        |f, past| f.lowers[1] = Some(-(1 << 16) - past),
        |f, past| f.uppers[1] = Some((1 << 16) + past),
        |f, past| f.rhs[0] = (1 << 31) + past,
        |f, past| f.amounts[1] = (1 << 16) + past,
        |f, past| f.mults[0] = -(1 << 20) - past,
    ];
    for change in numbers {
        let mut figures = n5([4, 0], -3072);
        change(&mut figures, 0);
        let _ = open(&figures).verdict();
        change(&mut figures, 1);
        assert_eq!(Sheet::open(&figures), Err(Refusal::BadNumber));
    }
    assert_eq!(bad(|f| f.costs[1] = i64::MIN), Refusal::BadNumber);
    // 13: both present and crossed; one absent isn't.
    assert_eq!(bad(|f| f.lowers[1] = Some(3)), Refusal::CrossedBounds);
    let mut figures = n5([4, 0], -3072);
    figures.lowers[0] = Some(3);
    let _ = open(&figures);
    // The lowest number first.
    let lowest = bad(|f| {
        f.lowers[1] = Some(3);
        f.costs[0] = i64::MAX;
    });
    assert_eq!(lowest, Refusal::BadNumber);
}

#[test]
fn edits_refuse_by_number() {
    let mut sheet = open(&n5([4, 0], -3072));
    let before = sheet.clone();
    let outside = [
        Edit::Amount { column: 2, to: 0 },
        Edit::Cost { column: 2, to: 0 },
        Edit::Lower { column: 2, to: 0 },
        Edit::Upper { column: 2, to: 0 },
        Edit::Right { row: 1, to: 0 },
        Edit::Coefficient {
            row: 1,
            column: 0,
            to: 0,
        },
        Edit::Coefficient {
            row: 0,
            column: usize::MAX,
            to: 0,
        },
        Edit::Multiplier { row: 1, to: 0 },
        Edit::DropLower { column: 2 },
        Edit::DropUpper { column: 2 },
    ];
    for edit in outside {
        assert_eq!(sheet.edit(edit), Err(Refusal::BadSize));
    }
    let (row, column, to) = (0, 1, i64::MIN);
    let over = [
        Edit::Amount { column, to },
        Edit::Cost { column, to },
        Edit::Lower { column, to },
        Edit::Upper { column, to },
        Edit::Right { row, to },
        Edit::Coefficient { row, column, to },
        Edit::Multiplier { row, to },
    ];
    for edit in over {
        assert_eq!(sheet.edit(edit), Err(Refusal::BadNumber));
    }
    let crossing = [
        Edit::Lower { column, to: 3 },
        Edit::Upper { column, to: -1 },
    ];
    for edit in crossing {
        assert_eq!(sheet.edit(edit), Err(Refusal::CrossedBounds));
    }
    assert_eq!(sheet, before);
    // Dropping an absent bound is accepted, and changes nothing.
    sheet.edit(Edit::DropUpper { column: 0 }).unwrap();
    assert_eq!(sheet, before);
}

/// The night sheet in lent arrays.
struct Lent {
    plan: [[i64; 2]; 5],
    marks: [[u8; 2]; 2],
    ops: [u8; 1],
    rows: [[i64; 1]; 3],
    d: [i64; 2],
    sums: [[i64; 1]; 2],
    counts: [i64; 4],
}

impl Lent {
    fn new() -> Lent {
        Lent {
            // Coefficients, costs, lower bounds, upper bounds, amounts.
            plan: [[1, 1], [-3, -1], [0, 0], [0, 2], [4, 0]],
            marks: [[1, 1], [0, 1]],
            ops: [ops::LE],
            // Right side, multiplier, activity.
            rows: [[4], [-3072], [0]],
            d: [0; 2],
            sums: [[0]; 2],
            counts: [0; 4],
        }
    }

    fn lend(&mut self) -> SheetMut<'_> {
        let [coefs, costs, lowers, uppers, amounts] = &mut self.plan;
        let [lower_marks, upper_marks] = &mut self.marks;
        let [rhs, mults, r] = &mut self.rows;
        let [c, b] = &mut self.sums;
        SheetMut {
            rows: 1,
            columns: 2,
            coefs,
            costs,
            lowers,
            uppers,
            lower_marks,
            upper_marks,
            rhs,
            ops: &self.ops,
            amounts,
            mults,
            r,
            d: &mut self.d,
            c,
            b,
            counts: &mut self.counts,
        }
    }
}

#[test]
fn every_refusal_of_the_raw_calls() {
    let mut lent = Lent::new();
    let mut sheet = lent.lend();
    sheet.open().unwrap();
    assert_eq!(sheet.verdict(), Ok(Verdict::Gap(0)));
    assert_eq!(sheet.borrow().verdict(), Ok(Verdict::Gap(0)));

    // 16 and 15 go by the kind alone, and come before all else.
    for kind in [0, 32, 33, usize::MAX] {
        assert_eq!(sheet.edit(kind, 9, 9, i64::MAX), Err(Refusal::UnknownKind));
    }
    for kind in 10..=31 {
        assert_eq!(sheet.edit(kind, 9, 9, i64::MAX), Err(Refusal::KeptForLater));
    }
    assert_eq!(sheet.edit(5, 1, 0, 0), Err(Refusal::BadSize));
    assert_eq!(sheet.edit(1, 0, 0, 65_537), Err(Refusal::BadNumber));
    assert_eq!(sheet.edit(3, 0, 1, 3), Err(Refusal::CrossedBounds));
    // Kinds 8 and 9 take any number.
    assert_eq!(sheet.edit(9, 0, 0, i64::MAX), Ok(()));

    // A mark that isn't known: 12 at opening, 14 for an edit; a kept number past its size: 14 for
    // a verdict too.
    lent.marks[0][0] = 2;
    assert_eq!(lent.lend().open(), Err(Refusal::BadNumber));
    assert_eq!(lent.lend().edit(1, 0, 0, 3), Err(Refusal::Damaged));
    assert_eq!(lent.lend().verdict(), Ok(Verdict::Gap(0)));
    lent.marks[0][0] = 1;
    assert_eq!(lent.lend().edit(1, 0, 0, 3), Ok(()));
    assert_eq!(lent.lend().verdict(), Ok(Verdict::Gap(3072)));
    lent.ops[0] = 3;
    assert_eq!(lent.lend().open(), Err(Refusal::BadNumber));
    lent.ops[0] = ops::LE;
    lent.counts[0] = 2;
    assert_eq!(lent.lend().verdict(), Err(Refusal::Damaged));
    assert_eq!(lent.lend().edit(1, 0, 0, 4), Err(Refusal::Damaged));
    assert_eq!(lent.plan[4], [3, 0]);

    // 11: a lent array that is too short, for each call.
    let mut lent = Lent::new();
    let mut sheet = lent.lend();
    sheet.d = &mut [];
    assert_eq!(sheet.open(), Err(Refusal::BadSize));
    assert_eq!(sheet.edit(1, 0, 0, 3), Err(Refusal::BadSize));
    assert_eq!(sheet.verdict(), Err(Refusal::BadSize));
}

#[test]
fn numbers_and_sentences_of_the_refusals() {
    let numbers = [11, 12, 13, 14, 15, 16, 31, 32, 33, 34, 35, 36, 37];
    assert_eq!(Refusal::ALL.len(), numbers.len());
    for (refusal, number) in Refusal::ALL.into_iter().zip(numbers) {
        assert_eq!(usize::from(refusal.number()), number);
        assert_eq!(Refusal::from_number(number), Some(refusal));
        let shown = refusal.to_string();
        assert!(shown.starts_with(&format!("{number}: ")));
        let _: &dyn std::error::Error = &refusal;
    }
    for number in [0, 10, 17, 30, 38] {
        assert_eq!(Refusal::from_number(number), None);
    }
}
