//! What 01 says of lent lengths, tried on sheets: a short array gives 11 and changes nothing, longer
//! is fine, and what stands past the needed length is no part of the sheet.

use std::collections::BTreeMap;

use driver::sheets::{all, Arrays};
use oracle_sheet::reference::{self, Edit, Sheet, Verdict};
use oracle_sheet::tally::needed;
use oracle_sheet::{parse, Array};

/// Kinds 1 to 9, on a cell that every sheet with a row and a column has.
fn edits() -> impl Iterator<Item = Edit> {
    (1..=9).map(|kind| Edit {
        kind,
        row: 0,
        column: 0,
        number: 1,
    })
}

/// The sheets of the fixed list that open, cut to what they need, opened by the reference.
fn sheets() -> Vec<Sheet> {
    let blocks = parse(include_str!("../../oracle-sheet/fixed-sheets.txt")).unwrap();
    let mut sheets: Vec<Sheet> = blocks.into_iter().map(|block| block.sheet).collect();
    sheets.retain(|sheet| reference::opening_refusal(sheet) == 0);
    for sheet in &mut sheets {
        for array in all() {
            let length = needed(sheet, array);
            if !matches!(array, Array::C | Array::B | Array::Counts) {
                sheet.lend(array, length);
            }
        }
        reference::open(sheet);
    }
    assert!(sheets.len() > 300);
    sheets
}

/// The cells of every array in turn.
fn cells(sheet: &Sheet) -> Vec<(Array, Vec<i128>)> {
    all()
        .map(|array| {
            let cells = (0..sheet.length(array)).map(|at| sheet.read(array, at));
            (array, cells.collect())
        })
        .collect()
}

#[test]
fn a_short_array_gives_11() {
    let mut tried: BTreeMap<Array, usize> = BTreeMap::new();
    for sheet in sheets() {
        let (rows, columns) = (sheet.rows, sheet.columns);
        let whole = Arrays::lend(&sheet, |_| 0);
        for array in all() {
            let least = needed(&sheet, array);
            if least == 0 {
                continue;
            }
            for length in [least - 1, 0] {
                let mut short = whole.clone();
                short.cut(array, length);
                let before = short.clone();
                assert_eq!(short.open(rows, columns), 11);
                assert_eq!(short.verdict(rows, columns), Verdict::Refused(11));
                for edit in edits() {
                    assert_eq!(short.edit(rows, columns, edit), 11);
                }
                assert_eq!(short.changed(&before, |_| 0), None);
            }
            *tried.entry(array).or_default() += 1;
        }
    }
    assert_eq!(tried.len(), 15);
    for (array, count) in tried {
        assert!(count >= 100, "{array:?} was tried {count} times");
    }
}

#[test]
fn exact_and_longer_arrays_give_the_references_answers() {
    let mut accepted = [0; 10];
    for (i, sheet) in sheets().into_iter().enumerate() {
        let (rows, columns) = (sheet.rows, sheet.columns);
        for extra in [0, 1 + i % 4] {
            let lent = Arrays::lend(&sheet, |_| extra);
            assert_eq!(lent.verdict(rows, columns), reference::verdict(&sheet));

            let mut opened = lent.clone();
            let before = opened.clone();
            assert_eq!(opened.open(rows, columns), 0);
            // It was open already: the same numbers are written again.
            assert_eq!(opened.changed(&before, |_| 0), None);

            for edit in edits() {
                let mut edited = lent.clone();
                let mut after = sheet.clone();
                let status = reference::edit(&mut after, edit);
                assert_eq!(edited.edit(rows, columns, edit), usize::from(status));
                let written = |array| {
                    if status == 0 {
                        needed(&sheet, array)
                    } else {
                        0
                    }
                };
                assert_eq!(edited.changed(&before, written), None);
                let mut back = sheet.clone();
                edited.back(&mut back);
                assert_eq!(cells(&back), cells(&after));
                accepted[edit.kind as usize] += usize::from(status == 0);
            }
        }
    }
    for (kind, count) in accepted.into_iter().enumerate().skip(1) {
        assert!(count >= 100, "kind {kind} was accepted {count} times");
    }
}

/// Kinds that are none are refused before any size is looked at.
#[test]
fn kinds_come_before_lengths() {
    let sheet = sheets().remove(0);
    let mut none = Arrays::lend(&sheet, |_| 0);
    for array in all() {
        none.cut(array, 0);
    }
    for kind in 0..40 {
        let edit = Edit {
            kind,
            row: 0,
            column: 0,
            number: 0,
        };
        let told = match kind {
            0 | 32.. => 16,
            10..=31 => 15,
            _ => 11,
        };
        assert_eq!(none.edit(u64::MAX, u64::MAX, edit), told);
    }
}

#[test]
fn every_limit_and_one_past_it() {
    for (rows, columns) in [(96, 128), (96, 0), (0, 128), (0, 0)] {
        let mut sheet = Sheet {
            rows,
            columns,
            ..Sheet::default()
        };
        sheet.lend_kept();
        for array in all() {
            let length = needed(&sheet, array);
            if !matches!(array, Array::C | Array::B | Array::Counts) {
                sheet.lend(array, length);
            }
        }
        let mut lent = Arrays::lend(&sheet, |_| 8192);
        assert_eq!(lent.open(rows, columns), 0);
        assert_eq!(lent.verdict(rows, columns), Verdict::Gap(0));
        for (rows, columns) in [(97, columns), (rows, 129), (u64::MAX, 1), (1, u64::MAX)] {
            assert_eq!(lent.open(rows, columns), 11);
            assert_eq!(lent.verdict(rows, columns), Verdict::Refused(11));
            for edit in edits() {
                assert_eq!(lent.edit(rows, columns, edit), 11);
            }
        }
    }
}
