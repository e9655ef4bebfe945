//! What 01 promises of the sheet, tried on the generated scripts and on sheets made for the case.

use oracle_sheet::generate::{blocks, night_sheet, WHOLE};
use oracle_sheet::reference::{self as rf, Edit, Kept, Sheet, Verdict, EQ, GE, LE};
use oracle_sheet::tally::{changed, report, short_targets, targets, touches, Tally};
use oracle_sheet::{
    answer, parse, play, print, Array, Block, Moment, Reference, Step, PLAN_ARRAYS,
};

fn at(kind: u64, row: u64, column: u64, number: i64) -> Edit {
    Edit {
        kind,
        row,
        column,
        number,
    }
}

/// Shows every edit of every script of a seed.
fn each_edit(seed: u64, see: &mut dyn FnMut(&Sheet, Edit, u8, &Sheet)) {
    blocks(seed, &WHOLE, &mut |block| {
        play(&block, &mut |moment| {
            if let Moment::Edited(before, edit, status, after) = moment {
                see(before, edit, status, after);
            }
        });
    });
}

/// The plan cells after an edit, nothing kept.
fn rewritten(sheet: &Sheet, edit: Edit) -> Sheet {
    let mut after = sheet.clone();
    let (i, j) = (edit.row as usize, edit.column as usize);
    match edit.kind {
        1 => after.amount[j] = edit.number,
        2 => after.cost[j] = edit.number,
        3 => (after.lower[j], after.haslow[j]) = (edit.number, 1),
        4 => (after.upper[j], after.hasup[j]) = (edit.number, 1),
        5 => after.rhs[i] = edit.number,
        6 => after.coef[i * sheet.columns as usize + j] = edit.number,
        7 => after.mult[i] = edit.number,
        8 => (after.lower[j], after.haslow[j]) = (0, 0),
        _ => (after.upper[j], after.hasup[j]) = (0, 0),
    }
    after
}

/// "Touched sums and counts move by the change in their terms" once more, in one formula for all
/// kinds: every term of every sum, after less before. It knows no table of touched cells.
fn moved_by_all_terms(before: &Sheet, after: &Sheet) -> Kept {
    let (m, n) = (before.rows as usize, before.columns as usize);
    let x = |s: &Sheet, j: usize| i128::from(s.amount[j]);
    let y = |s: &Sheet, i: usize| i128::from(s.mult[i]);
    let c = |s: &Sheet, j: usize| i128::from(s.cost[j]);
    let rhs = |s: &Sheet, i: usize| i128::from(s.rhs[i]);
    let mut kept = before.kept.clone();
    for i in 0..m {
        for j in 0..n {
            kept.r[i] += after.a(i, j) * x(after, j) - before.a(i, j) * x(before, j);
            kept.d[j] -= after.a(i, j) * y(after, i) - before.a(i, j) * y(before, i);
        }
    }
    for j in 0..n {
        kept.d[j] += 1024 * (c(after, j) - c(before, j));
        kept.c += c(after, j) * x(after, j) - c(before, j) * x(before, j);
        let (old, new) = (before.bounds(j), after.bounds(j));
        kept.b += rf::floor_term(kept.d[j], new) - rf::floor_term(before.kept.d[j], old);
        kept.counts[1] += rf::amount_out(x(after, j), new) - rf::amount_out(x(before, j), old);
        kept.counts[3] +=
            rf::bound_needed(kept.d[j], new) - rf::bound_needed(before.kept.d[j], old);
    }
    for i in 0..m {
        let op = before.ops[i];
        kept.b += y(after, i) * rhs(after, i) - y(before, i) * rhs(before, i);
        kept.counts[0] += rf::row_broken(op, kept.r[i], rhs(after, i));
        kept.counts[0] -= rf::row_broken(op, before.kept.r[i], rhs(before, i));
        kept.counts[2] += rf::wrong_sign(op, y(after, i)) - rf::wrong_sign(op, y(before, i));
    }
    kept
}

#[test]
fn an_accepted_edit_moves_each_sum_by_its_terms() {
    let mut tried = 0;
    each_edit(1, &mut |before, edit, status, after| {
        if status == 0 {
            let plan = rewritten(before, edit);
            assert_eq!(after.kept, moved_by_all_terms(before, &plan), "{edit:?}");
            assert_eq!(
                Sheet {
                    kept: before.kept.clone(),
                    ..after.clone()
                },
                plan
            );
            tried += 1;
        }
    });
    assert!(tried > 30_000);
}

#[test]
fn true_sheets_stay_true() {
    let mut tried = 0;
    each_edit(1, &mut |before, edit, status, after| {
        if rf::is_true(before) {
            assert_ne!(status, 14, "14 is never given on a true sheet");
            if status == 0 {
                let mut again = after.clone();
                assert_eq!(rf::open(&mut again), 0);
                assert_eq!(again, *after, "{edit:?}");
                tried += 1;
            }
        }
    });
    assert!(tried > 20_000);
}

#[test]
fn a_refused_edit_changes_nothing() {
    each_edit(2, &mut |before, edit, status, _| {
        let mut sheet = before.clone();
        assert_eq!(rf::edit(&mut sheet, edit), status);
        if status != 0 {
            assert_eq!(sheet, *before);
        }
    });
}

#[test]
fn an_edit_changes_only_listed_cells() {
    let mut each = [0; 10];
    each_edit(1, &mut |before, edit, status, after| {
        let list = changed(before, after);
        if status != 0 {
            assert!(list.is_empty());
        }
        for (array, index) in list {
            assert!(
                touches(before, edit, array, index),
                "{edit:?} changed {} {index}",
                array.name()
            );
            each[edit.kind as usize] += 1;
        }
    });
    assert!(each[1..].iter().all(|n| *n > 1000), "{each:?}");
}

#[test]
fn every_listed_cell_is_changed_by_some_edit() {
    // The table is no wider than 01's: each cell it lists does change somewhere.
    let mut seen = std::collections::BTreeSet::new();
    each_edit(1, &mut |before, edit, _, after| {
        for (array, index) in changed(before, after) {
            let place = if array == Array::Counts { index } else { 0 };
            seen.insert((edit.kind, array, place));
        }
    });
    use Array::*;
    let bounds = |bound, mark| vec![(bound, 0), (mark, 0), (B, 0), (Counts, 1), (Counts, 3)];
    let table: [Vec<(Array, usize)>; 9] = [
        vec![(Amount, 0), (R, 0), (C, 0), (Counts, 0), (Counts, 1)],
        vec![(Cost, 0), (D, 0), (C, 0), (B, 0), (Counts, 3)],
        bounds(Lower, Haslow),
        bounds(Upper, Hasup),
        vec![(Rhs, 0), (B, 0), (Counts, 0)],
        vec![(Coef, 0), (R, 0), (D, 0), (B, 0), (Counts, 0), (Counts, 3)],
        vec![(Mult, 0), (D, 0), (B, 0), (Counts, 2), (Counts, 3)],
        bounds(Lower, Haslow),
        bounds(Upper, Hasup),
    ];
    let listed: std::collections::BTreeSet<_> = table
        .iter()
        .enumerate()
        .flat_map(|(k, cells)| cells.iter().map(move |c| (k as u64 + 1, c.0, c.1)))
        .collect();
    assert_eq!(seen, listed);
}

#[test]
fn a_gap_on_a_true_sheet_is_never_below_0() {
    let mut tried = 0;
    each_edit(3, &mut |_, _, _, after| {
        if rf::is_true(after) {
            if let Verdict::Gap(gap) = rf::verdict(after) {
                assert!(gap >= 0);
                tried += 1;
            }
        }
    });
    assert!(tried > 5_000);
}

/// Tries every z in reach of `k` times the bounds; calls `see` on those that keep rows and bounds.
fn each_point(sheet: &Sheet, k: i128, see: &mut dyn FnMut(&[i128])) {
    let (m, n) = (sheet.rows as usize, sheet.columns as usize);
    let reach = 6;
    let range = |j: usize| {
        let b = sheet.bounds(j);
        let low = if b.has_low { b.low.max(-reach) } else { -reach };
        let up = if b.has_up { b.up.min(reach) } else { reach };
        (k * low, k * up)
    };
    let mut z: Vec<i128> = (0..n).map(|j| range(j).0).collect();
    if (0..n).any(|j| range(j).0 > range(j).1) {
        return;
    }
    loop {
        let keeps = (0..m).all(|i| {
            let r: i128 = (0..n).map(|j| sheet.a(i, j) * z[j]).sum();
            rf::row_broken(sheet.ops[i], r, k * i128::from(sheet.rhs[i])) == 0
        });
        if keeps {
            see(&z);
        }
        let mut j = 0;
        while j < n && z[j] == range(j).1 {
            z[j] = range(j).0;
            j += 1;
        }
        if j == n {
            return;
        }
        z[j] += 1;
    }
}

#[test]
fn no_amounts_in_reach_are_below_the_floor() {
    let (mut floors, mut points, mut exact) = (0, 0, 0);
    each_edit(4, &mut |_, _, status, after| {
        let counts = after.kept.counts;
        if status != 0 || after.columns > 3 || counts[2] != 0 || counts[3] != 0 || floors >= 3000 {
            return;
        }
        if !rf::is_true(after) {
            return;
        }
        floors += 1;
        for k in 1..=3 {
            each_point(after, k, &mut |z| {
                let cost: i128 = (0..z.len()).map(|j| i128::from(after.cost[j]) * z[j]).sum();
                assert!(k * after.kept.b <= 1024 * cost);
                points += 1;
                exact += u64::from(k * after.kept.b == 1024 * cost);
            });
        }
    });
    assert!(floors >= 1000 && points > 100_000 && exact > 1000);
}

#[test]
fn no_amounts_in_reach_where_none_exists() {
    let (mut nones, mut kept) = (0, 0);
    each_edit(4, &mut |_, _, _, after| {
        if after.columns > 3 || !rf::is_true(after) {
            return;
        }
        let none = rf::verdict(after) == Verdict::NoneExists;
        if !none && (nones == 0 || kept > 1000) {
            return;
        }
        nones += u64::from(none);
        for k in 1..=3 {
            each_point(after, k, &mut |_| {
                assert!(!none);
                kept += 1;
            });
        }
    });
    // The points were looked for in earnest: other sheets have them.
    assert!(nones >= 1000 && kept > 1000, "{nones} {kept}");
}

/// One row, one column, every number far from its limit.
fn plain() -> Sheet {
    let mut sheet = Sheet {
        rows: 1,
        columns: 1,
        coef: vec![1],
        cost: vec![1],
        lower: vec![-5],
        upper: vec![5],
        haslow: vec![1],
        hasup: vec![1],
        rhs: vec![9],
        ops: vec![LE],
        amount: vec![2],
        mult: vec![-1],
        ..Sheet::default()
    };
    sheet.lend_kept();
    sheet
}

#[test]
fn limits_are_inclusive_at_opening() {
    for (array, limit) in [
        (Array::Coef, 4096i64),
        (Array::Cost, 1 << 20),
        (Array::Lower, 1 << 16),
        (Array::Upper, 1 << 16),
        (Array::Rhs, 1 << 31),
        (Array::Amount, 1 << 16),
        (Array::Mult, 1 << 20),
    ] {
        for number in [limit, -limit] {
            let mut sheet = plain();
            // The other bound must not cross.
            sheet.write(Array::Lower, 0, -(1 << 16));
            sheet.write(Array::Upper, 0, 1 << 16);
            sheet.write(array, 0, number);
            assert_eq!(rf::opening_refusal(&sheet), 0, "{} {number}", array.name());
            sheet.write(array, 0, number + number.signum());
            assert_eq!(rf::opening_refusal(&sheet), 12, "{} {number}", array.name());
        }
    }
    for (array, most) in [(Array::Haslow, 1), (Array::Hasup, 1), (Array::Ops, 2)] {
        for number in 0..=255 {
            let mut sheet = plain();
            sheet.write(Array::Lower, 0, 0);
            sheet.write(Array::Upper, 0, 0);
            sheet.write(array, 0, number);
            let status = if number <= most { 0 } else { 12 };
            assert_eq!(rf::opening_refusal(&sheet), status);
        }
    }
    // An absent bound's limit is 0.
    for (array, mark) in [(Array::Lower, Array::Haslow), (Array::Upper, Array::Hasup)] {
        for number in [-1, 0, 1] {
            let mut sheet = plain();
            sheet.write(mark, 0, 0);
            sheet.write(array, 0, number);
            let status = if number == 0 { 0 } else { 12 };
            assert_eq!(rf::opening_refusal(&sheet), status);
        }
    }
}

#[test]
fn limits_are_inclusive_in_edits() {
    for (kind, limit) in [
        (1, 1i64 << 16),
        (2, 1 << 20),
        (3, 1 << 16),
        (4, 1 << 16),
        (5, 1 << 31),
        (6, 4096),
        (7, 1 << 20),
    ] {
        for number in [limit, -limit] {
            let mut sheet = plain();
            sheet.lower[0] = -(1 << 16);
            sheet.upper[0] = 1 << 16;
            assert_eq!(rf::open(&mut sheet), 0);
            let past = at(kind, 0, 0, number + number.signum());
            assert_eq!(rf::edit(&mut sheet, past), 12);
            assert_eq!(rf::edit(&mut sheet, at(kind, 0, 0, number)), 0);
            assert!(rf::is_true(&sheet));
        }
    }
}

#[test]
fn kept_sizes_are_inclusive() {
    // Each kept number at its size, one past it on either side: the verdict and an edit that
    // moves nothing.
    for (array, index, low, high) in [
        (Array::R, 0, -(1i64 << 35), 1i64 << 35),
        (Array::D, 0, -(1 << 39), 1 << 39),
        (Array::C, 0, -(1 << 43), 1 << 43),
        (Array::B, 0, -(1 << 62), 1 << 62),
        (Array::Counts, 0, 0, 1),
        (Array::Counts, 1, 0, 1),
        (Array::Counts, 2, 0, 1),
        (Array::Counts, 3, 0, 1),
    ] {
        for (number, fits) in [
            (low, true),
            (high, true),
            (low - 1, false),
            (high + 1, false),
        ] {
            let mut sheet = plain();
            assert_eq!(rf::open(&mut sheet), 0);
            sheet.write(array, index, number);
            let refused = rf::verdict(&sheet) == Verdict::Refused(14);
            assert_eq!(refused, !fits);
            for same in [
                at(1, 0, 0, 2),
                at(2, 0, 0, 1),
                at(3, 0, 0, -5),
                at(4, 0, 0, 5),
                at(5, 0, 0, 9),
                at(6, 0, 0, 1),
                at(7, 0, 0, -1),
            ] {
                let before = sheet.clone();
                let status = rf::edit(&mut sheet, same);
                assert_eq!(status, if fits { 0 } else { 14 });
                assert_eq!(before, sheet);
            }
        }
    }
}

#[test]
fn sums_reach_their_sizes_on_true_sheets() {
    let n = 128;
    let mut sheet = Sheet {
        rows: 1,
        columns: n as u64,
        coef: vec![4096; n],
        cost: vec![1 << 20; n],
        lower: vec![0; n],
        upper: vec![0; n],
        haslow: vec![0; n],
        hasup: vec![0; n],
        rhs: vec![1 << 31],
        ops: vec![GE],
        amount: vec![1 << 16; n],
        mult: vec![0],
        ..Sheet::default()
    };
    sheet.lend_kept();
    assert_eq!(rf::open(&mut sheet), 0);
    assert_eq!(sheet.kept.r, [1 << 35]);
    assert_eq!(sheet.kept.c, 1 << 43);
    // 2^43 needs D > 0 with no lower bound: a plan, but no floor.
    assert_eq!(rf::verdict(&sheet), Verdict::NoFloor);
    assert_eq!(rf::edit(&mut sheet, at(1, 0, 0, (1 << 16) - 1)), 0);
    assert_eq!(rf::edit(&mut sheet, at(1, 0, 0, 1 << 16)), 0);
    assert_eq!(sheet.kept.r, [1 << 35]);
}

#[test]
fn sizes_are_inclusive() {
    let sized = |m: usize, n: usize| {
        let mut sheet = Sheet {
            rows: m as u64,
            columns: n as u64,
            coef: vec![0; m * n],
            cost: vec![0; n],
            lower: vec![0; n],
            upper: vec![0; n],
            haslow: vec![0; n],
            hasup: vec![0; n],
            rhs: vec![0; m],
            ops: vec![EQ; m],
            amount: vec![0; n],
            mult: vec![0; m],
            ..Sheet::default()
        };
        sheet.lend_kept();
        sheet
    };
    for (m, n, status) in [
        (0, 0, 0),
        (0, 128, 0),
        (96, 0, 0),
        (96, 128, 0),
        (97, 128, 11),
        (96, 129, 11),
        (97, 0, 11),
        (0, 129, 11),
    ] {
        let mut sheet = sized(m, n);
        assert_eq!(rf::open(&mut sheet), status, "{m} {n}");
        if status != 0 {
            continue;
        }
        assert_eq!(rf::verdict(&sheet), Verdict::Gap(0));
        for array in PLAN_ARRAYS {
            let length = sheet.length(array);
            if length > 0 {
                let mut short = sheet.clone();
                short.lend(array, length - 1);
                assert_eq!(rf::opening_refusal(&short), 11);
                assert_eq!(rf::verdict(&short), Verdict::Refused(11));
                assert_eq!(rf::edit(&mut short, at(1, 0, 0, 0)), 11);
                let mut long = sheet.clone();
                long.lend(array, length + 1);
                long.write(array, length, 200);
                assert_eq!(rf::opening_refusal(&long), 0);
            }
        }
        // The last index is good, the next one isn't.
        for kind in 1..=9 {
            let (rows, columns) = (m as u64, n as u64);
            let last = at(kind, rows.saturating_sub(1), columns.saturating_sub(1), 0);
            let empty = (rf::uses_row(kind) && m == 0) || (rf::uses_column(kind) && n == 0);
            let status = if empty { 11 } else { 0 };
            assert_eq!(rf::edit(&mut sheet.clone(), last), status);
            if rf::uses_row(kind) {
                assert_eq!(rf::edit(&mut sheet.clone(), Edit { row: rows, ..last }), 11);
            }
            if rf::uses_column(kind) {
                let past = Edit {
                    column: columns,
                    ..last
                };
                assert_eq!(rf::edit(&mut sheet.clone(), past), 11);
            }
        }
    }
}

#[test]
fn the_lowest_refusal_wins() {
    // Everything wrong at once, mended one by one: 16, 15, 11, 12, 13, 14, accepted.
    let mut sheet = plain();
    assert_eq!(rf::open(&mut sheet), 0);
    sheet.amount[0] = i64::MAX;
    let order = [
        (at(32, 9, 9, i64::MIN), 16),
        (at(0, 9, 9, i64::MIN), 16),
        (at(31, 9, 9, i64::MIN), 15),
        (at(10, 9, 9, i64::MIN), 15),
        (at(4, 9, 9, i64::MIN), 11),
        (at(4, 9, 0, i64::MIN), 12),
        (at(4, 9, 0, -6), 13),
        (at(4, 9, 0, -5), 14),
    ];
    for (edit, status) in order {
        assert_eq!(rf::edit(&mut sheet, edit), status);
    }
    sheet.amount[0] = 2;
    assert_eq!(rf::edit(&mut sheet, at(4, 9, 0, -5)), 0);

    let mut sheet = plain();
    sheet.cost[0] = i64::MAX;
    sheet.lower[0] = 6;
    sheet.rhs.clear();
    assert_eq!(rf::open(&mut sheet), 11);
    sheet.rhs.push(0);
    assert_eq!(rf::open(&mut sheet), 12);
    sheet.cost[0] = 0;
    assert_eq!(rf::open(&mut sheet), 13);
    sheet.lower[0] = 5;
    assert_eq!(rf::open(&mut sheet), 0);
}

#[test]
fn terms_are_read_from_kept_cells() {
    // N5 with a wrong price of 5 in place of 0: the floor moves by 5 times the lower bound's move.
    let mut sheet = night_sheet(4, -3072);
    assert_eq!(rf::open(&mut sheet), 0);
    sheet.kept.d[0] = 5;
    assert_eq!(rf::edit(&mut sheet, at(3, 0, 0, 2)), 0);
    assert_eq!(sheet.kept.b, -12288 + 10);
    // Multiplier -3072 to -3080: prices 5 + 8 and 2048 + 8, terms 13*2 - 5*2 and 0, row -8*4.
    assert_eq!(rf::edit(&mut sheet, at(7, 0, 0, -3080)), 0);
    assert_eq!(sheet.kept.d, [13, 2056]);
    assert_eq!(sheet.kept.b, -12278 + 16 - 32);
    // A wrong activity of 9: the row counts as broken in the old term, though the count says 0,
    // so bringing it to 4 takes one away, and a count below 0 is refused.
    sheet.kept.r[0] = 9;
    assert_eq!(rf::edit(&mut sheet, at(1, 0, 0, -1)), 14);
    sheet.kept.counts[0] = 1;
    assert_eq!(rf::edit(&mut sheet, at(1, 0, 0, -1)), 0);
    assert_eq!(sheet.kept.counts, [0, 1, 0, 0]);
    assert_eq!(sheet.kept.r, [4]);
}

#[test]
fn bounds_are_marked_by_their_kinds() {
    let mut sheet = plain();
    assert_eq!(rf::open(&mut sheet), 0);
    for (kind, bound, mark) in [
        (8, Array::Lower, Array::Haslow),
        (9, Array::Upper, Array::Hasup),
    ] {
        for number in [i64::MIN, 7] {
            assert_eq!(rf::edit(&mut sheet, at(kind, 99, 0, number)), 0);
            assert_eq!((sheet.read(bound, 0), sheet.read(mark, 0)), (0, 0));
            assert!(rf::is_true(&sheet));
        }
    }
    // With the other bound absent nothing crosses.
    assert_eq!(rf::edit(&mut sheet, at(3, 0, 0, 7)), 0);
    assert_eq!(rf::edit(&mut sheet, at(4, 0, 0, 6)), 13);
    assert_eq!(rf::edit(&mut sheet, at(4, 0, 0, 7)), 0);
    assert_eq!(rf::edit(&mut sheet, at(3, 0, 0, 8)), 13);
    assert_eq!((sheet.haslow[0], sheet.hasup[0]), (1, 1));
    assert!(rf::is_true(&sheet));
}

#[test]
fn text_is_read_as_it_is_written() {
    let scale = oracle_sheet::generate::Scale {
        small: 200,
        damaged: 200,
        opening: 300,
        limits: 5,
        floors: 1,
        edges: 5,
        sizes: 20,
        full: 1,
        short: 40,
        ..WHOLE
    };
    let mut written: Vec<Block> = Vec::new();
    let mut text = String::new();
    blocks(7, &scale, &mut |block| {
        print(&block, &mut text);
        written.push(block);
    });
    assert_eq!(parse(&text).unwrap(), written);
    for wrong in [
        "edit 1 0 0 0\n",
        "sheet a 1\nend\n",
        "sheet a 1 1\n",
        "sheet a 1 1\nhaslow 256\nend\n",
        "sheet a 1 1\ncost 9223372036854775808\nend\n",
        "sheet a 1 1\npoke ops 0 -1\nend\n",
        "sheet a 1 1\nkeep cost 1\nend\n",
        "sheet a 1 1\nedit 1 0 0\nend\n",
        "plan a\nend\n",
    ] {
        assert!(parse(wrong).is_err(), "{wrong}");
    }
}

#[test]
fn answer_lines_have_the_exchange_form() {
    let text = "sheet a 1 2\ncoef 1 1\ncost -3 -1\nlower 0 0\nupper 0 2\nhaslow 1 1\nhasup 0 1\n\
                rhs 4\nops 0\namount 4 0\nmult -3072\nkeep counts 0 0 0 1\nedit 32 0 0 0\n\
                poke C 0 -8796093022209\nedit 10 0 0 0\npoke counts 3 0\npoke C 0 -12\n\
                edit 7 0 0 -4096\npoke amount 1 1\nend\nsheet b 0 0\nend\nsheet c 1 0\n\
                edit 1 0 0 0\nend\n";
    let expected = "a open 0 R 4 D 0 2048 C -12 B -12288 counts 0 0 0 0 verdict gap:0\n\
        a edit 16 R 4 D 0 2048 C -12 B -12288 counts 0 0 0 1 verdict no-floor\n\
        a edit 15 R 4 D 0 2048 C -8796093022209 B -12288 counts 0 0 0 1 verdict 14\n\
        a edit 0 R 4 D 1024 3072 C -12 B -16384 counts 0 0 0 0 verdict gap:4096\n\
        a end coef 1 1 cost -3 -1 lower 0 0 upper 0 2 haslow 1 1 hasup 0 1 rhs 4 ops 0 \
        amount 4 1 mult -4096\n\
        b open 0 R D C 0 B 0 counts 0 0 0 0 verdict gap:0\n\
        b end coef cost lower upper haslow hasup rhs ops amount mult\n\
        c open 11\n";
    let mut out = String::new();
    for block in parse(text).unwrap() {
        answer(&mut Reference, &block, false, &mut out);
    }
    assert_eq!(out, expected);
}

#[test]
fn scripts_reach_every_target() {
    for seed in [1, 2] {
        let mut tally = Tally::default();
        let scale = oracle_sheet::generate::Scale {
            short: 300,
            ..WHOLE
        };
        blocks(seed, &scale, &mut |block| tally.see(&block));
        let mut wanted = targets();
        wanted.extend(short_targets());
        let mut out = String::new();
        let (_, failed) = report(&tally, &wanted, &mut out);
        assert_eq!(failed, 0, "{out}");
    }
}

#[test]
fn scripts_name_cells_that_are_lent() {
    // A driver may lend exactly the needed kept cells and the written plan cells.
    blocks(1, &WHOLE, &mut |block| {
        for step in &block.steps {
            match step {
                Step::Poke(array, index, _) => assert!(*index < block.sheet.length(*array)),
                Step::Keep(array, cells) => assert_eq!(cells.len(), block.sheet.length(*array)),
                Step::Edit(_) => {}
                Step::Short(..) => panic!("not in the exchange format"),
            }
        }
    });
}
