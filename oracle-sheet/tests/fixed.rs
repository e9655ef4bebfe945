//! The fixed list: it begins with N5, the reference still gives its answers, and it is wide
//! enough to be worth replaying.

use oracle_sheet::generate::{night_sheet, NIGHT};
use oracle_sheet::{answer, parse, play, Moment, Reference};
use std::collections::BTreeSet;

const SHEETS: &str = include_str!("../fixed-sheets.txt");
const ANSWERS: &str = include_str!("../fixed-sheets.answers");

#[test]
fn the_reference_gives_the_listed_answers() {
    let mut out = String::new();
    for block in parse(SHEETS).unwrap() {
        answer(&mut Reference, &block, false, &mut out);
    }
    for (number, (ours, listed)) in out.lines().zip(ANSWERS.lines()).enumerate() {
        assert_eq!(ours, listed, "line {}", number + 1);
    }
    assert_eq!(out, ANSWERS);
}

#[test]
fn the_night_cases_come_first() {
    let blocks = parse(SHEETS).unwrap();
    for (block, (id, amount, mult)) in blocks.iter().zip(NIGHT) {
        assert_eq!(block.id, id);
        assert_eq!(block.sheet, night_sheet(amount, mult));
        assert!(block.steps.is_empty());
    }
    let first: Vec<&str> = ANSWERS
        .lines()
        .filter(|line| line.contains(" open "))
        .take(5)
        .collect();
    assert_eq!(
        first,
        [
            "N5.1 open 0 R 4 D 0 2048 C -12 B -12288 counts 0 0 0 0 verdict gap:0",
            "N5.2 open 0 R 4 D 1024 3072 C -12 B -16384 counts 0 0 0 0 verdict gap:4096",
            "N5.3 open 0 R 4 D -1024 1024 C -12 B -8192 counts 0 0 0 1 verdict no-floor",
            "N5.4 open 0 R 3 D 0 2048 C -9 B -12288 counts 0 0 0 0 verdict gap:3072",
            "N5.5 open 0 R 5 D 0 2048 C -15 B -12288 counts 1 0 0 0 verdict no-plan",
        ]
    );
}

#[test]
fn every_answer_of_every_kind_is_in_it() {
    let mut seen = BTreeSet::new();
    let mut openings = BTreeSet::new();
    for block in parse(SHEETS).unwrap() {
        play(&block, &mut |moment| match moment {
            Moment::Opened(status, _) => {
                openings.insert(status);
            }
            Moment::Edited(_, edit, status, _) => {
                seen.insert((edit.kind.min(33), status));
            }
            Moment::Ended(_) => {}
        });
    }
    assert_eq!(openings, BTreeSet::from([0, 11, 12, 13]));
    for kind in 1..=9 {
        for status in [0, 11, 14] {
            assert!(seen.contains(&(kind, status)), "kind {kind}, {status}");
        }
        assert_eq!(seen.contains(&(kind, 12)), kind <= 7);
        assert_eq!(seen.contains(&(kind, 13)), kind == 3 || kind == 4);
    }
    for kind in 10..=31 {
        assert!(seen.contains(&(kind, 15)), "kind {kind}");
    }
    for kind in [0, 32, 33] {
        assert!(seen.contains(&(kind, 16)), "kind {kind}");
    }
}

#[test]
fn verdicts_and_limits_are_in_it() {
    let verdicts: BTreeSet<&str> = ANSWERS
        .lines()
        .filter_map(|line| line.split(" verdict ").nth(1))
        .map(|verdict| verdict.split(':').next().unwrap())
        .collect();
    assert_eq!(
        verdicts,
        BTreeSet::from(["14", "none", "no-plan", "no-floor", "gap"])
    );
    // R, D, C and B at exactly their sizes.
    let mut seen = [false; 4];
    for block in parse(SHEETS).unwrap() {
        play(&block, &mut |moment| {
            if let Moment::Edited(_, _, _, sheet) = moment {
                let kept = &sheet.kept;
                seen[0] |= kept.r.iter().any(|r| r.abs() == 1 << 35);
                seen[1] |= kept.d.iter().any(|d| d.abs() == 1 << 39);
                seen[2] |= kept.c.abs() == 1 << 43;
                seen[3] |= kept.b.abs() == 1 << 62;
            }
        });
    }
    assert_eq!(seen, [true; 4]);
}
