//! Journals: edits that are taken back, replays in pieces, every refusal.

mod common;

use common::Rng;
use tevalumi::raw::limits::BLOCK;
use tevalumi::sheet::{Edit, Entry, Feed, Figures, Journal, Refusal, Sheet};
use tevalumi::ComparisonOp;

fn n5() -> Sheet {
    Sheet::open(&Figures {
        rows: 1,
        columns: 2,
        coefs: vec![1, 1],
        costs: vec![-3, -1],
        lowers: vec![Some(0), Some(0)],
        uppers: vec![None, Some(2)],
        rhs: vec![4],
        ops: vec![ComparisonOp::Le],
        amounts: vec![4, 0],
        mults: vec![-3072],
    })
    .unwrap()
}

fn any_edit(rng: &mut Rng) -> Edit {
    let (column, to) = (rng.below(2), rng.between(-3, 9));
    match rng.below(9) {
        0 => Edit::Amount { column, to },
        1 => Edit::Cost { column, to },
        2 => Edit::Lower { column, to },
        3 => Edit::Upper { column, to },
        4 => Edit::Right { row: 0, to },
        5 => Edit::Coefficient { row: 0, column, to },
        6 => Edit::Multiplier { row: 0, to },
        7 => Edit::DropLower { column },
        _ => Edit::DropUpper { column },
    }
}

/// Any edits, refused ones among them, and as many undos: every sheet on the way comes back.
#[test]
fn undos_go_back_the_same_way() {
    let mut rng = Rng(3);
    for _ in 0..40 {
        let mut sheet = n5();
        let mut journal = Journal::new(4);
        let mut before = Vec::new();
        for _ in 0..50 {
            let was = sheet.clone();
            match sheet.edit_journaled(any_edit(&mut rng), &mut journal) {
                Ok(()) => before.push(was),
                Err(refusal) => {
                    assert_eq!(refusal, Refusal::CrossedBounds);
                    assert_eq!(sheet, was);
                }
            }
        }
        assert_eq!(journal.entries().len(), before.len());
        let mut again = n5();
        again.replay(journal.file()).unwrap();
        assert_eq!(again, sheet);
        while let Some(was) = before.pop() {
            sheet.undo(&mut journal).unwrap();
            assert_eq!(sheet, was);
        }
        assert_eq!(sheet.undo(&mut journal), Err(Refusal::NothingToUndo));
        assert_eq!(journal.file(), Journal::new(1).file());
    }
}

#[test]
fn what_an_entry_has() {
    let mut sheet = n5();
    let mut journal = Journal::new(2);
    let coefficient = Edit::Coefficient {
        row: 0,
        column: 1,
        to: -2,
    };
    for edit in [
        coefficient,
        Edit::Upper { column: 0, to: 7 },
        Edit::DropUpper { column: 1 },
    ] {
        sheet.edit_journaled(edit, &mut journal).unwrap();
    }
    let entry = |kind, column, old, new, before| Entry {
        kind,
        row: 0,
        column,
        old,
        new,
        before,
    };
    let wanted = [
        entry(6, 1, 1, -2, true),
        entry(4, 0, 0, 7, false),
        entry(9, 1, 2, 0, true),
    ];
    assert_eq!(journal.entries(), wanted);
    assert_eq!(journal.file().len(), 2 * BLOCK);
}

#[test]
fn a_full_journal() {
    let edit = |to| Edit::Amount { column: 0, to };
    for blocks in [1, 2, 3] {
        let mut sheet = n5();
        let mut journal = Journal::new(blocks);
        for to in 0..22 * (blocks as i64 - 1) {
            sheet.edit_journaled(edit(to), &mut journal).unwrap();
        }
        let was = (sheet.clone(), journal.clone());
        assert_eq!(
            sheet.edit_journaled(edit(1), &mut journal),
            Err(Refusal::JournalFull)
        );
        assert_eq!(
            sheet.edit_journaled(edit(1 << 17), &mut journal),
            Err(Refusal::BadNumber)
        );
        assert_eq!((sheet.clone(), journal.clone()), was);
        // Room behind the file makes it longer.
        let mut longer = Journal::from_bytes(journal.file(), 1);
        sheet.edit_journaled(edit(1), &mut longer).unwrap();
        assert_eq!(longer.entries().len(), 22 * (blocks - 1) + 1);
    }
}

#[test]
fn pieces_cut_anywhere() {
    let mut rng = Rng(4);
    let mut sheet = n5();
    let mut journal = Journal::new(3);
    while journal.entries().len() < 25 {
        let _ = sheet.edit_journaled(any_edit(&mut rng), &mut journal);
    }
    let file = journal.file();
    for cut in 0..file.len() {
        let (mut again, mut feed) = (n5(), Feed::new());
        again.feed(&file[..cut], &mut feed).unwrap();
        assert_eq!(feed.close(), Err(Refusal::MisplacedBlock));
        again.feed(&file[cut..], &mut feed).unwrap();
        assert_eq!(feed.close(), Ok(()));
        assert_eq!(again, sheet);
    }
}

/// Every byte changed of a journal: each call refuses it, and nothing changes.
#[test]
fn damaged_journals() {
    let mut sheet = n5();
    let mut journal = Journal::new(2);
    for to in 0..3 {
        sheet
            .edit_journaled(Edit::Amount { column: 0, to }, &mut journal)
            .unwrap();
    }
    let was = sheet.clone();
    for at in 0..2 * BLOCK {
        let mut file = journal.file().to_vec();
        file[at] ^= 1;
        let refusal = match at % BLOCK {
            0 => Refusal::UnknownBlock,
            _ => Refusal::WrongCheck,
        };
        let mut bad = Journal::from_bytes(&file, 1);
        let same = bad.clone();
        assert_eq!(sheet.undo(&mut bad), Err(refusal));
        let edit = Edit::Amount { column: 0, to: 9 };
        assert_eq!(sheet.edit_journaled(edit, &mut bad), Err(refusal));
        assert_eq!((&sheet, &bad), (&was, &same));
        // In a replay what came before stays: the first block's entries.
        let mut again = n5();
        assert_eq!(again.replay(&file), Err(refusal));
        assert_eq!(again == n5(), at < BLOCK);
    }
    assert_eq!(
        sheet.undo(&mut Journal::from_bytes(&[], 0)),
        Err(Refusal::MisplacedBlock)
    );
}

/// 36: an edit that isn't in the journal came between.
#[test]
fn what_disagrees() {
    let mut sheet = n5();
    let mut journal = Journal::new(2);
    let edit = |to| Edit::Amount { column: 0, to };
    sheet.edit_journaled(edit(3), &mut journal).unwrap();
    sheet.edit(edit(2)).unwrap();
    assert_eq!(sheet.undo(&mut journal), Err(Refusal::Disagrees));
    assert_eq!(sheet.replay(journal.file()), Err(Refusal::Disagrees));
    sheet.edit(edit(3)).unwrap();
    sheet.undo(&mut journal).unwrap();
    assert_eq!(sheet, n5());
}
