//! The audit sheet's calls, its files and journals, beside the reference in 128-bit numbers (`oracle-sheet`): sheets of
//! the largest size, one nonzero in twenty.

use oracle_sheet::file;
use oracle_sheet::journal;
use oracle_sheet::reference::{self, Edit, Sheet};
use tevalumi::raw::{begin_journal, limits, Feed, FiguresMut, SheetMut, Verdict};

use crate::race::{Case, Made, Prepared, Repeated, Set, Side, LIBRARY, ORACLE};
use crate::sheets::{self, Arrangement};

/// Sheets of each arrangement.
const COUNT: usize = 12;
/// Nonzeros in a hundred.
const PERCENT: usize = 5;
/// The edits of one timed call, at as many places.
const EDITS: usize = 16;
/// The journaled ones: two full blocks.
const JOURNALED: usize = 2 * journal::ENTRIES;

/// Each kind of edit, in the header's order.
const KINDS: [&str; 9] = [
    "amount",
    "cost",
    "lower",
    "upper",
    "right side",
    "coefficient",
    "multiplier",
    "drop a lower",
    "drop an upper",
];

/// The library's memory of a sheet.
#[derive(Clone, PartialEq)]
pub struct Book {
    rows: usize,
    columns: usize,
    numbers: [Vec<i64>; 7],
    marks: [Vec<u8>; 3],
    kept: [Vec<i64>; 5],
}

impl Book {
    pub fn of(sheet: &Sheet) -> Book {
        let (rows, columns) = (sheet.rows as usize, sheet.columns as usize);
        let numbers = [
            &sheet.coef,
            &sheet.cost,
            &sheet.lower,
            &sheet.upper,
            &sheet.rhs,
            &sheet.amount,
            &sheet.mult,
        ];
        Book {
            rows,
            columns,
            numbers: numbers.map(Vec::clone),
            marks: [&sheet.haslow, &sheet.hasup, &sheet.ops].map(Vec::clone),
            kept: [rows, columns, 1, 1, 4].map(|cells| vec![0; cells]),
        }
    }

    pub fn lend(&mut self) -> SheetMut<'_> {
        let [coefs, costs, lowers, uppers, rhs, amounts, mults] = &mut self.numbers;
        let [lower_marks, upper_marks, ops] = &mut self.marks;
        let [r, d, c, b, counts] = &mut self.kept;
        SheetMut {
            rows: self.rows,
            columns: self.columns,
            coefs,
            costs,
            lowers,
            uppers,
            lower_marks,
            upper_marks,
            rhs,
            ops,
            amounts,
            mults,
            r,
            d,
            c,
            b,
            counts,
        }
    }

    pub fn open(&mut self) {
        self.lend().open().expect("the sheet is within its limits");
    }

    pub fn edit(&mut self, edit: Edit) {
        let [kind, row, column] = [edit.kind, edit.row, edit.column].map(|word| word as usize);
        let mut lent = self.lend();
        let edited = lent.edit(kind, row, column, edit.number);
        edited.expect("the edit is within the limits");
    }

    pub fn edit_journaled(&mut self, edit: Edit, journal: &mut [u8]) {
        let [kind, row, column] = [edit.kind, edit.row, edit.column].map(|word| word as usize);
        let mut lent = self.lend();
        let edited = lent.edit_journaled(kind, row, column, edit.number, journal);
        edited.expect("the journal has room");
    }

    pub fn undo(&mut self, journal: &mut [u8]) {
        self.lend().undo(journal).expect("the journal has entries");
    }

    /// A whole journal's file, with a feed that begins.
    pub fn feed(&mut self, file: &[u8], feed: &mut Feed) {
        let fed = self.lend().feed(file, feed);
        fed.and_then(|()| feed.close()).expect("a whole journal");
    }

    pub fn verdict(&mut self) -> Verdict {
        self.lend().verdict().expect("an opened sheet has one")
    }

    pub fn write(&mut self, file: &mut [u8]) -> usize {
        let written = self.lend().borrow().write_plan(file);
        written.expect("the file has room")
    }

    pub fn read(&mut self, file: &[u8]) {
        let [coefs, costs, lowers, uppers, rhs, amounts, mults] = &mut self.numbers;
        let [lower_marks, upper_marks, ops] = &mut self.marks;
        let mut figures = FiguresMut {
            coefs,
            costs,
            lowers,
            uppers,
            lower_marks,
            upper_marks,
            rhs,
            ops,
            amounts,
            mults,
        };
        figures.read_plan(file).expect("a file that was written");
    }

    /// Where it isn't the reference's sheet, cell by cell.
    fn differs(&self, sheet: &Sheet) -> Option<String> {
        let mut theirs = Book::of(sheet);
        let kept = &sheet.kept;
        let lists = [&kept.r[..], &kept.d, &[kept.c], &[kept.b], &kept.counts];
        theirs.kept = lists.map(|list| list.iter().map(|&cell| cell as i64).collect());
        (*self != theirs).then(|| "a cell differs from the reference's".to_string())
    }
}

/// The sheets as the reference has them, opened.
pub fn opened() -> Vec<Sheet> {
    let arranged = [Arrangement::Stairs, Arrangement::Scattered];
    let all = arranged.map(|arrangement| sheets::all(arrangement, PERCENT, COUNT));
    let mut opened = vec![];
    for made in all.into_iter().flatten() {
        let mut sheet = Sheet {
            rows: sheets::ROWS as u64,
            columns: sheets::COLUMNS as u64,
            coef: made.coefs,
            cost: made.costs,
            lower: made.lowers,
            upper: made.uppers,
            haslow: made.marks.clone(),
            hasup: made.marks,
            rhs: made.rhs,
            ops: made.ops,
            amount: made.amounts,
            mult: made.mults,
            ..Sheet::default()
        };
        sheet.lend_kept();
        assert_eq!(reference::open(&mut sheet), 0, "within the limits");
        opened.push(sheet);
    }
    opened
}

/// Edits of this kind at so many places, each to a number that isn't there.
pub fn edits(kind: usize, count: usize) -> Vec<Edit> {
    let edit = |at: usize| Edit {
        kind: kind as u64,
        row: (at * 5 % sheets::ROWS) as u64,
        column: (at * 7 % sheets::COLUMNS) as u64,
        number: match kind {
            3 => -(1 << 15),
            4 => 1 << 15,
            8 | 9 => 0,
            _ => at as i64 - 50,
        },
    };
    (0..count).map(edit).collect()
}

/// A case for each sheet, whose two sides leave the same cells.
fn set<'a>(
    name: String,
    each: usize,
    sheets: &'a [Sheet],
    case: impl Fn(&'a Sheet) -> (Case<'a>, Option<String>),
) -> Made<'a> {
    let mut set = Set::new(name, &[LIBRARY, ORACLE]);
    set.each = each;
    let mut differ = vec![];
    for (at, sheet) in sheets.iter().enumerate() {
        let (mut case, how) = case(sheet);
        case.id = format!("sheet.{at}");
        differ.extend(how.map(|how| format!("{}, {}: {how}", set.name, case.id)));
        set.cases.push(case);
    }
    set.made(differ)
}

fn both<'a>(library: Side<'a>, oracle: Side<'a>) -> Case<'a> {
    Case {
        id: String::new(),
        sides: vec![library, oracle],
    }
}

/// The sets of the sheet's own calls.
pub fn sheet_sets(sheets: &[Sheet]) -> Vec<Made<'_>> {
    let mut sets = vec![set("sheet: open".into(), 1, sheets, opening)];
    for (at, name) in KINDS.into_iter().enumerate() {
        let name = format!("sheet: edit {}, {name}", at + 1);
        sets.push(set(name, EDITS, sheets, |sheet| {
            editing(sheet, edits(at + 1, EDITS))
        }));
    }
    sets.push(set("sheet: verdict".into(), 1, sheets, judging));
    sets
}

/// The sets of files and journals.
pub fn file_sets(sheets: &[Sheet]) -> Vec<Made<'_>> {
    let mut sets = vec![
        set("file: write a plan".into(), 1, sheets, writing),
        set("file: read a plan".into(), 1, sheets, reading),
    ];
    for (name, what) in [
        ("journal: edit", Journaled::Edit),
        ("journal: undo", Journaled::Undo),
        ("journal: feed", Journaled::Feed),
    ] {
        sets.push(set(name.into(), JOURNALED, sheets, |sheet| {
            journaling(sheet, what)
        }));
    }
    sets
}

fn opening(sheet: &Sheet) -> (Case<'_>, Option<String>) {
    let (mut book, mut theirs) = (Book::of(sheet), sheet.clone());
    book.open();
    let differs = book.differs(sheet);
    let library = Repeated(move || book.open());
    let oracle = Repeated(move || {
        reference::open(&mut theirs);
    });
    (both(Side::new(0, library), Side::new(0, oracle)), differs)
}

fn judging(sheet: &Sheet) -> (Case<'_>, Option<String>) {
    let mut book = Book::of(sheet);
    book.open();
    let (ours, theirs) = (book.verdict(), reference::verdict(sheet));
    let alike = match ours {
        Verdict::NotAPlan => theirs == reference::Verdict::NoPlan,
        Verdict::NoFloor => theirs == reference::Verdict::NoFloor,
        Verdict::Gap(gap) => theirs == reference::Verdict::Gap(gap.into()),
        Verdict::NoneExists => theirs == reference::Verdict::NoneExists,
    };
    let differs = (!alike).then(|| format!("library {ours:?}, reference {theirs:?}"));
    let library = Repeated(move || {
        std::hint::black_box(book.verdict());
    });
    let oracle = Repeated(move || {
        std::hint::black_box(reference::verdict(sheet));
    });
    (both(Side::new(0, library), Side::new(0, oracle)), differs)
}

fn editing(sheet: &Sheet, edits: Vec<Edit>) -> (Case<'_>, Option<String>) {
    let mut opened = Book::of(sheet);
    opened.open();
    let (mut book, mut theirs) = (opened.clone(), sheet.clone());
    for &edit in &edits {
        book.edit(edit);
        reference::edit(&mut theirs, edit);
    }
    let differs = book.differs(&theirs);
    let ours = edits.clone();
    let library = Prepared {
        memory: book,
        prepare: move |book: &mut Book| book.clone_from(&opened),
        call: move |book: &mut Book| ours.iter().for_each(|&edit| book.edit(edit)),
    };
    let oracle = Prepared {
        memory: theirs,
        prepare: |theirs: &mut Sheet| theirs.clone_from(sheet),
        call: move |theirs: &mut Sheet| {
            for &edit in &edits {
                reference::edit(theirs, edit);
            }
        },
    };
    (both(Side::new(0, library), Side::new(0, oracle)), differs)
}

fn writing(sheet: &Sheet) -> (Case<'_>, Option<String>) {
    let mut book = Book::of(sheet);
    let mut bytes = vec![0; limits::FILE];
    let written = book.write(&mut bytes);
    let theirs = file::write(sheet, limits::FILE);
    let differs = (theirs.as_deref() != Ok(&bytes[..written])).then(|| "the files differ".into());
    let library = Repeated(move || {
        std::hint::black_box(book.write(&mut bytes));
    });
    let oracle = Repeated(|| {
        std::hint::black_box(file::write(sheet, limits::FILE)).expect("it was written before");
    });
    (both(Side::new(0, library), Side::new(0, oracle)), differs)
}

fn reading(sheet: &Sheet) -> (Case<'_>, Option<String>) {
    let bytes = file::write(sheet, limits::FILE).expect("an opened sheet is written");
    let mut blank = sheet.clone();
    blank.coef.fill(0);
    let (mut book, mut theirs) = (Book::of(&blank), blank);
    book.read(&bytes);
    file::read(&bytes, &mut theirs).expect("it was written");
    let differs = (book != Book::of(&theirs)).then(|| "what is read differs".into());
    let again = bytes.clone();
    let library = Repeated(move || book.read(&bytes));
    let oracle = Repeated(move || {
        file::read(&again, &mut theirs).expect("it was read before");
    });
    (both(Side::new(0, library), Side::new(0, oracle)), differs)
}

#[derive(Clone, Copy, PartialEq)]
enum Journaled {
    Edit,
    Undo,
    Feed,
}

/// Edits of every kind into a journal, all of them back, or the journal's file fed to the sheet before them.
fn journaling(sheet: &Sheet, what: Journaled) -> (Case<'_>, Option<String>) {
    let list: Vec<Edit> = (0..JOURNALED)
        .map(|at| edits(1 + at % KINDS.len(), at + 1)[at])
        .collect();
    let mut before = (
        Book::of(sheet),
        vec![0; (2 + JOURNALED / journal::ENTRIES) * journal::BLOCK],
    );
    before.0.open();
    begin_journal(&mut before.1).expect("a block is lent");
    let mut theirs = (sheet.clone(), before.1.clone());
    let mut after = before.clone();
    for &edit in &list {
        after.0.edit_journaled(edit, &mut after.1);
        journal::edit(&mut theirs.0, &mut theirs.1, edit);
    }
    let differs = after.0.differs(&theirs.0);
    let differs = differs.or((after.1 != theirs.1).then(|| "the journals differ".into()));
    let their_start = (sheet.clone(), before.1.clone());
    let (start, their_start) = match what {
        Journaled::Undo => (after.clone(), theirs.clone()),
        Journaled::Edit => (before, their_start),
        Journaled::Feed => (
            (before.0, after.1.clone()),
            (sheet.clone(), after.1.clone()),
        ),
    };
    let end = (1 + JOURNALED / journal::ENTRIES) * journal::BLOCK;
    let ours = list.clone();
    let library = Prepared {
        memory: after,
        prepare: move |(book, bytes): &mut (Book, Vec<u8>)| {
            book.clone_from(&start.0);
            bytes.copy_from_slice(&start.1);
        },
        call: move |(book, bytes): &mut (Book, Vec<u8>)| match what {
            Journaled::Edit => ours
                .iter()
                .for_each(|&edit| book.edit_journaled(edit, bytes)),
            Journaled::Undo => ours.iter().for_each(|_| book.undo(bytes)),
            Journaled::Feed => book.feed(&bytes[..end], &mut Feed::new()),
        },
    };
    let oracle = Prepared {
        memory: theirs,
        prepare: move |theirs: &mut (Sheet, Vec<u8>)| theirs.clone_from(&their_start),
        call: move |(sheet, bytes): &mut (Sheet, Vec<u8>)| match what {
            Journaled::Edit => list.iter().for_each(|&edit| {
                journal::edit(sheet, bytes, edit);
            }),
            Journaled::Undo => list.iter().for_each(|_| {
                journal::undo(sheet, bytes);
            }),
            Journaled::Feed => {
                let mut cells = [0; 4];
                journal::feed(&bytes[..end], sheet, &mut [0; journal::BLOCK], &mut cells);
                assert_eq!(journal::close(&cells), 0, "a whole journal");
            }
        },
    };
    (both(Side::new(0, library), Side::new(0, oracle)), differs)
}
