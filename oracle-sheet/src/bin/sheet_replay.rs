//! The data of the program `replay_sheets`: words in, the reference's answers out.
//!
//!     sheet_replay DIR
//!
//! Writes DIR/stdin and DIR/stdout. What is replayed is taken from the fixed list: the night cases, and
//! of each kind of answer the first that are short.

use std::collections::BTreeSet;
use std::path::Path;
use std::process::ExitCode;

use oracle_sheet::reference::{verdict, Edit, Verdict, COLUMNS, ROWS};
use oracle_sheet::{
    answer, parse, play, Array, Block, Moment, Reference, Step, KEPT_ARRAYS, PLAN_ARRAYS,
};

const SHEETS: &str = include_str!("../../fixed-sheets.txt");
/// The night cases come first.
const NIGHT: usize = 6;
/// The longest block that is taken, in words.
const SHORT: usize = 1_200;
/// The number that stands for an edit where an array's would stand.
const EDIT: u64 = 15;

fn main() -> ExitCode {
    let args: Vec<String> = std::env::args().skip(1).collect();
    let done = match args.as_slice() {
        [dir] => run(Path::new(dir)),
        _ => Err("takes a folder".to_string()),
    };
    match done {
        Ok(()) => ExitCode::SUCCESS,
        Err(err) => {
            eprintln!("sheet_replay: {err}");
            ExitCode::from(2)
        }
    }
}

fn run(dir: &Path) -> Result<(), String> {
    let mut seen = BTreeSet::new();
    let (mut count, mut words, mut lines) = (0u64, vec![], String::new());
    for (index, block) in parse(SHEETS)?.iter().enumerate() {
        if !fits(block) {
            continue;
        }
        let block_words = words_of(block);
        let kinds = kinds(block);
        let new = block_words.len() <= SHORT && !kinds.is_subset(&seen);
        if index < NIGHT || new {
            seen.extend(kinds);
            count += 1;
            words.extend(block_words);
            lines.push_str(&unnamed(block));
        }
    }
    let mut bytes = count.to_le_bytes().to_vec();
    bytes.extend(words.iter().flat_map(|word: &u64| word.to_le_bytes()));
    std::fs::create_dir_all(dir)
        .and_then(|()| std::fs::write(dir.join("stdin"), bytes))
        .and_then(|()| std::fs::write(dir.join("stdout"), lines))
        .map_err(|err| format!("{}: {err}", dir.display()))
}

/// What a block reaches: the opening's answer, each edit's kind with its answer, and that no plan exists.
fn kinds(block: &Block) -> BTreeSet<(u64, u8)> {
    let mut kinds = BTreeSet::new();
    play(block, &mut |moment| {
        let sheet = match moment {
            Moment::Opened(status, sheet) => {
                kinds.insert((u64::MAX, status));
                sheet
            }
            Moment::Edited(_, edit, status, sheet) => {
                kinds.insert((edit.kind, status));
                sheet
            }
            Moment::Ended(_) => return,
        };
        if verdict(sheet) == Verdict::NoneExists {
            kinds.insert((u64::MAX - 1, 0));
        }
    });
    kinds
}

/// Whether the program's arrays have the room: they are as long as the limits.
fn fits(block: &Block) -> bool {
    let most = |array| match array {
        Array::Coef => ROWS * COLUMNS,
        Array::Rhs | Array::Ops | Array::Mult => ROWS,
        _ => COLUMNS,
    };
    let short = |step: &Step| matches!(step, Step::Short(..));
    !block.steps.iter().any(short)
        && PLAN_ARRAYS
            .iter()
            .all(|&array| block.sheet.length(array) as u64 <= most(array))
}

/// The answer lines without the name that each begins with.
fn unnamed(block: &Block) -> String {
    let mut lines = String::new();
    answer(&mut Reference, block, false, &mut lines);
    let line = |line: &str| {
        line.split_once(' ')
            .map_or("", |(_, rest)| rest)
            .to_string()
            + "\n"
    };
    lines.lines().map(line).collect()
}

fn words_of(block: &Block) -> Vec<u64> {
    let sheet = &block.sheet;
    let mut opened = false;
    play(block, &mut |moment| {
        if let Moment::Opened(status, _) = moment {
            opened = status == 0;
        }
    });
    // After a refused opening no step is tried.
    let steps: Vec<[u64; 5]> = block
        .steps
        .iter()
        .filter(|_| opened)
        .flat_map(step_words)
        .collect();
    let mut words = vec![sheet.rows, sheet.columns, steps.len() as u64];
    for array in PLAN_ARRAYS {
        words.push(sheet.length(array) as u64);
        words.extend((0..sheet.length(array)).map(|index| sheet.read(array, index) as u64));
    }
    words.extend(steps.iter().flatten());
    words
}

/// A line that overwrites kept cells is a step for each.
fn step_words(step: &Step) -> Vec<[u64; 5]> {
    let poke = |array: Array, index: usize, number: i64| {
        [number_of(array), index as u64, 0, 0, number as u64]
    };
    match step {
        Step::Keep(array, cells) => cells
            .iter()
            .enumerate()
            .map(|(index, &cell)| poke(*array, index, cell))
            .collect(),
        Step::Poke(array, index, cell) => vec![poke(*array, *index, *cell)],
        Step::Edit(Edit {
            kind,
            row,
            column,
            number,
        }) => vec![[EDIT, *kind, *row, *column, *number as u64]],
        Step::Short(..) => vec![],
    }
}

fn number_of(array: Array) -> u64 {
    let mut arrays = PLAN_ARRAYS.iter().chain(KEPT_ARRAYS.iter());
    arrays.position(|&a| a == array).unwrap_or_default() as u64
}
