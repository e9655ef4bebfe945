//! The data of the programs `replay_triangles` and `replay_plans`: words in, the oracle's answers out.
//!
//! replay triangles|plans DIR
//!
//! Writes DIR/stdin and DIR/stdout. What is replayed is taken from the fixed lists, and for kinds of
//! triangles that they lack from the seeded ones: the first few of each kind.

use std::collections::BTreeMap;
use std::fs;
use std::path::Path;
use std::process::ExitCode;

use oracle::answer::{Answer, Outcome};
use oracle::exchange::{answer_line, tri_answer_line, Extras, Item, Reader};
use oracle::families::{factorings, of_both_kinds};
use oracle::plan::Plan;
use oracle::shown::{Correction, Options};
use oracle::tri::{Tri, TriAnswer};
use oracle::{gate, limits, tri, tri_families};

const TRIANGLES: &str = include_str!("../../fixed-tri.txt");
const NIGHT: &str = include_str!("../../night.txt");
const PLANS: &str = include_str!("../../fixed.txt");

/// The programs' arrays have so many cells past the limits.
const PAST: u64 = 16;
/// The longest plan and the longest triangle that is taken, in words.
const SHORT: usize = 400;
const LONG: usize = 1_500;

fn main() -> ExitCode {
    let args: Vec<String> = std::env::args().skip(1).collect();
    let done = match args.as_slice() {
        [what, dir] if what == "triangles" => {
            triangles().and_then(|list| write(Path::new(dir), &list))
        }
        [what, dir] if what == "plans" => plans().and_then(|list| write(Path::new(dir), &list)),
        _ => Err("replay takes triangles or plans, and a folder".to_string()),
    };
    match done {
        Ok(()) => ExitCode::SUCCESS,
        Err(err) => {
            eprintln!("replay: {}", err);
            ExitCode::from(2)
        }
    }
}

/// Blocks of words and a line for each.
type List = Vec<(Vec<u64>, String)>;

fn write(dir: &Path, list: &List) -> Result<(), String> {
    let mut bytes = (list.len() as u64).to_le_bytes().to_vec();
    let mut lines = String::new();
    for (words, line) in list {
        bytes.extend(words.iter().flat_map(|word| word.to_le_bytes()));
        lines.push_str(line);
        lines.push('\n');
    }
    fs::create_dir_all(dir)
        .and_then(|()| fs::write(dir.join("stdin"), bytes))
        .and_then(|()| fs::write(dir.join("stdout"), lines))
        .map_err(|err| format!("{}: {}", dir.display(), err))
}

fn read(text: &str) -> Result<Vec<Item>, String> {
    Reader::new(text.as_bytes()).collect()
}

/// An answer line without the name that it begins with.
fn unnamed(line: &str) -> String {
    line.split_once(' ')
        .map_or("", |(_, rest)| rest)
        .to_string()
}

fn push(words: &mut Vec<u64>, cells: impl ExactSizeIterator<Item = u64>) {
    words.push(cells.len() as u64);
    words.extend(cells);
}

fn push_doubles(words: &mut Vec<u64>, cells: &[f64]) {
    push(words, cells.iter().map(|cell| cell.to_bits()));
}

/// How many of each kind are taken.
struct Few<K> {
    most: usize,
    taken: BTreeMap<K, usize>,
}

impl<K: Ord> Few<K> {
    fn new(most: usize) -> Few<K> {
        Few {
            most,
            taken: BTreeMap::new(),
        }
    }

    fn takes(&mut self, kind: K) -> bool {
        let taken = self.taken.entry(kind).or_default();
        *taken += 1;
        *taken <= self.most
    }
}

fn triangles() -> Result<List, String> {
    let mut few = Few::new(2);
    let mut list = vec![];
    let mut see = |tri: &Tri| {
        let answer = tri::solve(tri);
        let words = tri_words(tri);
        if words.len() <= LONG && tri_fits(tri) && few.takes(tri_kind(tri, &answer)) {
            let mut line = unnamed(&tri_answer_line(&tri.id, &answer));
            // The dense solve has no list to refuse, and refuses all else alike.
            if matches!(answer.status, 1 | 2) {
                line.push_str(&format!(" dense {}", answer.status));
            }
            list.push((words, line));
        }
    };
    for item in read(TRIANGLES)? {
        if let Item::Tri(tri) = item {
            see(&tri);
        }
    }
    tri_families::make(1, &mut |tri| see(&tri));
    Ok(list)
}

fn tri_fits(tri: &Tri) -> bool {
    let places = (limits::TRI_PLACES + PAST) as usize;
    let entries = (limits::TRI_ENTRIES + PAST) as usize;
    let diag = tri.diag.as_ref().map_or(0, Vec::len);
    let most = tri.starts.len().max(diag).max(tri.list.len());
    most <= places && tri.rows.len().max(tri.vals.len()) <= entries
}

/// Side, diagonal, answer, sort of size, and what numbers come out.
fn tri_kind(tri: &Tri, answer: &TriAnswer) -> (bool, bool, u8, u64, bool, bool) {
    let size = match tri.size {
        0 | 1 => tri.size,
        2..=8 => 2,
        9..limits::TRI_PLACES => 9,
        limits::TRI_PLACES => 96,
        _ => 97,
    };
    let any = |test: &dyn Fn(&f64) -> bool| answer.sparse.iter().chain(&answer.dense).any(test);
    let (nan, infinite) = (any(&|x| x.is_nan()), any(&|x| x.is_infinite()));
    (
        tri.upper,
        tri.diag.is_some(),
        answer.status,
        size,
        nan,
        infinite,
    )
}

/// As the driver lends it: unlisted places hold NaN for the sparse solve and 0.0 for the dense one.
fn tri_words(tri: &Tri) -> Vec<u64> {
    let size = tri.size.min(limits::TRI_PLACES + PAST) as usize;
    let mut list = tri.list.clone();
    list.resize(size.max(tri.list.len()), 0);
    let mut values = vec![f64::NAN; size];
    let mut all = vec![0.0; size];
    for (i, &place) in tri.list.iter().enumerate() {
        if place < size as u64 {
            let val = tri.lvals.get(i).copied().unwrap_or(f64::NAN);
            values[place as usize] = val;
            all[place as usize] = val;
        }
    }
    let mut words = vec![
        u64::from(!tri.upper),
        tri.size,
        tri.entries,
        u64::from(tri.diag.is_some()),
        tri.list.len() as u64,
    ];
    push(&mut words, tri.starts.iter().copied());
    push(&mut words, tri.rows.iter().copied());
    push_doubles(&mut words, &tri.vals);
    push_doubles(&mut words, tri.diag.as_deref().unwrap_or(&[]));
    push(&mut words, list.into_iter());
    push_doubles(&mut words, &values);
    push_doubles(&mut words, &all);
    words
}

fn plans() -> Result<List, String> {
    let mut few = Few::new(2);
    let mut list = vec![];
    for (item, night) in read(NIGHT)?
        .into_iter()
        .map(|item| (item, true))
        .chain(read(PLANS)?.into_iter().map(|item| (item, false)))
    {
        let Item::Plan(plan) = item else { continue };
        if plan.any {
            continue;
        }
        let answer = gate::solve(&plan, Options::default());
        let words = plan_words(&plan);
        let kind = plan_kind(&plan, &answer);
        if plan_fits(&plan) && (night || words.len() <= SHORT && few.takes(kind)) {
            let extras = Extras {
                state: true,
                ..Extras::default()
            };
            list.push((words, unnamed(&answer_line(&plan.id, &answer, extras))));
        }
    }
    Ok(list)
}

/// Number, sort of place, what its reason is, whether it arose on a flip, steps up to 4, for a 2 whether
/// it is 02's, whether a column is left at neither bound with a price of about EPS or less, where 02's
/// filter decides, how often the basis was factored, up to 2, and whether the run had dual steps, or was
/// to have one, and both kinds.
type Kind = (
    u8,
    String,
    Option<&'static str>,
    bool,
    u64,
    bool,
    bool,
    usize,
    (bool, bool),
);

fn plan_kind(plan: &Plan, answer: &Answer) -> Kind {
    let line = answer_line("", answer, Extras::default());
    let place = line.split(' ').nth(2).unwrap_or_default();
    let shown = gate::solve(plan, Options::showing(Correction::Wild));
    (
        answer.outcome.number(),
        place.chars().take(1).collect(),
        answer.outcome.why(),
        matches!(answer.outcome, Outcome::NotFinite { flip: true, .. }),
        answer.steps.min(4),
        shown.outcome.number() != answer.outcome.number(),
        answer.state.as_ref().is_some_and(|state| {
            let mut places = state.flags.iter().zip(&state.price);
            places.any(|(&flags, price)| flags == 0 && price.abs() < 2e-8)
        }),
        factorings(answer).min(2),
        (
            (answer.state.as_ref()).is_some_and(|state| state.dual_steps > 0 || state.in_dual),
            of_both_kinds(answer),
        ),
    )
}

/// The program lends every array that a solve writes whole, so plans that want them short are left out.
fn plan_fits(plan: &Plan) -> bool {
    let columns = (limits::COLUMNS + PAST) as usize;
    let rows = (limits::ROWS + PAST) as usize;
    let entries = (limits::ENTRIES + PAST) as usize;
    let by_column = [plan.cost.len(), plan.lower.len(), plan.upper.len()];
    let by_row = [plan.starts.len(), plan.ops.len(), plan.rhs.len()];
    by_column.iter().all(|&length| length <= columns)
        && by_row.iter().all(|&length| length <= rows)
        && plan.cols.len().max(plan.coef.len()) <= entries
        && plan.ops.iter().all(|&op| op <= 255)
        && plan.short.is_empty()
        && plan.room.is_none()
}

fn plan_words(plan: &Plan) -> Vec<u64> {
    let mut words = vec![
        plan.columns,
        plan.rows,
        plan.entries,
        plan.budget,
        plan.tolerance.to_bits(),
    ];
    push_doubles(&mut words, &plan.cost);
    push_doubles(&mut words, &plan.lower);
    push_doubles(&mut words, &plan.upper);
    push(&mut words, plan.starts.iter().copied());
    push(&mut words, plan.cols.iter().copied());
    push_doubles(&mut words, &plan.coef);
    push(&mut words, plan.ops.iter().copied());
    push_doubles(&mut words, &plan.rhs);
    words
}
