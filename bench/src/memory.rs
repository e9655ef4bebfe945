//! What each call of the library is lent at most, and the deepest that it was seen to touch of its stack.

use std::ffi::c_void;

use tevalumi::raw::{begin_journal, limits, sections, Feed};

use crate::books::{self, Book};
use crate::ffi;
use crate::nights;
use crate::plans;
use crate::sides::Library;
use crate::table::thousands;

extern "C" {
    fn bench_touched(call: extern "C" fn(*mut c_void), memory: *mut c_void) -> usize;
}

/// Bytes of stack that a call touches, past what a thread that does nothing touches.
fn touched(mut call: impl FnMut()) -> usize {
    extern "C" fn run(call: *mut c_void) {
        // SAFETY: `touched` hands over its own closure, and waits for the thread.
        let call = unsafe { &mut *call.cast::<&mut dyn FnMut()>() };
        call();
    }
    let measure = |mut call: &mut dyn FnMut()| {
        // SAFETY: the pointer is used before this returns.
        unsafe { bench_touched(run, (&raw mut call).cast()) }
    };
    measure(&mut call) - measure(&mut || {})
}

/// A call, the bytes that it is lent to be read and to be written, at the largest sizes, and its stack.
struct Seen {
    name: &'static str,
    read: usize,
    written: usize,
    stack: usize,
}

impl Seen {
    fn new(name: &'static str, read: usize, written: usize) -> Seen {
        Seen {
            name,
            read,
            written,
            stack: 0,
        }
    }

    /// The deepest so far.
    fn call(&mut self, call: impl FnMut()) {
        self.stack = self.stack.max(touched(call));
    }
}

const WORD: usize = 8;
const ROWS: usize = limits::ROWS;
const COLUMNS: usize = limits::COLUMNS;
/// A plan's arrays: costs and bounds, row starts, entries, comparisons, right sides.
const PLAN: usize = WORD * (3 * COLUMNS + (ROWS + 1) + 2 * limits::ENTRIES + ROWS) + ROWS;
/// The state and its factor.
const STATE: usize = WORD
    * (sections::NUMBERS + sections::DOUBLES + sections::FACTOR_NUMBERS + sections::FACTOR_COEFFS);
const VALUES: usize = WORD * (COLUMNS + ROWS);
/// A sheet's ten arrays of the plan, of which the comparisons alone aren't edited, and its kept numbers.
const FIGURES: usize = WORD * (ROWS * COLUMNS + 4 * COLUMNS + 2 * ROWS) + 2 * COLUMNS + ROWS;
const KEPT: usize = WORD * (ROWS + COLUMNS + 6);
/// A triangle's starts, entries and diagonal.
const TRIANGLE: usize = WORD * (ROWS + 1 + 2 * limits::TRIANGLE_ENTRIES + ROWS);
/// A journal of two full blocks, as the benchmark has it.
const JOURNAL: usize = 4 * limits::BLOCK;
/// What a feed is lent beside the sheet.
const FEED: usize = limits::BLOCK + WORD * 4;
/// A night's whole numbers: two stages, what is handed out, the second stage's coefficients.
const WHOLE: usize = WORD * driver::nights::reference::WHOLE;

/// Prints the table; nothing can fail.
pub fn tell() -> usize {
    let mut all = plan_calls();
    all.extend(sheet_calls());
    all.extend(triangle_calls());
    all.extend(whole_calls());
    println!("| call | lent to be read | lent to be written | stack |\n|---|---|---|---|");
    for seen in &all {
        let bytes = [seen.read, seen.written, seen.stack].map(thousands);
        println!("| `tevalumi_{}` | {} |", seen.name, bytes.join(" | "));
    }
    0
}

/// Every plan of the benchmark, and a column held and let go: the first basic one, at half its value.
fn plan_calls() -> Vec<Seen> {
    let mut solve = Seen::new("solve", PLAN, VALUES + STATE);
    let mut fix = Seen::new("fix", PLAN, VALUES + STATE);
    let mut unfix = Seen::new("unfix", PLAN, VALUES + STATE);
    let (mut reprice, mut any) = (
        Seen::new("reprice", PLAN, VALUES + STATE),
        Seen::new("solve_any", PLAN, VALUES + STATE),
    );
    for plans in [plans::gateway(), plans::long(), plans::dual()] {
        for plan in &plans {
            let mut library = Library::new(plan);
            solve.call(|| assert!(library.solve(plan).optimal()));
            {
                let mut other = plan.clone();
                other.cost.reverse();
                let mut memory = Library::new(plan);
                memory.take(&library);
                reprice.call(|| {
                    memory.reprice(&other);
                });
                any.call(|| memory.solve_any(plan));
            }
            let basic = (0..plan.columns as usize).find(|&column| library.stands(column).1);
            if let Some(column) = basic {
                let value = (library.stands(column).0 / 2.0).floor();
                let held = value.max(plan.lower[column]);
                fix.call(|| assert!(!library.fix(plan, column, held).refused()));
                if library.solved() {
                    unfix.call(|| assert!(!library.unfix(plan, column).refused()));
                }
            }
        }
    }
    vec![solve, fix, unfix, reprice, any]
}

/// Every sheet of the benchmark, with an edit of each kind.
fn sheet_calls() -> Vec<Seen> {
    let edited = FIGURES - ROWS + KEPT;
    let mut open = Seen::new("open", FIGURES, KEPT);
    let mut verdict = Seen::new("verdict", FIGURES + KEPT, 0);
    let mut edit = Seen::new("edit", ROWS, edited);
    let mut write = Seen::new("write_plan", FIGURES, limits::FILE);
    let mut read = Seen::new("read_plan", limits::FILE, FIGURES);
    let mut begin = Seen::new("journal_begin", 0, JOURNAL);
    let mut journaled = Seen::new("journal_edit", ROWS, edited + JOURNAL);
    let mut undo = Seen::new("journal_undo", ROWS, edited + JOURNAL);
    let mut feed = Seen::new("journal_feed", ROWS + JOURNAL, edited + FEED);
    let mut close = Seen::new("journal_close", WORD * 4, 0);
    for sheet in books::opened() {
        let mut book = Book::of(&sheet);
        open.call(|| book.open());
        verdict.call(|| {
            book.verdict();
        });
        let mut file = vec![0; limits::FILE];
        write.call(|| {
            book.write(&mut file);
        });
        read.call(|| book.read(&file));
        let mut journal = vec![0; JOURNAL];
        begin.call(|| begin_journal(&mut journal).expect("four blocks are lent"));
        let before = book.clone();
        for kind in 1..=9 {
            let one = books::edits(kind, kind)[kind - 1];
            journaled.call(|| book.edit_journaled(one, &mut journal));
        }
        let (mut fed, mut cells) = (before.clone(), Box::new(Feed::new()));
        feed.call(|| fed.feed(&journal[..2 * limits::BLOCK], &mut cells));
        for _ in 1..=9 {
            undo.call(|| book.undo(&mut journal));
        }
        for kind in 1..=9 {
            let one = books::edits(kind, kind)[kind - 1];
            edit.call(|| book.edit(one));
        }
    }
    close.call(|| {
        ffi::tevalumi_journal_close(&[0; 4]);
    });
    vec![
        open, verdict, edit, write, read, begin, journaled, undo, feed, close,
    ]
}

/// A chain of as many places as there may be, so that the walk is as deep as it can be; upwards the same, turned round.
fn triangle_calls() -> Vec<Seen> {
    let values = WORD * ROWS;
    let mut lower_sparse = Seen::new("lower_sparse", TRIANGLE, 2 * values);
    let mut upper_sparse = Seen::new("upper_sparse", TRIANGLE, 2 * values);
    let mut lower_dense = Seen::new("lower_dense", TRIANGLE, values);
    let mut upper_dense = Seen::new("upper_dense", TRIANGLE, values);
    let mut both = Seen::new("solve_dense", 2 * TRIANGLE, values);
    let entries = ROWS - 1;
    // Column j has row j + 1 below it, or row j - 1 above it.
    let below: Vec<usize> = (0..=ROWS).map(|column| column.min(entries)).collect();
    let above: Vec<usize> = (0..=ROWS).map(|column| column.saturating_sub(1)).collect();
    let (down, up): (Vec<usize>, Vec<usize>) = (0..entries).map(|row| (row + 1, row)).unzip();
    let (coeffs, none) = (vec![1.0; entries], []);
    let mut list = vec![0; ROWS];
    let mut b = vec![1.0; ROWS];
    lower_sparse.call(|| {
        let told = ffi::tevalumi_lower_sparse(
            ROWS, entries, &below, &down, &coeffs, 0, &none, &mut list, 1, &mut b,
        );
        assert_eq!(told.status, 0, "a triangle");
    });
    list[0] = ROWS - 1;
    upper_sparse.call(|| {
        let told = ffi::tevalumi_upper_sparse(
            ROWS, entries, &above, &up, &coeffs, 0, &none, &mut list, 1, &mut b,
        );
        assert_eq!(told.status, 0, "a triangle");
    });
    lower_dense.call(|| {
        let told =
            ffi::tevalumi_lower_dense(ROWS, entries, &below, &down, &coeffs, 0, &none, &mut b);
        assert_eq!(told.status, 0, "a triangle");
    });
    upper_dense.call(|| {
        let told = ffi::tevalumi_upper_dense(ROWS, entries, &above, &up, &coeffs, 0, &none, &mut b);
        assert_eq!(told.status, 0, "a triangle");
    });
    both.call(|| {
        let told = ffi::tevalumi_solve_dense(
            ROWS, entries, &below, &down, &coeffs, 0, &none, entries, &above, &up, &coeffs, 0,
            &none, &mut b,
        );
        assert_eq!(told.status, 0, "a triangle");
    });
    vec![lower_sparse, upper_sparse, lower_dense, upper_dense, both]
}

/// The benchmark's nights, and the proposal from each plan's run.
fn whole_calls() -> Vec<Seen> {
    let mut amount = Seen::new("amount", 0, 0);
    let mut multiplier = Seen::new("multiplier", 0, 0);
    let read = WORD * (ROWS + 1) + ROWS + VALUES + WORD * (sections::NUMBERS + sections::DOUBLES);
    let mut propose = Seen::new("propose", read, WORD * (COLUMNS + ROWS));
    let plan = FIGURES - WORD * ROWS;
    let mut night = Seen::new("night", plan, VALUES + WORD + STATE + WHOLE);
    amount.call(|| {
        ffi::tevalumi_amount(2.5);
    });
    multiplier.call(|| {
        ffi::tevalumi_multiplier(0, 2.5);
    });
    for plan in &plans::gateway() {
        let mut library = Library::new(plan);
        library.solve(plan);
        let (mut amounts, mut mults) = (vec![0; COLUMNS], vec![0; ROWS]);
        propose.call(|| assert!(library.propose(plan, &mut amounts, &mut mults)));
    }
    for one in &nights::all() {
        let mut lent = nights::Lent::new(one);
        night.call(|| {
            assert_eq!(lent.run(one).status, 0, "every array is long enough");
        });
    }
    vec![amount, multiplier, propose, night]
}
