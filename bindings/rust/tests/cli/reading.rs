//! Files as people have them: marks, line ends, other alphabets, packed ones, large ones.

use std::fs::{self, File};
use std::process::{Command, Stdio};
use std::time::{Duration, Instant};

use crate::cli::plan::{Fault, Plan};
use crate::cli::source::{read, Format, Progress};
use crate::program::program;

const TUNNELS: &str = include_str!("../../plans/two-tunnels.mps");

fn plan(bytes: &[u8]) -> Plan {
    let plans = read(bytes, Format::Auto, false).expect("a plan");
    plans.into_iter().next().expect("one")
}

fn fault(bytes: &[u8]) -> Fault {
    read(bytes, Format::Auto, false).expect_err("a fault")
}

/// What is lent, and the names.
fn same(a: &Plan, b: &Plan) -> bool {
    (
        &a.costs,
        &a.cols,
        &a.coeffs,
        &a.rhs,
        &a.column_names,
        &a.row_names,
        &a.name,
    ) == (
        &b.costs,
        &b.cols,
        &b.coeffs,
        &b.rhs,
        &b.column_names,
        &b.row_names,
        &b.name,
    )
}

#[test]
fn marks_and_line_ends() {
    let wanted = plan(TUNNELS.as_bytes());
    for text in [
        format!("\u{feff}{TUNNELS}"),
        TUNNELS.replace('\n', "\r\n"),
        TUNNELS.replace('\n', "\r"),
        format!("\u{feff}{}", TUNNELS.replace('\n', "\r")),
    ] {
        let read = plan(text.as_bytes());
        assert!(same(&read, &wanted), "{text:?}");
        assert_eq!(read.notes, wanted.notes);
    }
    let wide: Vec<u8> = TUNNELS.encode_utf16().flat_map(u16::to_le_bytes).collect();
    let marked = [&[0xff, 0xfe][..], &wide].concat();
    assert_eq!(
        fault(&marked).what,
        "the file is UTF-16; expected UTF-8 or Latin-1"
    );
    // A fault's line is that of the file, whatever ends its lines.
    let wrong = TUNNELS.replace("air 9", "air nine");
    let lines: Vec<usize> = ["\n", "\r\n", "\r"]
        .map(|end| fault(wrong.replace('\n', end).as_bytes()).line)
        .to_vec();
    assert_eq!(lines, [10, 10, 10]);
}

/// Two names that differ in a byte that isn't UTF-8 are two names.
#[test]
fn latin_names() {
    let text = TUNNELS.replace("north", "fr?h").replace("south", "fr!h");
    let bytes: Vec<u8> = text
        .bytes()
        .map(|b| match b {
            b'?' => 0xfc,
            b'!' => 0xf6,
            b => b,
        })
        .collect();
    let read = plan(&bytes);
    assert_eq!(read.column_names, ["fr\u{fc}h", "fr\u{f6}h"]);
    assert_eq!(
        read.notes,
        ["The file isn't UTF-8: it is read as Latin-1, so that different names stay different."]
    );
}

#[test]
fn a_maximum_in_a_comment() {
    let text = format!("* Objective:  cost (MAXimum)\n{TUNNELS}");
    let note = "A comment says that the objective is a maximum, but the file has no OBJSENSE and is minimised: --max may be meant.";
    assert_eq!(plan(text.as_bytes()).notes, [note]);
    let said = text.replace("ROWS", "OBJSENSE MAX\nROWS");
    assert!(plan(said.as_bytes()).notes.is_empty());
}

#[test]
fn sections_of_lp_that_are_not_read() {
    for (section, name) in [
        ("SOS", "SOS"),
        ("sos2", "SOS"),
        ("Semi-Continuous", "Semi-Continuous"),
        ("Lazy Constraints", "Lazy Constraints"),
        ("User Cuts", "User Cuts"),
        ("General Constraints", "General Constraints"),
        ("PWLObj", "PWLObj"),
        ("Multi-Objectives", "Multi-Objectives"),
    ] {
        let text = format!("max x\nst\n x <= 4\n{section}\n s1: x\nend\n");
        let what = format!("section {name} isn't read: it is no part of a linear program");
        assert_eq!(fault(text.as_bytes()).what, what);
    }
}

/// Only at the start of a line is it a section.
#[test]
fn names_that_look_like_sections() {
    let read =
        plan(b"max 3 sos + semi\nst\n c1: sos + user + lazy <= 4\n semi - sos <= 1\nbounds\n 0 <= sos <= 3\nend\n");
    assert_eq!(read.column_names, ["sos", "semi", "user", "lazy"]);
    assert_eq!(read.uppers[0], 3.0);
}

/// As GLPK and Clp read it: the lower bound stays 0.
#[test]
fn a_negative_upper_bound_in_lp() {
    for (bounds, wanted) in [
        ("x <= -3", (0.0, -3.0)),
        ("-3 >= x", (0.0, -3.0)),
        ("x >= -9\n x <= -3", (-9.0, -3.0)),
        ("x <= -3\n x >= -9", (-9.0, -3.0)),
        ("-inf <= x <= -3", (f64::NEG_INFINITY, -3.0)),
        ("x free\n x <= -3", (f64::NEG_INFINITY, -3.0)),
    ] {
        let text = format!("min x\nst\n x >= -10\nbounds\n {bounds}\nend\n");
        let read = plan(text.as_bytes());
        assert_eq!((read.lowers[0], read.uppers[0]), wanted, "{bounds}");
    }
    let told = crate::run(
        &["solve", "t.lp"],
        b"min x\nst\n x >= -10\nbounds\n x <= -3\nend\n",
    );
    assert!(
        told.out
            .contains("4, refused: column x has the lower bound 0 above the upper bound -3."),
        "{}",
        told.out
    );
}

/// What the program says of a file, and its exit status.
fn said(words: &[&str]) -> (Option<i32>, String, String) {
    let output = program().args(words).output().expect("the program runs");
    let text = |bytes: &[u8]| String::from_utf8_lossy(bytes).into_owned();
    (
        output.status.code(),
        text(&output.stdout),
        text(&output.stderr),
    )
}

#[test]
fn packed_and_large_files() {
    let folder = std::env::temp_dir().join(format!("tevalumi-reading-{}", std::process::id()));
    fs::create_dir_all(&folder).expect("a folder");
    let name = |file: &str| {
        folder
            .join(file)
            .to_str()
            .expect("a plain name")
            .to_string()
    };
    let plain = name("plan.mps");
    fs::write(&plain, TUNNELS).expect("written");
    let wanted = said(&["solve", &plain]);
    assert_eq!(wanted.0, Some(0));
    let packed = |from: &str, to: &str| {
        let out = File::create(to).expect("created");
        let status = Command::new("gzip")
            .args(["-c", from])
            .stdout(Stdio::from(out))
            .status();
        status.is_ok_and(|status| status.success())
    };
    // Debian has gzip everywhere; without it the program says what it lacks.
    let gz = name("plan.mps.gz");
    assert!(packed(&plain, &gz));
    assert_eq!(said(&["solve", &gz]), wanted);
    let mut damaged = fs::read(&gz).expect("read");
    let middle = damaged.len() / 2;
    damaged[middle] ^= 0x55;
    fs::write(name("bad.gz"), damaged).expect("written");
    let (exit, out, err) = said(&["solve", &name("bad.gz")]);
    assert_eq!((exit, out.as_str()), (Some(2), ""));
    assert!(
        err.contains("is packed by gzip, and can't be unpacked: "),
        "{err}"
    );

    // A comment of 2 MB, plain and packed.
    let large = name("large.mps");
    fs::write(&large, format!("* {}\n{TUNNELS}", "x".repeat(2 << 20))).expect("written");
    let large_gz = name("large.mps.gz");
    assert!(packed(&large, &large_gz));
    for file in [&large, &large_gz] {
        assert_eq!(said(&["solve", file, "--max-size", "3"]).1, wanted.1);
        let (exit, _, err) = said(&["solve", file, "--max-size=2"]);
        assert_eq!(exit, Some(2));
        assert!(
            err.ends_with("is larger than 2 MB; --max-size allows more\n"),
            "{err}"
        );
    }
    assert!(said(&["solve", &plain, "--max-size", "0"])
        .2
        .contains("expected 1 to 4000 (MB)"));
    fs::remove_dir_all(&folder).expect("removed");
}

/// A line a second, and none in the first one.
#[test]
fn how_far_a_long_file_is_read() {
    let mut progress = Progress::new();
    // A little later than the reading began, so that a second from then is more than its first one.
    let start = Instant::now();
    let mut said =
        |lines, tenths: u64| progress.said(lines, start + Duration::from_millis(100 * tenths));
    assert_eq!(said(1, 5), None);
    let ten = said(10, 10).expect("a second has gone by");
    assert_eq!(ten, "tevalumi: reading, 10 lines so far\n");
    assert_eq!((said(11, 10), said(12, 19)), (None, None));
    assert!(said(20, 20).is_some_and(|text| text.contains(" 20 lines")));
}

/// Reading takes a few times the file's size at most, whatever stands in it. The plans are far over the
/// sizes, and every entry is read.
#[test]
fn memory_in_proportion() {
    let lp = |i: usize| format!(" row{i}: x{} + 2 y{} + 3 z <= {i}\n", i % 500, i % 700);
    let lp: String = (0..60_000).map(lp).collect();
    let lp = format!("Minimize\n obj: x0\nSubject To\n{lp}End\n");
    let kinds: String = (0..500).map(|i| format!(" L row{i}\n")).collect();
    let entry = |k: usize| format!(" x{} row{} {k}\n", k / 100, k % 100);
    let entries: String = (0..100_000).map(entry).collect();
    let mps = format!("NAME large\nROWS\n N c\n{kinds}COLUMNS\n{entries}RHS\nENDATA\n");
    for text in [lp, mps] {
        let before = memory::start();
        let plans = read(text.as_bytes(), Format::Auto, false).expect("read");
        let peak = memory::peak() - before;
        assert!(plans[0].entries > 90_000);
        println!("reading {} bytes takes {peak} at most", text.len());
        assert!(peak < 8 * text.len() as isize, "{peak} for {}", text.len());
    }
}

/// What this thread holds at a time, so that other tests don't count.
pub mod memory {
    use std::alloc::{GlobalAlloc, Layout, System};
    use std::cell::Cell;

    thread_local! {
        static NOW: Cell<isize> = const { Cell::new(0) };
        static PEAK: Cell<isize> = const { Cell::new(0) };
    }

    fn count(by: isize) {
        let now = NOW.get() + by;
        NOW.set(now);
        PEAK.set(PEAK.get().max(now));
    }

    /// What is held now; the peak begins here.
    pub fn start() -> isize {
        PEAK.set(NOW.get());
        NOW.get()
    }

    pub fn peak() -> isize {
        PEAK.get()
    }

    pub struct Counting;

    // SAFETY: every call goes to the system's allocator as it came.
    unsafe impl GlobalAlloc for Counting {
        unsafe fn alloc(&self, layout: Layout) -> *mut u8 {
            count(layout.size() as isize);
            System.alloc(layout)
        }

        unsafe fn dealloc(&self, at: *mut u8, layout: Layout) {
            count(-(layout.size() as isize));
            System.dealloc(at, layout)
        }
    }
}
