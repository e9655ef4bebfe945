//! Nothing crashes on any file: damaged copies of good ones are read, solved, audited and asked why
//! there is no plan.

use crate::{run, Rng};

const GOOD: [&[u8]; 8] = [
    include_bytes!("data/blanks.mps"),
    include_bytes!("data/highs.mps"),
    include_bytes!("data/whole.mps"),
    include_bytes!("data/gateway.lp"),
    include_bytes!("data/night.txt"),
    include_bytes!("data/peers/glpsol-free.mps"),
    include_bytes!("data/peers/glpsol-fixed.mps"),
    include_bytes!("data/peers/clp.mps"),
];

/// Words that readers of numbers and sections may stumble over.
const WORDS: [&str; 32] = [
    "1e400",
    "-1e400",
    "nan",
    "inf",
    "-inf",
    "1e-320",
    "0",
    "-0",
    "1e20",
    "-1e30",
    "+",
    "-",
    ".",
    "e5",
    "1e",
    "18446744073709551616",
    "99999999999999999999",
    "ROWS",
    "COLUMNS",
    "RHS",
    "RANGES",
    "BOUNDS",
    "ENDATA",
    "OBJSENSE",
    "'MARKER'",
    "'INTORG'",
    "end",
    "plan",
    "free",
    "<=",
    ":",
    "7ff8000000000000",
];

/// The gate does 100,000: `TEVALUMI_DAMAGED=100000 cargo test --release --test cli damage`.
fn files() -> u64 {
    let wanted = std::env::var("TEVALUMI_DAMAGED").ok();
    wanted.and_then(|n| n.parse().ok()).unwrap_or(5_000)
}

#[test]
fn damaged_files() {
    let files = files();
    let threads = std::thread::available_parallelism().map_or(1, |n| n.get() as u64);
    let parts = std::thread::scope(|scope| {
        let part = |first: u64| scope.spawn(move || some_files(first, files, threads));
        let parts: Vec<_> = (0..threads).map(part).collect();
        let parts = parts.into_iter().map(|part| part.join().expect("no panic"));
        parts.collect::<Vec<(u64, u64)>>()
    });
    let (read, solved) = parts
        .iter()
        .fold((0, 0), |sum, part| (sum.0 + part.0, sum.1 + part.1));
    println!("{files} damaged files: {read} could be read, {solved} were solved");
    // Damage that no file survives, or that every file survives, would show little.
    assert!(read > files / 10 && read < files * 9 / 10);
    assert!(solved > files / 20);
}

/// Every `step`th file: how many could be read, and how many were solved.
fn some_files(first: u64, files: u64, step: u64) -> (u64, u64) {
    let (mut read, mut solved) = (0, 0);
    for seed in (first..files).step_by(step as usize) {
        let mut rng = Rng(seed);
        let mut file = GOOD[rng.below(GOOD.len())].to_vec();
        for _ in 0..=rng.below(2) {
            damage(&mut file, &mut rng);
        }
        let words: &[&str] = match rng.below(7) {
            5 => &[
                "solve", "damaged", "--relax", "--json", "--html", "p", "--sol", "s",
            ],
            6 => &["audit", "damaged", "--relax", "--json", "--html", "p"],
            0 => &["audit", "damaged", "--relax"],
            1 => &["solve", "damaged", "--relax", "--json", "--bits"],
            2 => &["audit", "damaged", "--relax", "--json", "--max"],
            3 => &["why", "damaged", "--relax", "--json"],
            _ => &["solve", "damaged", "--relax", "--bits"],
        };
        let told = run(words, &file);
        check(seed, &told, words.contains(&"--json"));
        read += u64::from(told.exit != 2);
        solved += u64::from([0, 4].contains(&told.exit) && words[0] != "why");
    }
    (read, solved)
}

pub fn check(seed: u64, told: &crate::cli::Outcome, json: bool) {
    match told.exit {
        0 | 1 | 3 | 4 => assert!(
            told.err.is_empty() && told.out.contains("status"),
            "seed {seed}: {told:?}"
        ),
        2 => assert!(
            told.err.starts_with("tevalumi: damaged:"),
            "seed {seed}: {told:?}"
        ),
        other => panic!("seed {seed}: exit status {other}"),
    }
    if json {
        for line in told.out.lines() {
            assert_eq!(
                json_end(line.as_bytes(), 0),
                Some(line.len()),
                "seed {seed}: {line}"
            );
        }
    }
}

pub fn damage(file: &mut Vec<u8>, rng: &mut Rng) {
    let at = rng.below(file.len() + 1);
    match rng.below(16) {
        // A byte, any at all.
        0 if at < file.len() => file[at] = rng.next() as u8,
        1 => file.insert(at, rng.next() as u8),
        // A stretch goes.
        2 => {
            let to = (at + rng.below(40)).min(file.len());
            file.drain(at..to);
        }
        // The end goes.
        3 if rng.below(4) == 0 => file.truncate(at),
        // A stretch twice, or from elsewhere.
        4 => {
            let to = (at + rng.below(60)).min(file.len());
            let stretch = file[at..to].to_vec();
            let place = rng.below(file.len() + 1);
            file.splice(place..place, stretch);
        }
        // Two lines change places, or one stands twice.
        5 => lines(file, rng),
        // A piece of another file.
        6 if rng.below(4) == 0 => {
            let other = GOOD[rng.below(GOOD.len())];
            let from = rng.below(other.len());
            let to = (from + rng.below(80)).min(other.len());
            file.splice(at..at, other[from..to].iter().copied());
        }
        7 | 8 => word(file, rng, |_| true),
        // A number becomes another: the file can be read, the plan is another.
        _ => word(file, rng, |word| word.parse::<f64>().is_ok()),
    }
}

fn lines(file: &mut Vec<u8>, rng: &mut Rng) {
    let mut lines: Vec<&[u8]> = file.split(|&b| b == b'\n').collect();
    let (a, b) = (rng.below(lines.len()), rng.below(lines.len()));
    if rng.below(2) == 0 {
        lines.swap(a, b);
    } else {
        lines.insert(a, lines[b]);
    }
    *file = lines.join(&b'\n');
}

/// One of the words that are meant becomes another.
fn word(file: &mut Vec<u8>, rng: &mut Rng, meant: fn(&str) -> bool) {
    let blank = |b: &u8| b.is_ascii_whitespace();
    for _ in 0..20 {
        let at = rng.below(file.len());
        let start = file[..at].iter().rposition(blank).map_or(0, |i| i + 1);
        let rest = file[start..].iter().position(blank);
        let end = rest.map_or(file.len(), |n| start + n);
        let old = String::from_utf8_lossy(&file[start..end]);
        if !meant(&old) {
            continue;
        }
        let new = match rng.below(6) {
            0 => WORDS[rng.below(WORDS.len())].to_string(),
            1 => format!("{:016x}", rng.next()),
            2 => rng.within(-100_000, 100_000).to_string(),
            3 => format!("{}e{}", rng.within(-9, 9), rng.within(-300, 300)),
            _ => rng.within(-20, 20).to_string(),
        };
        file.splice(start..end, new.into_bytes());
        return;
    }
}

/// Where the JSON value at `at` ends, if there is one.
fn json_end(text: &[u8], at: usize) -> Option<usize> {
    match text.get(at)? {
        b'{' => json_items(text, at + 1, b'}', |text, at| {
            let colon = json_string(text, at)?;
            (text.get(colon) == Some(&b':')).then_some(())?;
            json_end(text, colon + 1)
        }),
        b'[' => json_items(text, at + 1, b']', json_end),
        b'"' => json_string(text, at),
        b'n' => text[at..].starts_with(b"null").then_some(at + 4),
        _ => {
            let sign = |b: &u8| b.is_ascii_digit() || b"+-.eE".contains(b);
            let length = text[at..].iter().take_while(|b| sign(b)).count();
            let number = std::str::from_utf8(&text[at..at + length]).ok()?;
            number.parse::<f64>().ok().map(|_| at + length)
        }
    }
}

fn json_items(
    text: &[u8],
    mut at: usize,
    close: u8,
    one: impl Fn(&[u8], usize) -> Option<usize>,
) -> Option<usize> {
    if text.get(at) == Some(&close) {
        return Some(at + 1);
    }
    loop {
        at = one(text, at)?;
        match text.get(at)? {
            b',' => at += 1,
            b if *b == close => return Some(at + 1),
            _ => return None,
        }
    }
}

fn json_string(text: &[u8], at: usize) -> Option<usize> {
    (text.get(at) == Some(&b'"')).then_some(())?;
    let mut i = at + 1;
    loop {
        match text.get(i)? {
            b'"' => return Some(i + 1),
            b'\\' => i += 2,
            b if *b < 0x20 => return None,
            _ => i += 1,
        }
    }
}
