//! What audits of seeded whole-number plans end in: the sheet's verdicts, counted.

use std::fs;

use tevalumi::proposals::best;
use tevalumi::sheet::Verdict;

use crate::cli::audit::{figures, Costs};
use crate::cli::source::{read, Format};
use crate::{peers, run, Rng};

/// A plan's columns and rows while it is made. Each column starts where its cost wants it, so that a
/// right side can be put where the start keeps the row.
#[derive(Default)]
struct Made {
    columns: Vec<Column>,
    rows: String,
    rhs: String,
    places: usize,
}

struct Column {
    start: i64,
    entries: String,
    bounds: String,
}

impl Made {
    fn column(&mut self, cost: i64, lower: Option<i64>, upper: Option<i64>) -> usize {
        let j = self.columns.len();
        let wanted = if cost < 0 {
            upper.or(lower)
        } else {
            lower.or(upper)
        };
        let low = match lower {
            Some(lower) => format!(" LO B x{j} {lower}\n"),
            None => format!(" MI B x{j}\n"),
        };
        let high = upper.map_or(String::new(), |upper| format!(" UP B x{j} {upper}\n"));
        self.columns.push(Column {
            start: wanted.unwrap_or(0),
            entries: format!(" x{j} cost {cost}\n"),
            bounds: low + &high,
        });
        j
    }

    /// A row of this kind (L, G or E) that the start keeps with so much to spare.
    fn row(&mut self, kind: &str, entries: &[(usize, i64)], spare: i64) {
        let i = self.places;
        self.places += 1;
        let mut activity = 0;
        for &(j, a) in entries.iter().filter(|&&(_, a)| a != 0) {
            activity += a * self.columns[j].start;
            self.columns[j].entries += &format!(" x{j} r{i} {a}\n");
        }
        let right = match kind {
            "L" => activity + spare,
            "G" => activity - spare,
            _ => activity,
        };
        self.rows += &format!(" {kind} r{i}\n");
        self.rhs += &format!(" R r{i} {right}\n");
    }

    fn mps(&self) -> String {
        let all = |of: fn(&Column) -> &String| -> String {
            self.columns.iter().map(|c| of(c).as_str()).collect()
        };
        format!(
            "NAME made\nROWS\n N cost\n{}COLUMNS\n{}RHS\n{}BOUNDS\n{}ENDATA\n",
            self.rows,
            all(|c| &c.entries),
            self.rhs,
            all(|c| &c.bounds)
        )
    }
}

/// Alarms with an upper bound, soil reports with a backlog row, masts, and the air of a quarter hour.
fn night_like(rng: &mut Rng) -> Made {
    let mut made = Made::default();
    let units = rng.within(4, 30) as usize;
    let (mut air, mut masts) = (Vec::new(), vec![Vec::new(); 4]);
    for unit in 0..units {
        let repeats = if unit % 4 == 3 { 2 } else { 1 };
        if rng.below(3) > 0 {
            let alarm = made.column(-rng.within(1, 9), Some(0), Some(rng.within(50, 900)));
            air.push((alarm, repeats));
            masts[unit % 4].push((alarm, 1));
        }
        let soil = made.column(-rng.within(2, 40), Some(0), None);
        air.push((soil, repeats));
        masts[unit % 4].push((soil, 1));
        made.row("L", &[(soil, 1)], rng.within(300, 3_000));
    }
    made.row("L", &air, rng.within(50, 700) * units as i64);
    for mast in masts.iter().filter(|mast| !mast.is_empty()) {
        made.row("L", mast, rng.within(100, 900) * mast.len() as i64);
    }
    made
}

/// Some entries of a row: each column with a chance of 1 in `of`.
fn some(rng: &mut Rng, columns: usize, of: usize, low: i64, high: i64) -> Vec<(usize, i64)> {
    let mut entries = Vec::new();
    for j in 0..columns {
        if rng.below(of) == 0 {
            entries.push((j, rng.within(low, high)));
        }
    }
    entries
}

fn at_most(rng: &mut Rng) -> Made {
    let mut made = Made::default();
    let columns = rng.within(2, 30) as usize;
    for _ in 0..columns {
        let lower = if rng.below(4) == 0 {
            rng.within(-200, 200)
        } else {
            0
        };
        let upper = lower + rng.within(20, 300);
        let upper = (rng.below(3) == 0).then_some(upper);
        made.column(rng.within(-90, 30), Some(lower), upper);
    }
    // One row over all, so that few plans fall without end.
    let all: Vec<(usize, i64)> = (0..columns).map(|j| (j, rng.within(1, 9))).collect();
    made.row("L", &all, rng.within(1_000, 30_000));
    for _ in 0..rng.within(0, 19) {
        let entries = some(rng, columns, 2, -9, 30);
        made.row("L", &entries, rng.within(100, 50_000));
    }
    made
}

/// Columns that begin at their upper bounds and go down as far as the rows let them, and others that
/// can take their part.
fn covering(rng: &mut Rng) -> Made {
    let mut made = Made::default();
    let columns = rng.within(2, 30) as usize;
    for _ in 0..columns {
        let cost = rng.within(1, 90);
        match rng.below(2) {
            0 => made.column(cost, None, Some(rng.within(100, 5_000))),
            _ => made.column(cost, Some(0), Some(rng.within(10, 150))),
        };
    }
    made.column(rng.within(1, 90), None, Some(rng.within(1_000, 5_000)));
    let all: Vec<(usize, i64)> = (0..=columns).map(|j| (j, rng.within(1, 20))).collect();
    made.row("G", &all, rng.within(0, 9_000));
    for _ in 0..rng.within(0, 15) {
        let entries = some(rng, columns + 1, 2, 1, 20);
        made.row("G", &entries, rng.within(0, 9_000));
    }
    made
}

/// Covering as people write it: no amount is below 0, and the start keeps no row.
fn covering_from_nothing(rng: &mut Rng) -> Made {
    let mut made = Made::default();
    let columns = rng.within(2, 30) as usize;
    for _ in 0..columns {
        made.column(rng.within(1, 90), Some(0), None);
    }
    for _ in 0..rng.within(1, 15) {
        let mut entries = some(rng, columns, 2, 1, 20);
        entries.push((0, 1));
        entries.sort_unstable();
        entries.dedup_by_key(|entry| entry.0);
        made.row("G", &entries, -rng.within(100, 30_000));
    }
    made
}

/// Some rows are equalities, with small coefficients.
fn equal(rng: &mut Rng) -> Made {
    let mut made = Made::default();
    let columns = rng.within(4, 30) as usize;
    for _ in 0..columns {
        let upper = rng.within(100, 4_000);
        made.column(rng.within(-60, 60), Some(0), Some(upper));
    }
    for _ in 0..rng.within(1, 6) {
        let entries = some(rng, columns, 3, -3, 3);
        made.row("E", &entries, 0);
    }
    for _ in 0..rng.within(0, 8) {
        let entries = some(rng, columns, 2, -5, 20);
        made.row("L", &entries, rng.within(100, 20_000));
    }
    made
}

#[derive(Default, Debug)]
struct Counts {
    solved: usize,
    gaps: usize,
    /// Gaps within a thousandth of the cost.
    close: usize,
    no_floor: usize,
    not_a_plan: usize,
    not_whole: usize,
}

/// A number of the JSON behind the first mention of its name.
fn after(text: &str, name: &str) -> i64 {
    let key = format!("\"{name}\":");
    let rest = text.split_once(&key).map_or("", |(_, rest)| rest);
    let end = rest.find([',', '}']).unwrap_or(0);
    rest[..end].parse().expect("a whole number")
}

impl Counts {
    /// Judged by what the program says; none where the plan isn't solved.
    fn add(&mut self, text: &str) {
        let told = run(&["audit", "made.mps", "--json"], text.as_bytes());
        if told.exit == 1 || told.exit == 3 {
            return;
        }
        self.solved += 1;
        match told.exit {
            0 => {
                self.gaps += 1;
                let sheet = told.out.split_once("\"sheet\":").expect("a sheet").1;
                let (cost, gap) = (after(sheet, "cost"), after(sheet, "gap_1024"));
                assert!(gap >= 0);
                self.close += usize::from(gap * 1_000 <= cost.abs() * 1024);
            }
            4 if told.out.contains("\"verdict\":\"no floor\"") => self.no_floor += 1,
            4 => {
                assert!(told.out.contains("\"verdict\":\"not a plan\""), "{told:?}");
                self.not_a_plan += 1;
            }
            _ => {
                let said = "isn't in whole numbers within the sheet's limits";
                assert!(told.err.contains(said), "{told:?}");
                self.not_whole += 1;
            }
        }
    }
}

/// Seeds in turn, until so many plans are solved or so many are tried.
fn counted(make: fn(&mut Rng) -> Made, solved: usize, tried: u64) -> Counts {
    let mut counts = Counts::default();
    for seed in 0..tried {
        if counts.solved == solved {
            break;
        }
        counts.add(&make(&mut Rng(seed)).mps());
    }
    counts
}

/// The gate counts 300 of each family: `TEVALUMI_AUDITS=300`.
fn plans() -> usize {
    let wanted = std::env::var("TEVALUMI_AUDITS").ok();
    wanted.and_then(|n| n.parse().ok()).unwrap_or(30)
}

#[test]
fn nearly_every_audit_ends_in_a_gap() {
    let plans = plans();
    let mut all = Counts::default();
    for (name, make) in [
        ("night-like", night_like as fn(&mut Rng) -> Made),
        ("at most", at_most),
        ("covering", covering),
    ] {
        let counts = counted(make, plans, 4 * plans as u64);
        println!("audits, {name}: {counts:?}");
        assert_eq!(counts.solved, plans);
        all.solved += counts.solved;
        all.gaps += counts.gaps;
        all.close += counts.close;
    }
    assert!(all.gaps * 100 >= all.solved * 99, "{all:?}");
    assert!(all.close * 100 >= all.gaps * 95, "{all:?}");
}

/// Whole amounts that keep equalities may be few or none, so fewer audits end in a gap.
#[test]
fn equalities_as_far_as_they_go() {
    let plans = plans();
    let counts = counted(equal, plans, 4 * plans as u64);
    println!("audits, with equalities: {counts:?}");
    assert_eq!(counts.solved, plans);
    assert!(counts.gaps * 10 >= counts.solved * 7, "{counts:?}");
    // Every row is broken at the start: dual steps.
    let counts = counted(covering_from_nothing, plans, plans as u64);
    println!("audits, covering from nothing: {counts:?}");
    assert_eq!(counts.solved, plans);
    assert!(counts.gaps * 100 >= counts.solved * 99, "{counts:?}");
}

/// Values and multipliers may come from anywhere: here glpsol's, on plans whose start isn't feasible.
#[test]
fn covering_by_another_solver() {
    if !peers::there("glpsol") {
        return;
    }
    let folder = peers::folder("covering");
    let plans = plans();
    let (mut gaps, mut close) = (0, 0);
    for seed in 0..plans as u64 {
        let text = covering_from_nothing(&mut Rng(seed)).mps();
        fs::write(folder.join("in.mps"), &text).expect("written");
        let said = peers::output("glpsol", &folder, &["--freemps", "in.mps", "-w", "found"]);
        let found = fs::read_to_string(folder.join("found")).expect(&said);
        // A line of a row or a column: its number, where it stands, its value and its price.
        let numbers = |kind: &str, at: usize| -> Vec<f64> {
            let lines = found
                .lines()
                .map(|line| line.split(' ').collect::<Vec<_>>());
            let lines = lines.filter(|words| words[0] == kind);
            lines
                .map(|words| words[at].parse().expect("a number"))
                .collect()
        };
        let (values, mults) = (numbers("j", 3), numbers("i", 4));
        let plan = &read(text.as_bytes(), Format::FreeMps, false).expect("a plan")[0];
        let mut figures = figures(plan, Costs::Own).expect("whole numbers");
        figures.amounts = values.iter().map(|x| x.round() as i64).collect();
        figures.mults = mults.iter().map(|y| (y * 1024.0).round() as i64).collect();
        let sheet = best(&figures, &values, &mults).expect("within the limits");
        if let Verdict::Gap(gap) = sheet.verdict() {
            gaps += 1;
            close += usize::from(gap * 1_000 <= sheet.cost() * 1024);
        }
    }
    println!("audits, covering by glpsol: {plans} solved, {gaps} gaps, {close} close");
    // A multiplier is a number of 1/1024, which is coarse where a unit of a row costs little.
    assert!(gaps * 100 >= plans * 99 && close * 100 >= gaps * 80);
    fs::remove_dir_all(&folder).expect("removed");
}
