//! Files that other solvers write, and the optimum that they find.
//!
//! The recorded files are always tried. Where glpsol and clp are there, generated plans go through
//! them too; `TEVALUMI_PEERS=1` makes it a failure if they aren't.

use std::fs;
use std::path::{Path, PathBuf};
use std::process::Command;

use crate::{run, Rng};

/// The objective and the status of a file.
fn ours(words: &[&str], text: &[u8]) -> (u64, f64) {
    let words: Vec<&str> = ["solve", "peer", "--json"]
        .iter()
        .chain(words)
        .copied()
        .collect();
    let told = run(&words, text);
    assert_ne!(told.exit, 2, "{}", told.err);
    let after = |key: &str| {
        let from = told.out.find(key)? + key.len();
        let rest = &told.out[from..];
        rest[..rest.find([',', '}'])?].parse::<f64>().ok()
    };
    let status = after("\"status\":").expect("a status");
    (status as u64, after("\"objective\":").unwrap_or(0.0))
}

fn close(a: f64, b: f64) -> bool {
    (a - b).abs() <= 1e-7 * (1.0 + a.abs().max(b.abs()))
}

/// Written by glpsol 5.0 and clp 1.17.6, with the optima they print; each has ranges, bounds of
/// several kinds and a constant.
#[test]
fn recorded_files() {
    for (file, objective) in [
        (
            &include_bytes!("data/peers/glpsol-free.mps")[..],
            RECORDED_GLPSOL,
        ),
        (
            include_bytes!("data/peers/glpsol-fixed.mps"),
            RECORDED_GLPSOL,
        ),
        (include_bytes!("data/peers/clp.mps"), RECORDED_CLP),
    ] {
        let (status, found) = ours(&[], file);
        assert_eq!(status, 0);
        assert!(close(found, objective), "{found} and {objective}");
    }
}

const RECORDED_GLPSOL: f64 = -44.5;
const RECORDED_CLP: f64 = -64.5;

/// As HiGHS writes MPS, and the same plan as CPLEX-LP. The optimum is that of glpsol.
#[test]
fn as_highs_writes() {
    for file in [
        &include_bytes!("data/highs.mps")[..],
        include_bytes!("data/gateway.lp"),
    ] {
        assert_eq!(ours(&[], file), (0, 62.0));
    }
}

/// A plan whose slack start is feasible, as free MPS. Every kind of row, range and bound.
fn generated(seed: u64) -> String {
    let mut rng = Rng(seed);
    let (columns, rows) = (rng.within(2, 30) as usize, rng.within(1, 20) as usize);
    let mut bounds = String::new();
    let mut start = Vec::new();
    let mut costs = Vec::new();
    for j in 0..columns {
        let cost = rng.within(-9, 9) as f64 / 2.0;
        let (lower, upper) = (rng.within(-3, 2), rng.within(2, 9));
        let (lower, upper, lines) = match rng.below(6) {
            0 => (0, Some(upper), format!(" UP B x{j} {upper}\n")),
            1 => (lower, None, format!(" LO B x{j} {lower}\n")),
            2 => (upper, Some(upper), format!(" FX B x{j} {upper}\n")),
            3 => (
                lower,
                Some(upper),
                format!(" LO B x{j} {lower}\n UP B x{j} {upper}\n"),
            ),
            _ => (0, None, String::new()),
        };
        bounds += &lines;
        start.push(match upper {
            Some(upper) if cost < 0.0 => upper,
            _ => lower,
        } as f64);
        costs.push(cost);
    }
    let (mut kinds, mut rhs, mut ranges) = (String::new(), String::new(), String::new());
    let mut entries = vec![String::new(); columns];
    for i in 0..rows {
        let mut activity = 0.0;
        for j in 0..columns {
            if rng.below(3) == 0 {
                let coeff = rng.within(-2, 6) as f64 / 2.0;
                activity += coeff * start[j];
                entries[j] += &format!(" x{j} r{i} {coeff}\n");
            }
        }
        let room = rng.within(0, 40) as f64;
        // Every second plan has no ranges: in glpsol's LP files these are columns, whose start is
        // rarely feasible.
        let (kind, right, range) = match rng.below(if seed % 2 == 1 { 4 } else { 8 }) {
            0 => ("G", activity - room, None),
            1 => ("E", activity, None),
            2 | 3 => ("L", activity + room, None),
            4 => ("L", activity + room, Some(room + rng.within(0, 20) as f64)),
            5 => ("G", activity - room, Some(room + rng.within(0, 20) as f64)),
            6 => ("E", activity - room, Some(room + rng.within(1, 20) as f64)),
            _ => ("E", activity + room, Some(-room - rng.within(1, 20) as f64)),
        };
        kinds += &format!(" {kind} r{i}\n");
        rhs += &format!(" R r{i} {right}\n");
        if let Some(range) = range {
            ranges += &format!(" G r{i} {range}\n");
        }
    }
    rhs += &format!(" R cost {}\n", rng.within(-9, 9));
    let columns: String = (0..columns)
        .map(|j| format!(" x{j} cost {}\n{}", costs[j], entries[j]))
        .collect();
    format!("NAME g{seed}\nROWS\n N cost\n{kinds}COLUMNS\n{columns}RHS\n{rhs}RANGES\n{ranges}BOUNDS\n{bounds}ENDATA\n")
}

/// Whether a program is there. With `TEVALUMI_PEERS=1` it has to be.
pub fn there(program: &str) -> bool {
    // An emulator may answer that it has started a program that isn't there, so what is printed tells.
    let printed = Command::new(program).arg("--version").output();
    let found = printed.is_ok_and(|printed| !printed.stdout.is_empty());
    let wanted = std::env::var("TEVALUMI_PEERS").is_ok_and(|v| v == "1");
    assert!(found || !wanted, "{program} isn't there");
    if !found {
        println!("{program} isn't there: what needs it isn't tried");
    }
    found
}

pub fn folder(name: &str) -> PathBuf {
    let folder = std::env::temp_dir().join(format!("tevalumi-{name}-{}", std::process::id()));
    fs::create_dir_all(&folder).expect("a folder");
    folder
}

pub fn output(program: &str, folder: &Path, words: &[&str]) -> String {
    let mut command = Command::new(program);
    let output = command.args(words).current_dir(folder).output();
    String::from_utf8_lossy(&output.expect("it runs").stdout).into_owned()
}

/// Enough generated plans that each solver finds 20 optima.
#[test]
fn glpsol() {
    if !there("glpsol") {
        return;
    }
    let folder = folder("glpsol");
    let (mut optima, mut endless, mut as_lp) = (0, 0, 0);
    for seed in 0..60 {
        fs::write(folder.join("in.mps"), generated(seed)).expect("written");
        let sense = if seed % 3 == 0 { "--max" } else { "--min" };
        let text = output(
            "glpsol",
            &folder,
            &[
                "--freemps",
                "in.mps",
                sense,
                "--nopresol",
                "-w",
                "found",
                "--wfreemps",
                "free.mps",
                "--wmps",
                "fixed.mps",
                "--wlp",
                "out.lp",
            ],
        );
        let found = fs::read_to_string(folder.join("found")).expect(&text);
        let found = found.lines().find_map(|line| line.strip_prefix("s bas "));
        let words: Vec<&str> = found.expect("an answer").split(' ').collect();
        let (states, objective) = (&words[2..4], words[4].parse::<f64>().expect("a number"));
        for file in ["free.mps", "fixed.mps", "out.lp"] {
            let written = fs::read(folder.join(file)).expect("written");
            let (status, ours) = ours(&[sense], &written);
            // glpsol leaves the constant out of LP files.
            let constant: f64 = match file {
                "out.lp" => constant(&generated(seed)),
                _ => 0.0,
            };
            match states {
                ["f", "f"] => {
                    assert_eq!(status, 0, "{file} of seed {seed}");
                    assert!(
                        close(ours + constant, objective),
                        "{file} of {seed}: {ours}, {objective}"
                    );
                    optima += usize::from(file == "free.mps");
                    as_lp += usize::from(file == "out.lp");
                }
                _ => {
                    assert_eq!(status, 20, "{file} of seed {seed}: {text}");
                    endless += 1;
                }
            }
        }
    }
    // What was wrong would have failed above.
    println!("glpsol: {optima} optima from MPS, {as_lp} from LP, {endless} endless");
    println!("glpsol's files: 180 solved, 0 wrong");
    assert!(optima >= 20 && as_lp >= 5 && endless >= 1);
    fs::remove_dir_all(&folder).expect("removed");
}

/// The right side of the objective, with glpsol's sign.
fn constant(text: &str) -> f64 {
    let line = text.lines().find_map(|line| line.strip_prefix(" R cost "));
    line.and_then(|number| number.parse().ok()).unwrap_or(0.0)
}

#[test]
fn clp() {
    if !there("clp") {
        return;
    }
    let folder = folder("clp");
    let mut optima = 0;
    for seed in 0..60 {
        // Clp takes a file for a fixed one unless it says FREE.
        let text = generated(seed).replacen('\n', " FREE\n", 1);
        fs::write(folder.join("in.mps"), text).expect("written");
        let words = [
            "in.mps",
            "-presolve",
            "off",
            "-export",
            "out.mps",
            "-solve",
            "-quit",
        ];
        let text = output("clp", &folder, &words);
        let Some((_, rest)) = text.split_once("Optimal objective ") else {
            continue;
        };
        let objective = rest.split(' ').next().and_then(|n| n.parse::<f64>().ok());
        let objective = objective.expect("a number");
        for file in ["in.mps", "out.mps"] {
            let written = fs::read(folder.join(file)).expect("written");
            let (status, ours) = ours(&[], &written);
            assert_eq!(status, 0, "{file} of seed {seed}");
            assert!(
                close(ours, objective),
                "{file} of {seed}: {ours}, {objective}"
            );
        }
        optima += 1;
    }
    println!("clp: {optima} optima");
    println!("clp's files: {} solved, 0 refused, 0 wrong", 2 * optima);
    assert!(optima >= 20);
    fs::remove_dir_all(&folder).expect("removed");
}

/// What stands in the file that `--sol` writes.
fn sol(words: &[&str], text: &[u8]) -> String {
    let words = [&["solve", "peer", "--sol", "peer.sol"][..], words].concat();
    let (told, files) = crate::kept::run(&words, text);
    assert_eq!(told.exit, 0, "{}{}", told.out, told.err);
    let (name, bytes) = files.into_iter().next().expect("a list");
    assert_eq!(name, "peer.sol");
    String::from_utf8(bytes).expect("text")
}

/// Byte for byte as glpsol 5.0 writes it, with a range, a fixed column and an equality.
#[test]
fn recorded_list() {
    let ours = sol(&[], include_bytes!("data/peers/glpsol-free.mps"));
    // glpsol says 1e+30 of Clp's upper bound, which means none here.
    let theirs = include_str!("data/peers/glpsol-free.sol");
    assert_eq!(ours, theirs.replace("1e+30", "     "));
}

/// The sample files through `glpsol -o`: the same rows and columns stand at the same places, and where a
/// vertex or a price is another one of the same optimum, the objective is the same all the same.
#[test]
fn lists_of_glpsol() {
    if !there("glpsol") {
        return;
    }
    let folder = folder("lists");
    let (mut same, mut lists) = (0, 0);
    let plans = Path::new(env!("CARGO_MANIFEST_DIR")).join("plans");
    let samples = ["two-tunnels.mps", "night-as-priced.mps"];
    let samples = samples.map(|name| fs::read_to_string(plans.join(name)).expect("a plan"));
    for text in samples.into_iter().chain((0..30).map(generated)) {
        fs::write(folder.join("in.mps"), &text).expect("written");
        output(
            "glpsol",
            &folder,
            &["--freemps", "in.mps", "--nopresol", "-o", "out.sol"],
        );
        let theirs = fs::read_to_string(folder.join("out.sol")).expect("a list");
        if !theirs.contains("Status:     OPTIMAL") {
            continue;
        }
        let turned = text.replace(" R cost ", " R cost -").replace("--", "");
        let ours = sol(&[], turned.as_bytes());
        lists += 1;
        let (ours, theirs): (Vec<&str>, Vec<&str>) =
            (ours.lines().collect(), theirs.lines().collect());
        // The head, with the objective; the names of every line.
        assert_eq!(ours[..6], theirs[..6]);
        assert_eq!(ours.len(), theirs.len());
        let end = ours
            .iter()
            .position(|line| line.starts_with("Karush"))
            .expect("its end");
        for (our, their) in ours[..end].iter().zip(&theirs) {
            let first = |line: &str| line.chars().take(20).collect::<String>();
            assert_eq!(first(our), first(their));
        }
        same += usize::from(ours[..end] == theirs[..end]);
        assert!(
            ours[end..]
                .iter()
                .filter(|line| line.contains("High quality"))
                .count()
                == 4
        );
    }
    println!("glpsol -o: {same} of {lists} lists are the same, the others are other vertices of the optimum");
    assert!(lists >= 15 && same * 2 >= lists);
    fs::remove_dir_all(&folder).expect("removed");
}
