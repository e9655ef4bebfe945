//! What is said of the sets, in Markdown: a table with a row for each set, and one with a row for each of its sides.

use crate::peers;
use crate::race::{Set, ANEW, ORACLE};
use crate::times::{median, quantile};

/// A number in three places, or in two where it is large.
fn ratio(number: f64) -> String {
    match number < 10.0 {
        true => format!("{number:.3}"),
        false => format!("{number:.1}"),
    }
}

/// Nanoseconds for people.
fn time(nanos: f64) -> String {
    match nanos {
        nanos if nanos < 1e3 => format!("{nanos:.0} ns"),
        nanos if nanos < 1e6 => format!("{:.2} us", nanos / 1e3),
        nanos => format!("{:.1} ms", nanos / 1e6),
    }
}

pub fn thousands(number: usize) -> String {
    let digits = number.to_string();
    let groups: Vec<&str> = digits
        .as_bytes()
        .rchunks(3)
        .rev()
        .map(|group| std::str::from_utf8(group).expect("digits"))
        .collect();
    groups.join(",")
}

/// The library against another side of a set.
struct Against {
    name: &'static str,
    /// All in a row.
    over: f64,
    /// Case by case.
    ratios: Vec<f64>,
}

impl Against {
    fn of(set: &Set, side: usize) -> Against {
        let (ours, theirs) = (set.medians(0, false), set.medians(side, false));
        let sum = |times: &[f64]| times.iter().sum::<f64>();
        Against {
            name: set.sides[side],
            over: sum(&ours) / sum(&theirs),
            ratios: ours.iter().zip(&theirs).map(|(a, b)| a / b).collect(),
        }
    }

    fn below(&self) -> usize {
        self.ratios.iter().filter(|&&ratio| ratio < 1.0).count()
    }

    /// The ratio over all, and how many of a hundred cases the library is faster on.
    fn cell(&self) -> String {
        let share = 100.0 * self.below() as f64 / self.ratios.len() as f64;
        format!("{}, {share:.0} %", ratio(self.over))
    }
}

/// How far a side's second samples are from its first, all in a row.
fn noise(set: &Set, side: usize) -> f64 {
    let sum = |again| set.medians(side, again).iter().sum::<f64>();
    sum(false) / sum(true)
}

/// The side's own noise that is furthest from 1.
fn worst_noise(set: &Set) -> f64 {
    let all = (0..set.sides.len()).map(|side| noise(set, side));
    all.max_by(|a, b| a.ln().abs().total_cmp(&b.ln().abs()))
        .expect("a side")
}

pub fn head() -> String {
    let peers = peers::NAMES.join(" | ");
    let rule = "|---".repeat(7 + peers::NAMES.len());
    format!("| set | calls | library, all in a row | the median call | oracle | solve anew | {peers} | noise |\n{rule}|")
}

/// A set's row. Of a peer it shows the method that is the faster one over the set.
pub fn row(set: &Set) -> String {
    let ours = set.medians(0, false);
    let cell = |name: &str| {
        let sides = (1..set.sides.len()).filter(|&side| set.sides[side].starts_with(name));
        let fastest = sides
            .map(|side| Against::of(set, side))
            .max_by(|a, b| a.over.total_cmp(&b.over));
        match fastest {
            Some(against) => {
                let method = against.name[name.len()..].trim();
                format!("{} {method}", against.cell())
                    .trim_end()
                    .to_string()
            }
            None => String::new(),
        }
    };
    let mut cells = vec![
        set.name.clone(),
        thousands(set.cases.len() * set.each),
        time(ours.iter().sum()),
        time(median(&ours) / set.each as f64),
        cell(ORACLE),
        cell(ANEW),
    ];
    cells.extend(peers::NAMES.map(cell));
    cells.push(ratio(worst_noise(set)));
    format!("| {} |", cells.join(" | "))
}

pub fn detail_head() -> String {
    let rule = "|---".repeat(8);
    format!("| set | side | steps | all in a row | library over it: all, the median call | one by one: least, a tenth below, median, a tenth above, most | below 1 | noise |\n{rule}|")
}

/// A row for each side of a set.
pub fn details(set: &Set) -> Vec<String> {
    let mut rows = vec![];
    for side in 0..set.sides.len() {
        let (ours, times) = (set.medians(0, false), set.medians(side, false));
        let mut cells = vec![
            if side == 0 {
                set.name.clone()
            } else {
                String::new()
            },
            set.sides[side].to_string(),
            match set.steps(side) {
                0 => String::new(),
                steps => thousands(steps),
            },
            time(times.iter().sum()),
        ];
        if side == 0 {
            cells.extend(vec![String::new(); 3]);
        } else {
            let against = Against::of(set, side);
            let typical = median(&ours) / median(&times);
            let parts =
                [0.0, 0.1, 0.5, 0.9, 1.0].map(|part| ratio(quantile(&against.ratios, part)));
            cells.push(format!("{}, {}", ratio(against.over), ratio(typical)));
            cells.push(parts.join(", "));
            cells.push(format!("{} of {}", against.below(), set.cases.len()));
        }
        cells.push(ratio(noise(set, side)));
        rows.push(format!("| {} |", cells.join(" | ")));
    }
    rows
}
