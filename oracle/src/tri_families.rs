//! Seeded triangles in families, and a survey of what they reach. All ours.

use std::collections::BTreeMap;

use crate::limits;
use crate::rng::Rng;
use crate::tri::{Tri, TriAnswer};

/// Takes the finished triangles of one family.
struct Sink<'a> {
    family: &'static str,
    count: usize,
    take: &'a mut dyn FnMut(Tri),
}

impl Sink<'_> {
    fn tri(&mut self, mut tri: Tri) {
        tri.id = format!("{}.{}", self.family, self.count);
        self.count += 1;
        (self.take)(tri);
    }
}

type Make = fn(&mut Rng, &mut Sink);

/// Makes all triangles, family by family.
pub fn make(seed: u64, take: &mut dyn FnMut(Tri)) {
    let families: [(&str, Make); 6] = [
        ("tri-tiny", tiny),
        ("tri-sizes", sizes),
        ("tri-full", full),
        ("tri-shape", bad_shapes),
        ("tri-number", bad_numbers),
        ("tri-list", bad_lists),
    ];
    for (family, make) in families {
        let mut sink = Sink {
            family,
            count: 0,
            take: &mut *take,
        };
        make(&mut Rng::named(seed, family), &mut sink);
    }
}

/// Off-diagonal entries by column, in stored order.
pub(crate) fn from_columns(
    upper: bool,
    columns: &[Vec<(u64, f64)>],
    diag: Option<Vec<f64>>,
) -> Tri {
    let mut tri = Tri {
        upper,
        size: columns.len() as u64,
        starts: vec![0],
        diag,
        ..Tri::default()
    };
    for column in columns {
        for &(row, val) in column {
            tri.rows.push(row);
            tri.vals.push(val);
        }
        tri.starts.push(tri.rows.len() as u64);
    }
    tri.entries = tri.rows.len() as u64;
    tri
}

/// Every triangle to size 3 with entries and diagonals of a small set, rows rising or falling in a
/// column of two, and every list of its places in every order, with fixed numbers.
fn tiny(_: &mut Rng, sink: &mut Sink) {
    const ENTRIES: [Option<f64>; 4] = [None, Some(1.0), Some(-0.1), Some(-0.0)];
    const DIAGS: [f64; 2] = [1.0, -3.0];
    const NUMBERS: [f64; 3] = [0.3, -0.0, 7.0];
    for size in 0..=3usize {
        let off_diagonal = size * size.saturating_sub(1) / 2;
        for upper in [false, true] {
            for number in 0..ENTRIES.len().pow(off_diagonal as u32) {
                for diagonal in 0..=DIAGS.len().pow(size as u32) {
                    for falling in [false, true] {
                        let mut rest = number;
                        let mut columns = vec![vec![]; size];
                        for (col, column) in columns.iter_mut().enumerate() {
                            let rows = if upper { 0..col } else { col + 1..size };
                            for row in rows {
                                if let Some(val) = ENTRIES[rest % ENTRIES.len()] {
                                    column.push((row as u64, val));
                                }
                                rest /= ENTRIES.len();
                            }
                            if falling {
                                column.reverse();
                            }
                        }
                        if falling && columns.iter().all(|column| column.len() < 2) {
                            continue;
                        }
                        // The first is no diagonal: all ones.
                        let diag = diagonal.checked_sub(1).map(|mut rest| {
                            let mut diag = vec![];
                            for _ in 0..size {
                                diag.push(DIAGS[rest % DIAGS.len()]);
                                rest /= DIAGS.len();
                            }
                            diag
                        });
                        for list in lists(size) {
                            let mut tri = from_columns(upper, &columns, diag.clone());
                            tri.lvals = list.iter().map(|&p| NUMBERS[p as usize]).collect();
                            tri.list = list;
                            sink.tri(tri);
                        }
                    }
                }
            }
        }
    }
}

/// Every list of different places, in every order.
fn lists(size: usize) -> Vec<Vec<u64>> {
    let mut lists: Vec<Vec<u64>> = vec![vec![]];
    let mut at = 0;
    while at < lists.len() {
        for place in 0..size as u64 {
            if !lists[at].contains(&place) {
                let mut longer = lists[at].clone();
                longer.push(place);
                lists.push(longer);
            }
        }
        at += 1;
    }
    lists
}

/// A number that can be anything where it is `wild`, else of a middle size.
pub(crate) fn number(rng: &mut Rng, wild: bool) -> f64 {
    match rng.below(if wild { 6 } else { 3 }) {
        0 => rng.whole(5),
        1 => rng.whole(40) / 10.0,
        2 => rng.unit() - 0.5,
        3 => rng.sized(300, 1000),
        4 => rng.sized(-1000, -300),
        _ => rng.pick(&[0.0, -0.0, f64::MAX, -f64::MAX, 5e-324]),
    }
}

/// A random triangle that lists nothing: rows in any order and repeated, once in `sparse` an entry.
pub(crate) fn unlisted(rng: &mut Rng, upper: bool, size: usize, sparse: usize, wild: bool) -> Tri {
    let mut columns = vec![vec![]; size];
    let mut left = limits::TRI_ENTRIES as usize;
    for (col, column) in columns.iter_mut().enumerate() {
        let rows: Vec<u64> = if upper {
            (0..col as u64).collect()
        } else {
            (col as u64 + 1..size as u64).collect()
        };
        for _ in 0..rows.len() {
            if left > 0 && rng.one_in(sparse) {
                let row = rng.pick(&rows);
                column.push((row, number(rng, wild)));
                left -= 1;
            }
        }
    }
    let diag = if rng.one_in(2) {
        let mut diag = vec![];
        for _ in 0..size {
            let val = number(rng, wild);
            diag.push(if val == 0.0 { 1.0 } else { val });
        }
        Some(diag)
    } else {
        None
    };
    from_columns(upper, &columns, diag)
}

/// A random triangle with a random list.
fn random(rng: &mut Rng, size: usize, sparse: usize, wild: bool) -> Tri {
    let upper = rng.one_in(2);
    let mut tri = unlisted(rng, upper, size, sparse, wild);
    let mut places: Vec<u64> = (0..size as u64).collect();
    for _ in 0..rng.between(0, size) {
        let at = rng.below(places.len());
        tri.list.push(places.swap_remove(at));
        tri.lvals.push(number(rng, wild));
    }
    tri
}

/// Every size, each 120 times.
fn sizes(rng: &mut Rng, sink: &mut Sink) {
    for size in 0..=limits::TRI_PLACES as usize {
        for index in 0..120 {
            let sparse = rng.between(1, 12);
            let tri = random(rng, size, sparse, index % 3 == 0);
            sink.tri(tri);
        }
    }
}

/// 96 places and 4,560 entries, all that there is room for: every column's rows, some in any order, some repeated.
fn full(rng: &mut Rng, sink: &mut Sink) {
    let size = limits::TRI_PLACES as usize;
    for _ in 0..110 {
        let mut tri = random(rng, size, 1, false);
        // As many are drawn as there are places below or above the diagonal, and that many may be stored.
        assert!(tri.entries == limits::TRI_ENTRIES);
        if tri.list.is_empty() {
            tri.list.push(rng.below(size) as u64);
            tri.lvals.push(1.0);
        }
        sink.tri(tri);
    }
}

/// Refusal 1: sizes, starts, short arrays, rows on the wrong side or too large, diagonals of 0.
fn bad_shapes(rng: &mut Rng, sink: &mut Sink) {
    for index in 0..1_400 {
        let size = rng.between(2, 8);
        let mut tri = random(rng, size, 1, false);
        let col = rng.below(size);
        let entry = rng.below(tri.entries as usize);
        match index % 14 {
            0 => {
                tri.size = rng.pick(&[
                    limits::TRI_PLACES + 1,
                    limits::TRI_PLACES + 2,
                    1 << 32,
                    u64::MAX,
                ])
            }
            1 => tri.entries = rng.pick(&[limits::TRI_ENTRIES + 1, 1 << 32, u64::MAX]),
            2 => tri.starts[0] = rng.pick(&[1, u64::MAX]),
            3 => tri.starts[col] = rng.pick(&[tri.entries + 1, u64::MAX]),
            4 => *tri.starts.last_mut().unwrap() -= 1,
            5 => drop(tri.starts.pop()),
            6 => drop(tri.rows.pop()),
            7 => drop(tri.vals.pop()),
            8 => tri.rows[entry] = rng.pick(&[tri.size, tri.size + 1, u64::MAX]),
            9 => {
                // The diagonal's own place, or past it on the wrong side.
                let at = (0..tri.entries as usize).find(|&e| column_of(&tri, e) > 0);
                if let Some(at) = at {
                    let own = column_of(&tri, at);
                    tri.rows[at] = if tri.upper { own } else { own - 1 };
                } else {
                    tri.rows[entry] = column_of(&tri, entry);
                }
            }
            10 => tri.rows[entry] = column_of(&tri, entry),
            11 => tri.diag = Some(vec![1.0; size - 1]),
            12 => {
                let mut diag = vec![1.0; size];
                diag[col] = rng.pick(&[0.0, -0.0]);
                // 1 comes before 2.
                diag[(col + 1) % size] = rng.pick(&[1.0, f64::NAN]);
                tri.diag = Some(diag);
            }
            _ => tri.entries += 1,
        }
        sink.tri(tri);
    }
    // A longer array is fine: what stands past the needed length isn't read.
    for _ in 0..100 {
        let size = rng.between(1, 8);
        let mut tri = random(rng, size, 2, false);
        tri.starts.push(u64::MAX);
        tri.rows.push(u64::MAX);
        tri.vals.push(f64::NAN);
        if let Some(diag) = &mut tri.diag {
            diag.push(0.0);
        }
        sink.tri(tri);
    }
}

pub(crate) fn column_of(tri: &Tri, entry: usize) -> u64 {
    let after = tri.starts.iter().filter(|&&s| s <= entry as u64).count();
    after as u64 - 1
}

/// Refusal 2: an off-diagonal, diagonal or listed number that isn't finite.
fn bad_numbers(rng: &mut Rng, sink: &mut Sink) {
    let mut made = 0;
    while made < 1_200 {
        let size = rng.between(2, 8);
        let mut tri = random(rng, size, 1, false);
        if tri.list.is_empty() {
            continue;
        }
        let bad = rng.pick(&[f64::NAN, -f64::NAN, f64::INFINITY, f64::NEG_INFINITY]);
        match made % 3 {
            0 => {
                let entry = rng.below(tri.entries as usize);
                tri.vals[entry] = bad;
            }
            1 => {
                let mut diag = vec![2.0; size];
                diag[rng.below(size)] = bad;
                tri.diag = Some(diag);
            }
            _ => {
                let at = rng.below(tri.list.len());
                tri.lvals[at] = bad;
                // 2 comes before 3.
                if rng.one_in(3) && at + 1 < tri.list.len() {
                    tri.list[at + 1] = tri.size;
                }
            }
        }
        sink.tri(tri);
        made += 1;
    }
}

/// Refusal 3: a listed place too large or repeated. A number beside a place that is too large isn't
/// looked at. No list is longer than SIZE: the driver lends that many cells.
fn bad_lists(rng: &mut Rng, sink: &mut Sink) {
    for index in 0..1_200 {
        let size = rng.between(2, 8);
        let mut tri = random(rng, size, 2, false);
        while tri.list.len() < 2 {
            let other = (0..tri.size).find(|place| !tri.list.contains(place));
            tri.list.extend(other);
            tri.lvals.push(1.0);
        }
        let at = rng.below(tri.list.len());
        if index % 2 == 0 {
            tri.list[at] = rng.pick(&[
                tri.size,
                tri.size + 1,
                limits::TRI_PLACES,
                1 << 32,
                u64::MAX,
            ]);
            tri.lvals[at] = rng.pick(&[1.0, f64::NAN]);
        } else {
            tri.list[at] = tri.list[(at + 1) % tri.list.len()];
        }
        sink.tri(tri);
    }
}

#[derive(Default)]
pub struct Survey {
    count: u64,
    sizes: BTreeMap<u64, u64>,
    counts: BTreeMap<&'static str, u64>,
}

impl Survey {
    pub fn add(&mut self, tri: &Tri, answer: &TriAnswer) {
        self.count += 1;
        let mut count = |name| *self.counts.entry(name).or_default() += 1;
        match answer.status {
            0 => count("solved"),
            1 => count("refusal 1"),
            2 => count("refusal 2"),
            _ => count("refusal 3"),
        }
        if answer.status != 0 {
            return;
        }
        *self.sizes.entry(tri.size).or_default() += 1;
        if tri.size == limits::TRI_PLACES && tri.entries == limits::TRI_ENTRIES {
            count("96 places and 4,560 entries");
        }
        if tri.entries > 2_048 {
            count("over 2,048 entries");
        }
        if tri.size > 64 {
            count("65 to 96 places");
        }
        for col in 0..tri.size as usize {
            let rows = &tri.rows[tri.starts[col] as usize..tri.starts[col + 1] as usize];
            if (1..rows.len()).any(|i| rows[..i].contains(&rows[i])) {
                count("a repeated row");
                break;
            }
        }
        if answer.sparse.iter().any(|val| val.is_nan()) {
            count("a NaN result");
        }
        if answer.sparse.iter().any(|val| val.is_infinite()) {
            count("an infinite result");
        }
        if answer.list.len() > tri.list.len() {
            count("a list that grew");
        }
        let bits = |vals: &[f64]| -> Vec<u64> {
            let nan = f64::NAN.to_bits();
            vals.iter()
                .map(|v| if v.is_nan() { nan } else { v.to_bits() })
                .collect()
        };
        if bits(&answer.sparse) != bits(&answer.dense) {
            count("sparse and dense bits differ");
        }
    }

    pub fn table(&self) -> String {
        let mut table = format!("{} triangles\n", self.count);
        for (name, count) in &self.counts {
            table += &format!("{}: {}\n", name, count);
        }
        table
    }

    pub fn targets(&self) -> Vec<(String, u64, u64)> {
        let mut targets = vec![("triangles".to_string(), 20_000, self.count)];
        for (name, least) in [
            ("refusal 1", 1_000),
            ("refusal 2", 1_000),
            ("refusal 3", 1_000),
            ("96 places and 4,560 entries", 100),
            ("over 2,048 entries", 300),
            ("65 to 96 places", 1_000),
            ("a repeated row", 1_000),
            ("a NaN result", 100),
            ("an infinite result", 100),
            ("a list that grew", 1_000),
            ("sparse and dense bits differ", 1_000),
        ] {
            let count = self.counts.get(name).copied().unwrap_or(0);
            targets.push((name.to_string(), least, count));
        }
        for size in 0..=limits::TRI_PLACES {
            let count = self.sizes.get(&size).copied().unwrap_or(0);
            targets.push((format!("size {}", size), 100, count));
        }
        targets
    }
}
