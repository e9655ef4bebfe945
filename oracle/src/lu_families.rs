//! Seeded pairs of triangles in families, and a survey of what they reach. All ours.

use std::collections::BTreeMap;

use crate::limits;
use crate::lu::{lu_factorize, ScratchSpace};
use crate::rng::Rng;
use crate::sparse::TriangleMat;
use crate::tri::{solve_dense, Factors, FactorsAnswer, Tri};
use crate::tri_families::{column_of, from_columns, number, unlisted};

/// Takes the finished pairs of one family.
struct Sink<'a> {
    family: &'static str,
    count: usize,
    take: &'a mut dyn FnMut(Factors),
}

impl Sink<'_> {
    fn factors(&mut self, mut factors: Factors) {
        factors.id = format!("{}.{}", self.family, self.count);
        self.count += 1;
        (self.take)(factors);
    }
}

type Make = fn(&mut Rng, &mut Sink);

/// Makes all pairs, family by family.
pub fn make(seed: u64, take: &mut dyn FnMut(Factors)) {
    let families: [(&str, Make); 9] = [
        ("lu-tiny", tiny),
        ("lu-sizes", sizes),
        ("lu-full", full),
        ("lu-between", between),
        ("lu-shape", bad_shapes),
        ("lu-number", bad_numbers),
        ("lu-both", both),
        ("lu-longer", longer),
        ("lu-factored", factored),
    ];
    for (family, make) in families {
        let mut sink = Sink {
            family,
            count: 0,
            take: &mut *take,
        };
        make(&mut Rng::named(seed, family), &mut sink);
    }
}

fn pair(lower: Tri, upper: Tri, values: Vec<f64>) -> Factors {
    Factors {
        id: String::new(),
        lower,
        upper,
        values,
    }
}

/// Random triangles, once in `sparse` an entry, and random numbers to solve for.
fn random(rng: &mut Rng, size: usize, sparse: [usize; 2], wild: bool) -> Factors {
    let lower = unlisted(rng, false, size, sparse[0], wild);
    let upper = unlisted(rng, true, size, sparse[1], wild);
    let values = (0..size).map(|_| number(rng, wild)).collect();
    pair(lower, upper, values)
}

/// Every pair to size 2 with entries, diagonals and numbers of a small set.
fn tiny(_: &mut Rng, sink: &mut Sink) {
    const ENTRIES: [Option<f64>; 4] = [None, Some(1.0), Some(-0.1), Some(-0.0)];
    const DIAGS: [f64; 2] = [1.0, -3.0];
    const NUMBERS: [f64; 3] = [0.3, -0.0, 0.0];
    for size in 0..=2 {
        let triangles = |upper: bool| {
            let mut triangles = vec![];
            let entries = if size == 2 { &ENTRIES[..] } else { &[None] };
            for entry in entries {
                let mut columns = vec![vec![]; size];
                if let (Some(val), true) = (entry, upper) {
                    columns[1].push((0, *val));
                } else if let Some(val) = entry {
                    columns[0].push((1, *val));
                }
                let with = tuples(&DIAGS, size).into_iter().map(Some);
                for diag in [None].into_iter().chain(with) {
                    triangles.push(from_columns(upper, &columns, diag));
                }
            }
            triangles
        };
        for lower in triangles(false) {
            for upper in triangles(true) {
                for values in tuples(&NUMBERS, size) {
                    sink.factors(pair(lower.clone(), upper.clone(), values));
                }
            }
        }
    }
}

/// Every list of so many of these numbers.
fn tuples(of: &[f64], length: usize) -> Vec<Vec<f64>> {
    (0..of.len().pow(length as u32))
        .map(|mut rest| {
            let mut tuple = vec![];
            for _ in 0..length {
                tuple.push(of[rest % of.len()]);
                rest /= of.len();
            }
            tuple
        })
        .collect()
}

/// Every size, each 100 times, either triangle dense or sparse.
fn sizes(rng: &mut Rng, sink: &mut Sink) {
    for size in 0..=limits::TRI_PLACES as usize {
        for index in 0..100 {
            let sparse = [rng.between(1, 12), rng.between(1, 12)];
            let mut factors = random(rng, size, sparse, index % 3 == 0);
            // Zeros of both signs, as in a column that is solved for.
            if index % 2 == 0 {
                for val in &mut factors.values {
                    if rng.one_in(2) {
                        *val = rng.pick(&[0.0, -0.0]);
                    }
                }
            }
            sink.factors(factors);
        }
    }
}

/// 96 places, and all 4,560 entries in each triangle, or some fewer and then up to all by repeated rows.
fn full(rng: &mut Rng, sink: &mut Sink) {
    let size = limits::TRI_PLACES as usize;
    for index in 0..60 {
        let size = size - usize::from(index % 4 == 0);
        let mut factors = random(rng, size, [1, 1], false);
        if index % 4 == 0 {
            for tri in [&mut factors.lower, &mut factors.upper] {
                let more = limits::TRI_ENTRIES - tri.entries;
                grow(tri, more as usize, rng);
            }
        }
        sink.factors(factors);
    }
}

/// So many entries more, in the column that has room for any.
fn grow(tri: &mut Tri, more: usize, rng: &mut Rng) {
    let last = tri.size as usize - 1;
    let (at, row, moved) = if tri.upper {
        (tri.entries as usize, 0, last + 1..last + 2)
    } else {
        (0, last as u64, 1..last + 2)
    };
    for _ in 0..more {
        tri.rows.insert(at, row);
        tri.vals.insert(at, rng.whole(5));
    }
    for start in &mut tri.starts[moved] {
        *start += more as u64;
    }
    tri.entries += more as u64;
}

/// The lower solve's result: the upper triangle has no entry and ones on its diagonal.
fn after_lower(factors: &Factors) -> FactorsAnswer {
    let columns = vec![vec![]; factors.size() as usize];
    solve_dense(&Factors {
        upper: from_columns(true, &columns, None),
        ..factors.clone()
    })
}

fn not_finite(answer: &FactorsAnswer) -> bool {
    answer.dense.iter().any(|val| !val.is_finite())
}

/// Numbers that are no longer finite between the two solves: "a number not finite" is looked for in
/// what is lent alone, so they go on.
fn between(rng: &mut Rng, sink: &mut Sink) {
    while sink.count < 600 {
        let size = rng.between(1, 12);
        let sparse = [rng.between(1, 3), rng.between(1, 6)];
        let mut factors = random(rng, size, sparse, true);
        factors.upper = unlisted(rng, true, size, sparse[1], false);
        if not_finite(&after_lower(&factors)) {
            sink.factors(factors);
        }
    }
}

/// What factoring a matrix makes: L, and U with its diagonal. Every other time the transposes: U's is the
/// lower one then, with the diagonal, and L's the upper one.
fn factored(rng: &mut Rng, sink: &mut Sink) {
    while sink.count < 500 {
        let size = rng.between(1, limits::TRI_PLACES as usize);
        let sparse = rng.between(1, 12);
        let columns: Vec<(Vec<usize>, Vec<f64>)> = (0..size)
            .map(|col| {
                let rows = (0..size).filter(|&row| row == col || rng.one_in(sparse));
                let rows: Vec<usize> = rows.collect();
                let vals = rows.iter().map(|_| number(rng, false)).collect();
                (rows, vals)
            })
            .collect();
        let get_col = |col: usize| (&columns[col].0[..], &columns[col].1[..]);
        let made = lu_factorize(size, get_col, &mut ScratchSpace::with_capacity(size));
        let Ok(mut made) = made else { continue };
        if sink.count % 2 == 1 {
            made = made.transpose();
        }
        let values = (0..size).map(|_| number(rng, false)).collect();
        let (lower, upper) = (lent(false, &made.lower), lent(true, &made.upper));
        sink.factors(pair(lower, upper, values));
    }
}

fn lent(upper: bool, triangle: &TriangleMat) -> Tri {
    let (starts, rows, vals) = triangle.nondiag.raw_parts();
    let wholes = |places: &[usize]| places.iter().map(|&place| place as u64).collect();
    Tri {
        upper,
        size: triangle.cols() as u64,
        entries: rows.len() as u64,
        starts: wholes(starts),
        rows: wholes(rows),
        vals: vals.to_vec(),
        diag: triangle.diag.clone(),
        ..Tri::default()
    }
}

/// What gives 1, by either triangle.
pub const BAD_SHAPES: [&str; 12] = [
    "too many entries",
    "starts short",
    "starts don't begin at 0",
    "starts fall",
    "starts end elsewhere",
    "rows short",
    "numbers short",
    "diagonal short",
    "a row too large",
    "a row on the diagonal",
    "a row on the other side",
    "a diagonal of 0",
];

/// What gives 1, by both triangles at once.
pub const BAD_SIZES: [&str; 2] = ["a size too large", "values short"];

const SIDES: [&str; 2] = ["lower", "upper"];

fn side(factors: &mut Factors, upper: bool) -> &mut Tri {
    match upper {
        false => &mut factors.lower,
        true => &mut factors.upper,
    }
}

/// Makes a triangle of a sturdy pair bad by that cause alone.
fn put_bad_shape(tri: &mut Tri, kind: usize, rng: &mut Rng) {
    let size = tri.size as usize;
    let entry = rng.below(tri.entries as usize);
    let col = column_of(tri, entry);
    match BAD_SHAPES[kind] {
        "too many entries" => match rng.below(4) {
            0 => {
                let more = limits::TRI_ENTRIES + 1 - tri.entries;
                grow(tri, more as usize, rng);
            }
            _ => tri.entries = rng.pick(&[limits::TRI_ENTRIES + 1, 1 << 32, u64::MAX]),
        },
        "starts short" => tri.starts.truncate(rng.below(size + 1)),
        "starts don't begin at 0" => {
            tri.starts[0] = rng.pick(&[1, u64::MAX]);
        }
        "starts fall" => {
            let at = rng.between(2, size);
            tri.starts[at - 1] = rng.pick(&[tri.starts[at] + 1, u64::MAX]);
        }
        "starts end elsewhere" => match rng.below(2) {
            0 => tri.entries -= 1,
            _ => {
                tri.entries += 1;
                tri.rows.push(0);
                tri.vals.push(1.0);
            }
        },
        "rows short" => tri.rows.truncate(rng.below(tri.entries as usize)),
        "numbers short" => tri.vals.truncate(rng.below(tri.entries as usize)),
        "diagonal short" => tri.diag = Some(vec![1.0; rng.below(size)]),
        "a row too large" => tri.rows[entry] = rng.pick(&[tri.size, tri.size + 1, u64::MAX]),
        "a row on the diagonal" => tri.rows[entry] = col,
        "a row on the other side" => {
            // An entry of a column that has another side; the first or last one hasn't.
            let columns = (0..tri.entries as usize).map(|entry| (entry, column_of(tri, entry)));
            let far = |&(_, col): &(usize, u64)| {
                if tri.upper {
                    col + 1 < tri.size
                } else {
                    col > 0
                }
            };
            let inner: Vec<(usize, u64)> = columns.filter(far).collect();
            let (entry, col) = rng.pick(&inner);
            tri.rows[entry] = if tri.upper { col + 1 } else { col - 1 };
        }
        _ => {
            let mut diag = vec![1.0; size];
            diag[rng.below(size)] = rng.pick(&[0.0, -0.0]);
            tri.diag = Some(diag);
        }
    }
}

/// A pair whose triangles have entries in a column that is neither the first nor the last.
fn sturdy(rng: &mut Rng) -> Factors {
    let size = rng.between(3, 8);
    random(rng, size, [1, 1], false)
}

/// Refusal 1 by each cause, on either triangle, and by what both share.
fn bad_shapes(rng: &mut Rng, sink: &mut Sink) {
    let kinds = 2 * BAD_SHAPES.len() + BAD_SIZES.len();
    for index in 0..60 * kinds {
        let mut factors = sturdy(rng);
        let kind = index % kinds;
        if kind < 2 * BAD_SHAPES.len() {
            put_bad_shape(side(&mut factors, kind % 2 == 1), kind / 2, rng);
        } else if kind == 2 * BAD_SHAPES.len() {
            let past = limits::TRI_PLACES + 1;
            match rng.below(4) {
                // Every array is as long as that size needs.
                0 => factors = random(rng, past as usize, [12, 12], false),
                _ => factors.set_size(rng.pick(&[past, past + 1, 1 << 32, u64::MAX])),
            }
        } else {
            factors.values.truncate(rng.below(factors.size() as usize));
        }
        sink.factors(factors);
    }
}

/// Which cause a pair of the family "lu-shape" has, by its place in the family.
fn shape_name(index: usize) -> String {
    let kind = index % (2 * BAD_SHAPES.len() + BAD_SIZES.len());
    match kind.checked_sub(2 * BAD_SHAPES.len()) {
        None => format!("1 by {}: {}", SIDES[kind % 2], BAD_SHAPES[kind / 2]),
        Some(both) => format!("1 by both: {}", BAD_SIZES[both]),
    }
}

/// Where a number can stand that isn't finite.
pub const BAD_NUMBERS: [&str; 5] = [
    "lower entry",
    "lower diagonal",
    "upper entry",
    "upper diagonal",
    "value",
];

fn put_bad_number(factors: &mut Factors, kind: usize, rng: &mut Rng) {
    let size = factors.size() as usize;
    let bad = rng.pick(&[
        f64::NAN,
        -f64::NAN,
        f64::from_bits(0x7ff0_0000_0000_0001),
        f64::INFINITY,
        f64::NEG_INFINITY,
    ]);
    match BAD_NUMBERS[kind] {
        "value" => factors.values[rng.below(size)] = bad,
        "lower entry" | "upper entry" => {
            let tri = side(factors, kind == 2);
            let entry = rng.below(tri.entries as usize);
            tri.vals[entry] = bad;
        }
        _ => {
            let tri = side(factors, kind == 3);
            let mut diag = tri.diag.take().unwrap_or(vec![2.0; size]);
            diag[rng.below(size)] = bad;
            tri.diag = Some(diag);
        }
    }
}

/// Refusal 2 by each cause.
fn bad_numbers(rng: &mut Rng, sink: &mut Sink) {
    for index in 0..120 * BAD_NUMBERS.len() {
        let mut factors = sturdy(rng);
        put_bad_number(&mut factors, index % BAD_NUMBERS.len(), rng);
        sink.factors(factors);
    }
}

/// 1 comes before 2 over both triangles: a bad number anywhere, and a bad shape in either.
fn both(rng: &mut Rng, sink: &mut Sink) {
    for index in 0..400 {
        let mut factors = sturdy(rng);
        let (upper, number) = (index % 2 == 1, index / 2 % BAD_NUMBERS.len());
        put_bad_number(&mut factors, number, rng);
        let kind = rng.below(BAD_SHAPES.len());
        put_bad_shape(side(&mut factors, upper), kind, rng);
        sink.factors(factors);
    }
}

/// A longer array is fine: what stands past the needed length is neither read nor written.
fn longer(rng: &mut Rng, sink: &mut Sink) {
    for _ in 0..300 {
        let size = rng.between(0, 8);
        let mut factors = random(rng, size, [2, 2], false);
        for tri in [&mut factors.lower, &mut factors.upper] {
            tri.starts.push(u64::MAX);
            tri.rows.push(u64::MAX);
            tri.vals.push(f64::NAN);
            if let Some(diag) = &mut tri.diag {
                diag.push(0.0);
            }
        }
        for _ in 0..rng.between(1, 3) {
            let past = rng.pick(&[f64::NAN, f64::INFINITY, -0.0, 1.0]);
            factors.values.push(past);
        }
        sink.factors(factors);
    }
}

/// The family of a pair and its number there, from its name.
fn family(factors: &Factors) -> Option<(&str, usize)> {
    let (family, index) = factors.id.split_once('.')?;
    Some((family, index.parse().ok()?))
}

/// The cause that a refused pair was made with.
fn cause(factors: &Factors) -> Option<String> {
    match family(factors)? {
        ("lu-shape", index) => Some(shape_name(index)),
        ("lu-number", index) => Some(format!("2 by {}", BAD_NUMBERS[index % BAD_NUMBERS.len()])),
        ("lu-both", _) => Some("1 before 2".into()),
        _ => None,
    }
}

/// Which triangles have a diagonal.
fn diagonals(factors: &Factors) -> &'static str {
    match (&factors.lower.diag, &factors.upper.diag) {
        (None, None) => "no diagonal",
        (Some(_), None) => "a lower diagonal",
        (None, Some(_)) => "an upper diagonal",
        (Some(_), Some(_)) => "both diagonals",
    }
}

/// Picks the pairs of the fixed list: of each family, of each cause of a refusal and of each kind of
/// result, the first ones that are short.
#[derive(Default)]
pub struct Fixed {
    taken: BTreeMap<String, usize>,
}

impl Fixed {
    pub fn takes(&mut self, factors: &Factors) -> bool {
        let answer = solve_dense(factors);
        let any = |test: fn(&f64) -> bool| answer.dense.iter().any(test);
        let kind = cause(factors).unwrap_or_else(|| {
            format!(
                "{:?} {} {} {} {}",
                family(factors).map(|(family, _)| family),
                diagonals(factors),
                factors.size().min(9),
                any(|val| val.is_nan()),
                any(|val| val.is_infinite()),
            )
        });
        let taken = self.taken.entry(kind).or_default();
        if *taken >= 2 || factors.to_string().len() > 900 {
            return false;
        }
        *taken += 1;
        true
    }
}

#[derive(Default)]
pub struct Survey {
    count: u64,
    counts: BTreeMap<String, u64>,
}

impl Survey {
    pub fn add(&mut self, factors: &Factors, answer: &FactorsAnswer) {
        self.count += 1;
        self.tick(match answer.status {
            0 => "solved",
            1 => "refusal 1",
            _ => "refusal 2",
        });
        if answer.status != 0 {
            // A pair that is refused otherwise than it was made for isn't counted under its cause.
            if let Some(cause) = cause(factors).filter(|cause| made_for(cause) == answer.status) {
                self.tick(&cause);
            }
            return;
        }
        self.tick(&format!("size {}", factors.size()));
        self.tick(diagonals(factors));
        if let Some(("lu-factored", _)) = family(factors) {
            self.tick("made by factoring");
        }
        for (tri, name) in [(&factors.lower, SIDES[0]), (&factors.upper, SIDES[1])] {
            let most = factors.size() * factors.size().saturating_sub(1) / 2;
            if most >= 10 && tri.entries * 2 > most {
                self.tick(&format!("{name} dense"));
            }
            if most >= 10 && tri.entries * 4 < most {
                self.tick(&format!("{name} sparse"));
            }
        }
        let entries = factors.lower.entries.min(factors.upper.entries);
        if factors.size() == limits::TRI_PLACES && entries > 4_500 {
            self.tick("96 places and over 4,500 entries in each");
        }
        if entries == limits::TRI_ENTRIES {
            self.tick("4,560 entries in each");
        }
        if not_finite(&after_lower(factors)) {
            self.tick("a number between that isn't finite");
        }
        let some = |test: fn(&f64) -> bool| answer.dense.iter().any(test);
        if some(|val| val.is_nan()) {
            self.tick("a NaN result");
        }
        if some(|val| val.is_infinite()) {
            self.tick("an infinite result");
        }
        if some(|val| val.to_bits() == (-0.0f64).to_bits()) {
            self.tick("a result of -0.0");
        }
        if factors.values.len() as u64 > factors.size() {
            self.tick("cells past the values");
        }
    }

    fn tick(&mut self, name: &str) {
        *self.counts.entry(name.to_string()).or_default() += 1;
    }

    pub fn table(&self) -> String {
        let mut table = format!("{} pairs of triangles\n", self.count);
        for (name, count) in &self.counts {
            if !name.starts_with("size ") {
                table += &format!("{}: {}\n", name, count);
            }
        }
        table
    }

    pub fn targets(&self) -> Vec<(String, u64, u64)> {
        let mut targets = vec![("pairs".to_string(), 12_000, self.count)];
        let mut at_least = |least: u64, name: String| {
            let count = self.counts.get(&name).copied().unwrap_or(0);
            targets.push((name, least, count));
        };
        for (least, name) in [
            (1_000, "refusal 1"),
            (500, "refusal 2"),
            (100, "1 before 2"),
            (1_000, "no diagonal"),
            (1_000, "a lower diagonal"),
            (1_000, "an upper diagonal"),
            (1_000, "both diagonals"),
            (500, "lower dense"),
            (500, "lower sparse"),
            (500, "upper dense"),
            (500, "upper sparse"),
            (40, "96 places and over 4,500 entries in each"),
            (10, "4,560 entries in each"),
            (500, "a number between that isn't finite"),
            (500, "a NaN result"),
            (500, "an infinite result"),
            (500, "a result of -0.0"),
            (200, "cells past the values"),
            (500, "made by factoring"),
        ] {
            at_least(least, name.into());
        }
        for kind in 0..2 * BAD_SHAPES.len() + BAD_SIZES.len() {
            at_least(50, shape_name(kind));
        }
        for name in BAD_NUMBERS {
            at_least(50, format!("2 by {name}"));
        }
        for size in 0..=limits::TRI_PLACES {
            at_least(100, format!("size {size}"));
        }
        targets
    }
}

/// The number of the refusal that a cause is to give.
fn made_for(cause: &str) -> u8 {
    match cause.starts_with('1') {
        true => 1,
        false => 2,
    }
}
