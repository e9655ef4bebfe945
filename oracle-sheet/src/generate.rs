//! Seeded scripts. A script's writer plays it on the reference while writing, so that it can aim:
//! at an edit that will be accepted, at a row that just holds, at a kept number one step from its
//! size. What the scripts reach is counted by `tally`, not assumed here.

use crate::reference::{self as rf, Edit, Sheet, EQ, GE, LE};
use crate::{disturb, Array, Block, Step, PLAN_ARRAYS};

/// SplitMix64: small, and the same everywhere.
pub struct Rng(u64);

impl Rng {
    pub fn new(seed: u64) -> Rng {
        Rng(seed)
    }

    pub fn draw(&mut self) -> u64 {
        self.0 = self.0.wrapping_add(0x9e37_79b9_7f4a_7c15);
        let mut z = self.0;
        z = (z ^ (z >> 30)).wrapping_mul(0xbf58_476d_1ce4_e5b9);
        z = (z ^ (z >> 27)).wrapping_mul(0x94d0_49bb_1331_11eb);
        z ^ (z >> 31)
    }

    pub fn below(&mut self, n: u64) -> u64 {
        self.draw() % n
    }

    pub fn range(&mut self, low: i64, high: i64) -> i64 {
        low + self.below((high - low + 1) as u64) as i64
    }

    /// True in so many of a hundred cases.
    pub fn chance(&mut self, percent: u64) -> bool {
        self.below(100) < percent
    }

    pub fn pick<T: Copy>(&mut self, from: &[T]) -> T {
        from[self.below(from.len() as u64) as usize]
    }
}

/// How many scripts of each sort.
#[derive(Clone, Copy, Debug)]
pub struct Scale {
    pub small: u64,
    pub damaged: u64,
    pub opening: u64,
    pub kinds: u64,
    pub limits: u64,
    pub floors: u64,
    pub edges: u64,
    pub sizes: u64,
    pub full: u64,
    /// 65 to 96 rows.
    pub tall: u64,
    pub wrecks: u64,
    /// Sheets without costs, on which no plan exists, or nearly.
    pub nones: u64,
    /// Scripts with `short` lines, which the exchange format doesn't have.
    pub short: u64,
    /// The largest kind number written.
    pub kind_max: u64,
}

/// What `sheets` writes.
pub const WHOLE: Scale = Scale {
    small: 4500,
    damaged: 5000,
    opening: 2700,
    kinds: 130,
    limits: 540,
    floors: 60,
    edges: 120,
    sizes: 200,
    full: 60,
    tall: 320,
    wrecks: 150,
    nones: 2500,
    short: 0,
    kind_max: 255,
};

/// What the fixed list was made from. The list is a file: it stays when this changes.
pub const FIXED: Scale = Scale {
    small: 100,
    damaged: 210,
    opening: 90,
    kinds: 2,
    limits: 4,
    floors: 0,
    edges: 3,
    sizes: 0,
    full: 0,
    tall: 0,
    wrecks: 4,
    nones: 0,
    short: 0,
    kind_max: 255,
};

/// What sort of numbers a sheet is made of.
#[derive(Clone, Copy)]
struct Taste {
    coef: i64,
    amount: i64,
    cost: i64,
    mult: i64,
    slack: i64,
    /// In a hundred: zero coefficients, absent bounds, wrong signs.
    zeros: u64,
    absent: u64,
    wrong: u64,
    /// Rows and bounds are kept.
    plan: bool,
    /// No absent bound is needed.
    floor: bool,
}

fn taste(rng: &mut Rng) -> Taste {
    let (coef, amount, cost, mult, slack) = rng.pick(&[
        (2, 3, 3, 3 * 1024, 3),
        (2, 3, 3, 3 * 1024, 3),
        (9, 20, 30, 9 * 1024, 40),
        (9, 20, 30, 9 * 1024, 40),
        (4096, 65536, 1 << 20, 1 << 20, 1 << 20),
    ]);
    let plan = rng.chance(75);
    let floor = rng.chance(65);
    Taste {
        coef,
        amount,
        cost,
        mult,
        slack,
        zeros: rng.pick(&[0, 30, 60]),
        absent: rng.pick(&[0, 20, 50, 100]),
        wrong: if floor { 0 } else { rng.pick(&[0, 30, 60]) },
        plan,
        floor,
    }
}

fn fit(number: i128, limit: i128) -> i64 {
    number.clamp(-limit, limit) as i64
}

fn make(rng: &mut Rng, m: usize, n: usize, t: Taste) -> Sheet {
    let mut s = Sheet {
        rows: m as u64,
        columns: n as u64,
        ..Sheet::default()
    };
    s.lend_kept();
    for _ in 0..m * n {
        let zero = rng.chance(t.zeros);
        s.coef
            .push(if zero { 0 } else { rng.range(-t.coef, t.coef) });
    }
    for _ in 0..n {
        s.amount.push(rng.range(-t.amount, t.amount));
    }
    for i in 0..m {
        let r: i128 = (0..n).map(|j| s.a(i, j) * i128::from(s.amount[j])).sum();
        let mut op = rng.pick(&[LE, LE, EQ, GE, GE]);
        let slack = if rng.chance(50) {
            0
        } else {
            i128::from(rng.range(0, t.slack))
        };
        if t.plan {
            // A right side can't follow an activity past its own limit; one direction still holds.
            if !rf::within(r, rf::RHS) {
                op = if r > 0 { GE } else { LE };
            }
            let want = match op {
                LE => r + slack,
                GE => r - slack,
                _ => r,
            };
            s.rhs.push(fit(want, rf::RHS));
        } else {
            let near = i128::from(rng.range(-t.slack, t.slack));
            s.rhs
                .push(fit(if rng.chance(50) { r + near } else { near }, rf::RHS));
        }
        s.ops.push(op);
        let mut y = rng.range(-t.mult, t.mult);
        if rng.chance(50) {
            y = y / 1024 * 1024;
        }
        if rng.chance(15) {
            y = 0;
        }
        if !rng.chance(t.wrong) {
            y = match op {
                LE => -y.abs(),
                GE => y.abs(),
                _ => y,
            };
        }
        s.mult.push(y);
    }
    for j in 0..n {
        let sum: i128 = (0..m).map(|i| s.a(i, j) * i128::from(s.mult[i])).sum();
        let mut cost = i128::from(rng.range(-t.cost, t.cost));
        if rng.chance(50) && rf::within(sum / 1024, rf::COST - 1) {
            // A price of 0, or near it.
            cost = sum / 1024 + i128::from(rng.pick(&[0, 0, 1, -1]));
        }
        s.cost.push(cost as i64);
        let d = 1024 * cost - sum;
        let x = s.amount[j];
        let (mut low, mut up) = if t.plan {
            let below = if rng.chance(35) {
                0
            } else {
                rng.range(0, t.amount)
            };
            let above = if rng.chance(35) {
                0
            } else {
                rng.range(0, t.amount)
            };
            (x - below, x + above)
        } else {
            let a = rng.range(-t.amount, t.amount);
            let b = rng.range(-t.amount, t.amount);
            (a.min(b), a.max(b))
        };
        low = fit(i128::from(low), rf::BOUND);
        up = fit(i128::from(up), rf::BOUND);
        let mut has_low = !rng.chance(t.absent);
        let mut has_up = !rng.chance(t.absent);
        if t.floor {
            has_low = has_low || d > 0;
            has_up = has_up || d < 0;
        }
        s.lower.push(if has_low { low } else { 0 });
        s.upper.push(if has_up { up } else { 0 });
        s.haslow.push(u8::from(has_low));
        s.hasup.push(u8::from(has_up));
    }
    s
}

/// A block and the sheet as it stands after what was written so far.
struct Script {
    block: Block,
    live: Sheet,
}

impl Script {
    fn open(id: String, sheet: Sheet) -> Script {
        let mut live = sheet.clone();
        rf::open(&mut live);
        Script {
            block: Block {
                id,
                sheet,
                steps: Vec::new(),
            },
            live,
        }
    }

    fn edit(&mut self, edit: Edit) -> u8 {
        self.block.steps.push(Step::Edit(edit));
        rf::edit(&mut self.live, edit)
    }

    fn step(&mut self, step: Step) {
        disturb(&mut self.live, &step);
        self.block.steps.push(step);
    }

    fn poke(&mut self, array: Array, index: usize, number: i64) {
        self.step(Step::Poke(array, index, number));
    }
}

/// A number that is in no one's way: kinds 8 and 9 take any, and refused edits may hold any.
fn wild(rng: &mut Rng) -> i64 {
    let any = rng.draw() as i64;
    let near = rng.range(-70000, 70000);
    rng.pick(&[0, 1, -1, 65537, -65537, i64::MAX, i64::MIN, near, near, any])
}

/// An index that the kind doesn't use.
fn stray(rng: &mut Rng) -> u64 {
    let any = rng.draw();
    rng.pick(&[0, 0, 0, 1, 63, 64, 128, 1 << 32, u64::MAX, any])
}

fn over(rng: &mut Rng, limit: i128) -> i64 {
    let limit = limit as i64;
    let more = rng.range(1, 1 << 20);
    rng.pick(&[
        limit + 1,
        limit + 1,
        -limit - 1,
        -limit - 1,
        limit + more,
        -limit - more,
        i64::MAX,
        i64::MIN,
    ])
}

/// An edit of the kind that a sound sheet accepts, most often near where something changes: an
/// amount at its bound, a right side at its activity, a price at 0.
fn likely(rng: &mut Rng, s: &Sheet, kind: u64) -> Option<Edit> {
    let (m, n) = (s.rows, s.columns);
    if (rf::uses_column(kind) && n == 0) || (rf::uses_row(kind) && m == 0) {
        return None;
    }
    let i = if m > 0 { rng.below(m) as usize } else { 0 };
    let j = if n > 0 { rng.below(n) as usize } else { 0 };
    let little = i128::from(rng.range(-1, 1));
    let small = i128::from(rng.range(-20, 20));
    let wide = rng.chance(6);
    let edge = rng.pick(&[1, -1]);
    let number: i128 = match kind {
        1 => {
            let x = i128::from(s.amount[j]);
            if wide {
                edge * rf::AMOUNT
            } else {
                match rng.below(7) {
                    0 => x + small,
                    1 => i128::from(s.lower[j]) + little,
                    2 => i128::from(s.upper[j]) + little,
                    3 => small,
                    4 => x,
                    5 => x + little,
                    _ if m > 0 && s.a(i, j) != 0 => {
                        let rest = i128::from(s.rhs[i]) - s.kept.r[i];
                        x + rest / s.a(i, j) + rng.pick(&[0, 0, 1, -1])
                    }
                    _ => x + little,
                }
            }
        }
        2 => {
            let c = i128::from(s.cost[j]);
            if wide {
                edge * rf::COST
            } else {
                match rng.below(5) {
                    0 => c + small,
                    1 => small,
                    2 => c,
                    _ => c - s.kept.d[j] / 1024 + rng.pick(&[0, 0, 1, -1]),
                }
            }
        }
        3 | 4 => {
            let x = i128::from(s.amount[j]);
            let other = i128::from(if kind == 3 { s.upper[j] } else { s.lower[j] });
            let want = if wide {
                edge * rf::BOUND
            } else {
                match rng.below(4) {
                    0 => small,
                    1 => other,
                    2 => x + little,
                    _ => x + if kind == 3 { -small.abs() } else { small.abs() },
                }
            };
            let b = s.bounds(j);
            if kind == 3 && b.has_up {
                want.min(b.up)
            } else if kind == 4 && b.has_low {
                want.max(b.low)
            } else {
                want
            }
        }
        5 => {
            if wide {
                edge * rf::RHS
            } else {
                match rng.below(4) {
                    0 => i128::from(s.rhs[i]) + small,
                    1 => small,
                    _ => s.kept.r[i] + little,
                }
            }
        }
        6 => {
            if wide {
                edge * rf::COEF
            } else {
                match rng.below(4) {
                    0 => 0,
                    1 => s.a(i, j),
                    2 => s.a(i, j) + little,
                    _ => i128::from(rng.range(-4, 4)),
                }
            }
        }
        7 => {
            let y = i128::from(s.mult[i]);
            if wide {
                edge * rf::MULT
            } else {
                match rng.below(6) {
                    0 => 0,
                    5 => -y,
                    1 => y + 1024 * little,
                    2 => 64 * small,
                    3 => little,
                    _ if n > 0 && s.a(i, j) != 0 => {
                        y + s.kept.d[j] / s.a(i, j) + rng.pick(&[0, 0, 1, -1])
                    }
                    _ => y,
                }
            }
        }
        _ => i128::from(wild(rng)),
    };
    let number = match rf::number_limit(kind) {
        Some(limit) => fit(number, limit),
        None => number as i64,
    };
    let row = if rf::uses_row(kind) {
        i as u64
    } else {
        stray(rng)
    };
    let column = if rf::uses_column(kind) {
        j as u64
    } else {
        stray(rng)
    };
    Some(Edit {
        kind,
        row,
        column,
        number,
    })
}

/// An edit that takes something wrong away, so that plans and floors come back.
fn repair(rng: &mut Rng, s: &Sheet) -> Option<Edit> {
    let mut found = Vec::new();
    for j in 0..s.columns as usize {
        let b = s.bounds(j);
        let x = i128::from(s.amount[j]);
        let at = |kind, number: i128| Edit {
            kind,
            row: 0,
            column: j as u64,
            number: number as i64,
        };
        if b.has_low && x < b.low {
            found.push(at(1, b.low));
            found.push(at(3, x));
        }
        if b.has_up && x > b.up {
            found.push(at(1, b.up));
            found.push(at(4, x));
        }
        if rf::bound_needed(s.kept.d[j], b) == 1 {
            found.push(at(if s.kept.d[j] > 0 { 3 } else { 4 }, x));
        }
    }
    for i in 0..s.rows as usize {
        let at = |kind, number| Edit {
            kind,
            row: i as u64,
            column: 0,
            number,
        };
        if rf::row_broken(s.ops[i], s.kept.r[i], i128::from(s.rhs[i])) == 1 {
            found.push(at(5, fit(s.kept.r[i], rf::RHS)));
        }
        if rf::wrong_sign(s.ops[i], i128::from(s.mult[i])) == 1 {
            found.push(at(7, 0));
            found.push(at(7, s.mult[i].wrapping_neg()));
        }
    }
    if found.is_empty() {
        None
    } else {
        Some(rng.pick(&found))
    }
}

/// An edit that is to be refused with the given number, with later reasons beside it as often as
/// not, so that the order of the refusals is tried too.
fn faulty(rng: &mut Rng, s: &Sheet, kind: u64, wish: u8) -> Option<Edit> {
    match wish {
        11 => {
            let limit = rf::number_limit(kind).unwrap_or(1 << 40);
            let number = if rng.chance(50) {
                over(rng, limit)
            } else {
                rng.range(-3, 3)
            };
            let far = rng.draw();
            let more = rng.pick(&[0, 0, 1, 2, 63, 1 << 32, far >> 1]);
            let past_row = rng.pick(&[s.rows + more, u64::MAX]);
            let past_column = rng.pick(&[s.columns + more, u64::MAX]);
            let good_row = s.rows.saturating_sub(1);
            let good_column = s.columns.saturating_sub(1);
            // Kind 6 has two indices: the row, the column or both may be bad.
            let which = rng.below(3);
            let (row, column) = if kind == 6 {
                (
                    if which == 1 { good_row } else { past_row },
                    if which == 0 { good_column } else { past_column },
                )
            } else if rf::uses_row(kind) {
                (past_row, stray(rng))
            } else {
                (stray(rng), past_column)
            };
            Some(Edit {
                kind,
                row,
                column,
                number,
            })
        }
        12 => {
            let limit = rf::number_limit(kind)?;
            let edit = likely(rng, s, kind)?;
            Some(Edit {
                number: over(rng, limit),
                ..edit
            })
        }
        _ => {
            // 13: any column whose other bound is present and leaves room past it.
            let mut found = Vec::new();
            for j in 0..s.columns as usize {
                let b = s.bounds(j);
                if kind == 3 && b.has_up && b.up < rf::BOUND {
                    let more = rng.pick(&[1, 1, 2, 50, rf::BOUND]);
                    found.push((j, (b.up + more).min(rf::BOUND)));
                }
                if kind == 4 && b.has_low && b.low > -rf::BOUND {
                    let more = rng.pick(&[1, 1, 2, 50, rf::BOUND]);
                    found.push((j, (b.low - more).max(-rf::BOUND)));
                }
            }
            if found.is_empty() {
                return None;
            }
            let (j, number) = rng.pick(&found);
            Some(Edit {
                kind,
                row: stray(rng),
                column: j as u64,
                number: number as i64,
            })
        }
    }
}

/// Kinds that are kept for later, and those that will never be.
fn other_kind(rng: &mut Rng, s: &Sheet, kind_max: u64) -> Edit {
    let later = rng.range(10, 31) as u64;
    let above = 33 + rng.below((kind_max - 32).max(1));
    let kind = rng.pick(&[
        0, later, later, later, later, later, 31, 10, 32, kind_max, above,
    ]);
    other_edit(rng, s, kind)
}

fn other_edit(rng: &mut Rng, s: &Sheet, kind: u64) -> Edit {
    let row = if rng.chance(50) {
        s.rows / 2
    } else {
        stray(rng)
    };
    let column = if rng.chance(50) {
        s.columns / 2
    } else {
        stray(rng)
    };
    Edit {
        kind,
        row,
        column,
        number: wild(rng),
    }
}

/// One edit as a user might try it, on whatever the sheet is.
fn common_edit(rng: &mut Rng, script: &mut Script, kind_max: u64) {
    if let Some(edit) = some_edit(rng, &script.live, kind_max) {
        script.edit(edit);
    }
}

pub(crate) fn some_edit(rng: &mut Rng, s: &Sheet, kind_max: u64) -> Option<Edit> {
    let kind = rng.range(1, 9) as u64;
    let roll = rng.below(100);
    let edit = if roll < 5 {
        faulty(rng, s, kind, 11)
    } else if roll < 11 {
        faulty(rng, s, kind, 12)
    } else if roll < 14 {
        let kind = rng.pick(&[3, 4]);
        faulty(rng, s, kind, 13)
    } else if roll < 18 {
        Some(other_kind(rng, s, kind_max))
    } else if roll < 40 {
        repair(rng, s).or_else(|| likely(rng, s, kind))
    } else {
        likely(rng, s, kind)
    };
    // A sheet with no rows or no columns has no such cell: the index is then bad.
    edit.or_else(|| faulty(rng, s, kind, 11))
}

fn small_size(rng: &mut Rng) -> (usize, usize) {
    let most = rng.pick(&[1, 2, 2, 3, 3, 4, 6]);
    let m = rng.range(1, most) as usize;
    let n = rng.range(1, most + 1) as usize;
    (m, n)
}

/// Longer arrays than the size needs, with cells that no opening would take: they are no part of
/// the sheet.
fn lengthen(rng: &mut Rng, s: &mut Sheet) {
    for array in PLAN_ARRAYS {
        if rng.chance(60) {
            let old = s.length(array);
            let new = old + 1 + rng.below(3) as usize;
            s.lend(array, new);
            for index in old..new {
                let number = if array.of_bytes() {
                    rng.range(2, 255)
                } else {
                    wild(rng)
                };
                s.write(array, index, number);
            }
        }
    }
}

fn small_script(rng: &mut Rng, id: String, scale: &Scale) -> Block {
    let (m, n) = small_size(rng);
    let t = taste(rng);
    let mut sheet = make(rng, m, n, t);
    if rng.chance(8) {
        lengthen(rng, &mut sheet);
    }
    let mut script = Script::open(id, sheet);
    for _ in 0..rng.range(5, 13) {
        common_edit(rng, &mut script, scale.kind_max);
    }
    script.block
}

/// A place that 14 looks at before the given edit, and a number that breaks its limit there.
fn bad_spot(rng: &mut Rng, s: &Sheet, edit: Edit) -> Option<(Array, usize, i64)> {
    let (m, n) = (s.rows as usize, s.columns as usize);
    let spots = [
        Array::Coef,
        Array::Coef,
        Array::Cost,
        Array::Lower,
        Array::Upper,
        Array::Haslow,
        Array::Hasup,
        Array::Rhs,
        Array::Ops,
        Array::Amount,
        Array::Mult,
        Array::R,
        Array::D,
        Array::C,
        Array::B,
        Array::Counts,
        Array::Counts,
        Array::Counts,
    ];
    // Kind 6 alone has a row and a column to look along.
    let array = if edit.kind == 6 && rng.chance(30) {
        Array::Coef
    } else {
        rng.pick(&spots)
    };
    let of_rows = matches!(
        array,
        Array::Coef | Array::Rhs | Array::Ops | Array::Mult | Array::R
    );
    if (m == 0 && of_rows) || n == 0 {
        return None;
    }
    let i = rng.below(m.max(1) as u64) as usize;
    let j = rng.below(n.max(1) as u64) as usize;
    Some(match array {
        Array::Coef => {
            let along_row =
                rf::uses_row(edit.kind) && (!rf::uses_column(edit.kind) || rng.chance(50));
            let (row, column) = if along_row {
                (edit.row as usize, j)
            } else {
                (i, edit.column as usize)
            };
            (array, row * n + column, over(rng, rf::COEF))
        }
        Array::Cost => (array, j, over(rng, rf::COST)),
        Array::Lower | Array::Upper => {
            let mark = if array == Array::Lower {
                s.haslow[j]
            } else {
                s.hasup[j]
            };
            let number = if mark == 1 {
                over(rng, rf::BOUND)
            } else {
                rng.pick(&[1, -1, 5, 65536, 65537])
            };
            (array, j, number)
        }
        Array::Haslow | Array::Hasup => {
            let bound = if array == Array::Haslow {
                s.lower[j]
            } else {
                s.upper[j]
            };
            // A bound marked absent while its number stays is broken as well.
            let mark = rng.range(2, 255);
            let mark = if bound != 0 && rng.chance(30) {
                0
            } else {
                mark
            };
            (array, j, mark)
        }
        Array::Rhs => (array, i, over(rng, rf::RHS)),
        Array::Ops => (array, i, rng.pick(&[3, 3, 4, 128, 255])),
        Array::Amount => (array, j, over(rng, rf::AMOUNT)),
        Array::Mult => (array, i, over(rng, rf::MULT)),
        Array::R => (array, i, over(rng, rf::KEPT_R)),
        Array::D => (array, j, over(rng, rf::KEPT_D)),
        Array::C => (array, 0, over(rng, rf::KEPT_C)),
        Array::B => (array, 0, over(rng, rf::KEPT_B)),
        Array::Counts => {
            let k = rng.below(4) as usize;
            let most = if k % 2 == 0 { m } else { n } as i64;
            let number = rng.pick(&[-1, -1, most + 1, most + 1, i64::MIN, i64::MAX, 200]);
            (array, k, number)
        }
    })
}

/// Kept numbers off by some amount within their sizes: the next edits move wrong numbers.
fn gentle_keep(rng: &mut Rng, script: &mut Script) {
    let s = script.live.clone();
    for (array, limit) in [
        (Array::R, rf::KEPT_R),
        (Array::D, rf::KEPT_D),
        (Array::C, rf::KEPT_C),
        (Array::B, rf::KEPT_B),
    ] {
        if !rng.chance(60) || s.length(array) == 0 {
            continue;
        }
        let mut cells = Vec::new();
        for index in 0..s.length(array) {
            let old = s.read(array, index);
            let small = i128::from(rng.range(-4, 4));
            let any = (i128::from(rng.draw() as i64) * limit) >> 63;
            let new = match rng.below(5) {
                0 => old,
                1 => old + small,
                2 => -old,
                3 => any,
                _ => small,
            };
            cells.push(fit(new, limit));
        }
        script.step(Step::Keep(array, cells));
    }
    if rng.chance(60) {
        let mut cells = Vec::new();
        for k in 0..4 {
            let most = if k % 2 == 0 { s.rows } else { s.columns } as i64;
            let old = s.kept.counts[k] as i64;
            let any = rng.range(0, most);
            cells.push(rng.pick(&[0, old, old, any]));
        }
        script.step(Step::Keep(Array::Counts, cells));
    }
}

/// The kept cells that an accepted edit moves: place, number before, number after.
fn moves(before: &Sheet, after: &Sheet) -> Vec<(Array, usize, i128, i128)> {
    let mut found = Vec::new();
    for array in crate::KEPT_ARRAYS {
        for index in 0..before.length(array) {
            let (old, new) = (before.read(array, index), after.read(array, index));
            if old != new {
                found.push((array, index, old, new));
            }
        }
    }
    found
}

/// Puts a kept number so close to its size that the edit brings it exactly there, or just past it.
fn push_past(rng: &mut Rng, script: &mut Script, kind: u64) {
    let Some(edit) = likely(rng, &script.live, kind) else {
        return;
    };
    let Ok(after) = rf::tried(&script.live, edit) else {
        return;
    };
    let found = moves(&script.live, &after);
    if found.is_empty() {
        return;
    }
    // One of the arrays first, so that long ones don't crowd out the others.
    let mut arrays: Vec<Array> = found.iter().map(|f| f.0).collect();
    arrays.dedup();
    let array = rng.pick(&arrays);
    let of_array: Vec<_> = found.into_iter().filter(|f| f.0 == array).collect();
    let (_, index, old, new) = rng.pick(&of_array);
    let (low, high) = match array {
        Array::R => (-rf::KEPT_R, rf::KEPT_R),
        Array::D => (-rf::KEPT_D, rf::KEPT_D),
        Array::C => (-rf::KEPT_C, rf::KEPT_C),
        Array::B => (-rf::KEPT_B, rf::KEPT_B),
        _ => {
            let most = if index % 2 == 0 {
                script.live.rows
            } else {
                script.live.columns
            };
            (0, i128::from(most))
        }
    };
    let change = new - old;
    let end = if change > 0 { high } else { low };
    let one = change.signum();
    let from = match rng.below(3) {
        0 => end - change,
        1 => end - change + one,
        _ => end,
    };
    if from < low || from > high {
        return;
    }
    script.poke(array, index, from as i64);
    let status = script.edit(edit);
    if status != 0 && rng.chance(75) {
        script.poke(array, index, old as i64);
    }
}

/// Breaks a limit somewhere, tries an edit, and most often mends it again.
fn break_and_try(rng: &mut Rng, script: &mut Script, kind: u64, kind_max: u64) -> bool {
    let Some(edit) = likely(rng, &script.live, kind) else {
        return true;
    };
    let Some((array, index, number)) = bad_spot(rng, &script.live, edit) else {
        return true;
    };
    let old = script.live.read(array, index) as i64;
    script.poke(array, index, number);
    // Earlier refusals must not be hidden by 14, nor it by them.
    if rng.chance(30) {
        let s = script.live.clone();
        let wish = rng.pick(&[11, 12, 13, 16]);
        let kind = if wish == 13 { rng.pick(&[3, 4]) } else { kind };
        let first = if wish == 16 {
            Some(other_kind(rng, &s, kind_max))
        } else {
            faulty(rng, &s, kind, wish)
        };
        if let Some(first) = first {
            script.edit(first);
        }
    }
    script.edit(edit);
    if rng.chance(85) {
        script.poke(array, index, old);
        true
    } else {
        false
    }
}

/// A coefficient outside the edited row and column may be anything: nothing reads it.
fn unseen_coef(rng: &mut Rng, script: &mut Script, kind: u64) {
    let Some(edit) = likely(rng, &script.live, kind) else {
        return;
    };
    let (m, n) = (script.live.rows, script.live.columns);
    if m == 0 || n == 0 {
        return;
    }
    let (i, j) = (rng.below(m), rng.below(n));
    if (rf::uses_row(kind) && edit.row == i) || (rf::uses_column(kind) && edit.column == j) {
        return;
    }
    let index = (i * n + j) as usize;
    let old = script.live.coef[index];
    let number = over(rng, rf::COEF);
    script.poke(Array::Coef, index, number);
    script.edit(edit);
    script.poke(Array::Coef, index, old);
}

/// A plan cell changed behind the kept numbers' back, within its limit; bounds may even cross.
fn sly_poke(rng: &mut Rng, script: &mut Script) {
    let s = &script.live;
    let (m, n) = (s.rows as usize, s.columns as usize);
    if m == 0 || n == 0 {
        return;
    }
    let (i, j) = (rng.below(m as u64) as usize, rng.below(n as u64) as usize);
    let small = rng.range(-9, 9);
    let (array, index) = rng.pick(&[
        (Array::Coef, i * n + j),
        (Array::Cost, j),
        (Array::Lower, j),
        (Array::Upper, j),
        (Array::Rhs, i),
        (Array::Ops, i),
        (Array::Amount, j),
        (Array::Mult, i),
    ]);
    let number = match array {
        Array::Ops => rng.range(0, 2),
        Array::Lower if s.haslow[j] != 1 => 0,
        Array::Upper if s.hasup[j] != 1 => 0,
        _ => small,
    };
    script.poke(array, index, number);
}

fn damaged_script(rng: &mut Rng, id: String, scale: &Scale) -> Block {
    let (m, n) = small_size(rng);
    let t = taste(rng);
    let mut sheet = make(rng, m, n, t);
    if rng.chance(5) {
        lengthen(rng, &mut sheet);
    }
    let mut script = Script::open(id, sheet);
    if rng.chance(40) {
        gentle_keep(rng, &mut script);
    }
    for _ in 0..rng.range(3, 9) {
        let kind = rng.range(1, 9) as u64;
        match rng.below(11) {
            10 => unknown_mark(rng, &mut script),
            0..=2 => push_past(rng, &mut script, kind),
            3..=5 => {
                if !break_and_try(rng, &mut script, kind, scale.kind_max) {
                    common_edit(rng, &mut script, scale.kind_max);
                    break;
                }
            }
            6 => unseen_coef(rng, &mut script, kind),
            7 => {
                sly_poke(rng, &mut script);
                common_edit(rng, &mut script, scale.kind_max);
            }
            _ => common_edit(rng, &mut script, scale.kind_max),
        }
    }
    script.block
}

/// 13 asks for a bound that is present, and an unknown mark isn't that: such an edit gives 14.
fn unknown_mark(rng: &mut Rng, script: &mut Script) {
    let kind = rng.pick(&[3, 4]);
    let s = script.live.clone();
    let Some(edit) = faulty(rng, &s, kind, 13) else {
        return;
    };
    let mark = if kind == 3 {
        Array::Hasup
    } else {
        Array::Haslow
    };
    let number = rng.range(2, 255);
    script.poke(mark, edit.column as usize, number);
    script.edit(edit);
    script.poke(mark, edit.column as usize, 1);
    script.edit(edit);
}

/// A sheet that was opened, and of which nothing is sound any more: the calls still answer.
fn wreck_script(rng: &mut Rng, id: String) -> Block {
    let (m, n) = small_size(rng);
    let t = taste(rng);
    let sheet = make(rng, m, n, t);
    let mut script = Script::open(id, sheet);
    let s = script.live.clone();
    let any = |rng: &mut Rng| {
        let far = rng.draw() as i64;
        rng.pick(&[i64::MAX, i64::MIN, i64::MIN + 1, far, far >> 20, -1, 0])
    };
    // Kept cells alone, plan cells alone, or all.
    let part = rng.below(3);
    if part != 1 {
        for array in crate::KEPT_ARRAYS {
            let cells = (0..s.length(array)).map(|_| any(rng)).collect();
            script.step(Step::Keep(array, cells));
        }
    }
    if part != 0 {
        for array in PLAN_ARRAYS {
            for index in 0..s.length(array) {
                let number = if array.of_bytes() {
                    rng.range(0, 255)
                } else {
                    any(rng)
                };
                script.poke(array, index, number);
            }
        }
    }
    for kind in 1..=9 {
        let edit = likely(rng, &s, kind).expect("a small sheet has a row and a column");
        script.edit(edit);
        if rng.chance(30) {
            let edit = other_edit(rng, &s, kind);
            script.edit(edit);
        }
    }
    script.block
}

/// Lends an array one cell less than the size needs, or none. `None` where it needs none.
fn shorten(rng: &mut Rng, s: &mut Sheet, array: Array) -> Option<usize> {
    let (m, n) = (s.rows as usize, s.columns as usize);
    let needed = match array {
        // The size may be any number here, and is then reason enough by itself.
        Array::Coef => m.saturating_mul(n),
        Array::Rhs | Array::Ops | Array::Mult | Array::R => m,
        _ => n,
    };
    if needed == 0 {
        return None;
    }
    Some(if rng.chance(70) {
        needed - 1
    } else {
        rng.below(needed as u64) as usize
    })
}

/// Openings: `turn` goes through the reasons, so that each comes as often as the others.
fn opening_script(rng: &mut Rng, id: String, turn: u64) -> Block {
    let (m, n) = small_size(rng);
    let t = taste(rng);
    let mut s = make(rng, m, n, t);
    let i = rng.below(m as u64) as usize;
    let j = rng.below(n as u64) as usize;
    let reasons = 30;
    let mut reason = turn % reasons;
    // A second reason beside the first, now and then: the lowest number must win.
    let mut left = if rng.chance(25) { 2 } else { 1 };
    while left > 0 {
        match reason {
            0..=9 => {
                let array = PLAN_ARRAYS[reason as usize];
                if let Some(length) = shorten(rng, &mut s, array) {
                    s.lend(array, length.min(s.length(array)));
                }
            }
            10 | 11 => {
                // Sizes past the limit, with arrays long enough as often as not, and sizes whose
                // product wraps.
                let far = rng.draw();
                let (rows, columns) = if reason == 10 {
                    (
                        rng.pick(&[65, 65, 66, 96, 1000, 1 << 32, u64::MAX, far]),
                        s.columns,
                    )
                } else {
                    (
                        s.rows,
                        rng.pick(&[129, 129, 130, 200, 1000, 1 << 32, u64::MAX, far]),
                    )
                };
                let (rows, columns) = if rng.chance(20) {
                    rng.pick(&[(1 << 32, 1 << 32), (1 << 58, 64), (u64::MAX, 2)])
                } else {
                    (rows, columns)
                };
                s.rows = rows.max(s.rows);
                s.columns = columns.max(s.columns);
                s.lend_kept();
                if s.rows <= 200 && s.columns <= 200 && rng.chance(60) {
                    let (m, n) = (s.rows as usize, s.columns as usize);
                    s.lend(Array::Coef, m * n);
                    for array in [Array::Rhs, Array::Ops, Array::Mult] {
                        s.lend(array, m);
                    }
                    for array in [
                        Array::Cost,
                        Array::Lower,
                        Array::Upper,
                        Array::Haslow,
                        Array::Hasup,
                        Array::Amount,
                    ] {
                        s.lend(array, n);
                    }
                }
            }
            12..=23 => {
                let (array, index, number) = match reason {
                    12 => (Array::Coef, i * n + j, over(rng, rf::COEF)),
                    13 => (Array::Cost, j, over(rng, rf::COST)),
                    14 => {
                        if s.haslow.len() > j {
                            s.haslow[j] = 1;
                        }
                        (Array::Lower, j, over(rng, rf::BOUND))
                    }
                    15 => {
                        if s.hasup.len() > j {
                            s.hasup[j] = 1;
                        }
                        (Array::Upper, j, over(rng, rf::BOUND))
                    }
                    16 => (Array::Haslow, j, rng.pick(&[2, 2, 3, 128, 255])),
                    17 => (Array::Hasup, j, rng.pick(&[2, 2, 3, 128, 255])),
                    18 => (Array::Rhs, i, over(rng, rf::RHS)),
                    19 => (Array::Ops, i, rng.pick(&[3, 3, 4, 128, 255])),
                    20 => (Array::Amount, j, over(rng, rf::AMOUNT)),
                    21 => (Array::Mult, i, over(rng, rf::MULT)),
                    22 => {
                        if s.haslow.len() > j {
                            s.haslow[j] = 0;
                        }
                        (Array::Lower, j, rng.pick(&[1, -1, 7, 65536]))
                    }
                    _ => {
                        if s.hasup.len() > j {
                            s.hasup[j] = 0;
                        }
                        (Array::Upper, j, rng.pick(&[1, -1, 7, 65536]))
                    }
                };
                if index < s.length(array) {
                    s.write(array, index, number);
                }
            }
            24..=26 => {
                let up = rng.range(-65536, 65535);
                let low = up + rng.range(1, (65536 - up).min(50));
                for (array, number) in [
                    (Array::Haslow, 1),
                    (Array::Hasup, 1),
                    (Array::Lower, low),
                    (Array::Upper, up),
                ] {
                    if j < s.length(array) {
                        s.write(array, j, number);
                    }
                }
            }
            27 => {
                // Accepted: a bound crosses an absent one's 0, which is no bound.
                let number = rng.range(1, 65536);
                let (array, mark, other, other_mark, number) = if rng.chance(50) {
                    (
                        Array::Lower,
                        Array::Haslow,
                        Array::Upper,
                        Array::Hasup,
                        number,
                    )
                } else {
                    (
                        Array::Upper,
                        Array::Hasup,
                        Array::Lower,
                        Array::Haslow,
                        -number,
                    )
                };
                for (array, number) in [(array, number), (mark, 1), (other, 0), (other_mark, 0)] {
                    if j < s.length(array) {
                        s.write(array, j, number);
                    }
                }
            }
            28 => {
                // Accepted: one number exactly at its limit.
                let edge = rng.pick(&[1, -1]);
                let (array, index, limit) = rng.pick(&[
                    (Array::Coef, i * n + j, rf::COEF),
                    (Array::Cost, j, rf::COST),
                    (Array::Rhs, i, rf::RHS),
                    (Array::Amount, j, rf::AMOUNT),
                    (Array::Mult, i, rf::MULT),
                ]);
                if index < s.length(array) {
                    s.write(array, index, edge * limit as i64);
                }
            }
            _ => lengthen(rng, &mut s),
        }
        left -= 1;
        reason = rng.below(reasons);
    }
    let mut script = Script::open(id, s);
    let refused = rf::opening_refusal(&script.block.sheet) != 0;
    let live = script.live.clone();
    if refused {
        // Written but not tried.
        let edit = other_edit(rng, &live, 1);
        script.block.steps.push(Step::Edit(edit));
    } else {
        for _ in 0..2 {
            common_edit(rng, &mut script, 255);
        }
    }
    script.block
}

/// All kinds that no edit has, each once.
fn kinds_script(rng: &mut Rng, id: String, scale: &Scale) -> Block {
    let (m, n) = small_size(rng);
    let t = taste(rng);
    let sheet = make(rng, m, n, t);
    let mut script = Script::open(id, sheet);
    let mut kinds: Vec<u64> = (10..=31).collect();
    let above = 33 + rng.below((scale.kind_max - 32).max(1));
    kinds.extend([0, 32, above, scale.kind_max]);
    for k in (1..kinds.len()).rev() {
        kinds.swap(k, rng.below(k as u64 + 1) as usize);
    }
    for kind in kinds {
        let edit = other_edit(rng, &script.live, kind);
        script.edit(edit);
    }
    script.block
}

/// Sheets whose sums are as large as they can be: 128 columns with every number at its limit
/// makes R exactly 2^35 and C exactly 2^43.
fn limits_script(rng: &mut Rng, id: String) -> Block {
    let (m, n) = (rng.pick(&[1, 1, 1, 2, 3]), 128usize);
    let mut s = Sheet {
        rows: m as u64,
        columns: n as u64,
        ..Sheet::default()
    };
    s.lend_kept();
    let sense = rng.pick(&[1, -1]);
    let dear = rng.pick(&[1, -1]);
    let signs: Vec<i64> = (0..n).map(|_| rng.pick(&[1, -1])).collect();
    for i in 0..m {
        for sign in &signs {
            // Row 0 is the full one.
            let full = i == 0 || rng.chance(90);
            s.coef.push(if full { sense * sign * 4096 } else { 0 });
        }
        s.rhs.push(sense << 31);
        s.ops.push(if rng.chance(70) {
            if sense > 0 {
                GE
            } else {
                LE
            }
        } else {
            rng.pick(&[LE, EQ, GE])
        });
        s.mult
            .push(rng.pick(&[sense << 20, sense << 20, -(sense << 20), 0]));
    }
    for sign in &signs {
        s.amount.push(sign << 16);
        s.cost.push(dear * (sign << 20));
        let wide = rng.chance(50);
        s.lower.push(if wide { -65536 } else { sign << 16 });
        s.upper.push(if wide { 65536 } else { sign << 16 });
        s.haslow.push(1);
        s.hasup.push(1);
    }
    // Half of them get to the limit by an edit.
    let j = rng.below(n as u64);
    let late = rng.chance(50);
    let last = s.amount[j as usize];
    if late {
        s.amount[j as usize] -= last.signum();
        s.lower[j as usize] = -65536;
        s.upper[j as usize] = 65536;
    }
    let mut script = Script::open(id, s);
    if late {
        script.edit(Edit {
            kind: 1,
            row: 0,
            column: j,
            number: last,
        });
    }
    for _ in 0..rng.range(2, 4) {
        if rng.chance(30) {
            common_edit(rng, &mut script, 255);
            continue;
        }
        // From one limit to the other, or to 0.
        let kind = rng.range(1, 7) as u64;
        let limit = rf::number_limit(kind).unwrap() as i64;
        let number = rng.pick(&[limit, -limit, limit - 1, 1 - limit, 0, limit + 1]);
        let edit = Edit {
            kind,
            row: rng.below(m as u64),
            column: rng.below(n as u64),
            number,
        };
        script.edit(edit);
    }
    script.block
}

/// The largest floor a true sheet can have: 3 * 2^60 + 3 * 2^56 + 2^53, with all 96 rows and 128 columns.
fn floor_script(rng: &mut Rng, id: String) -> Block {
    let (m, n) = (rf::ROWS as usize, rf::COLUMNS as usize);
    let mut s = Sheet {
        rows: rf::ROWS,
        columns: rf::COLUMNS,
        ..Sheet::default()
    };
    s.lend_kept();
    let high = rng.pick(&[1, -1]);
    let rows: Vec<i64> = (0..m).map(|_| rng.pick(&[1, -1])).collect();
    let prices: Vec<i64> = (0..n).map(|_| rng.pick(&[1, -1])).collect();
    for row in &rows {
        for price in &prices {
            s.coef.push(-price * row * 4096);
        }
        s.mult.push(row << 20);
        s.rhs.push(high * (row << 31));
        s.ops.push(if *row > 0 { GE } else { LE });
    }
    for price in &prices {
        let bound = high * (price << 16);
        s.cost.push(price << 20);
        s.lower.push(bound);
        s.upper.push(bound);
        s.haslow.push(1);
        s.hasup.push(1);
        s.amount.push(bound);
    }
    let mut script = Script::open(id, s);
    for _ in 0..rng.range(2, 4) {
        let kind = rng.pick(&[2, 3, 4, 5, 6, 7, 7, 8, 9]);
        let limit = rf::number_limit(kind).unwrap_or(0) as i64;
        let number = rng.pick(&[limit, -limit, 0, limit - 1, 1 - limit]);
        let edit = Edit {
            kind,
            row: rng.below(rf::ROWS),
            column: rng.below(rf::COLUMNS),
            number,
        };
        script.edit(edit);
    }
    script.block
}

/// Kept prices and floor at their sizes, 128 columns at the largest bounds, and a multiplier that
/// moves: the old terms alone, or the new ones alone, would carry B past 64 bits midway.
fn edge_script(rng: &mut Rng, id: String) -> Block {
    let (m, n) = (rng.pick(&[1usize, 1, 2]), 128usize);
    let mut s = Sheet {
        rows: m as u64,
        columns: n as u64,
        ..Sheet::default()
    };
    s.lend_kept();
    let high = rng.pick(&[1, -1]);
    let prices: Vec<i64> = (0..n).map(|_| rng.pick(&[1, -1])).collect();
    for i in 0..m {
        for price in &prices {
            s.coef.push(if i == 0 {
                price * 4096
            } else {
                rng.range(-4, 4)
            });
        }
        s.rhs.push(0);
        s.ops.push(EQ);
        s.mult.push(0);
    }
    for price in &prices {
        // With `high` 1 the terms D * bound are all as low as can be, else all as high.
        let bound = -high * (price << 16);
        s.cost.push(0);
        s.lower.push(bound);
        s.upper.push(bound);
        s.haslow.push(1);
        s.hasup.push(1);
        s.amount.push(bound);
    }
    let mut script = Script::open(id, s);
    // One unit of the multiplier moves each price by 4096, each term by 2^28, their sum by 2^35.
    let units = rng.range(1, 1 << 20);
    let room = units << 35;
    let whole = 1i64 << 39;
    let most = 1i64 << 62;
    let off = rng.pick(&[0, 0, 1, -1]);
    let (price, b, numbers) = match rng.below(3) {
        // Prices fall: B ends exactly at its size, one past it or one short of it.
        0 => (whole, high * (most - room + off), [units, 0, -units]),
        // Prices rise to their size, B leaves it.
        1 => (whole - units * 4096, high * most, [-units, 0, units]),
        // Both at their sizes: no move is accepted, any other isn't.
        _ => (whole, rng.pick(&[most, -most]), [0, units, -units]),
    };
    let cells = prices.iter().map(|sign| sign * price).collect();
    script.step(Step::Keep(Array::D, cells));
    script.step(Step::Keep(Array::B, vec![b]));
    for number in numbers {
        script.edit(Edit {
            kind: 7,
            row: 0,
            column: 0,
            number,
        });
    }
    script.block
}

fn sized_script(rng: &mut Rng, id: String, m: usize, n: usize, scale: &Scale) -> Block {
    let t = Taste {
        zeros: if m * n > 64 { 90 } else { 30 },
        ..taste(rng)
    };
    let sheet = make(rng, m, n, t);
    let mut script = Script::open(id, sheet);
    for _ in 0..rng.range(3, 7) {
        let kind = rng.range(1, 9) as u64;
        match rng.below(6) {
            0 => push_past(rng, &mut script, kind),
            1 => {
                break_and_try(rng, &mut script, kind, scale.kind_max);
            }
            _ => common_edit(rng, &mut script, scale.kind_max),
        }
    }
    script.block
}

/// A sheet without costs, with right signs and no absent bound needed, whose floor is 0, 1 or some more by its first right side: one
/// that has a multiplier of 1 or -1, so that a right side moves B by ones.
fn costless(rng: &mut Rng) -> Sheet {
    let (m, n) = small_size(rng);
    let t = Taste {
        cost: 0,
        wrong: 0,
        floor: true,
        ..taste(rng)
    };
    let mut s = make(rng, m, n, t);
    s.mult[0] = match s.ops[0] {
        LE => -1,
        GE => 1,
        _ => rng.pick(&[1, -1]),
    };
    for j in 0..n {
        s.cost[j] = 0;
        let sum: i128 = (0..m).map(|i| s.a(i, j) * i128::from(s.mult[i])).sum();
        // What the price -sum needs is there.
        if sum < 0 && s.haslow[j] == 0 {
            (s.lower[j], s.haslow[j]) = (fit(i128::from(s.upper[j]) - 1, rf::BOUND), 1);
        }
        if sum > 0 && s.hasup[j] == 0 {
            (s.upper[j], s.hasup[j]) = (fit(i128::from(s.lower[j]) + 1, rf::BOUND), 1);
        }
    }
    let floor = rf::fresh(&s).b;
    let want = i128::from(rng.pick(&[0, 0, 1, 1, 2, 5, 1024]));
    let right = i128::from(s.rhs[0]) + (want - floor) * i128::from(s.mult[0]);
    s.rhs[0] = fit(right, rf::RHS);
    s
}

/// 02: "none exists". Costs go to 1 and back to 0, and every other part of the condition is broken and mended: every other edit
/// but of bounds that are dropped is taken back by the next one.
fn none_script(rng: &mut Rng, id: String, scale: &Scale) -> Block {
    let mut script = Script::open(id, costless(rng));
    if rng.chance(20) {
        // Kept counts that call the amounts a plan: none exists comes first all the same.
        script.poke(Array::Counts, 0, 0);
        script.poke(Array::Counts, 1, 0);
    }
    let mut back = None;
    for _ in 0..rng.range(4, 10) {
        if let Some(edit) = back.take() {
            script.edit(edit);
            continue;
        }
        let s = &script.live;
        let (row, column) = (rng.below(s.rows), rng.below(s.columns));
        let j = column as usize;
        let a = s.coef[(row * s.columns + column) as usize];
        let y = s.mult[row as usize];
        let (kind, old, number) = match rng.below(12) {
            0..=4 => (2, s.cost[j], if s.cost[j] == 0 { 1 } else { 0 }),
            5 => (5, s.rhs[row as usize], s.rhs[row as usize] + rng.pick(&[-1, 1])),
            6 => (7, y, y + rng.pick(&[-1, 1, -1024, 1024])),
            7 => (3, s.lower[j], s.lower[j] + rng.pick(&[-1, 1])),
            8 => (4, s.upper[j], s.upper[j] + rng.pick(&[-1, 1])),
            9 => (6, a, a + rng.pick(&[-1, 1])),
            10 => (rng.pick(&[8, 9]), 0, 0),
            _ => {
                common_edit(rng, &mut script, scale.kind_max);
                continue;
            }
        };
        let edit = |number| Edit {
            kind,
            row,
            column,
            number,
        };
        if script.edit(edit(number)) == 0 && kind < 8 && rng.chance(60) {
            back = Some(edit(old));
        }
    }
    script.block
}

/// Arrays that are lent shorter after the opening: edits and verdicts answer 11.
fn short_script(rng: &mut Rng, id: String, turn: u64, scale: &Scale) -> Block {
    let (m, n) = small_size(rng);
    let t = taste(rng);
    let sheet = make(rng, m, n, t);
    let mut script = Script::open(id, sheet);
    common_edit(rng, &mut script, scale.kind_max);
    let arrays = [
        Array::Coef,
        Array::Cost,
        Array::Lower,
        Array::Upper,
        Array::Haslow,
        Array::Hasup,
        Array::Rhs,
        Array::Ops,
        Array::Amount,
        Array::Mult,
        Array::R,
        Array::D,
    ];
    let array = arrays[(turn % arrays.len() as u64) as usize];
    let whole = script.live.clone();
    let mut shortened = whole.clone();
    if let Some(length) = shorten(rng, &mut shortened, array) {
        script.step(Step::Short(array, length));
        for kind in [1, 2, 3, 4, 5, 6, 7, 8, 9, 10, 32] {
            let edit = if kind < 10 {
                likely(rng, &whole, kind)
            } else {
                Some(other_edit(rng, &whole, kind))
            };
            if let Some(edit) = edit {
                script.block.steps.push(Step::Edit(edit));
            }
        }
    }
    script.block
}

/// 01's N5: N2 as a sheet. Row x0 + x1 <= 4, costs -3 and -1, bounds 0 up and 0 to 2.
pub fn night_sheet(amount: i64, mult: i64) -> Sheet {
    let mut s = Sheet {
        rows: 1,
        columns: 2,
        coef: vec![1, 1],
        cost: vec![-3, -1],
        lower: vec![0, 0],
        upper: vec![0, 2],
        haslow: vec![1, 1],
        hasup: vec![0, 1],
        rhs: vec![4],
        ops: vec![LE],
        amount: vec![amount, 0],
        mult: vec![mult],
        ..Sheet::default()
    };
    s.lend_kept();
    s
}

/// The five starred cases of N5, by their names in the lists.
pub const NIGHT: [(&str, i64, i64); 5] = [
    ("N5.1", 4, -3072),
    ("N5.2", 4, -4096),
    ("N5.3", 4, -2048),
    ("N5.4", 3, -3072),
    ("N5.5", 5, -3072),
];

/// N5's five sheets, and one sheet that goes through them by edits.
fn night_blocks(see: &mut dyn FnMut(Block)) {
    for (id, amount, mult) in NIGHT {
        see(Script::open(id.to_string(), night_sheet(amount, mult)).block);
    }
    let mut script = Script::open("N5.edits".to_string(), night_sheet(4, -3072));
    for (kind, number) in [(7, -4096), (7, -2048), (7, -3072), (1, 3), (1, 5), (1, 4)] {
        script.edit(Edit {
            kind,
            row: 0,
            column: 0,
            number,
        });
    }
    see(script.block);
}

/// All scripts of a seed. Each has its own numbers, so one sort's count doesn't change another's.
pub fn blocks(seed: u64, scale: &Scale, see: &mut dyn FnMut(Block)) {
    night_blocks(see);
    let rng = |sort: u64, turn: u64| {
        let mut start = Rng::new(seed.wrapping_mul(0x1000_0001).wrapping_add(sort));
        Rng::new(start.draw() ^ turn.wrapping_mul(0xd134_2543_de82_ef95))
    };
    for k in 0..scale.small {
        see(small_script(&mut rng(1, k), format!("true{k}"), scale));
    }
    for k in 0..scale.damaged {
        see(damaged_script(&mut rng(2, k), format!("damaged{k}"), scale));
    }
    for k in 0..scale.opening {
        see(opening_script(&mut rng(3, k), format!("opening{k}"), k));
    }
    for k in 0..scale.kinds {
        see(kinds_script(&mut rng(4, k), format!("kinds{k}"), scale));
    }
    for k in 0..scale.limits {
        see(limits_script(&mut rng(5, k), format!("limits{k}")));
    }
    for k in 0..scale.floors {
        see(floor_script(&mut rng(6, k), format!("floor{k}")));
    }
    for k in 0..scale.edges {
        see(edge_script(&mut rng(7, k), format!("edge{k}")));
    }
    for k in 0..scale.sizes {
        let mut rng = rng(8, k);
        // No rows, no columns, neither; then any size.
        let (m, n) = match k % 5 {
            0 => (0, rng.range(1, 9) as usize),
            1 => (rng.range(1, 9) as usize, 0),
            2 if k % 10 == 2 => (0, 0),
            2 => (rng.pick(&[0, 1, 96]), rng.pick(&[0, 1, 128])),
            3 => (rng.range(1, 16) as usize, rng.range(1, 24) as usize),
            _ => (rng.range(1, 96) as usize, rng.range(1, 128) as usize),
        };
        see(sized_script(&mut rng, format!("size{k}"), m, n, scale));
    }
    for k in 0..scale.full {
        see(sized_script(
            &mut rng(9, k),
            format!("full{k}"),
            rf::ROWS as usize,
            rf::COLUMNS as usize,
            scale,
        ));
    }
    for k in 0..scale.tall {
        let mut rng = rng(13, k);
        let (m, n) = (rng.range(65, 96) as usize, rng.range(1, 6) as usize);
        see(sized_script(&mut rng, format!("tall{k}"), m, n, scale));
    }
    for k in 0..scale.wrecks {
        see(wreck_script(&mut rng(11, k), format!("wreck{k}")));
    }
    for k in 0..scale.nones {
        see(none_script(&mut rng(12, k), format!("none{k}"), scale));
    }
    for k in 0..scale.short {
        see(short_script(&mut rng(10, k), format!("short{k}"), k, scale));
    }
}
