//! The audit sheet, written from document 01 alone: opening, edits, verdict.
//!
//! Everything is reckoned in `i128` with plain loops and nothing is clever: this is what the
//! proved library is compared with, so it shares no idea with it beyond 01's own words.
//! Sums are worked out from scratch (`fresh`); an edit moves kept cells by the change in their
//! terms as 01 says (`moved`), because on a damaged sheet the two differ.

/// 01: "Same row and column limits" as a plan: 02 raises 64 rows to 96; 128 columns.
pub const ROWS: u64 = 96;
pub const COLUMNS: u64 = 128;

/// 01: "coefficients in size up to 4,096, costs 2^20, right sides 2^31, finite bounds and amounts
/// 2^16, multipliers Y (in 1/1024) 2^20".
pub const COEF: i128 = 4096;
pub const COST: i128 = 1 << 20;
pub const RHS: i128 = 1 << 31;
pub const BOUND: i128 = 1 << 16;
pub const AMOUNT: i128 = 1 << 16;
pub const MULT: i128 = 1 << 20;

/// 01: "Kept sizes: R 2^35, D 2^39, C 2^43, B 2^62".
pub const KEPT_R: i128 = 1 << 35;
pub const KEPT_D: i128 = 1 << 39;
pub const KEPT_C: i128 = 1 << 43;
pub const KEPT_B: i128 = 1 << 62;

pub const LE: u8 = 0;
pub const EQ: u8 = 1;
pub const GE: u8 = 2;

/// The kept numbers. They are 64-bit cells when lent; here they are wide so that a number over
/// its size can be reckoned before it is refused.
#[derive(Clone, Debug, Default, PartialEq, Eq)]
pub struct Kept {
    /// Row activities.
    pub r: Vec<i128>,
    /// Prices.
    pub d: Vec<i128>,
    /// Cost.
    pub c: i128,
    /// Floor.
    pub b: i128,
    /// Rows broken, amounts out of bounds, wrong signs, absent bounds needed.
    pub counts: [i128; 4],
}

/// A sheet as lent: what the caller says of its size, the ten arrays in their order, the kept
/// numbers. The arrays may be longer than the size needs; what stands past it is no part of the
/// sheet and never changes.
#[derive(Clone, Debug, Default, PartialEq, Eq)]
pub struct Sheet {
    pub rows: u64,
    pub columns: u64,
    pub coef: Vec<i64>,
    pub cost: Vec<i64>,
    pub lower: Vec<i64>,
    pub upper: Vec<i64>,
    pub haslow: Vec<u8>,
    pub hasup: Vec<u8>,
    pub rhs: Vec<i64>,
    pub ops: Vec<u8>,
    pub amount: Vec<i64>,
    pub mult: Vec<i64>,
    pub kept: Kept,
}

#[derive(Clone, Copy, Debug, PartialEq, Eq)]
pub struct Edit {
    pub kind: u64,
    pub row: u64,
    pub column: u64,
    pub number: i64,
}

#[derive(Clone, Copy, Debug, PartialEq, Eq)]
pub enum Verdict {
    /// 11 or 14.
    Refused(u8),
    NoneExists,
    NoPlan,
    NoFloor,
    Gap(i128),
}

/// "in size up to": both ends belong to it.
pub fn within(number: i128, limit: i128) -> bool {
    -limit <= number && number <= limit
}

/// 01: "Le with Y > 0, Ge with Y < 0".
pub fn wrong_sign(op: u8, y: i128) -> i128 {
    i128::from((op == LE && y > 0) || (op == GE && y < 0))
}

pub fn row_broken(op: u8, activity: i128, rhs: i128) -> i128 {
    let holds = match op {
        LE => activity <= rhs,
        EQ => activity == rhs,
        GE => activity >= rhs,
        // Reached only through `fresh` on a damaged sheet, where no row is compared.
        _ => true,
    };
    i128::from(!holds)
}

/// One column's bounds, as marks and numbers.
#[derive(Clone, Copy, Debug, PartialEq, Eq)]
pub struct Bounds {
    pub has_low: bool,
    pub low: i128,
    pub has_up: bool,
    pub up: i128,
}

pub fn amount_out(x: i128, bounds: Bounds) -> i128 {
    i128::from((bounds.has_low && x < bounds.low) || (bounds.has_up && x > bounds.up))
}

/// 01: "D*lower if D > 0, D*upper if D < 0, else 0, and 0 where that bound is absent".
pub fn floor_term(d: i128, bounds: Bounds) -> i128 {
    if d > 0 {
        if bounds.has_low {
            d * bounds.low
        } else {
            0
        }
    } else if d < 0 {
        if bounds.has_up {
            d * bounds.up
        } else {
            0
        }
    } else {
        0
    }
}

/// 01: "absent bounds needed by D".
pub fn bound_needed(d: i128, bounds: Bounds) -> i128 {
    i128::from((d > 0 && !bounds.has_low) || (d < 0 && !bounds.has_up))
}

impl Sheet {
    pub fn a(&self, i: usize, j: usize) -> i128 {
        i128::from(self.coef[i * self.columns as usize + j])
    }

    pub fn bounds(&self, j: usize) -> Bounds {
        Bounds {
            has_low: self.haslow[j] == 1,
            low: i128::from(self.lower[j]),
            has_up: self.hasup[j] == 1,
            up: i128::from(self.upper[j]),
        }
    }

    fn m(&self) -> usize {
        self.rows as usize
    }

    fn n(&self) -> usize {
        self.columns as usize
    }
}

/// 11 at opening: "a size or short array". Sizes first: the product of two sizes that were not
/// looked at may not fit. The kept arrays are lent too.
pub fn badly_sized(sheet: &Sheet) -> bool {
    if sheet.rows > ROWS || sheet.columns > COLUMNS {
        return true;
    }
    let (m, n) = (sheet.m(), sheet.n());
    sheet.coef.len() < m * n
        || sheet.cost.len() < n
        || sheet.lower.len() < n
        || sheet.upper.len() < n
        || sheet.haslow.len() < n
        || sheet.hasup.len() < n
        || sheet.rhs.len() < m
        || sheet.ops.len() < m
        || sheet.amount.len() < n
        || sheet.mult.len() < m
        || sheet.kept.r.len() < m
        || sheet.kept.d.len() < n
}

/// A bound and its mark. 01: "A bound may be absent (mark 0; present is 1); its number's limit is
/// then 0".
fn bound_breaks(mark: u8, number: i64) -> bool {
    match mark {
        0 => number != 0,
        1 => !within(i128::from(number), BOUND),
        _ => true,
    }
}

/// A number or mark over its limit in any array but the coefficients and the kept ones.
fn short_arrays_break(sheet: &Sheet) -> bool {
    for j in 0..sheet.n() {
        if !within(i128::from(sheet.cost[j]), COST)
            || bound_breaks(sheet.haslow[j], sheet.lower[j])
            || bound_breaks(sheet.hasup[j], sheet.upper[j])
            || !within(i128::from(sheet.amount[j]), AMOUNT)
        {
            return true;
        }
    }
    for i in 0..sheet.m() {
        if !within(i128::from(sheet.rhs[i]), RHS)
            || sheet.ops[i] > GE
            || !within(i128::from(sheet.mult[i]), MULT)
        {
            return true;
        }
    }
    false
}

/// 12 at opening: "a number over its limit or an unknown comparison or presence mark".
pub fn number_breaks(sheet: &Sheet) -> bool {
    for i in 0..sheet.m() {
        for j in 0..sheet.n() {
            if !within(sheet.a(i, j), COEF) {
                return true;
            }
        }
    }
    short_arrays_break(sheet)
}

/// The same with the coefficients left out.
pub fn number_breaks_but_coefs(sheet: &Sheet) -> bool {
    short_arrays_break(sheet)
}

/// 13 at opening: "lower > upper with both present".
pub fn bounds_cross(sheet: &Sheet) -> bool {
    for j in 0..sheet.n() {
        let bounds = sheet.bounds(j);
        if bounds.has_low && bounds.has_up && bounds.low > bounds.up {
            return true;
        }
    }
    false
}

/// Every kept number from scratch.
pub fn fresh(sheet: &Sheet) -> Kept {
    let (m, n) = (sheet.m(), sheet.n());
    let mut kept = Kept {
        r: vec![0; m],
        d: vec![0; n],
        ..Kept::default()
    };
    for i in 0..m {
        for j in 0..n {
            kept.r[i] += sheet.a(i, j) * i128::from(sheet.amount[j]);
        }
    }
    for j in 0..n {
        kept.d[j] = 1024 * i128::from(sheet.cost[j]);
        for i in 0..m {
            kept.d[j] -= sheet.a(i, j) * i128::from(sheet.mult[i]);
        }
    }
    for j in 0..n {
        kept.c += i128::from(sheet.cost[j]) * i128::from(sheet.amount[j]);
        kept.b += floor_term(kept.d[j], sheet.bounds(j));
        kept.counts[1] += amount_out(i128::from(sheet.amount[j]), sheet.bounds(j));
        kept.counts[3] += bound_needed(kept.d[j], sheet.bounds(j));
    }
    for i in 0..m {
        kept.b += i128::from(sheet.mult[i]) * i128::from(sheet.rhs[i]);
        kept.counts[0] += row_broken(sheet.ops[i], kept.r[i], i128::from(sheet.rhs[i]));
        kept.counts[2] += wrong_sign(sheet.ops[i], i128::from(sheet.mult[i]));
    }
    kept
}

/// The number that opening answers, 0 where it accepts.
pub fn opening_refusal(sheet: &Sheet) -> u8 {
    if badly_sized(sheet) {
        11
    } else if number_breaks(sheet) {
        12
    } else if bounds_cross(sheet) {
        13
    } else {
        0
    }
}

/// Opens a sheet: refuses and changes nothing, or works the kept numbers out afresh. Kept cells
/// past the sheet's size stay.
pub fn open(sheet: &mut Sheet) -> u8 {
    let status = opening_refusal(sheet);
    if status == 0 {
        let new = fresh(sheet);
        for i in 0..sheet.m() {
            sheet.kept.r[i] = new.r[i];
        }
        for j in 0..sheet.n() {
            sheet.kept.d[j] = new.d[j];
        }
        sheet.kept.c = new.c;
        sheet.kept.b = new.b;
        sheet.kept.counts = new.counts;
    }
    status
}

/// Whether the kind edits a column's cell (1, 2, 3, 4, 8, 9), and whether it edits a row's (5, 7).
/// Kind 6 uses both. Only the indices that a kind uses are tested.
pub fn uses_column(kind: u64) -> bool {
    matches!(kind, 1 | 2 | 3 | 4 | 6 | 8 | 9)
}

pub fn uses_row(kind: u64) -> bool {
    matches!(kind, 5..=7)
}

/// The limit of the number handed in; kinds 8 and 9 take "whatever number is handed in".
pub fn number_limit(kind: u64) -> Option<i128> {
    match kind {
        1 => Some(AMOUNT),
        2 => Some(COST),
        3 | 4 => Some(BOUND),
        5 => Some(RHS),
        6 => Some(COEF),
        7 => Some(MULT),
        _ => None,
    }
}

/// A kept number over its size. 01: "counts 0 to their row or column number".
pub fn kept_breaks(sheet: &Sheet, kept: &Kept) -> bool {
    for i in 0..sheet.m() {
        if !within(kept.r[i], KEPT_R) {
            return true;
        }
    }
    for j in 0..sheet.n() {
        if !within(kept.d[j], KEPT_D) {
            return true;
        }
    }
    if !within(kept.c, KEPT_C) || !within(kept.b, KEPT_B) {
        return true;
    }
    let most = [sheet.rows, sheet.columns, sheet.rows, sheet.columns];
    for (count, most) in kept.counts.into_iter().zip(most) {
        if count < 0 || count > i128::from(most) {
            return true;
        }
    }
    false
}

/// The coefficients that 14 looks at: the edited column's for 1 to 4, 8 and 9, the edited row's
/// for 5 and 7, both for 6.
fn edited_coefs_break(sheet: &Sheet, edit: Edit) -> bool {
    if uses_column(edit.kind) {
        for i in 0..sheet.m() {
            if !within(sheet.a(i, edit.column as usize), COEF) {
                return true;
            }
        }
    }
    if uses_row(edit.kind) {
        for j in 0..sheet.n() {
            if !within(sheet.a(edit.row as usize, j), COEF) {
                return true;
            }
        }
    }
    false
}

/// 14's test on one state of the sheet. The kept R and D belong to "any array but the coefficients"
/// too.
pub fn state_breaks(sheet: &Sheet, edit: Edit) -> bool {
    short_arrays_break(sheet) || edited_coefs_break(sheet, edit) || kept_breaks(sheet, &sheet.kept)
}

/// The sheet after the edit, which is known to pass 16, 15, 11, 12, 13 and 14's look before it.
/// 01: "Touched sums and counts move by the change in their terms, read from kept cells": an old
/// term is that of the kept R or D as it stands, right or wrong, a new one that of the moved R
/// or D.
pub fn moved(sheet: &Sheet, edit: Edit) -> Sheet {
    let mut after = sheet.clone();
    let number = i128::from(edit.number);
    let (m, n) = (sheet.m(), sheet.n());
    let (i, j) = (edit.row as usize, edit.column as usize);
    match edit.kind {
        // The amount: R of rows with a nonzero entry there, C, the first two counts.
        1 => {
            let change = number - i128::from(sheet.amount[j]);
            for row in 0..m {
                let a = sheet.a(row, j);
                if a != 0 {
                    let rhs = i128::from(sheet.rhs[row]);
                    let old = sheet.kept.r[row];
                    let new = old + a * change;
                    after.kept.r[row] = new;
                    after.kept.counts[0] += row_broken(sheet.ops[row], new, rhs);
                    after.kept.counts[0] -= row_broken(sheet.ops[row], old, rhs);
                }
            }
            after.kept.c += i128::from(sheet.cost[j]) * change;
            after.kept.counts[1] += amount_out(number, sheet.bounds(j));
            after.kept.counts[1] -= amount_out(i128::from(sheet.amount[j]), sheet.bounds(j));
            after.amount[j] = edit.number;
        }
        // The cost: that D, C, B, the absent count.
        2 => {
            let change = number - i128::from(sheet.cost[j]);
            let old = sheet.kept.d[j];
            let new = old + 1024 * change;
            after.kept.d[j] = new;
            after.kept.c += change * i128::from(sheet.amount[j]);
            after.kept.b += floor_term(new, sheet.bounds(j)) - floor_term(old, sheet.bounds(j));
            after.kept.counts[3] += bound_needed(new, sheet.bounds(j));
            after.kept.counts[3] -= bound_needed(old, sheet.bounds(j));
            after.cost[j] = edit.number;
        }
        // A bound set or dropped: B, the amounts count, the absent count.
        3 | 4 | 8 | 9 => {
            match edit.kind {
                3 => {
                    after.lower[j] = edit.number;
                    after.haslow[j] = 1;
                }
                4 => {
                    after.upper[j] = edit.number;
                    after.hasup[j] = 1;
                }
                8 => {
                    after.lower[j] = 0;
                    after.haslow[j] = 0;
                }
                _ => {
                    after.upper[j] = 0;
                    after.hasup[j] = 0;
                }
            }
            let (old, new) = (sheet.bounds(j), after.bounds(j));
            let d = sheet.kept.d[j];
            let x = i128::from(sheet.amount[j]);
            after.kept.b += floor_term(d, new) - floor_term(d, old);
            after.kept.counts[1] += amount_out(x, new) - amount_out(x, old);
            after.kept.counts[3] += bound_needed(d, new) - bound_needed(d, old);
        }
        // The right side: B, the broken count.
        5 => {
            let old = i128::from(sheet.rhs[i]);
            let r = sheet.kept.r[i];
            after.kept.b += i128::from(sheet.mult[i]) * (number - old);
            after.kept.counts[0] += row_broken(sheet.ops[i], r, number);
            after.kept.counts[0] -= row_broken(sheet.ops[i], r, old);
            after.rhs[i] = edit.number;
        }
        // A coefficient: that R, that D, B, the broken and the absent count.
        6 => {
            let change = number - sheet.a(i, j);
            let rhs = i128::from(sheet.rhs[i]);
            let (old_r, old_d) = (sheet.kept.r[i], sheet.kept.d[j]);
            let new_r = old_r + change * i128::from(sheet.amount[j]);
            let new_d = old_d - change * i128::from(sheet.mult[i]);
            after.kept.r[i] = new_r;
            after.kept.d[j] = new_d;
            after.kept.b += floor_term(new_d, sheet.bounds(j)) - floor_term(old_d, sheet.bounds(j));
            after.kept.counts[0] += row_broken(sheet.ops[i], new_r, rhs);
            after.kept.counts[0] -= row_broken(sheet.ops[i], old_r, rhs);
            after.kept.counts[3] += bound_needed(new_d, sheet.bounds(j));
            after.kept.counts[3] -= bound_needed(old_d, sheet.bounds(j));
            after.coef[i * n + j] = edit.number;
        }
        // The multiplier: D of columns with a nonzero entry there, B by the row's own term and by
        // every such column's (01's easy error: one column alone), the last two counts.
        7 => {
            let old_y = i128::from(sheet.mult[i]);
            let change = number - old_y;
            after.kept.b += change * i128::from(sheet.rhs[i]);
            for column in 0..n {
                let a = sheet.a(i, column);
                if a != 0 {
                    let bounds = sheet.bounds(column);
                    let old = sheet.kept.d[column];
                    let new = old - a * change;
                    after.kept.d[column] = new;
                    after.kept.b += floor_term(new, bounds) - floor_term(old, bounds);
                    after.kept.counts[3] += bound_needed(new, bounds);
                    after.kept.counts[3] -= bound_needed(old, bounds);
                }
            }
            after.kept.counts[2] += wrong_sign(sheet.ops[i], number);
            after.kept.counts[2] -= wrong_sign(sheet.ops[i], old_y);
            after.mult[i] = edit.number;
        }
        _ => unreachable!("kinds 10 up and 0 are refused before"),
    }
    after
}

/// The number that an edit answers, and the sheet afterwards where it is accepted. 01: "Order: 16,
/// 15, then 11 as at opening or a bad index, 12 number, 13 two present bounds would cross, 14".
pub fn tried(sheet: &Sheet, edit: Edit) -> Result<Sheet, u8> {
    if edit.kind == 0 || edit.kind >= 32 {
        return Err(16);
    }
    if edit.kind >= 10 {
        return Err(15);
    }
    if badly_sized(sheet)
        || (uses_column(edit.kind) && edit.column >= sheet.columns)
        || (uses_row(edit.kind) && edit.row >= sheet.rows)
    {
        return Err(11);
    }
    let number = i128::from(edit.number);
    if let Some(limit) = number_limit(edit.kind) {
        if !within(number, limit) {
            return Err(12);
        }
    }
    if edit.kind == 3 {
        let bounds = sheet.bounds(edit.column as usize);
        if bounds.has_up && number > bounds.up {
            return Err(13);
        }
    }
    if edit.kind == 4 {
        let bounds = sheet.bounds(edit.column as usize);
        if bounds.has_low && bounds.low > number {
            return Err(13);
        }
    }
    if state_breaks(sheet, edit) {
        return Err(14);
    }
    let after = moved(sheet, edit);
    if state_breaks(&after, edit) {
        return Err(14);
    }
    Ok(after)
}

/// One edit. A refused one changes nothing.
pub fn edit(sheet: &mut Sheet, edit: Edit) -> u8 {
    match tried(sheet, edit) {
        Ok(after) => {
            *sheet = after;
            0
        }
        Err(status) => status,
    }
}

/// 02: "with all costs 0, right signs, no absent bound needed and B above 0".
pub fn none_exists(sheet: &Sheet) -> bool {
    let costless = (0..sheet.n()).all(|j| sheet.cost[j] == 0);
    let kept = &sheet.kept;
    costless && kept.counts[2] == 0 && kept.counts[3] == 0 && kept.b > 0
}

/// 01: "not a plan if either of the first two counts isn't 0; else no floor if either of the last
/// isn't; else gap = 1024*C - B"; "A verdict gives 11, or 14 where a kept number is over its size."
/// 02: "none exists" "takes precedence over the other verdicts".
pub fn verdict(sheet: &Sheet) -> Verdict {
    if badly_sized(sheet) {
        return Verdict::Refused(11);
    }
    if kept_breaks(sheet, &sheet.kept) {
        return Verdict::Refused(14);
    }
    if none_exists(sheet) {
        return Verdict::NoneExists;
    }
    let counts = sheet.kept.counts;
    if counts[0] != 0 || counts[1] != 0 {
        Verdict::NoPlan
    } else if counts[2] != 0 || counts[3] != 0 {
        Verdict::NoFloor
    } else {
        Verdict::Gap(1024 * sheet.kept.c - sheet.kept.b)
    }
}

/// 01: each kept number equals the fresh one, and the plan's own cells are as opening demands.
pub fn is_true(sheet: &Sheet) -> bool {
    opening_refusal(sheet) == 0 && {
        let new = fresh(sheet);
        new.r[..] == sheet.kept.r[..sheet.m()]
            && new.d[..] == sheet.kept.d[..sheet.n()]
            && new.c == sheet.kept.c
            && new.b == sheet.kept.b
            && new.counts == sheet.kept.counts
    }
}
