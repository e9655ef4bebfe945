//! Counts what scripts reach, and looks for broken laws on the way. The counts are taken from the
//! reference's answers, so a target that is met was met by a sheet that is written out.

use crate::reference::{self as rf, Edit, Sheet, Verdict};
use crate::{play, Array, Block, Moment, KEPT_ARRAYS, PLAN_ARRAYS};
use std::collections::BTreeMap;

#[derive(Default)]
pub struct Tally {
    counts: BTreeMap<String, u64>,
}

/// 01's table: whether an edit of this kind may change this cell. The edited number and its mark,
/// then the column "Also touched".
pub fn touches(sheet: &Sheet, edit: Edit, array: Array, index: usize) -> bool {
    let n = sheet.columns as usize;
    let (i, j) = (edit.row as usize, edit.column as usize);
    let in_size = match array {
        Array::Coef => index < sheet.rows as usize * n,
        Array::Rhs | Array::Ops | Array::Mult | Array::R => index < sheet.rows as usize,
        Array::C | Array::B | Array::Counts => true,
        _ => index < n,
    };
    if !in_size {
        return false;
    }
    match edit.kind {
        1 => match array {
            Array::Amount => index == j,
            Array::R => sheet.coef[index * n + j] != 0,
            Array::C => true,
            Array::Counts => index == 0 || index == 1,
            _ => false,
        },
        2 => match array {
            Array::Cost => index == j,
            Array::D => index == j,
            Array::C | Array::B => true,
            Array::Counts => index == 3,
            _ => false,
        },
        3 | 8 => match array {
            Array::Lower | Array::Haslow => index == j,
            Array::B => true,
            Array::Counts => index == 1 || index == 3,
            _ => false,
        },
        4 | 9 => match array {
            Array::Upper | Array::Hasup => index == j,
            Array::B => true,
            Array::Counts => index == 1 || index == 3,
            _ => false,
        },
        5 => match array {
            Array::Rhs => index == i,
            Array::B => true,
            Array::Counts => index == 0,
            _ => false,
        },
        6 => match array {
            Array::Coef => index == i * n + j,
            Array::R => index == i,
            Array::D => index == j,
            Array::B => true,
            Array::Counts => index == 0 || index == 3,
            _ => false,
        },
        7 => match array {
            Array::Mult => index == i,
            Array::D => sheet.coef[i * n + index] != 0,
            Array::B => true,
            Array::Counts => index == 2 || index == 3,
            _ => false,
        },
        _ => false,
    }
}

/// The cells that differ between two states of a sheet.
pub fn changed(before: &Sheet, after: &Sheet) -> Vec<(Array, usize)> {
    let mut found = Vec::new();
    for array in PLAN_ARRAYS.iter().chain(KEPT_ARRAYS.iter()) {
        assert_eq!(before.length(*array), after.length(*array));
        for index in 0..before.length(*array) {
            if before.read(*array, index) != after.read(*array, index) {
                found.push((*array, index));
            }
        }
    }
    found
}

/// What breaks its limit on this state of the sheet, each by its name, once.
fn broken(sheet: &Sheet, edit: Edit) -> Vec<&'static str> {
    let (m, n) = (sheet.rows as usize, sheet.columns as usize);
    let mut found = Vec::new();
    let mut see = |name: &'static str, is: bool| {
        if is && !found.contains(&name) {
            found.push(name);
        }
    };
    let big = |number: i64, limit: i128| !rf::within(i128::from(number), limit);
    for j in 0..n {
        see("cost", big(sheet.cost[j], rf::COST));
        see("lower mark", sheet.haslow[j] > 1);
        see("upper mark", sheet.hasup[j] > 1);
        see(
            "lower",
            sheet.haslow[j] == 1 && big(sheet.lower[j], rf::BOUND),
        );
        see(
            "upper",
            sheet.hasup[j] == 1 && big(sheet.upper[j], rf::BOUND),
        );
        see(
            "absent lower's number",
            sheet.haslow[j] == 0 && sheet.lower[j] != 0,
        );
        see(
            "absent upper's number",
            sheet.hasup[j] == 0 && sheet.upper[j] != 0,
        );
        see("amount", big(sheet.amount[j], rf::AMOUNT));
        see("D", !rf::within(sheet.kept.d[j], rf::KEPT_D));
    }
    for i in 0..m {
        see("right side", big(sheet.rhs[i], rf::RHS));
        see("comparison", sheet.ops[i] > 2);
        see("multiplier", big(sheet.mult[i], rf::MULT));
        see("R", !rf::within(sheet.kept.r[i], rf::KEPT_R));
    }
    see("C", !rf::within(sheet.kept.c, rf::KEPT_C));
    see("B", !rf::within(sheet.kept.b, rf::KEPT_B));
    let names = [
        "broken count",
        "amounts count",
        "signs count",
        "absent count",
    ];
    for (k, name) in names.into_iter().enumerate() {
        let most = if k % 2 == 0 { m } else { n } as i128;
        see(
            name,
            sheet.kept.counts[k] < 0 || sheet.kept.counts[k] > most,
        );
    }
    if rf::uses_column(edit.kind) {
        for i in 0..m {
            let a = sheet.a(i, edit.column as usize);
            see("edited column's coefficient", !rf::within(a, rf::COEF));
        }
    }
    if rf::uses_row(edit.kind) {
        for j in 0..n {
            let a = sheet.a(edit.row as usize, j);
            see("edited row's coefficient", !rf::within(a, rf::COEF));
        }
    }
    found
}

/// Whether moving B by all old terms first, or by all new ones first, would pass 64 bits.
fn midway(before: &Sheet, after: &Sheet) -> bool {
    let mut old = 0;
    let mut new = 0;
    for j in 0..before.columns as usize {
        old += rf::floor_term(before.kept.d[j], before.bounds(j));
        new += rf::floor_term(after.kept.d[j], after.bounds(j));
    }
    let fits = |b: i128| i64::try_from(b).is_ok();
    !fits(before.kept.b - old) || !fits(before.kept.b + new)
}

/// Whether an accepted edit moves C, B or a count otherwise than it would from the fresh R and D:
/// only such edits tell "read from kept cells" from reading anything else.
fn moves_otherwise(before: &Sheet, edit: Edit, after: &Sheet) -> bool {
    let mut sound = before.clone();
    let fresh = rf::fresh(before);
    sound.kept.r = fresh.r;
    sound.kept.d = fresh.d;
    let then = rf::moved(&sound, edit);
    let kept_change = |k: usize| after.kept.counts[k] - before.kept.counts[k];
    let sound_change = |k: usize| then.kept.counts[k] - sound.kept.counts[k];
    after.kept.b - before.kept.b != then.kept.b - sound.kept.b
        || (0..4).any(|k| kept_change(k) != sound_change(k))
}

impl Tally {
    pub fn count(&self, name: &str) -> u64 {
        self.counts.get(name).copied().unwrap_or(0)
    }

    fn add(&mut self, name: &str) {
        if let Some(count) = self.counts.get_mut(name) {
            *count += 1;
        } else {
            self.counts.insert(name.to_string(), 1);
        }
    }

    /// Plays a block and counts it.
    pub fn see(&mut self, block: &Block) {
        let mut sheet_marks: Vec<&'static str> = Vec::new();
        self.add("sheets");
        play(block, &mut |moment| match moment {
            Moment::Opened(status, sheet) => {
                self.opened(&block.sheet, status, sheet);
                if status == 0 {
                    limit_marks(sheet, true, &mut sheet_marks);
                }
            }
            Moment::Edited(before, edit, status, after) => {
                self.edited(before, edit, status, after);
                if rf::badly_sized(after) {
                    return;
                }
                limit_marks(before, rf::is_true(before), &mut sheet_marks);
                limit_marks(after, rf::is_true(after), &mut sheet_marks);
            }
            Moment::Ended(_) => {}
        });
        for mark in sheet_marks {
            self.add(mark);
        }
    }

    fn opened(&mut self, given: &Sheet, status: u8, sheet: &Sheet) {
        self.add(&format!("openings answered {status}"));
        let (m, n) = (given.rows, given.columns);
        if status != 0 {
            if given != sheet {
                self.add("refused openings that changed something");
            }
            let sizes = m > rf::ROWS || n > rf::COLUMNS;
            if m > rf::ROWS {
                self.add("openings refused for rows");
            }
            if n > rf::COLUMNS {
                self.add("openings refused for columns");
            }
            if sizes && m.checked_mul(n).is_none() {
                self.add("openings refused with sizes whose product wraps");
            }
            if status == 11 && !sizes {
                for array in PLAN_ARRAYS {
                    if given.length(array) < needed(given, array) {
                        self.add(&format!("openings refused for short {}", array.name()));
                    }
                }
            }
            if status == 12 {
                let nothing = Edit {
                    kind: 0,
                    row: 0,
                    column: 0,
                    number: 0,
                };
                for reason in broken(given, nothing) {
                    self.add(&format!("openings refused for {reason}"));
                }
                let coef = (0..m as usize)
                    .any(|i| (0..n as usize).any(|j| !rf::within(given.a(i, j), rf::COEF)));
                if coef {
                    self.add("openings refused for coefficient");
                }
                if rf::bounds_cross(given) {
                    self.add("openings answered 12 where bounds cross too");
                }
            }
            return;
        }
        if !rf::is_true(sheet) {
            self.add("openings that left a sheet untrue");
        }
        let name = match (m, n) {
            (0, 0) => "sheets of 0 rows and 0 columns",
            (0, _) => "sheets of 0 rows",
            (_, 0) => "sheets of 0 columns",
            (1, 1) => "sheets of 1 row and 1 column",
            (96, 128) => "sheets of 96 rows and 128 columns",
            (65.., _) => "sheets of 65 rows or more",
            _ => "sheets of other sizes",
        };
        self.add(name);
        if PLAN_ARRAYS
            .iter()
            .any(|a| given.length(*a) > needed(given, *a))
        {
            self.add("sheets with longer arrays");
        }
        let crosses = (0..n as usize)
            .any(|j| given.haslow[j] + given.hasup[j] == 1 && given.lower[j] > given.upper[j]);
        if crosses {
            self.add("sheets whose bound passes an absent one's 0");
        }
        self.judged(sheet);
    }

    fn judged(&mut self, sheet: &Sheet) {
        match rf::verdict(sheet) {
            Verdict::Refused(status) => self.add(&format!("verdicts {status}")),
            Verdict::NoneExists => {
                self.add("verdicts none");
                let counts = sheet.kept.counts;
                let plan = counts[0] == 0 && counts[1] == 0;
                match (rf::is_true(sheet), plan) {
                    (true, true) => self.add("none exists on a true sheet with a plan"),
                    (true, false) => self.add("verdicts none on true sheets"),
                    (false, true) => self.add("verdicts none before a gap of a damaged sheet"),
                    (false, false) => self.add("verdicts none on other damaged sheets"),
                }
            }
            Verdict::NoPlan => self.add("verdicts no-plan"),
            Verdict::NoFloor => self.add("verdicts no-floor"),
            Verdict::Gap(gap) => {
                self.add("verdicts gap");
                if rf::is_true(sheet) {
                    self.add(if gap == 0 {
                        "verdicts gap 0 on true sheets"
                    } else {
                        "verdicts gap above 0 on true sheets"
                    });
                    if gap < 0 {
                        self.add("gaps below 0 on true sheets");
                    }
                }
            }
        }
    }

    /// What an edit makes of the verdict that none exists, and how nearly it is given.
    fn turned(&mut self, before: &Sheet, edit: Edit, after: &Sheet) {
        let none = |s: &Sheet| rf::verdict(s) == Verdict::NoneExists;
        let kind = edit.kind;
        match (none(before), none(after)) {
            (false, true) => self.add(&format!("none exists by an edit of kind {kind}")),
            (true, false) => self.add(&format!("no longer none by an edit of kind {kind}")),
            _ => {}
        }
        let signs = after.kept.counts[2] == 0 && after.kept.counts[3] == 0;
        let costs = after.cost.iter().take(after.columns as usize).filter(|c| **c != 0);
        match (costs.count(), signs, after.kept.b) {
            (0, true, 0) => self.add("not none for B at 0 alone"),
            (0, true, 1) => self.add("none exists with B at 1"),
            (1, true, 1..) => self.add("not none for one cost alone"),
            (0, false, 1..) => self.add("not none for signs or absent bounds alone"),
            _ => {}
        }
    }

    fn edited(&mut self, before: &Sheet, edit: Edit, status: u8, after: &Sheet) {
        self.add("edits");
        self.judged(after);
        self.turned(before, edit, after);
        let kind = edit.kind;
        let sort = if kind > 32 {
            "above 32".to_string()
        } else {
            kind.to_string()
        };
        self.add(&format!("kind {sort} answered {status}"));
        if rf::badly_sized(before) {
            if status != 11 && status != 15 && status != 16 {
                self.add("edits of badly sized sheets that weren't refused");
            }
            return;
        }
        let bad_index = (rf::uses_column(kind) && edit.column >= before.columns)
            || (rf::uses_row(kind) && edit.row >= before.rows);
        let limit = rf::number_limit(kind);
        let number = i128::from(edit.number);
        let bad_number = limit.is_some_and(|l| !rf::within(number, l));
        let crossing = !bad_index
            && match kind {
                3 => {
                    let b = before.bounds(edit.column as usize);
                    b.has_up && number > b.up
                }
                4 => {
                    let b = before.bounds(edit.column as usize);
                    b.has_low && number < b.low
                }
                _ => false,
            };
        let any_kind = Edit { kind: 0, ..edit };
        let seen = broken(before, if bad_index { any_kind } else { edit });
        if status == 0 {
            if rf::is_true(before) {
                self.add(&format!("kind {kind} accepted on a true sheet"));
                if !rf::is_true(after) {
                    self.add("accepted edits that left a true sheet untrue");
                }
            } else {
                self.add(&format!("kind {kind} accepted on a damaged sheet"));
                if moves_otherwise(before, edit, after) {
                    self.add(&format!(
                        "kind {kind} accepted with terms of a wrong R or D"
                    ));
                }
            }
            for (array, index) in changed(before, after) {
                if !touches(before, edit, array, index) {
                    self.add("accepted edits that changed an unlisted cell");
                }
            }
            if limit == Some(number) {
                self.add(&format!("kind {kind} accepted at its limit"));
            }
            if limit == Some(-number) {
                self.add(&format!("kind {kind} accepted at minus its limit"));
            }
            if rf::number_breaks(before) && !rf::number_breaks_but_coefs(before) {
                self.add("accepted beside a broken coefficient elsewhere");
            }
            if rf::bounds_cross(before) {
                self.add("accepted where bounds cross");
            }
            if !rf::uses_row(kind) && edit.row >= before.rows {
                self.add(&format!("kind {kind} accepted with any row"));
            }
            if !rf::uses_column(kind) && edit.column >= before.columns {
                self.add(&format!("kind {kind} accepted with any column"));
            }
            if rf::uses_column(kind) {
                let b = before.bounds(edit.column as usize);
                if kind == 3 && !b.has_up && number > b.up {
                    self.add("kind 3 accepted past an absent upper's 0");
                }
                if kind == 4 && !b.has_low && number < b.low {
                    self.add("kind 4 accepted past an absent lower's 0");
                }
                if (kind == 3 && b.has_up && number == b.up)
                    || (kind == 4 && b.has_low && number == b.low)
                {
                    self.add(&format!("kind {kind} accepted with equal bounds"));
                }
                if (kind == 3 && !b.has_low) || (kind == 4 && !b.has_up) {
                    self.add(&format!("kind {kind} accepted where absent before"));
                }
                if (kind == 8 && !b.has_low) || (kind == 9 && !b.has_up) {
                    self.add(&format!("kind {kind} accepted where absent already"));
                }
                if (kind == 8 || kind == 9) && !rf::within(number, rf::BOUND) {
                    self.add(&format!(
                        "kind {kind} accepted with a number past any bound"
                    ));
                }
            }
            self.moves(before, after);
        } else if before != after {
            self.add("refused edits that changed something");
        }
        if kind == 7 && !bad_index && !bad_number && seen.is_empty() {
            // Also where 14 comes after: a program may reckon before it refuses.
            if midway(before, &rf::moved(before, edit)) {
                self.add("kind 7 passing 64 bits midway");
            }
        }
        match status {
            11 => {
                if kind == 6 {
                    let row = edit.row >= before.rows;
                    let column = edit.column >= before.columns;
                    self.add(match (row, column) {
                        (true, true) => "kind 6 answered 11 for both",
                        (true, false) => "kind 6 answered 11 for its row",
                        _ => "kind 6 answered 11 for its column",
                    });
                }
                if bad_number {
                    self.add("answered 11 where 12 holds too");
                }
                if !seen.is_empty() {
                    self.add("answered 11 where 14 holds too");
                }
            }
            12 => {
                let l = limit.unwrap();
                if number == l + 1 {
                    self.add(&format!("kind {kind} refused one past its limit"));
                }
                if number == -l - 1 {
                    self.add(&format!("kind {kind} refused one past minus its limit"));
                }
                if crossing {
                    self.add("answered 12 where 13 holds too");
                }
                if !seen.is_empty() {
                    self.add("answered 12 where 14 holds too");
                }
            }
            13 if !seen.is_empty() => self.add("answered 13 where 14 holds too"),
            14 => {
                if !bad_index && (kind == 3 || kind == 4) {
                    let j = edit.column as usize;
                    let unknown = if kind == 3 {
                        before.hasup[j] > 1 && edit.number > before.upper[j]
                    } else {
                        before.haslow[j] > 1 && edit.number < before.lower[j]
                    };
                    if unknown {
                        self.add("answered 14, not 13, past an unknown mark's number");
                    }
                }
                if seen.is_empty() {
                    self.add(&format!("kind {kind} answered 14 for after alone"));
                    let then = broken(&rf::moved(before, edit), edit);
                    if then.len() == 1 {
                        self.add(&format!("answered 14 after for {} alone", then[0]));
                    }
                } else {
                    self.add(&format!("kind {kind} answered 14 for before"));
                    if seen.len() == 1 {
                        self.add(&format!("answered 14 before for {} alone", seen[0]));
                        if kind == 6 && seen[0].starts_with("edited") {
                            self.add(&format!("kind 6 answered 14 for {} alone", seen[0]));
                        }
                    }
                }
                if rf::is_true(before) {
                    self.add("14 on a true sheet");
                }
            }
            15 | 16 => {
                let far = edit.row >= before.rows && edit.column >= before.columns;
                if far {
                    self.add(&format!("answered {status} with any row and column"));
                }
                if !seen.is_empty() {
                    self.add(&format!("answered {status} where 14 holds too"));
                }
            }
            _ => {}
        }
    }

    /// Accepted moves worth having seen: kept numbers that arrive exactly at their size, counts
    /// that rise and fall.
    fn moves(&mut self, before: &Sheet, after: &Sheet) {
        let (old, new) = (&before.kept, &after.kept);
        let arrives = |o: i128, n: i128, size: i128| o != n && (n == size || n == -size);
        if (0..before.rows as usize).any(|i| arrives(old.r[i], new.r[i], rf::KEPT_R)) {
            self.add("accepted with R arriving at 2^35");
        }
        if (0..before.columns as usize).any(|j| arrives(old.d[j], new.d[j], rf::KEPT_D)) {
            self.add("accepted with D arriving at 2^39");
        }
        if arrives(old.c, new.c, rf::KEPT_C) {
            self.add("accepted with C arriving at 2^43");
        }
        if arrives(old.b, new.b, rf::KEPT_B) {
            self.add("accepted with B arriving at 2^62");
        }
        let names = ["broken", "amounts", "signs", "absent"];
        for (k, name) in names.into_iter().enumerate() {
            if new.counts[k] > old.counts[k] {
                self.add(&format!("accepted with the {name} count rising"));
            }
            if new.counts[k] < old.counts[k] {
                self.add(&format!("accepted with the {name} count falling"));
            }
        }
    }
}

pub fn needed(sheet: &Sheet, array: Array) -> usize {
    let (m, n) = (sheet.rows as usize, sheet.columns as usize);
    match array {
        Array::Coef => m * n,
        Array::Rhs | Array::Ops | Array::Mult | Array::R => m,
        Array::C | Array::B => 1,
        Array::Counts => 4,
        _ => n,
    }
}

/// Which limits a sheet has stood at, each counted once for the sheet.
fn limit_marks(sheet: &Sheet, is_true: bool, marks: &mut Vec<&'static str>) {
    let mut see = |name: &'static str, is: bool| {
        if is && !marks.contains(&name) {
            marks.push(name);
        }
    };
    let kept = &sheet.kept;
    let near = 1i128 << 40;
    see("sheets with B within 2^40 of 2^62", {
        rf::within(kept.b, rf::KEPT_B) && kept.b.abs() >= rf::KEPT_B - near
    });
    see("sheets with B at exactly 2^62", kept.b == rf::KEPT_B);
    see("sheets with B at exactly -2^62", kept.b == -rf::KEPT_B);
    see("sheets with D at exactly 2^39 in size", {
        kept.d.iter().any(|d| d.abs() == rf::KEPT_D)
    });
    if !is_true {
        return;
    }
    let r = kept.r.iter().any(|r| r.abs() == rf::KEPT_R);
    see(
        "true sheets with R exactly 2^35",
        kept.r.contains(&rf::KEPT_R),
    );
    see(
        "true sheets with R exactly -2^35",
        kept.r.contains(&-rf::KEPT_R),
    );
    see("true sheets with C exactly 2^43", kept.c == rf::KEPT_C);
    see("true sheets with C exactly -2^43", kept.c == -rf::KEPT_C);
    see(
        "true sheets with both R and C at their sizes",
        r && kept.c.abs() == rf::KEPT_C,
    );
    // 128 columns of D * bound, 96 rows of Y * rhs.
    let largest = (3i128 << 60) + (3 << 56) + (1 << 53);
    see(
        "true sheets with B at the most it can be",
        kept.b.abs() == largest,
    );
}

/// A target: its name and how often it is wanted, or that it must never be.
pub enum Wanted {
    AtLeast(u64),
    Never,
}

/// What has a limit at opening and before an edit, beside the coefficients.
const LIMITED: [&str; 11] = [
    "cost",
    "lower",
    "upper",
    "lower mark",
    "upper mark",
    "absent lower's number",
    "absent upper's number",
    "right side",
    "comparison",
    "amount",
    "multiplier",
];

/// The kept numbers, which have theirs before an edit and after it.
const KEPT: [&str; 8] = [
    "R",
    "D",
    "C",
    "B",
    "broken count",
    "amounts count",
    "signs count",
    "absent count",
];

/// The coefficients that an edit looks at.
const EDITED: [&str; 2] = ["edited column's coefficient", "edited row's coefficient"];

/// Every kind, refusal, verdict and limit, and what the reading of 01 makes worth asking.
pub fn targets() -> Vec<(String, Wanted)> {
    let mut list: Vec<(String, Wanted)> = Vec::new();
    let mut want = |name: &str, least: u64| list.push((name.to_string(), Wanted::AtLeast(least)));
    want("edits", 50_000);
    for kind in 1..=9u64 {
        want(&format!("kind {kind} answered 0"), 2000);
        want(&format!("kind {kind} accepted on a true sheet"), 1000);
        want(&format!("kind {kind} accepted on a damaged sheet"), 300);
        want(
            &format!("kind {kind} accepted with terms of a wrong R or D"),
            50,
        );
        want(&format!("kind {kind} answered 11"), 100);
        if rf::number_limit(kind).is_some() {
            want(&format!("kind {kind} answered 12"), 100);
            want(&format!("kind {kind} accepted at its limit"), 25);
            want(&format!("kind {kind} accepted at minus its limit"), 25);
            want(&format!("kind {kind} refused one past its limit"), 25);
            want(&format!("kind {kind} refused one past minus its limit"), 25);
        }
        want(&format!("kind {kind} answered 14"), 100);
        want(&format!("kind {kind} answered 14 for before"), 100);
        want(&format!("kind {kind} answered 14 for after alone"), 100);
        if !rf::uses_row(kind) {
            want(&format!("kind {kind} accepted with any row"), 100);
        }
        if !rf::uses_column(kind) {
            want(&format!("kind {kind} accepted with any column"), 100);
        }
    }
    for kind in [3, 4] {
        want(&format!("kind {kind} answered 13"), 100);
        want(&format!("kind {kind} accepted with equal bounds"), 100);
        want(&format!("kind {kind} accepted where absent before"), 100);
    }
    want("kind 3 accepted past an absent upper's 0", 100);
    want("kind 4 accepted past an absent lower's 0", 100);
    for kind in [8, 9] {
        want(&format!("kind {kind} accepted where absent already"), 100);
        want(
            &format!("kind {kind} accepted with a number past any bound"),
            100,
        );
    }
    for kind in 10..=31 {
        want(&format!("kind {kind} answered 15"), 100);
    }
    for kind in ["0", "32", "above 32"] {
        want(&format!("kind {kind} answered 16"), 100);
    }
    for which in ["its row", "its column", "both"] {
        want(&format!("kind 6 answered 11 for {which}"), 25);
    }
    for pair in [
        "11 where 12",
        "11 where 14",
        "12 where 13",
        "12 where 14",
        "13 where 14",
    ] {
        want(&format!("answered {pair} holds too"), 50);
    }
    for status in [15, 16] {
        want(&format!("answered {status} with any row and column"), 100);
        want(&format!("answered {status} where 14 holds too"), 50);
    }
    for reason in LIMITED.iter().chain(&KEPT).chain(&EDITED) {
        want(&format!("answered 14 before for {reason} alone"), 50);
    }
    for reason in EDITED {
        want(&format!("kind 6 answered 14 for {reason} alone"), 20);
    }
    for reason in KEPT {
        want(&format!("answered 14 after for {reason} alone"), 50);
    }
    want("answered 14, not 13, past an unknown mark's number", 50);
    want("accepted beside a broken coefficient elsewhere", 100);
    want("accepted where bounds cross", 100);
    for name in ["broken", "amounts", "signs", "absent"] {
        want(&format!("accepted with the {name} count rising"), 500);
        want(&format!("accepted with the {name} count falling"), 500);
    }
    for place in [
        "R arriving at 2^35",
        "D arriving at 2^39",
        "C arriving at 2^43",
        "B arriving at 2^62",
    ] {
        want(&format!("accepted with {place}"), 50);
    }
    want("kind 7 passing 64 bits midway", 20);
    for verdict in ["none", "no-plan", "no-floor", "gap", "14"] {
        want(&format!("verdicts {verdict}"), 500);
    }
    want("verdicts none on true sheets", 500);
    want("verdicts none before a gap of a damaged sheet", 100);
    for kind in 2..=9 {
        let least = if kind == 2 { 500 } else { 40 };
        // A dropped bound only takes from what a sheet shows.
        if kind < 8 {
            want(&format!("none exists by an edit of kind {kind}"), least);
        }
        want(&format!("no longer none by an edit of kind {kind}"), least);
    }
    want("not none for B at 0 alone", 100);
    want("none exists with B at 1", 50);
    want("not none for one cost alone", 500);
    want("not none for signs or absent bounds alone", 100);
    want("verdicts gap 0 on true sheets", 500);
    want("verdicts gap above 0 on true sheets", 500);
    for status in [0, 11, 12, 13] {
        want(&format!("openings answered {status}"), 100);
    }
    want("openings refused for rows", 50);
    want("openings refused for columns", 50);
    want("openings refused with sizes whose product wraps", 20);
    for array in PLAN_ARRAYS {
        want(&format!("openings refused for short {}", array.name()), 50);
    }
    for reason in LIMITED.iter().chain(&["coefficient"]) {
        want(&format!("openings refused for {reason}"), 50);
    }
    want("openings answered 12 where bounds cross too", 20);
    want("sheets with longer arrays", 100);
    want("sheets whose bound passes an absent one's 0", 100);
    want("sheets of 1 row and 1 column", 100);
    want("sheets of 96 rows and 128 columns", 100);
    want("sheets of 65 rows or more", 300);
    want("sheets of 0 rows", 20);
    want("sheets of 0 columns", 20);
    want("sheets of 0 rows and 0 columns", 10);
    want("true sheets with both R and C at their sizes", 500);
    for place in [
        "R exactly 2^35",
        "R exactly -2^35",
        "C exactly 2^43",
        "C exactly -2^43",
    ] {
        want(&format!("true sheets with {place}"), 200);
    }
    want("true sheets with B at the most it can be", 50);
    want("sheets with B within 2^40 of 2^62", 500);
    want("sheets with B at exactly 2^62", 100);
    want("sheets with B at exactly -2^62", 100);
    want("sheets with D at exactly 2^39 in size", 100);
    for law in [
        "refused openings that changed something",
        "openings that left a sheet untrue",
        "refused edits that changed something",
        "accepted edits that left a true sheet untrue",
        "accepted edits that changed an unlisted cell",
        "gaps below 0 on true sheets",
        "none exists on a true sheet with a plan",
        "14 on a true sheet",
        "edits of badly sized sheets that weren't refused",
    ] {
        list.push((law.to_string(), Wanted::Never));
    }
    list
}

/// The targets that only scripts with `short` lines can meet.
pub fn short_targets() -> Vec<(String, Wanted)> {
    vec![("verdicts 11".to_string(), Wanted::AtLeast(500))]
}

/// One line for each target, and how many are met and missed.
pub fn report(tally: &Tally, targets: &[(String, Wanted)], out: &mut String) -> (u64, u64) {
    let (mut passed, mut failed) = (0, 0);
    for (name, wanted) in targets {
        let count = tally.count(name);
        let (good, words) = match wanted {
            Wanted::AtLeast(least) => (count >= *least, format!("at least {least}")),
            Wanted::Never => (count == 0, "never".to_string()),
        };
        if good {
            passed += 1;
        } else {
            failed += 1;
        }
        let verdict = if good { "passed" } else { "FAILED" };
        out.push_str(&format!("{verdict} {count:>7} ({words}) {name}\n"));
    }
    out.push_str(&format!("{passed} passed, {failed} failed\n"));
    (passed, failed)
}
