//! What one change of a sheet moved: the kept numbers that differ, and the verdict before and after.

use tevalumi::sheet::{Sheet, Verdict};

use super::plan::Plan;
use super::show::{of_1024, quoted};

/// One change: what was asked for, in words, and what came of it.
pub struct Change {
    pub words: String,
    before: Verdict,
    after: Verdict,
    cells: Vec<Cell>,
}

/// A kept number that moved.
struct Cell {
    what: &'static str,
    /// The row's or column's name, where it has one.
    of: Option<String>,
    from: i64,
    to: i64,
    /// Whether it counts 1/1024.
    parts: bool,
}

impl Change {
    pub fn new(words: String, plan: &Plan, before: &Sheet, after: &Sheet) -> Change {
        Change {
            words,
            before: before.verdict(),
            after: after.verdict(),
            cells: cells(plan, before, after),
        }
    }

    /// The lines behind `edit` or `undone`.
    pub fn text(&self) -> String {
        let cells = self
            .cells
            .iter()
            .map(|cell| format!("moved      {}\n", cell.words()));
        let verdicts = format!(
            "verdict    {}, before {}\n",
            short(self.after),
            short(self.before)
        );
        cells.collect::<String>() + &verdicts
    }

    pub fn as_json(&self) -> String {
        let cells: Vec<String> = self.cells.iter().map(Cell::as_json).collect();
        format!(
            "{{\"edit\":{},\"before\":{},\"after\":{},\"moved\":[{}]}}",
            quoted(&self.words),
            verdict_json(self.before),
            verdict_json(self.after),
            cells.join(",")
        )
    }
}

/// `gap 3.0`
fn short(verdict: Verdict) -> String {
    match verdict {
        Verdict::Gap(gap) => format!("gap {}", of_1024(gap)),
        other => kind(other).to_string(),
    }
}

/// The verdict's name in JSON.
pub fn kind(verdict: Verdict) -> &'static str {
    match verdict {
        Verdict::Gap(_) => "gap",
        Verdict::NoFloor => "no floor",
        Verdict::NotAPlan => "not a plan",
        Verdict::NoneExists => "none exists",
    }
}

fn verdict_json(verdict: Verdict) -> String {
    let gap = match verdict {
        Verdict::Gap(gap) => gap.to_string(),
        _ => "null".to_string(),
    };
    format!("{{\"verdict\":\"{}\",\"gap_1024\":{gap}}}", kind(verdict))
}

impl Cell {
    fn words(&self) -> String {
        let number = |n: i64| match self.parts {
            true => of_1024(n),
            false => n.to_string(),
        };
        let of = self
            .of
            .as_ref()
            .map_or(String::new(), |of| format!(" of {of}"));
        format!(
            "{}{of} from {} to {}",
            self.what,
            number(self.from),
            number(self.to)
        )
    }

    fn as_json(&self) -> String {
        let unit = if self.parts { "_1024" } else { "" };
        let of = self.of.as_ref().map_or("null".to_string(), |of| quoted(of));
        format!(
            "{{\"cell\":\"{}{unit}\",\"of\":{of},\"from\":{},\"to\":{}}}",
            self.what, self.from, self.to
        )
    }
}

/// In the order of the sheet: activities, prices, cost, floor, and the four counts. They are the
/// sheet's own numbers, so they minimise.
fn cells(plan: &Plan, before: &Sheet, after: &Sheet) -> Vec<Cell> {
    let mut cells = Vec::new();
    let mut put = |what, of: Option<String>, parts, get: &dyn Fn(&Sheet) -> i64| {
        let (from, to) = (get(before), get(after));
        if from != to {
            cells.push(Cell {
                what,
                of,
                from,
                to,
                parts,
            });
        }
    };
    for i in 0..before.rows() {
        put("activity", Some(plan.row_name(i)), false, &|sheet| {
            sheet.activity(i)
        });
    }
    for j in 0..before.columns() {
        put("price", Some(plan.column_name(j)), true, &|sheet| {
            sheet.price(j)
        });
    }
    put("cost", None, false, &Sheet::cost);
    put("floor", None, true, &Sheet::floor);
    put("broken rows", None, false, &|sheet| {
        sheet.rows_broken() as i64
    });
    put("amounts out of bounds", None, false, &|sheet| {
        sheet.amounts_out() as i64
    });
    put("wrong signs", None, false, &|sheet| {
        sheet.wrong_signs() as i64
    });
    put("absent bounds", None, false, &|sheet| {
        sheet.absent_bounds() as i64
    });
    cells
}
