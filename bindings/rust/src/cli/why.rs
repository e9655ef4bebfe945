//! Why a plan has no solution, as the sheet has it. The multipliers are looked for by the crate and
//! need no trust: what is said is the sheet's verdict.

use tevalumi::raw::{Place, Status};
use tevalumi::sheet::{Sheet, Verdict};
use tevalumi::why::{proposal, reason, reason_after, Reason};
use tevalumi::ComparisonOp;

use super::audit::{figures, Costs};
use super::engine::Solved;
use super::html::{Bar, Page};
use super::plan::Plan;
use super::show::{of_1024, quoted, Side, Table};

const FLOOR: &str = "With all costs 0 every plan costs 0, and none costs less than the floor.";

/// What a look for a reason gives.
pub enum Looked {
    /// The sheet says that no plan exists.
    Shown(Box<Sheet>),
    SomePlan,
    /// Nothing was found that the sheet takes for a reason.
    NotShown,
}

/// The error is a sentence that names the first number that doesn't fit the sheet.
pub fn look(plan: &Plan, solved: &Solved) -> Result<Looked, String> {
    let figures = figures(plan, Costs::Zero)?;
    let answer = &solved.answer;
    let reason = match (answer.status, answer.place) {
        (Status::Infeasible, Place::KeptRow(row)) => reason_after(&figures, &solved.work, row),
        _ => reason(&figures),
    };
    let mults = match reason {
        Reason::Multipliers(mults) => mults,
        Reason::SomePlan => return Ok(Looked::SomePlan),
        Reason::GivenUp => return Ok(Looked::NotShown),
    };
    let sheet = Sheet::open(&proposal(&figures, mults))
        .map_err(|refusal| format!("the sheet isn't opened: {refusal}"))?;
    Ok(match sheet.verdict() {
        Verdict::NoneExists => Looked::Shown(Box::new(sheet)),
        _ => Looked::NotShown,
    })
}

impl Looked {
    /// 0 where it is shown, else that of a plan that isn't solved.
    pub fn exit(&self) -> u8 {
        match self {
            Looked::Shown(_) => 0,
            Looked::SomePlan | Looked::NotShown => 3,
        }
    }

    pub fn sentence(&self) -> String {
        match self {
            Looked::Shown(sheet) => sheet.verdict().to_string(),
            Looked::SomePlan => {
                "Some amounts, whole or fractional, keep every row and bound.".to_string()
            }
            Looked::NotShown => {
                "No multipliers were found that show why, so there may be a plan or none."
                    .to_string()
            }
        }
    }

    /// The rows and columns that count, the floor, and the sentence.
    pub fn text(&self, plan: &Plan) -> String {
        match self {
            Looked::Shown(sheet) => format!(
                "\n{}{}\nfloor      {}\n\n{FLOOR}\n{}\n",
                rows(plan, sheet),
                columns(plan, sheet).map_or(String::new(), |table| format!("\n{table}")),
                of_1024(sheet.floor()),
                self.sentence()
            ),
            Looked::SomePlan | Looked::NotShown => format!("\n{}\n", self.sentence()),
        }
    }

    /// The page of a reason.
    pub fn page(&self, plan: &Plan) -> Page {
        let mut page = Page::new(&format!("Why {} has no plan", plan.name), &self.sentence());
        if let Looked::Shown(sheet) = self {
            page.text(FLOOR);
            page.facts(&[("floor", of_1024(sheet.floor()))]);
            // A row's part: how much of the floor its multiplier and right side make.
            let parts = (0..sheet.rows()).map(|i| (i, sheet.multiplier(i) * sheet.right(i)));
            let parts: Vec<(usize, i64)> = parts.filter(|&(_, part)| part != 0).collect();
            let most = parts.iter().map(|&(_, part)| part.abs()).max().unwrap_or(1) as f64;
            let bar = |&(i, part): &(usize, i64)| {
                Bar::with(&plan.row_name(i), part.abs() as f64 / most, &of_1024(part))
            };
            page.bars(
                "Multiplier times right side",
                &parts.iter().map(bar).collect::<Vec<_>>(),
            );
            page.table("Rows that count", &rows(plan, sheet));
            if let Some(columns) = columns(plan, sheet) {
                page.table("Columns that count", &columns);
            }
        }
        page
    }

    /// What a solve's JSON has beside it.
    pub fn as_json(&self) -> String {
        let sentence = quoted(&self.sentence());
        let Looked::Shown(sheet) = self else {
            return format!(",\"why\":{{\"verdict\":null,\"sentence\":{sentence}}}");
        };
        let list = |of: &dyn Fn(usize) -> i64, n: usize| {
            let numbers: Vec<String> = (0..n).map(|k| of(k).to_string()).collect();
            numbers.join(",")
        };
        [
            format!(
                ",\"why\":{{\"multipliers_1024\":[{}]",
                list(&|i| sheet.multiplier(i), sheet.rows())
            ),
            format!(
                ",\"prices_1024\":[{}]",
                list(&|j| sheet.price(j), sheet.columns())
            ),
            format!(",\"floor_1024\":{}", sheet.floor()),
            format!(",\"verdict\":\"none exists\",\"sentence\":{sentence}}}"),
        ]
        .concat()
    }
}

/// The rows whose multiplier isn't 0.
fn rows(plan: &Plan, sheet: &Sheet) -> Table {
    let mut table = Table::new(&[
        ("row", Side::Left),
        ("", Side::Left),
        ("right side", Side::Right),
        ("multiplier", Side::Right),
    ]);
    for i in (0..sheet.rows()).filter(|&i| sheet.multiplier(i) != 0) {
        let sign = match sheet.op(i) {
            ComparisonOp::Le => "<=",
            ComparisonOp::Eq => "=",
            ComparisonOp::Ge => ">=",
        };
        table.row(vec![
            plan.row_name(i),
            sign.to_string(),
            sheet.right(i).to_string(),
            of_1024(sheet.multiplier(i)),
        ]);
    }
    table
}

/// The columns whose price isn't 0: it is the lower bound that counts where it is above 0, else the
/// upper one.
fn columns(plan: &Plan, sheet: &Sheet) -> Option<Table> {
    let mut table = Table::new(&[
        ("column", Side::Left),
        ("lower", Side::Right),
        ("upper", Side::Right),
        ("price", Side::Right),
    ]);
    let bound = |bound: Option<i64>| bound.map_or("none".to_string(), |b| b.to_string());
    let some: Vec<usize> = (0..sheet.columns())
        .filter(|&j| sheet.price(j) != 0)
        .collect();
    if some.is_empty() {
        return None;
    }
    for j in some {
        table.row(vec![
            plan.column_name(j),
            bound(sheet.lower(j)),
            bound(sheet.upper(j)),
            of_1024(sheet.price(j)),
        ]);
    }
    Some(table)
}
