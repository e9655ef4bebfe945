//! From doubles to a sheet in whole numbers. The plan's own numbers have to be whole; amounts and
//! multipliers are the library's proposal and others near it, and the sheet judges each.

use tevalumi::proposals;
use tevalumi::raw::limits;
use tevalumi::sheet::{Figures, NotProposed, Sheet, Verdict};
use tevalumi::wholes::{propose_into, Rounded};
use tevalumi::ComparisonOp;

use super::engine::{lent, Solved};
use super::html::Page;
use super::moved::kind;
use super::plan::{counted, Plan, EQ, LE};
use super::show::{number, of_1024, quoted, Side, Table};

/// The exit status where the sheet shows no gap.
pub const NO_GAP: u8 = 4;

/// Opens the sheet of a solved plan with the best proposal. The error is a sentence that names the
/// first number that doesn't fit.
pub fn open(plan: &Plan, solved: &Solved) -> Result<Sheet, String> {
    let mut figures = figures(plan, Costs::Own)?;
    propose(plan, solved, &mut figures)?;
    let sheet = proposals::best(&figures, &solved.values, &solved.multipliers(plan));
    sheet.map_err(|refusal| format!("the sheet isn't opened: {refusal}"))
}

/// 0 where the sheet shows a gap.
pub fn exit(sheet: &Sheet) -> u8 {
    match sheet.verdict() {
        Verdict::Gap(_) => 0,
        _ => NO_GAP,
    }
}

/// Which costs a sheet is opened with.
#[derive(Clone, Copy, Debug, PartialEq)]
pub enum Costs {
    Own,
    /// The plan's own aren't looked at.
    Zero,
}

/// The plan's own numbers, in the order of the sheet's arrays.
pub fn figures(plan: &Plan, costs: Costs) -> Result<Figures, String> {
    let (rows, columns) = (plan.rows, plan.columns);
    let column = |what: &str, j: usize| format!("the {what} of column {}", plan.column_name(j));
    let bounds = |what: &str, bounds: &[f64]| -> Result<Vec<Option<i64>>, String> {
        let bounds = bounds[..columns].iter().enumerate();
        let present = bounds.map(|(j, &x)| match x.is_finite() {
            true => whole(x, limits::SHEET_AMOUNT, || column(what, j)).map(Some),
            false => Ok(None),
        });
        present.collect()
    };
    let coefs = coefs(plan)?;
    let own = plan.costs[..columns].iter().enumerate();
    let costs = own.map(|(j, &x)| match costs {
        Costs::Own => whole(x, limits::SHEET_COST, || column("cost", j)),
        Costs::Zero => Ok(0),
    });
    let rhs = plan.rhs[..rows].iter().enumerate();
    let rhs = rhs.map(|(i, &x)| {
        whole(x, limits::SHEET_RIGHT, || {
            format!("the right side of row {}", plan.row_name(i))
        })
    });
    let ops = plan.ops[..rows].iter().map(|&op| match op {
        LE => ComparisonOp::Le,
        EQ => ComparisonOp::Eq,
        _ => ComparisonOp::Ge,
    });
    Ok(Figures {
        rows,
        columns,
        coefs,
        costs: costs.collect::<Result<_, _>>()?,
        lowers: bounds("lower bound", &plan.lowers)?,
        uppers: bounds("upper bound", &plan.uppers)?,
        rhs: rhs.collect::<Result<_, _>>()?,
        ops: ops.collect(),
        ..Figures::default()
    })
}

/// Coefficients in full, row by row.
fn coefs(plan: &Plan) -> Result<Vec<i64>, String> {
    let mut coefs = vec![0; plan.rows * plan.columns];
    for i in 0..plan.rows {
        let (cols, coeffs) = plan.row(i).unwrap_or_default();
        for (&j, &a) in cols.iter().zip(coeffs) {
            let (row, column) = (plan.row_name(i), plan.column_name(j));
            coefs[i * plan.columns + j] = whole(a, limits::SHEET_COEFFICIENT, || {
                format!("the coefficient of column {column} in row {row}")
            })?;
        }
    }
    Ok(coefs)
}

/// The library's proposal: whole amounts and multipliers, or a sentence on the first that isn't.
fn propose(plan: &Plan, solved: &Solved, figures: &mut Figures) -> Result<(), String> {
    figures.amounts = vec![0; plan.columns];
    figures.mults = vec![0; plan.rows];
    let (amounts, mults) = (&mut figures.amounts, &mut figures.mults);
    let proposed = propose_into(&lent(plan), &solved.values, &solved.work, amounts, mults);
    proposed.map_err(|why| not_proposed(plan, why))
}

/// The first number that isn't whole, by name.
pub fn not_proposed(plan: &Plan, why: NotProposed) -> String {
    match why {
        NotProposed::Amount { column, case } => {
            let what = format!("the amount of column {}", plan.column_name(column));
            not_whole(&what, case, limits::SHEET_AMOUNT)
        }
        NotProposed::Multiplier { row, case } => {
            let row = plan.row_name(row);
            let what = format!("the multiplier of row {row} in units of 1/1024");
            not_whole(&what, case, limits::SHEET_MULTIPLIER)
        }
        other => other.to_string(),
    }
}

fn not_whole(what: &str, case: Rounded, most: i64) -> String {
    match case {
        Rounded::Beyond(x) => format!("{what} is {}, over {most}", number(x)),
        _ => format!("{what} isn't a number"),
    }
}

fn whole(x: f64, most: i64, what: impl Fn() -> String) -> Result<i64, String> {
    if x.fract() != 0.0 {
        return Err(format!("{} is {}", what(), number(x)));
    }
    if x.abs() > most as f64 {
        return Err(format!("{} is {}, over {most}", what(), number(x)));
    }
    Ok(x as i64)
}

/// Rows, columns, cost, floor and gap.
pub fn tables(plan: &Plan, sheet: &Sheet) -> String {
    let (rows, columns) = (rows(plan, sheet), columns(plan, sheet));
    format!("\n{rows}\n{columns}\n{}", totals(plan, sheet))
}

fn rows(plan: &Plan, sheet: &Sheet) -> Table {
    let mut table = Table::new(&[
        ("row", Side::Left),
        ("activity", Side::Right),
        ("", Side::Left),
        ("right side", Side::Right),
        ("multiplier", Side::Right),
        ("", Side::Left),
    ]);
    for i in 0..sheet.rows() {
        let (activity, right) = (sheet.activity(i), sheet.right(i));
        let (sign, kept) = match sheet.op(i) {
            ComparisonOp::Le => ("<=", activity <= right),
            ComparisonOp::Eq => ("=", activity == right),
            ComparisonOp::Ge => (">=", activity >= right),
        };
        table.row(vec![
            plan.row_name(i),
            activity.to_string(),
            sign.to_string(),
            right.to_string(),
            of_1024(sheet.multiplier(i)),
            if kept { "" } else { "broken" }.to_string(),
        ]);
    }
    table
}

fn columns(plan: &Plan, sheet: &Sheet) -> Table {
    let mut table = Table::new(&[
        ("column", Side::Left),
        ("amount", Side::Right),
        ("lower", Side::Right),
        ("upper", Side::Right),
        ("cost", Side::Right),
        ("price", Side::Right),
        ("", Side::Left),
    ]);
    let bound = |bound: Option<i64>| bound.map_or("none".to_string(), |b| b.to_string());
    for j in 0..sheet.columns() {
        table.row(vec![
            plan.column_name(j),
            sheet.amount(j).to_string(),
            bound(sheet.lower(j)),
            bound(sheet.upper(j)),
            sheet.cost_of(j).to_string(),
            of_1024(sheet.price(j)),
            mark(sheet, j).to_string(),
        ]);
    }
    table
}

fn mark(sheet: &Sheet, j: usize) -> &'static str {
    let (amount, price) = (sheet.amount(j), sheet.price(j));
    let (lower, upper) = (sheet.lower(j), sheet.upper(j));
    if lower.is_some_and(|l| amount < l) || upper.is_some_and(|u| amount > u) {
        "out of bounds"
    } else if price > 0 && lower.is_none() || price < 0 && upper.is_none() {
        "needs a bound"
    } else {
        ""
    }
}

/// The sheet minimises: where the plan maximises its costs have their signs turned, and these
/// three are turned back.
fn totals(plan: &Plan, sheet: &Sheet) -> String {
    let (cost, floor) = (sheet.cost(), sheet.floor());
    let (names, cost, floor) = match plan.maximise {
        true => (["worth", "ceiling"], -cost, -floor),
        false => (["cost", "floor"], cost, floor),
    };
    let mut out = format!("{:<9}  {cost}\n", names[0]);
    match sheet.verdict() {
        Verdict::Gap(gap) => {
            out += &format!("{:<9}  {}\n", names[1], of_1024(floor));
            out += &format!("{:<9}  {}\n", "gap", of_1024(gap));
        }
        Verdict::NoFloor | Verdict::NotAPlan => out += &format!("{:<9}  none\n", names[1]),
        Verdict::NoneExists => out += &format!("{:<9}  {}\n", names[1], of_1024(floor)),
    }
    if plan.constant != 0.0 {
        out += &format!(
            "The constant {} is in none of these; every plan has it alike.\n",
            number(plan.constant)
        );
    }
    if plan.maximise {
        out += "In the tables costs and prices have their signs turned, because the sheet minimises.\n";
    }
    out
}

/// The verdict in one sentence that names its subject, no prettier than the sheet's.
pub fn verdict(plan: &Plan, sheet: &Sheet) -> String {
    let (costs, cheapest, cheaper) = match plan.maximise {
        true => ("is worth", "best", "worth more"),
        false => ("costs", "cheapest", "cheaper"),
    };
    let this = format!("This whole plan, which {costs} {},", worth(plan, sheet));
    match sheet.verdict() {
        Verdict::Gap(0) => format!(
            "{this} is the {cheapest} one: no plan, whole or fractional, is {cheaper}."
        ),
        Verdict::Gap(gap) => format!(
            "{this} is the {cheapest} one to within {gap}: no plan, whole or fractional, is {cheaper} by more than {gap}.",
            gap = of_1024(gap)
        ),
        Verdict::NoFloor => format!(
            "{this} keeps every row and bound, but the sheet has no floor ({}), so it doesn't say by how much another could be {cheaper}.",
            listed(&[
                (sheet.wrong_signs(), "multiplier has the wrong sign", "multipliers have the wrong sign"),
                (sheet.absent_bounds(), "price needs a bound that is absent", "prices need a bound that is absent"),
            ])
        ),
        Verdict::NotAPlan => format!(
            "The whole amounts that were found aren't a plan ({}), so the sheet says nothing about other plans.",
            listed(&[
                (sheet.rows_broken(), "row is broken", "rows are broken"),
                (sheet.amounts_out(), "amount is out of its bounds", "amounts are out of their bounds"),
            ])
        ),
        Verdict::NoneExists => Verdict::NoneExists.to_string(),
    }
}

/// The sheet's cost in the plan's direction. The constant is no part of it.
fn worth(plan: &Plan, sheet: &Sheet) -> String {
    let cost = match plan.maximise {
        true => -sheet.cost(),
        false => sheet.cost(),
    };
    match plan.constant {
        0.0 => cost.to_string(),
        constant => format!("{cost} without the constant {}", number(constant)),
    }
}

fn listed(counts: &[(usize, &str, &str)]) -> String {
    let some = counts.iter().filter(|&&(n, _, _)| n > 0);
    let some: Vec<String> = some.map(|&(n, one, more)| counted(n, one, more)).collect();
    some.join(" and ")
}

/// The page of an audit.
pub fn page(plan: &Plan, sheet: &Sheet) -> Page {
    let mut page = Page::new(&format!("Audit of {}", plan.name), &verdict(plan, sheet));
    put_gap(&mut page, plan, sheet);
    put_tables(&mut page, plan, sheet);
    page
}

/// The gap as a part of the cost.
pub fn put_gap(page: &mut Page, plan: &Plan, sheet: &Sheet) {
    if let Verdict::Gap(gap) = sheet.verdict() {
        let part = gap as f64 / 1024.0 / (sheet.cost().abs() as f64).max(1.0);
        let what = if plan.maximise { "worth" } else { "cost" };
        let percent = match 100.0 * part {
            percent if percent < 0.001 => "under 0.001".to_string(),
            percent => format!("{percent:.3}"),
        };
        let words = match gap {
            0 => "The gap is 0.".to_string(),
            gap => format!("The gap is {}, {percent} % of the {what}.", of_1024(gap)),
        };
        page.gap(&words, part);
    }
}

/// The sheet as tables.
pub fn put_tables(page: &mut Page, plan: &Plan, sheet: &Sheet) {
    let totals = totals(plan, sheet);
    let mut facts = Vec::new();
    let mut remarks = Vec::new();
    for line in totals.lines() {
        match line.split_once("  ") {
            Some((name, value)) => facts.push((name, value.trim().to_string())),
            None => remarks.push(line),
        }
    }
    page.facts(&facts);
    for remark in remarks {
        page.text(remark);
    }
    page.table("Rows", &rows(plan, sheet));
    page.table("Columns", &columns(plan, sheet));
}

/// What a solve's JSON has beside it in an audit.
pub fn as_json(plan: &Plan, sheet: &Sheet) -> String {
    let gap = match sheet.verdict() {
        Verdict::Gap(gap) => gap.to_string(),
        _ => "null".to_string(),
    };
    let name = kind(sheet.verdict());
    let list = |of: &dyn Fn(usize) -> i64, n: usize| {
        let numbers: Vec<String> = (0..n).map(|k| of(k).to_string()).collect();
        numbers.join(",")
    };
    [
        format!(
            ",\"sheet\":{{\"amounts\":[{}]",
            list(&|j| sheet.amount(j), sheet.columns())
        ),
        format!(
            ",\"multipliers_1024\":[{}]",
            list(&|i| sheet.multiplier(i), sheet.rows())
        ),
        format!(
            ",\"activities\":[{}]",
            list(&|i| sheet.activity(i), sheet.rows())
        ),
        format!(
            ",\"prices_1024\":[{}]",
            list(&|j| sheet.price(j), sheet.columns())
        ),
        format!(
            ",\"cost\":{},\"floor_1024\":{}",
            sheet.cost(),
            sheet.floor()
        ),
        format!(",\"verdict\":\"{name}\",\"gap_1024\":{gap}"),
        format!(",\"sentence\":{}}}", quoted(&verdict(plan, sheet))),
    ]
    .concat()
}
