//! What a solve ended with, in words, for a person or as JSON.

use tevalumi::raw::{limits, Place, Status};

use super::engine::{Fix, Solved, Stands};
use super::html::{Bar, Page};
use super::plan::{counted, Plan, EQ, GE, LE};
use super::show::{bits, json, number, quoted, Side, Table};

/// The exit status: 0 Optimal, 1 for refusals 1 to 7 and 41 to 44, 3 for 20 to 26.
pub fn exit(status: Status) -> u8 {
    match status {
        Status::Optimal => 0,
        refusal if refusal.is_refusal() => 1,
        _ => 3,
    }
}

/// The plan's name and sizes, and what the reader left out.
pub fn title(plan: &Plan) -> String {
    let mut out = format!("plan       {}\n", sizes(plan));
    for note in &plan.notes {
        out += &format!("note       {note}\n");
    }
    out
}

fn sizes(plan: &Plan) -> String {
    format!(
        "{}: {}, {}, {}, {}",
        if plan.name.is_empty() {
            "(no name)".to_string()
        } else {
            super::plan::shown(&plan.name)
        },
        counted(plan.columns, "column", "columns"),
        counted(plan.rows, "row", "rows"),
        counted(plan.entries, "entry", "entries"),
        if plan.maximise {
            "maximise"
        } else {
            "minimise"
        },
    )
}

/// The plan, the status in a sentence, and where there is one the objective.
pub fn head(plan: &Plan, solved: &Solved, with_bits: bool) -> String {
    let answer = &solved.answer;
    let mut out = title(plan);
    out += &format!(
        "status     {}, {}\n",
        answer.status.number(),
        sentence(plan, solved)
    );
    if answer.status.is_refusal() {
        return out;
    }
    out += &result(plan, solved, with_bits);
    out + &format!("steps      {}\n", steps(solved))
}

/// The steps, with those that were taken with costs 0.
fn steps(solved: &Solved) -> String {
    match solved.costless {
        None => solved.answer.steps.to_string(),
        Some(before) => format!("{}, after {before} with costs 0", solved.answer.steps),
    }
}

/// The line of the objective.
pub fn result(plan: &Plan, solved: &Solved, with_bits: bool) -> String {
    let answer = &solved.answer;
    let objective = plan.objective(answer.objective);
    let mut out = format!("objective  {}", number(objective));
    if with_bits {
        out += &format!("  {}", bits(objective));
    }
    if answer.status != Status::Optimal {
        out += " after the last whole step, no result";
    }
    out + "\n"
}

/// Columns and rows by name, with what people look for beside each.
pub fn values(plan: &Plan, solved: &Solved, with_bits: bool) -> String {
    if solved.answer.status != Status::Optimal {
        return String::new();
    }
    let (columns, rows) = (column_lines(plan, solved), row_lines(plan, solved));
    let mut out = String::new();
    if !columns.is_empty() {
        out += &format!("\n{}", column_table(&columns, with_bits));
    }
    if !rows.is_empty() {
        out += &format!("\n{}", row_table(&rows, with_bits));
    }
    out
}

/// The page of a solve.
pub fn page(plan: &Plan, solved: &Solved) -> Page {
    let answer = &solved.answer;
    let mut page = Page::new(&format!("Plan {}", plan.name), &sentence(plan, solved));
    let mut facts = vec![
        ("plan", sizes(plan)),
        ("status", answer.status.number().to_string()),
    ];
    if !answer.status.is_refusal() {
        facts.push(("objective", number(plan.objective(answer.objective))));
        facts.push(("steps", steps(solved)));
    }
    page.facts(&facts);
    for note in &plan.notes {
        page.text(note);
    }
    if answer.status == Status::Optimal {
        let (columns, rows) = (column_lines(plan, solved), row_lines(plan, solved));
        let part = |line: &ColumnLine| line.upper.is_finite().then_some(line.upper);
        let bars = columns
            .iter()
            .map(|line| Bar::of(&line.name, line.value, part(line)));
        page.bars(
            "Values, of the upper bound where there is one",
            &bars.collect::<Vec<_>>(),
        );
        page.table("Columns", &column_table(&columns, false));
        page.table("Rows", &row_table(&rows, false));
    }
    page
}

/// A column of a solved plan, its numbers as the file means them.
pub struct ColumnLine {
    pub name: String,
    /// As the file has it, however long.
    pub full: String,
    pub value: f64,
    pub lower: f64,
    pub upper: f64,
    pub cost: f64,
    pub price: f64,
    pub stands: Stands,
}

/// A row of a solved plan. A row without entries was dropped; its slack counts as basic.
pub struct RowLine {
    pub name: String,
    pub full: String,
    pub activity: f64,
    pub op: u8,
    pub right: f64,
    pub slack: f64,
    pub multiplier: f64,
    /// Where the row's sum stands: at its upper limit where the slack is at 0 on "at most".
    pub stands: Stands,
}

pub fn column_lines(plan: &Plan, solved: &Solved) -> Vec<ColumnLine> {
    let ends = solved.ends(plan);
    let line = |j: usize| ColumnLine {
        name: plan.column_name(j),
        full: plan
            .column_names
            .get(j)
            .cloned()
            .unwrap_or_else(|| plan.column_name(j)),
        value: solved.values[j],
        lower: plan.lowers[j],
        upper: plan.uppers[j],
        cost: plan.signed(plan.costs[j]),
        price: plan.signed(ends[j].0),
        stands: ends[j].1,
    };
    (0..plan.columns).map(line).collect()
}

pub fn row_lines(plan: &Plan, solved: &Solved) -> Vec<RowLine> {
    let (ends, mults) = (solved.ends(plan), solved.multipliers(plan));
    let line = |i: usize| {
        let (cols, coeffs) = plan.row(i).unwrap_or_default();
        let terms = cols.iter().zip(coeffs);
        let place = solved.kept.binary_search(&i).ok().map(|k| plan.columns + k);
        let stands = place.map_or(Stands::Basic, |place| ends[place].1);
        RowLine {
            name: plan.row_name(i),
            full: plan
                .row_names
                .get(i)
                .cloned()
                .unwrap_or_else(|| plan.row_name(i)),
            activity: terms.fold(0.0, |sum, (&j, &a)| sum + a * solved.values[j]),
            op: plan.ops[i],
            right: plan.rhs[i],
            slack: place.map_or(plan.rhs[i], |place| solved.values[place]),
            multiplier: plan.signed(mults[i]),
            stands: match (stands, plan.ops[i]) {
                (Stands::Basic, _) => Stands::Basic,
                (_, LE) => Stands::AtUpper,
                (_, GE) => Stands::AtLower,
                _ => Stands::Fixed,
            },
        }
    };
    (0..plan.rows).map(line).collect()
}

fn stands(stands: Stands) -> &'static str {
    match stands {
        Stands::Basic => "basic",
        Stands::AtLower => "at lower",
        Stands::AtUpper => "at upper",
        Stands::Fixed => "fixed",
        Stands::Free => "free",
    }
}

fn bound(bound: f64) -> String {
    match bound.is_finite() {
        true => number(bound),
        false => "none".to_string(),
    }
}

pub fn column_table(lines: &[ColumnLine], with_bits: bool) -> Table {
    let right = |head| (head, Side::Right);
    let mut heads = vec![("column", Side::Left), right("value")];
    if with_bits {
        heads.push(("bits", Side::Left));
    }
    heads.extend(["lower", "upper", "cost", "price"].map(right));
    heads.push(("stands", Side::Left));
    let mut table = Table::new(&heads);
    for line in lines {
        let mut cells = vec![line.name.clone(), number(line.value)];
        if with_bits {
            cells.push(bits(line.value));
        }
        cells.extend([bound(line.lower), bound(line.upper)]);
        cells.extend([number(line.cost), number(line.price)]);
        cells.push(stands(line.stands).to_string());
        table.row(cells);
    }
    table
}

pub fn row_table(lines: &[RowLine], with_bits: bool) -> Table {
    let right = |head| (head, Side::Right);
    let mut heads = vec![("row", Side::Left), right("activity"), ("", Side::Left)];
    heads.extend(["right side", "slack"].map(right));
    if with_bits {
        heads.push(("bits", Side::Left));
    }
    heads.extend([right("multiplier"), ("stands", Side::Left)]);
    let mut table = Table::new(&heads);
    for line in lines {
        let mut cells = vec![
            line.name.clone(),
            number(line.activity),
            sign(line.op).to_string(),
        ];
        cells.extend([number(line.right), number(line.slack)]);
        if with_bits {
            cells.push(bits(line.slack));
        }
        cells.extend([number(line.multiplier), stands(line.stands).to_string()]);
        table.row(cells);
    }
    table
}

/// Of the JSON's fields: one is added to it when a field changes its meaning or goes.
pub const JSON_VERSION: u32 = 2;

/// One object on one line.
pub fn as_json(file: &str, plan: &Plan, solved: &Solved, with_bits: bool, more: &str) -> String {
    let answer = &solved.answer;
    let objective = plan.objective(answer.objective);
    let mut out = format!(
        "{{\"version\":{JSON_VERSION},\"file\":{},\"plan\":{},\"sense\":\"{}\",\"status\":{},\"name\":\"{:?}\",\"sentence\":{}",
        quoted(file),
        quoted(&plan.name),
        if plan.maximise { "maximise" } else { "minimise" },
        answer.status.number(),
        answer.status,
        quoted(&sentence(plan, solved)),
    );
    let notes: Vec<String> = plan.notes.iter().map(|note| quoted(note)).collect();
    out += &format!(",\"place\":{}", json_place(plan, solved));
    out += &format!(",\"notes\":[{}]", notes.join(","));
    if !answer.status.is_refusal() {
        out += &format!(
            ",\"objective\":{},\"steps\":{}",
            json(objective),
            answer.steps
        );
        if let Some(before) = solved.costless {
            out += &format!(",\"costless_steps\":{before}");
        }
        if with_bits {
            out += &format!(",\"objective_bits\":\"{}\"", bits(objective));
        }
    }
    if matches!(answer.status, Status::Optimal | Status::Rejected) {
        out += &format!(",\"excess\":{}", json(answer.excess));
        if with_bits {
            out += &format!(",\"excess_bits\":\"{}\"", bits(answer.excess));
        }
    }
    if answer.status == Status::Optimal {
        out += &json_columns(&column_lines(plan, solved), with_bits);
        out += &json_rows(&row_lines(plan, solved), with_bits);
    }
    out + more + "}\n"
}

/// Names stand unshortened in JSON, where the file has them; an absent bound is null.
fn json_columns(lines: &[ColumnLine], with_bits: bool) -> String {
    let lines = lines.iter().map(|line| {
        format!(
            "{{\"name\":{},\"value\":{}{},\"lower\":{},\"upper\":{},\"cost\":{},\"price\":{},\"stands\":\"{}\"}}",
            quoted(&line.full),
            json(line.value),
            json_bits(line.value, with_bits),
            json(line.lower),
            json(line.upper),
            json(line.cost),
            json(line.price),
            stands(line.stands)
        )
    });
    format!(",\"columns\":[{}]", lines.collect::<Vec<_>>().join(","))
}

fn json_rows(lines: &[RowLine], with_bits: bool) -> String {
    let lines = lines.iter().map(|line| {
        format!(
            "{{\"name\":{},\"slack\":{}{},\"activity\":{},\"op\":\"{}\",\"right\":{},\"multiplier\":{},\"stands\":\"{}\"}}",
            quoted(&line.full),
            json(line.slack),
            json_bits(line.slack, with_bits),
            json(line.activity),
            sign(line.op),
            json(line.right),
            json(line.multiplier),
            stands(line.stands)
        )
    });
    format!(",\"rows\":[{}]", lines.collect::<Vec<_>>().join(","))
}

fn json_bits(value: f64, with_bits: bool) -> String {
    match with_bits {
        true => format!(",\"bits\":\"{}\"", bits(value)),
        false => String::new(),
    }
}

/// Where a status arose, by number and by name; null where it has no place.
fn json_place(plan: &Plan, solved: &Solved) -> String {
    let column = |j: usize| format!("\"column\":{j},\"name\":{}", quoted(&plan.column_name(j)));
    let row = |i: usize| format!("\"row\":{i},\"name\":{}", quoted(&plan.row_name(i)));
    let kept = |k: usize| row(solved.kept.get(k).copied().unwrap_or(k));
    let (kind, rest) = match solved.answer.place {
        Place::Nowhere => return "null".to_string(),
        Place::Entry { row: i, within } => ("entry", format!("{},\"within\":{within}", row(i))),
        Place::Column(j) => ("column", column(j)),
        Place::Row(i) => ("row", row(i)),
        Place::Value(v) if v < plan.columns => ("column", column(v)),
        Place::Value(v) => ("slack", kept(v - plan.columns)),
        Place::KeptRow(k) => ("row", kept(k)),
    };
    format!("{{\"kind\":\"{kind}\",{rest}}}")
}

/// A plain sentence, with the place by name.
pub fn sentence(plan: &Plan, solved: &Solved) -> String {
    let (status, place) = (solved.answer.status, solved.answer.place);
    let (better, endless) = match plan.maximise {
        true => ("better", "the objective is taken to rise without end"),
        false => ("cheaper", "the cost is taken to fall without end"),
    };
    match (status, place) {
        (Status::Optimal, _) => match under_eps(plan, solved) {
            None => format!(
                "Optimal: no column would make the plan {better}, and the final check accepts it{}.",
                largest(solved)
            ),
            Some(counts) => format!(
                "Optimal but for prices under {EPS:e} in size: {counts}; no other would make the plan {better}, and the final check accepts it{}.",
                largest(solved)
            ),
        },
        (Status::BadSize, _) => format!("refused: {}.", too_large(plan)),
        (Status::BadNumber, _) => format!("refused: {}.", bad_number(plan)),
        (Status::BadEntry, Place::Entry { row, within }) => format!(
            "refused: entry {within} of row {} (from 0) has a column number that is too large or doesn't rise.",
            plan.row_name(row)
        ),
        (Status::CrossedBounds, Place::Column(j)) => format!(
            "refused: column {} has the lower bound {} above the upper bound {}.",
            plan.column_name(j),
            cell(&plan.lowers, j),
            cell(&plan.uppers, j)
        ),
        (Status::FalseEmptyRow, Place::Row(i)) => format!(
            "refused: row {} has no entries, and {} is false.",
            plan.row_name(i),
            compared(plan, 0.0, i)
        ),
        (Status::SlackOutside, _) => format!(
            "refused: {}, and {}: a plain solve begins where every row is kept, or where every column has such a bound. There may be a plan all the same.",
            broken_at_start(plan).unwrap_or_else(|| "a row isn't kept at the start".to_string()),
            unbounded_start(plan)
        ),
        (Status::StartNotFinite, _) => {
            "refused: a start value, the start's cost or a norm isn't finite."
                .to_string()
        }
        (Status::Unbounded, _) => format!(
            "Unbounded: a column would make the plan {better}, and no bound and no row whose coefficient there is at least {EPS:e} in size stops it, so {endless}."
        ),
        (Status::NoRoom, _) => {
            "NoRoom: the store of exchanges is full, and the next one doesn't fit.".to_string()
        }
        (Status::Singular, _) => {
            "Singular: the basis after the next exchange can't be factored: every remaining entry of some column is under 1e-8."
                .to_string()
        }
        (Status::NotFinite, _) => {
            "NotFinite: a number of the next step isn't finite.".to_string()
        }
        (Status::Spent, _) => format!(
            "Spent: {} taken, as many as the budget has, and another would follow.",
            counted(plan.budget, "step was", "steps were")
        ),
        (Status::Rejected, Place::Value(v)) => match v.checked_sub(plan.columns) {
            None => format!(
                "Rejected: the final check finds column {} out of its bounds{}.",
                plan.column_name(v),
                largest(solved)
            ),
            Some(k) => format!(
                "Rejected: the final check finds the slack of row {} out of its bounds{}.",
                kept_name(plan, solved, k),
                largest(solved)
            ),
        },
        (Status::Rejected, Place::KeptRow(k)) => format!(
            "Rejected: the final check finds row {} off by more than the tolerance{}.",
            kept_name(plan, solved, k),
            largest(solved)
        ),
        (Status::Infeasible, Place::KeptRow(k)) => match solved.unmoved(k) {
            Some(fix) => format!(
                "Infeasible: the solver finds no column that could take up the move of {} from {} to {}: none that has room to move has a coefficient of at least {EPS:e} in size in its row.",
                plan.column_name(fix.column),
                number(fix.from),
                number(fix.value)
            ),
            None => format!(
            "Infeasible: the solver finds no column that could mend row {}, {}: none that has room to move has a coefficient of at least {EPS:e} in size there.",
            kept_name(plan, solved, k),
            out_of_bounds(plan, solved, k)
        ),
        },
        (Status::ValueOutside, _) => {
            let may = |fix: Fix| {
                let (name, column) = (plan.column_name(fix.column), fix.column);
                format!("{name} may stand {}", range(plan.lowers[column], plan.uppers[column]))
            };
            format!("refused: {}.", solved.fix.map_or(status.sentence().to_string(), may))
        }
        (status, _) => format!("{}.", status.sentence()),
    }
}

/// Where a column may stand, in words.
fn range(lower: f64, upper: f64) -> String {
    match (lower.is_finite(), upper.is_finite()) {
        (true, true) => format!("from {} to {}", number(lower), number(upper)),
        (true, false) => format!("from {} on", number(lower)),
        (false, true) => format!("up to {}", number(upper)),
        (false, false) => "at any finite number".to_string(),
    }
}

/// What is out of its bounds in a kept row: `where column x stands at 2, above its upper bound 1`.
fn out_of_bounds(plan: &Plan, solved: &Solved, row: usize) -> String {
    let (var, value) = solved.basic(row);
    match var.checked_sub(plan.columns) {
        None => {
            let (lower, upper) = (plan.lowers[var], plan.uppers[var]);
            let (side, bound) = match value < lower {
                true => ("below its lower", lower),
                false => ("above its upper", upper),
            };
            format!(
                "where column {} stands at {}, {side} bound {}",
                plan.column_name(var),
                number(value),
                number(bound)
            )
        }
        Some(k) => {
            let i = solved.kept.get(k).copied().unwrap_or(k);
            let broken = compared(plan, plan.rhs[i] - value, i);
            match k == row {
                true => format!("which is broken ({broken})"),
                false => format!("where row {} is broken ({broken})", plan.row_name(i)),
            }
        }
    }
}

/// A price or a coefficient that is smaller counts as 0 in a run: 01's EPS.
pub const EPS: f64 = 1e-8;

/// The columns and rows that could make the plan cheaper, but at a price that counts as 0.
fn under_eps(plan: &Plan, solved: &Solved) -> Option<String> {
    let ends = solved.ends(plan).into_iter().enumerate();
    let small = ends.filter(|&(_, (price, stands))| match stands {
        Stands::AtLower => price < 0.0,
        Stands::AtUpper => price > 0.0,
        Stands::Free => price != 0.0,
        Stands::Basic | Stands::Fixed => false,
    });
    let mut small = small.map(|(v, (price, _))| match v.checked_sub(plan.columns) {
        None => (format!("column {}", plan.column_name(v)), price),
        Some(k) => (format!("row {}", kept_name(plan, solved, k)), price),
    });
    let (name, price) = small.next()?;
    let first = format!(
        "that of {name}, {}, counts as 0",
        number(plan.signed(price))
    );
    Some(match small.count() {
        0 => first,
        more => format!(
            "{first}, and {} too",
            counted(more, "other does", "others do")
        ),
    })
}

/// How far the values are beyond a bound or off a row, where they are at all.
fn largest(solved: &Solved) -> String {
    match solved.answer.excess {
        0.0 => String::new(),
        excess => format!("; the largest excess is {excess:?}"),
    }
}

fn kept_name(plan: &Plan, solved: &Solved, k: usize) -> String {
    plan.row_name(solved.kept.get(k).copied().unwrap_or(k))
}

fn cell(cells: &[f64], at: usize) -> String {
    cells.get(at).copied().map_or("?".to_string(), number)
}

fn compared(plan: &Plan, left: f64, row: usize) -> String {
    let sign = sign(plan.ops.get(row).copied().unwrap_or(GE));
    format!("{} {sign} {}", number(left), cell(&plan.rhs, row))
}

fn sign(op: u8) -> &'static str {
    match op {
        LE => "<=",
        EQ => "=",
        _ => ">=",
    }
}

fn too_large(plan: &Plan) -> String {
    let sizes = [
        (plan.columns, limits::COLUMNS, "columns"),
        (plan.rows, limits::ROWS, "rows"),
        (plan.entries, limits::ENTRIES, "entries"),
        (plan.budget, limits::BUDGET, "steps of budget"),
    ];
    match sizes.into_iter().find(|&(size, most, _)| size > most) {
        Some((size, most, what)) => format!("{size} {what} are more than {most}"),
        None => "an array is too short, or the row starts don't fit the entries".to_string(),
    }
}

/// The first number that isn't allowed, and where it stands.
fn bad_number(plan: &Plan) -> String {
    if !(0.0..=limits::TOLERANCE).contains(&plan.tolerance) {
        return format!("the tolerance {} isn't from 0 to 1", plan.tolerance);
    }
    let found = bad_of_a_column(plan).or_else(|| bad_of_a_row(plan));
    found.unwrap_or_else(|| {
        let mut ops = plan.ops.iter().take(plan.rows);
        let i = ops.position(|&op| op > GE).unwrap_or(0);
        let what = format!("the comparison of row {}", plan.row_name(i));
        format!("{what} isn't known{}", line(&plan.lines.ops, i))
    })
}

/// NaN, an infinity but for the allowed one, or above 1e12 in size. What stands past the sizes is no
/// part of the plan.
fn first_bad(cells: &[f64], size: usize, allowed: Option<f64>) -> Option<usize> {
    let bad = |x: f64| x.is_nan() || x.abs() > limits::NUMBER;
    let mut cells = cells.iter().take(size);
    cells.position(|&x| bad(x) && Some(x) != allowed)
}

fn bad_of_a_column(plan: &Plan) -> Option<String> {
    let (columns, lines) = (plan.columns, &plan.lines);
    let of = |what: &str, j: usize| format!("the {what} of column {}", plan.column_name(j));
    let sign = if plan.maximise { -1.0 } else { 1.0 };
    let cost = |j: usize| told(of("cost", j), sign * plan.costs[j], &lines.costs, j);
    let lower = |j: usize| told(of("lower bound", j), plan.lowers[j], &lines.lowers, j);
    let upper = |j: usize| told(of("upper bound", j), plan.uppers[j], &lines.uppers, j);
    let found = first_bad(&plan.costs, columns, None).map(cost);
    found
        .or_else(|| first_bad(&plan.lowers, columns, Some(f64::NEG_INFINITY)).map(lower))
        .or_else(|| first_bad(&plan.uppers, columns, Some(f64::INFINITY)).map(upper))
}

fn bad_of_a_row(plan: &Plan) -> Option<String> {
    let right = |i: usize| {
        let what = format!("the right side of row {}", plan.row_name(i));
        told(what, plan.rhs[i], &plan.lines.rhs, i)
    };
    let coeff = |e: usize| {
        let row = plan.starts.iter().rposition(|&start| start <= e);
        let row = plan.row_name(row.unwrap_or(0));
        let what = match plan.cols.get(e) {
            Some(&j) => format!(
                "the coefficient of column {} in row {row}",
                plan.column_name(j)
            ),
            None => format!("a coefficient of row {row}"),
        };
        told(what, plan.coeffs[e], &plan.lines.coeffs, e)
    };
    let found = first_bad(&plan.rhs, plan.rows, None).map(right);
    found.or_else(|| first_bad(&plan.coeffs, plan.entries, None).map(coeff))
}

/// `the cost of column x is 1e200, above 1e12 in size (line 7)`
fn told(what: String, value: f64, lines: &[usize], at: usize) -> String {
    let over = match value.is_finite() {
        true => format!(", above {:e} in size", limits::NUMBER),
        false => String::new(),
    };
    format!("{what} is {}{over}{}", number(value), line(lines, at))
}

/// Where the file says the number, if it does.
fn line(lines: &[usize], at: usize) -> String {
    match lines.get(at) {
        None | Some(0) => String::new(),
        Some(line) => format!(" (line {line})"),
    }
}

/// The first column with no bound on the side that its cost prefers. Only for the sentence: the library
/// has settled that there is one.
fn unbounded_start(plan: &Plan) -> String {
    let side = |j: usize| match plan.costs[j] {
        cost if cost < 0.0 && plan.uppers[j] == f64::INFINITY => Some("upper"),
        cost if cost > 0.0 && plan.lowers[j] == f64::NEG_INFINITY => Some("lower"),
        _ => None,
    };
    let told = |j: usize| {
        let name = plan.column_name(j);
        side(j).map(|side| format!("column {name} has no {side} bound, which its cost prefers"))
    };
    let none = || "a column has no bound on the side that its cost prefers".to_string();
    (0..plan.columns).find_map(told).unwrap_or_else(none)
}

/// The first row that the start breaks, by 01's rule for the start. Only for the sentence: the
/// library has settled that there is one.
fn broken_at_start(plan: &Plan) -> Option<String> {
    let start = |j: usize| {
        let (cost, lower, upper) = (plan.costs[j], plan.lowers[j], plan.uppers[j]);
        let wanted = match cost < 0.0 {
            true => [upper, lower],
            false => [lower, upper],
        };
        wanted.into_iter().find(|x| x.is_finite()).unwrap_or(0.0)
    };
    (0..plan.rows).find_map(|i| {
        let (cols, coeffs) = plan.row(i)?;
        let entries = cols.iter().zip(coeffs);
        let sum = entries.fold(0.0, |sum, (&j, &a)| sum + a * start(j));
        let slack = plan.rhs[i] - sum;
        let kept = match plan.ops[i] {
            LE => slack >= 0.0,
            EQ => slack == 0.0,
            GE => slack <= 0.0,
            _ => true,
        };
        let told = || {
            format!(
                "row {} is broken at the start ({})",
                plan.row_name(i),
                compared(plan, sum, i)
            )
        };
        (!kept && !cols.is_empty()).then(told)
    })
}
