//! A solved plan in the form that `glpsol -o` writes, for scripts that read that.

use super::engine::{Solved, Stands};
use super::plan::{Plan, EQ, GE, LE};
use super::report::{column_lines, row_lines, ColumnLine, RowLine};

/// A line of either table. A range, which is two rows here, is one line again.
struct Line {
    name: String,
    stands: Stands,
    activity: f64,
    lower: f64,
    upper: f64,
    marginal: f64,
}

pub fn printed(plan: &Plan, solved: &Solved) -> String {
    let (lines, columns) = (row_lines(plan, solved), column_lines(plan, solved));
    let kkt = kkt(plan, &lines, &columns);
    let rows = merged(&lines);
    // A range's entries count once here, and zeros don't.
    let mut entries = 0;
    for i in (0..plan.rows).filter(|&i| !is_range(&lines, i)) {
        let (_, coeffs) = plan.row(i).unwrap_or_default();
        entries += coeffs.iter().filter(|&&a| a != 0.0).count();
    }
    let objective = match plan.objective_name.as_str() {
        "" => String::new(),
        name => format!("{name} = "),
    };
    let mut out = String::new();
    for (key, value) in [
        ("Problem:", plan.name.clone()),
        ("Rows:", rows.len().to_string()),
        ("Columns:", plan.columns.to_string()),
        ("Non-zeros:", entries.to_string()),
        ("Status:", "OPTIMAL".to_string()),
    ] {
        out += &format!("{key:<12}{value}\n");
    }
    out += &format!(
        "{:<12}{objective}{} ({})\n\n",
        "Objective:",
        general(plan.objective(solved.answer.objective), 10),
        if plan.maximise { "MAXimum" } else { "MINimum" }
    );
    out += &table("  Row name  ", &rows);
    out += "\n";
    out += &table(
        "Column name ",
        &columns.into_iter().map(of_column).collect::<Vec<_>>(),
    );
    out + &format!("\n{kkt}End of output\n")
}

fn of_column(line: ColumnLine) -> Line {
    Line {
        name: line.full,
        stands: line.stands,
        activity: line.value,
        lower: line.lower,
        upper: line.upper,
        marginal: line.price,
    }
}

fn of_row(line: &RowLine) -> Line {
    let lower = if line.op == LE {
        f64::NEG_INFINITY
    } else {
        line.right
    };
    let upper = if line.op == GE {
        f64::INFINITY
    } else {
        line.right
    };
    Line {
        name: line.full.clone(),
        stands: line.stands,
        activity: line.activity,
        lower,
        upper,
        marginal: line.multiplier,
    }
}

/// Whether this row is the lower end of a range, whose upper end stands before it.
fn is_range(rows: &[RowLine], i: usize) -> bool {
    i > 0 && rows[i].op == GE && rows[i - 1].op == LE && rows[i - 1].full == rows[i].full
}

/// The rows with both ends of a range in one line.
fn merged(rows: &[RowLine]) -> Vec<Line> {
    let mut lines: Vec<Line> = Vec::new();
    for (i, row) in rows.iter().enumerate() {
        let line = of_row(row);
        match lines.last_mut().filter(|_| is_range(rows, i)) {
            None => lines.push(line),
            Some(upper) => {
                upper.lower = line.lower;
                upper.marginal += line.marginal;
                if line.stands != Stands::Basic {
                    upper.stands = line.stands;
                }
            }
        }
    }
    lines
}

fn table(title: &str, lines: &[Line]) -> String {
    let mut out =
        format!("   No. {title} St   Activity     Lower bound   Upper bound    Marginal\n");
    out += "------ ------------ -- ------------- ------------- ------------- -------------\n";
    for (i, line) in lines.iter().enumerate() {
        out += &format!("{:>6} ", i + 1);
        out += &match line.name.chars().count() <= 12 {
            true => format!("{:<12} ", line.name),
            // A long name has its own line.
            false => format!("{}\n{:20}", line.name, ""),
        };
        out += &cells(line);
    }
    out
}

fn cells(line: &Line) -> String {
    let stands = match line.stands {
        Stands::Basic => "B ",
        Stands::AtLower => "NL",
        Stands::AtUpper => "NU",
        Stands::Fixed => "NS",
        Stands::Free => "NF",
    };
    let bound = |bound: f64| match bound.is_finite() {
        true => general(bound, 6),
        false => String::new(),
    };
    let upper = match line.lower == line.upper {
        true => "=".to_string(),
        false => bound(line.upper),
    };
    let marginal = match line.stands {
        Stands::Basic => String::new(),
        _ if line.marginal.abs() <= 1e-9 => format!("{:>13}", "< eps"),
        _ => format!("{:>13} ", general(line.marginal, 6)),
    };
    let activity = if line.activity.abs() <= 1e-9 {
        0.0
    } else {
        line.activity
    };
    format!(
        "{stands} {:>13} {:>13} {upper:>13} {marginal}\n",
        general(activity, 6),
        bound(line.lower)
    )
}

/// The largest errors of one condition, by size and in proportion, each with its place.
struct Worst {
    key: &'static str,
    wrong: &'static str,
    absolute: (f64, String),
    relative: (f64, String),
}

impl Worst {
    fn new(key: &'static str, wrong: &'static str, first: &str) -> Worst {
        let none = (0.0, format!("{first} 0"));
        Worst {
            key,
            wrong,
            absolute: none.clone(),
            relative: none,
        }
    }

    fn see(&mut self, what: &str, at: usize, error: f64, beside: f64) {
        let relative = error / (1.0 + beside.abs());
        for (worst, error) in [(&mut self.absolute, error), (&mut self.relative, relative)] {
            if error > worst.0 {
                *worst = (error, format!("{what} {}", at + 1));
            }
        }
    }

    fn text(&self) -> String {
        let quality = match self.relative.0 {
            e if e <= 1e-9 => "High quality",
            e if e <= 1e-6 => "Medium quality",
            e if e <= 1e-3 => "Low quality",
            _ => self.wrong,
        };
        format!(
            "{}: max.abs.err = {} on {}\n        max.rel.err = {} on {}\n        {quality}\n\n",
            self.key,
            power(self.absolute.0),
            self.absolute.1,
            power(self.relative.0),
            self.relative.1
        )
    }
}

/// The four conditions of an optimum, in doubles.
fn kkt(plan: &Plan, rows: &[RowLine], columns: &[ColumnLine]) -> String {
    let primal = "PRIMAL SOLUTION IS WRONG";
    let mut pe = Worst::new("KKT.PE", primal, "row");
    let mut pb = Worst::new("KKT.PB", "PRIMAL SOLUTION IS INFEASIBLE", "row");
    let mut de = Worst::new("KKT.DE", "DUAL SOLUTION IS WRONG", "column");
    let mut db = Worst::new("KKT.DB", "DUAL SOLUTION IS INFEASIBLE", "row");
    let mut left: Vec<f64> = columns
        .iter()
        .map(|column| column.cost - column.price)
        .collect();
    for (i, row) in rows.iter().enumerate() {
        pe.see(
            "row",
            i,
            (row.right - row.slack - row.activity).abs(),
            row.activity,
        );
        let over = row.activity - row.right;
        let off = match row.op {
            LE => over,
            EQ => over.abs(),
            _ => -over,
        };
        pb.see("row", i, off, row.right);
        let (cols, coeffs) = plan.row(i).unwrap_or_default();
        for (&j, &a) in cols.iter().zip(coeffs) {
            left[j] -= a * row.multiplier;
        }
        // More room on the right side never makes the best plan worse.
        let sign = plan.signed(row.multiplier);
        let wrong = match row.op {
            LE => sign,
            EQ => 0.0,
            _ => -sign,
        };
        db.see("row", i, wrong, 0.0);
    }
    for (j, column) in columns.iter().enumerate() {
        let over = (column.lower - column.value).max(column.value - column.upper);
        pb.see("column", j, over, column.value);
        de.see("column", j, left[j].abs(), column.cost);
        let price = plan.signed(column.price);
        let wrong = match column.stands {
            Stands::AtLower => -price,
            Stands::AtUpper => price,
            Stands::Free => price.abs(),
            Stands::Basic | Stands::Fixed => 0.0,
        };
        db.see("column", j, wrong, 0.0);
    }
    let all = [pe, pb, de, db].map(|worst| worst.text()).concat();
    format!("Karush-Kuhn-Tucker optimality conditions:\n\n{all}")
}

/// C's `%.2e`.
fn power(value: f64) -> String {
    let text = format!("{value:.2e}");
    let (digits, power) = text.split_once('e').unwrap_or((&text, "0"));
    let power: i32 = power.parse().unwrap_or(0);
    let sign = if power < 0 { '-' } else { '+' };
    format!("{digits}e{sign}{:02}", power.abs())
}

/// C's `%.Ng`: so many digits, no zeros at the end, a power where the number is large or small.
fn general(value: f64, digits: usize) -> String {
    if value == 0.0 || !value.is_finite() {
        return format!("{}", if value == 0.0 { 0.0 } else { value });
    }
    let text = format!("{value:.*e}", digits - 1);
    let (mantissa, exponent) = text.split_once('e').unwrap_or((&text, "0"));
    let exponent: i32 = exponent.parse().unwrap_or(0);
    let short = |text: &str| match text.contains('.') {
        true => text.trim_end_matches('0').trim_end_matches('.').to_string(),
        false => text.to_string(),
    };
    if (-4..digits as i32).contains(&exponent) {
        let decimals = (digits as i32 - 1 - exponent).max(0) as usize;
        return short(&format!("{value:.decimals$}"));
    }
    let sign = if exponent < 0 { '-' } else { '+' };
    format!("{}e{sign}{:02}", short(mantissa), exponent.abs())
}
