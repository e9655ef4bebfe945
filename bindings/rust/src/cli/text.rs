//! The project's own text, `plan … end` (docs/EXCHANGE.md): what is lent, bit by bit. A file may
//! hold several plans.

use super::plan::{Fault, Plan, END};

/// What a `short` line may name: a section of the state, or an array of them.
pub const LENT: [&str; 21] = [
    "kept",
    "basic",
    "bval",
    "nonbasic",
    "nval",
    "price",
    "norm",
    "flags",
    "where",
    "etarow",
    "etaptr",
    "etaidx",
    "etaval",
    "counts",
    "obj",
    "numbers",
    "doubles",
    "factor_numbers",
    "factor_coeffs",
    "fnum",
    "fval",
];

pub fn read(text: &str) -> Result<Vec<Plan>, Fault> {
    let mut plans = Vec::new();
    let mut open: Option<Plan> = None;
    let mut last = 0;
    for (i, line) in text.lines().enumerate() {
        last = i + 1;
        let mut words = line.split_whitespace();
        let Some(key) = words.next() else { continue };
        let words: Vec<&str> = words.collect();
        match (&mut open, key) {
            (None, "plan") => match words[..] {
                [name] => open = Some(named(name)),
                _ => return Err(Fault::expected(last, "one name behind `plan`", line)),
            },
            (None, _) => return Err(Fault::expected(last, "`plan NAME`", line)),
            (Some(_), "end") => plans.extend(open.take()),
            (Some(plan), _) => field(plan, last, key, &words)?,
        }
    }
    if open.is_some() || plans.is_empty() {
        let wanted = if open.is_some() { "`end`" } else { "`plan`" };
        return Err(Fault::expected(last, wanted, END));
    }
    Ok(plans)
}

fn named(name: &str) -> Plan {
    Plan {
        name: name.to_string(),
        ..Plan::default()
    }
}

fn field(plan: &mut Plan, at: usize, key: &str, words: &[&str]) -> Result<(), Fault> {
    match (key, words) {
        ("dims", &[columns, rows, entries, budget, tolerance]) => {
            plan.columns = whole(at, columns)?;
            plan.rows = whole(at, rows)?;
            plan.entries = whole(at, entries)?;
            plan.budget = whole(at, budget)?;
            plan.tolerance = double(at, tolerance)?;
        }
        ("dims", _) => {
            let wanted = "columns, rows, entries, budget and tolerance behind `dims`";
            return Err(Fault::expected(at, wanted, &words.join(" ")));
        }
        ("cost", _) => (plan.costs, plan.lines.costs) = doubles(at, words)?,
        ("lower", _) => (plan.lowers, plan.lines.lowers) = doubles(at, words)?,
        ("upper", _) => (plan.uppers, plan.lines.uppers) = doubles(at, words)?,
        ("starts", _) => plan.starts = all(at, words, whole)?,
        ("cols", _) => plan.cols = all(at, words, whole)?,
        ("coef", _) => (plan.coeffs, plan.lines.coeffs) = doubles(at, words)?,
        ("ops", _) => {
            plan.ops = all(at, words, comparison)?;
            plan.lines.ops = vec![at; words.len()];
        }
        ("rhs", _) => (plan.rhs, plan.lines.rhs) = doubles(at, words)?,
        ("room", &[values, columns, entries]) => {
            let columns = whole(at, columns)?;
            let entries = whole(at, entries)?;
            plan.shorter.insert("values", whole(at, values)?);
            plan.shorter.insert("etarow", columns);
            plan.shorter.insert("etaptr", columns.saturating_add(1));
            plan.shorter.insert("etaidx", entries);
            plan.shorter.insert("etaval", entries);
        }
        ("room", _) => {
            return Err(Fault::expected(
                at,
                "three lengths behind `room`",
                &words.join(" "),
            ))
        }
        ("short", &[name, length]) => {
            let lent = LENT.into_iter().find(|&lent| lent == name);
            let lent = lent.ok_or_else(|| Fault::expected(at, "a lent array's name", name))?;
            plan.shorter.insert(lent, whole(at, length)?);
        }
        ("short", _) => {
            return Err(Fault::expected(
                at,
                "a lent array's name and a length behind `short`",
                &words.join(" "),
            ))
        }
        _ => {
            return Err(Fault::expected(
                at,
                "dims, cost, lower, upper, starts, cols, coef, ops, rhs, room, short or end",
                key,
            ))
        }
    }
    Ok(())
}

fn all<T>(
    at: usize,
    words: &[&str],
    one: fn(usize, &str) -> Result<T, Fault>,
) -> Result<Vec<T>, Fault> {
    words.iter().map(|word| one(at, word)).collect()
}

/// An array's numbers stand in one line.
fn doubles(at: usize, words: &[&str]) -> Result<(Vec<f64>, Vec<usize>), Fault> {
    Ok((all(at, words, double)?, vec![at; words.len()]))
}

fn whole(at: usize, word: &str) -> Result<usize, Fault> {
    let digits = word.bytes().all(|b| b.is_ascii_digit());
    match word.parse() {
        Ok(number) if digits => Ok(number),
        _ => Err(Fault::expected(at, "a whole number", word)),
    }
}

/// A comparison goes over as a byte. Above 2 it is the library's to refuse.
fn comparison(at: usize, word: &str) -> Result<u8, Fault> {
    u8::try_from(whole(at, word)?)
        .map_err(|_| Fault::expected(at, "a comparison from 0 to 255", word))
}

fn double(at: usize, word: &str) -> Result<f64, Fault> {
    let hex = word.len() == 16 && word.bytes().all(|b| b.is_ascii_hexdigit());
    match u64::from_str_radix(word, 16) {
        Ok(bits) if hex => Ok(f64::from_bits(bits)),
        _ => Err(Fault::expected(at, "the 16 hex digits of a double", word)),
    }
}
