//! Numbers, tables and JSON as text.

/// A double for people: the shortest digits that give it back, and no minus before a zero.
pub fn number(value: f64) -> String {
    let size = value.abs();
    if size == 0.0 {
        "0".to_string()
    } else if value.is_finite() && !(1e-5..1e16).contains(&size) {
        format!("{value:e}")
    } else {
        format!("{value}")
    }
}

/// The 16 hex digits of a double.
pub fn bits(value: f64) -> String {
    format!("{:016x}", value.to_bits())
}

/// A number of 1/1024, exactly: at most ten decimals.
pub fn of_1024(number: i64) -> String {
    let size = number.unsigned_abs();
    // 1/1024 is 9765625 of 1/10^10.
    let decimals = format!("{:010}", size % 1024 * 9_765_625);
    let decimals = match decimals.trim_end_matches('0') {
        "" => "0",
        some => some,
    };
    let sign = if number < 0 { "-" } else { "" };
    format!("{sign}{}.{decimals}", size / 1024)
}

#[derive(Clone, Copy, Debug, PartialEq)]
pub enum Side {
    Left,
    Right,
}

/// Cells in columns, two blanks between them.
#[derive(Debug)]
pub struct Table {
    sides: Vec<Side>,
    rows: Vec<Vec<String>>,
}

impl Table {
    pub fn new(heads: &[(&str, Side)]) -> Table {
        Table {
            sides: heads.iter().map(|&(_, side)| side).collect(),
            rows: vec![heads.iter().map(|&(head, _)| head.to_string()).collect()],
        }
    }

    pub fn row(&mut self, cells: Vec<String>) {
        self.rows.push(cells);
    }

    /// The heads, then each row.
    pub fn rows(&self) -> &[Vec<String>] {
        &self.rows
    }

    pub fn sides(&self) -> &[Side] {
        &self.sides
    }
}

impl std::fmt::Display for Table {
    fn fmt(&self, f: &mut std::fmt::Formatter<'_>) -> std::fmt::Result {
        let width = |column: usize| {
            let cells = self.rows.iter().filter_map(|row| row.get(column));
            cells.map(|cell| cell.chars().count()).max().unwrap_or(0)
        };
        let widths: Vec<usize> = (0..self.sides.len()).map(width).collect();
        for row in &self.rows {
            let mut line = String::new();
            for ((cell, &side), &width) in row.iter().zip(&self.sides).zip(&widths) {
                match side {
                    Side::Left => line += &format!("{cell:<width$}  "),
                    Side::Right => line += &format!("{cell:>width$}  "),
                }
            }
            writeln!(f, "{}", line.trim_end())?;
        }
        Ok(())
    }
}

/// Lines of at most so many characters, cut between words, each behind the indent. A longer word has a
/// line of its own.
pub fn wrapped(text: &str, width: usize, indent: &str) -> String {
    let mut out = String::new();
    let mut line = String::new();
    for word in text.split(' ') {
        let length = indent.len() + line.chars().count() + 1 + word.chars().count();
        if !line.is_empty() && length > width {
            out += &format!("{indent}{line}\n");
            line.clear();
        }
        if !line.is_empty() {
            line.push(' ');
        }
        line += word;
    }
    out + &format!("{indent}{line}\n")
}

/// A JSON string.
pub fn quoted(text: &str) -> String {
    let mut out = String::from("\"");
    for c in text.chars() {
        match c {
            '"' => out.push_str("\\\""),
            '\\' => out.push_str("\\\\"),
            c if c.is_control() => out.push_str(&format!("\\u{:04x}", u32::from(c))),
            c => out.push(c),
        }
    }
    out.push('"');
    out
}

/// A JSON number. JSON has no infinities and no NaN, so these are null.
pub fn json(value: f64) -> String {
    if value.is_finite() {
        format!("{value:?}")
    } else {
        "null".to_string()
    }
}
