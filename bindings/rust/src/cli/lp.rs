//! CPLEX-LP text: objective, rows, bounds, whole columns.

use std::borrow::Cow;
use std::collections::{HashMap, HashSet};

use super::plan::{bound, shown, Draft, DraftColumn, DraftRow, Fault, Number, END};
use super::source::Progress;

#[derive(Clone, Copy, Debug, PartialEq)]
enum Section {
    Objective(bool),
    Rows,
    Bounds,
    Whole,
    Binary,
    /// One that isn't read.
    Left(&'static str),
    End,
}

pub fn read(text: &str) -> Result<Draft, Fault> {
    let mut reader = Reader {
        at: Place::at(text, 0, 1),
        last: 0,
        text,
        progress: Progress::new(),
        draft: Draft::default(),
        columns: HashMap::new(),
        rows: HashSet::new(),
    };
    let first = reader.section();
    let Some(Section::Objective(maximise)) = first else {
        return Err(reader.expected("Minimize or Maximize"));
    };
    reader.draft.maximise = maximise;
    reader.objective()?;
    loop {
        match reader.section() {
            Some(Section::End) => return Ok(reader.draft),
            Some(Section::Rows) => reader.some(Reader::row)?,
            Some(Section::Bounds) => reader.some(Reader::bounds)?,
            Some(Section::Whole) => reader.some(|r| r.whole(false))?,
            Some(Section::Binary) => reader.some(|r| r.whole(true))?,
            Some(Section::Left(name)) => {
                let what = format!("section {name} isn't read: it is no part of a linear program");
                return Err(Fault::new(reader.line(), what));
            }
            Some(Section::Objective(_)) | None => {
                return Err(reader.expected("Subject To, Bounds, Generals, Binaries or End"))
            }
        }
    }
}

///// Where the reader stands: at a token, or behind the last one. Tokens aren't kept, since a long file has
/// many.
#[derive(Clone, Copy, Debug)]
struct Place {
    from: usize,
    length: usize,
    line: usize,
}

impl Place {
    /// The first token from here on. A `\` starts a comment. A number's sign is a token of its own, an
    /// exponent's is not.
    fn at(text: &str, mut from: usize, mut line: usize) -> Place {
        loop {
            let rest = &text[from..];
            let Some(first) = rest.chars().next() else {
                let length = 0;
                return Place { from, length, line };
            };
            if first == '\\' {
                from += rest.find('\n').unwrap_or(rest.len());
            } else if first.is_whitespace() {
                from += first.len_utf8();
                line += usize::from(first == '\n');
            } else {
                let length = length_of_token(rest, first);
                return Place { from, length, line };
            }
        }
    }

    fn next(self, text: &str) -> Place {
        Place::at(text, self.from + self.length, self.line)
    }
}

fn length_of_token(rest: &str, first: char) -> usize {
    if !is_sign(first) {
        return length_of_word(rest);
    }
    let comparing = |c: char| matches!(c, '<' | '>' | '=');
    match rest[1..].chars().next() {
        Some(c) if comparing(first) && comparing(c) => 2,
        _ => 1,
    }
}

fn is_sign(c: char) -> bool {
    matches!(c, '+' | '-' | '*' | '<' | '>' | '=' | ':' | '[' | ']' | '^')
}

fn length_of_word(text: &str) -> usize {
    let number = text.starts_with(|c: char| c.is_ascii_digit() || c == '.');
    if !number {
        let end = text.find(|c: char| c.is_whitespace() || is_sign(c) || c == '\\');
        return end.unwrap_or(text.len());
    }
    // 3x is a number and a name; 3e2 is a number.
    let bytes = text.as_bytes();
    let digit = |i: usize| bytes.get(i).is_some_and(u8::is_ascii_digit);
    let mut end = 0;
    while digit(end) || bytes.get(end) == Some(&b'.') {
        end += 1;
    }
    if matches!(bytes.get(end), Some(b'e' | b'E')) {
        let signed = usize::from(matches!(bytes.get(end + 1), Some(b'+' | b'-')));
        let mut power = end + 1 + signed;
        if digit(power) {
            while digit(power) {
                power += 1;
            }
            end = power;
        }
    }
    end
}

struct Reader<'a> {
    text: &'a str,
    at: Place,
    /// The line of the token before.
    last: usize,
    progress: Progress,
    draft: Draft,
    columns: HashMap<&'a str, usize>,
    rows: HashSet<Cow<'a, str>>,
}

impl<'a> Reader<'a> {
    fn text_at(&self, place: Place) -> &'a str {
        &self.text[place.from..place.from + place.length]
    }

    /// The token here, empty at the end.
    fn peek(&self) -> &'a str {
        self.text_at(self.at)
    }

    fn peek_next(&self) -> &'a str {
        self.text_at(self.at.next(self.text))
    }

    fn advance(&mut self, tokens: usize) {
        for _ in 0..tokens {
            self.last = self.at.line;
            self.at = self.at.next(self.text);
        }
        self.progress.line(self.at.line);
    }

    /// At the end of the file, that of the last token.
    fn line(&self) -> usize {
        match self.peek() {
            "" => self.last,
            _ => self.at.line,
        }
    }

    fn expected(&self, wanted: &str) -> Fault {
        let found = match self.peek() {
            "" => END,
            text => text,
        };
        Fault::expected(self.line(), wanted, found)
    }

    fn take(&mut self, text: &str) -> bool {
        let taken = self.peek().eq_ignore_ascii_case(text);
        self.advance(usize::from(taken));
        taken
    }

    /// The section whose heading stands here, and how many tokens the heading has.
    fn heading(&self) -> Option<(Section, usize)> {
        let word = self.peek().to_ascii_lowercase();
        let next = self.peek_next().to_ascii_lowercase();
        // A row or column of that name, not a heading.
        if next == ":" {
            return None;
        }
        if let Some(left) = self.left_out(&word, &next) {
            return Some(left);
        }
        Some(match word.as_str() {
            "maximize" | "maximise" | "maximum" | "max" => (Section::Objective(true), 1),
            "minimize" | "minimise" | "minimum" | "min" => (Section::Objective(false), 1),
            "subject" if next == "to" => (Section::Rows, 2),
            "such" if next == "that" => (Section::Rows, 2),
            "st" | "s.t." | "st." => (Section::Rows, 1),
            "bounds" | "bound" => (Section::Bounds, 1),
            "generals" | "general" | "gen" | "integers" | "integer" | "int" => (Section::Whole, 1),
            "binaries" | "binary" | "bin" => (Section::Binary, 1),
            "end" => (Section::End, 1),
            _ => return None,
        })
    }

    /// The heading of a section that isn't read. It begins its line; elsewhere it is a name.
    fn left_out(&self, word: &str, next: &str) -> Option<(Section, usize)> {
        let third = || {
            let third = self.at.next(self.text).next(self.text);
            self.text_at(third).to_ascii_lowercase()
        };
        let (name, length) = match (word, next) {
            ("semi", "-") if third() == "continuous" => ("Semi-Continuous", 3),
            ("semis", _) => ("Semi-Continuous", 1),
            ("sos" | "sos1" | "sos2", _) => ("SOS", 1),
            ("lazy", "constraints") => ("Lazy Constraints", 2),
            ("user", "cuts") => ("User Cuts", 2),
            ("pwlobj", _) => ("PWLObj", 1),
            ("multi", "-") if third().starts_with("objective") => ("Multi-Objectives", 3),
            ("general", "constraints") => ("General Constraints", 2),
            _ => return None,
        };
        (self.last != self.at.line).then_some((Section::Left(name), length))
    }

    fn section(&mut self) -> Option<Section> {
        let (section, length) = self.heading()?;
        self.advance(length);
        Some(section)
    }

    /// Reads pieces until the next heading.
    fn some(&mut self, one: impl Fn(&mut Self) -> Result<(), Fault>) -> Result<(), Fault> {
        while self.heading().is_none() {
            if self.peek().is_empty() {
                return Err(self.expected("End"));
            }
            one(self)?;
        }
        Ok(())
    }

    fn label(&mut self) -> Option<&'a str> {
        let name = self.peek();
        (self.peek_next() == ":").then(|| {
            self.advance(2);
            name
        })
    }

    /// One or more signs.
    fn sign(&mut self) -> Option<f64> {
        let mut sign = None;
        loop {
            if self.take("+") {
                sign = Some(sign.unwrap_or(1.0));
            } else if self.take("-") {
                sign = Some(-sign.unwrap_or(1.0));
            } else {
                return sign;
            }
        }
    }

    fn number(&mut self) -> Option<f64> {
        let word = self.peek();
        let value = if word.starts_with(|c: char| c.is_ascii_digit() || c == '.') {
            word.parse().ok()?
        } else if ["inf", "infinity"].contains(&word.to_ascii_lowercase().as_str()) {
            f64::INFINITY
        } else {
            return None;
        };
        self.advance(1);
        Some(value)
    }

    fn signed_number(&mut self) -> Option<Number> {
        let start = self.at;
        let sign = self.sign().unwrap_or(1.0);
        let line = self.line();
        let number = self.number().map(|n| Number::new(line, sign * n));
        if number.is_none() {
            self.at = start;
        }
        number
    }

    /// Names begin with a letter or one of CPLEX's marks.
    fn name(&mut self) -> Option<&'a str> {
        let word = self.peek();
        let first = word.chars().next()?;
        if is_sign(first) || first.is_ascii_digit() || first == '.' || self.heading().is_some() {
            return None;
        }
        self.advance(1);
        Some(word)
    }

    fn column(&mut self, name: &'a str) -> usize {
        if let Some(&place) = self.columns.get(name) {
            return place;
        }
        let place = self.draft.columns.len();
        self.columns.insert(name, place);
        self.draft.columns.push(DraftColumn::new(name));
        place
    }

    /// Terms and the sum of the numbers that stand alone. Terms of one column are added up; its line is
    /// the last one's.
    fn sum(&mut self) -> Result<(Vec<(usize, Number)>, f64), Fault> {
        let mut terms: Vec<(usize, Number)> = Vec::new();
        let mut alone = 0.0;
        loop {
            if self.peek() == "[" {
                return Err(Fault::new(
                    self.line(),
                    "a quadratic term is no part of a linear program",
                ));
            }
            let sign = self.sign();
            let line = self.line();
            let number = self.number();
            if number.is_some() {
                self.take("*");
            }
            let coeff = sign.unwrap_or(1.0) * number.unwrap_or(1.0);
            match (number, self.name()) {
                (_, Some(name)) => terms.push((self.column(name), Number::new(line, coeff))),
                (Some(_), None) => alone += coeff,
                (None, None) if sign.is_some() => return Err(self.expected("a number or a column")),
                (None, None) => break,
            }
        }
        terms.sort_by_key(|&(column, _)| column);
        terms.dedup_by(|next, kept| {
            let same = next.0 == kept.0;
            if same {
                kept.1 = Number::new(next.1.line, kept.1.value + next.1.value);
            }
            same
        });
        Ok((terms, alone))
    }

    fn objective(&mut self) -> Result<(), Fault> {
        self.draft.objective_name = self.label().unwrap_or("obj").to_string();
        let (terms, alone) = self.sum()?;
        for (column, cost) in terms {
            self.draft.columns[column].cost = cost;
        }
        self.draft.constant = alone;
        Ok(())
    }

    fn comparison(&mut self) -> Option<char> {
        let sign = match self.peek() {
            "<" | "<=" | "=<" => '<',
            ">" | ">=" | "=>" => '>',
            "=" | "==" => '=',
            _ => return None,
        };
        self.advance(1);
        Some(sign)
    }

    fn row(&mut self) -> Result<(), Fault> {
        let line = self.line();
        let label = self.label().map(Cow::Borrowed);
        let name = label.unwrap_or_else(|| format!("R{}", self.draft.rows.len() + 1).into());
        if !self.rows.insert(name.clone()) {
            return Err(Fault::new(
                line,
                format!("row `{}` stands twice", shown(&name)),
            ));
        }
        let mut low = Number::new(0, f64::NEG_INFINITY);
        let mut high = Number::new(0, f64::INFINITY);
        let start = self.at;
        let left = self.signed_number();
        match (left, self.comparison()) {
            (Some(number), Some(sign)) => limit(turned(sign), number, &mut low, &mut high),
            _ => self.at = start,
        }
        let two = self.at.from > start.from;
        let (mut entries, alone) = self.sum()?;
        entries.shrink_to_fit();
        match self.comparison() {
            Some(sign) => {
                let right = self.signed_number();
                let right = right.ok_or_else(|| self.expected("a number on the right side"))?;
                limit(sign, right, &mut low, &mut high);
            }
            None if two => {}
            None => return Err(self.expected("<=, = or >=")),
        }
        self.draft.rows.push(DraftRow {
            name: name.into_owned(),
            low: Number::new(low.line, low.value - alone),
            high: Number::new(high.line, high.value - alone),
            entries,
        });
        Ok(())
    }

    /// `x free`, `x <= 4`, `4 >= x`, `0 <= x <= 4`, `x = 4`.
    fn bounds(&mut self) -> Result<(), Fault> {
        let left = self.signed_number();
        let sign = match left {
            Some(_) => Some(
                self.comparison()
                    .ok_or_else(|| self.expected("<=, = or >="))?,
            ),
            None => None,
        };
        let column = self.known_column()?;
        if let (Some(number), Some(sign)) = (left, sign) {
            self.draft.columns[column].limit(turned(sign), bound(number));
        } else if self.take("free") {
            self.draft.columns[column].limit('>', Number::new(0, f64::NEG_INFINITY));
            self.draft.columns[column].limit('<', Number::new(0, f64::INFINITY));
            return Ok(());
        }
        match self.comparison() {
            Some(sign) => {
                let number = self.signed_number();
                let number = number.ok_or_else(|| self.expected("a number"))?;
                self.draft.columns[column].limit(sign, bound(number));
                Ok(())
            }
            None if left.is_some() => Ok(()),
            None => Err(self.expected("free, <=, = or >=")),
        }
    }

    fn known_column(&mut self) -> Result<usize, Fault> {
        let line = self.line();
        let name = self.name().ok_or_else(|| self.expected("a column"))?;
        let place = self.columns.get(name).copied();
        place.ok_or_else(|| Fault::expected(line, "a column of the objective or a row", name))
    }

    fn whole(&mut self, binary: bool) -> Result<(), Fault> {
        let line = self.line();
        let place = self.known_column()?;
        let column = &mut self.draft.columns[place];
        column.whole = column.whole.or(Some(line));
        if binary {
            column.lower = Some(Number::new(line, 0.0));
            column.upper = Some(Number::new(line, 1.0));
        } else if column.upper.is_none() {
            // Unlike in MPS, a whole column has no upper bound by itself.
            column.upper = Some(Number::new(line, f64::INFINITY));
        }
        Ok(())
    }
}

impl DraftColumn {
    /// An upper bound leaves the lower one at 0, whatever its sign, as GLPK and Clp read it.
    fn limit(&mut self, sign: char, number: Number) {
        if sign != '<' {
            self.lower = Some(number);
        } else {
            self.lower.get_or_insert(Number::new(0, 0.0));
        }
        if sign != '>' {
            self.upper = Some(number);
        }
    }
}

fn limit(sign: char, number: Number, low: &mut Number, high: &mut Number) {
    if sign != '<' {
        *low = number;
    }
    if sign != '>' {
        *high = number;
    }
}

/// The same comparison seen from the other side.
fn turned(sign: char) -> char {
    match sign {
        '<' => '>',
        '>' => '<',
        _ => sign,
    }
}
