//! Reads a file of any of the formats.

use std::borrow::Cow;
use std::ffi::OsStr;
use std::io::{self, ErrorKind, Write};
use std::path::Path;
use std::time::{Duration, Instant};

use super::args::Request;
use super::plan::{Fault, Plan};
use super::{kept, lp, mps, text, Files};

#[derive(Clone, Copy, Debug, Default, PartialEq)]
pub enum Format {
    /// Told by the content.
    #[default]
    Auto,
    /// MPS, free or fixed told by the content.
    Mps,
    FreeMps,
    FixedMps,
    Lp,
    Text,
    /// Blocks of bytes, as `tevalumi keep` writes them.
    Kept,
}

impl Format {
    pub const NAMES: [(&'static str, Format); 7] = [
        ("auto", Format::Auto),
        ("mps", Format::Mps),
        ("free-mps", Format::FreeMps),
        ("fixed-mps", Format::FixedMps),
        ("lp", Format::Lp),
        ("text", Format::Text),
        ("kept", Format::Kept),
    ];

    /// A file of that name is a kept plan, whatever its damaged content looks like.
    pub fn told_by_name(self, file: &OsStr) -> Format {
        let ending = Path::new(file).extension();
        match self {
            Format::Auto if ending.is_some_and(|ending| ending == "tev") => Format::Kept,
            told => told,
        }
    }
}

/// A kept plan's first block is of kind 1, a byte that begins no text.
pub fn is_kept(bytes: &[u8]) -> bool {
    bytes.first() == Some(&1)
}

/// A fault with its file and line.
pub fn told(file: &str, fault: Fault) -> String {
    match fault {
        Fault { line: 0, what } => format!("{file}: {what}"),
        Fault { line, what } => format!("{file}:{line}: {what}"),
    }
}

/// A file's bytes, unpacked, and the format that its name or the command line tells. The error says
/// what is wrong with the file as a whole.
pub fn load(request: &Request, files: &dyn Files) -> Result<(Vec<u8>, Format), String> {
    let told = |error: io::Error| match error.kind() {
        ErrorKind::FileTooLarge => format!(
            "is larger than {} MB; --max-size allows more",
            request.most >> 20
        ),
        _ => format!("can't be read: {error}"),
    };
    let mut bytes = files.read(&request.file, request.most).map_err(told)?;
    let mut name = Path::new(&request.file);
    if bytes.starts_with(&GZIP) {
        bytes = files
            .unpack(&bytes, request.most)
            .map_err(|error| match error.kind() {
                ErrorKind::NotFound => {
                    "is packed by gzip, and that program isn't there to unpack it".to_string()
                }
                ErrorKind::FileTooLarge => told(error),
                _ => format!("is packed by gzip, and can't be unpacked: {error}"),
            })?;
        if name.extension().is_some_and(|ending| ending == "gz") {
            name = Path::new(name.file_stem().unwrap_or_default());
        }
    }
    Ok((bytes, request.format.told_by_name(name.as_os_str())))
}

/// What a file that gzip wrote begins with.
const GZIP: [u8; 2] = [0x1f, 0x8b];

/// The plans of a file: one, but for the project's own text.
pub fn read(bytes: &[u8], format: Format, relax: bool) -> Result<Vec<Plan>, Fault> {
    if format == Format::Kept || format == Format::Auto && is_kept(bytes) {
        return Ok(vec![kept::plan(&kept::sheet(bytes)?)]);
    }
    let (text, latin) = decoded(bytes)?;
    let format = match format {
        Format::Auto => told_by_content(&text)?,
        told => told,
    };
    let mut draft = match format {
        Format::Text => return text::read(&text),
        Format::Lp => lp::read(&text)?,
        Format::FreeMps => mps::read(&text, mps::Layout::Free)?,
        Format::FixedMps => mps::read(&text, mps::Layout::Fixed)?,
        Format::Mps | Format::Auto | Format::Kept => mps::read_either(&text)?,
    };
    if latin {
        let note =
            "The file isn't UTF-8: it is read as Latin-1, so that different names stay different.";
        draft.notes.push(note.to_string());
    }
    Ok(vec![draft.finish(relax)?])
}

/// The text without a mark at its start and with lines that end in a line feed, and whether it is
/// Latin-1.
fn decoded(bytes: &[u8]) -> Result<(Cow<'_, str>, bool), Fault> {
    if bytes.starts_with(&[0xff, 0xfe]) || bytes.starts_with(&[0xfe, 0xff]) {
        return Err(Fault::new(
            0,
            "the file is UTF-16; expected UTF-8 or Latin-1",
        ));
    }
    let bytes = bytes.strip_prefix(b"\xef\xbb\xbf").unwrap_or(bytes);
    let (text, latin) = match std::str::from_utf8(bytes) {
        Ok(text) => (Cow::Borrowed(text), false),
        Err(_) => (
            Cow::Owned(bytes.iter().map(|&b| char::from(b)).collect()),
            true,
        ),
    };
    // A carriage return before a line feed is cut with the blanks at a line's end.
    let alone = |text: &str| {
        let mut ends = text.match_indices('\r');
        ends.any(|(i, _)| text.as_bytes().get(i + 1) != Some(&b'\n'))
    };
    Ok(match alone(&text) {
        true => (
            Cow::Owned(text.replace("\r\n", "\n").replace('\r', "\n")),
            latin,
        ),
        false => (text, latin),
    })
}

/// How far a long file is read, on standard error: after a second, and then each second.
pub struct Progress {
    next: Instant,
}

impl Progress {
    const EVERY: Duration = Duration::from_secs(1);

    pub fn new() -> Progress {
        Progress {
            next: Instant::now() + Progress::EVERY,
        }
    }

    /// The clock is looked at once in so many lines.
    pub fn line(&mut self, line: usize) {
        if line & 16_383 == 0 {
            let said = self.said(line, Instant::now()).unwrap_or_default();
            let _ = write!(io::stderr(), "{said}");
        }
    }

    /// What is said at this time, where a second has gone by.
    pub fn said(&mut self, line: usize, now: Instant) -> Option<String> {
        if now < self.next {
            return None;
        }
        self.next = now + Progress::EVERY;
        Some(format!("tevalumi: reading, {line} lines so far\n"))
    }
}

/// By the first word that is no comment.
fn told_by_content(text: &str) -> Result<Format, Fault> {
    for (i, line) in text.lines().enumerate() {
        let Some(word) = line.split_whitespace().next() else {
            continue;
        };
        if line.starts_with('*') {
            continue;
        }
        if line.trim_start().starts_with('\\') {
            return Ok(Format::Lp);
        }
        let lower = word.to_ascii_lowercase();
        if ["max", "min"].iter().any(|m| lower.starts_with(m)) {
            return Ok(Format::Lp);
        }
        return match word {
            "plan" => Ok(Format::Text),
            "NAME" | "ROWS" | "OBJSENSE" | "OBJNAME" => Ok(Format::Mps),
            _ => Err(Fault::expected(
                i + 1,
                "NAME or ROWS (MPS), Minimize or Maximize (LP) or plan (the project's own text)",
                word,
            )),
        };
    }
    Err(Fault::new(0, "the file is empty"))
}
