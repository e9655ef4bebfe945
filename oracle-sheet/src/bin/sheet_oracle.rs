//! Reads sheet blocks on standard input and writes the reference's answer lines on standard
//! output. With `--cells` each line also carries the plan cells.

use oracle_sheet::Reference;
use std::io::{Read, Write};
use std::process::ExitCode;

fn main() -> ExitCode {
    let mut cells = false;
    for argument in std::env::args().skip(1) {
        match argument.as_str() {
            "--cells" => cells = true,
            other => {
                eprintln!("sheet_oracle: unknown argument {other}");
                return ExitCode::from(2);
            }
        }
    }
    let mut text = String::new();
    if let Err(e) = std::io::stdin().read_to_string(&mut text) {
        eprintln!("sheet_oracle: {e}");
        return ExitCode::from(2);
    }
    let blocks = match oracle_sheet::parse(&text) {
        Ok(blocks) => blocks,
        Err(e) => {
            eprintln!("sheet_oracle: {e}");
            return ExitCode::from(2);
        }
    };
    let mut stdout = std::io::stdout().lock();
    let mut out = String::new();
    for block in &blocks {
        out.clear();
        oracle_sheet::answer(&mut Reference, block, cells, &mut out);
        if stdout.write_all(out.as_bytes()).is_err() {
            return ExitCode::from(2);
        }
    }
    ExitCode::SUCCESS
}
