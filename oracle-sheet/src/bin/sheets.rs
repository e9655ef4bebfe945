//! Writes seeded scripts on standard output, or with `--require` says what they reach.
//!
//!     sheets [--seed N] [--kind-max N] [--short N]           the scripts
//!     sheets [--seed N] [--kind-max N] [--short N] --require one line for each target
//!     sheets --fixed                                         the fixed list

use oracle_sheet::generate::{blocks, FIXED, WHOLE};
use oracle_sheet::tally::{report, short_targets, targets, Tally};
use std::io::Write;
use std::process::ExitCode;

fn main() -> ExitCode {
    let mut seed = 1u64;
    let mut require = false;
    let mut scale = WHOLE;
    let mut arguments = std::env::args().skip(1);
    while let Some(argument) = arguments.next() {
        let mut value = || arguments.next().and_then(|v| v.parse::<u64>().ok());
        let known = match argument.as_str() {
            "--seed" => value().map(|v| seed = v).is_some(),
            "--kind-max" => value()
                .filter(|v| *v > 32)
                .map(|v| scale.kind_max = v)
                .is_some(),
            "--short" => value().map(|v| scale.short = v).is_some(),
            "--require" => {
                require = true;
                true
            }
            "--fixed" => {
                scale = FIXED;
                true
            }
            _ => false,
        };
        if !known {
            eprintln!("sheets: what is {argument}?");
            return ExitCode::from(2);
        }
    }
    let mut stdout = std::io::stdout().lock();
    if require {
        let mut tally = Tally::default();
        blocks(seed, &scale, &mut |block| tally.see(&block));
        let mut wanted = targets();
        if scale.short > 0 {
            wanted.extend(short_targets());
        }
        let mut out = String::new();
        let (_, failed) = report(&tally, &wanted, &mut out);
        if stdout.write_all(out.as_bytes()).is_err() {
            return ExitCode::from(2);
        }
        return ExitCode::from(u8::from(failed > 0));
    }
    let mut out = String::new();
    let mut good = true;
    blocks(seed, &scale, &mut |block| {
        out.clear();
        oracle_sheet::print(&block, &mut out);
        good = good && stdout.write_all(out.as_bytes()).is_ok();
    });
    ExitCode::from(if good { 0 } else { 2 })
}
