//! Nights through the proved library: each answer and each lent cell beside the reference's, and what a night promises.
//! With --count the reference alone.
//!
//! nights [--count] [SEED]

use std::process::ExitCode;

use driver::nights::{run, Asked};

fn main() -> ExitCode {
    let (mut asked, mut seed) = (Asked::Both, 1);
    for word in std::env::args().skip(1) {
        match word.parse() {
            Ok(number) => seed = number,
            Err(_) if word == "--count" => asked = Asked::Reference,
            Err(_) => {
                eprintln!("nights: expected --count or a seed");
                return ExitCode::from(2);
            }
        }
    }
    let mut out = String::new();
    let good = run(asked, seed).report(&mut out);
    print!("{out}");
    ExitCode::from(u8::from(!good))
}
