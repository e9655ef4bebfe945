//! The command-line program: its formats, answers and exit statuses, damaged files, and other
//! solvers' files. The program's modules are taken in as they are, so that most of it is tried
//! without starting a process.

#[allow(dead_code)]
#[path = "../../src/cli/mod.rs"]
mod cli;

mod answers;
mod audits;
mod damage;
mod desk;
mod fix;
mod formats;
mod kept;
mod pages;
mod peers;
mod program;
mod reading;
mod stages;
mod tour;
mod units;

#[global_allocator]
static MEMORY: reading::memory::Counting = reading::memory::Counting;

/// What the program says to these words, with `text` as its only file.
fn run(words: &[&str], text: &[u8]) -> cli::Outcome {
    kept::run(words, text).0
}

/// SplitMix64: the same numbers on every machine.
struct Rng(u64);

impl Rng {
    fn next(&mut self) -> u64 {
        self.0 = self.0.wrapping_add(0x9e37_79b9_7f4a_7c15);
        let mut z = self.0;
        z = (z ^ (z >> 30)).wrapping_mul(0xbf58_476d_1ce4_e5b9);
        z = (z ^ (z >> 27)).wrapping_mul(0x94d0_49bb_1331_11eb);
        z ^ (z >> 31)
    }

    /// Below `n`; 0 where `n` is 0.
    fn below(&mut self, n: usize) -> usize {
        (self.next() % n.max(1) as u64) as usize
    }

    fn within(&mut self, low: i64, high: i64) -> i64 {
        low + self.below((high - low + 1) as usize) as i64
    }
}
