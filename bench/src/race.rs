//! Sets of cases, each with the sides that do the same work: the library first, then those that it is compared with.

#[cfg(feature = "counts")]
use std::hint::black_box;
use std::time::Instant;

use crate::times::{median, timed, SAMPLE_NANOS};

/// What the library's side is called in every set.
pub const LIBRARY: &str = "library";
pub const ORACLE: &str = "oracle";
/// A fresh solve by the library, beside a call that goes on from a run.
pub const ANEW: &str = "solve anew";

/// A side's call on a case, over memory that is prepared beforehand.
pub trait Called {
    fn call(&mut self);

    /// Brings the memory back to where the call begins. It isn't timed.
    fn prepare(&mut self) {}

    /// Whether `prepare` does anything: then every call is timed by itself.
    fn prepared(&self) -> bool {
        false
    }
}

/// A call that leaves its memory as it finds it.
pub struct Repeated<F>(pub F);

impl<F: FnMut()> Called for Repeated<F> {
    fn call(&mut self) {
        (self.0)();
    }
}

/// Memory, how it is brought back, and the call over it.
pub struct Prepared<M, P, C> {
    pub memory: M,
    pub prepare: P,
    pub call: C,
}

impl<M, P: FnMut(&mut M), C: FnMut(&mut M)> Called for Prepared<M, P, C> {
    fn call(&mut self) {
        (self.call)(&mut self.memory);
    }

    fn prepare(&mut self) {
        (self.prepare)(&mut self.memory);
    }

    fn prepared(&self) -> bool {
        true
    }
}

/// One side of a case, with its samples for one call, in nanoseconds.
pub struct Side<'a> {
    call: Box<dyn Called + 'a>,
    pub steps: usize,
    repeats: usize,
    samples: Vec<f64>,
    /// The second sample in each round: how far two medians of the same thing differ.
    again: Vec<f64>,
}

impl<'a> Side<'a> {
    pub fn new(steps: usize, call: impl Called + 'a) -> Side<'a> {
        Side {
            call: Box::new(call),
            steps,
            repeats: 1,
            samples: vec![],
            again: vec![],
        }
    }

    /// So many calls in a row that a sample takes its time. A prepared call's is a fifth, since its preparations take
    /// more.
    fn fit(&mut self) {
        let share = if self.call.prepared() { 5.0 } else { 1.0 };
        let once = self.sample().max(1.0);
        self.repeats = (SAMPLE_NANOS / share / once).ceil() as usize;
    }

    fn sample(&mut self) -> f64 {
        if !self.call.prepared() {
            return timed(self.repeats, || self.call.call());
        }
        let mut nanos = 0;
        for counted in 0..=self.repeats {
            self.call.prepare();
            let start = Instant::now();
            self.call.call();
            if counted > 0 {
                nanos += start.elapsed().as_nanos();
            }
        }
        nanos as f64 / self.repeats as f64
    }
}

// Callgrind looks at the code between these two (`counts.c`).
#[cfg(feature = "counts")]
extern "C" {
    fn bench_counts_begin();
    fn bench_counts_end();
}

/// Callgrind's window within. The name is what `bench/run` tells it.
#[cfg(feature = "counts")]
#[no_mangle]
#[inline(never)]
fn bench_counted(call: &mut (dyn Called + '_)) {
    black_box(call).call();
}

/// A case, with a side for each name of its set.
pub struct Case<'a> {
    pub id: String,
    pub sides: Vec<Side<'a>>,
}

pub struct Set<'a> {
    pub name: String,
    /// The sides' names, the library's first.
    pub sides: Vec<&'static str>,
    pub cases: Vec<Case<'a>>,
    /// How many calls of the library one timed call makes.
    pub each: usize,
    /// What to say of the cases, as how many were left out.
    pub remark: String,
}

/// A set whose sides answer alike, or how they differ.
pub type Made<'a> = Result<Set<'a>, Vec<String>>;

impl<'a> Set<'a> {
    /// The set, where nothing differs.
    pub fn made(self, differ: Vec<String>) -> Made<'a> {
        match differ.is_empty() {
            true => Ok(self),
            false => Err(differ),
        }
    }

    pub fn new(name: impl Into<String>, sides: &[&'static str]) -> Set<'a> {
        Set {
            name: name.into(),
            sides: sides.to_vec(),
            cases: vec![],
            each: 1,
            remark: String::new(),
        }
    }

    /// Two samples of each side a round, the sides in turn: each always follows another, so none finds its own run
    /// fresh in the caches.
    pub fn time(&mut self, rounds: usize) {
        for side in self.cases.iter_mut().flat_map(|case| &mut case.sides) {
            side.fit();
        }
        for turn in 0..2 * rounds {
            for case in &mut self.cases {
                for side in &mut case.sides {
                    let nanos = side.sample();
                    // By turns, so that neither list is always the first.
                    match (turn / 2 + turn) % 2 {
                        0 => side.samples.push(nanos),
                        _ => side.again.push(nanos),
                    }
                }
            }
        }
    }

    /// Every call once under callgrind, side by side; a line tells which.
    #[cfg(feature = "counts")]
    pub fn count(&mut self) {
        for (at, name) in self.sides.iter().enumerate() {
            let calls = self.cases.iter_mut().map(|case| &mut case.sides[at].call);
            let mut calls: Vec<_> = calls.collect();
            calls.iter_mut().for_each(|call| call.prepare());
            // SAFETY: both only make requests to the tool.
            unsafe { bench_counts_begin() };
            calls
                .iter_mut()
                .for_each(|call| bench_counted(call.as_mut()));
            unsafe { bench_counts_end() };
            println!("{}|{name}|{}", self.name, self.cases.len() * self.each);
        }
    }

    /// The medians of a side's first or second samples, case by case.
    pub fn medians(&self, side: usize, again: bool) -> Vec<f64> {
        let of = |case: &Case| match again {
            false => median(&case.sides[side].samples),
            true => median(&case.sides[side].again),
        };
        self.cases.iter().map(of).collect()
    }

    pub fn steps(&self, side: usize) -> usize {
        self.cases.iter().map(|case| case.sides[side].steps).sum()
    }

    /// A line for each case.
    pub fn lines(&self) -> String {
        let mut lines = String::new();
        for case in &self.cases {
            lines += &format!("{}: {}", self.name, case.id);
            for (name, side) in self.sides.iter().zip(&case.sides) {
                let micros = median(&side.samples) / 1e3 / self.each as f64;
                lines += &format!("  {name} {micros:.2} us, {} steps;", side.steps);
            }
            lines.push('\n');
        }
        lines
    }
}
