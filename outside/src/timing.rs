//! How the benchmarks are taken: candidates in turn, the best of many runs, a row of a table in markdown.

use std::hint::black_box;
use std::ops::{Deref, DerefMut};
use std::time::Instant;

/// Who is timed: the columns of the table.
#[derive(Clone, Copy, PartialEq)]
pub enum Who {
    Proved,
    Rust,
    C,
}

/// One way to do a row's work; what it answers is held to the others' answers.
pub struct Runner<'a> {
    pub who: Who,
    pub run: Box<dyn FnMut() -> u64 + 'a>,
}

/// The best time of each runner, in nanoseconds for each of the `parts` that one run does.
pub fn best(runners: &mut [Runner], parts: f64, rounds: usize) -> Vec<(Who, f64)> {
    let right = (runners[0].run)();
    for runner in runners.iter_mut() {
        assert_eq!((runner.run)(), right, "the runners disagree");
    }
    let mut found: Vec<(Who, f64)> = runners.iter().map(|runner| (runner.who, f64::INFINITY)).collect();
    for _ in 0..rounds {
        for (runner, (_, least)) in runners.iter_mut().zip(&mut found) {
            let start = Instant::now();
            black_box((runner.run)());
            *least = least.min(start.elapsed().as_nanos() as f64 / parts);
        }
    }
    found
}

pub fn head(part: &str) {
    head_in(&format!("ns for each {part}"));
}

/// The same with a unit of its own.
pub fn head_in(what: &str) {
    println!("| {what} | proved | Rust | C -O3 | proved / Rust | proved / C | at most, of Rust |");
    println!("|---|---|---|---|---|---|---|");
}

pub fn row(what: &str, found: &[(Who, f64)], wanted: Option<f64>) {
    let time = |who| found.iter().find(|(w, _)| *w == who).map(|(_, t)| *t);
    let cell = |value: Option<f64>| value.map_or("-".into(), |v| format!("{v:.1}"));
    let ratio = |a: Option<f64>, b: Option<f64>| match (a, b) {
        (Some(a), Some(b)) => format!("{:.2}", a / b),
        _ => "-".into(),
    };
    let (proved, rust, c) = (time(Who::Proved), time(Who::Rust), time(Who::C));
    println!(
        "| {what} | {} | {} | {} | {} | {} | {} |",
        cell(proved),
        cell(rust),
        cell(c),
        ratio(proved, rust),
        ratio(proved, c),
        wanted.map_or("".into(), |w| format!("{w}")),
    );
}

/// The runners that were built. What was not linked in is never called.
pub fn runners<'a>(
    proved: impl FnMut() -> u64 + 'a,
    rust: impl FnMut() -> u64 + 'a,
    c: impl FnMut() -> u64 + 'a,
) -> Vec<Runner<'a>> {
    let mut list = both(proved, rust);
    if cfg!(peer) {
        list.push(Runner { who: Who::C, run: Box::new(c) });
    }
    list
}

/// Those of a call that the C peer does not have.
pub fn both<'a>(proved: impl FnMut() -> u64 + 'a, rust: impl FnMut() -> u64 + 'a) -> Vec<Runner<'a>> {
    let mut list = vec![Runner { who: Who::Rust, run: Box::new(rust) }];
    if cfg!(proved) {
        list.push(Runner { who: Who::Proved, run: Box::new(proved) });
    }
    list
}

/// Room for what a candidate writes. It begins with a page, so that no candidate gains by where its room happens to lie.
pub struct Room<T> {
    all: Vec<T>,
    from: usize,
    count: usize,
}

const PAGE: usize = 4096;

impl<T: Clone + Default> Room<T> {
    pub fn new(count: usize) -> Self {
        let all = vec![T::default(); count + PAGE / size_of::<T>()];
        let from = all.as_ptr().align_offset(PAGE);
        Room { all, from, count }
    }
}

impl<T> Deref for Room<T> {
    type Target = [T];

    fn deref(&self) -> &[T] {
        &self.all[self.from..][..self.count]
    }
}

impl<T> DerefMut for Room<T> {
    fn deref_mut(&mut self) -> &mut [T] {
        &mut self.all[self.from..][..self.count]
    }
}

/// A room for each candidate.
pub struct Rooms<T> {
    pub proved: Room<T>,
    pub rust: Room<T>,
    pub c: Room<T>,
}

impl<T: Clone + Default + PartialEq> Rooms<T> {
    pub fn new(count: usize) -> Self {
        Rooms { proved: Room::new(count), rust: Room::new(count), c: Room::new(count) }
    }

    /// All who were timed must have written the same.
    pub fn agree(&self, found: &[(Who, f64)]) {
        for (who, _) in found {
            let room = match who {
                Who::Proved => &self.proved,
                Who::Rust => &self.rust,
                Who::C => &self.c,
            };
            assert!(room[..] == self.rust[..], "the rooms differ");
        }
    }
}
