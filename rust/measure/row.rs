//! A row of the table: something that the library and the Rust both do, over the same inputs.

use std::time::Instant;

pub struct Row {
    pub name: &'static str,
    pub inputs: String,
    /// Makes the inputs; nothing where they cannot be had.
    pub begin: Box<dyn FnOnce() -> Option<Box<dyn Work>>>,
}

impl Row {
    pub fn new<W: Work + 'static>(
        name: &'static str,
        inputs: impl Into<String>,
        begin: impl FnOnce() -> Option<W> + 'static,
    ) -> Row {
        let begin = Box::new(|| begin().map(|work| Box::new(work) as Box<dyn Work>));
        Row { name, inputs: inputs.into(), begin }
    }
}

/// The inputs of a row, and what is done with them.
pub trait Work {
    /// How many units there are: what the figures are of.
    fn units(&self) -> usize;

    /// Has one side do all of it, once.
    fn run(&mut self, side: Side);

    /// A sum over what the last run gave, which has to be the same for both sides.
    fn sum(&self) -> u64;
}

#[derive(Clone, Copy)]
pub enum Side {
    Library,
    /// The oracle, giving its answer in the library's form; or what stands beside the library where the oracle has no such thing.
    Rust,
    /// Nothing is done: what the loop itself costs.
    None,
}

impl Side {
    pub fn named(name: &str) -> Option<Side> {
        match name {
            "library" => Some(Side::Library),
            "rust" => Some(Side::Rust),
            "none" => Some(Side::None),
            _ => None,
        }
    }

    pub fn choose<T>(self, library: T, rust: T, none: T) -> T {
        match self {
            Side::Library => library,
            Side::Rust => rust,
            Side::None => none,
        }
    }
}

/// How often each side runs for a time.
const REPEATS: usize = 7;

/// The units, and the sum.
pub fn count(work: &mut dyn Work, side: Side) -> String {
    work.run(side);
    format!("{} {:016x}", work.units(), work.sum())
}

/// The best time of the library and of the Rust, in nanoseconds a unit. They run in turns.
pub fn time(work: &mut dyn Work) -> String {
    let mut best = [f64::MAX; 2];
    for _ in 0..REPEATS {
        let sums = [(0, Side::Library), (1, Side::Rust)].map(|(nth, side)| {
            let began = Instant::now();
            work.run(side);
            best[nth] = began.elapsed().as_secs_f64().min(best[nth]);
            work.sum()
        });
        assert!(sums[0] == sums[1], "the two sides gave different answers");
    }
    let [library, rust] = best.map(|seconds| seconds * 1e9 / work.units() as f64);
    format!("{library:.4} {rust:.4}")
}
