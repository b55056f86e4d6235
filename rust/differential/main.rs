//! The library against the crate that it ports, the oracle, in one process.
//!
//!     differential [--count N | --times K] [--seed S] [--only MODULE | --half first | --half second]
//!                                  compares; N random answers a module, or K times as many as each module has set
//!     differential record DIR      writes a fixed sample of the oracle's answers to DIR/stdin and DIR/stdout
//!     differential stream FILE..   compares on every packet of transport streams
//!     differential events FILE..   compares the events of transport streams, a machine for each PID, and of damaged copies; in the
//!                                  standard mode also with each packet sent twice
//!     differential gather FILE..   compares what is gathered from transport streams, a store for each PID, and from damaged copies
//!     differential fields FILE     lists what the library reads of each packet of a transport stream
//!     differential differences [FILE]
//!                                  holds both sides to what each row of docs/DIFFERENCES.md, or of the file, says
//!
//! Exit status: 0 where all agreed; 1 where something differs or was not compared at all; 2 for a wrong command line.

// Rust's own start-up reads /proc/self/maps, at which the toolchain's emulator crashes: `main` is C's.
#![no_main]

mod adaptation;
mod answer;
mod consumer;
mod contents;
mod control;
#[path = "../clomaverift/src/declarations.rs"]
mod declarations;
mod differences;
mod differences_calls;
mod differences_input;
mod differences_original;
mod differences_standard;
mod differences_whole;
mod event;
mod fields;
mod files;
mod function;
mod gather;
mod gather_rules;
mod gather_stream;
mod gatherer;
mod head;
mod host;
mod host_gather;
mod host_machine;
mod host_writer;
mod image;
mod kept;
mod lent;
mod log_size;
mod machine;
mod machine_stream;
mod module;
mod packet;
mod panics;
mod pids;
mod reading;
mod record;
mod rng;
mod rules;
mod slice;
mod standard;
mod standard_rules;
mod standard_stream;
mod stream;
mod tally;
mod timestamp;
mod unit;
mod values;
mod writer;
mod written;

use module::{Module, Plan};
use record::Sample;
use std::path::Path;
use std::time::Instant;
use tally::{grouped, report, total, Tally};

/// The modules, in the order of their codes.
const MODULES: [Module; 11] = [
    timestamp::MODULE,
    control::MODULE,
    packet::MODULE,
    adaptation::MODULE,
    head::MODULE,
    contents::MODULE,
    machine::MODULE,
    standard::MODULE,
    log_size::MODULE,
    writer::MODULE,
    gather::MODULE,
];

/// The modules that take about half of the time.
const FIRST_HALF: [&str; 4] = ["contents", "machine", "log_size", "gather"];

const SEED: u64 = 1;
const USAGE: &str =
    "usage: differential [--count N | --times K] [--seed S] [--only MODULE | --half first | --half second] \
    | differential record DIR \
    | differential stream FILE.. | differential events FILE.. | differential gather FILE.. | differential fields FILE \
    | differential differences [FILE]";

/// What is compared: with `count` random answers a module, or `times` as many as the module has set.
struct Options {
    count: Option<u64>,
    times: u64,
    seed: u64,
    only: Vec<Module>,
}

#[no_mangle]
pub extern "C" fn main(_argc: i32, _argv: *const *const u8) -> i32 {
    let words: Vec<String> = std::env::args().skip(1).collect();
    match run(&words) {
        Some(true) => 0,
        Some(false) => 1,
        None => {
            eprintln!("{USAGE}");
            2
        }
    }
}

/// Whether all went well, or nothing where the words are no command.
fn run(words: &[String]) -> Option<bool> {
    match words {
        [word, dir] if word == "record" => Some(record(dir)),
        [word, files @ ..] if word == "stream" && !files.is_empty() => Some(stream::compare(files)),
        [word, files @ ..] if word == "events" && !files.is_empty() => Some(machine_stream::compare_files(files)),
        [word, files @ ..] if word == "gather" && !files.is_empty() => Some(gather_stream::compare_files(files)),
        [word, file] if word == "fields" => Some(fields::list(file)),
        [word] if word == "differences" => Some(differences::check(differences::DOCUMENT)),
        [word, file] if word == "differences" => Some(differences::check(file)),
        words => Some(compare(&options(words)?)),
    }
}

fn options(words: &[String]) -> Option<Options> {
    let mut options = Options { count: None, times: 1, seed: SEED, only: MODULES.to_vec() };
    for pair in words.chunks(2) {
        let [option, value] = pair else { return None };
        match option.as_str() {
            "--count" => options.count = Some(value.parse().ok()?),
            "--times" => options.times = value.parse().ok()?,
            "--seed" => options.seed = value.parse().ok()?,
            "--only" => options.only = chosen(|module| module.name == value)?,
            "--half" if value == "first" => options.only = chosen(|module| FIRST_HALF.contains(&module.name))?,
            "--half" if value == "second" => options.only = chosen(|module| !FIRST_HALF.contains(&module.name))?,
            _ => return None,
        }
    }
    Some(options)
}

/// The modules of which this holds, if there is one.
fn chosen(holds: impl Fn(&Module) -> bool) -> Option<Vec<Module>> {
    let modules: Vec<Module> = MODULES.iter().copied().filter(holds).collect();
    (!modules.is_empty()).then_some(modules)
}

fn compare(options: &Options) -> bool {
    println!("differential: seed {}", options.seed);
    let began = Instant::now();
    let tallies: Vec<Vec<Tally>> = options.only.iter().map(|module| compare_module(module, options)).collect();
    total("differential", began, tallies.iter().flatten());
    tallies.iter().all(|module| !module.is_empty() && module.iter().all(Tally::passed))
}

/// Compares one module, and prints a line for each function and one for all.
fn compare_module(module: &Module, options: &Options) -> Vec<Tally> {
    let began = Instant::now();
    let plan = Plan { count: options.count.unwrap_or(module.count * options.times), seed: options.seed };
    println!("{}: {} random answers, beside what is always compared", module.name, grouped(plan.count));
    let tallies = (module.compare)(&plan);
    report(module.name, began, &tallies);
    tallies
}

/// Where something differs: it is printed, and the comparison goes on.
fn differs(text: &str) {
    println!("{text}");
}

fn record(dir: &str) -> bool {
    let mut sample = Sample::default();
    MODULES.iter().for_each(|module| (module.record)(&mut sample));
    let written = sample.write(Path::new(dir));
    if let Err(error) = &written {
        eprintln!("differential: {dir}: {error}");
    }
    written.is_ok()
}
