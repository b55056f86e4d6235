//! The library beside the Rust that it ports, in one process and on the same inputs, for counts of instructions and for times.
//!
//!     measure rows FILE..                lists what is measured, a row to a line: its name, a tab, its inputs
//!     measure count ROW SIDE FILE..      has one side do what the row says, once: prints how many units that is, and a sum
//!     measure time ROW FILE..            has both sides do it, in turns: prints the best time of each, in nanoseconds a unit
//!     measure list                       lists the events of standard input, by the Rust
//!
//! ROW is a number from 0. SIDE is `library`, `rust` or `none`, at which nothing is done: what the loop itself costs. The sum is over all
//! answers and has to be the same for the first two. Each FILE is a recording, with rows of its own.

// Rust's own start-up reads /proc/self/maps, at which the toolchain's emulator crashes: `main` is C's.
#![no_main]

mod calls;
#[path = "../clomaverift/src/declarations.rs"]
mod declarations;
#[path = "../differential/event.rs"]
#[allow(dead_code)]
mod event;
mod gathering;
mod header;
#[path = "../differential/host_gather.rs"]
#[allow(dead_code)]
mod host_gather;
#[path = "../differential/host_machine.rs"]
#[allow(dead_code)]
mod host_machine;
#[path = "../differential/host_writer.rs"]
mod host_writer;
#[path = "../differential/kept.rs"]
#[allow(dead_code)]
mod kept;
mod list;
mod machine;
mod packet;
#[path = "../differential/pids.rs"]
mod pids;
mod recording;
#[path = "../differential/rng.rs"]
#[allow(dead_code)]
mod rng;
mod row;
mod sum;
mod timestamp;
#[path = "../differential/values.rs"]
mod values;
mod whole;
mod writer;

use calls::Function;
use row::{Row, Side};

const FUNCTIONS: [Function; 6] = [
    timestamp::FROM_BYTES,
    timestamp::FROM_PTS_BYTES,
    packet::EVERY_FIELD,
    packet::EVERY_FIELD_AT_ONCE,
    header::EVERY_FIELD,
    header::EVERY_FIELD_AT_ONCE,
];

fn rows(files: &[String]) -> Vec<Row> {
    let functions = FUNCTIONS.into_iter().flat_map(Function::rows);
    let recordings = files.iter().flat_map(|file| recording::rows(file));
    let whole = files.iter().map(|file| whole::row(file));
    functions.chain(recordings).chain(whole).chain([writer::row(), gathering::row()]).collect()
}

/// The row of this number with its inputs made.
fn work(number: &str, files: &[String]) -> Option<Box<dyn row::Work>> {
    let row = rows(files).into_iter().nth(number.parse().ok()?)?;
    (row.begin)()
}

fn listed(files: &[String]) -> String {
    let lines: Vec<String> = rows(files).iter().map(|row| format!("{}\t{}", row.name, row.inputs)).collect();
    lines.join("\n")
}

/// Prints what the words ask for; nothing where they are no command, or a file cannot be read.
fn run(words: &[String]) -> Option<()> {
    let text = match words {
        [word] if word == "list" => return list::list().ok(),
        [word, files @ ..] if word == "rows" => listed(files),
        [word, row, side, files @ ..] if word == "count" => row::count(work(row, files)?.as_mut(), Side::named(side)?),
        [word, row, files @ ..] if word == "time" => row::time(work(row, files)?.as_mut()),
        _ => return None,
    };
    println!("{text}");
    Some(())
}

#[no_mangle]
pub extern "C" fn main(_argc: i32, _argv: *const *const u8) -> i32 {
    let words: Vec<String> = std::env::args().skip(1).collect();
    match run(&words) {
        Some(()) => 0,
        None => {
            eprintln!("usage: measure rows FILE.. | count ROW library|rust|none FILE.. | time ROW FILE.. | list <FILE");
            2
        }
    }
}
