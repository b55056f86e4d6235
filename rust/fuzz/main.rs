//! The library against the oracle, on inputs that libFuzzer makes: what an input's bytes stand for, cases.rs says. The comparing code
//! is that of the driver of rust/differential, whose modules these are. A difference aborts the program, as a crash does: libFuzzer
//! then writes the input to a file, and the program, given that file, shows the difference again.

// The driver's own inputs, random ones and recorded ones, have no use here.
#![allow(dead_code)]

mod cases;
mod input;

#[path = "../differential/adaptation.rs"]
mod adaptation;
#[path = "../differential/answer.rs"]
mod answer;
#[path = "../differential/consumer.rs"]
mod consumer;
#[path = "../differential/contents.rs"]
mod contents;
#[path = "../differential/control.rs"]
mod control;
#[path = "../clomaverift/src/declarations.rs"]
mod declarations;
#[path = "../differential/event.rs"]
mod event;
#[path = "../differential/files.rs"]
mod files;
#[path = "../differential/function.rs"]
mod function;
#[path = "../differential/gather.rs"]
mod gather;
#[path = "../differential/gather_rules.rs"]
mod gather_rules;
#[path = "../differential/gather_stream.rs"]
mod gather_stream;
#[path = "../differential/gatherer.rs"]
mod gatherer;
#[path = "../differential/head.rs"]
mod head;
#[path = "../differential/host.rs"]
mod host;
#[path = "../differential/host_gather.rs"]
mod host_gather;
#[path = "../differential/host_machine.rs"]
mod host_machine;
#[path = "../differential/host_writer.rs"]
mod host_writer;
#[path = "../differential/image.rs"]
mod image;
#[path = "../differential/kept.rs"]
mod kept;
#[path = "../differential/lent.rs"]
mod lent;
#[path = "../differential/machine.rs"]
mod machine;
#[path = "../differential/machine_stream.rs"]
mod machine_stream;
#[path = "../differential/module.rs"]
mod module;
#[path = "../differential/packet.rs"]
mod packet;
#[path = "../differential/panics.rs"]
mod panics;
#[path = "../differential/pids.rs"]
mod pids;
#[path = "../differential/reading.rs"]
mod reading;
#[path = "../differential/record.rs"]
mod record;
#[path = "../differential/rng.rs"]
mod rng;
#[path = "../differential/rules.rs"]
mod rules;
#[path = "../differential/slice.rs"]
mod slice;
#[path = "../differential/standard_rules.rs"]
mod standard_rules;
#[path = "../differential/standard_stream.rs"]
mod standard_stream;
#[path = "../differential/stream.rs"]
mod stream;
#[path = "../differential/tally.rs"]
mod tally;
#[path = "../differential/timestamp.rs"]
mod timestamp;
#[path = "../differential/unit.rs"]
mod unit;
#[path = "../differential/values.rs"]
mod values;
#[path = "../differential/writer.rs"]
mod writer;
#[path = "../differential/written.rs"]
mod written;

use cases::Cases;
use std::cell::RefCell;
use std::{process, slice as slices};

thread_local! {
    static CASES: RefCell<Cases> = RefCell::new(Cases::new());
}

/// What libFuzzer calls, with each input.
///
/// # Safety
/// The pointer and the length are those of a live slice, or the length is 0.
#[export_name = "LLVMFuzzerTestOneInput"]
pub unsafe extern "C" fn test(bytes: *const u8, len: usize) -> i32 {
    let input = if len == 0 { &[] } else { slices::from_raw_parts(bytes, len) };
    CASES.with(|cases| cases.borrow_mut().compare(input));
    0
}

/// Where something differs.
fn differs(text: &str) {
    eprintln!("{text}");
    process::abort();
}
