//! How what the rows of docs/DIFFERENCES.md name is asked of both sides: inputs and their domain, answers as text.

use crate::answer::Answer;
use crate::consumer::SIZE;
use crate::differences_input::{bytes, number, packets, pair, unit};
use crate::event::{self, Event, ENTRY};
use crate::host::Reader;
use crate::host_machine::{self, log_entry_at, State};
use crate::host_writer::Unit;
use mpeg2ts_reader::packet::Packet;
use std::panic::{self, AssertUnwindSafe};

/// A function as rows name it, and the inputs that they have of it.
pub struct Call {
    pub name: &'static str,
    pub inputs: Vec<&'static str>,
    /// What is given for one of the inputs; nothing where its text cannot be read.
    pub ask: Box<dyn Fn(&str) -> Option<Given>>,
}

pub struct Given {
    /// Whether the input is inside the domain of the request.
    pub domain: &'static str,
    pub original: String,
    pub here: String,
    /// Whether the input is one on which the standard says something else.
    pub shows: bool,
}

/// A kind of input: how its text is read, and in which domain it is, also by what the oracle gives for it.
pub struct Kind<I> {
    read: fn(&str) -> Option<I>,
    domain: fn(&I, &str) -> &'static str,
}

/// An input, and what makes it one on which the standard says something else.
pub type Shown<I> = (&'static str, fn(&I) -> bool);

/// With inputs that need no standard to show a difference: the two answers are not the same.
pub fn call<I: 'static>(
    name: &'static str,
    kind: Kind<I>,
    inputs: &[&'static str],
    original: impl Fn(&I) -> String + 'static,
    here: impl Fn(&I) -> String + 'static,
) -> Call {
    let inputs = inputs.iter().map(|input| (*input, (|_| true) as fn(&I) -> bool)).collect();
    call_of(name, kind, inputs, original, here)
}

pub fn call_of<I: 'static>(
    name: &'static str,
    kind: Kind<I>,
    inputs: Vec<Shown<I>>,
    original: impl Fn(&I) -> String + 'static,
    here: impl Fn(&I) -> String + 'static,
) -> Call {
    let texts = inputs.iter().map(|(text, _)| *text).collect();
    let ask = move |text: &str| {
        let (_, shows) = inputs.iter().find(|(of, _)| *of == text)?;
        let input = (kind.read)(text)?;
        let original = caught(|| original(&input));
        let domain = (kind.domain)(&input, &original);
        Some(Given { domain, original, here: here(&input), shows: shows(&input) })
    };
    Call { name, inputs: texts, ask: Box::new(ask) }
}

// ---- Kinds of inputs, with the domain as the request has it.

pub type Bytes = Vec<u8>;

fn within(inside: bool) -> &'static str {
    match inside {
        true => "inside",
        false => "outside",
    }
}

pub const STAMP: Kind<Bytes> = Kind { read: bytes, domain: |bytes, _| within(bytes.len() >= 5) };
pub const CLOCK: Kind<Bytes> = Kind { read: bytes, domain: |bytes, _| within(bytes.len() >= 6) };
pub const FIELD: Kind<Bytes> = Kind { read: bytes, domain: |bytes, _| within(!bytes.is_empty()) };
/// Header slices of every length, and extensions.
pub const EVERY: Kind<Bytes> = Kind { read: bytes, domain: |_, _| "inside" };
pub const PACKET: Kind<Bytes> = Kind { read: bytes, domain: |bytes, _| within(is_packet(bytes)) };
pub const PACKETS: Kind<Vec<Bytes>> =
    Kind { read: packets, domain: |packets, _| within(packets.iter().all(|of| is_packet(of))) };
/// Packets to a part of the oracle that is not ported.
pub const PUSHED: Kind<Vec<Bytes>> = Kind { read: packets, domain: |_, _| "not ported" };
pub const UNIT: Kind<Unit> = Kind { read: unit, domain: |_, _| "inside" };

fn is_packet(bytes: &[u8]) -> bool {
    bytes.len() == SIZE && bytes[0] == Packet::SYNC_BYTE
}

/// A number: inside where the oracle does not assert.
pub const fn number_of<T: TryFrom<u64>>() -> Kind<T> {
    Kind { read: number, domain: |_, original| within(original != ASSERTS) }
}

pub const PARTS: Kind<(u64, u16)> = Kind { read: pair, domain: |_, original| within(original != ASSERTS) };

// ---- What is given, as text.

const ASSERTS: &str = "asserts";

/// What the oracle gives, or that it asserts or panics.
fn caught(original: impl Fn() -> String) -> String {
    let hook = panic::take_hook();
    panic::set_hook(Box::new(|_| ()));
    let caught = panic::catch_unwind(AssertUnwindSafe(original));
    panic::set_hook(hook);
    caught.unwrap_or_else(|payload| {
        let fixed = payload.downcast_ref::<&str>().copied();
        let message = fixed.or_else(|| payload.downcast_ref::<String>().map(String::as_str)).unwrap_or_default();
        if message.starts_with("assertion") { ASSERTS } else { "panics" }.to_string()
    })
}

/// The number of an answer and what is given with it: `0 90000`, `12 23`, `1`.
pub fn text(word: u32, outs: &[u64]) -> String {
    let named = [u64::from(word / 256 % 256), u64::from(word / 65_536)];
    let answer = match word % 256 {
        0 => Answer::done(outs),
        12 => Answer::refused(12, &named[..1]),
        13 => Answer::refused(13, &named),
        number => Answer::refused(number, &[]),
    };
    match answer.word() == word {
        true => answer.to_string(),
        false => format!("the word {word}"),
    }
}

pub fn read(reader: &Reader, bytes: &[u8]) -> String {
    let mut outs = vec![0; reader.outs];
    let word = reader.call(&mut bytes.to_vec(), &mut outs);
    text(word, &outs)
}

/// The values of a reading that is accepted.
pub fn values(reader: &Reader, bytes: &[u8]) -> Vec<u64> {
    let mut outs = vec![0; reader.outs];
    assert!(reader.call(&mut bytes.to_vec(), &mut outs) == 0, "what the library wrote it cannot read");
    outs
}

/// Of an entry on numbers.
pub fn made<const OUTS: usize>(entry: impl FnOnce(&mut [u64; OUTS]) -> u32) -> String {
    let mut outs = [0; OUTS];
    let word = entry(&mut outs);
    text(word, &outs)
}

/// The events of packets: `start, begin 4 184; nothing; error`.
pub fn listed(packets: &[Vec<Event>]) -> String {
    let lists = packets.iter().map(|events| match events.is_empty() {
        true => "nothing".to_string(),
        false => events.iter().map(named).collect::<Vec<_>>().join(", "),
    });
    lists.collect::<Vec<_>>().join("; ")
}

fn named(event: &Event) -> String {
    let Event { kind, place, length } = event;
    match *kind {
        event::START => "start".to_string(),
        event::BEGIN => format!("begin {place} {length}"),
        event::CONTINUE => format!("continue {place} {length}"),
        event::END => "end".to_string(),
        event::ERROR => "error".to_string(),
        _ => format!("{event:?}"),
    }
}

// ---- The library's machine.

/// The events of packets that are taken step by step, or the refusal of one.
pub fn steps(packets: &[Bytes]) -> Result<Vec<Vec<Event>>, u32> {
    let (mut state, mut log) = (State::FIRST, vec![0; 2 * ENTRY * packets.len()]);
    for packet in packets {
        match host_machine::step(&mut state, &mut packet.clone(), &mut log) {
            0 => (),
            word => return Err(word),
        }
    }
    let mut lists = vec![vec![]; packets.len()];
    let (mut at, mut outs) = (0, [0; 4]);
    while log_entry_at(&mut log, at, &mut outs) == 0 {
        let [kind, index, place, length] = outs;
        lists[index as usize].push(Event { kind, place, length });
        at += ENTRY;
    }
    Ok(lists)
}

pub fn machine(packets: &[Bytes]) -> String {
    match steps(packets) {
        Ok(lists) => listed(&lists),
        Err(word) => text(word, &[]),
    }
}
