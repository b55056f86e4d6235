//! The event machine over a recording: all packets of the PID that has the most, by one run and by a step each. The Rust is the oracle's
//! `consume` for each packet, with a consumer that writes the library's 8 bytes for each call.

use crate::event::{Event, ENTRY};
use crate::host_machine::{self, State};
use crate::machine::{Machine, Takes};
use crate::pids::by_pid;
use crate::row::{Row, Side, Work};
use mpeg2ts_reader::packet::Packet;
use std::hint::black_box;
use std::ops::DerefMut;
use std::{fs, mem};

/// How many packets are taken, about: the recording is gone through more than once.
const PACKETS: usize = 500_000;

/// The bytes of a packet's events: two at most.
const MOST: usize = 2 * ENTRY;

pub fn rows(file: &str) -> [Row; 2] {
    [("machine run, a packet", Advances::RUNS), ("machine step, a packet", Advances::STEPS)].map(|(name, advances)| {
        let path = file.to_string();
        Row::new(name, short(file), move || Recording::read(path, advances))
    })
}

/// The name of a file and of the folder that it is in.
pub fn short(file: &str) -> &str {
    file.rmatch_indices('/').nth(1).map_or(file, |(at, _)| &file[at + 1..])
}

/// How both sides go over packets: with one call for all of them, or with one for each.
#[derive(Clone, Copy)]
struct Advances {
    library: Advance,
    rust: Advance,
    each: bool,
}

impl Advances {
    const RUNS: Advances = Advances { library: run, rust: rust_run, each: false };
    const STEPS: Advances = Advances { library: step, rust: rust_step, each: true };
}

/// Takes packets: what was refused, or 0.
type Advance = fn(&mut Sides, packets: &mut [u8]) -> u32;

struct Recording {
    packets: Vec<u8>,
    rounds: usize,
    advances: Advances,
    sides: Sides,
    /// What the last round gave.
    word: u32,
}

/// What each side keeps between calls: the library its state, the Rust its machine. The log, which is in the machine, is both sides'.
struct Sides {
    state: State,
    machine: Machine<Entries<Vec<u8>>>,
}

impl Recording {
    fn read(file: String, advances: Advances) -> Option<Recording> {
        let packets = by_pid(&fs::read(file).ok()?).into_values().max_by_key(Vec::len)?;
        let count = packets.len() / Packet::SIZE;
        let sides =
            Sides { state: State::FIRST, machine: Machine::new(Entries { log: vec![0; count * MOST], place: 0 }) };
        Some(Recording { packets, rounds: PACKETS.div_ceil(count), advances, sides, word: 0 })
    }
}

impl Work for Recording {
    fn units(&self) -> usize {
        self.rounds * self.packets.len() / Packet::SIZE
    }

    /// The same loop for every side: the call goes through a pointer that the compiler does not know.
    fn run(&mut self, side: Side) {
        let advance: Advance = black_box(side.choose(self.advances.library, self.advances.rust, |_, _| 0));
        let size = if self.advances.each { Packet::SIZE } else { self.packets.len() };
        for _ in 0..self.rounds {
            self.sides.begin();
            self.word =
                self.packets.chunks_exact_mut(size).fold(0, |word, packets| word | advance(&mut self.sides, packets));
        }
    }

    fn sum(&self) -> u64 {
        let Sides { state, machine } = &self.sides;
        let (taken, place) = (state.taken.max(machine.taken().into()), state.place.max(machine.taker().place));
        let left = u64::from(self.word) ^ taken << 32 ^ place as u64;
        let entries = machine.taker().log.chunks_exact(ENTRY);
        let entries = entries.map(|entry| u64::from_be_bytes(entry.try_into().expect("8 bytes")));
        entries.fold(left, |sum, entry| sum.rotate_left(1) ^ entry)
    }
}

impl Sides {
    /// Puts both sides before the first packet.
    fn begin(&mut self) {
        let log = mem::take(&mut self.machine.taker_mut().log);
        *self = Sides { state: State::FIRST, machine: Machine::new(Entries { log, place: 0 }) };
    }
}

/// What ended the run, or 0: none of these recordings is refused.
fn run(sides: &mut Sides, packets: &mut [u8]) -> u32 {
    let mut outs = [0; 2];
    let word = host_machine::run(&mut sides.state, packets, &mut sides.machine.taker_mut().log, &mut outs);
    word | outs[1] as u32
}

fn step(sides: &mut Sides, packet: &mut [u8]) -> u32 {
    host_machine::step(&mut sides.state, packet, &mut sides.machine.taker_mut().log)
}

/// With a machine of its own, which the compiler can keep in registers: as the library does with its state.
fn rust_run(sides: &mut Sides, packets: &mut [u8]) -> u32 {
    let mut machine = Machine::new(Entries { log: &mut sides.machine.taker_mut().log[..], place: 0 });
    let word = machine.run(packets);
    sides.state.taken = machine.taken().into();
    sides.state.place = machine.taker().place;
    word
}

fn rust_step(sides: &mut Sides, packet: &mut [u8]) -> u32 {
    sides.machine.step(packet)
}

/// Writes each event as an entry of a log.
struct Entries<L> {
    log: L,
    place: usize,
}

impl<L: DerefMut<Target = [u8]>> Takes for Entries<L> {
    #[inline(always)]
    fn take(&mut self, index: u32, event: Event) {
        self.log[self.place..][..ENTRY].copy_from_slice(&event.entry(index));
        self.place += ENTRY;
    }
}
