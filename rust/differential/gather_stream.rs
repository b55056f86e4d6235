//! Streams through the gathering store, made at random and real: every event that the oracle's machine gives, in its packet, and the
//! bytes of each unit, which a consumer of the oracle gathers too.

use crate::answer::Answer;
use crate::consumer::{Oracle, SIZE};
use crate::files::Files;
use crate::gather::{set_contents, Lending};
use crate::gatherer::Gatherer;
use crate::host_gather::{Gathering, STORE};
use crate::lent::Lent;
use crate::machine::payload_at;
use crate::machine_stream::make_stream;
use crate::rng::Rng;
use crate::tally::{grouped, report, Tally};
use std::time::Instant;

/// The most packets of a random stream.
const MOST: usize = 1024;

/// The packets that are always compared: enough for every number.
const ALWAYS: u64 = 100_000;

/// Compares on random streams, of so many events more than their packets that are always compared.
pub fn compare_random(count: u64, rng: &mut Rng) -> Vec<Tally> {
    let mut walk = Walk::new(MOST, [&[0, 20], &[0], &[0]]);
    let mut packets = vec![0; MOST * SIZE];
    rng.fill(&mut packets);
    while walk.events < ALWAYS + count {
        let stream = &mut packets[..SIZE * (1 + rng.below(MOST))];
        make_units(stream, rng);
        walk.stream(stream, rng);
    }
    walk.into_tallies()
}

/// Compares on each file, a store for each PID, and on a damaged copy of it. Prints a line for each file, each copy and each
/// function, and for all.
pub fn compare_files(files: &[String]) -> bool {
    let began = Instant::now();
    let Some(files) = Files::read(files) else { return false };
    let mut walk = Walk::new(files.most(), [&[]; 3]);
    files.each(|stream, rng| walk.stream(stream, rng));
    report("gather", began, &walk.into_tallies())
}

/// A random stream, whose heads have contents.
fn make_units(packets: &mut [u8], rng: &mut Rng) {
    make_stream(packets, rng);
    for packet in packets.chunks_exact_mut(SIZE).filter(|packet| starts(packet)) {
        set_contents(packet, payload_at(packet), rng);
    }
}

fn starts(packet: &[u8]) -> bool {
    packet[1] & 0x40 != 0
}

pub struct Walk {
    gather: Tally,
    bytes: Tally,
    unit: Tally,
    packets: Lent,
    store: Lent,
    filling: Vec<u8>,
    events: u64,
    units: u64,
}

impl Walk {
    /// Room for streams of so many packets; the numbers that have to be among the answers.
    pub fn new(most: usize, [gather, bytes, unit]: [&'static [usize]; 3]) -> Walk {
        let mut filling = vec![0; (most + 1) * SIZE];
        Rng::new(most as u64).fill(&mut filling);
        Walk {
            gather: Tally::new("gather::gather, streams", gather),
            bytes: Tally::new("gather::bytes, streams", bytes),
            unit: Tally::of_bytes("gather::bytes, the bytes that a consumer of the Rust gathered", unit),
            packets: Lent::new(most * SIZE),
            store: Lent::new((most + 1) * SIZE),
            filling,
            events: 0,
            units: 0,
        }
    }

    /// Once with a store that the longest unit fills or nearly, or that is longer; and once with one that may be too small.
    pub fn stream(&mut self, packets: &[u8], rng: &mut Rng) {
        let mut oracle = Oracle::heard_by(Gatherer::new(usize::MAX));
        packets.chunks_exact(SIZE).for_each(|packet| oracle.take(packet));
        let most = oracle.listener().most;
        self.packets.set(packets, rng.next() as u8);
        for room in [most + [0, 0, 1, 100][rng.below(4)], [most.saturating_sub(1), rng.below(most + 1)][rng.below(2)]] {
            self.store.set(&self.filling[..room], rng.next() as u8);
            self.with_store(packets, room);
        }
    }

    fn with_store(&mut self, packets: &[u8], room: usize) {
        let (mut events, mut units) = (Oracle::new(), Oracle::heard_by(Gatherer::new(room)));
        let mut state = Gathering::FIRST;
        for (packet, from) in packets.chunks_exact(SIZE).zip((0..).step_by(SIZE)) {
            if starts(packet) {
                self.whole(units.listener(), state);
            }
            units.take(packet);
            let events = events.consume(packet);
            let mut lending = Lending { packets: &mut self.packets, part: from..from + SIZE, store: &mut self.store };
            for event in events.iter() {
                state = lending.gather(&mut self.gather, state, *event);
                lending.bytes(&mut self.bytes, state);
            }
            if !events.is_empty() {
                self.end(units.listener(), state, from);
            }
            self.events += events.len() as u64;
        }
        self.whole(units.listener(), state);
        self.units += units.listener().begun;
    }

    /// The unit, out of the store, where its bytes stand also after a begin; and the store around it.
    fn whole(&mut self, unit: &Gatherer, state: Gathering) {
        let agrees = self.store.slice()[..state.count] == unit.bytes && self.store.unchanged();
        self.take(unit, state, agrees);
    }

    /// The last bytes of the unit, out of the packet from which events came or out of the store.
    fn end(&mut self, unit: &Gatherer, state: Gathering, from: usize) {
        let bytes = match state.lies {
            STORE => &self.store.slice()[..state.count],
            place => &self.packets.slice()[from + place as usize..][..state.count],
        };
        let last = state.count.saturating_sub(SIZE);
        let agrees = state.count == unit.bytes.len() && bytes[last..] == unit.bytes[last..];
        self.take(unit, state, agrees);
    }

    fn take(&mut self, unit: &Gatherer, state: Gathering, agrees: bool) {
        let input = || format!("event {}, store of {} bytes", self.events, self.store.len());
        let given = || format!("{state:?}, where the unit has {} bytes", unit.bytes.len());
        self.unit.take_check(&Answer::done(&[]), agrees && u64::from(unit.open) == state.opened, input, given);
    }

    /// Says how many events were gathered.
    fn into_tallies(self) -> Vec<Tally> {
        println!("gather: {} events of {} units gathered", grouped(self.events), grouped(self.units));
        vec![self.gather, self.bytes, self.unit]
    }
}
