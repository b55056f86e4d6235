//! The gathering store, of which continues of 184 bytes are measured. The Rust is a consumer that appends them to a vector.

use crate::event::{self, Event};
use crate::host_gather::{Gathering, STORE};
use crate::rng::Rng;
use crate::row::{Row, Side, Work};
use mpeg2ts_reader::packet::Packet;
use mpeg2ts_reader::pes::{ElementaryStreamConsumer, PesHeader};
use std::hint::black_box;

/// How many units there are, and the continues of each.
const UNITS: usize = 1_000;
const CONTINUES: usize = 100;

/// The payload of a packet without an adaptation field.
const PLACE: usize = 4;
const LENGTH: usize = Packet::SIZE - PLACE;

pub fn row() -> Row {
    Row::new("gathering, an event", format!("{UNITS} units of {CONTINUES} continues"), || Some(Gathered::new()))
}

struct Gathered {
    packet: [u8; Packet::SIZE],
    stores: Stores,
}

/// What each side keeps.
struct Stores {
    state: Gathering,
    store: Vec<u8>,
    consumer: Appends,
}

impl Gathered {
    fn new() -> Gathered {
        let mut packet = [0; Packet::SIZE];
        Rng::new(1).fill(&mut packet);
        packet[0] = Packet::SYNC_BYTE;
        let consumer = Appends { open: false, unit: Vec::with_capacity(CONTINUES * LENGTH) };
        Gathered { packet, stores: Stores { state: Gathering::FIRST, store: vec![0; CONTINUES * LENGTH], consumer } }
    }
}

impl Work for Gathered {
    fn units(&self) -> usize {
        UNITS * CONTINUES
    }

    /// The same loop for every side: units that are opened, with nothing in them, and continued.
    fn run(&mut self, side: Side) {
        let take: fn(&mut Stores, &mut [u8]) = black_box(side.choose(library, rust, |_, _| ()));
        for _ in 0..UNITS {
            self.stores.state = Gathering { opened: 1, count: 0, lies: STORE };
            self.stores.consumer.open();
            (0..CONTINUES).for_each(|_| take(&mut self.stores, black_box(&mut self.packet)));
        }
    }

    /// Over the unit that was gathered last: by the library in its store, or else by the consumer. Whichever it is, as many bytes are
    /// looked at, so that this costs each side the same.
    fn sum(&self) -> u64 {
        let Stores { state, store, consumer } = &self.stores;
        let mut unit = vec![0; CONTINUES * LENGTH];
        unit[..state.count].copy_from_slice(&store[..state.count]);
        unit[..consumer.unit.len()].copy_from_slice(&consumer.unit);
        unit.iter().fold(u64::MAX, |sum, byte| sum.rotate_left(1) ^ u64::from(*byte))
    }
}

fn library(stores: &mut Stores, packet: &mut [u8]) {
    let event = Event { kind: event::CONTINUE, place: PLACE as u64, length: LENGTH as u64 };
    let word = stores.state.gather(packet, event, &mut stores.store);
    assert!(word == 0, "the event was not taken");
}

fn rust(stores: &mut Stores, packet: &mut [u8]) {
    stores.consumer.continue_packet(&mut (), &packet[PLACE..]);
}

/// A consumer that gathers a unit in a vector, of which only `continue_packet` is called.
struct Appends {
    open: bool,
    unit: Vec<u8>,
}

impl Appends {
    fn open(&mut self) {
        self.open = true;
        self.unit.clear();
    }
}

impl ElementaryStreamConsumer<()> for Appends {
    fn start_stream(&mut self, _: &mut ()) {}

    fn begin_packet(&mut self, _: &mut (), _: PesHeader<'_>) {
        self.open();
    }

    fn continue_packet(&mut self, _: &mut (), data: &[u8]) {
        if self.open {
            self.unit.extend_from_slice(data);
        }
    }

    fn end_packet(&mut self, _: &mut ()) {
        self.open = false;
    }

    fn continuity_error(&mut self, _: &mut ()) {
        self.open = false;
        self.unit.clear();
    }
}
