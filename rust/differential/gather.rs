//! The gathering store. The oracle has none: what a consumer of it gathers from streams is held against the library (gather_stream),
//! and single events in any state against the request's rules (gather_rules).

use crate::answer::Answer;
use crate::contents;
use crate::event::{self, Event};
use crate::function::around;
use crate::gather_rules::{gathered, held};
use crate::gather_stream;
use crate::host_gather::{self, Gathering, STORE};
use crate::lent::Lent;
use crate::module::{Module, Plan};
use crate::rng::Rng;
use crate::tally::{hex, Given, Tally};
use crate::unit::BARE;
use mpeg2ts_reader::packet::Packet;
use std::ops::Range;

/// Nothing is recorded: the program that replays knows no states and stores.
pub const MODULE: Module = Module { name: "gather", count: 2_000_000, compare, record: |_| () };

const SIZE: usize = Packet::SIZE;

fn compare(plan: &Plan) -> Vec<Tally> {
    let mut cases = Cases::new(plan.rng(1));
    cases.every_state();
    cases.every_part();
    cases.every_refusal();
    (0..plan.share(4)).for_each(|_| cases.random());
    let mut tallies = cases.into_tallies();
    tallies.extend(gather_stream::compare_random(plan.count, &mut plan.rng(2)));
    tallies.push(compare_fresh(&mut plan.rng(3)));
    tallies
}

/// The state before any event, in place of rows that stand for a state or not, and of random ones.
fn compare_fresh(rng: &mut Rng) -> Tally {
    let mut tally = Tally::new("gather::new, its row", &[0]);
    let mut fill = |before| tally.call_filling(&Gathering::FIRST.numbers(), host_gather::fresh, before);
    for (opened, count) in OPENED.into_iter().flat_map(|opened| OPENED.map(|count| (opened, count))) {
        OPENED.into_iter().chain([WHOLE_PACKET, STORE]).for_each(|lies| fill([opened, count, lies]));
    }
    (0..10_000).for_each(|_| fill([(); 3].map(|()| rng.next())));
    tally
}

// ---- Calls.

/// What is lent.
pub struct Lending<'a> {
    pub packets: &'a mut Lent,
    /// The part of the packets that is lent: mostly one.
    pub part: Range<usize>,
    pub store: &'a mut Lent,
}

/// A store of more bytes is not looked at whole after every event.
const WHOLE: usize = 4096;

impl Lending<'_> {
    pub fn packet(&mut self) -> &mut [u8] {
        &mut self.packets.slice()[self.part.clone()]
    }

    /// Has the library take an event, counts its answer and gives the state that is to be after it.
    pub fn gather(&mut self, tally: &mut Tally, state: Gathering, event: Event) -> Gathering {
        let room = self.store.len();
        let expected = gathered(state, self.packet(), event, room);
        let added = &self.packets.slice()[self.part.clone()][expected.added];
        let near = expected.at..expected.at + added.len();
        self.store.expect(near.start, added);
        let mut now = state;
        let word = now.gather(&mut self.packets.slice()[self.part.clone()], event, self.store.slice());
        // 20 changes the state too: the one that is to be held is the one after it.
        let (held, outs) = (&expected.after.numbers(), &now.numbers());
        let answer = match expected.number {
            0 => Answer::done(held),
            number => Answer::refused(number, &[]),
        };
        let given = Given { word, held, outs, unchanged: self.unchanged(near) };
        let input = || format!("{event:?} in {state:?}, store of {room} bytes, [{}]", hex(self.packet()));
        tally.take(&answer, &given, input);
        expected.after
    }

    /// Asks the library where the bytes so far are, and counts its answer.
    pub fn bytes(&mut self, tally: &mut Tally, state: Gathering) {
        let (room, len) = (self.store.len(), self.part.len());
        let expected = held(state, self.packet(), room);
        let mut now = state;
        let entry = |outs: &mut [u64; 3]| {
            let word = now.bytes(&mut self.packets.slice()[self.part.clone()], self.store.slice(), outs);
            (word, self.unchanged(0..0) && now.numbers() == state.numbers())
        };
        tally.call_lending(&expected, entry, || format!("{state:?}, store of {room} bytes, packet of {len}"));
    }

    fn unchanged(&self, near: Range<usize>) -> bool {
        let near = if self.store.len() <= WHOLE { 0..self.store.len() } else { near };
        self.packets.unchanged_near(self.part.clone()) && self.store.unchanged_near(near)
    }
}

// ---- Single events.

/// The largest store of a single event, and the longest packet.
pub const LARGEST: usize = 500;
pub const LONGEST: usize = SIZE + 1;

/// The bytes of a packet, as the numbers of an event and a state have them.
const WHOLE_PACKET: u64 = SIZE as u64;

/// Numbers for open: two stand for a state.
const OPENED: [u64; 9] = [0, 1, 2, 255, 256, 1 << 32, 1 + (1 << 32), 1 << 63, u64::MAX];

const KINDS: [u64; 5] = [event::START, event::BEGIN, event::CONTINUE, event::END, event::ERROR];

pub struct Cases {
    gather: Tally,
    bytes: Tally,
    pub rng: Rng,
    packet: Lent,
    store: Lent,
}

impl Cases {
    pub fn new(rng: Rng) -> Cases {
        Cases {
            gather: Tally::new("gather::gather", &[0, 1, 2, 14, 20]),
            bytes: Tally::new("gather::bytes", &[0, 1, 2, 14]),
            rng,
            packet: Lent::new(LONGEST),
            store: Lent::new(LARGEST),
        }
    }

    /// An event in a state, and the bytes in that state.
    pub fn take(&mut self, state: Gathering, packet: &[u8], event: Event, room: usize) {
        let mut filling = [0; LARGEST];
        self.rng.fill(&mut filling[..room]);
        let guard = self.rng.next() as u8;
        self.packet.set(packet, guard);
        self.store.set(&filling[..room], !guard);
        let mut lending = Lending { packets: &mut self.packet, part: 0..packet.len(), store: &mut self.store };
        lending.bytes(&mut self.bytes, state);
        lending.gather(&mut self.gather, state, event);
    }

    /// A packet with what may be a head at a place.
    fn packet(&mut self, at: usize) -> [u8; SIZE] {
        let mut packet = [0; SIZE];
        self.rng.fill(&mut packet);
        let start = [[0, 0, 1], [0, 0, 1], [0, 0, 1], [0, 0, 0], [1, 0, 1]][self.rng.below(5)];
        packet.iter_mut().skip(at).zip(start).for_each(|(byte, of_start)| *byte = of_start);
        set_contents(&mut packet, at, &mut self.rng);
        packet[0] = Packet::SYNC_BYTE;
        packet
    }

    /// Every small number for where the bytes lie, and large ones of which some have lower bits that stand for a place or the store;
    /// numbers for open that stand for a state or not; and counts around each bound, also those with which a large place would begin
    /// anew at 0.
    fn every_state(&mut self) {
        for room in [0, 50, SIZE, LARGEST] {
            for lies in (0..=256).chain([256 + 100, 1 << 32, STORE + (1 << 32), 1 << 63, u64::MAX - 20, u64::MAX]) {
                let packet = self.packet(4);
                let bounds = [room as u64, WHOLE_PACKET.saturating_sub(lies), lies.wrapping_neg()];
                let counts = bounds.into_iter().flat_map(around);
                for count in counts.chain([0, 1, 184, 1 << 32, 1 << 63, u64::MAX - 187, u64::MAX]) {
                    for (opened, kind) in OPENED.into_iter().flat_map(|opened| KINDS.map(|kind| (opened, kind))) {
                        let event = Event { kind, place: 4, length: 184 };
                        self.take(Gathering { opened, count: count as usize, lies }, &packet, event, room);
                    }
                }
            }
        }
    }

    /// Every place with the lengths around each bound, of every kind and of numbers that are none.
    fn every_part(&mut self) {
        for place in 0..=255 {
            let packet = self.packet(place as usize);
            let lengths = around(WHOLE_PACKET.saturating_sub(place)).chain([0, 5, 6, 9, 128, 255]);
            for (length, kind) in lengths.flat_map(|length| [0, 1, 2, 3, 4, 5, 6, 15, 255].map(|kind| (length, kind))) {
                let event = Event { kind, place, length };
                for (opened, count, lies) in [(0, 0, STORE), (1, 30, STORE), (1, 30, 100), (1, 30, 160)] {
                    self.take(Gathering { opened, count, lies }, &packet, event, LARGEST);
                }
            }
        }
    }

    /// Of each ground for a refusal several, with the others and without: the numbers have an order.
    fn every_refusal(&mut self) {
        const STATES: [(u64, usize, u64); 17] = [
            (0, 0, STORE),
            (1, 100, STORE),
            (1, 100, 88),
            (1, 100, 89),
            (2, 0, STORE),
            (256, 0, STORE),
            (1 + (1 << 32), 0, STORE),
            (u64::MAX, 0, STORE),
            (1, 0, 189),
            (1, 0, 254),
            (1, 0, 256),
            (1, 0, 88 + (1 << 32)),
            (1, 0, u64::MAX),
            (1, 301, STORE),
            (1, 1 << 32, STORE),
            (1, 1 << 63, STORE),
            (1, usize::MAX, STORE),
        ];
        const EVENTS: [(u64, u64, u64); 8] =
            [(1, 188, 0), (2, 4, 184), (3, 4, 184), (4, 0, 0), (5, 189, 0), (0, 0, 0), (3, 4, 185), (6, 4, 4)];
        for (packet, sync) in [0, 1, 187, 188, 189].into_iter().flat_map(|len| [0x47, 0x46].map(|sync| (len, sync))) {
            let mut bytes = [0xff; LONGEST];
            bytes[..SIZE].copy_from_slice(&self.packet(4));
            bytes[0] = sync;
            for ((opened, count, lies), room) in
                STATES.into_iter().flat_map(|state| [0, 150, 300].map(|room| (state, room)))
            {
                for (kind, place, length) in EVENTS {
                    let event = Event { kind, place, length };
                    self.take(Gathering { opened, count, lies }, &bytes[..packet], event, room);
                }
            }
        }
    }

    /// Mostly a state and an event that can be, with a store around the need.
    fn random(&mut self) {
        let place = self.rng.below(SIZE + 1);
        let length = if self.rng.below(2) == 0 { SIZE - place } else { self.rng.below(SIZE + 1 - place) };
        let kind = KINDS[[1, 1, 1, 2, 2, 2, 0, 3, 4][self.rng.below(9)]];
        let lies = if self.rng.below(2) == 0 { STORE } else { self.rng.below(SIZE + 1) as u64 };
        let count = self.rng.below(if lies == STORE { 300 } else { SIZE + 1 - lies as usize });
        let room = match self.rng.below(4) {
            0 => (count + length + 1).saturating_sub(self.rng.below(3)),
            1 => (count + self.rng.below(length + 1)).max(1) - self.rng.below(2),
            2 => self.rng.below(SIZE),
            _ => LARGEST,
        };
        let (mut packet, opened) = (self.packet(place), (self.rng.below(4) > 0).into());
        if self.rng.below(32) == 0 {
            packet[0] = self.rng.next() as u8;
        }
        let event = Event { kind, place: place as u64, length: length as u64 };
        self.take(Gathering { opened, count, lies }, &packet, event, room);
    }

    fn into_tallies(self) -> Vec<Tally> {
        vec![self.gather, self.bytes]
    }
}

/// Gives a head at a place of the packet an id, a quarter of them bare, and contents, as far as the packet goes.
pub fn set_contents(packet: &mut [u8], at: usize, rng: &mut Rng) {
    let id = match rng.below(4) {
        0 => BARE[rng.below(BARE.len())],
        _ => 0xbc + rng.below(0x44) as u8,
    };
    let contents = contents::random_contents(rng);
    let bytes = [id, 0x00, 0x00].into_iter().chain(contents.iter().copied());
    packet.iter_mut().skip(at + 3).zip(bytes).for_each(|(byte, of_header)| *byte = of_header);
}
