//! The standard mode of the event machine, which the oracle does not have: held against rules written from the request
//! (standard_rules.rs).

use crate::answer::Answer;
use crate::consumer::{start, SIZE};
use crate::event::{self, decoded, ENTRY};
use crate::host_machine::{self, State, BEGIN, IGNORE_REST, NONE, STANDARD, STARTED};
use crate::machine::{compare_first, every_state, packet, Cases, HEAD, LONGEST_LOG, NO_HEAD};
use crate::machine_stream::{Told, Walk};
use crate::module::{Module, Plan};
use crate::rng::Rng;
use crate::rules::{counter, has_payload_flag};
use crate::standard_rules::{does, has_discontinuity_bit, verdict, verdicts, Verdict};
use crate::standard_stream::{self, starts_as_alone};
use crate::tally::{hex, Tally};
use mpeg2ts_reader::packet::Packet;

/// Nothing is recorded, as of the machine.
pub const MODULE: Module = Module { name: "standard", count: 2_000_000, compare, record: |_| () };

fn compare(plan: &Plan) -> Vec<Tally> {
    let mut cases = Cases::new(plan.rng(1));
    every_packet(&mut cases);
    cases.every_row(&[STANDARD]);
    cases.every_refusal(STANDARD);
    let mut tallies = cases.into_standard_tallies();
    tallies.push(compare_bit());
    tallies.extend(compare_corners(&mut plan.rng(2)));
    tallies.extend(standard_stream::compare_random(plan.count, &mut plan.rng(3)));
    let (name, first) = ("machine::standard, its row", State::FIRST_STANDARD);
    tallies.push(compare_first(name, first, host_machine::standard, &mut plan.rng(4)));
    tallies
}

// ---- Single packets.

/// Lengths of an adaptation field around each bound: beside a payload it has 1 byte to 182, without one 183.
const LENGTHS: [u8; 6] = [0, 1, 182, 183, 184, 255];

/// Every state with every control byte, each of these lengths, the discontinuity bit or what stands in its place, and with the start
/// flag and a head, with the flag alone and without both.
fn every_packet(cases: &mut Cases) {
    for state in every_state(STANDARD) {
        for (control, length) in (0..=255).flat_map(|control| LENGTHS.map(|length| (control, length))) {
            for (flags, head) in [(0x00, NO_HEAD), (0x40, HEAD), (0x40, NO_HEAD)] {
                for bit in [0x00, 0x80] {
                    let random = cases.rng.next();
                    let mut packet = packet([flags | random as u8 & 0xbf, (random >> 8) as u8, control, length], head);
                    packet[5] = packet[5] & (random >> 16) as u8 & 0x7f | bit;
                    let place = ENTRY * (random >> 24 & 1) as usize;
                    cases.take(State { taken: random >> 33, place, ..state }, &packet, LONGEST_LOG);
                }
            }
        }
    }
}

/// Where there is an adaptation field, and whether it has the discontinuity bit, as the Rust's readers say: with every control byte and
/// every length.
fn compare_bit() -> Tally {
    let mut tally = Tally::of_oracle("standard mode, the discontinuity bit, the rules against the Rust", &[0, 9]);
    for (control, length) in (0..=255).flat_map(|control| (0..=255).map(move |length| (control, length))) {
        for flags in [0x00, 0x7f, 0x80, 0xff] {
            let mut packet = packet([0x00, 0x00, control, length], NO_HEAD);
            packet[5] = flags;
            let bit = Packet::new(&packet).adaptation_field().map(|field| field.discontinuity_indicator());
            let expected = bit.map_or(Answer::refused(9, &[]), Answer::value);
            let given = has_discontinuity_bit(&packet);
            tally.take_check(&expected, given == bit.unwrap_or(false), || hex(&packet[..6]), || given.to_string());
        }
    }
    tally
}

// ---- Corners.

/// Packets one after another, each with its counter, and what each is to be taken for; then its events from the state before any packet,
/// and where the first of them comes within a unit: s for StartStream, c for ContinuePacket, e for ContinuityError, n for EndPacket, b for
/// BeginPacket, and - for none.
///
/// The packets are P, with a payload; S, the same with the start flag and a head; A, with an adaptation field alone; T, the same with the
/// start flag; D and B, P and A with the discontinuity bit; E, D with the start flag and a head. In N, Z and X the bit stands where it
/// would be in an adaptation field, but there is none: N has the payload flag and a length of 183, which leaves no payload, Z the payload
/// flag and a length of 0, X no payload flag and a length of 182. O has neither payload nor adaptation field.
const CORNERS: [[&str; 4]; 35] = [
    ["P5 P5 P5 P5 P5", "on drop break drop break", "- - se - e", "c - e - e"],
    ["P5 A5 P5", "on on break", "- - se", "c - e"],
    ["A5 P5", "on break", "- se", "- e"],
    ["P5 P5 P6 P6", "on drop on drop", "- - - -", "c - c -"],
    ["P5 D9 P9 P10", "on on drop on", "- - - -", "c c - c"],
    ["P5 D5", "on on", "- -", "c c"],
    ["P5 P5 A5 P5", "on drop on break", "- - - se", "c - - e"],
    ["P5 S5", "on drop", "- -", "c -"],
    ["D9 D9 P9", "on on drop", "- - -", "c c -"],
    ["P5 N5 N9", "on drop break", "- - se", "c - e"],
    ["P5 B9 P9", "on on break", "- - se", "c - e"],
    ["P5 B9 P10", "on on on", "- - -", "c - c"],
    ["P15 P0 P0 P1", "on on drop on", "- - - -", "c c - c"],
    ["P5 P5 P5 P6", "on drop break on", "- - se -", "c - e -"],
    ["P5 S5 S5 P6", "on drop break on", "- - seb c", "c - eb c"],
    ["S5 S5 S6 S6", "on drop on drop", "sb - nb -", "nb - nb -"],
    ["P5 P5 D5 P5", "on drop on drop", "- - - -", "c - c -"],
    ["P5 D9 D9 D9", "on on on on", "- - - -", "c c c c"],
    ["P5 Z5 Z9", "on drop break", "- - se", "c - e"],
    ["P5 X9 P9", "on break break", "- se e", "c e e"],
    ["P5 A6 A6 P6", "on break on break", "- se - e", "c e - e"],
    ["P5 O5 P6 O6 P6", "on on on on break", "- - - - se", "c - c - e"],
    ["P5 P6 P5 P6", "on on break on", "- - se -", "c c e -"],
    // An early break announces the stream, and a later one does not again, nor does a start.
    ["P5 P9", "on break", "- se", "c e"],
    ["P5 S9", "on break", "- seb", "c eb"],
    ["P5 P9 P13 S14 S15", "on break break on on", "- se e b nb", "c e e b nb"],
    ["P5 P9 S13 P14", "on break break on", "- se eb c", "c e eb c"],
    ["P5 S6 S9 P10", "on on break on", "- sb eb c", "c nb eb c"],
    ["P5 S6 P9 S10", "on on break on", "- sb e b", "c nb e b"],
    // A dropped packet announces nothing, though it has the start flag.
    ["P5 S5 S5", "on drop break", "- - seb", "c - eb"],
    ["P5 S5 P6 S7 S7", "on drop on on drop", "- - - sb -", "c - c nb -"],
    ["P5 S5 P9", "on drop break", "- - se", "c - e"],
    // A start announces it with no payload and with the discontinuity bit too.
    ["T5 P6 T6 T9", "on on on break", "s c n e", "n c n e"],
    ["P5 T9 S10", "on break on", "- se nb", "c e nb"],
    ["P5 E9 E9", "on on on", "- sb nb", "c nb nb"],
];

/// The same from other states: the phase, the last counter, whether the packet before may be repeated, and whether the stream was
/// announced. In the standard mode the phase alone does not tell that.
const FROM_STATES: [([u64; 4], [&str; 3]); 20] = [
    ([STARTED, 5, 0, 0], ["S6 S7 P8", "on on on", "snb nb c"]),
    ([STARTED, NONE, 0, 0], ["S6", "on", "snb"]),
    ([STARTED, 5, 0, 0], ["P6 P7 S8", "on on on", "c c snb"]),
    ([STARTED, NONE, 0, 0], ["P6", "on", "c"]),
    ([STARTED, 5, 0, 0], ["P9 S10", "break on", "se b"]),
    ([STARTED, 5, 0, 0], ["S9 S10", "break on", "seb nb"]),
    ([STARTED, 5, 0, 0], ["T5 T5", "on on", "sn n"]),
    ([STARTED, 5, 0, 1], ["S6", "on", "nb"]),
    ([STARTED, 5, 0, 1], ["S9", "break", "eb"]),
    ([STARTED, 5, 1, 0], ["S5 S5 S6", "drop break on", "- seb nb"]),
    ([STARTED, 5, 2, 0], ["S5", "break", "seb"]),
    ([BEGIN, 5, 0, 1], ["S6 S7", "on on", "b nb"]),
    ([BEGIN, NONE, 0, 1], ["S6", "on", "b"]),
    ([BEGIN, 5, 0, 1], ["P9 S10", "break on", "e b"]),
    ([BEGIN, 5, 0, 0], ["P6 S7", "on on", "- sb"]),
    ([IGNORE_REST, 5, 0, 0], ["P6 S7", "on on", "- sb"]),
    ([IGNORE_REST, 5, 0, 0], ["S6 S7", "on on", "sb nb"]),
    ([IGNORE_REST, NONE, 0, 0], ["P6 P9", "on break", "- se"]),
    ([IGNORE_REST, 5, 1, 0], ["S5 S6", "drop on", "- sb"]),
    ([IGNORE_REST, 5, 0, 1], ["S6", "on", "b"]),
];

/// A row of the tables, with the state that its first packet comes in.
struct Corner {
    first: State,
    packets: Vec<u8>,
    verdicts: Vec<Verdict>,
    events: String,
}

impl Corner {
    fn new(first: State, [packets, verdicts, events]: [&str; 3]) -> Corner {
        let packets = packets.split(' ').flat_map(made).collect();
        let verdicts = verdicts.split(' ').map(taken_for).collect();
        Corner { first, packets, verdicts, events: events.to_string() }
    }

    /// After the start of a unit, which announces the stream.
    fn in_a_unit([packets, verdicts, events]: [&str; 3]) -> Corner {
        let first = made(packets.split(' ').next().expect("a packet"));
        let before = (counter(&first) + 16 - u64::from(has_payload_flag(&first))) % 16;
        let (packets, verdicts) = (format!("S{before} {packets}"), format!("on {verdicts}"));
        Corner::new(State::FIRST_STANDARD, [&packets, &verdicts, &format!("sb {events}")])
    }

    /// Whether the rules, by the state and, where it has no counter, by the packets alone, take the packets for what is due, and
    /// announce the stream where they are told to.
    fn follows(&self, told: &Told) -> bool {
        let due = || self.verdicts.iter().copied();
        let by_state = self.packets.chunks_exact(SIZE).enumerate().map(|(nth, packet)| {
            let before = told.before(nth);
            verdict(before.last, before.again, packet)
        });
        let alone = || verdicts(&self.packets).eq(due()) && starts_as_alone(&self.packets, told);
        by_state.eq(due()) && (self.first.last != NONE || alone())
    }
}

fn corners() -> impl Iterator<Item = Corner> {
    let rows = CORNERS.into_iter().flat_map(|[packets, verdicts, fresh, in_a_unit]| {
        let from_fresh = Corner::new(State::FIRST_STANDARD, [packets, verdicts, fresh]);
        [from_fresh, Corner::in_a_unit([packets, verdicts, in_a_unit])]
    });
    rows.chain(FROM_STATES.map(|([phase, last, again, announced], row)| {
        Corner::new(State { phase, last, again, announced, ..State::FIRST_STANDARD }, row)
    }))
}

/// Each corner by steps, by runs in pieces, by one run; and against the rules.
fn compare_corners(rng: &mut Rng) -> Vec<Tally> {
    let mut walk = Walk::new("standard mode, corners", 8, [&[0], &[0], &[0], &[0]]);
    let mut rules = Tally::of_oracle("standard mode, corners, the rules", &[0]);
    for corner in corners() {
        let mut due = corner.verdicts.iter();
        let told = Told::by(corner.first, &corner.packets, |state, packet| {
            does(*due.next().expect("one for each packet"), state, packet)
        });
        let as_due = letters(&told) == corner.events && corner.follows(&told);
        let input = || format!("{:?}, {}", corner.first, hex(&corner.packets));
        rules.take_check(&Answer::done(&[]), as_due, input, || letters(&told));
        walk.told(&corner.packets, &told, rng);
        walk.one_run(&corner.packets, &told, rng);
    }
    walk.into_tallies().into_iter().chain([rules]).collect()
}

/// The events of each packet, as the table has them.
fn letters(told: &Told) -> String {
    let packets = (0..told.count()).map(|nth| match told.entries(nth, 1) {
        [] => "-".to_string(),
        entries => entries.chunks_exact(ENTRY).map(letter).collect(),
    });
    packets.collect::<Vec<_>>().join(" ")
}

fn letter(entry: &[u8]) -> char {
    match decoded(entry.try_into().expect("an entry")) {
        Some([event::START, ..]) => 's',
        Some([event::BEGIN, ..]) => 'b',
        Some([event::CONTINUE, ..]) => 'c',
        Some([event::END, ..]) => 'n',
        _ => 'e',
    }
}

fn taken_for(word: &str) -> Verdict {
    match word {
        "on" => Verdict::On,
        "drop" => Verdict::Dropped,
        _ => Verdict::Break,
    }
}

/// A packet of the table: its control bits, the length of the adaptation field, and what stands in the fifth byte after the sync byte.
fn made(word: &str) -> [u8; SIZE] {
    let (kind, counter) = word.split_at(1);
    let counter: u8 = counter.parse().expect("a counter");
    let (control, length, flags) = match kind {
        "S" => return start(counter),
        "P" => (0x10, 0xff, 0xff),
        "A" | "T" => (0x20, 183, 0x00),
        "B" => (0x20, 183, 0x80),
        "D" | "E" => (0x30, 1, 0x80),
        "N" => (0x30, 183, 0x80),
        "Z" => (0x30, 0, 0x80),
        "X" => (0x20, 182, 0x80),
        _ => (0x00, 0xff, 0xff),
    };
    let (start, head) = if matches!(kind, "T" | "E") { (0x40, HEAD) } else { (0x00, NO_HEAD) };
    let mut packet = packet([start, 0x00, control | counter, length], head);
    packet[5] = flags;
    packet
}
