//! Streams through the event machine in the standard mode, made at random and real: as machine_stream.rs goes over those of the crate's
//! mode, with the rules of standard_rules.rs for a judge. The rules have two judges themselves: what they say by the packets alone, and
//! the oracle, over the stream as it would be without repeats and discontinuities. What the request says of StartStream is also looked
//! for in the library's own log.

use crate::answer::Answer;
use crate::consumer::{Oracle, SIZE};
use crate::event::{self, decoded, Event, ENTRY};
use crate::host_machine::{self, State, MOST_TAKEN, NONE, STANDARD};
use crate::machine_stream::{longest_log, make_packet, random_taken, Told, Walk};
use crate::rng::Rng;
use crate::rules::{counter, has_payload_flag, has_start_flag, most_events};
use crate::standard_rules::{announcing, has_discontinuity_bit, verdict, verdicts, NO_MORE};
use crate::tally::{hex, Tally};

/// The most packets of a random stream, and of a part of it in one mode, where the mode changes.
const MOST: usize = 4096;
const MOST_IN_A_MODE: usize = 64;
const FEW_IN_A_MODE: usize = 4;

/// The packets that are always compared: enough for every number.
const ALWAYS: u64 = 100_000;

/// Short streams from a state before any packet, and the most packets of one: which packet announces a stream, its first packets
/// decide. In one of four the mode changes.
const SHORT: usize = 10_000;
const MOST_OF_SHORT: usize = 16;

/// Compares on random streams, until so many packets more are taken than those that are always compared. The first stream runs out of
/// indices, and short ones follow it. Of eight others five begin before any packet, of which one is also sent with each packet twice; two
/// begin in any state; and in one the mode changes.
pub fn compare_random(count: u64, rng: &mut Rng) -> Vec<Tally> {
    let mut standard = Standard::new(MOST, [&[0, 15, 16], &[0, 1, 14], &[0, 2, 15, 16], &[0]]);
    let mut packets = vec![0; MOST * SIZE];
    rng.fill(&mut packets);
    make_stream(&mut packets, rng);
    let first = State::FIRST_STANDARD;
    standard.stream(&packets, State { taken: MOST_TAKEN - MOST as u64 / 2, ..first }, rng);
    for _ in 0..SHORT {
        let stream = &mut packets[..SIZE * (1 + rng.below(MOST_OF_SHORT))];
        make_stream(stream, rng);
        match rng.below(4) {
            0 => standard.changing(stream, random_mode(first, rng), FEW_IN_A_MODE, rng),
            _ => _ = standard.stream(stream, first, rng),
        }
    }
    let all = standard.walk.taken() + ALWAYS + count;
    while standard.walk.taken() < all {
        let stream = &mut packets[..SIZE * (1 + rng.below(MOST))];
        make_stream(stream, rng);
        let first = State { taken: random_taken(stream.len() / SIZE, rng), ..first };
        match rng.below(8) {
            0 | 1 => _ = standard.stream(stream, random_state(first, rng), rng),
            2 => standard.changing(stream, random_mode(random_state(first, rng), rng), MOST_IN_A_MODE, rng),
            3 => standard.stream_and_twice(stream, first, rng),
            _ => _ = standard.stream(stream, first, rng),
        }
    }
    standard.say_taken();
    standard.into_tallies()
}

/// Any phase, counter and number that says whether a packet may be repeated, announced or not: also those that no stream leads to.
fn random_state(state: State, rng: &mut Rng) -> State {
    let last = Some(rng.below(17) as u64).filter(|last| *last < 16).unwrap_or(NONE);
    let [phase, again, announced] = [3, 3, 2].map(|bound| rng.below(bound) as u64);
    State { phase, last, again, announced, ..state }
}

fn random_mode(state: State, rng: &mut Rng) -> State {
    State { mode: rng.below(2) as u64, ..state }
}

// ---- A stream and its judges.

pub struct Standard {
    walk: Walk,
    /// What packets are taken for, by the state and by the packets alone: those that go on, dropped ones, and breaks.
    alone: [Tally; 3],
    /// Which packet announces the stream, by both.
    starts_alone: Tally,
    oracle: Tally,
    announcement: Announcement,
    twice: Twice,
}

impl Standard {
    /// Room for streams of so many packets; the numbers that have to be among the answers, as of `Walk`.
    pub fn new(most: usize, must: [&'static [usize]; 4]) -> Standard {
        let alone = ["on", "dropped", "breaks"];
        let alone = alone.map(|name| format!("standard mode, the rules against those by the packets alone: {name}"));
        Standard {
            walk: Walk::new("standard mode, streams", most, must),
            alone: alone.map(|name| Tally::of_oracle(&name, &[0])),
            starts_alone: Tally::of_oracle("standard mode, StartStream, the rules against the packets alone", &[0]),
            oracle: Tally::of_oracle("standard mode, the rules against the Rust without repeats", &[0]),
            announcement: Announcement::new(),
            twice: Twice::new(),
        }
    }

    pub fn stream(&mut self, packets: &[u8], first: State, rng: &mut Rng) -> Told {
        let told = self.walk.stream(packets, first, rng);
        if first.last == NONE {
            self.alone(packets, &told);
        }
        self.oracle(packets, &told);
        self.announcement.stream(packets, &told);
        told
    }

    /// A stream before whose parts, of so many packets at most, the host sets the mode, and begins the log anew.
    fn changing(&mut self, packets: &[u8], first: State, most: usize, rng: &mut Rng) {
        let (mut rest, mut state) = (packets, first);
        while !rest.is_empty() {
            let count = (1 + rng.below(most)).min(rest.len() / SIZE);
            let (part, others) = rest.split_at(count * SIZE);
            let told = match state.mode {
                STANDARD => self.stream(part, State { place: 0, ..state }, rng),
                _ => self.walk.stream(part, State { place: 0, ..state }, rng),
            };
            state = random_mode(told.before(told.count()), rng);
            rest = others;
        }
    }

    /// A stream, and what it gives where packets are sent twice.
    pub fn stream_and_twice(&mut self, packets: &[u8], first: State, rng: &mut Rng) {
        let told = self.stream(packets, first, rng);
        self.twice.stream(packets, &told);
    }

    /// A recording, and the same with each packet sent twice.
    pub fn recording(&mut self, packets: &[u8], rng: &mut Rng) {
        self.stream_and_twice(packets, State::FIRST_STANDARD, rng);
        let each_twice: Vec<u8> =
            packets.chunks_exact(SIZE).flat_map(|packet| [packet, packet]).flatten().copied().collect();
        self.stream(&each_twice, State::FIRST_STANDARD, rng);
    }

    /// What each packet is taken for, by the packets up to it, and which one announces the stream. Nothing went before them, or what did
    /// has no counter.
    fn alone(&mut self, packets: &[u8], told: &Told) {
        let agrees = starts_as_alone(packets, told);
        let input = || format!("{:?}, {}", told.before(0), heads(packets));
        self.starts_alone.take_check(&Answer::done(&[]), agrees, input, || {
            format!("StartStream with {:?}", starts(told).collect::<Vec<_>>())
        });
        for (nth, alone) in (0..told.count()).zip(verdicts(packets)) {
            let (before, up_to) = (told.before(nth), &packets[..(nth + 1) * SIZE]);
            let agrees = verdict(before.last, before.again, &up_to[nth * SIZE..]) == alone;
            let input =
                || format!("{before:?}, the last of {}", heads(&up_to[(nth + 1).saturating_sub(SHOWN) * SIZE..]));
            self.alone[alone as usize].take_check(&Answer::done(&[]), agrees, input, || format!("{alone:?}"));
        }
    }

    /// The oracle gives the same events, where it can be brought to the first state; but for StartStream, which is due with a start or
    /// what the oracle finds to be a break.
    fn oracle(&mut self, packets: &[u8], told: &Told) {
        let first = told.before(0);
        let Some(mut oracle) = Oracle::brought_to(first.phase, first.last) else { return };
        let mut smooth = Smooth { last: first.last, shift: 0 };
        for (nth, packet) in packets.chunks_exact(SIZE).enumerate().take(told.count()) {
            let (before, entries) = (told.before(nth), told.entries(nth, 1));
            let agrees = match is_dropped(told, nth) {
                true => entries.is_empty(),
                false => {
                    let events = oracle.consume(&smooth.sent(packet));
                    let start = before.announced == 0 && (has_start_flag(packet) || events.has(event::ERROR));
                    let lead = start.then(|| Event::bare(event::START)).into_iter();
                    let due = lead.chain(events.iter().copied().filter(|event| event.kind != event::START));
                    due.flat_map(|event| event.entry(before.taken as u32)).eq(entries.iter().copied())
                }
            };
            let input = || format!("{before:?}, [{}]", hex(packet));
            self.oracle.take_check(&Answer::done(&[]), agrees, input, || "other events".to_string());
        }
    }

    /// Says how many packets were taken.
    pub fn say_taken(&self) {
        self.walk.say_taken("standard");
    }

    pub fn into_tallies(self) -> Vec<Tally> {
        let tallies = self.walk.into_tallies().into_iter();
        let rules = self.alone.into_iter().chain([self.starts_alone, self.oracle]);
        tallies.chain(rules).chain(self.announcement.into_tallies()).chain([self.twice.tally]).collect()
    }
}

/// How many packets of a stream are printed where something differs.
const SHOWN: usize = 16;

/// The bytes of packets up to those of the discontinuity bit, in hex.
fn heads(packets: &[u8]) -> String {
    let heads = packets.chunks_exact(SIZE).take(SHOWN).map(|packet| hex(&packet[..6]));
    heads.collect::<Vec<_>>().join(" ")
}

fn is_dropped(told: &Told, nth: usize) -> bool {
    told.before(nth + 1).again == NO_MORE
}

/// The packets as they would be if no counter began anew where the discontinuity bit permits it. To the oracle, which does not look at
/// the bit, such a packet is continuous then; the counters after it are moved by as much.
struct Smooth {
    /// The last counter sent, or none.
    last: u64,
    /// What is added to the counters.
    shift: u64,
}

impl Smooth {
    fn sent(&mut self, packet: &[u8]) -> [u8; SIZE] {
        if has_discontinuity_bit(packet) && self.last != NONE {
            self.shift = self.last + u64::from(has_payload_flag(packet)) + 16 - counter(packet);
        }
        self.last = (counter(packet) + self.shift) % 16;
        let mut sent: [u8; SIZE] = packet.try_into().expect("a packet");
        sent[3] = packet[3] & 0xf0 | self.last as u8;
        sent
    }
}

// ---- The announcement.

/// The packets that StartStream comes with.
fn starts(told: &Told) -> impl Iterator<Item = usize> + '_ {
    (0..told.count()).filter(|&nth| events_of(told.entries(nth, 1)).flatten().any(|[kind, ..]| kind == event::START))
}

/// Whether it comes where the packets alone have it. Nothing went before them, or what did has no counter.
pub fn starts_as_alone(packets: &[u8], told: &Told) -> bool {
    let due = announcing(&packets[..told.count() * SIZE]).filter(|_| told.before(0).announced == 0);
    starts(told).eq(due.map(|(nth, _)| nth))
}

/// What the request says of StartStream and of the length of a log, looked for in the library's log. No rule of events is asked.
struct Announcement {
    /// From a state before any packet: where nothing announces the stream, and by what announces it.
    fresh: [Tally; 4],
    /// From other states.
    others: Tally,
    packets: Vec<u8>,
    log: Vec<u8>,
}

impl Announcement {
    fn new() -> Announcement {
        let name = |by| format!("machine::run, standard mode, StartStream from a fresh state: {by}");
        let fresh = ["by nothing", "by a start", "by a break", "by both"].map(name);
        // A recording need not have them all; random streams have, or nothing was compared there, which does not pass.
        Announcement {
            fresh: fresh.map(|name| Tally::of_bytes(&name, &[])),
            others: Tally::of_bytes("machine::run, standard mode, StartStream from other states", &[]),
            packets: vec![],
            log: vec![],
        }
    }

    fn stream(&mut self, packets: &[u8], told: &Told) {
        let (first, packets) = (told.before(0), &packets[..told.count() * SIZE]);
        let (events, due) = (self.events(first, packets), announcing(packets));
        let index = due.map(|(nth, _)| first.taken + nth as u64);
        let agrees = events.as_ref().is_some_and(|events| {
            starts_at_most_once(events, first) && (!is_fresh(first) || begins_with_start(events, index))
        });
        let tally = match is_fresh(first) {
            true => &mut self.fresh[due.map_or(0, |(_, by)| 1 + by as usize)],
            false => &mut self.others,
        };
        let input = || format!("{first:?}, {}", heads(packets));
        let given = || events.map_or("no run over all".to_string(), |events| format!("{} events", events.len()));
        tally.take_check(&Answer::done(&[]), agrees, input, given);
    }

    /// The events of a run over the packets with a log that is just long enough; nothing where it does not take them all.
    fn events(&mut self, first: State, packets: &[u8]) -> Option<Vec<[u64; 4]>> {
        let (mut state, mut ran) = (State { place: 0, ..first }, [0; 2]);
        self.packets.clear();
        self.packets.extend_from_slice(packets);
        self.log.resize(ENTRY * most_from(first, packets), 0);
        let word = host_machine::run(&mut state, &mut self.packets, &mut self.log, &mut ran);
        let all = word == 0 && ran == [(packets.len() / SIZE) as u64, 0];
        events_of(self.log.get(..state.place).filter(|_| all)?).collect()
    }

    fn into_tallies(self) -> impl Iterator<Item = Tally> {
        self.fresh.into_iter().chain([self.others])
    }
}

/// As the standard mode begins, with any number of packets taken.
fn is_fresh(state: State) -> bool {
    State { taken: 0, place: 0, ..state }.numbers() == State::FIRST_STANDARD.numbers()
}

/// The bound, with one for StartStream. That does not count where the stream was announced, nor from a fresh state: there StartStream comes
/// with a start that ends no unit, or after a packet that has no event.
fn most_from(first: State, packets: &[u8]) -> usize {
    most_events(packets.chunks_exact(SIZE)) + usize::from(!is_fresh(first) && first.announced == 0)
}

/// Whether the first event is StartStream, with the packet of this index; or there is no event, where there is no such packet.
fn begins_with_start(events: &[[u64; 4]], due: Option<u64>) -> bool {
    let first = events.first().map(|[kind, index, ..]| (*kind, *index));
    first == due.map(|index| (event::START, index))
}

/// Whether StartStream comes once or never, and never in a stream that was announced; and before the other events of its packet.
fn starts_at_most_once(events: &[[u64; 4]], first: State) -> bool {
    let index_before = [None].into_iter().chain(events.iter().map(|[_, index, ..]| Some(*index)));
    let pairs = events.iter().zip(index_before);
    let mut starts = pairs.filter(|([kind, ..], _)| *kind == event::START);
    match starts.next() {
        None => true,
        Some(([_, index, ..], before)) => first.announced == 0 && before < Some(*index) && starts.next().is_none(),
    }
}

/// The events of entries: kind, index, place and length; nothing for one that is no entry.
fn events_of(entries: &[u8]) -> impl Iterator<Item = Option<[u64; 4]>> + '_ {
    entries.chunks_exact(ENTRY).map(|entry| decoded(entry.try_into().expect("the bytes of an entry")))
}

// ---- Each packet twice.

/// Packets that are sent twice give the library's events of packets that are sent once.
struct Twice {
    tally: Tally,
    once: Sent,
    twice: Sent,
}

/// Packets, and the log of a run over them.
#[derive(Default)]
struct Sent {
    packets: Vec<u8>,
    log: Vec<u8>,
    /// The number of each packet, where the second ones are not counted.
    nth: Vec<u64>,
}

impl Twice {
    fn new() -> Twice {
        let tally = Tally::of_bytes("machine::run, standard mode, the events of packets sent twice", &[0]);
        Twice { tally, once: Sent::default(), twice: Sent::default() }
    }

    /// A packet that repeats another already would be a break if it came twice. So the stream is cut where a packet is dropped, and each
    /// part is a stream of its own, in which none is: what a packet is taken for depends on the one just before it alone.
    fn stream(&mut self, packets: &[u8], told: &Told) {
        let dropped = (0..told.count()).filter(|nth| is_dropped(told, *nth)).chain([told.count()]);
        dropped.fold(0, |from, to| {
            self.part(&packets[from * SIZE..to * SIZE]);
            to + 1
        });
    }

    fn part(&mut self, packets: &[u8]) {
        self.once.clear();
        self.twice.clear();
        for (packet, nth) in packets.chunks_exact(SIZE).zip(0..) {
            self.once.send(packet, nth);
            self.twice.send(packet, nth);
            if may_come_twice(packet) {
                self.twice.send(packet, nth);
            }
        }
        let agrees = match (self.once.run(), self.twice.run()) {
            (Some(once), Some(twice)) => once == twice && self.same_events(once),
            _ => false,
        };
        let input = || format!("packets that are sent twice: {}", heads(packets));
        self.tally.take_check(&Answer::done(&[]), agrees, input, || "other events".to_string());
    }

    /// Whether these bytes of both logs are entries of the same events.
    fn same_events(&self, bytes: usize) -> bool {
        let mut pairs = self.once.events(bytes).zip(self.twice.events(bytes));
        pairs.all(|(once, twice)| once.is_some() && once == twice)
    }
}

/// Whether its events are to be given once though it comes twice. A packet with the discontinuity bit is never a repeat; one without the
/// payload flag is none either, and ends a unit twice with the start flag.
fn may_come_twice(packet: &[u8]) -> bool {
    let starts = packet[1] & 0x40 != 0;
    !has_discontinuity_bit(packet) && (has_payload_flag(packet) || !starts)
}

impl Sent {
    fn clear(&mut self) {
        self.packets.clear();
        self.nth.clear();
    }

    fn send(&mut self, packet: &[u8], nth: u64) {
        self.packets.extend_from_slice(packet);
        self.nth.push(nth);
    }

    /// How many bytes of the log a run over the packets writes, where it takes them all.
    fn run(&mut self) -> Option<usize> {
        let (mut state, mut ran) = (State::FIRST_STANDARD, [0; 2]);
        self.log.resize(longest_log(self.nth.len()), 0);
        let word = host_machine::run(&mut state, &mut self.packets, &mut self.log, &mut ran);
        (word == 0 && ran == [self.nth.len() as u64, 0]).then_some(state.place)
    }

    /// The events in these bytes of the log, each with the number of its packet; nothing for one that is no entry.
    fn events(&self, bytes: usize) -> impl Iterator<Item = Option<[u64; 4]>> + '_ {
        events_of(&self.log[..bytes]).map(|event| {
            let [kind, index, place, length] = event?;
            Some([kind, *self.nth.get(index as usize)?, place, length])
        })
    }
}

// ---- Random streams.

/// As a station sends them that sends packets twice, and now and then too often: a packet of eight is the one before again, and after
/// such a one every second. Of the others a few are exchanged with the one before, and of those with an adaptation field an eighth have
/// the discontinuity bit.
fn make_stream(packets: &mut [u8], rng: &mut Rng) {
    let (mut last, mut repeated) = (0, false);
    for at in (0..packets.len()).step_by(SIZE) {
        let (choice, mask) = (rng.next(), if repeated { 1 } else { 7 });
        repeated = at > 0 && choice & mask == 0;
        if repeated {
            packets.copy_within(at - SIZE..at, at);
            change_payload(&mut packets[at..at + SIZE], choice >> 3);
            continue;
        }
        last = make_packet(&mut packets[at..at + SIZE], last, rng);
        set_field(&mut packets[at..at + SIZE], choice >> 3);
        if at > 0 && choice >> 16 & 63 == 0 {
            let (before, after) = packets[at - SIZE..at + SIZE].split_at_mut(SIZE);
            before.swap_with_slice(after);
        }
    }
}

/// Gives half of the repeats other bytes than those of the packet that they repeat, and half of these the other start flag: nothing of
/// that is compared.
fn change_payload(packet: &mut [u8], choice: u64) {
    if choice & 1 == 0 {
        packet[SIZE - 1] ^= 0xff;
        packet[1] ^= (choice as u8 & 2) << 5;
    }
}

/// Sets the discontinuity bit or clears it. Half of the packets with an adaptation field alone have one that goes to the end, as it has
/// to.
fn set_field(packet: &mut [u8], choice: u64) {
    if packet[3] & 0x30 == 0x20 && choice & 1 == 0 {
        packet[4] = 183;
    }
    if packet[3] & 0x20 != 0 && packet[4] != 0 {
        let bit = if choice >> 1 & 7 == 0 { 0x80 } else { 0x00 };
        packet[5] = packet[5] & 0x7f | bit;
    }
}
