//! The event machine and its log: `PesPacketFilter::consume` of the oracle's pes.rs, a packet a step and many packets a run. Compared
//! is the crate's mode; single packets of the standard mode are judged here too, for standard.rs.

use crate::answer::Answer;
use crate::consumer::{phase_before, start, Oracle, SIZE};
use crate::event::{self, decoded, Event, ENTRY};
use crate::host_machine::{self, log_entry_at, State};
use crate::host_machine::{BEGIN, CRATE, IGNORE_REST, MOST_TAKEN, NONE, STANDARD, STARTED};
use crate::kept::Keeps;
use crate::lent::Lent;
use crate::machine_stream;
use crate::module::{Module, Plan};
use crate::rng::Rng;
use crate::rules::{self, Happened};
use crate::standard_rules;
use crate::tally::{hex, Given, Tally};
use mpeg2ts_reader::packet::Packet;
use mpeg2ts_reader::pes::PesHeader;
use std::ops::Range;

/// Nothing is recorded: the program that replays knows slices and numbers, no states and logs.
pub const MODULE: Module = Module { name: "machine", count: 2_000_000, compare, record: |_| () };

fn compare(plan: &Plan) -> Vec<Tally> {
    try_kept();
    let mut cases = Cases::new(plan.rng(1));
    cases.every_state();
    cases.every_row(&MODES);
    cases.every_refusal(CRATE);
    cases.every_mode();
    let mut tallies = cases.into_tallies();
    let mut rng = plan.rng(2);
    tallies.extend(machine_stream::compare_random(plan.count, &mut plan.rng(3)));
    tallies.push(compare_entries(&mut rng));
    tallies.push(compare_first("machine::new, its row", State::FIRST, host_machine::fresh, &mut rng));
    tallies
}

/// The state before any packet, in place of every row that is tried, and of random ones.
pub fn compare_first(name: &str, first: State, entry: fn(&mut [u64; 7]), rng: &mut Rng) -> Tally {
    let mut tally = Tally::new(name, &[0]);
    let mut fill = |before| tally.call_filling(&first.numbers(), entry, before);
    every_row(&MODES).chain(every_row(&[STANDARD])).for_each(|state| fill(state.numbers()));
    (0..10_000).for_each(|_| fill([(); 7].map(|()| rng.next())));
    tally
}

/// A header is read as it stands in memory: tried on a slice that is known.
fn try_kept() {
    let bytes = start(0);
    let header = PesHeader::from_bytes(&bytes[4..]).expect("a head");
    assert!(std::ptr::eq(header.kept(), &bytes[4..]), "the oracle's header is not the slice that it keeps");
}

// ---- Calls.

/// A step or a run, with the packets and the log that are lent.
pub struct Call<'a> {
    pub state: State,
    pub packets: &'a mut Lent,
    /// The part of the packets that is lent.
    pub part: Range<usize>,
    pub log: &'a mut Lent,
    /// How many bytes of the log are lent.
    pub room: usize,
}

/// What a run tells that is not refused: how many packets it took, and the number that the next one was refused with.
#[derive(Clone, Copy)]
pub struct Ran {
    pub packets: usize,
    pub ended: u32,
}

/// The answers of runs, and beside them, of runs that are not refused, whether all packets are accepted or by which number the next one
/// is not.
pub struct Runs {
    run: Tally,
    packets: Tally,
}

impl Runs {
    /// The numbers that have to be among the answers, and among those that end a run.
    pub fn new(name: &str, [run, ended]: [&'static [usize]; 2]) -> Runs {
        Runs { run: Tally::new(name, run), packets: Tally::beside(&format!("{name}: all its packets"), ended) }
    }

    pub fn into_tallies(self) -> [Tally; 2] {
        [self.run, self.packets]
    }
}

impl Call<'_> {
    /// Steps and counts the answer, which is to be this number with this state after it. What the log is to hold then, `expect` has
    /// said.
    pub fn step(mut self, tally: &mut Tally, number: u32, after: State) {
        let mut now = self.state;
        let (packet, log) = self.slices();
        let word = host_machine::step(&mut now, packet, log);
        let (held, outs, unchanged) = (&self.state.numbers(), &now.numbers(), self.unchanged());
        tally.take(&answer(number, &after.numbers()), &Given { word, held, outs, unchanged }, || self.text());
    }

    /// Runs and counts the answer: a number, or what the run tells with this state after it.
    pub fn run(mut self, runs: &mut Runs, expected: Result<Ran, u32>, after: State) {
        let (mut now, held) = (self.state, [runs.run.held(0), runs.run.held(1)]);
        let mut outs = held;
        let (packets, log) = self.slices();
        let word = host_machine::run(&mut now, packets, log, &mut outs);
        let (number, told) = match expected {
            Ok(ran) => (0, [ran.packets as u64, ran.ended.into()]),
            Err(number) => (number, held),
        };
        let given = Given { word, held: &with(self.state, held), outs: &with(now, outs), unchanged: self.unchanged() };
        runs.run.take(&answer(number, &with(after, told)), &given, || self.text());
        if let Ok(Ran { ended, .. }) = expected {
            let agrees = outs[1] == ended.into();
            runs.packets.take_check(&answer(ended, &[]), agrees, || self.text(), || outs[1].to_string());
        }
    }

    fn slices(&mut self) -> (&mut [u8], &mut [u8]) {
        (&mut self.packets.slice()[self.part.clone()], &mut self.log.slice()[..self.room])
    }

    fn unchanged(&self) -> bool {
        self.packets.unchanged_near(self.part.clone()) && self.log.unchanged()
    }

    fn text(&mut self) -> String {
        let (state, room) = (self.state, self.room);
        format!("{state:?}, log of {room} bytes, {}", text(self.slices().0))
    }
}

/// The numbers of a state, and the out numbers of a run.
fn with(state: State, [packets, ended]: [u64; 2]) -> [u64; 9] {
    let [mode, phase, last, again, announced, taken, place] = state.numbers();
    [mode, phase, last, again, announced, taken, place, packets, ended]
}

/// Done with these values, or refused.
fn answer(number: u32, values: &[u64]) -> Answer {
    match number {
        0 => Answer::done(values),
        number => Answer::refused(number, &[]),
    }
}

/// The length, and the bytes of the first packet.
fn text(packets: &[u8]) -> String {
    format!("{} bytes [{}]", packets.len(), hex(&packets[..packets.len().min(SIZE)]))
}

/// Whether a stream can bring the oracle to the state, or its numbers stand for none. The oracle keeps no numbers that say whether a
/// packet may be repeated and whether the stream was announced: in the crate's mode nothing depends on them.
fn can_be_reached(state: State) -> bool {
    state.last != NONE || !matches!(state.phase, STARTED | IGNORE_REST)
}

// ---- Single packets.

/// Where a packet's answers are counted.
struct Tallies {
    step: Tally,
    runs: Runs,
}

pub struct Cases {
    told: Tallies,
    /// From the states that the oracle cannot be brought to.
    ruled: Tallies,
    /// In the standard mode.
    standard: Tallies,
    /// The rules that those are held against, in the other states.
    rules: Tally,
    pub rng: Rng,
    packet: Lent,
    log: Lent,
}

/// The longest packet and the longest log of a single packet's answers.
pub const LONGEST_PACKET: usize = SIZE + 1;
pub const LONGEST_LOG: usize = 40;

/// The most bytes that the entries of one packet take.
pub const MOST_ENTRIES: usize = 3 * ENTRY;

impl Cases {
    pub fn new(rng: Rng) -> Cases {
        const RUNS: [&[usize]; 2] = [&[0, 1, 14], &[0, 2, 15, 16]];
        Cases {
            told: Tallies {
                step: Tally::new("machine::step", &[0, 1, 2, 14, 15, 16]),
                runs: Runs::new("machine::run, over a packet or none", RUNS),
            },
            ruled: Tallies {
                step: Tally::new("machine::step, by the rules: phases without a counter", &[0, 15]),
                runs: Runs::new("machine::run, by the rules: phases without a counter", RUNS),
            },
            standard: Tallies {
                step: Tally::new("machine::step, standard mode", &[0, 1, 2, 14, 15, 16]),
                runs: Runs::new("machine::run, standard mode, over a packet or none", RUNS),
            },
            rules: Tally::of_oracle("machine::step, the rules against the Rust", &[0]),
            rng,
            packet: Lent::new(LONGEST_PACKET),
            log: Lent::new(LONGEST_LOG),
        }
    }

    /// Steps over a packet and runs over its bytes, with a log of this length, and gives the state that is to be after the step.
    pub fn take(&mut self, state: State, packet: &[u8], room: usize) -> State {
        let judged = self.judged(state, packet, room);
        self.hold(state, packet, room, &judged)
    }

    /// The same with what the packet does, or the number of the refusal.
    fn hold(&mut self, state: State, packet: &[u8], room: usize, judged: &Result<Happened, u32>) -> State {
        let (number, events, after) = match judged {
            Ok(happened) => (0, &happened.events[..], next(state, happened)),
            Err(number) => (*number, &[][..], state),
        };
        self.lend(state, packet, room, events);
        self.call(state, room, |call, tallies| call.step(&mut tallies.step, number, after));
        self.lend(state, packet, room, events);
        let ran = ran(state, packet, room, number);
        self.call(state, room, |call, tallies| call.run(&mut tallies.runs, ran, after));
        after
    }

    /// Sets the packet, and a log of this length that is to hold the events afterwards.
    fn lend(&mut self, state: State, packet: &[u8], room: usize, events: &[Event]) {
        let guard = self.rng.next() as u8;
        let filling: [u64; LONGEST_LOG / 8] = std::array::from_fn(|_| self.rng.next());
        let filling = filling.map(u64::to_be_bytes);
        self.packet.set(packet, guard);
        self.log.set(&filling.as_flattened()[..room], !guard);
        let entries = events.iter().zip((state.place..).step_by(ENTRY));
        entries.for_each(|(event, at)| self.log.expect(at, &event.entry(state.taken as u32)));
    }

    fn call(&mut self, state: State, room: usize, compare: impl FnOnce(Call, &mut Tallies)) {
        let tallies = match state.mode {
            STANDARD => &mut self.standard,
            _ if can_be_reached(state) => &mut self.told,
            _ => &mut self.ruled,
        };
        let part = 0..self.packet.len();
        compare(Call { state, packets: &mut self.packet, part, log: &mut self.log, room }, tallies);
    }

    /// What a packet does, or the number of the refusal: in the order of the request.
    fn judged(&mut self, state: State, packet: &[u8], room: usize) -> Result<Happened, u32> {
        if packet.len() != SIZE {
            return Err(1);
        }
        if packet[0] != Packet::SYNC_BYTE {
            return Err(2);
        }
        if !state.stands(room) {
            return Err(14);
        }
        if state.taken == MOST_TAKEN {
            return Err(16);
        }
        let happened = self.happened(state, packet);
        if happened.events.room() > room - state.place {
            return Err(15);
        }
        Ok(happened)
    }

    /// What a packet does in a state: by the oracle, or by the rules where the oracle cannot be brought there. The phase after it is
    /// seen from what the oracle does with one more packet, whose counter follows.
    fn happened(&mut self, state: State, packet: &[u8]) -> Happened {
        let ruled = by_rules(state, packet);
        let Some(mut oracle) = oracle_in(state) else { return ruled };
        let events = oracle.consume(packet);
        let seen = Packet::new(packet);
        let last = seen.continuity_counter().count();
        let phase = phase_before(&oracle.consume(&start(last + 1))).expect("the packet's counter is the last");
        let again = seen.adaptation_control().has_payload();
        let told = Happened { events, phase, last: last.into(), again: again.into() };
        let input = || format!("{state:?}, {}", text(packet));
        self.rules.take_check(&Answer::done(&[]), told == ruled, input, || format!("{told:?}, {ruled:?}"));
        told
    }

    /// Every state with every control byte, with and without the start flag and a head, and lengths of the adaptation field around
    /// each bound; each with one more packet after it.
    fn every_state(&mut self) {
        for state in every_state(CRATE).filter(|state| state.again == 0 && state.announced == 0) {
            for control in 0..=255 {
                for length in LENGTHS {
                    for (flags, head) in [(0x00, HEAD), (0x00, NO_HEAD), (0x40, HEAD), (0x40, NO_HEAD)] {
                        self.state(state, [flags, control, length], head);
                    }
                }
            }
        }
    }

    /// A state with each number that says whether a packet may be repeated, and whether the stream was announced: neither makes a
    /// difference to the events.
    fn state(&mut self, state: State, [flags, control, length]: [u8; 3], head: [u8; 6]) {
        let random = self.rng.next();
        let packet = packet([flags | random as u8 & 0xbf, (random >> 8) as u8, control, length], head);
        let place = ENTRY * (random >> 16 & 1) as usize;
        let state = State { taken: random >> 33, place, ..state };
        let judged = self.judged(state, &packet, LONGEST_LOG);
        let [after, ..] = [(0, 0), (0, 1), (1, 0), (1, 1), (2, 0), (2, 1)]
            .map(|(again, announced)| self.hold(State { again, announced, ..state }, &packet, LONGEST_LOG, &judged));
        self.take(after, &start(after.last as u8 + 1), LONGEST_LOG);
    }

    /// In every position of a row numbers that stand for something and numbers that stand for nothing, of which some have lower bits
    /// that do; each row also with a packet that is too short, with one without its sync byte and with none, as 1 and 2 come before 14.
    pub fn every_row(&mut self, modes: &[u64]) {
        let [_, packet, ..] = by_events();
        let lost = [&[0x46], &packet[1..]].concat();
        for packet in [&packet[..], &packet[1..], &lost, &[]] {
            every_row(modes).for_each(|state| {
                self.take(state, packet, LONGEST_LOG);
            });
        }
    }

    /// Every number for a phase with every number for a counter, every one that says whether a packet may be repeated, and every one
    /// that says whether the stream was announced; and of each ground for a refusal several, with the others and without: the numbers
    /// have an order.
    pub fn every_refusal(&mut self, mode: u64) {
        const STATES: [(u64, u64, u64, u64); 12] = [
            (BEGIN, NONE, 0, 0),
            (STARTED, 15, 0, 0),
            (STARTED, 15, 0, 1),
            (STARTED, 15, 0, 2),
            (STARTED, 15, 1, 0),
            (STARTED, 15, 2, 0),
            (STARTED, 15, 2, 1),
            (STARTED, 15, 3, 0),
            (STARTED, NONE, 1, 0),
            (IGNORE_REST, 16, 2, 1),
            (3, 0, 1, 0),
            (255, 255, 255, 255),
        ];
        let (state, packets) = (State { mode, ..State::FIRST }, by_events());
        for (phase, last) in (0..=255).flat_map(|phase| (0..=255).map(move |last| (phase, last))) {
            let (again, announced) = ((phase + last) % 3, last % 2);
            self.take(State { phase, last, again, announced, ..state }, &packets[1], MOST_ENTRIES);
        }
        for (number, packet) in (0..=255).flat_map(|number| packets.map(|packet| (number, packet))) {
            let state = State { phase: STARTED, last: 15, ..state };
            self.take(State { again: number, ..state }, &packet, MOST_ENTRIES);
            self.take(State { announced: number, ..state }, &packet, MOST_ENTRIES);
        }
        for taken in [0, MOST_TAKEN - 1, MOST_TAKEN] {
            for (phase, last, again, announced) in STATES {
                for packet in packets.iter().flat_map(every_packet_fault) {
                    self.every_log(State { phase, last, again, announced, taken, ..state }, packet.as_slice());
                }
            }
        }
    }

    /// Every number for a mode but the standard one's, with every one that says whether a packet may be repeated.
    fn every_mode(&mut self) {
        let [_, packet, ..] = by_events();
        let modes = (0..=255).filter(|mode| *mode != STANDARD);
        for (mode, again) in modes.flat_map(|mode| (0..=255).map(move |again| (mode, again))) {
            self.take(State { mode, again, ..State::FIRST }, &packet, MOST_ENTRIES);
        }
    }

    /// Every length of the log, with places in it, past it and between entries.
    fn every_log(&mut self, state: State, packet: &[u8]) {
        for room in 0..=LONGEST_LOG {
            let before = [24, 16, 8, 1].map(|bytes| room.wrapping_sub(bytes)).into_iter();
            let near = before.chain([room, room + 1, room + 8]);
            for place in near.chain([0, 1, 4, 7, 8, 16, 1 << 63, usize::MAX - 7, usize::MAX]) {
                self.take(State { place, ..state }, packet, room);
            }
        }
    }

    /// Those of the crate's mode.
    fn into_tallies(self) -> Vec<Tally> {
        let both = [self.told, self.ruled].into_iter();
        both.flat_map(Tallies::into_tallies).chain([self.rules]).collect()
    }

    /// Those of the standard mode.
    pub fn into_standard_tallies(self) -> Vec<Tally> {
        self.standard.into_tallies().collect()
    }
}

impl Tallies {
    fn into_tallies(self) -> impl Iterator<Item = Tally> {
        [self.step].into_iter().chain(self.runs.into_tallies())
    }
}

/// The oracle in a state of the crate's mode, where packets can bring it there.
pub fn oracle_in(state: State) -> Option<Oracle> {
    match state.mode {
        CRATE => Oracle::brought_to(state.phase, state.last),
        _ => None,
    }
}

/// What a packet does in a state, by the rules of its mode.
pub fn by_rules(state: State, packet: &[u8]) -> Happened {
    match state.mode {
        STANDARD => standard_rules::happened(state, packet),
        _ => rules::happened(state, packet),
    }
}

/// The state after a packet that does this. In both modes the stream is announced by StartStream and by nothing else. The mode is the
/// caller's to change.
pub fn next(state: State, happened: &Happened) -> State {
    let Happened { events, phase, last, again } = *happened;
    let announced = if events.has(event::START) { 1 } else { state.announced };
    State { phase, last, again, announced, taken: state.taken + 1, place: state.place + events.room(), ..state }
}

/// Every phase with every counter or none, with every number that says whether a packet may be repeated, and announced or not: also
/// those that no stream leads to.
pub fn every_state(mode: u64) -> impl Iterator<Item = State> {
    let states = [BEGIN, STARTED, IGNORE_REST].into_iter().map(move |phase| State { mode, phase, ..State::FIRST });
    let states = states.flat_map(|state| (0..16).chain([NONE]).map(move |last| State { last, ..state }));
    let states = states.flat_map(|state| (0..=2).map(move |again| State { again, ..state }));
    states.flat_map(|state| (0..=1).map(move |announced| State { announced, ..state }))
}

/// What a run over a packet or none is to tell, where a step over it gives this number; or the number of the refusal.
fn ran(state: State, packets: &[u8], room: usize, number: u32) -> Result<Ran, u32> {
    if packets.len() % SIZE != 0 {
        return Err(1);
    }
    if !state.stands(room) {
        return Err(14);
    }
    Ok(match (packets.len() / SIZE, number) {
        (0, _) => Ran { packets: 0, ended: 0 },
        (_, 0) => Ran { packets: 1, ended: 0 },
        (_, ended) => Ran { packets: 0, ended },
    })
}

/// Numbers of each position of a row. The number of the standard mode, which is not among those of modes, has its own comparison.
const MODES: [u64; 5] = [CRATE, 2, 256, 1 + (1 << 32), u64::MAX];
const PHASES: [u64; 10] = [0, 1, 2, 3, 255, 256, 1 << 32, 1 + (1 << 32), 1 << 63, u64::MAX];
const COUNTERS: [u64; 11] = [0, 15, 16, 254, 255, 256, 1 << 32, 15 + (1 << 32), 255 + (1 << 32), 1 << 63, u64::MAX];
const TAKEN: [u64; 7] = [0, MOST_TAKEN - 1, MOST_TAKEN, MOST_TAKEN + 1, 1 + (1 << 32), 1 << 63, u64::MAX];
const PLACES: [usize; 8] = [0, ENTRY, ENTRY - 1, LONGEST_LOG + ENTRY, 1 << 32, 1 << 63, usize::MAX - 7, usize::MAX];

/// Those that say whether a packet may be repeated and whether the stream was announced, in pairs: where one stands for nothing, the
/// other stands for something.
const AGAIN_AND_ANNOUNCED: [(u64, u64); 14] = [
    (0, 0),
    (0, 1),
    (1, 0),
    (1, 1),
    (2, 0),
    (2, 1),
    (3, 0),
    (1 + (1 << 32), 1),
    (u64::MAX, 0),
    (0, 2),
    (1, 3),
    (2, 256),
    (0, 1 + (1 << 32)),
    (1, u64::MAX),
];

/// Each of those with each other, and with these modes.
fn every_row(modes: &[u64]) -> impl Iterator<Item = State> + '_ {
    let states = modes.iter().flat_map(|&mode| {
        AGAIN_AND_ANNOUNCED.map(|(again, announced)| State { mode, again, announced, ..State::FIRST })
    });
    let states = states.flat_map(|state| PHASES.map(|phase| State { phase, ..state }));
    let states = states.flat_map(|state| COUNTERS.map(|last| State { last, ..state }));
    let states = states.flat_map(|state| TAKEN.map(|taken| State { taken, ..state }));
    states.flat_map(|state| PLACES.map(|place| State { place, ..state }))
}

// ---- Packets.

/// Lengths of an adaptation field: payloads of 183 bytes and 182, of 6 bytes and 5 (a head or not), of 1, of 0, and less than that.
const LENGTHS: [u8; 10] = [0, 1, 100, 177, 178, 181, 182, 183, 184, 255];

/// What a payload begins with: a head, and one that is nearly a head.
pub const HEAD: [u8; 6] = [0x00, 0x00, 0x01, 0xe0, 0x00, 0x00];
pub const NO_HEAD: [u8; 6] = [0x00, 0x00, 0x00, 0xe0, 0x00, 0x00];

/// A packet with these four bytes after the sync byte, and with what its payload begins with, as far as it has one.
pub fn packet(header: [u8; 4], head: [u8; 6]) -> [u8; SIZE] {
    let mut packet = [0xff; SIZE];
    packet[0] = Packet::SYNC_BYTE;
    packet[1..5].copy_from_slice(&header);
    set_head(&mut packet, head);
    packet
}

/// Writes this where the payload begins, as far as the packet goes.
pub fn set_head(packet: &mut [u8], head: [u8; 6]) {
    let at = payload_at(packet);
    packet.iter_mut().skip(at).zip(head).for_each(|(byte, of_head)| *byte = of_head);
}

/// Where a payload would begin.
pub fn payload_at(packet: &[u8]) -> usize {
    if packet[3] & 0x20 != 0 {
        5 + usize::from(packet[4])
    } else {
        4
    }
}

/// Packets with no event, with one and with two, and one that goes on with a unit, in a state with no last counter or with 15. After
/// 15 the last two are breaks, of one event and of two, or repeats. In the standard mode all but the first and the fourth may have one
/// event more.
fn by_events() -> [[u8; SIZE]; 6] {
    [
        packet([0x00, 0x00, 0x0f, 0xff], NO_HEAD),
        packet([0x40, 0x00, 0x10, 0xff], NO_HEAD),
        packet([0x40, 0x00, 0x10, 0xff], HEAD),
        packet([0x00, 0x00, 0x10, 0xff], NO_HEAD),
        packet([0x00, 0x00, 0x1f, 0xff], NO_HEAD),
        packet([0x40, 0x00, 0x1f, 0xff], HEAD),
    ]
}

/// The packet, without its sync byte, and with lengths that no packet has, with and without the sync byte.
fn every_packet_fault(packet: &[u8; SIZE]) -> Vec<Vec<u8>> {
    let lost = [&[0x46], &packet[1..]].concat();
    let long = [&packet[..], &[0x47]].concat();
    vec![packet.to_vec(), lost.clone(), vec![], packet[..SIZE - 1].to_vec(), lost[..SIZE - 1].to_vec(), long]
}

// ---- Entries of the log.

/// What an out number holds before a call: no answer.
const HELD: u64 = 0xa5a5_a5a5_a5a5_a5a5;

pub struct Entries {
    tally: Tally,
    log: Lent,
}

impl Entries {
    pub fn new() -> Entries {
        Entries { tally: Tally::new("event_log::entry_at", &[0, 14]), log: Lent::new(LONGEST_LOG) }
    }

    /// Reads an entry; what it is to be the driver decodes itself.
    pub fn read(&mut self, log: &[u8], at: usize, guard: u8) {
        self.log.set(log, guard);
        let expected = match log.get(at..).and_then(<[u8]>::first_chunk).filter(|_| at % ENTRY == 0) {
            Some(entry) => entry_answer(*entry),
            None => Answer::refused(14, &[]),
        };
        let mut outs = [HELD; 4];
        let word = log_entry_at(self.log.slice(), at, &mut outs);
        let given = Given { word, held: &[HELD; 4], outs: &outs, unchanged: self.log.unchanged() };
        self.tally.take(&expected, &given, || format!("[{}] at {at}", hex(log)));
    }
}

pub fn entry_answer(entry: [u8; ENTRY]) -> Answer {
    decoded(entry).map_or(Answer::refused(14, &[]), |values| Answer::done(&values))
}

/// What logs repeat: an entry; then bytes that are one from every even place on, and from every odd place on, so that nothing but the
/// place is wrong there.
const LOGS: [[u8; ENTRY]; 3] = [
    [0x2f, 0xff, 0xff, 0xff, 0xf4, 0xb8, 0x00, 0x00],
    [0x20, 0x00, 0x10, 0x00, 0x30, 0x00, 0x40, 0x00],
    [0x00, 0x20, 0x00, 0x10, 0x00, 0x30, 0x00, 0x40],
];

/// Every kind with every value of the bits that have to be clear, each bit of an entry alone, every place in logs of every length,
/// and random bits.
fn compare_entries(rng: &mut Rng) -> Tally {
    let mut entries = Entries::new();
    for (kind, low) in (0..16).flat_map(|kind| (0..4096).map(move |low| (kind, low))) {
        let bits = rng.next() >> 16 << 12 & u64::MAX >> 4 | kind << 60;
        [low, 0].into_iter().for_each(|low| entries.read(&(bits | low).to_be_bytes(), 0, rng.next() as u8));
    }
    for bit in 0..64 {
        (0..16_u64).for_each(|kind| entries.read(&(kind << 60 | 1 << bit).to_be_bytes(), 0, 0xff));
    }
    for (log, len) in
        LOGS.into_iter().flat_map(|entry| (0..=LONGEST_LOG).map(move |len| ([entry; LONGEST_LOG / ENTRY], len)))
    {
        let far = [1 << 32, 1 << 63, usize::MAX - 15, usize::MAX - 8, usize::MAX - 7, usize::MAX];
        (0..=LONGEST_LOG + ENTRY).chain(far).for_each(|at| entries.read(&log.as_flattened()[..len], at, 0x00));
    }
    (0..100_000).for_each(|_| entries.read(&rng.next().to_be_bytes(), 0, 0xff));
    entries.tally
}
