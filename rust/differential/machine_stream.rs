//! Streams through the event machine, made at random and real: every event, every state and every byte of the log. In the standard
//! mode they are judged by its rules, for standard_stream.rs.

use crate::consumer::{Oracle, SIZE};
use crate::event::{self, ENTRY};
use crate::files::Files;
use crate::host_machine::{log_entry_at, State, IGNORE_REST, MOST_TAKEN, STARTED};
use crate::lent::Lent;
use crate::machine::{by_rules, entry_answer, next, oracle_in, set_head, Call, Ran, Runs, MOST_ENTRIES};
use crate::rng::Rng;
use crate::rules::Happened;
use crate::standard_stream::Standard;
use crate::tally::{grouped, report, Tally};
use mpeg2ts_reader::packet::Packet;
use std::time::Instant;

/// The most packets of a random stream.
const MOST: usize = 4096;

/// The most bytes of the log of a step: the host is taken to begin it anew when it is full.
const STEP_LOG: usize = 72;

/// The packets that are always compared: enough for every number.
const ALWAYS: usize = 100_000;

/// Compares on random streams of so many packets more than are always compared. The first runs out of indices.
pub fn compare_random(count: u64, rng: &mut Rng) -> Vec<Tally> {
    let mut walk = Walk::new("streams", MOST, [&[0, 15, 16], &[0, 1, 14], &[0, 2, 15, 16], &[0]]);
    let mut packets = vec![0; MOST * SIZE];
    rng.fill(&mut packets);
    make_stream(&mut packets, rng);
    walk.stream(&packets, State { taken: MOST_TAKEN - MOST as u64 / 2, ..State::FIRST }, rng);
    let mut left = ALWAYS + count as usize;
    while left > 0 {
        let stream = &mut packets[..SIZE * (1 + rng.below(MOST)).min(left)];
        left -= stream.len() / SIZE;
        make_stream(stream, rng);
        let (again, announced) = (rng.below(3) as u64, rng.below(2) as u64);
        let taken = random_taken(stream.len() / SIZE, rng);
        walk.stream(stream, State { again, announced, taken, ..State::FIRST }, rng);
    }
    walk.say_taken("machine");
    walk.into_tallies()
}

/// Compares on each file, a machine for each PID, and on a damaged copy of it; in the crate's mode, and in the standard mode with each
/// packet sent once and twice. Prints a line for each file, each copy and each function, and for all.
pub fn compare_files(files: &[String]) -> bool {
    let began = Instant::now();
    let Some(files) = Files::read(files) else { return false };
    let mut walk = Walk::new("streams", files.most(), [&[]; 4]);
    let mut standard = Standard::new(2 * files.most(), [&[]; 4]);
    files.each(|stream, rng| {
        walk.stream(stream, State::FIRST, rng);
        standard.recording(stream, rng);
    });
    walk.say_taken("machine");
    standard.say_taken();
    let mut tallies = walk.into_tallies();
    tallies.extend(standard.into_tallies());
    report("events", began, &tallies)
}

// ---- What the judge of its mode tells of a stream.

pub struct Told {
    first: State,
    /// The state after each packet.
    after: Vec<State>,
    /// The log of them all.
    log: Vec<u8>,
}

impl Told {
    /// By the oracle; by the rules in the standard mode, and where the oracle cannot be brought to the first state.
    pub fn new(first: State, packets: &[u8]) -> Told {
        let mut oracle = oracle_in(first);
        Told::by(first, packets, |state, packet| match &mut oracle {
            Some(oracle) => heard(oracle, state, packet),
            None => by_rules(state, packet),
        })
    }

    /// By what each packet does in the state before it. Of as many packets as there are indices left.
    pub fn by(first: State, packets: &[u8], mut happened: impl FnMut(State, &[u8]) -> Happened) -> Told {
        let count = packets.len() / SIZE;
        let mut told = Told { first, after: Vec::with_capacity(count), log: Vec::with_capacity(longest_log(count)) };
        let mut state = first;
        for packet in packets.chunks_exact(SIZE).take((MOST_TAKEN - first.taken) as usize) {
            let happened = happened(state, packet);
            happened.events.iter().for_each(|event| told.log.extend_from_slice(&event.entry(state.taken as u32)));
            state = next(state, &happened);
            told.after.push(state);
        }
        told
    }

    /// How many packets it is of.
    pub fn count(&self) -> usize {
        self.after.len()
    }

    /// The state before a packet, or after the last one.
    pub fn before(&self, nth: usize) -> State {
        nth.checked_sub(1).map_or(self.first, |before| self.after[before])
    }

    /// The entries of some packets.
    pub fn entries(&self, from: usize, count: usize) -> &[u8] {
        &self.log[self.before(from).place..self.before(from + count).place]
    }
}

/// The most bytes that the entries of so many packets take. A packet has two at most, and once in a stream three.
pub fn longest_log(count: usize) -> usize {
    (2 * count + 1) * ENTRY
}

/// What the oracle does with the next packet. It keeps its phase to itself. It is what a break and the start flag make it; single steps
/// look for it.
fn heard(oracle: &mut Oracle, state: State, packet: &[u8]) -> Happened {
    let (events, packet) = (oracle.consume(packet), Packet::new(packet));
    let phase = if packet.payload_unit_start_indicator() {
        STARTED
    } else if events.has(event::ERROR) {
        IGNORE_REST
    } else {
        state.phase
    };
    let (last, again) = (packet.continuity_counter().count(), packet.adaptation_control().has_payload());
    Happened { events, phase, last: last.into(), again: again.into() }
}

// ---- A stream, by steps and by runs.

pub struct Walk {
    step: Tally,
    runs: Runs,
    entry_at: Tally,
    packets: Lent,
    step_log: Lent,
    log: Lent,
    filling: Vec<u8>,
    /// The packets taken, each by a step and again by a run.
    taken: u64,
}

/// What a run is over, and with how much of the log.
struct Piece {
    from: usize,
    count: usize,
    /// Bytes of the packet after them: too few for one.
    tail: usize,
    state: State,
    /// A packet that lost its sync byte.
    lost: Option<usize>,
    room: usize,
}

impl Walk {
    /// The name of what is gone over; room for streams of so many packets; the numbers that have to be among the answers, and after
    /// those of runs the numbers that have to be among their ends.
    pub fn new(name: &str, most: usize, [step, run, ended, entry_at]: [&'static [usize]; 4]) -> Walk {
        let log = longest_log(most) + STEP_LOG;
        let mut filling = vec![0; log];
        Rng::new(most as u64).fill(&mut filling);
        Walk {
            step: Tally::new(&format!("machine::step, {name}"), step),
            runs: Runs::new(&format!("machine::run, {name}"), [run, ended]),
            entry_at: Tally::new(&format!("event_log::entry_at, {name}"), entry_at),
            packets: Lent::new(most * SIZE),
            step_log: Lent::new(STEP_LOG),
            log: Lent::new(log),
            filling,
            taken: 0,
        }
    }

    /// Goes over a stream, and gives what it is held against.
    pub fn stream(&mut self, packets: &[u8], first: State, rng: &mut Rng) -> Told {
        let told = Told::new(first, packets);
        self.told(packets, &told, rng);
        told
    }

    /// Goes over a stream of which this is told.
    pub fn told(&mut self, packets: &[u8], told: &Told, rng: &mut Rng) {
        self.packets.set(packets, rng.next() as u8);
        self.steps(told, rng);
        self.runs(told, rng);
        self.entries(told);
        self.taken += told.count() as u64;
    }

    /// The same by one run, where no index and no room is lacking.
    pub fn one_run(&mut self, packets: &[u8], told: &Told, rng: &mut Rng) {
        self.packets.set(packets, rng.next() as u8);
        self.log.set(&self.filling[..told.log.len()], rng.next() as u8);
        let (count, room) = (self.count(), self.log.len());
        let whole = Piece { from: 0, count, tail: 0, state: told.first, lost: None, room };
        self.run(told, &whole, Ok(Ran { packets: count, ended: 0 }));
    }

    fn count(&self) -> usize {
        self.packets.len() / SIZE
    }

    fn steps(&mut self, told: &Told, rng: &mut Rng) {
        let room = MOST_ENTRIES + rng.below(STEP_LOG - MOST_ENTRIES);
        self.step_log.set(&self.filling[..room], rng.next() as u8);
        let mut place = 0;
        for nth in 0..self.count() {
            let before = State { place, ..told.before(nth) };
            let Some(&after) = told.after.get(nth) else { return self.step(nth, before, 16, before) };
            let entries = told.entries(nth, 1);
            if room - place < entries.len() {
                self.step(nth, before, 15, before);
                place = 0;
            }
            self.step_log.expect(place, entries);
            let before = State { place, ..before };
            place += entries.len();
            self.step(nth, before, 0, State { place, ..after });
        }
    }

    fn step(&mut self, nth: usize, state: State, number: u32, after: State) {
        let (part, room) = (nth * SIZE..(nth + 1) * SIZE, self.step_log.len());
        let call = Call { state, packets: &mut self.packets, part, log: &mut self.step_log, room };
        call.step(&mut self.step, number, after);
    }

    fn runs(&mut self, told: &Told, rng: &mut Rng) {
        self.log.set(&self.filling[..told.log.len() + rng.below(STEP_LOG)], rng.next() as u8);
        let mut from = 0;
        while from < self.count() {
            let piece = self.piece(told, from, rng);
            let ran = piece.outcome(told);
            self.run(told, &piece, ran);
            from += ran.map_or(0, |ran| ran.packets);
            if ran.is_ok_and(|ran| ran.ended == 16) {
                return;
            }
        }
    }

    fn run(&mut self, told: &Told, piece: &Piece, ran: Result<Ran, u32>) {
        let taken = ran.map_or(0, |ran| ran.packets);
        let after = if taken == 0 { piece.state } else { told.before(piece.from + taken) };
        self.log.expect(told.before(piece.from).place, told.entries(piece.from, taken));
        let end = (piece.from + piece.count) * SIZE + piece.tail;
        let (state, part, room) = (piece.state, piece.from * SIZE..end, piece.room);
        piece.lost.into_iter().for_each(|lost| self.packets.put(lost * SIZE, 0xb8));
        let call = Call { state, packets: &mut self.packets, part, log: &mut self.log, room };
        call.run(&mut self.runs, ran, after);
        piece.lost.into_iter().for_each(|lost| self.packets.put(lost * SIZE, Packet::SYNC_BYTE));
    }

    /// Up to 512 packets, or none. Of sixteen pieces one has a packet without its sync byte, three have a log that may be full before
    /// the end, one a log that ends before the place, and two begin in a state that is none; one of these, and one more, have bytes
    /// after the packets.
    fn piece(&self, told: &Told, from: usize, rng: &mut Rng) -> Piece {
        let count = rng.below((self.count() - from).min(512) + 1);
        let state = told.before(from);
        let mut piece = Piece { from, count, tail: 0, state, lost: None, room: self.log.len() };
        let choice = rng.below(16);
        match choice {
            0 => piece.lost = (count > 0).then(|| from + rng.below(count)),
            1..=3 => piece.room = piece.room.min(state.place + rng.below(ENTRY * count + 1)),
            4 => piece.room = rng.below(state.place + 1),
            5 | 6 => piece.state = no_state(state, rng),
            _ => (),
        }
        if choice == 6 || choice == 7 {
            piece.tail = rng.below(SIZE).min(self.packets.len() - (from + count) * SIZE);
        }
        piece
    }

    /// Reads every entry back.
    fn entries(&mut self, told: &Told) {
        for (nth, entry) in told.log.chunks_exact(ENTRY).enumerate() {
            let entry = entry_answer(entry.try_into().expect("the bytes of an entry"));
            let log = self.log.slice();
            self.entry_at.call(&entry, |outs| log_entry_at(log, nth * ENTRY, outs), || format!("entry {nth}"));
        }
    }

    /// How many packets were taken.
    pub fn taken(&self) -> u64 {
        self.taken
    }

    /// Prints that, for a module.
    pub fn say_taken(&self, module: &str) {
        println!("{module}: {} packets of streams taken, each by a step and again by a run", grouped(self.taken));
    }

    pub fn into_tallies(self) -> Vec<Tally> {
        [self.step].into_iter().chain(self.runs.into_tallies()).chain([self.entry_at]).collect()
    }
}

impl Piece {
    /// What the run is to tell, or the number that it is refused with.
    fn outcome(&self, told: &Told) -> Result<Ran, u32> {
        if self.tail != 0 {
            return Err(1);
        }
        if !self.state.stands(self.room) {
            return Err(14);
        }
        let refusals = (self.from..self.from + self.count).map(|nth| self.refusal(told, nth));
        let refused = refusals.enumerate().find(|(_, number)| *number != 0);
        let (packets, ended) = refused.unwrap_or((self.count, 0));
        Ok(Ran { packets, ended })
    }

    /// The number for a packet, where those before it are taken.
    fn refusal(&self, told: &Told, nth: usize) -> u32 {
        if self.lost == Some(nth) {
            return 2;
        }
        match told.after.get(nth) {
            None => 16,
            Some(after) if after.place > self.room => 15,
            Some(_) => 0,
        }
    }
}

/// A state that is none, by one of its numbers. Of some the lower bits are those of the state.
fn no_state(state: State, rng: &mut Rng) -> State {
    let far = 1 << [8, 16, 32, 63][rng.below(4)];
    match rng.below(13) {
        0 => State { mode: 2 + rng.below(254) as u64, ..state },
        1 => State { mode: state.mode + far, ..state },
        2 => State { phase: 3 + rng.below(253) as u64, ..state },
        3 => State { phase: state.phase + far, ..state },
        4 => State { last: 16 + rng.below(239) as u64, ..state },
        5 => State { last: state.last + far, ..state },
        6 => State { again: 3 + rng.below(253) as u64, ..state },
        7 => State { again: state.again + far, ..state },
        8 => State { announced: 2 + rng.below(254) as u64, ..state },
        9 => State { announced: state.announced + far, ..state },
        10 => State { taken: state.taken + (1 << 32), ..state },
        11 => State { place: state.place + 1 + rng.below(7), ..state },
        _ => State { place: usize::MAX - 7, ..state },
    }
}

// ---- Random streams.

/// What a payload begins with at a start: mostly a head.
const HEADS: [[u8; 3]; 8] = [[0, 0, 1], [0, 0, 1], [0, 0, 1], [0, 0, 1], [0, 0, 1], [0, 0, 0], [0, 1, 1], [1, 0, 1]];

const LENGTHS: [u8; 8] = [0, 1, 177, 178, 182, 183, 184, 255];

/// Gives each packet a header of its own, and most of those with the start flag a head; the other bytes stay.
pub fn make_stream(packets: &mut [u8], rng: &mut Rng) {
    packets.chunks_exact_mut(SIZE).fold(0, |last, packet| make_packet(packet, last, rng));
}

/// The same of one packet, after one with this counter. Gives its counter.
pub fn make_packet(packet: &mut [u8], last: u8, rng: &mut Rng) -> u8 {
    let (random, choice) = (rng.next().to_le_bytes(), rng.next());
    let start = if choice & 3 == 0 { 0x40 } else { 0 };
    let control = random_control(random[2], choice >> 2);
    let counter = random_counter(last, control, random[3], choice >> 8);
    packet[0] = Packet::SYNC_BYTE;
    packet[1] = start | random[0] & 0xbf;
    packet[2] = random[1];
    packet[3] = control & 0xf0 | counter;
    packet[4] = random_length(random[4], choice >> 16);
    let [a, b, c] = HEADS[(choice >> 24 & 7) as usize];
    if start != 0 {
        set_head(packet, [a, b, c, random[5], random[6], random[7]]);
    }
    counter
}

/// Of sixteen packets, one with any control bits, one with an adaptation field only, one with neither, four with both.
fn random_control(random: u8, choice: u64) -> u8 {
    match choice & 15 {
        0 => random,
        1 => random & 0xc0 | 0x20,
        2 => random & 0xc0,
        3..=6 => 0x30,
        _ => 0x10,
    }
}

/// Mostly the counter that is due. Of 32 packets, one repeats the last, one is one too far and one has any.
fn random_counter(last: u8, control: u8, random: u8, choice: u64) -> u8 {
    let due = last + (control >> 4 & 1);
    let counter = match choice & 31 {
        0 => random,
        1 => last,
        2 => due + 1,
        _ => due,
    };
    counter & 0x0f
}

/// A quarter around each bound, a quarter of any length, half short enough for a payload.
fn random_length(random: u8, choice: u64) -> u8 {
    match choice & 3 {
        0 => LENGTHS[usize::from(random % 8)],
        1 => random,
        _ => random % 183,
    }
}

/// Mostly few; of four streams one has the largest index at its end or runs out of them.
pub fn random_taken(count: usize, rng: &mut Rng) -> u64 {
    match rng.below(8) {
        0 => MOST_TAKEN - count as u64,
        1 => MOST_TAKEN - rng.below(count + 1) as u64,
        2 => rng.next() >> 33,
        _ => 0,
    }
}
