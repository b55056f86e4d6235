//! What an input stands for. Its first byte says of which kind it is, the next two are the seed of what is random; then come the
//! numbers of its kind, and bytes.

use crate::consumer::SIZE;
use crate::event::Event;
use crate::host_gather::Gathering;
use crate::host_machine::{State, NONE, STANDARD};
use crate::host_writer::Unit;
use crate::input::Input;
use crate::reading::Readings;
use crate::rng::Rng;
use crate::standard_stream::Standard;
use crate::writer::Case;
use crate::{adaptation, contents, control, gather, gather_stream, head, machine, machine_stream, packet, stream};
use crate::{timestamp, writer};
use mpeg2ts_reader::packet::Packet;

/// The most packets of an input, and the longest slice.
const PACKETS: usize = 16;
const LONGEST: usize = 300;

pub struct Cases {
    /// Functions that read a slice.
    readings: [Readings; 7],
    readers: stream::Walk,
    events: machine_stream::Walk,
    standard_events: Standard,
    gathered: gather_stream::Walk,
    steps: machine::Cases,
    entries: machine::Entries,
    gathers: gather::Cases,
    units: writer::Cases,
}

impl Cases {
    pub fn new() -> Cases {
        let of = |readings| Readings::of_streams(readings, LONGEST);
        Cases {
            readings: [
                of(&timestamp::READINGS),
                of(&control::READINGS),
                of(&packet::READINGS).and_row(&packet::ROW),
                of(&adaptation::FIELD),
                of(&adaptation::EXTENSION),
                of(&head::READINGS).and_row(&head::ROW),
                of(&contents::READINGS).and_row(&contents::ROW),
            ],
            readers: stream::Walk::new(),
            events: machine_stream::Walk::new("streams", PACKETS, [&[]; 4]),
            standard_events: Standard::new(PACKETS, [&[]; 4]),
            gathered: gather_stream::Walk::new(PACKETS, [&[]; 3]),
            steps: machine::Cases::new(Rng::new(1)),
            entries: machine::Entries::new(),
            gathers: gather::Cases::new(Rng::new(1)),
            units: writer::Cases::new(Rng::new(1)),
        }
    }

    /// Every input is one: what it has too much is left, and what it lacks is zero.
    pub fn compare(&mut self, bytes: &[u8]) {
        let mut input = Input(bytes);
        let (kind, rng) = (input.byte(), Rng::new(input.short().into()));
        match kind % 8 {
            0 => self.packets(input),
            1 => self.stream(input, rng),
            2 => self.slice(input, rng),
            3 => self.step(input, rng),
            4 => self.gather(input, rng),
            5 => self.unit(input, rng),
            6 => self.entry(input),
            _ => numbers(input),
        }
    }

    /// Packets, with or without their sync bytes, and what they carry: each through every reading.
    fn packets(&mut self, input: Input) {
        let packets = input.rest(PACKETS * SIZE).chunks(SIZE);
        packets.zip(0..).for_each(|(packet, guard)| self.readers.packet(packet, guard));
    }

    /// Whole packets of one stream, through the machine in one of its modes, from any state, and the store. They are given their sync
    /// bytes: the walk takes some away.
    fn stream(&mut self, mut input: Input, mut rng: Rng) {
        let first = state(&mut input);
        let mut packets = input.rest(PACKETS * SIZE).to_vec();
        packets.truncate(packets.len() / SIZE * SIZE);
        packets.iter_mut().step_by(SIZE).for_each(|byte| *byte = Packet::SYNC_BYTE);
        match first.mode {
            STANDARD => self.standard_events.stream_and_twice(&packets, first, &mut rng),
            _ => _ = self.events.stream(&packets, first, &mut rng),
        }
        self.gathered.stream(&packets, &mut rng);
    }

    /// A slice of any length, through the readings of one module.
    fn slice(&mut self, mut input: Input, mut rng: Rng) {
        let module = usize::from(input.byte()) % self.readings.len();
        self.readings[module].compare(input.rest(LONGEST), rng.next() as u8);
    }

    /// One packet with any row for a state and a log of any length, by a step and by a run.
    fn step(&mut self, mut input: Input, rng: Rng) {
        let [mode, phase, last, again, announced, taken, place] = [(); 7].map(|()| input.long());
        let state = State { mode, phase, last, again, announced, taken, place: place as usize };
        let room = usize::from(input.byte()) % (machine::LONGEST_LOG + 1);
        self.steps.rng = rng;
        self.steps.take(state, input.rest(machine::LONGEST_PACKET), room);
    }

    /// One event with any row for a state and a store of any length.
    fn gather(&mut self, mut input: Input, rng: Rng) {
        let state = Gathering { opened: input.long(), count: input.long() as usize, lies: input.long() };
        let [kind, place, length] = [input.byte(), input.byte(), input.byte()].map(u64::from);
        let room = usize::from(input.short()) % (gather::LARGEST + 1);
        self.gathers.rng = rng;
        self.gathers.take(state, input.rest(gather::LONGEST), Event { kind, place, length }, room);
    }

    /// A unit: mostly of a few packets, as a long one takes long.
    fn unit(&mut self, mut input: Input, rng: Rng) {
        let size = match (input.byte(), input.word() as usize) {
            (0..250, size) => size % (4 * SIZE),
            (_, size) => size % (writer::LONGEST + 1),
        };
        let beside = match input.short() as i16 {
            beside @ ..0 => isize::from(beside),
            beside => isize::from(beside) % (2 * SIZE as isize),
        };
        self.units.rng = rng;
        self.units.write(&Case { unit: unit(&mut input), size, beside });
    }

    /// An entry of a log, at any place.
    fn entry(&mut self, mut input: Input) {
        let (at, guard) = (input.long() as usize, input.byte());
        self.entries.read(input.rest(machine::LONGEST_LOG), at, guard);
    }
}

/// A state by a byte for each number but the last two: the mode, the phase, the counter, with any byte above 15 for none, whether the
/// packet before may be repeated, and whether the stream was announced; then the packets taken. The log is empty.
fn state(input: &mut Input) -> State {
    let [mode, phase, last, again, announced] = [(); 5].map(|()| u64::from(input.byte()));
    let (mode, phase, again, announced) = (mode % 2, phase % 3, again % 3, announced % 2);
    let last = if last < 16 { last } else { NONE };
    State { mode, phase, last, again, announced, taken: input.word().into(), place: 0 }
}

/// A unit by its row.
fn unit(input: &mut Input) -> Unit {
    let mut unit = Unit { pid: input.short(), counter: input.byte(), ..Unit::default() };
    unit.numbers().iter_mut().for_each(|number| *number = input.long());
    unit
}

/// The functions on numbers.
fn numbers(mut input: Input) {
    let (a, b, c, d) = (input.long(), input.short(), input.long(), input.short());
    let [byte, other] = b.to_be_bytes();
    timestamp::FROM_U64.compare([a].into_iter());
    timestamp::WRAPPED.compare([(a, c)].into_iter());
    control::FROM_PARTS.compare([(a, b)].into_iter());
    control::INTO_U64.compare([(a, b)].into_iter());
    control::EQ.compare([((a, b), (c, d))].into_iter());
    control::COUNTER.compare([byte].into_iter());
    control::FOLLOWS.compare([(byte, other)].into_iter());
    control::COMPARE.compare([(byte, other)].into_iter());
    control::PID.compare([b].into_iter());
    control::PID_TRIED.compare([b].into_iter());
    control::ADAPTATION_CONTROL.compare([byte].into_iter());
    control::SCRAMBLING_CONTROL.compare([byte].into_iter());
    packet::IS_SYNC_BYTE.compare([byte].into_iter());
    contents::RATE.compare([c as u32].into_iter());
    contents::RATE_BYTES.compare([c as u32].into_iter());
}
