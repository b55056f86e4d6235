//! What the library wrote, read back.

use crate::answer::Answer;
use crate::consumer::{Oracle, SIZE};
use crate::event::{self, Event, ENTRY};
use crate::gatherer::Gatherer;
use crate::host_machine::{State, BEGIN, CRATE, IGNORE_REST, NONE, STANDARD, STARTED};
use crate::host_writer::Unit;
use crate::lent::Lent;
use crate::machine::{Call, Ran, Runs};
use crate::reading::Reading;
use crate::rng::Rng;
use crate::tally::{hex, Tally};
use crate::unit::CARRIED;
use crate::{contents, head, packet};
use mpeg2ts_reader::packet::Packet;

/// The bytes of a PES packet's head.
const HEAD: usize = 6;

pub struct Written<'a> {
    pub unit: &'a Unit,
    pub payload: &'a [u8],
    /// The packets, at the front of the output.
    pub packets: &'a mut Lent,
    pub count: usize,
}

impl Written<'_> {
    fn bytes(&mut self) -> &[u8] {
        &self.packets.slice()[..self.count * SIZE]
    }

    fn packet(&mut self, nth: usize) -> &[u8] {
        &self.packets.slice()[nth * SIZE..][..SIZE]
    }

    /// How many bytes a packet carries.
    fn carried(&self, nth: usize) -> usize {
        self.unit.carried(self.payload.len(), nth)
    }

    /// The event of a packet with the bytes that it carries, at its end.
    fn part(&self, nth: usize) -> Event {
        let (kind, length) = (if nth == 0 { event::BEGIN } else { event::CONTINUE }, self.carried(nth));
        Event { kind, place: (SIZE - length) as u64, length: length as u64 }
    }

    /// The events of a packet, where the first comes in this state.
    fn events(&self, state: State, nth: usize) -> impl Iterator<Item = Event> {
        let start = nth == 0 && announces(state);
        let end = nth == 0 && state.phase == STARTED;
        let lead = [(start, event::START), (end, event::END)].into_iter().filter(|(comes, _)| *comes);
        lead.map(|(_, kind)| Event::bare(kind)).chain([self.part(nth)])
    }

    fn text(&self) -> String {
        format!("{:?} with {} bytes of payload", self.unit, self.payload.len())
    }
}

/// Whether a start that is no break announces the stream: in the crate's mode by the phase, in the standard mode if it was not yet.
fn announces(state: State) -> bool {
    match state.mode {
        STANDARD => state.announced == 0,
        _ => state.phase == BEGIN,
    }
}

pub struct ReadBack {
    packets: Tally,
    fields: Tally,
    payload: Tally,
    events: Tally,
    runs: Runs,
    log: Lent,
    filling: Vec<u8>,
}

impl ReadBack {
    /// Of units with up to so many bytes of payload.
    pub fn new(most: usize) -> ReadBack {
        let room = ENTRY * (most / CARRIED + 5);
        let mut filling = vec![0; room];
        Rng::new(most as u64).fill(&mut filling);
        ReadBack {
            packets: Tally::of_bytes("writer::write, read by the Rust: every field of each packet", &[0, 9]),
            fields: Tally::of_bytes("writer::write, read by the Rust: every field of the header", &[0, 9]),
            payload: Tally::of_bytes("writer::write, gathered by the Rust: one unit, the payload", &[0]),
            events: Tally::of_bytes("writer::write, read by the Rust's machine: the events", &[0]),
            runs: Runs::new("machine::run, over packets written", [&[0], &[0]]),
            log: Lent::new(room),
            filling,
        }
    }

    /// Where a sync byte is missing, the oracle takes no packets, and a difference has been seen.
    pub fn read(&mut self, mut written: Written, rng: &mut Rng) {
        if written.bytes().iter().step_by(SIZE).any(|byte| *byte != Packet::SYNC_BYTE) {
            return;
        }
        self.read_packets(&mut written);
        self.read_header(&mut written);
        self.gather(&mut written);
        let before = u64::from(written.unit.counter.wrapping_sub(1) % 16);
        for (phase, last) in
            [BEGIN, STARTED, IGNORE_REST].into_iter().flat_map(|phase| [(phase, NONE), (phase, before)])
        {
            self.read_events(&mut written, State { phase, last, ..State::FIRST });
            for mode in [CRATE, STANDARD] {
                let (again, announced) = (rng.below(3) as u64, rng.below(2) as u64);
                let taken = rng.next() >> 33;
                self.run(&mut written, State { mode, phase, last, again, announced, taken, place: 0 }, rng);
            }
        }
    }

    fn read_packets(&mut self, written: &mut Written) {
        for nth in 0..written.count {
            let unit = written.unit;
            let expected = packet_answers(unit, nth, written.carried(nth));
            compare(&mut self.packets, &packet::READINGS, &expected, written.packet(nth), unit);
        }
    }

    fn read_header(&mut self, written: &mut Written) {
        let (unit, size, carried) = (written.unit, written.payload.len(), written.carried(0));
        let header = &written.packet(0)[SIZE - carried..];
        let of_head = head_answers(unit, size, carried);
        compare(&mut self.fields, &head::READINGS, &of_head, header, unit);
        let of_contents = contents_answers(unit, carried - HEAD);
        compare(&mut self.fields, &contents::READINGS, &of_contents, &header[HEAD..], unit);
    }

    /// One unit is begun, and its bytes are the payload.
    fn gather(&mut self, written: &mut Written) {
        let mut oracle = Oracle::heard_by(Gatherer::new(written.payload.len()));
        written.bytes().chunks_exact(SIZE).for_each(|packet| oracle.take(packet));
        let unit = oracle.listener();
        let agrees = unit.open && unit.begun == 1 && unit.bytes == written.payload;
        let given = || format!("{} bytes of {} units", unit.bytes.len(), unit.begun);
        self.payload.take_check(&Answer::done(&[]), agrees, || written.text(), given);
    }

    /// From a state that the oracle can be brought to: no other events.
    fn read_events(&mut self, written: &mut Written, state: State) {
        let State { phase, last, .. } = state;
        let Some(mut oracle) = Oracle::brought_to(phase, last) else { return };
        let odd = (0..written.count).find(|&nth| {
            let events = oracle.consume(written.packet(nth));
            !events.iter().copied().eq(written.events(state, nth))
        });
        let input = || format!("{} in phase {phase} after {last}", written.text());
        self.events.take_check(&Answer::done(&[]), odd.is_none(), input, || format!("others at packet {odd:?}"));
    }

    /// The library's machine writes these events to its log, in both modes: no packet repeats another, and none has the discontinuity
    /// bit. Each has a payload, so that after the last a repeat may come.
    fn run(&mut self, written: &mut Written, state: State, rng: &mut Rng) {
        let mut after = State { phase: STARTED, again: 1, taken: state.taken + written.count as u64, ..state };
        after.last = (u64::from(written.unit.counter) + written.count as u64 - 1) % 16;
        after.announced |= u64::from(announces(state));
        let room = ENTRY * (written.count + 2) + rng.below(ENTRY);
        self.log.set(&self.filling[..room], rng.next() as u8);
        for nth in 0..written.count {
            for event in written.events(state, nth) {
                self.log.expect(after.place, &event.entry(state.taken as u32 + nth as u32));
                after.place += ENTRY;
            }
        }
        let part = 0..written.count * SIZE;
        let call = Call { state, packets: written.packets, part, log: &mut self.log, room };
        call.run(&mut self.runs, Ok(Ran { packets: written.count, ended: 0 }), after);
    }

    pub fn into_tallies(self) -> [Tally; 6] {
        let [run, packets_of_run] = self.runs.into_tallies();
        [self.packets, self.fields, self.payload, self.events, run, packets_of_run]
    }
}

/// Compares what the oracle reads with what the unit says.
fn compare<const N: usize>(
    tally: &mut Tally,
    readings: &[Reading; N],
    expected: &[Answer; N],
    bytes: &[u8],
    unit: &Unit,
) {
    for (reading, expected) in readings.iter().zip(expected) {
        let answer = reading.oracle(bytes);
        let input = || format!("{} of [{}], {unit:?}", reading.name(), hex(bytes));
        tally.take_check(expected, answer == *expected, input, || answer.to_string());
    }
}

// ---- What a unit's packets are to be read as, in the order of the readings.

/// A flag is any number but 0.
fn flag(number: u64) -> Answer {
    Answer::value(number != 0)
}

/// Values where the field is there, else 9.
fn field(there: u64, values: &[u64]) -> Answer {
    match there {
        0 => Answer::refused(9, &[]),
        _ => Answer::done(values),
    }
}

/// A packet that carries so many bytes: the fields of its header, an adaptation field where it is not full, and the payload.
fn packet_answers(unit: &Unit, nth: usize, carried: usize) -> [Answer; 10] {
    let length = (CARRIED - carried) as u64; // of the adaptation field with its length byte
    [
        Answer::done(&[]),
        flag(0),
        Answer::value(nth == 0),
        flag(0),
        Answer::value(unit.pid),
        Answer::done(&[0, 0]),
        Answer::done(&[(length > 0).into(), 1]),
        Answer::value((u64::from(unit.counter) + nth as u64) % 16),
        field((length > 1).into(), &[5, length.wrapping_sub(1)]),
        Answer::done(&[(SIZE - carried) as u64, carried as u64]),
    ]
}

/// A head before so many bytes of payload, in a packet that carries so many bytes.
fn head_answers(unit: &Unit, size: usize, carried: usize) -> [Answer; 4] {
    let range = match unit.id {
        0xc0..=0xdf => 0xc0,
        0xe0..=0xef => 0xe0,
        id => id,
    };
    [
        Answer::done(&[]),
        Answer::done(&[range, unit.id - range]),
        Answer::done(&[(unit.bounded != 0).into(), unit.length(size) as u64]),
        Answer::done(&[1, HEAD as u64, (carried - HEAD) as u64]),
    ]
}

/// Contents of which the packet has so many bytes.
fn contents_answers(unit: &Unit, len: usize) -> [Answer; 17] {
    let there = [unit.escr_there, unit.rate_there, unit.trick_there, unit.copy_there, unit.crc_there];
    let flags = there.iter().fold([0, 2, 3][unit.times as usize], |bits, flag| bits << 1 | u8::from(*flag != 0));
    let times = match unit.times {
        0 | 1 => field(unit.times, &[1, 0, unit.pts, 0, 0]),
        _ => Answer::done(&[2, 0, unit.pts, 0, unit.dts]),
    };
    let payload = 3 + unit.data();
    [
        Answer::done(&[]),
        flag(unit.priority),
        flag(0),
        Answer::value(flags << 1),
        Answer::value(unit.data() as u64),
        flag(unit.alignment),
        flag(unit.copyright),
        flag(unit.original),
        times,
        field(unit.escr_there, &[unit.escr_base, unit.escr_extension]),
        field(unit.rate_there, &[unit.rate]),
        field(unit.trick_there, &trick(unit.trick)),
        field(unit.trick_there, &[unit.trick]),
        field(unit.copy_there, &[unit.copy]),
        field(unit.crc_there, &[unit.crc]),
        field(0, &[]),
        Answer::done(&[payload as u64, (len - payload) as u64]),
    ]
}

/// The oracle's mode of a trick mode byte, and what it gives with it.
fn trick(byte: u64) -> [u64; 4] {
    let (control, field_id) = (byte >> 5, byte >> 3 & 3);
    match control {
        0 | 3 => [control, field_id, byte >> 2 & 1, byte & 3],
        2 => [control, field_id, byte & 7, 0],
        1 | 4 => [control, control, 0, 0],
        _ => [5, control, 0, 0],
    }
}
