//! Clock references, counters, PIDs and the control bits of a packet's fourth byte: the small types of the oracle's packet.rs.

use crate::answer::Answer;
use crate::function::{around, compare_constants, Function};
use crate::host;
use crate::module::{Module, Plan};
use crate::panics;
use crate::reading::{self, Reading, Readings};
use crate::record::{self, Sample};
use crate::rng::Rng;
use crate::slice;
use crate::tally::Tally;
use crate::values;
use mpeg2ts_reader::packet::{ClockRef, ContinuityCounter, Packet, Pid};

pub const MODULE: Module = Module { name: "control", count: 6_000_000, compare, record };

/// The functions that random answers are asked of: a reading, a making, a number, a pair of clock references.
const FUNCTIONS: u64 = 4;

fn compare(plan: &Plan) -> Vec<Tally> {
    let mut tallies = compare_readings(plan);
    tallies.extend(compare_parts(plan));
    tallies.push(compare_pairs(plan));
    tallies.push(COUNTER.compare(0..=255));
    tallies.push(FOLLOWS.compare(every_pair_of_bytes()));
    tallies.push(COMPARE.compare(every_pair_of_bytes()));
    tallies.push(PID.compare(0..=u16::MAX));
    tallies.push(PID_TRIED.compare(0..=u16::MAX));
    tallies.push(ADAPTATION_CONTROL.compare(0..=255));
    tallies.push(SCRAMBLING_CONTROL.compare(0..=255));
    let constants = [Pid::MAX_VALUE.into(), Pid::PID_COUNT as u64];
    tallies.push(compare_constants("pid::MAX_VALUE and PID_COUNT", constants, host::control_constants));
    tallies.extend(compare_panics(plan));
    tallies
}

fn record(sample: &mut Sample) {
    let mut rng = Rng::new(record::SEED);
    reading::record(sample, &READINGS, corner_slices());
    FROM_PARTS.record(sample, corner_parts());
    INTO_U64.record(sample, corner_parts());
    EQ.record(sample, corner_pairs());
    COUNTER.record(sample, (0..=17).chain([128, 255]));
    FOLLOWS.record(sample, every_pair_of_bytes().filter(|&(a, b)| a <= 16 && b <= 16));
    PID.record(sample, corner_pids());
    PID_TRIED.record(sample, corner_pids());
    ADAPTATION_CONTROL.record(sample, every_control_byte());
    SCRAMBLING_CONTROL.record(sample, every_control_byte());
    reading::record(sample, &READINGS, (0..100).map(|_| random_slice(&mut rng)));
    FROM_PARTS.record(sample, (0..60).map(|_| random_parts(&mut rng)));
    INTO_U64.record(sample, (0..60).map(|_| random_parts(&mut rng)));
    EQ.record(sample, (0..60).map(|_| random_pair(&mut rng)));
}

fn compare_panics(plan: &Plan) -> [Tally; 4] {
    let mut rng = plan.rng(5);
    let slices = (0..panics::COUNT).map(|_| random_slice(&mut rng));
    let read = |slice: Slice| ClockRef::from_slice(&slice);
    let read = panics::compare(NAME, &[0, 1], corner_slices().chain(slices), |slice| clock(&slice), read);
    let parts = (0..panics::COUNT).map(|_| random_parts(&mut rng));
    let make = |(base, extension)| ClockRef::from_parts(base, extension);
    let made = FROM_PARTS.compare_panics(corner_parts().chain(parts), make);
    let counters = COUNTER.compare_panics(0..=255, ContinuityCounter::new);
    let pids = (0..panics::COUNT).map(|_| rng.next() as u16);
    [read, made, counters, PID.compare_panics(corner_pids().chain(pids), Pid::new)]
}

// ---- Clock references of slices.

/// The bytes of a clock reference, and the longest slice that is tried: bytes past the clock reference must not count.
const SIZE: usize = 6;
const LONGEST: usize = 16;

type Slice = slice::Slice<LONGEST>;

const NAME: &str = "clock_ref::from_slice";
pub const READINGS: [Reading; 1] = [Reading::new(0x10, NAME, &[0, 1], host::CLOCK_REF_FROM_SLICE, clock)];

/// The oracle's answer. It panics under 6 bytes: the answer there is 1.
fn clock(bytes: &[u8]) -> Answer {
    match bytes.len() < SIZE {
        true => Answer::refused(1, &[]),
        false => Answer::done(&values::clock(ClockRef::from_slice(bytes))),
    }
}

fn compare_readings(plan: &Plan) -> Vec<Tally> {
    let mut readings = Readings::new(&READINGS, LONGEST);
    let mut rng = plan.rng(1);
    readings.compare_all(corner_slices());
    for _ in 0..16 {
        readings.compare_all(every_byte(Slice::random(&mut rng, SIZE)));
    }
    for _ in 0..plan.share(FUNCTIONS) {
        let slice = random_slice(&mut rng);
        readings.compare(&slice, rng.next() as u8);
    }
    readings.into_tallies()
}

/// Every length, of slices of one bit value, and each bit alone.
fn corner_slices() -> impl Iterator<Item = Slice> {
    let lengths = [0x00, 0xff].into_iter().flat_map(|byte| (0..=LONGEST).map(move |len| Slice::filled(byte, len)));
    lengths.chain((0..8 * SIZE).map(|bit| Slice::filled(0x00, SIZE).with(|bytes| bytes[bit / 8] = 0x80 >> bit % 8)))
}

/// Every value of each byte in turn.
fn every_byte(filling: Slice) -> impl Iterator<Item = Slice> {
    (0..SIZE).flat_map(move |at| (0..=255).map(move |byte| filling.with(|bytes| bytes[at] = byte)))
}

/// One slice of eight of any length, the others of 6 bytes and more.
fn random_slice(rng: &mut Rng) -> Slice {
    let len = match rng.below(8) {
        0 => rng.below(LONGEST + 1),
        _ => SIZE + rng.below(LONGEST - SIZE + 1),
    };
    Slice::random(rng, len)
}

// ---- Clock references of parts.

/// Base and extension.
type Parts = (u64, u16);

/// The oracle asserts that base and extension are below these.
const BASES: u64 = 1 << 33;
const EXTENSIONS: u16 = 1 << 9;

pub const FROM_PARTS: Function<Parts, 2> = Function {
    code: 0x11,
    name: "clock_ref::from_parts",
    must: &[0, 14],
    library: |(base, extension), outs| host::clock_ref_from_parts(base, extension, outs),
    answer: made,
};

pub const INTO_U64: Function<Parts, 1> = Function {
    code: 0x12,
    name: "clock_ref::into_u64",
    must: &[0, 14],
    library: |(base, extension), outs| host::clock_ref_into_u64(base, extension, outs),
    answer: |parts| match clock_of(parts) {
        Some(clock) => Answer::value(clock),
        None => Answer::refused(14, &[]),
    },
};

/// The clock reference, where the oracle does not assert.
fn clock_of((base, extension): Parts) -> Option<ClockRef> {
    (base < BASES && extension < EXTENSIONS).then(|| ClockRef::from_parts(base, extension))
}

fn made(parts: Parts) -> Answer {
    match clock_of(parts) {
        Some(clock) => Answer::done(&values::clock(clock)),
        None => Answer::refused(14, &[]),
    }
}

fn compare_parts(plan: &Plan) -> [Tally; 2] {
    let mut rng = plan.rng(2);
    let made = FROM_PARTS.compare(every_power().chain((0..plan.share(FUNCTIONS)).map(|_| random_parts(&mut rng))));
    let mut rng = plan.rng(3);
    let number = INTO_U64.compare(every_power().chain((0..plan.share(FUNCTIONS)).map(|_| random_parts(&mut rng))));
    [made, number]
}

/// Each power of two with its neighbours, as base and as extension.
fn every_power() -> impl Iterator<Item = Parts> {
    let bases = (0..64).flat_map(|bit| around(1 << bit)).chain([u64::MAX]);
    bases.flat_map(|base| {
        let extensions = (0..16).flat_map(|bit| around(1 << bit)).chain([u16::MAX.into()]);
        extensions.map(move |extension| (base, extension as u16))
    })
}

/// What is near the bounds.
fn corner_parts() -> impl Iterator<Item = Parts> {
    let bases = [0, 1, 90_000, 1 << 32].into_iter().chain(around(BASES)).chain([1 << 34, u64::MAX]);
    bases.flat_map(|base| {
        [0, 1, 255, 256, 299, 300, 510, 511, 512, 513, 1 << 15, u16::MAX].map(|extension| (base, extension))
    })
}

/// Half in range, an eighth each with one part or both of any size, the rest near the bounds.
fn random_parts(rng: &mut Rng) -> Parts {
    let (base, extension) = (rng.of_width_to(33), rng.of_width_to(9) as u16);
    match rng.below(8) {
        0 => (rng.of_width_to(64), extension),
        1 => (base, rng.of_width_to(16) as u16),
        2 => (rng.of_width_to(64), rng.of_width_to(16) as u16),
        3 => (BASES - 2 + rng.below(4) as u64, EXTENSIONS - 2 + rng.below(4) as u16),
        _ => (base, extension),
    }
}

// ---- Pairs of clock references.

type Pair = (Parts, Parts);

pub const EQ: Function<Pair, 1> = Function {
    code: 0x13,
    name: "clock_ref::eq",
    must: &[0, 14],
    library: |((base, extension), (other, other_extension)), outs| {
        host::clock_ref_eq(base, extension, other, other_extension, outs)
    },
    answer: |(parts, other)| match (clock_of(parts), clock_of(other)) {
        (Some(clock), Some(other)) => Answer::value(clock == other),
        _ => Answer::refused(14, &[]),
    },
};

fn compare_pairs(plan: &Plan) -> Tally {
    let mut rng = plan.rng(4);
    let random = (0..plan.share(FUNCTIONS)).map(|_| random_pair(&mut rng));
    EQ.compare(corner_pairs().chain(equal_modulo_300()).chain(random))
}

/// Extensions that are 300 apart: they differ, though the base stands for 300 of them.
fn equal_modulo_300() -> impl Iterator<Item = Pair> {
    (0..EXTENSIONS - 300).map(|extension| ((0, extension), (0, extension + 300)))
}

/// Equal ones, one number made in two ways, each bit changed alone, and each part out of range.
fn corner_pairs() -> impl Iterator<Item = Pair> {
    let some = (0x1_2345_6789, 0x0f0);
    let bases = (0..34).map(move |bit| (some, (some.0 ^ 1 << bit, some.1)));
    let extensions = (0..10).map(move |bit| (some, (some.0, some.1 ^ 1 << bit)));
    [(some, some), ((0, 300), (1, 0)), ((0, 0), (0, 0)), ((BASES, 0), (BASES, 0)), ((0, EXTENSIONS), (0, EXTENSIONS))]
        .into_iter()
        .chain(bases)
        .chain(extensions)
        .flat_map(|(a, b)| [(a, b), (b, a)])
}

/// A quarter each: equal, one number made in two ways, one bit apart, any two.
fn random_pair(rng: &mut Rng) -> Pair {
    let (base, extension) = random_parts(rng);
    let other = match rng.below(4) {
        0 => (base, extension),
        1 => (base.wrapping_add(1), extension.wrapping_sub(300)),
        2 if rng.below(2) == 0 => (base ^ 1 << rng.below(33), extension),
        2 => (base, extension ^ 1 << rng.below(9)),
        _ => random_parts(rng),
    };
    ((base, extension), other)
}

// ---- Counters.

pub const COUNTER: Function<u8, 1> = Function {
    code: 0x14,
    name: "continuity_counter::new",
    must: &[0, 14],
    library: host::continuity_counter_new,
    answer: counter,
};

pub const FOLLOWS: Function<(u8, u8), 1> = Function {
    code: 0x15,
    name: "continuity_counter::follows",
    must: &[0, 14],
    library: |(count, other), outs| host::continuity_counter_follows(count, other, outs),
    answer: |(count, other)| match (counter_of(count), counter_of(other)) {
        (Some(counter), Some(other)) => Answer::value(counter.follows(other)),
        _ => Answer::refused(14, &[]),
    },
};

/// What the oracle says with yes and no: 0 the next, 1 the same, 2 neither. The program that replays the recorded answers does not know
/// it, so none of its answers is recorded.
pub const COMPARE: Function<(u8, u8), 1> = Function {
    code: 0x1a,
    name: "continuity_counter::compare",
    must: &[0, 14],
    library: |(count, last), outs| host::continuity_counter_compare(count, last, outs),
    answer: |(count, last)| match (counter_of(count), counter_of(last)) {
        (Some(counter), Some(last)) if counter.follows(last) => Answer::value(0_u64),
        (Some(counter), Some(last)) if counter == last => Answer::value(1_u64),
        (Some(_), Some(_)) => Answer::value(2_u64),
        _ => Answer::refused(14, &[]),
    },
};

/// The counter, where the oracle does not assert.
fn counter_of(count: u8) -> Option<ContinuityCounter> {
    (count < 16).then(|| ContinuityCounter::new(count))
}

fn counter(count: u8) -> Answer {
    match counter_of(count) {
        Some(counter) => Answer::value(counter.count()),
        None => Answer::refused(14, &[]),
    }
}

fn every_pair_of_bytes() -> impl Iterator<Item = (u8, u8)> {
    (0..=255).flat_map(|a| (0..=255).map(move |b| (a, b)))
}

// ---- PIDs.

pub const PID: Function<u16, 1> =
    Function { code: 0x16, name: "pid::new", must: &[0, 14], library: host::pid_new, answer: pid };

pub const PID_TRIED: Function<u16, 1> = Function {
    code: 0x17,
    name: "pid::try_from",
    must: &[0, 14],
    library: host::pid_try_from,
    answer: |number| match Pid::try_from(number) {
        Ok(pid) => Answer::value(u16::from(pid)),
        Err(()) => Answer::refused(14, &[]),
    },
};

/// The oracle's answer. It asserts past the largest PID: the answer there is 14.
fn pid(number: u16) -> Answer {
    match number <= Pid::MAX_VALUE {
        true => Answer::value(usize::from(Pid::new(number)) as u64),
        false => Answer::refused(14, &[]),
    }
}

fn corner_pids() -> impl Iterator<Item = u16> {
    (0..16).flat_map(|bit| around(1 << bit)).map(|pid| pid as u16).chain([u16::MAX])
}

// ---- Control bits. The oracle makes them of a packet only.

pub const ADAPTATION_CONTROL: Function<u8, 2> = Function {
    code: 0x18,
    name: "adaptation_control",
    must: &[0],
    library: host::adaptation_control,
    answer: |byte| adaptation_control(&Packet::new(&packet_of(byte))),
};

pub const SCRAMBLING_CONTROL: Function<u8, 2> = Function {
    code: 0x19,
    name: "transport_scrambling_control",
    must: &[0],
    library: host::transport_scrambling_control,
    answer: |byte| scrambling_control(&Packet::new(&packet_of(byte))),
};

/// A packet with this fourth byte.
fn packet_of(byte: u8) -> [u8; Packet::SIZE] {
    let mut packet = [0; Packet::SIZE];
    packet[0] = Packet::SYNC_BYTE;
    packet[3] = byte;
    packet
}

pub fn adaptation_control(packet: &Packet) -> Answer {
    let control = packet.adaptation_control();
    Answer::done(&[control.has_adaptation_field().into(), control.has_payload().into()])
}

/// Whether the packet is scrambled, and the scheme: 0 where the oracle has none.
pub fn scrambling_control(packet: &Packet) -> Answer {
    let control = packet.transport_scrambling_control();
    Answer::done(&[control.is_scrambled().into(), control.scheme().map_or(0, |scheme| scheme.get().into())])
}

/// Every pattern of the control bits, with the counter's bits all clear and all set.
fn every_control_byte() -> impl Iterator<Item = u8> {
    (0..16).flat_map(|high| [high << 4, high << 4 | 0x0f])
}
