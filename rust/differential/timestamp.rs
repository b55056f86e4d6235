//! Timestamps: `Timestamp` of the oracle's pes.rs.

use crate::answer::Answer;
use crate::function::{around, compare_constants, Function};
use crate::host;
use crate::module::{Module, Plan};
use crate::panics;
use crate::reading::{self, Reading, Readings};
use crate::record::{self, Sample};
use crate::rng::Rng;
use crate::slice;
use crate::tally::Tally;
use mpeg2ts_reader::pes::{Timestamp, TimestampError};

pub const MODULE: Module = Module { name: "timestamp", count: 10_000_000, compare, record };

/// The functions that random answers are asked of: three readings, a number, a pair of numbers.
const FUNCTIONS: u64 = 5;

/// The bytes of a timestamp, and the longest slice that is tried: bytes past the timestamp must not count.
const SIZE: usize = 5;
const LONGEST: usize = 16;

type Slice = slice::Slice<LONGEST>;

/// The oracle asserts that the number of a timestamp is below this.
const BOUND: u64 = 1 << 34;

/// Half the range of a timestamp: a later number that is smaller by this or more has likely wrapped.
const HALF: u64 = 1 << 32;

fn compare(plan: &Plan) -> Vec<Tally> {
    let mut tallies = compare_readings(plan);
    let mut rng = plan.rng(2);
    let numbers = (0..plan.share(FUNCTIONS)).map(|_| random_number(&mut rng));
    tallies.push(FROM_U64.compare(corner_numbers().chain(numbers)));
    let mut rng = plan.rng(3);
    let numbers = (0..panics::COUNT).map(|_| random_number(&mut rng));
    tallies.push(FROM_U64.compare_panics(corner_numbers().chain(numbers), Timestamp::from_u64));
    let mut rng = plan.rng(4);
    let pairs = (0..plan.share(FUNCTIONS)).map(|_| random_pair(&mut rng));
    tallies.push(WRAPPED.compare(corner_pairs().chain(pairs)));
    let constants = [Timestamp::MAX.value(), Timestamp::TIMEBASE];
    tallies.push(compare_constants("timestamp::MAX and TIMEBASE", constants, host::timestamp_constants));
    tallies
}

fn record(sample: &mut Sample) {
    let mut rng = Rng::new(record::SEED);
    reading::record(sample, &READINGS, corner_slices());
    FROM_U64.record(sample, corner_numbers());
    WRAPPED.record(sample, corner_pairs());
    reading::record(sample, &READINGS, (0..200).map(|_| random_slice(&mut rng)));
    FROM_U64.record(sample, (0..60).map(|_| random_number(&mut rng)));
    WRAPPED.record(sample, (0..100).map(|_| random_pair(&mut rng)));
}

// ---- The readings of a slice.

pub const READINGS: [Reading; 3] = [
    Reading::new(0x01, "timestamp::from_pts_bytes", &[0, 1, 12, 13], host::TIMESTAMP_FROM_PTS_BYTES, |bytes| {
        read(bytes, Timestamp::from_pts_bytes)
    }),
    Reading::new(0x02, "timestamp::from_dts_bytes", &[0, 1, 12, 13], host::TIMESTAMP_FROM_DTS_BYTES, |bytes| {
        read(bytes, Timestamp::from_dts_bytes)
    }),
    Reading::new(0x03, "timestamp::from_bytes", &[0, 1, 12], host::TIMESTAMP_FROM_BYTES, |bytes| {
        read(bytes, Timestamp::from_bytes)
    }),
];

/// The oracle's answer. Slices under 5 bytes are outside its domain, as it may panic: their answer is 1.
fn read(bytes: &[u8], oracle: fn(&[u8]) -> Result<Timestamp, TimestampError>) -> Answer {
    if bytes.len() < SIZE {
        return Answer::refused(1, &[]);
    }
    match oracle(bytes) {
        Ok(timestamp) => Answer::value(timestamp.value()),
        Err(error) => refused(error),
    }
}

/// The refusal that an error of the oracle stands for.
pub fn refused(error: TimestampError) -> Answer {
    match error {
        TimestampError::MarkerBitNotSet { bit_number } => Answer::refused(12, &[bit_number.into()]),
        TimestampError::IncorrectPrefixBits { expected, actual } => {
            Answer::refused(13, &[expected.into(), actual.into()])
        }
    }
}

fn compare_readings(plan: &Plan) -> Vec<Tally> {
    let mut readings = Readings::new(&READINGS, LONGEST);
    let mut rng = plan.rng(1);
    readings.compare_all(corner_slices());
    let fillings = fillings().chain((0..12).map(|_| Slice::random(&mut rng, LONGEST)));
    for filling in fillings {
        readings.compare_all(every_first_byte(filling));
        readings.compare_all(every_byte(filling));
    }
    for _ in 0..plan.share(FUNCTIONS) {
        let slice = random_slice(&mut rng);
        readings.compare(&slice, rng.next() as u8);
    }
    readings.into_tallies()
}

// ---- Slices.

/// What stands in the bits that a list of slices does not go through.
fn fillings() -> impl Iterator<Item = Slice> {
    [0x00, 0xff, 0x55, 0xaa].into_iter().map(|byte| Slice::filled(byte, LONGEST))
}

/// The three marker bits of a timestamp: the last bits of bytes 0, 2 and 4.
pub fn set_markers(bytes: &mut [u8], markers: u8) {
    for (nth, at) in [0, 2, 4].into_iter().enumerate() {
        bytes[at] = bytes[at] & 0xfe | markers >> nth & 1;
    }
}

/// A timestamp as a slice of 5 bytes, with all markers.
fn stamp(prefix: u8, value: u64) -> Slice {
    let bytes = [
        prefix << 4 | (value >> 29) as u8 & 0x0e,
        (value >> 22) as u8,
        (value >> 14) as u8,
        (value >> 7) as u8,
        (value << 1) as u8,
    ];
    with_markers(Slice::new(&bytes), 0b111)
}

/// Worked examples and every corner: short enough to be recorded.
fn corner_slices() -> impl Iterator<Item = Slice> {
    let examples =
        [[0x21, 0x00, 0x05, 0xbf, 0x21], [0x2f, 0xff, 0xff, 0xff, 0xff], [0x21, 0x00, 0x00, 0x00, 0x00], [0x00; SIZE]];
    examples
        .into_iter()
        .map(|bytes| Slice::new(&bytes))
        .chain(every_length())
        .chain(every_prefix())
        .chain(every_value_bit())
}

/// Every length, of slices that would be refused and of slices that would be accepted if they were long enough.
fn every_length() -> impl Iterator<Item = Slice> {
    let ones = |first: u8| Slice::filled(0xff, LONGEST).with(|bytes| bytes[0] = first);
    let contents = [Slice::filled(0x00, LONGEST), ones(0x21), ones(0x1f), ones(0xff)];
    contents.into_iter().flat_map(|slice| (0..=LONGEST).map(move |len| slice.resized(len)))
}

/// Every prefix with every pattern of the markers.
fn every_prefix() -> impl Iterator<Item = Slice> {
    (0..16).flat_map(|prefix| (0..8).map(move |markers| with_markers(stamp(prefix, 0x1_2345_6789), markers)))
}

fn with_markers(slice: Slice, markers: u8) -> Slice {
    slice.with(|bytes| set_markers(bytes, markers))
}

/// Each value bit set alone, under each prefix that the standard gives a timestamp.
fn every_value_bit() -> impl Iterator<Item = Slice> {
    [1, 2, 3].into_iter().flat_map(|prefix| (0..33).map(move |bit| stamp(prefix, 1 << bit)))
}

/// Every first byte, its marker among its bits, with every pattern of the other two markers.
fn every_first_byte(filling: Slice) -> impl Iterator<Item = Slice> {
    (0..=255).flat_map(move |first: u8| {
        (0..4).map(move |others: u8| {
            let slice = filling.resized(SIZE).with(|bytes| bytes[0] = first);
            with_markers(slice, first & 1 | others << 1)
        })
    })
}

/// Every value of each byte in turn.
fn every_byte(filling: Slice) -> impl Iterator<Item = Slice> {
    let marked = with_markers(filling.resized(SIZE), 0b111);
    (0..SIZE).flat_map(move |at| (0..=255).map(move |byte| marked.with(|bytes| bytes[at] = byte)))
}

/// One slice of eight of any length, the others of 5 bytes and more; three of four with all markers, and with a prefix of the
/// standard's.
fn random_slice(rng: &mut Rng) -> Slice {
    let mut slice = Slice::random(rng, LONGEST);
    let mut len = SIZE + rng.below(LONGEST - SIZE + 1);
    let choice = rng.next();
    if choice & 7 == 0 {
        len = rng.below(LONGEST + 1);
    }
    if choice >> 3 & 3 != 0 {
        set_markers(&mut slice, 0b111);
    }
    let prefix = (choice >> 5 & 3) as u8;
    if prefix != 0 {
        slice[0] = slice[0] & 0x0f | prefix << 4;
    }
    slice.resized(len)
}

// ---- Numbers.

pub const FROM_U64: Function<u64, 1> = Function {
    code: 0x04,
    name: "timestamp::from_u64",
    must: &[0, 14],
    library: host::timestamp_from_u64,
    answer: made,
};

/// The oracle's answer. From the bound on it panics: the answer there is 14.
fn made(number: u64) -> Answer {
    match number < BOUND {
        true => Answer::value(Timestamp::from_u64(number).value()),
        false => Answer::refused(14, &[]),
    }
}

/// Each power of two with its neighbours, and the largest number.
fn corner_numbers() -> impl Iterator<Item = u64> {
    (0..64).flat_map(|bit| around(1 << bit)).chain([0, u64::MAX])
}

/// Half the numbers are in range, a quarter near the bound, a quarter of any size.
fn random_number(rng: &mut Rng) -> u64 {
    match rng.below(4) {
        0 => rng.of_width_to(64),
        1 => BOUND - 500 + rng.below(1_000) as u64,
        _ => rng.of_width_to(34),
    }
}

// ---- Pairs of numbers.

type Pair = (u64, u64);

pub const WRAPPED: Function<Pair, 1> = Function {
    code: 0x05,
    name: "timestamp::likely_wrapped_since",
    must: &[0, 14],
    library: |(number, since), outs| host::timestamp_likely_wrapped_since(number, since, outs),
    answer: wrapped,
};

/// The oracle's answer for the two timestamps, where both can be made.
fn wrapped((number, since): Pair) -> Answer {
    if number >= BOUND || since >= BOUND {
        return Answer::refused(14, &[]);
    }
    let wrapped = Timestamp::from_u64(number).likely_wrapped_since(Timestamp::from_u64(since));
    Answer::value(wrapped)
}

/// Distances around the half range and the others, from both sides, at places around each bound; some are out of range.
fn corner_pairs() -> impl Iterator<Item = Pair> {
    const DISTANCES: [u64; 10] =
        [0, 1, HALF - 2, HALF - 1, HALF, HALF + 1, 2 * HALF - 1, 2 * HALF, 2 * HALF + 1, BOUND - 1];
    let places = [0, 1, 90_000].into_iter().chain(around(HALF)).chain(around(2 * HALF)).chain(around(BOUND));
    let near = places.flat_map(|low| DISTANCES.into_iter().flat_map(move |far| both_ways(low, low + far)));
    near.chain([0, HALF, BOUND, u64::MAX].into_iter().flat_map(|other| both_ways(u64::MAX, other)))
}

fn both_ways(a: u64, b: u64) -> [Pair; 2] {
    [(a, b), (b, a)]
}

/// A quarter each: any two in range, two about half the range apart, two that are equal or nearly, one of any size.
fn random_pair(rng: &mut Rng) -> Pair {
    let low = rng.of_width_to(34);
    let high = match rng.below(4) {
        0 => rng.of_width_to(34),
        1 => low + HALF - 1 + rng.below(3) as u64,
        2 => low + rng.below(2) as u64,
        _ => rng.of_width_to(64),
    };
    both_ways(low, high)[rng.below(2)]
}
