//! Parsed contents of PES packets: `PesParsedContents`, `EsRate` and the types of its fields, of the oracle's pes.rs.
//!
//! The oracle does not say why it refuses contents, and hands out neither the scrambling control, the flags and the header data
//! length nor the trick mode byte as it stands. What is expected there is written down in this file, under "Without an oracle".

use crate::answer::Answer;
use crate::function::{around, Function};
use crate::host;
use crate::kept::{place_and_length, Keeps};
use crate::module::{Module, Plan};
use crate::panics;
use crate::reading::{self, Part, Reading, Readings, Row};
use crate::record::{self, Sample};
use crate::rng::Rng;
use crate::slice;
use crate::tally::Tally;
use crate::timestamp;
use crate::values;
use mpeg2ts_reader::pes::{Copyright, DataAlignment, EsRate, OriginalOrCopy, PesError, PesParsedContents};

pub const MODULE: Module = Module { name: "contents", count: 15_000_000, compare, record };

/// The bytes before the flagged fields.
const FIXED: usize = 3;

/// The longest slice that is tried: the longest header data, and some payload.
pub const LONGEST: usize = FIXED + 255 + 10;

type Slice = slice::Slice<LONGEST>;

fn compare(plan: &Plan) -> Vec<Tally> {
    let mut tallies = compare_readings(plan);
    tallies.push(compare_kept(plan));
    tallies.push(RATE.compare(rates(plan.rng(3), 200_000)));
    tallies.push(RATE_BYTES.compare(rates(plan.rng(4), 200_000)));
    tallies.push(RATE.compare_panics(rates(plan.rng(5), panics::COUNT), EsRate::new));
    tallies
}

fn record(sample: &mut Sample) {
    let mut rng = Rng::new(record::SEED);
    reading::record(sample, &READINGS, corner_contents());
    RATE.record(sample, corner_rates());
    RATE_BYTES.record(sample, corner_rates());
    let random = (0..).map(|_| random_contents(&mut rng)).filter(|contents| contents.len() < 80);
    reading::record(sample, &READINGS, random.take(20));
}

// ---- The readings.

/// The numbers of a reading that contents may refuse, and of one that a flag may refuse too.
const GUARDED: &[usize] = &[0, 5, 6, 7, 8];
const FLAGGED: &[usize] = &[0, 5, 6, 7, 8, 9];

pub const READINGS: [Reading; 17] = [
    Reading::new(0x50, "pes_contents::from_bytes", GUARDED, host::PES_CONTENTS_FROM_BYTES, |bytes| {
        of_contents(bytes, |_| Ok(Answer::done(&[])))
    }),
    Reading::new(0x51, "pes_contents::pes_priority", GUARDED, host::PES_CONTENTS_PES_PRIORITY, |bytes| {
        of_contents(bytes, |contents| Ok(Answer::value(contents.pes_priority())))
    }),
    Reading::new(
        0x52,
        "pes_contents::pes_scrambling_control",
        GUARDED,
        host::PES_CONTENTS_PES_SCRAMBLING_CONTROL,
        |bytes| of_contents(bytes, |_| Ok(Answer::value(scrambling(bytes)))),
    ),
    Reading::new(0x53, "pes_contents::flags", GUARDED, host::PES_CONTENTS_FLAGS, |bytes| {
        of_contents(bytes, |_| Ok(Answer::value(flags(bytes))))
    }),
    Reading::new(0x54, "pes_contents::pes_header_data_len", GUARDED, host::PES_CONTENTS_PES_HEADER_DATA_LEN, |bytes| {
        of_contents(bytes, |_| Ok(Answer::value(data_length(bytes) as u64)))
    }),
    Reading::new(
        0x55,
        "pes_contents::data_alignment_indicator",
        GUARDED,
        host::PES_CONTENTS_DATA_ALIGNMENT_INDICATOR,
        |bytes| {
            of_contents(bytes, |contents| {
                Ok(Answer::value(contents.data_alignment_indicator() == DataAlignment::Aligned))
            })
        },
    ),
    Reading::new(0x56, "pes_contents::copyright", GUARDED, host::PES_CONTENTS_COPYRIGHT, |bytes| {
        of_contents(bytes, |contents| Ok(Answer::value(contents.copyright() == Copyright::Undefined)))
    }),
    Reading::new(0x57, "pes_contents::original_or_copy", GUARDED, host::PES_CONTENTS_ORIGINAL_OR_COPY, |bytes| {
        of_contents(bytes, |contents| Ok(Answer::value(contents.original_or_copy() == OriginalOrCopy::Original)))
    }),
    Reading::new(0x58, "pes_contents::pts_dts", &[0, 5, 6, 7, 8, 9, 10], host::PES_CONTENTS_PTS_DTS, |bytes| {
        of_contents(bytes, |contents| Ok(Answer::done(&values::times(contents.pts_dts()?))))
    }),
    Reading::new(0x59, "pes_contents::escr", FLAGGED, host::PES_CONTENTS_ESCR, |bytes| {
        of_contents(bytes, |contents| Ok(Answer::done(&values::clock(contents.escr()?))))
    }),
    Reading::new(0x5a, "pes_contents::es_rate", FLAGGED, host::PES_CONTENTS_ES_RATE, |bytes| {
        of_contents(bytes, |contents| Ok(Answer::value(u32::from(contents.es_rate()?))))
    }),
    Reading::new(0x5b, "pes_contents::dsm_trick_mode", FLAGGED, host::PES_CONTENTS_DSM_TRICK_MODE, |bytes| {
        of_contents(bytes, |contents| Ok(Answer::done(&values::trick(contents.dsm_trick_mode()?))))
    }),
    Reading::new(0x5c, "pes_contents::raw_trick_mode", FLAGGED, host::PES_CONTENTS_RAW_TRICK_MODE, |bytes| {
        of_contents(bytes, |contents| contents.dsm_trick_mode().map(|_| Answer::value(raw_trick(bytes))))
    }),
    Reading::new(
        0x5d,
        "pes_contents::additional_copy_info",
        &[0, 5, 6, 7, 8, 9, 12],
        host::PES_CONTENTS_ADDITIONAL_COPY_INFO,
        |bytes| of_contents(bytes, |contents| Ok(Answer::value(contents.additional_copy_info()?))),
    ),
    Reading::new(
        0x5e,
        "pes_contents::previous_pes_packet_crc",
        FLAGGED,
        host::PES_CONTENTS_PREVIOUS_PES_PACKET_CRC,
        |bytes| of_contents(bytes, |contents| Ok(Answer::value(contents.previous_pes_packet_crc()?))),
    ),
    Reading::new(0x5f, "pes_contents::pes_extension", FLAGGED, host::PES_CONTENTS_PES_EXTENSION, |bytes| {
        of_contents(bytes, |contents| Ok(Answer::done(&place_and_length(bytes, contents.pes_extension()?.kept()))))
    }),
    Reading::new(0x60, "pes_contents::payload", GUARDED, host::PES_CONTENTS_PAYLOAD, |bytes| {
        of_contents(bytes, |contents| Ok(Answer::done(&place_and_length(bytes, contents.payload()))))
    }),
];

/// All of it at one call.
pub const ROW: Row = Row::new(
    "pes_contents::fields",
    GUARDED,
    host::PES_CONTENTS_FIELDS,
    &[
        Part::Values("pes_contents::pes_scrambling_control"),
        Part::Values("pes_contents::pes_priority"),
        Part::Values("pes_contents::data_alignment_indicator"),
        Part::Values("pes_contents::copyright"),
        Part::Values("pes_contents::original_or_copy"),
        Part::Values("pes_contents::flags"),
        Part::Values("pes_contents::pes_header_data_len"),
        Part::Worded("pes_contents::pts_dts"),
        Part::Worded("pes_contents::escr"),
        Part::Worded("pes_contents::es_rate"),
        Part::Worded("pes_contents::dsm_trick_mode"),
        Part::Worded("pes_contents::raw_trick_mode"),
        Part::Worded("pes_contents::additional_copy_info"),
        Part::Worded("pes_contents::previous_pes_packet_crc"),
        Part::Worded("pes_contents::pes_extension"),
        Part::Values("pes_contents::payload"),
    ],
);

/// What the oracle gives: an answer that is accepted, or an error.
type Outcome = Result<Answer, PesError>;

/// What the oracle reads of contents, where it does not refuse them.
fn of_contents(bytes: &[u8], read: impl FnOnce(PesParsedContents) -> Outcome) -> Answer {
    match PesParsedContents::from_bytes(bytes) {
        Some(contents) => told(read(contents)),
        None => Answer::refused(refusal(bytes), &[]),
    }
}

/// An error as a refusal. Only the copy info has a marker that is checked, and the oracle does not say its bit: it is the first.
fn told(outcome: Outcome) -> Answer {
    match outcome {
        Ok(answer) => answer,
        Err(PesError::FieldNotPresent) => Answer::refused(9, &[]),
        Err(PesError::PtsDtsFlagsInvalid) => Answer::refused(10, &[]),
        Err(PesError::NotEnoughData { .. }) => Answer::refused(11, &[]),
        Err(PesError::MarkerBitNotSet) => Answer::refused(12, &[0]),
    }
}

// ---- Without an oracle: what is expected by the request.

fn scrambling(contents: &[u8]) -> u64 {
    (contents[0] >> 4 & 3).into()
}

fn flags(contents: &[u8]) -> u8 {
    contents[1]
}

fn data_length(contents: &[u8]) -> usize {
    contents[2].into()
}

/// Why contents are refused that the oracle refuses.
fn refusal(contents: &[u8]) -> u32 {
    if contents.len() < FIXED {
        5
    } else if contents[0] >> 6 != 0b10 {
        6
    } else if contents.len() < FIXED + data_length(contents) {
        7
    } else {
        8
    }
}

fn raw_trick(contents: &[u8]) -> u64 {
    contents[begins(flags(contents), TRICK)].into()
}

/// The flags, from the first, with the sizes of their fields; the extension has no fixed one.
const SIZES: [(u8, usize); 7] = [(PTS, 5), (DTS, 5), (ESCR, 6), (ES_RATE, 3), (TRICK, 1), (COPY_INFO, 1), (CRC, 2)];
const PTS: u8 = 0x80;
const DTS: u8 = 0x40;
const PAIR: u8 = PTS | DTS;
const ESCR: u8 = 0x20;
const ES_RATE: u8 = 0x10;
const TRICK: u8 = 0x08;
const COPY_INFO: u8 = 0x04;
const CRC: u8 = 0x02;
const EXTENSION: u8 = 0x01;

/// Where the field of a flag begins: after the fields of the flags before it. The flags of a DTS alone occupy nothing.
fn begins(flags: u8, flag: u8) -> usize {
    let there = if flags & PTS == 0 { flags & !DTS } else { flags };
    let before = SIZES.into_iter().filter(|(other, _)| *other > flag && there & other != 0);
    FIXED + before.map(|(_, size)| size).sum::<usize>()
}

/// Where the flagged fields end.
fn fields_end(flags: u8) -> usize {
    begins(flags, EXTENSION)
}

// ---- Slices.

fn compare_readings(plan: &Plan) -> Vec<Tally> {
    let mut readings = Readings::new(&READINGS, LONGEST).and_row(&ROW);
    let mut rng = plan.rng(1);
    readings.compare_all(corner_contents());
    for flags in 0..=255 {
        for data_length in 0..=255 {
            for len in bounds(flags, data_length) {
                every_check(flags, data_length, len, &mut rng, |contents, guard| readings.compare(contents, guard));
            }
        }
    }
    for _ in 0..plan.share(readings.count()) {
        let contents = random_contents(&mut rng);
        readings.compare(&contents, rng.next() as u8);
    }
    readings.into_tallies()
}

/// The lengths of a slice around each bound: the fixed bytes, the end of the fields, the end of the header data.
fn bounds(flags: u8, data_length: u8) -> [usize; 8] {
    let (fields, header) = (fields_end(flags), FIXED + usize::from(data_length));
    [FIXED - 1, FIXED, fields - 1, fields, header - 1, header, header + 1, header + 10]
}

/// Contents with the right check bits, once with all markers and once with any, and with wrong ones.
fn every_check(flags: u8, data_length: u8, len: usize, rng: &mut Rng, mut take: impl FnMut(&[u8], u8)) {
    let good = begun(Slice::random(rng, len), 0b10, flags, data_length);
    take(&with_markers(good), rng.next() as u8);
    take(&good, rng.next() as u8);
    let wrong = [0b00, 0b01, 0b11][rng.below(3)];
    take(&begun(good, wrong, flags, data_length), rng.next() as u8);
}

/// The slice with these check bits, flags and data length, as far as it goes.
fn begun(slice: Slice, check: u8, flags: u8, data_length: u8) -> Slice {
    slice.with(|bytes| {
        let first = bytes.first().map_or(0, |byte| byte & 0x3f | check << 6);
        bytes.iter_mut().zip([first, flags, data_length]).for_each(|(byte, value)| *byte = value);
    })
}

/// The contents with the markers of the timestamps and of the copy info set, where they stand in the slice.
fn with_markers(mut contents: Slice) -> Slice {
    let Some(&flags) = contents.get(1) else { return contents };
    let stamps = match flags & PAIR {
        PTS => 1,
        PAIR => 2,
        _ => 0,
    };
    for at in (FIXED..).step_by(5).take(stamps) {
        contents.get_mut(at..at + 5).into_iter().for_each(|stamp| timestamp::set_markers(stamp, 0b111));
    }
    if flags & COPY_INFO != 0 {
        contents.get_mut(begins(flags, COPY_INFO)).into_iter().for_each(|info| *info |= 0x80);
    }
    contents
}

/// Worked examples and every corner: short enough to be recorded.
fn corner_contents() -> impl Iterator<Item = Slice> {
    const EXAMPLES: [&[u8]; 16] = [
        &[],
        &[0x80],
        &[0x80, 0x00],
        &[0x80, 0x00, 0x00],
        &[0x80, 0x40, 0x00],
        &[0x80, 0x01, 0x00],
        &[0x80, 0x01, 0x02, 0xaa, 0xbb, 0xcc],
        &[0x00, 0x00, 0x00],
        &[0x40, 0x00, 0x00],
        &[0xc0, 0x00, 0x00],
        &[0x80, 0x80, 0x05, 0x21, 0x00, 0x05, 0xbf],
        &[0x80, 0x80, 0x05, 0x20, 0x00, 0x00, 0x00, 0x00],
        &[0x80, 0x80, 0x05, 0x21, 0x00, 0x05, 0xbf, 0x21],
        &[0x80, 0xc0, 0x09, 0x31, 0x00, 0x05, 0xbf, 0x21, 0x11, 0x00, 0x05, 0xbf],
        &[0x80, 0xc0, 0x0a, 0x31, 0x00, 0x05, 0xbf, 0x20, 0x11, 0x00, 0x04, 0xbf, 0x21, 0x00],
        &[0x82, 0x48, 0x01, 0x2a],
    ];
    let examples = EXAMPLES.into_iter().map(Slice::new);
    let firsts = (0x80..=0xbf).step_by(9).map(|first| Slice::new(&[first, 0x00, 0x00]));
    let tricks = (0..=255).step_by(29).map(|trick| Slice::new(&[0x80, 0x08, 0x01, trick]));
    let infos = [0x00, 0x7f, 0x80, 0xff].map(|info| Slice::new(&[0x80, 0x04, 0x01, info]));
    let alone = (0..8).map(|bit| 0x80 >> bit);
    let fields = alone.chain([0xc0, 0xfe, 0xff]).flat_map(ends);
    examples.chain(firsts).chain(tricks).chain(infos).chain(fields)
}

/// Contents with these flags whose header data ends with the fields, a byte before that, and two bytes after.
fn ends(flags: u8) -> [Slice; 3] {
    let data = (fields_end(flags) - FIXED) as u8;
    [data, data.saturating_sub(1), data + 2].map(|data| {
        let len = FIXED + usize::from(data) + 4;
        with_markers(begun(Slice::patterned(len), 0b10, flags, data))
    })
}

/// Most with header data as long as the fields or longer, and with some payload; of eight, one with any data length, one with a byte
/// too little, one that ends anywhere, one that ends a byte too early, one with any check bits; three of four with all markers.
pub fn random_contents(rng: &mut Rng) -> Slice {
    let flags = rng.next() as u8;
    let fields = fields_end(flags) - FIXED;
    let data = match rng.below(8) {
        0 => rng.next() as u8,
        1 => fields.saturating_sub(1) as u8,
        _ => (fields + [0, 0, 1, 20][rng.below(4)]) as u8,
    };
    let len = match rng.below(8) {
        0 => rng.below(LONGEST + 1),
        1 => FIXED + usize::from(data) - 1,
        _ => FIXED + usize::from(data) + rng.below(11),
    };
    let check = if rng.below(8) == 0 { rng.below(4) as u8 } else { 0b10 };
    let contents = begun(Slice::random(rng, len), check, flags, data);
    match rng.below(4) {
        0 => contents,
        _ => with_markers(contents),
    }
}

/// That contents and an extension of the oracle are their slice and nothing else, on which the comparison of places rests. An
/// extension prints its bytes.
fn compare_kept(plan: &Plan) -> Tally {
    let mut tally = Tally::of_oracle("pes_contents: the slices that the Rust keeps", &[0]);
    let (mut rng, same) = (plan.rng(2), Answer::done(&[]));
    for _ in 0..20_000 {
        let bytes = random_contents(&mut rng);
        let Some(contents) = PesParsedContents::from_bytes(&bytes) else { continue };
        let whole = place_and_length(&bytes, contents.kept());
        tally.take_check(&same, whole == [0, bytes.len() as u64], || format!("{bytes:?}"), || format!("{whole:?}"));
        if let Ok(extension) = contents.pes_extension() {
            let text = format!("PesExtension {{ _buf: {:?} }}", extension.kept());
            tally.take_check(&same, text == format!("{extension:?}"), || format!("{bytes:?}"), || text);
        }
    }
    tally
}

// ---- Rates.

/// The oracle asserts that a rate is below this.
const RATES: u32 = 1 << 22;

pub const RATE: Function<u32, 1> =
    Function { code: 0x61, name: "es_rate::new", must: &[0, 14], library: host::es_rate_new, answer: rate };

pub const RATE_BYTES: Function<u32, 1> = Function {
    code: 0x62,
    name: "es_rate::bytes_per_second",
    must: &[0, 14],
    library: host::es_rate_bytes_per_second,
    answer: |number| match rate_of(number) {
        Some(rate) => Answer::value(rate.bytes_per_second()),
        None => Answer::refused(14, &[]),
    },
};

/// The rate, where the oracle does not assert.
fn rate_of(number: u32) -> Option<EsRate> {
    (number < RATES).then(|| EsRate::new(number))
}

fn rate(number: u32) -> Answer {
    match rate_of(number) {
        Some(rate) => Answer::value(u32::from(rate)),
        None => Answer::refused(14, &[]),
    }
}

/// Each power of two with its neighbours, and the largest number.
fn corner_rates() -> impl Iterator<Item = u32> {
    (0..32).flat_map(|bit| around(1 << bit)).map(|rate| rate as u32).chain([u32::MAX])
}

/// The corners and so many others, half of them in range.
fn rates(mut rng: Rng, count: usize) -> impl Iterator<Item = u32> {
    corner_rates().chain((0..count).map(move |_| {
        let bits = [22, 32][rng.below(2)];
        rng.of_width_to(bits) as u32
    }))
}
