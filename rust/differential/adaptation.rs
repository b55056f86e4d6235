//! Adaptation fields and their extensions: `AdaptationField`, `AdaptationFieldExtension` and `SeamlessSplice` of the oracle's
//! packet.rs.

use crate::answer::Answer;
use crate::host;
use crate::kept::{place_and_length, Keeps};
use crate::module::{Module, Plan};
use crate::panics;
use crate::reading::{self, Reading, Readings};
use crate::record::{self, Sample};
use crate::rng::Rng;
use crate::slice;
use crate::tally::Tally;
use crate::timestamp;
use crate::values;
use mpeg2ts_reader::packet::{AdaptationField, AdaptationFieldError, AdaptationFieldExtension};

pub const MODULE: Module = Module { name: "adaptation", count: 10_000_000, compare, record };

/// The functions that random answers are asked of.
const FUNCTIONS: u64 = (FIELD.len() + EXTENSION.len()) as u64;

/// The longest adaptation field; an extension is shorter.
pub const LONGEST: usize = 183;

type Slice = slice::Slice<LONGEST>;

fn compare(plan: &Plan) -> Vec<Tally> {
    let mut tallies = compare_fields(plan);
    tallies.extend(compare_extensions(plan));
    tallies.push(compare_kept(plan));
    let slices = (0..=LONGEST).map(|len| Slice::filled(0xff, len));
    let made = |slice: Slice| of_field(&slice, |_| Ok(Answer::done(&[])));
    tallies.push(panics::compare("adaptation_field::new", &[0, 1], slices, made, |slice| {
        AdaptationField::new(&slice).discontinuity_indicator()
    }));
    tallies
}

fn record(sample: &mut Sample) {
    let mut rng = Rng::new(record::SEED);
    reading::record(sample, &FIELD, corner_fields());
    reading::record(sample, &EXTENSION, corner_extensions());
    reading::record(sample, &FIELD, (0..60).map(|_| random_field(&mut rng)));
    reading::record(sample, &EXTENSION, (0..60).map(|_| random_extension(&mut rng)));
}

/// What the oracle gives: an answer that is accepted, or an error.
type Outcome = Result<Answer, AdaptationFieldError>;

fn told(outcome: Outcome) -> Answer {
    match outcome {
        Ok(answer) => answer,
        Err(AdaptationFieldError::FieldNotPresent) => Answer::refused(9, &[]),
        Err(AdaptationFieldError::NotEnoughData) => Answer::refused(11, &[]),
        Err(AdaptationFieldError::SpliceTimestampError(error)) => timestamp::refused(error),
    }
}

// ---- Fields.

pub const FIELD: [Reading; 8] = [
    Reading::new(
        0x30,
        "adaptation_field::discontinuity_indicator",
        &[0, 1],
        host::ADAPTATION_FIELD_DISCONTINUITY_INDICATOR,
        |bytes| of_field(bytes, |field| Ok(Answer::value(field.discontinuity_indicator()))),
    ),
    Reading::new(
        0x31,
        "adaptation_field::random_access_indicator",
        &[0, 1],
        host::ADAPTATION_FIELD_RANDOM_ACCESS_INDICATOR,
        |bytes| of_field(bytes, |field| Ok(Answer::value(field.random_access_indicator()))),
    ),
    Reading::new(
        0x32,
        "adaptation_field::elementary_stream_priority_indicator",
        &[0, 1],
        host::ADAPTATION_FIELD_ELEMENTARY_STREAM_PRIORITY_INDICATOR,
        |bytes| of_field(bytes, |field| Ok(Answer::value(field.elementary_stream_priority_indicator()))),
    ),
    Reading::new(0x33, "adaptation_field::pcr", &[0, 1, 9, 11], host::ADAPTATION_FIELD_PCR, |bytes| {
        of_field(bytes, |field| Ok(Answer::done(&values::clock(field.pcr()?))))
    }),
    Reading::new(0x34, "adaptation_field::opcr", &[0, 1, 9, 11], host::ADAPTATION_FIELD_OPCR, |bytes| {
        of_field(bytes, |field| Ok(Answer::done(&values::clock(field.opcr()?))))
    }),
    Reading::new(
        0x35,
        "adaptation_field::splice_countdown",
        &[0, 1, 9, 11],
        host::ADAPTATION_FIELD_SPLICE_COUNTDOWN,
        |bytes| of_field(bytes, |field| Ok(Answer::value(field.splice_countdown()?))),
    ),
    Reading::new(
        0x36,
        "adaptation_field::transport_private_data",
        &[0, 1, 9, 11],
        host::ADAPTATION_FIELD_TRANSPORT_PRIVATE_DATA,
        |bytes| of_field(bytes, |field| Ok(Answer::done(&place_and_length(bytes, field.transport_private_data()?)))),
    ),
    Reading::new(
        0x37,
        "adaptation_field::adaptation_field_extension",
        &[0, 1, 9, 11],
        host::ADAPTATION_FIELD_EXTENSION,
        |bytes| {
            of_field(bytes, |field| {
                Ok(Answer::done(&place_and_length(bytes, field.adaptation_field_extension()?.kept())))
            })
        },
    ),
];

/// What the oracle reads of a field. It asserts that there are bytes: the answer is 1 where there are none.
fn of_field(bytes: &[u8], read: impl FnOnce(AdaptationField) -> Outcome) -> Answer {
    match bytes.is_empty() {
        true => Answer::refused(1, &[]),
        false => told(read(AdaptationField::new(bytes))),
    }
}

/// Every flag byte with every length, each with contents of one bit value and with contents at random.
fn compare_fields(plan: &Plan) -> Vec<Tally> {
    let mut readings = Readings::new(&FIELD, LONGEST);
    let mut rng = plan.rng(1);
    readings.compare_all(corner_fields());
    for (flags, len) in every_flags((0..=40).chain([100, LONGEST])) {
        for filling in [0x00, 0xff] {
            readings.compare(&flagged(Slice::filled(filling, len), flags), filling);
        }
        for _ in 0..8 {
            readings.compare(&with_lengths(flagged(Slice::random(&mut rng, len), flags), &mut rng), rng.next() as u8);
        }
    }
    for _ in 0..plan.share(FUNCTIONS) {
        let field = random_field(&mut rng);
        readings.compare(&field, rng.next() as u8);
    }
    readings.into_tallies()
}

/// Every flag byte with each of these lengths.
fn every_flags(lengths: impl Iterator<Item = usize> + Clone) -> impl Iterator<Item = (u8, usize)> {
    (0..=255).flat_map(move |flags| lengths.clone().map(move |len| (flags, len)))
}

/// The slice with another first byte, where it has one.
fn flagged(slice: Slice, flags: u8) -> Slice {
    slice.with(|bytes| bytes.iter_mut().take(1).for_each(|byte| *byte = flags))
}

/// How many of these flags are set.
fn set(flags: u8, mask: u8) -> usize {
    (flags & mask).count_ones() as usize
}

/// Where the clock references and the countdown end that a field has by its flags.
fn counted_end(flags: u8) -> usize {
    1 + 6 * set(flags, 0x18) + set(flags, 0x04)
}

/// The field with length bytes for its private data and its extension, where they are flagged and stand in the field: often such
/// that the data ends with the field or near it, or is short.
fn with_lengths(mut field: Slice, rng: &mut Rng) -> Slice {
    let Some(&flags) = field.first() else { return field };
    let mut at = counted_end(flags);
    for flag in [0x02, 0x01] {
        if flags & flag != 0 && at < field.len() {
            field[at] = random_length(field.len() - at - 1, rng);
            at += 1 + usize::from(field[at]);
        }
    }
    field
}

/// A length byte before `left` bytes.
fn random_length(left: usize, rng: &mut Rng) -> u8 {
    match rng.below(8) {
        0 => rng.next() as u8,
        1 => left as u8,
        2 => left as u8 + 1,
        3 => (left as u8).saturating_sub(1 + rng.below(12) as u8),
        _ => rng.below(6) as u8,
    }
}

/// A field of each kind that is refused or accepted near a bound, and each field where it is first and where it is last.
fn corner_fields() -> impl Iterator<Item = Slice> {
    const EXAMPLES: [&[u8]; 16] = [
        &[],
        &[0x00],
        &[0xff],
        &[0x01, 0x00],
        &[0x01, 0x01],
        &[0x01, 0x01, 0x80],
        &[0x02],
        &[0x02, 0x00],
        &[0x02, 0x01],
        &[0x02, 0x01, 0xaa],
        &[0x03, 0x00],
        &[0x03, 0x00, 0x00],
        &[0x03, 0x00, 0x01, 0xe0],
        &[0x03, 0x03, 0x01, 0x02],
        &[0x03, 0x01, 0x02, 0x01, 0x00],
        &[0x03, 0xff, 0x01, 0x02],
    ];
    let examples = EXAMPLES.into_iter().map(Slice::new);
    let alone = [0x10, 0x08, 0x04].into_iter().flat_map(ends);
    let together = [0x18, 0x0c, 0x14, 0x1c].into_iter().flat_map(ends);
    let measured = [0x12, 0x0a, 0x06, 0x1e, 0x11, 0x09, 0x05, 0x1d, 0x1f].into_iter().map(measured);
    examples.chain(alone).chain(together).chain(measured)
}

/// A field with these flags, and with data or an extension of 3 bytes, or both, the second of 4.
fn measured(flags: u8) -> Slice {
    let bytes: [u8; 30] = std::array::from_fn(|at| 3 * at as u8 + 1);
    let at = counted_end(flags);
    flagged(Slice::new(&bytes), flags).with(|bytes| [bytes[at], bytes[at + 4]] = [3, 4])
}

/// Fields with these flags that end with the last of their clock references and countdown, one byte before that, and one after.
fn ends(flags: u8) -> [Slice; 3] {
    let end = counted_end(flags);
    [end - 1, end, end + 1].map(|len| flagged(Slice::patterned(len), flags))
}

/// Of any length, most of them short.
fn random_field(rng: &mut Rng) -> Slice {
    let len = match rng.below(8) {
        0 => rng.below(LONGEST + 1),
        _ => rng.below(41),
    };
    let field = Slice::random(rng, len);
    with_lengths(field, rng)
}

// ---- Extensions.

pub const EXTENSION: [Reading; 3] = [
    Reading::new(
        0x38,
        "adaptation_field_extension::ltw_offset",
        &[0, 9, 11],
        host::ADAPTATION_EXTENSION_LTW_OFFSET,
        |bytes| of_extension(bytes, |extension| Ok(window(extension.ltw_offset()?))),
    ),
    Reading::new(
        0x39,
        "adaptation_field_extension::piecewise_rate",
        &[0, 9, 11],
        host::ADAPTATION_EXTENSION_PIECEWISE_RATE,
        |bytes| of_extension(bytes, |extension| Ok(Answer::value(extension.piecewise_rate()?))),
    ),
    Reading::new(
        0x3a,
        "adaptation_field_extension::seamless_splice",
        &[0, 9, 11, 12],
        host::ADAPTATION_EXTENSION_SEAMLESS_SPLICE,
        |bytes| {
            of_extension(bytes, |extension| {
                let splice = extension.seamless_splice()?;
                Ok(Answer::done(&[splice.splice_type.into(), splice.dts_next_au.value()]))
            })
        },
    ),
];

fn of_extension(bytes: &[u8], read: impl FnOnce(AdaptationFieldExtension) -> Outcome) -> Answer {
    told(AdaptationFieldExtension::new(bytes).and_then(read))
}

/// A time window that is not valid is kind 0, with no offset; a valid one kind 1.
fn window(offset: Option<u16>) -> Answer {
    match offset {
        Some(offset) => Answer::done(&[1, offset.into()]),
        None => Answer::done(&[0, 0]),
    }
}

/// The longest extension that is tried at every length: the longest fields, and bytes past them.
const LONG_EXTENSION: usize = 16;

/// Every flag byte with every length and every pattern of the splice's markers.
fn compare_extensions(plan: &Plan) -> Vec<Tally> {
    let mut readings = Readings::new(&EXTENSION, LONGEST);
    let mut rng = plan.rng(2);
    readings.compare_all(corner_extensions());
    for (flags, len) in every_flags(0..=LONG_EXTENSION) {
        for filling in [0x00, 0xff] {
            readings.compare(&flagged(Slice::filled(filling, len), flags), filling);
        }
        for markers in 0..8 {
            let extension = flagged(Slice::random(&mut rng, len), flags);
            readings.compare(&with_markers(extension, markers), rng.next() as u8);
        }
    }
    for _ in 0..plan.share(FUNCTIONS) {
        let extension = random_extension(&mut rng);
        readings.compare(&extension, rng.next() as u8);
    }
    readings.into_tallies()
}

/// Where the splice of an extension stands.
fn splice_at(flags: u8) -> usize {
    1 + 2 * set(flags, 0x80) + 3 * set(flags, 0x40)
}

/// The extension with these markers in its splice, where that is flagged and stands in the extension.
fn with_markers(mut extension: Slice, markers: u8) -> Slice {
    let Some(&flags) = extension.first() else { return extension };
    let at = splice_at(flags);
    if flags & 0x20 != 0 && at + 5 <= extension.len() {
        timestamp::set_markers(&mut extension[at..], markers);
    }
    extension
}

/// Every flag that counts, with the fields cut short, whole and with a byte more, and with every pattern of the markers.
fn corner_extensions() -> impl Iterator<Item = Slice> {
    let bytes = [0x00, 0xd2, 0x7b, 0xc5, 0x9e, 0x33, 0x61, 0xa8, 0x5f, 0x17, 0xee, 0x42];
    let every = (0..8).map(move |flags| flagged(Slice::new(&bytes), flags << 5 | 0x1f));
    let ends = every.clone().flat_map(|extension| {
        let end = splice_at(extension[0]) + 5 * set(extension[0], 0x20);
        [end - 1, end, end + 1].map(|len| with_markers(extension.resized(len), 0b111))
    });
    let spliced = every.filter(|extension| extension[0] & 0x20 != 0);
    let markers = spliced.flat_map(|extension| (0..8).map(move |markers| with_markers(extension, markers)));
    let windows = [0x00, 0x7f, 0x80, 0xff].map(|high| Slice::new(&[0x80, high, 0xa5]));
    ends.chain(markers).chain(windows)
}

/// Three of four with all markers.
fn random_extension(rng: &mut Rng) -> Slice {
    let len = match rng.below(16) {
        0 => rng.below(LONGEST + 1),
        _ => rng.below(LONG_EXTENSION + 1),
    };
    let extension = Slice::random(rng, len);
    match rng.below(4) {
        0 => extension,
        _ => with_markers(extension, 0b111),
    }
}

// ---- That a field and an extension of the oracle are their slice and nothing else, on which the comparison of places rests.

fn compare_kept(plan: &Plan) -> Tally {
    let mut tally = Tally::of_oracle("adaptation: the slice that the Rust keeps", &[0]);
    let mut rng = plan.rng(3);
    for len in 1..=LONGEST {
        let bytes = Slice::random(&mut rng, len);
        let expected = Answer::done(&[0, len as u64]);
        let extension = AdaptationFieldExtension::new(&bytes).map(|extension| extension.kept());
        for kept in [AdaptationField::new(&bytes).kept(), extension.unwrap_or_default()] {
            let given = place_and_length(&bytes, kept);
            tally.take_check(&expected, given == expected.values(), || format!("{bytes:?}"), || format!("{given:?}"));
        }
    }
    tally
}
