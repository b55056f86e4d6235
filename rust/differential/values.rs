//! What the oracle gives, as numbers in the order of the library's out numbers.

use mpeg2ts_reader::packet::ClockRef;
use mpeg2ts_reader::pes::{
    DsmTrickMode, FrequencyTruncationCoefficientSelection, PesLength, PtsDts, Timestamp, TimestampError,
};

/// Base and extension.
pub fn clock(clock: ClockRef) -> [u64; 2] {
    [clock.base(), clock.extension().into()]
}

/// Unbounded is kind 0, bounded kind 1 with the length.
pub fn length(length: PesLength) -> [u64; 2] {
    match length {
        PesLength::Unbounded => [0, 0],
        PesLength::Bounded(length) => [1, length.get().into()],
    }
}

/// A PTS alone is kind 1, the pair kind 2, each timestamp with its own number and its value or bit. The oracle gives the other two
/// cases as errors.
pub fn times(times: PtsDts) -> [u64; 5] {
    let (kind, [pts_number, pts], [dts_number, dts]) = match times {
        PtsDts::PtsOnly(pts) => (1, stamp(pts), [0, 0]),
        PtsDts::Both { pts, dts } => (2, stamp(pts), stamp(dts)),
        PtsDts::None | PtsDts::Invalid => unreachable!("the oracle gives no timestamps that are none"),
    };
    [kind, pts_number, pts, dts_number, dts]
}

/// The number of a timestamp's own answer, and its value or bit.
fn stamp(stamp: Result<Timestamp, TimestampError>) -> [u64; 2] {
    match stamp {
        Ok(stamp) => [0, stamp.value()],
        Err(TimestampError::MarkerBitNotSet { bit_number }) => [12, bit_number.into()],
        Err(TimestampError::IncorrectPrefixBits { actual, .. }) => [13, actual.into()],
    }
}

/// A kind, and what is given with it.
pub fn trick(mode: DsmTrickMode) -> [u64; 4] {
    use DsmTrickMode::*;
    match mode {
        FastForward { field_id, intra_slice_refresh, frequency_truncation } => {
            [0, field_id.into(), intra_slice_refresh.into(), truncation(frequency_truncation)]
        }
        SlowMotion { rep_cntrl } => [1, rep_cntrl.into(), 0, 0],
        FreezeFrame { field_id, reserved } => [2, field_id.into(), reserved.into(), 0],
        FastReverse { field_id, intra_slice_refresh, frequency_truncation } => {
            [3, field_id.into(), intra_slice_refresh.into(), truncation(frequency_truncation)]
        }
        SlowReverse { rep_cntrl } => [4, rep_cntrl.into(), 0, 0],
        Reserved { reserved } => [5, reserved.into(), 0, 0],
    }
}

fn truncation(selection: FrequencyTruncationCoefficientSelection) -> u64 {
    use FrequencyTruncationCoefficientSelection::*;
    match selection {
        DCNonZero => 0,
        FirstThreeNonZero => 1,
        FirstSixNonZero => 2,
        AllMaybeNonZero => 3,
    }
}
