//! Timestamps, read alone.

use crate::calls::{Function, Kind, ACCEPTED, MIXED};
use crate::declarations::{cmv_timestamp_from_bytes, cmv_timestamp_from_pts_bytes};
use crate::rng::Rng;
use mpeg2ts_reader::pes::{Timestamp, TimestampError};
use std::slice;

const COUNT: usize = 1_000_000;
const SIZE: usize = 5;

pub const FROM_BYTES: Function = Function {
    name: "Timestamp::from_bytes",
    library: cmv_timestamp_from_bytes,
    rust: rust_from_bytes,
    count: COUNT,
    size: SIZE,
    make,
    rows: &[ACCEPTED, MIXED],
};

pub const FROM_PTS_BYTES: Function = Function {
    name: "Timestamp::from_pts_bytes",
    library: cmv_timestamp_from_pts_bytes,
    rust: rust_from_pts_bytes,
    count: COUNT,
    size: SIZE,
    make,
    rows: &[ACCEPTED, MIXED],
};

#[inline(never)]
unsafe extern "C" fn rust_from_bytes(buf: *const u8, len: usize, value: *mut u64) -> u32 {
    told(Timestamp::from_bytes(slice::from_raw_parts(buf, len)), &mut *value)
}

#[inline(never)]
unsafe extern "C" fn rust_from_pts_bytes(buf: *const u8, len: usize, value: *mut u64) -> u32 {
    told(Timestamp::from_pts_bytes(slice::from_raw_parts(buf, len)), &mut *value)
}

#[inline(always)]
fn told(result: Result<Timestamp, TimestampError>, value: &mut u64) -> u32 {
    match result {
        Ok(timestamp) => {
            *value = timestamp.value();
            0
        }
        Err(TimestampError::MarkerBitNotSet { bit_number }) => 12 + 256 * bit_number as u32,
        Err(TimestampError::IncorrectPrefixBits { expected, actual }) => {
            13 + 256 * expected as u32 + 65_536 * actual as u32
        }
    }
}

/// The prefix of a PTS, and every marker or any.
fn make(stamp: &mut [u8], _rng: &mut Rng, kind: Kind) {
    stamp[0] = stamp[0] & 0x0f | 0x20;
    if kind == Kind::Accepted {
        set_markers(stamp);
    }
}

pub fn set_markers(stamp: &mut [u8]) {
    [0, 2, 4].into_iter().for_each(|at| stamp[at] |= 1);
}
