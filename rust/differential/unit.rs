//! Units to write: what the request says of them, and units at random.

use crate::answer::Answer;
use crate::consumer::SIZE;
use crate::host_writer::Unit;
use crate::rng::Rng;

/// The bytes of a packet after its header.
pub const CARRIED: usize = SIZE - 4;

/// The bytes of a PES header before its fields.
const FIXED: usize = 9;

/// Times and the base of an ESCR are below this.
pub const TIMES: u64 = 1 << 33;

/// The ids that carry bare payload.
pub const BARE: [u8; 8] = [0xbc, 0xbe, 0xbf, 0xf0, 0xf1, 0xf2, 0xf8, 0xff];

/// The most bytes of payload.
pub const MOST: usize = 65_536;

impl Unit {
    /// The data bytes of its header.
    pub fn data(&self) -> usize {
        let fields = [
            (self.times != 0, 5),
            (self.times > 1, 5),
            (self.escr_there != 0, 6),
            (self.rate_there != 0, 3),
            (self.trick_there != 0, 1),
            (self.copy_there != 0, 1),
            (self.crc_there != 0, 2),
        ];
        fields.into_iter().filter(|(there, _)| *there).map(|(_, size)| size).sum()
    }

    /// The bytes of its header.
    pub fn header(&self) -> usize {
        FIXED + self.data()
    }

    /// The length that it states, with so many bytes of payload: where it is not bounded, 0.
    pub fn length(&self, size: usize) -> usize {
        if self.bounded == 0 {
            return 0;
        }
        3 + self.data() + size
    }

    /// How many packets it takes with so many bytes of payload.
    pub fn count(&self, size: usize) -> usize {
        (self.header() + size).div_ceil(CARRIED)
    }

    /// How many bytes one of its packets carries.
    pub fn carried(&self, size: usize, nth: usize) -> usize {
        CARRIED.min(self.header() + size - CARRIED * nth)
    }

    /// The answer to writing it with so many bytes of payload, to so many bytes.
    pub fn answer(&self, size: usize, room: usize) -> Answer {
        if self.is_none() {
            return Answer::refused(14, &[]);
        }
        if self.has_bad_field() {
            return Answer::refused(17, &[]);
        }
        if size > MOST || self.length(size) > 65_535 {
            return Answer::refused(18, &[]);
        }
        match self.count(size) {
            count if room / SIZE < count => Answer::refused(19, &[]),
            count => Answer::value(count as u64),
        }
    }

    /// Whether the row stands for no unit: a number above those of its type, a line each. Of a field that is not there none is looked at.
    fn is_none(&self) -> bool {
        let lines = [
            self.id > u8::MAX.into(),
            self.times > 2,
            self.escr_there != 0 && self.escr_extension > u16::MAX.into(),
            self.rate_there != 0 && self.rate > u32::MAX.into(),
            self.trick_there != 0 && self.trick > u8::MAX.into(),
            self.copy_there != 0 && self.copy > u8::MAX.into(),
            self.crc_there != 0 && self.crc > u16::MAX.into(),
        ];
        lines.contains(&true)
    }

    /// The request's list of fields that are refused, a row each.
    fn has_bad_field(&self) -> bool {
        let rows = [
            self.pid < 16 || self.pid > 8190,
            self.counter > 15,
            self.id < 0xbc || BARE.map(u64::from).contains(&self.id),
            self.bounded == 0 && !(0xe0..=0xef).contains(&self.id),
            self.times != 0 && self.pts >= TIMES,
            self.times > 1 && self.dts >= TIMES,
            self.escr_there != 0 && self.escr_base >= TIMES,
            self.escr_there != 0 && self.escr_extension > 299,
            self.rate_there != 0 && (self.rate == 0 || self.rate >= 1 << 22),
            self.copy_there != 0 && self.copy > 127,
        ];
        rows.contains(&true)
    }
}

// ---- Units.

/// A choice of the optional fields, and of a bounded length.
#[derive(Clone, Copy)]
pub struct Fields {
    /// 0 for no times, 1 for a PTS, 2 for both.
    times: usize,
    /// A bit for each of ESCR, ES rate, trick mode byte, copy info and CRC.
    others: usize,
    pub bounded: bool,
}

impl Fields {
    pub fn every() -> impl Iterator<Item = Fields> {
        let times = (0..3).flat_map(|times| (0..32).map(move |others| (times, others)));
        times.flat_map(|(times, others)| [true, false].map(|bounded| Fields { times, others, bounded }))
    }

    /// Whether all optional fields are there, or none.
    pub fn none_or_all(&self) -> bool {
        matches!((self.times, self.others), (0, 0) | (2, 31))
    }

    fn random(rng: &mut Rng) -> Fields {
        Fields { times: rng.below(3), others: rng.below(32), bounded: rng.below(2) == 0 }
    }
}

/// A unit that is permitted, with any fields.
pub fn random(rng: &mut Rng) -> Unit {
    let fields = Fields::random(rng);
    random_with(fields, rng)
}

/// A unit that is permitted, with these fields. Those that are not there have any value.
pub fn random_with(fields: Fields, rng: &mut Rng) -> Unit {
    let Fields { times, others, bounded } = fields;
    let mut there = |bit: usize| flag(others >> bit & 1 != 0, rng);
    let [escr_there, rate_there, trick_there, copy_there, crc_there] =
        [there(0), there(1), there(2), there(3), there(4)];
    let mut bit = || flag(rng.next() & 1 != 0, rng);
    let [priority, alignment, copyright, original] = [bit(), bit(), bit(), bit()];
    Unit {
        pid: random_pid(rng),
        counter: rng.below(16) as u8,
        id: random_id(bounded, rng).into(),
        bounded: flag(bounded, rng),
        priority,
        alignment,
        copyright,
        original,
        times: times as u64,
        pts: random_value(times > 0, 33, rng),
        dts: random_value(times > 1, 33, rng),
        escr_there,
        escr_base: random_value(escr_there != 0, 33, rng),
        escr_extension: if escr_there != 0 { rng.below(300) as u64 } else { rng.next() },
        rate_there,
        rate: random_value(rate_there != 0, 22, rng).max((rate_there != 0).into()),
        trick_there,
        trick: random_value(trick_there != 0, 8, rng),
        copy_there,
        copy: random_value(copy_there != 0, 7, rng),
        crc_there,
        crc: random_value(crc_there != 0, 16, rng),
    }
}

/// Mostly 1 for yes, else another number: any bit may be the only one.
fn flag(yes: bool, rng: &mut Rng) -> u64 {
    if !yes {
        return 0;
    }
    match rng.below(8) {
        0 => rng.next().max(1),
        1 => 1 << rng.below(64),
        _ => 1,
    }
}

/// A number of so many bits where the field is there, else any.
fn random_value(there: bool, bits: usize, rng: &mut Rng) -> u64 {
    if !there {
        return rng.next();
    }
    match rng.below(8) {
        0 => (1 << bits) - 1,
        _ => rng.of_width_to(bits),
    }
}

fn random_pid(rng: &mut Rng) -> u16 {
    match rng.below(8) {
        0 => 16,
        1 => 8190,
        _ => 16 + rng.below(8175) as u16,
    }
}

/// A permitted id: of video only, where the length is not bounded; else of every kind, each as likely.
fn random_id(bounded: bool, rng: &mut Rng) -> u8 {
    let video = 0xe0 + rng.below(16) as u8;
    if !bounded {
        return video;
    }
    match rng.below(4) {
        0 => video,
        1 => 0xc0 + rng.below(32) as u8,
        _ => [0xbd, 0xf3, 0xf4, 0xf5, 0xf6, 0xf7, 0xf9, 0xfa, 0xfb, 0xfc, 0xfd, 0xfe][rng.below(12)],
    }
}
