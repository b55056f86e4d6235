//! The writer: a unit with its payload as packets.

use crate::error::Error;
use crate::ffi;
use crate::packet::{ClockRef, Packet};
use crate::pes::{Copyright, DataAlignment, OriginalOrCopy, PesParsedContents};
use alloc::vec;
use alloc::vec::Vec;

/// The bytes of a PES header with every field that can be written.
const LONGEST_HEADER: usize = 9 + 23;

/// The payload bytes of a packet.
const CARRIED: usize = 184;

/// The timestamps of a unit that is to be written.
#[derive(Clone, Copy, Debug, Default, PartialEq, Eq, Hash)]
pub enum Times {
    /// None.
    #[default]
    Untimed,
    /// A PTS alone.
    Pts(u64),
    /// A PTS and a DTS.
    Both {
        /// The presentation timestamp.
        pts: u64,
        /// The decoding timestamp.
        dts: u64,
    },
}

/// The fields of a unit that is to be written. The library checks them: [`Error::BadField`] exactly for a PID outside 16 to
/// 8190, a counter above 15, a stream id below BC hex or of those that carry a bare payload, an unbounded length with an id outside E0
/// to EF hex, a time or an ESCR base of 2^33 or more, an ESCR extension above 299, an ES rate of 0 or of 2^22 or more, and a copy info
/// above 127. More fields may be added: a unit is made by [`Unit::new`] and the methods below, or by setting fields of such a unit.
///
/// ```
/// use clomaverift::{Times, Unit};
///
/// let unit = Unit::new(0x100, 0xE0).counter(3).pts_dts(97_200, 90_000).unbounded();
/// assert_eq!(unit.times, Times::Both { pts: 97_200, dts: 90_000 });
/// let packets = unit.packets(&[7; 1_000])?;
/// assert_eq!(packets.len(), 6 * 188);
/// # Ok::<(), clomaverift::Error>(())
/// ```
#[derive(Clone, Copy, Debug, PartialEq, Eq, Hash)]
#[non_exhaustive]
pub struct Unit {
    /// The PID of the packets.
    pub pid: u16,
    /// The continuity counter of the first packet.
    pub counter: u8,
    /// The stream id.
    pub id: u8,
    /// Whether the header gives the length.
    pub bounded: bool,
    /// The priority bit.
    pub priority: bool,
    /// The alignment bit.
    pub alignment: bool,
    /// The copyright bit.
    pub copyright: bool,
    /// The original bit.
    pub original: bool,
    /// The timestamps.
    pub times: Times,
    /// The elementary stream clock reference: base and extension.
    pub escr: Option<(u64, u16)>,
    /// The elementary stream rate.
    pub es_rate: Option<u32>,
    /// The trick mode byte.
    pub trick_mode: Option<u8>,
    /// The additional copy info.
    pub copy_info: Option<u8>,
    /// The checksum of the previous PES packet.
    pub crc: Option<u16>,
}

impl Unit {
    /// A unit of bounded length with no optional field, all bits 0, and a first counter of 0.
    #[must_use]
    pub fn new(pid: u16, id: u8) -> Unit {
        Unit {
            pid,
            counter: 0,
            id,
            bounded: true,
            priority: false,
            alignment: false,
            copyright: false,
            original: false,
            times: Times::Untimed,
            escr: None,
            es_rate: None,
            trick_mode: None,
            copy_info: None,
            crc: None,
        }
    }

    /// With this counter on the first packet.
    #[must_use]
    pub fn counter(self, counter: u8) -> Unit {
        Unit { counter, ..self }
    }

    /// With the length in the header, or without.
    #[must_use]
    pub fn bounded(self, bounded: bool) -> Unit {
        Unit { bounded, ..self }
    }

    /// With no length in the header.
    #[must_use]
    pub fn unbounded(self) -> Unit {
        self.bounded(false)
    }

    /// With this priority bit.
    #[must_use]
    pub fn priority(self, priority: bool) -> Unit {
        Unit { priority, ..self }
    }

    /// With this alignment bit.
    #[must_use]
    pub fn alignment(self, alignment: bool) -> Unit {
        Unit { alignment, ..self }
    }

    /// With the alignment bit set.
    #[must_use]
    pub fn aligned(self) -> Unit {
        self.alignment(true)
    }

    /// With this copyright bit.
    #[must_use]
    pub fn copyright(self, copyright: bool) -> Unit {
        Unit { copyright, ..self }
    }

    /// With this original bit.
    #[must_use]
    pub fn original(self, original: bool) -> Unit {
        Unit { original, ..self }
    }

    /// With these timestamps.
    #[must_use]
    pub fn times(self, times: Times) -> Unit {
        Unit { times, ..self }
    }

    /// With a PTS alone.
    #[must_use]
    pub fn pts(self, pts: u64) -> Unit {
        self.times(Times::Pts(pts))
    }

    /// With a PTS and a DTS.
    #[must_use]
    pub fn pts_dts(self, pts: u64, dts: u64) -> Unit {
        self.times(Times::Both { pts, dts })
    }

    /// With an elementary stream clock reference.
    #[must_use]
    pub fn escr(self, clock: ClockRef) -> Unit {
        Unit { escr: Some((clock.base(), clock.extension())), ..self }
    }

    /// With an elementary stream rate.
    #[must_use]
    pub fn es_rate(self, rate: u32) -> Unit {
        Unit { es_rate: Some(rate), ..self }
    }

    /// With a trick mode byte.
    #[must_use]
    pub fn trick_mode(self, byte: u8) -> Unit {
        Unit { trick_mode: Some(byte), ..self }
    }

    /// With additional copy info.
    #[must_use]
    pub fn copy_info(self, info: u8) -> Unit {
        Unit { copy_info: Some(info), ..self }
    }

    /// With the checksum of the previous PES packet.
    #[must_use]
    pub fn crc(self, crc: u16) -> Unit {
        Unit { crc: Some(crc), ..self }
    }

    /// With the header fields of a unit that was read: bits, timestamps and optional fields. One that is absent there, or refused, is left
    /// out.
    ///
    /// ```
    /// use clomaverift::{Packet, PesHeader, Unit};
    ///
    /// let unit = Unit::new(0x100, 0xE0).pts_dts(97_200, 90_000).aligned().es_rate(5_000);
    /// let packets = unit.packets(&[7; 100])?;
    /// let header = PesHeader::from_bytes(Packet::try_new(&packets)?.payload().unwrap())?;
    /// assert_eq!(Unit::new(0x100, 0xE0).fields_of(&header.contents().parsed()?), unit);
    /// # Ok::<(), clomaverift::Error>(())
    /// ```
    #[must_use]
    pub fn fields_of(self, contents: &PesParsedContents<'_>) -> Unit {
        let times = contents.pts_dts().ok();
        let (pts, dts) = (times.and_then(|times| times.pts()), times.and_then(|times| times.dts()));
        Unit {
            priority: contents.pes_priority() == 1,
            alignment: contents.data_alignment_indicator() == DataAlignment::Aligned,
            copyright: contents.copyright() == Copyright::Undefined, // the bit is 1
            original: contents.original_or_copy() == OriginalOrCopy::Original,
            times: match (pts, dts) {
                (Some(pts), Some(dts)) => Times::Both { pts: pts.value(), dts: dts.value() },
                (Some(pts), None) => Times::Pts(pts.value()),
                _ => Times::Untimed,
            },
            escr: contents.escr().ok().map(|clock| (clock.base(), clock.extension())),
            es_rate: contents.es_rate().ok().map(u32::from),
            trick_mode: contents.raw_trick_mode().ok(),
            copy_info: contents.additional_copy_info().ok(),
            crc: contents.previous_pes_packet_crc().ok(),
            ..self
        }
    }

    /// The unit's packets, in memory of their own.
    ///
    /// # Errors
    ///
    /// [`Error::BadField`] and [`Error::TooLong`], as [`write()`].
    pub fn packets(&self, payload: &[u8]) -> Result<Vec<u8>, Error> {
        let most = (LONGEST_HEADER + payload.len() + CARRIED - 1) / CARRIED;
        let mut out = vec![0; most * Packet::SIZE];
        let count = write(self, payload, &mut out)?;
        out.truncate(count * Packet::SIZE);
        Ok(out)
    }

    /// The row of numbers that the library is lent. The types leave no unit that it would refuse with [`Error::OutOfRange`].
    fn row(&self) -> [u64; 20] {
        let [times, pts, dts] = match self.times {
            Times::Untimed => [0; 3],
            Times::Pts(pts) => [1, pts, 0],
            Times::Both { pts, dts } => [2, pts, dts],
        };
        let [escr_there, base, extension] = self.escr.map_or([0; 3], |(base, extension)| [1, base, extension.into()]);
        let [rate_there, rate] = field(self.es_rate);
        let [trick_there, trick] = field(self.trick_mode);
        let [copy_there, copy] = field(self.copy_info);
        let [crc_there, crc] = field(self.crc);
        [
            self.id.into(),
            self.bounded.into(),
            self.priority.into(),
            self.alignment.into(),
            self.copyright.into(),
            self.original.into(),
            times,
            pts,
            dts,
            escr_there,
            base,
            extension,
            rate_there,
            rate,
            trick_there,
            trick,
            copy_there,
            copy,
            crc_there,
            crc,
        ]
    }
}

/// Whether a field is there, and its value or 0.
fn field(value: Option<impl Into<u64>>) -> [u64; 2] {
    value.map_or([0; 2], |value| [1, value.into()])
}

/// Writes a unit with its payload as packets to the start of `out`, and returns their number, the least that can carry the unit. The bytes
/// of `out` after them stay as they were.
///
/// # Errors
///
/// In this order, and without writing anything: [`Error::BadField`], [`Error::TooLong`] for more than 65,536 bytes of payload or for a
/// bounded length that does not fit its 16 bits, [`Error::NoRoom`].
///
/// ```
/// use clomaverift::{write, Error, Packet, Unit};
///
/// let unit = Unit::new(0x100, 0xC0).pts(90_000);
/// let mut out = [0; 2 * Packet::SIZE];
/// assert_eq!(write(&unit, &[1; 170], &mut out)?, 1);
/// assert_eq!(write(&unit, &[1; 171], &mut out)?, 2);
/// assert_eq!(write(&unit, &[1; 500], &mut out), Err(Error::NoRoom));
/// assert_eq!(write(&unit.counter(16), &[], &mut out), Err(Error::BadField));
/// # Ok::<(), Error>(())
/// ```
pub fn write(unit: &Unit, payload: &[u8], out: &mut [u8]) -> Result<usize, Error> {
    ffi::write(unit.pid, unit.counter, &unit.row(), payload, out).map(|count| count as usize)
}

#[cfg(test)]
mod tests {
    use super::*;
    use crate::pes::{Copyright, DataAlignment, OriginalOrCopy, PesHeader, PesLength};

    fn full() -> Unit {
        let unit = Unit::new(0x1234, 0xE5).counter(15).aligned().pts_dts(8_589_934_591, 1).es_rate(4_194_303);
        let unit =
            unit.escr(ClockRef::from_parts(8_589_934_591, 299).unwrap()).trick_mode(0x2A).copy_info(127).crc(0xBEEF);
        Unit { priority: true, copyright: true, original: true, ..unit }
    }

    #[test]
    fn a_unit_with_every_field_is_read_back() {
        let payload: Vec<u8> = (0..=255).collect();
        let packets = full().packets(&payload).unwrap();
        assert_eq!(packets.len(), 2 * 188);
        let first = Packet::try_new(&packets[..188]).unwrap();
        assert_eq!((u16::from(first.pid()), first.continuity_counter().count()), (0x1234, 15));
        let header = PesHeader::from_bytes(first.payload().unwrap()).unwrap();
        assert_eq!(header.stream_id().number(), 0xE5);
        assert_eq!(header.pes_packet_length(), PesLength::Bounded((3 + 23 + 256).try_into().unwrap()));
        let contents = header.contents().parsed().unwrap();
        assert_eq!(contents.pes_priority(), 1);
        assert_eq!(contents.data_alignment_indicator(), DataAlignment::Aligned);
        assert_eq!(contents.copyright(), Copyright::Undefined);
        assert_eq!(contents.original_or_copy(), OriginalOrCopy::Original);
        let times = contents.pts_dts().unwrap();
        assert_eq!(times.pts().map(|t| t.value()), Some(8_589_934_591));
        assert_eq!(times.dts().map(|t| t.value()), Some(1));
        assert_eq!(contents.escr(), ClockRef::from_parts(8_589_934_591, 299));
        assert_eq!(contents.es_rate().map(u32::from), Ok(4_194_303));
        assert_eq!((contents.raw_trick_mode(), contents.additional_copy_info()), (Ok(0x2A), Ok(127)));
        assert_eq!(contents.previous_pes_packet_crc(), Ok(0xBEEF));
        let second = Packet::try_new(&packets[188..]).unwrap();
        assert_eq!(second.continuity_counter().count(), 0);
        assert_eq!([contents.payload(), second.payload().unwrap()].concat(), payload);
    }

    #[test]
    fn rows() {
        let bare = [0xE0, 1, 0, 0, 0, 0, 0, 0, 0, 0, 0, 0, 0, 0, 0, 0, 0, 0, 0, 0];
        assert_eq!(Unit::new(0x100, 0xE0).row(), bare);
        assert_eq!(Unit::new(0x100, 0xE0).pts(7).row()[6..9], [1, 7, 0]);
        let most = 8_589_934_591;
        let row = [0xE5, 1, 1, 1, 1, 1, 2, most, 1, 1, most, 299, 1, 4_194_303, 1, 0x2A, 1, 127, 1, 0xBEEF];
        assert_eq!(full().row(), row);
        let bits: [fn(Unit) -> Unit; 5] = [
            |unit| unit.bounded(false),
            |unit| unit.priority(true),
            |unit| unit.alignment(true),
            |unit| unit.copyright(true),
            |unit| unit.original(true),
        ];
        for (at, change) in (1..).zip(bits) {
            let mut row = bare;
            row[at] ^= 1;
            assert_eq!(change(Unit::new(0x100, 0xE0)).row(), row);
        }
    }

    /// Numbers that no field has are refused as fields: each fits its place of the row.
    #[test]
    fn the_largest_numbers_of_the_types() {
        let mut unit = Unit::new(u16::MAX, u8::MAX).counter(u8::MAX).pts_dts(u64::MAX, u64::MAX).es_rate(u32::MAX);
        unit = unit.trick_mode(u8::MAX).copy_info(u8::MAX).crc(u16::MAX);
        unit.escr = Some((u64::MAX, u16::MAX));
        assert_eq!(write(&unit, &[], &mut [0; 188]), Err(Error::BadField));
        let good = Unit::new(0x100, 0xE0).trick_mode(u8::MAX).crc(u16::MAX);
        assert_eq!(write(&good, &[], &mut [0; 188]), Ok(1));
    }

    #[test]
    fn every_bad_field_is_refused() {
        let good = full();
        let bad = [
            Unit { pid: 15, ..good },
            Unit { pid: 8191, ..good },
            Unit { counter: 16, ..good },
            Unit { id: 0xBB, ..good },
            Unit { id: 0xBC, ..good },
            Unit { id: 0xC0, bounded: false, ..good },
            good.pts(1 << 33),
            good.pts_dts(0, 1 << 33),
            Unit { escr: Some((1 << 33, 0)), ..good },
            Unit { escr: Some((0, 300)), ..good },
            good.es_rate(0),
            good.es_rate(1 << 22),
            good.copy_info(128),
        ];
        let mut out = [7; 400];
        for unit in bad {
            assert_eq!(write(&unit, &[], &mut out), Err(Error::BadField), "{unit:?}");
        }
        assert_eq!(out, [7; 400]);
    }

    #[test]
    fn sizes() {
        let unit = Unit::new(0x100, 0xE0);
        let count = |unit: &Unit, n: usize| unit.packets(&vec![0; n]).map(|packets| packets.len() / 188);
        assert_eq!((count(&unit, 175), count(&unit, 176)), (Ok(1), Ok(2)));
        let timed = unit.pts(0);
        assert_eq!((count(&timed, 65_527).is_ok(), count(&timed, 65_528)), (true, Err(Error::TooLong)));
        let full = full().unbounded();
        assert_eq!((count(&full, 65_536), count(&full, 65_537)), (Ok(357), Err(Error::TooLong)));
        let mut out = [7; 188 + 100];
        assert_eq!(write(&unit, &[0; 176], &mut out), Err(Error::NoRoom));
        assert_eq!(write(&unit, &[0; 175], &mut out), Ok(1));
        assert_eq!(out[188..], [7; 100]);
    }
}
