//! The gathering store of one stream.

use crate::error::Error;
use crate::ffi;
use crate::machine::Event;
use core::fmt;

/// The number that says that the bytes lie in the store.
const STORE: u64 = 255;

/// The row before the first event: an entry of the library fills it too, and a test holds the two together.
const FRESH: [u64; 3] = [0, 0, STORE];

/// What is known of the unit that is gathered from a stream's events. Its bytes stand in a store of the caller's.
///
/// ```
/// use clomaverift::{Gathering, Machine};
///
/// let mut packet = [0xFF; 188];
/// packet[..15].copy_from_slice(&[0x47, 0x41, 0, 0x10, 0, 0, 1, 0xE0, 0, 0, 0x80, 0, 0, 7, 8]);
/// let (mut machine, mut gathering) = (Machine::new(), Gathering::new());
/// let (mut log, mut store) = ([0; 24], [0; 1_000]);
/// machine.step(&packet, &mut log)?;
/// for event in machine.events(&log) {
///     gathering.gather(&packet, event?, &mut store)?;
/// }
///
/// let bytes = gathering.bytes(&packet, &store)?;
/// assert_eq!((bytes.len(), &bytes[..2]), (175, &[7, 8][..]));
/// # Ok::<(), clomaverift::Error>(())
/// ```
#[derive(Clone, Copy, PartialEq, Eq, Hash)]
pub struct Gathering {
    /// Whether a unit is open, its length, the place of its bytes: the row of numbers that the library is lent.
    row: [u64; 3],
}

impl Default for Gathering {
    #[inline]
    fn default() -> Gathering {
        Gathering::new()
    }
}

impl Gathering {
    /// Before the first event: no unit, no bytes.
    #[must_use]
    #[inline]
    pub fn new() -> Gathering {
        Gathering { row: FRESH }
    }

    /// Takes an event of a packet. A begin opens a new unit with the payload after the header, a continue adds to an open unit, an end
    /// closes it and keeps its bytes, and a continuity error empties and closes it.
    ///
    /// # Errors
    ///
    /// In this order: [`Error::WrongLength`], [`Error::NoSync`], [`Error::OutOfRange`], [`Error::StoreFull`]. On the last the unit is
    /// closed and has no bytes; on the others nothing changes.
    #[inline]
    pub fn gather(&mut self, packet: &[u8], event: Event, store: &mut [u8]) -> Result<(), Error> {
        self.gather_numbers(packet, [event.kind as u8, event.place, event.length], store)
    }

    /// The same of an event's kind, place and length.
    #[inline]
    pub(crate) fn gather_numbers(&mut self, packet: &[u8], event: [u8; 3], store: &mut [u8]) -> Result<(), Error> {
        ffi::gather(&mut self.row, packet, event, store)
    }

    /// The bytes so far: a part of the packet of a begin, otherwise of the store. The packet is that of the last event.
    ///
    /// # Errors
    ///
    /// In this order: [`Error::WrongLength`], [`Error::NoSync`], [`Error::OutOfRange`] if the bytes reach past the packet or the store.
    #[inline]
    pub fn bytes<'buf>(&self, packet: &'buf [u8], store: &'buf [u8]) -> Result<&'buf [u8], Error> {
        let [slice, place, length] = ffi::gather_bytes(&self.row, packet, store)?;
        let lent = if slice == 0 { packet } else { store };
        Ok(&lent[place as usize..][..length as usize])
    }

    /// Whether a unit is open.
    #[must_use]
    #[inline]
    pub fn is_open(&self) -> bool {
        self.row[0] == 1
    }

    /// How many bytes it has, or had when it was closed.
    #[must_use]
    #[inline]
    pub fn count(&self) -> usize {
        self.row[1] as usize
    }
}

impl fmt::Debug for Gathering {
    fn fmt(&self, f: &mut fmt::Formatter<'_>) -> fmt::Result {
        let place = Some(self.row[2]).filter(|place| *place != STORE);
        let mut parts = f.debug_struct("Gathering");
        parts.field("is_open", &self.is_open()).field("count", &self.count());
        parts.field("place_in_packet", &place).finish()
    }
}

#[cfg(test)]
mod tests {
    use super::*;
    use crate::machine::EventKind;

    fn packet() -> [u8; 188] {
        let mut bytes: [u8; 188] = core::array::from_fn(|at| at as u8);
        bytes[..13].copy_from_slice(&[0x47, 0x41, 0, 0x10, 0, 0, 1, 0xE0, 0, 0, 0x80, 0, 0]);
        bytes
    }

    fn event(kind: EventKind, place: u8, length: u8) -> Event {
        Event { kind, index: 0, place, length }
    }

    #[test]
    fn a_new_gathering_is_the_librarys() {
        for number in [0, 1, 255, u64::MAX] {
            assert_eq!(ffi::constants::gather_fresh([number; 3]), Gathering::new().row);
        }
    }

    #[test]
    fn a_unit_of_two_packets() {
        let packet = packet();
        let mut gathering = Gathering::new();
        let mut store = [0; 400];
        gathering.gather(&packet, event(EventKind::BeginPacket, 4, 184), &mut store).unwrap();
        assert_eq!(gathering.bytes(&packet, &store), Ok(&packet[13..]));
        gathering.gather(&packet, event(EventKind::ContinuePacket, 100, 88), &mut store).unwrap();
        let whole = [&packet[13..], &packet[100..]].concat();
        assert_eq!(gathering.bytes(&packet, &store), Ok(&whole[..]));
        gathering.gather(&packet, event(EventKind::EndPacket, 0, 0), &mut store).unwrap();
        assert_eq!((gathering.is_open(), gathering.count()), (false, whole.len()));
        assert_eq!(gathering.bytes(&packet, &store), Ok(&whole[..]));
        assert_eq!(store[whole.len()..], [0; 400 - 263]);
    }

    #[test]
    fn a_full_store_closes_the_unit() {
        let packet = packet();
        let mut gathering = Gathering::new();
        let mut store = [0; 200];
        gathering.gather(&packet, event(EventKind::BeginPacket, 4, 184), &mut store).unwrap();
        let before = store;
        let more = event(EventKind::ContinuePacket, 4, 184);
        assert_eq!(gathering.gather(&packet, more, &mut store), Err(Error::StoreFull));
        assert_eq!((gathering.is_open(), gathering.count(), store), (false, 0, before));
        assert_eq!(gathering.gather(&packet, more, &mut store), Ok(()));
        assert_eq!(gathering.count(), 0);
    }

    #[test]
    fn a_break_empties() {
        let packet = packet();
        let mut gathering = Gathering::new();
        let mut store = [0; 200];
        gathering.gather(&packet, event(EventKind::BeginPacket, 4, 184), &mut store).unwrap();
        gathering.gather(&packet, event(EventKind::ContinuityError, 0, 0), &mut store).unwrap();
        assert_eq!((gathering.is_open(), gathering.bytes(&packet, &store)), (false, Ok(&[][..])));
    }

    #[test]
    fn refusals_change_nothing() {
        let packet = packet();
        let mut gathering = Gathering::new();
        let begin = event(EventKind::BeginPacket, 4, 184);
        assert_eq!(gathering.gather(&packet[1..], begin, &mut [0; 9]), Err(Error::WrongLength));
        assert_eq!(gathering.gather(&[0; 188], begin, &mut [0; 9]), Err(Error::NoSync));
        let outside = event(EventKind::ContinuePacket, 5, 184);
        assert_eq!(gathering.gather(&packet, outside, &mut [0; 9]), Err(Error::OutOfRange));
        assert_eq!(gathering, Gathering::new());
        assert_eq!(gathering.bytes(&[0; 188], &[]), Err(Error::NoSync));
    }
}
