//! Packets, their adaptation fields, and the small types of both.

use crate::error::{sure, Error};
use crate::ffi;
use crate::pes::Timestamp;
use core::cmp::Ordering;
use core::fmt;
use core::hash::{Hash, Hasher};
use core::iter::FusedIterator;
use core::num::NonZeroU8;
use core::slice::Chunks;
use core::time::Duration;

/// A part of a slice, by offset and length.
#[inline]
pub(crate) fn part(buf: &[u8], [offset, length]: [u64; 2]) -> &[u8] {
    &buf[offset as usize..][..length as usize]
}

/// A number that is a flag.
#[inline]
pub(crate) fn flag([value]: [u64; 1]) -> bool {
    value != 0
}

/// A number that is a byte.
#[inline]
pub(crate) fn byte([value]: [u64; 1]) -> u8 {
    value as u8
}

/// A number of ticks of a clock, as the time since its 0, rounded down to nanoseconds.
#[inline]
pub(crate) fn duration(ticks: u64, ticks_per_second: u64) -> Duration {
    let nanoseconds = ticks % ticks_per_second * 1_000_000_000 / ticks_per_second;
    Duration::new(ticks / ticks_per_second, nanoseconds as u32)
}

/// Whether a packet's fourth byte announces an adaptation field and a payload.
#[derive(Clone, Copy, Debug, PartialEq, Eq, Hash)]
pub struct AdaptationControl {
    adaptation_field: bool,
    payload: bool,
}

impl AdaptationControl {
    /// From the fourth byte of a packet, of which two bits count.
    ///
    /// ```
    /// let control = clomaverift::AdaptationControl::new(0x1C);
    /// assert!(control.has_payload() && !control.has_adaptation_field());
    /// ```
    #[must_use]
    #[inline]
    pub fn new(header_byte: u8) -> AdaptationControl {
        AdaptationControl::of(sure(ffi::adaptation_control(header_byte)))
    }

    #[inline]
    fn of([field, payload]: [u64; 2]) -> AdaptationControl {
        AdaptationControl { adaptation_field: field != 0, payload: payload != 0 }
    }

    /// Whether a payload is announced.
    #[must_use]
    #[inline]
    pub fn has_payload(&self) -> bool {
        self.payload
    }

    /// Whether an adaptation field is announced.
    #[must_use]
    #[inline]
    pub fn has_adaptation_field(&self) -> bool {
        self.adaptation_field
    }
}

/// The scrambling bits of a packet.
#[derive(Clone, Copy, Debug, PartialEq, Eq, Hash)]
pub struct TransportScramblingControl {
    scheme: Option<NonZeroU8>,
}

impl TransportScramblingControl {
    /// From the fourth byte of a packet, of which two bits count.
    ///
    /// ```
    /// let control = clomaverift::TransportScramblingControl::from_byte_four(0x90);
    /// assert!(control.is_scrambled());
    /// assert_eq!(control.scheme().unwrap().get(), 2);
    /// ```
    #[must_use]
    #[inline]
    pub fn from_byte_four(val: u8) -> TransportScramblingControl {
        TransportScramblingControl::of(sure(ffi::transport_scrambling_control(val)))
    }

    #[inline]
    fn of([_, scheme]: [u64; 2]) -> TransportScramblingControl {
        TransportScramblingControl { scheme: NonZeroU8::new(scheme as u8) }
    }

    /// Whether the bits are not 00.
    #[must_use]
    #[inline]
    pub fn is_scrambled(&self) -> bool {
        self.scheme.is_some()
    }

    /// The value of the bits, if it is not 0.
    #[must_use]
    #[inline]
    pub fn scheme(&self) -> Option<NonZeroU8> {
        self.scheme
    }
}

/// A clock reference: a base of 33 bits at 90 kHz, and an extension of 9 bits in 300ths of it.
///
/// Its `u64`, its `Display` and its order are those of the number at 27 MHz, base × 300 + extension; two that have the same number and
/// are not equal, because an extension is 300 or more, are ordered by their base.
///
/// ```
/// use clomaverift::{ClockRef, Error};
///
/// let clock = ClockRef::from_parts(90_000, 15)?;
/// assert_eq!(u64::from(clock), 27_000_015);
/// assert_eq!(clock.to_string(), "27000015");
/// assert_eq!(ClockRef::from_parts(1 << 33, 0), Err(Error::OutOfRange));
/// # Ok::<(), Error>(())
/// ```
#[derive(Clone, Copy)]
pub struct ClockRef {
    base: u64,
    extension: u16,
}

impl ClockRef {
    /// Ticks a second: 27,000,000.
    pub const TIMEBASE: u64 = 300 * Timestamp::TIMEBASE;

    /// How many ticks it has before it wraps: 2^33 × 300.
    const TICKS: u64 = 300 << 33;

    /// Reads the first 6 bytes of a slice.
    ///
    /// # Errors
    ///
    /// [`Error::WrongLength`] for fewer than 6 bytes.
    #[inline]
    pub fn from_slice(data: &[u8]) -> Result<ClockRef, Error> {
        ffi::clock_ref_from_slice(data).map(ClockRef::of)
    }

    /// Made from its two parts.
    ///
    /// # Errors
    ///
    /// [`Error::OutOfRange`] for a base of 2^33 or more or an extension of 512 or more.
    #[inline]
    pub fn from_parts(base: u64, extension: u16) -> Result<ClockRef, Error> {
        ffi::clock_ref_from_parts(base, extension).map(ClockRef::of)
    }

    #[inline]
    pub(crate) fn of([base, extension]: [u64; 2]) -> ClockRef {
        ClockRef { base, extension: extension as u16 }
    }

    /// The base, at 90 kHz.
    #[must_use]
    #[inline]
    pub fn base(&self) -> u64 {
        self.base
    }

    /// The extension, at 27 MHz.
    #[must_use]
    #[inline]
    pub fn extension(&self) -> u16 {
        self.extension
    }

    /// The ticks from `earlier` to `self` at 27 MHz, modulo 2^33 × 300, so that a wrap between the two does not matter.
    ///
    /// ```
    /// use clomaverift::ClockRef;
    ///
    /// let last = ClockRef::from_parts((1 << 33) - 1, 299)?;
    /// assert_eq!(ClockRef::from_parts(0, 4)?.since(last), 5);
    /// # Ok::<(), clomaverift::Error>(())
    /// ```
    #[must_use]
    #[inline]
    pub fn since(self, earlier: ClockRef) -> u64 {
        (u64::from(self) + ClockRef::TICKS - u64::from(earlier) % ClockRef::TICKS) % ClockRef::TICKS
    }

    /// The seconds since the clock was 0.
    #[must_use]
    #[inline]
    pub fn as_seconds(self) -> f64 {
        u64::from(self) as f64 / ClockRef::TIMEBASE as f64
    }

    /// The time since the clock was 0, rounded down to nanoseconds.
    ///
    /// ```
    /// use clomaverift::ClockRef;
    ///
    /// let clock = ClockRef::from_parts(135_000, 27)?;
    /// assert_eq!(clock.as_duration().as_micros(), 1_500_001);
    /// # Ok::<(), clomaverift::Error>(())
    /// ```
    #[must_use]
    #[inline]
    pub fn as_duration(self) -> Duration {
        duration(self.into(), ClockRef::TIMEBASE)
    }
}

impl PartialEq for ClockRef {
    #[inline]
    fn eq(&self, other: &ClockRef) -> bool {
        flag(sure(ffi::clock_ref_eq(self.base, self.extension, other.base, other.extension)))
    }
}

impl Eq for ClockRef {}

impl Hash for ClockRef {
    #[inline]
    fn hash<H: Hasher>(&self, state: &mut H) {
        (self.base, self.extension).hash(state);
    }
}

impl Ord for ClockRef {
    #[inline]
    fn cmp(&self, other: &ClockRef) -> Ordering {
        (u64::from(*self), self.base).cmp(&(u64::from(*other), other.base))
    }
}

impl PartialOrd for ClockRef {
    #[inline]
    fn partial_cmp(&self, other: &ClockRef) -> Option<Ordering> {
        Some(self.cmp(other))
    }
}

/// Its number at 27 MHz.
impl From<ClockRef> for u64 {
    #[inline]
    fn from(clock: ClockRef) -> u64 {
        let [number] = sure(ffi::clock_ref_into_u64(clock.base, clock.extension));
        number
    }
}

/// Its number at 27 MHz.
impl fmt::Display for ClockRef {
    fn fmt(&self, f: &mut fmt::Formatter<'_>) -> fmt::Result {
        u64::from(*self).fmt(f)
    }
}

impl fmt::Debug for ClockRef {
    fn fmt(&self, f: &mut fmt::Formatter<'_>) -> fmt::Result {
        write!(f, "PCR{{{:08x}:{:04x}}}", self.base, self.extension)
    }
}

/// The continuity counter of a packet, 0 to 15.
///
/// ```
/// use clomaverift::{ContinuityCounter, Error};
///
/// let last = ContinuityCounter::new(15)?;
/// assert!(ContinuityCounter::new(0)?.follows(last));
/// assert_eq!(ContinuityCounter::new(16), Err(Error::OutOfRange));
/// # Ok::<(), Error>(())
/// ```
#[derive(Clone, Copy, Debug, PartialEq, Eq, Hash, PartialOrd, Ord)]
pub struct ContinuityCounter {
    val: u8,
}

impl ContinuityCounter {
    /// The counter of this number.
    ///
    /// # Errors
    ///
    /// [`Error::OutOfRange`] for a number above 15.
    #[inline]
    pub fn new(count: u8) -> Result<ContinuityCounter, Error> {
        ffi::continuity_counter_new(count).map(ContinuityCounter::of)
    }

    #[inline]
    fn of([value]: [u64; 1]) -> ContinuityCounter {
        ContinuityCounter { val: value as u8 }
    }

    /// Its number.
    #[must_use]
    #[inline]
    pub fn count(self) -> u8 {
        self.val
    }

    /// Whether this counter is the one after `other`; after 15 comes 0.
    #[must_use]
    #[inline]
    pub fn follows(self, other: ContinuityCounter) -> bool {
        flag(sure(ffi::continuity_counter_follows(self.val, other.val)))
    }

    /// What this counter is beside the last one of its PID: the one after it, as [`follows`](ContinuityCounter::follows) says, the same,
    /// or neither.
    ///
    /// ```
    /// use clomaverift::{Compared, ContinuityCounter};
    ///
    /// let last = ContinuityCounter::new(15)?;
    /// assert_eq!(ContinuityCounter::new(0)?.compare(last), Compared::Next);
    /// assert_eq!(ContinuityCounter::new(15)?.compare(last), Compared::Same);
    /// assert_eq!(ContinuityCounter::new(1)?.compare(last), Compared::Jump);
    /// # Ok::<(), clomaverift::Error>(())
    /// ```
    #[must_use]
    #[inline]
    pub fn compare(self, last: ContinuityCounter) -> Compared {
        match sure(ffi::continuity_counter_compare(self.val, last.val)) {
            [0] => Compared::Next,
            [1] => Compared::Same,
            _ => Compared::Jump,
        }
    }
}

/// What a continuity counter is beside the last one: [`ContinuityCounter::compare`].
#[derive(Clone, Copy, Debug, PartialEq, Eq, Hash)]
pub enum Compared {
    /// The one after it; after 15 comes 0. A packet with payload has it.
    Next,
    /// The same. A packet without payload has it, and so has one with payload that is sent again.
    Same,
    /// Neither: packets are missing between the two.
    Jump,
}

impl TryFrom<u8> for ContinuityCounter {
    type Error = Error;

    #[inline]
    fn try_from(count: u8) -> Result<ContinuityCounter, Error> {
        ContinuityCounter::new(count)
    }
}

impl From<ContinuityCounter> for u8 {
    #[inline]
    fn from(counter: ContinuityCounter) -> u8 {
        counter.val
    }
}

impl fmt::Display for ContinuityCounter {
    fn fmt(&self, f: &mut fmt::Formatter<'_>) -> fmt::Result {
        self.val.fmt(f)
    }
}

/// The identifier of a stream within the transport stream, 0 to 1FFF hex.
///
/// ```
/// use clomaverift::{Error, Pid};
///
/// const VIDEO: Result<Pid, Error> = Pid::new(0x100);
/// assert_eq!(u16::from(VIDEO?), 0x100);
/// assert_eq!((VIDEO?.to_string(), format!("{:x}", VIDEO?)), ("0x0100".to_string(), "100".to_string()));
/// assert_eq!(Pid::try_from(0x2000), Err(Error::OutOfRange));
/// # Ok::<(), Error>(())
/// ```
#[derive(Clone, Copy, PartialEq, Eq, Hash, PartialOrd, Ord)]
pub struct Pid(u16);

impl Pid {
    /// The largest PID.
    pub const MAX_VALUE: u16 = 0x1FFF;

    /// How many PIDs there are.
    pub const PID_COUNT: usize = 0x2000;

    /// The PID of the program association table.
    pub const PAT: Pid = Pid(0);

    /// The PID of the conditional access table.
    pub const CAT: Pid = Pid(1);

    /// The PID of the transport stream description table.
    pub const TSDT: Pid = Pid(2);

    /// The PID of packets without content, also called null packets.
    pub const STUFFING: Pid = Pid(Pid::MAX_VALUE);

    /// The PID of this number.
    ///
    /// # Errors
    ///
    /// [`Error::OutOfRange`] for a number above [`Pid::MAX_VALUE`].
    // A constant cannot call the library: a test holds this function to the library's over every number.
    #[inline]
    pub const fn new(pid: u16) -> Result<Pid, Error> {
        if pid > Pid::MAX_VALUE {
            return Err(Error::OutOfRange);
        }
        Ok(Pid(pid))
    }

    #[inline]
    pub(crate) fn of([value]: [u64; 1]) -> Pid {
        Pid(value as u16)
    }
}

impl TryFrom<u16> for Pid {
    type Error = Error;

    #[inline]
    fn try_from(pid: u16) -> Result<Pid, Error> {
        ffi::pid_try_from(pid).map(Pid::of)
    }
}

impl From<Pid> for u16 {
    #[inline]
    fn from(pid: Pid) -> u16 {
        pid.0
    }
}

impl From<Pid> for usize {
    #[inline]
    fn from(pid: Pid) -> usize {
        pid.0.into()
    }
}

/// As `0x0100`.
impl fmt::Display for Pid {
    fn fmt(&self, f: &mut fmt::Formatter<'_>) -> fmt::Result {
        write!(f, "0x{:04x}", self.0)
    }
}

impl fmt::LowerHex for Pid {
    fn fmt(&self, f: &mut fmt::Formatter<'_>) -> fmt::Result {
        fmt::LowerHex::fmt(&self.0, f)
    }
}

impl fmt::UpperHex for Pid {
    fn fmt(&self, f: &mut fmt::Formatter<'_>) -> fmt::Result {
        fmt::UpperHex::fmt(&self.0, f)
    }
}

impl fmt::Debug for Pid {
    fn fmt(&self, f: &mut fmt::Formatter<'_>) -> fmt::Result {
        write!(f, "Pid({:04x})", self.0)
    }
}

/// A transport packet: 188 bytes that begin with 47 hex.
///
/// ```
/// use clomaverift::{Error, Packet};
///
/// let mut bytes = [0xFF; Packet::SIZE];
/// bytes[..4].copy_from_slice(&[0x47, 0x41, 0x00, 0x13]);
/// let packet = Packet::try_new(&bytes)?;
/// assert!(packet.payload_unit_start_indicator());
/// assert_eq!(packet.continuity_counter().count(), 3);
/// assert_eq!(packet.payload().unwrap().len(), 184);
/// assert!(packet.adaptation_field().is_none());
/// assert_eq!(format!("{packet:?}"), "Packet(pid 0x0100, counter 3, start, payload of 184)");
///
/// assert_eq!(Packet::try_new(&bytes[1..]).unwrap_err(), Error::WrongLength);
/// # Ok::<(), Error>(())
/// ```
#[derive(Clone, Copy, PartialEq, Eq, Hash)]
pub struct Packet<'buf> {
    buf: &'buf [u8],
}

impl<'buf> Packet<'buf> {
    /// The first byte of every packet.
    pub const SYNC_BYTE: u8 = 0x47;

    /// The length of a packet.
    pub const SIZE: usize = 188;

    /// Whether a packet may begin with this byte.
    #[must_use]
    #[inline]
    pub fn is_sync_byte(b: u8) -> bool {
        flag(sure(ffi::packet_is_sync_byte(b)))
    }

    /// The packet of these bytes. [`Packets`] goes over many.
    ///
    /// # Errors
    ///
    /// [`Error::WrongLength`] if there are not 188 bytes, [`Error::NoSync`] if the first one is not the sync byte.
    #[inline]
    pub fn try_new(buf: &'buf [u8]) -> Result<Packet<'buf>, Error> {
        ffi::packet_try_new(buf)?;
        Ok(Packet { buf })
    }

    /// The same, and its PID, by one call of the library: reading the PID refuses what is no packet.
    #[inline]
    pub(crate) fn with_pid(buf: &'buf [u8]) -> Result<(Packet<'buf>, Pid), Error> {
        ffi::packet_pid(buf).map(|pid| (Packet { buf }, Pid::of(pid)))
    }

    /// Whether an earlier receiver has marked the packet as damaged.
    #[must_use]
    #[inline]
    pub fn transport_error_indicator(&self) -> bool {
        flag(sure(ffi::packet_transport_error_indicator(self.buf)))
    }

    /// Whether a unit begins with this packet's payload.
    #[must_use]
    #[inline]
    pub fn payload_unit_start_indicator(&self) -> bool {
        flag(sure(ffi::packet_payload_unit_start_indicator(self.buf)))
    }

    /// Whether the packet has priority over others of its PID.
    #[must_use]
    #[inline]
    pub fn transport_priority(&self) -> bool {
        flag(sure(ffi::packet_transport_priority(self.buf)))
    }

    /// The PID of the packet.
    #[must_use]
    #[inline]
    pub fn pid(&self) -> Pid {
        Pid::of(sure(ffi::packet_pid(self.buf)))
    }

    /// The scrambling bits.
    #[must_use]
    #[inline]
    pub fn transport_scrambling_control(&self) -> TransportScramblingControl {
        TransportScramblingControl::of(sure(ffi::packet_transport_scrambling_control(self.buf)))
    }

    /// Whether an adaptation field and a payload are announced.
    #[must_use]
    #[inline]
    pub fn adaptation_control(&self) -> AdaptationControl {
        AdaptationControl::of(sure(ffi::packet_adaptation_control(self.buf)))
    }

    /// The continuity counter.
    #[must_use]
    #[inline]
    pub fn continuity_counter(&self) -> ContinuityCounter {
        ContinuityCounter::of(sure(ffi::packet_continuity_counter(self.buf)))
    }

    /// The adaptation field, if there is one of a possible length: 1 to 182 with a payload, 183 without.
    #[must_use]
    #[inline]
    pub fn adaptation_field(&self) -> Option<AdaptationField<'buf>> {
        AdaptationField::of(self.buf, ffi::packet_adaptation_field(self.buf))
    }

    /// The payload, if there is one. It is never empty.
    #[must_use]
    #[inline]
    pub fn payload(&self) -> Option<&'buf [u8]> {
        self.payload_of(ffi::packet_payload(self.buf))
    }

    #[inline]
    fn payload_of(&self, answer: Result<[u64; 2], Error>) -> Option<&'buf [u8]> {
        answer.ok().map(|lies| part(self.buf, lies))
    }

    /// All that the methods above give, by one call of the library.
    ///
    /// ```
    /// use clomaverift::{Error, Packet, Pid};
    ///
    /// let mut bytes = [0xFF; Packet::SIZE];
    /// bytes[..4].copy_from_slice(&[0x47, 0x41, 0x00, 0x13]);
    /// let fields = Packet::try_new(&bytes)?.fields();
    /// assert_eq!(fields.pid, Pid::new(0x100)?);
    /// assert!(fields.payload_unit_start_indicator && fields.adaptation_field.is_none());
    /// assert_eq!(fields.payload, Some(&bytes[4..]));
    /// # Ok::<(), Error>(())
    /// ```
    #[must_use]
    #[inline]
    pub fn fields(&self) -> PacketFields<'buf> {
        let mut row = sure(ffi::packet_fields(self.buf));
        PacketFields {
            transport_error_indicator: flag(row.numbers()),
            payload_unit_start_indicator: flag(row.numbers()),
            transport_priority: flag(row.numbers()),
            pid: Pid::of(row.numbers()),
            continuity_counter: ContinuityCounter::of(row.numbers()),
            transport_scrambling_control: TransportScramblingControl::of(row.numbers()),
            adaptation_control: AdaptationControl::of(row.numbers()),
            adaptation_field: AdaptationField::of(self.buf, row.answer()),
            payload: self.payload_of(row.answer()),
        }
    }

    /// The packet's bytes.
    #[must_use]
    #[inline]
    pub fn buffer(&self) -> &'buf [u8] {
        self.buf
    }
}

impl<'buf> TryFrom<&'buf [u8]> for Packet<'buf> {
    type Error = Error;

    #[inline]
    fn try_from(buf: &'buf [u8]) -> Result<Packet<'buf>, Error> {
        Packet::try_new(buf)
    }
}

/// The fields, and the lengths of adaptation field and payload, on one line.
impl fmt::Debug for Packet<'_> {
    fn fmt(&self, f: &mut fmt::Formatter<'_>) -> fmt::Result {
        let fields = self.fields();
        write!(f, "Packet(pid {}, counter {}", fields.pid, fields.continuity_counter)?;
        let flags = [
            (fields.transport_error_indicator, "error"),
            (fields.payload_unit_start_indicator, "start"),
            (fields.transport_priority, "priority"),
            (fields.transport_scrambling_control.is_scrambled(), "scrambled"),
        ];
        flags.iter().filter(|(set, _)| *set).try_for_each(|(_, name)| write!(f, ", {name}"))?;
        if let Some(field) = fields.adaptation_field {
            write!(f, ", adaptation field of {}", field.buf.len())?;
        }
        if let Some(payload) = fields.payload {
            write!(f, ", payload of {}", payload.len())?;
        }
        f.write_str(")")
    }
}

/// The packets of a slice, one after another, 188 bytes each. Bytes that are no packet are given as their refusal, and the next 188 are
/// read all the same: [`Error::NoSync`], or [`Error::WrongLength`] for bytes after the last whole packet.
///
/// ```
/// use clomaverift::{Error, Packets, Unit};
///
/// let mut recording = Unit::new(0x100, 0xE0).packets(&[7; 300])?;
/// recording.push(0x47);
/// let mut packets = Packets::new(&recording);
/// assert_eq!(packets.len(), 3);
/// assert!(packets.next().unwrap()?.payload_unit_start_indicator());
/// assert_eq!(packets.next().unwrap()?.continuity_counter().count(), 1);
/// assert_eq!(packets.next(), Some(Err(Error::WrongLength)));
/// assert_eq!(packets.next(), None);
/// # Ok::<(), Error>(())
/// ```
#[derive(Clone, Debug)]
#[must_use = "an iterator does nothing before it is asked"]
pub struct Packets<'buf> {
    chunks: Chunks<'buf, u8>,
}

impl<'buf> Packets<'buf> {
    /// Over all of these bytes.
    #[inline]
    pub fn new(bytes: &'buf [u8]) -> Packets<'buf> {
        Packets { chunks: bytes.chunks(Packet::SIZE) }
    }
}

impl<'buf> Iterator for Packets<'buf> {
    type Item = Result<Packet<'buf>, Error>;

    #[inline]
    fn next(&mut self) -> Option<Result<Packet<'buf>, Error>> {
        self.chunks.next().map(Packet::try_new)
    }

    #[inline]
    fn size_hint(&self) -> (usize, Option<usize>) {
        self.chunks.size_hint()
    }

    #[inline]
    fn nth(&mut self, n: usize) -> Option<Result<Packet<'buf>, Error>> {
        self.chunks.nth(n).map(Packet::try_new)
    }
}

impl<'buf> DoubleEndedIterator for Packets<'buf> {
    #[inline]
    fn next_back(&mut self) -> Option<Result<Packet<'buf>, Error>> {
        self.chunks.next_back().map(Packet::try_new)
    }
}

impl ExactSizeIterator for Packets<'_> {}

impl FusedIterator for Packets<'_> {}

/// All that is read of a packet: each field is what the method of [`Packet`] with its name gives.
#[derive(Clone, Copy, Debug, PartialEq, Eq, Hash)]
#[non_exhaustive]
pub struct PacketFields<'buf> {
    /// Whether an earlier receiver has marked the packet as damaged.
    pub transport_error_indicator: bool,
    /// Whether a unit begins with this packet's payload.
    pub payload_unit_start_indicator: bool,
    /// Whether the packet has priority over others of its PID.
    pub transport_priority: bool,
    /// The PID of the packet.
    pub pid: Pid,
    /// The continuity counter.
    pub continuity_counter: ContinuityCounter,
    /// The scrambling bits.
    pub transport_scrambling_control: TransportScramblingControl,
    /// Whether an adaptation field and a payload are announced.
    pub adaptation_control: AdaptationControl,
    /// The adaptation field, if there is one of a possible length.
    pub adaptation_field: Option<AdaptationField<'buf>>,
    /// The payload, if there is one. It is never empty.
    pub payload: Option<&'buf [u8]>,
}

/// An adaptation field, without its length byte.
///
/// Reading a field that is not flagged gives [`Error::FieldNotPresent`], reading one that is truncated [`Error::NotEnoughData`].
///
/// ```
/// use clomaverift::{AdaptationField, Error};
///
/// let field = AdaptationField::new(&[0x50, 0, 0, 0xAF, 0xC8, 0x7E, 0x0F])?;
/// assert!(field.random_access_indicator());
/// assert_eq!(field.pcr()?.base(), 90_000);
/// assert_eq!(field.opcr(), Err(Error::FieldNotPresent));
/// # Ok::<(), Error>(())
/// ```
#[derive(Clone, Copy, PartialEq, Eq, Hash)]
pub struct AdaptationField<'buf> {
    buf: &'buf [u8],
}

impl<'buf> AdaptationField<'buf> {
    /// The adaptation field of these bytes.
    ///
    /// # Errors
    ///
    /// [`Error::WrongLength`] if there are none.
    #[inline]
    pub fn new(buf: &'buf [u8]) -> Result<AdaptationField<'buf>, Error> {
        ffi::adaptation_field_discontinuity_indicator(buf)?;
        Ok(AdaptationField { buf })
    }

    /// Of a packet, and the answer that gives the field's offset and length in it.
    #[inline]
    pub(crate) fn of(packet: &'buf [u8], answer: Result<[u64; 2], Error>) -> Option<AdaptationField<'buf>> {
        answer.ok().map(|lies| AdaptationField { buf: part(packet, lies) })
    }

    /// Whether a discontinuity of the stream is announced.
    #[must_use]
    #[inline]
    pub fn discontinuity_indicator(&self) -> bool {
        flag(sure(ffi::adaptation_field_discontinuity_indicator(self.buf)))
    }

    /// Whether the stream can be entered here.
    #[must_use]
    #[inline]
    pub fn random_access_indicator(&self) -> bool {
        flag(sure(ffi::adaptation_field_random_access_indicator(self.buf)))
    }

    /// 1 if the payload has priority over others of its PID, else 0.
    #[must_use]
    #[inline]
    pub fn elementary_stream_priority_indicator(&self) -> u8 {
        flag(sure(ffi::adaptation_field_elementary_stream_priority_indicator(self.buf))).into()
    }

    /// The program clock reference.
    ///
    /// # Errors
    ///
    /// [`Error::FieldNotPresent`] if it is not flagged, [`Error::NotEnoughData`] if it is truncated.
    #[inline]
    pub fn pcr(&self) -> Result<ClockRef, Error> {
        ffi::adaptation_field_pcr(self.buf).map(ClockRef::of)
    }

    /// The original program clock reference.
    ///
    /// # Errors
    ///
    /// [`Error::FieldNotPresent`] if it is not flagged, [`Error::NotEnoughData`] if it is truncated.
    #[inline]
    pub fn opcr(&self) -> Result<ClockRef, Error> {
        ffi::adaptation_field_opcr(self.buf).map(ClockRef::of)
    }

    /// How many packets of this PID come before a splicing point, as the byte stands: above 127 it is a negative number in two's
    /// complement.
    ///
    /// # Errors
    ///
    /// [`Error::FieldNotPresent`] if it is not flagged, [`Error::NotEnoughData`] if it is truncated.
    #[inline]
    pub fn splice_countdown(&self) -> Result<u8, Error> {
        ffi::adaptation_field_splice_countdown(self.buf).map(byte)
    }

    /// The private data.
    ///
    /// # Errors
    ///
    /// [`Error::FieldNotPresent`] if it is not flagged, [`Error::NotEnoughData`] if it is truncated.
    #[inline]
    pub fn transport_private_data(&self) -> Result<&'buf [u8], Error> {
        ffi::adaptation_field_transport_private_data(self.buf).map(|lies| part(self.buf, lies))
    }

    /// The extension.
    ///
    /// # Errors
    ///
    /// [`Error::FieldNotPresent`] if it is not flagged, [`Error::NotEnoughData`] if it is truncated or has no bytes.
    #[inline]
    pub fn adaptation_field_extension(&self) -> Result<AdaptationFieldExtension<'buf>, Error> {
        let lies = ffi::adaptation_field_extension(self.buf)?;
        Ok(AdaptationFieldExtension { buf: part(self.buf, lies) })
    }
}

/// Every field, or why it is not given.
impl fmt::Debug for AdaptationField<'_> {
    fn fmt(&self, f: &mut fmt::Formatter<'_>) -> fmt::Result {
        f.debug_struct("AdaptationField")
            .field("discontinuity_indicator", &self.discontinuity_indicator())
            .field("random_access_indicator", &self.random_access_indicator())
            .field("elementary_stream_priority_indicator", &self.elementary_stream_priority_indicator())
            .field("pcr", &self.pcr())
            .field("opcr", &self.opcr())
            .field("splice_countdown", &self.splice_countdown())
            .field("transport_private_data", &self.transport_private_data())
            .field("adaptation_field_extension", &self.adaptation_field_extension())
            .finish()
    }
}

/// The extension of an adaptation field, without its length byte.
///
/// Reading a field that is not flagged gives [`Error::FieldNotPresent`], reading one that is truncated [`Error::NotEnoughData`].
///
/// ```
/// use clomaverift::{AdaptationFieldExtension, Error};
///
/// let extension = AdaptationFieldExtension::new(&[0x80, 0x81, 0x02])?;
/// assert_eq!(extension.ltw_offset(), Ok(Some(258)));
/// assert_eq!(extension.piecewise_rate(), Err(Error::FieldNotPresent));
/// # Ok::<(), Error>(())
/// ```
#[derive(Clone, Copy, PartialEq, Eq, Hash)]
pub struct AdaptationFieldExtension<'buf> {
    buf: &'buf [u8],
}

impl<'buf> AdaptationFieldExtension<'buf> {
    /// The extension of these bytes.
    ///
    /// # Errors
    ///
    /// [`Error::NotEnoughData`] if there are none.
    #[inline]
    pub fn new(buf: &'buf [u8]) -> Result<AdaptationFieldExtension<'buf>, Error> {
        if buf.is_empty() {
            return Err(Error::NotEnoughData);
        }
        Ok(AdaptationFieldExtension { buf })
    }

    /// The offset of the legal time window, or `None` if it is there and not valid.
    ///
    /// # Errors
    ///
    /// [`Error::FieldNotPresent`] if it is not flagged, [`Error::NotEnoughData`] if it is truncated.
    #[inline]
    pub fn ltw_offset(&self) -> Result<Option<u16>, Error> {
        let [kind, offset] = ffi::adaptation_extension_ltw_offset(self.buf)?;
        Ok((kind == 1).then_some(offset as u16))
    }

    /// The piecewise rate.
    ///
    /// # Errors
    ///
    /// [`Error::FieldNotPresent`] if it is not flagged, [`Error::NotEnoughData`] if it is truncated.
    #[inline]
    pub fn piecewise_rate(&self) -> Result<u32, Error> {
        ffi::adaptation_extension_piecewise_rate(self.buf).map(|[value]| value as u32)
    }

    /// The seamless splice.
    ///
    /// # Errors
    ///
    /// [`Error::FieldNotPresent`] if it is not flagged, [`Error::NotEnoughData`] if it is truncated, [`Error::MarkerBitNotSet`] if a
    /// marker bit of its time is 0.
    #[inline]
    pub fn seamless_splice(&self) -> Result<SeamlessSplice, Error> {
        let [splice_type, dts] = ffi::adaptation_extension_seamless_splice(self.buf)?;
        Ok(SeamlessSplice { splice_type: splice_type as u8, dts_next_au: Timestamp::of([dts]) })
    }
}

/// Every field, or why it is not given.
impl fmt::Debug for AdaptationFieldExtension<'_> {
    fn fmt(&self, f: &mut fmt::Formatter<'_>) -> fmt::Result {
        f.debug_struct("AdaptationFieldExtension")
            .field("ltw_offset", &self.ltw_offset())
            .field("piecewise_rate", &self.piecewise_rate())
            .field("seamless_splice", &self.seamless_splice())
            .finish()
    }
}

/// The seamless splice of an adaptation field's extension.
#[derive(Clone, Copy, Debug, PartialEq, Eq, Hash)]
pub struct SeamlessSplice {
    /// What the splice demands of the decoder.
    pub splice_type: u8,
    /// When the first access unit after the splice is to be decoded.
    pub dts_next_au: Timestamp,
}

#[cfg(test)]
mod tests {
    use super::*;

    #[test]
    fn constants_are_the_librarys() {
        assert_eq!(ffi::constants::packet(), Ok([Packet::SYNC_BYTE.into(), Packet::SIZE as u64]));
        assert_eq!(ffi::constants::control(), Ok([Pid::MAX_VALUE.into(), Pid::PID_COUNT as u64]));
        assert!(Packet::is_sync_byte(Packet::SYNC_BYTE) && !Packet::is_sync_byte(0x48));
    }

    #[test]
    fn pids_are_the_librarys() {
        for number in 0..=u16::MAX {
            assert_eq!(Pid::new(number), ffi::constants::pid_new(number).map(Pid::of));
            assert_eq!(Pid::new(number), Pid::try_from(number));
        }
        assert_eq!([Pid::PAT, Pid::CAT, Pid::TSDT, Pid::STUFFING].map(u16::from), [0, 1, 2, 0x1FFF]);
    }

    #[test]
    fn counters_beside_each_other() {
        for (count, last) in (0..16).flat_map(|count| (0..16).map(move |last| (count, last))) {
            let [counter, before] = [count, last].map(|number| ContinuityCounter::new(number).unwrap());
            let expected = match (count + 16 - last) % 16 {
                0 => Compared::Same,
                1 => Compared::Next,
                _ => Compared::Jump,
            };
            assert_eq!(counter.compare(before), expected, "{count} after {last}");
            assert_eq!(counter.follows(before), expected == Compared::Next);
        }
        assert_eq!(ffi::continuity_counter_compare(16, 0), Err(Error::OutOfRange));
        assert_eq!(ffi::continuity_counter_compare(0, 16), Err(Error::OutOfRange));
    }

    #[test]
    fn clock_references_in_order() {
        let clock = |base, extension| ClockRef::from_parts(base, extension).unwrap();
        let ordered =
            [clock(0, 0), clock(0, 299), clock(0, 300), clock(1, 0), clock(0, 301), clock((1 << 33) - 1, 511)];
        let mut sorted = ordered;
        sorted.reverse();
        sorted.sort();
        assert_eq!(sorted, ordered);
        assert_eq!(clock(0, 300).cmp(&clock(1, 0)), Ordering::Less); // one number, two references
        let numbers = [0, 299, 300, 300, 301, (((1 << 33) - 1) * 300) + 511];
        assert_eq!(sorted.map(u64::from), numbers);
        // The last is past the wrap, as its extension is above 299.
        assert_eq!((clock(0, 211).since(ordered[5]), ordered[5].since(clock(0, 0))), (0, 211));
        assert_eq!((clock(1, 0).since(clock(0, 1)), clock(0, 1).since(clock(1, 0))), (299, (300 << 33) - 299));
        assert_eq!((clock(45_000, 0).as_seconds(), clock(45_000, 0).as_duration().as_millis()), (0.5, 500));
    }

    #[test]
    fn packets_of_a_slice() {
        let mut bytes = [0x47; 3 * Packet::SIZE + 5];
        bytes[Packet::SIZE] = 0;
        let found: Vec<_> = Packets::new(&bytes).map(|packet| packet.map(|packet| packet.buffer().len())).collect();
        assert_eq!(found, [Ok(188), Err(Error::NoSync), Ok(188), Err(Error::WrongLength)]);
        let mut packets = Packets::new(&bytes);
        assert_eq!((packets.len(), packets.next_back()), (4, Some(Err(Error::WrongLength))));
        assert_eq!((packets.nth(1), packets.len()), (Some(Err(Error::NoSync)), 1));
        assert!(Packets::new(&[]).next().is_none());
    }

    #[test]
    fn flags_of_a_packet() {
        let mut bytes = [0; Packet::SIZE];
        bytes[..5].copy_from_slice(&[0x47, 0xBF, 0xFF, 0xF9, 7]);
        let packet = Packet::try_new(&bytes).unwrap();
        assert!(packet.transport_error_indicator() && packet.transport_priority());
        assert!(!packet.payload_unit_start_indicator());
        assert_eq!(packet.pid(), Pid::STUFFING);
        assert_eq!(packet.transport_scrambling_control().scheme(), NonZeroU8::new(3));
        assert_eq!(packet.continuity_counter(), ContinuityCounter::new(9).unwrap());
        assert_eq!(packet.adaptation_control(), AdaptationControl::new(0x30));
        assert_eq!(packet.payload().unwrap().len(), 176);
        let text = "Packet(pid 0x1fff, counter 9, error, priority, scrambled, adaptation field of 7, payload of 176)";
        assert_eq!((format!("{packet:?}"), format!("{packet:#?}")), (text.to_string(), text.to_string()));
        bytes[0] = 0;
        assert_eq!(Packet::try_new(&bytes).unwrap_err(), Error::NoSync);
    }

    #[test]
    fn an_adaptation_field_with_everything() {
        let mut bytes = vec![0xFF];
        bytes.extend([0, 0, 0, 0, 0x80, 0x01]); // PCR: base 1, extension 1
        bytes.extend([0, 0, 0, 1, 0x7F, 0x02]); // OPCR: base 2, extension 258
        bytes.push(0x81);
        bytes.extend([2, 0xAA, 0xBB]);
        bytes.extend([11, 0xE0, 0x01, 0x02, 0xFF, 0x01, 0x02, 0x51, 0x00, 0x05, 0xBF, 0x21]);
        let field = AdaptationField::new(&bytes).unwrap();
        assert!(field.discontinuity_indicator() && field.random_access_indicator());
        assert_eq!(field.elementary_stream_priority_indicator(), 1);
        assert_eq!(field.pcr(), ClockRef::from_parts(1, 1));
        assert_eq!(field.opcr(), ClockRef::from_parts(2, 258));
        assert_eq!(field.splice_countdown(), Ok(0x81));
        assert_eq!(field.transport_private_data(), Ok(&[0xAA, 0xBB][..]));
        let extension = field.adaptation_field_extension().unwrap();
        assert_eq!(extension.ltw_offset(), Ok(None));
        assert_eq!(extension.piecewise_rate(), Ok(0x3F0102));
        let splice = extension.seamless_splice().unwrap();
        assert_eq!((splice.splice_type, splice.dts_next_au.value()), (5, 90_000));
    }

    #[test]
    fn corners_of_adaptation_fields() {
        assert_eq!(AdaptationField::new(&[]).unwrap_err(), Error::WrongLength);
        assert_eq!(AdaptationFieldExtension::new(&[]).unwrap_err(), Error::NotEnoughData);
        let empty = AdaptationField::new(&[1, 0]).unwrap();
        assert_eq!(empty.adaptation_field_extension().unwrap_err(), Error::NotEnoughData);
        let extension = AdaptationFieldExtension::new(&[0x20, 0x51, 0, 4, 0xBF, 0x21]).unwrap();
        assert_eq!(extension.seamless_splice(), Err(Error::MarkerBitNotSet { bit_number: 23 }));
    }
}
