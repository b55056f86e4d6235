//! The event machine of one stream, and the log that it writes.

use crate::error::{unknown, Error};
use crate::ffi;
use crate::packet::ContinuityCounter;
use core::fmt;
use core::iter::FusedIterator;

/// The places of a machine's numbers in its row.
const MODE: usize = 0;
const PHASE: usize = 1;
const LAST: usize = 2;
const REPEAT: usize = 3;
const ANNOUNCED: usize = 4;
const TAKEN: usize = 5;
const PLACE: usize = 6;

/// The number of no last counter.
const NO_COUNTER: u64 = 255;

/// The bytes of a log entry.
pub(crate) const ENTRY: usize = 8;

/// By whose rules a machine judges the continuity counters. In both modes a packet with the payload flag goes on if its counter is the one
/// after the last, and one without it if its counter is the last again; the first packet always goes on. The modes differ in what becomes
/// of other packets, and in which packet announces a stream. Each case has the number that it has in the row of the C header.
#[derive(Clone, Copy, Debug, Default, PartialEq, Eq, Hash)]
#[non_exhaustive]
pub enum Mode {
    /// By those of mpeg2ts-reader: every other packet is a continuity error. So is each repeat, if a station sends packets twice. A stream
    /// whose first continuity error comes before its first packet with the start flag is never announced.
    #[default]
    Crate = 0,
    /// By those of Rec. ITU-T H.222.0 | ISO/IEC 13818-1 (2.4.3.3 and 2.4.3.5).
    ///
    /// A packet may be sent twice: if it has the counter of the one just before, and both have the payload flag, it is a repeat. It is
    /// dropped without an event, and counts as taken. Its other bytes are not compared. It may be sent twice and no more: a repeat right
    /// after a dropped one is a continuity error, and one more after that is dropped again. [`Repeat`] says which of them is next.
    ///
    /// A packet whose adaptation field has the discontinuity flag goes on whatever its counter is, and is never a repeat.
    ///
    /// Every stream is announced: [`EventKind::StartStream`] comes with the first packet that has the start flag or is a continuity error,
    /// and is not dropped. It precedes that packet's other events. So it is the first event of a stream, and is given once.
    Standard = 1,
}

/// Whether the packet just before may be repeated. A machine keeps it in both modes, so that its mode can be changed between two packets,
/// and asks for it in [`Mode::Standard`] alone. Each case has the number that it has in the row of the C header.
#[derive(Clone, Copy, Debug, PartialEq, Eq, Hash)]
#[non_exhaustive]
pub enum Repeat {
    /// It may not, for it had no payload flag; or there was none.
    Barred = 0,
    /// It may, once.
    Open = 1,
    /// No more, for it was dropped as a repeat itself.
    Spent = 2,
}

/// The phase of a machine. Each case has the number that it has in the row of the C header.
#[derive(Clone, Copy, Debug, PartialEq, Eq, Hash)]
#[non_exhaustive]
pub enum Phase {
    /// No packet with the start flag was seen.
    Begin = 0,
    /// A packet with the start flag was seen.
    Started = 1,
    /// There was a continuity error, and no packet with the start flag since.
    IgnoreRest = 2,
}

/// Makes numbers of the cases of an enum, and cases of the numbers, for a host that stores states.
macro_rules! numbered {
    ($name:ident: $($case:ident),*) => {
        impl From<$name> for u8 {
            #[inline]
            fn from(case: $name) -> u8 {
                case as u8
            }
        }

        impl TryFrom<u8> for $name {
            type Error = Error;

            /// [`Error::OutOfRange`] for a number that no case has.
            #[inline]
            fn try_from(number: u8) -> Result<$name, Error> {
                [$($name::$case),*].get(usize::from(number)).copied().ok_or(Error::OutOfRange)
            }
        }
    };
}

numbered!(Mode: Crate, Standard);
numbered!(Repeat: Barred, Open, Spent);
numbered!(Phase: Begin, Started, IgnoreRest);

/// The bytes of a log that is never full: 8 for each packet, and 8 more for each packet with the start flag. With so many free bytes
/// [`Machine::step`] and [`Machine::run`] never answer [`Error::LogFull`], whatever the packets are. That is proved, and so is that there are
/// packets which need all of them.
///
/// It holds from every state in [`Mode::Crate`]. In [`Mode::Standard`] it holds from [`Machine::standard`] on, and once the stream was
/// [announced](Machine::announced); in any other state a machine may need 8 bytes more.
///
/// If it is not known how many packets have the start flag, count every packet as one. A number too large for `usize` becomes the largest.
///
/// ```
/// use clomaverift::{log_bytes, Machine, Packet, Packets, Unit};
///
/// let bytes = Unit::new(0x100, 0xE0).pts(90_000).packets(&[0; 1_000])?; // a recording of one PID
/// let packets = bytes.len() / Packet::SIZE;
/// let starts = Packets::new(&bytes).flatten().filter(|packet| packet.payload_unit_start_indicator()).count();
///
/// let mut log = vec![0; log_bytes(packets, starts)];
/// let ran = Machine::new().run(&bytes, &mut log)?;
/// assert_eq!((packets, starts, log.len()), (6, 1, 56));
/// assert_eq!((ran.packets, ran.ended), (6, None));
/// # Ok::<(), clomaverift::Error>(())
/// ```
#[must_use]
#[inline]
pub const fn log_bytes(packets: usize, starts: usize) -> usize {
    packets.saturating_add(starts).saturating_mul(ENTRY)
}

/// The event machine of one PID's packets: what mpeg2ts-reader's `PesPacketFilter` tells its consumer is written to a log here.
///
/// The caller keeps the log: any slice, 8 bytes for each event. A packet has at most two events, and three in [`Mode::Standard`], so 24
/// bytes are enough for it; [`log_bytes`] says how many are enough for many packets.
///
/// ```
/// use clomaverift::{EventKind, Machine};
///
/// let mut packet = [0xFF; 188];
/// packet[..13].copy_from_slice(&[0x47, 0x41, 0, 0x10, 0, 0, 1, 0xE0, 0, 0, 0x80, 0, 0]);
/// let mut machine = Machine::new();
/// let mut log = [0; 64];
/// machine.step(&packet, &mut log)?;
/// packet[1] = 0x01; // no start, and the counter stays: a continuity error
/// machine.step(&packet, &mut log)?;
///
/// let kinds: Vec<_> = machine.events(&log).map(|event| event.unwrap().kind).collect();
/// assert_eq!(kinds, [EventKind::StartStream, EventKind::BeginPacket, EventKind::ContinuityError]);
/// # Ok::<(), clomaverift::Error>(())
/// ```
///
/// # Packets that are sent twice
///
/// By the standard a station may send a packet twice, so that one of the two can be lost. [`Machine::new`] judges counters as
/// mpeg2ts-reader does, and has a continuity error for each repeat; [`Machine::standard`] drops it. There a stream in which each packet is
/// sent twice has the events of the single stream:
///
/// ```
/// use clomaverift::{EventKind, Machine, Packet, Unit};
///
/// fn events(mut machine: Machine, packets: &[u8]) -> Vec<(EventKind, u8, u8)> {
///     let mut log = [0; 256];
///     let ran = machine.run(packets, &mut log).unwrap();
///     assert_eq!(ran.packets as usize, packets.len() / Packet::SIZE); // a repeat is taken too
///     machine.events(&log).map(Result::unwrap).map(|event| (event.kind, event.place, event.length)).collect()
/// }
///
/// let single = Unit::new(0x100, 0xE0).pts(90_000).packets(&[1; 500])?;
/// let twice: Vec<u8> = single.chunks(Packet::SIZE).flat_map(|packet| [packet, packet].concat()).collect();
/// assert_eq!(events(Machine::standard(), &twice), events(Machine::standard(), &single));
/// assert_eq!(events(Machine::standard(), &single), events(Machine::new(), &single));
///
/// let errors = |events: Vec<(EventKind, u8, u8)>| {
///     events.iter().filter(|(kind, ..)| *kind == EventKind::ContinuityError).count()
/// };
/// assert_eq!(errors(events(Machine::new(), &twice)), 3);
/// # Ok::<(), clomaverift::Error>(())
/// ```
///
/// # Streams that begin with a continuity error
///
/// A recording may begin within a unit, and lose packets before the next unit begins. mpeg2ts-reader then never announces the stream, and
/// neither does [`Machine::new`]; [`Machine::standard`] announces it with the packet that is the continuity error:
///
/// ```
/// use clomaverift::{EventKind, Machine, Packet, Unit};
///
/// fn kinds(mut machine: Machine, packets: &[u8]) -> Vec<EventKind> {
///     let mut log = [0; 64];
///     let ran = machine.run(packets, &mut log).unwrap();
///     assert_eq!(ran.ended, None);
///     machine.events(&log).map(|event| event.unwrap().kind).collect()
/// }
///
/// let before = Unit::new(0x100, 0xE0).packets(&[1; 500])?; // counters 0 to 2
/// let next = Unit::new(0x100, 0xE0).counter(3).packets(&[2; 100])?;
/// let cut = [&before[Packet::SIZE..2 * Packet::SIZE], &next].concat(); // counters 1 and 3
///
/// let lost = [EventKind::ContinuityError, EventKind::BeginPacket];
/// assert_eq!(kinds(Machine::new(), &cut), lost);
/// assert_eq!(kinds(Machine::standard(), &cut), [&[EventKind::StartStream], &lost[..]].concat());
/// # Ok::<(), clomaverift::Error>(())
/// ```
#[derive(Clone, Copy, PartialEq, Eq, Hash)]
pub struct Machine {
    /// The row of numbers that the library is lent.
    row: [u64; ffi::MACHINE],
}

impl Default for Machine {
    #[inline]
    fn default() -> Machine {
        Machine::new()
    }
}

impl Machine {
    /// A machine before its first packet, at the start of a log, in [`Mode::Crate`].
    #[must_use]
    #[inline]
    pub fn new() -> Machine {
        Machine::fresh(Mode::Crate)
    }

    /// The same in [`Mode::Standard`].
    #[must_use]
    #[inline]
    pub fn standard() -> Machine {
        Machine::fresh(Mode::Standard)
    }

    /// A machine before its first packet. Entries of the library fill the same rows, and a test holds the two together.
    #[inline]
    pub(crate) fn fresh(mode: Mode) -> Machine {
        Machine::from_parts(mode, Phase::Begin, None, Repeat::Barred, false, 0, 0)
    }

    /// A machine in a state that was kept elsewhere: each part is what the method of its name gives. A step or a run checks the place,
    /// which has to be a multiple of 8 within the log.
    ///
    /// ```
    /// use clomaverift::{ContinuityCounter, Machine, Mode, Phase, Repeat};
    ///
    /// let machine = Machine::from_parts(
    ///     Mode::Standard, Phase::Started, Some(ContinuityCounter::new(5)?), Repeat::Open, true, 1_000, 0,
    /// );
    /// let numbers: [u8; 3] = [machine.mode().into(), machine.phase().into(), machine.repeat().into()]; // to be stored
    /// let [mode, phase, repeat] = numbers;
    /// let (mode, phase, repeat) = (mode.try_into()?, phase.try_into()?, repeat.try_into()?);
    /// let (last, announced) = (machine.last(), machine.announced());
    /// let again = Machine::from_parts(mode, phase, last, repeat, announced, machine.taken(), machine.place());
    /// assert_eq!(again, machine);
    /// # Ok::<(), clomaverift::Error>(())
    /// ```
    #[must_use]
    #[inline]
    pub fn from_parts(
        mode: Mode,
        phase: Phase,
        last: Option<ContinuityCounter>,
        repeat: Repeat,
        announced: bool,
        taken: u32,
        place: usize,
    ) -> Machine {
        let last = last.map_or(NO_COUNTER, |counter| counter.count().into());
        let row = [mode as u64, phase as u64, last, repeat as u64, announced.into(), taken.into(), place as u64];
        Machine { row }
    }

    /// Takes a packet, and writes its events to the log.
    ///
    /// # Errors
    ///
    /// In this order: [`Error::WrongLength`], [`Error::NoSync`], [`Error::OutOfRange`] for a place that is not a multiple of 8 within the
    /// log, [`Error::IndexFull`], [`Error::LogFull`] if there is not room for all events of the packet. A refused packet changes neither
    /// the machine nor the log.
    #[inline]
    pub fn step(&mut self, packet: &[u8], log: &mut [u8]) -> Result<(), Error> {
        ffi::machine_step(&mut self.row, packet, log)
    }

    /// Takes whole packets one after another, as [`Machine::step`] does, up to the first one that would be refused. That packet, if there
    /// is one, is no error of the run: [`Ran`] says how many packets were taken and why the next one was refused. The machine and the log
    /// are then as they were after the last packet taken, so that the run can go on from there.
    ///
    /// ```
    /// use clomaverift::{Error, Machine};
    ///
    /// let mut bytes = [0xFF; 2 * 188];
    /// bytes[..13].copy_from_slice(&[0x47, 0x41, 0, 0x10, 0, 0, 1, 0xE0, 0, 0, 0x80, 0, 0]);
    /// bytes[188] = 0x00; // not 47 hex
    /// let mut machine = Machine::new();
    /// let mut log = [0; 64];
    /// let ran = machine.run(&bytes, &mut log)?;
    /// assert_eq!((ran.packets, ran.ended), (1, Some(Error::NoSync)));
    /// assert_eq!(machine.taken(), 1);
    /// assert_eq!(machine.events(&log).count(), 2);
    /// # Ok::<(), Error>(())
    /// ```
    ///
    /// # Errors
    ///
    /// The run itself is refused with [`Error::WrongLength`] if the length of the bytes is not a multiple of 188; then with
    /// [`Error::OutOfRange`] if the machine's place is not a multiple of 8 within the log, also if there are no bytes. A refused run takes
    /// no packet, and changes neither the machine nor the log.
    ///
    /// ```
    /// # use clomaverift::{Error, Machine, Mode, Phase, Repeat};
    /// let mut machine = Machine::new();
    /// let mut log = [7; 64];
    /// assert_eq!(machine.run(&[0x47; 187], &mut log), Err(Error::WrongLength));
    /// assert_eq!((machine, log), (Machine::new(), [7; 64]));
    ///
    /// let mut between_entries = Machine::from_parts(Mode::Crate, Phase::Begin, None, Repeat::Barred, false, 0, 4);
    /// assert_eq!(between_entries.run(&[], &mut log), Err(Error::OutOfRange));
    /// ```
    #[inline]
    pub fn run(&mut self, packets: &[u8], log: &mut [u8]) -> Result<Ran, Error> {
        let [packets, ended] = ffi::machine_run(&mut self.row, packets, log)?;
        Ok(Ran { packets: packets as u32, ended: Error::from_word(ended as u32) })
    }

    /// The events that the machine has written to its log.
    #[inline]
    pub fn events<'log>(&self, log: &'log [u8]) -> Events<'log> {
        Events::new(&log[..self.place().min(log.len())])
    }

    /// Puts the machine at the start of a log, and its count of packets to 0. The stream goes on.
    #[inline]
    pub fn rewind(&mut self) {
        (self.row[TAKEN], self.row[PLACE]) = (0, 0);
    }

    /// By whose rules the machine judges counters.
    #[must_use]
    #[inline]
    pub fn mode(&self) -> Mode {
        match self.row[MODE] {
            0 => Mode::Crate,
            _ => Mode::Standard,
        }
    }

    /// Has the next packets judged by these rules. The stream goes on.
    ///
    /// ```
    /// use clomaverift::{Machine, Mode};
    ///
    /// let mut machine = Machine::new();
    /// machine.set_mode(Mode::Standard);
    /// assert_eq!(machine, Machine::standard());
    /// ```
    #[inline]
    pub fn set_mode(&mut self, mode: Mode) {
        self.row[MODE] = mode as u64;
    }

    /// Where the machine is.
    #[must_use]
    #[inline]
    pub fn phase(&self) -> Phase {
        match self.row[PHASE] {
            0 => Phase::Begin,
            1 => Phase::Started,
            _ => Phase::IgnoreRest,
        }
    }

    /// The counter of the last packet taken.
    #[must_use]
    #[inline]
    pub fn last(&self) -> Option<ContinuityCounter> {
        ContinuityCounter::new(self.row[LAST] as u8).ok()
    }

    /// Whether the last packet taken may be repeated: [`Repeat::Spent`] if it was itself dropped as a repeat.
    #[must_use]
    #[inline]
    pub fn repeat(&self) -> Repeat {
        match self.row[REPEAT] {
            0 => Repeat::Barred,
            1 => Repeat::Open,
            _ => Repeat::Spent,
        }
    }

    /// Whether the stream was announced: whether a packet taken gave [`EventKind::StartStream`], in either mode. In [`Mode::Standard`] it is
    /// not announced again; [`Mode::Crate`] does not ask for it.
    ///
    /// ```
    /// use clomaverift::{EventKind, Machine, Mode, Unit};
    ///
    /// let first = Unit::new(0x100, 0xE0).packets(&[1; 100])?;
    /// let second = Unit::new(0x100, 0xE0).counter(1).packets(&[2; 100])?;
    /// let (mut machine, mut log) = (Machine::new(), [0; 64]);
    /// machine.step(&first, &mut log)?;
    /// assert!(machine.announced());
    ///
    /// machine.rewind();
    /// machine.set_mode(Mode::Standard);
    /// machine.step(&second, &mut log)?;
    /// let kinds: Vec<_> = machine.events(&log).map(|event| event.unwrap().kind).collect();
    /// assert_eq!(kinds, [EventKind::EndPacket, EventKind::BeginPacket]);
    /// # Ok::<(), clomaverift::Error>(())
    /// ```
    #[must_use]
    #[inline]
    pub fn announced(&self) -> bool {
        self.row[ANNOUNCED] != 0
    }

    /// The packets taken, repeats too: the index of the next one.
    #[must_use]
    #[inline]
    pub fn taken(&self) -> u32 {
        self.row[TAKEN] as u32
    }

    /// The next free byte of the log.
    #[must_use]
    #[inline]
    pub fn place(&self) -> usize {
        self.row[PLACE] as usize
    }
}

impl fmt::Debug for Machine {
    fn fmt(&self, f: &mut fmt::Formatter<'_>) -> fmt::Result {
        let mut parts = f.debug_struct("Machine");
        parts.field("mode", &self.mode()).field("phase", &self.phase()).field("last", &self.last());
        parts.field("repeat", &self.repeat()).field("announced", &self.announced());
        parts.field("taken", &self.taken()).field("place", &self.place()).finish()
    }
}

/// What a run did.
#[must_use = "a run may end before its last packet"]
#[derive(Clone, Copy, Debug, PartialEq, Eq, Hash)]
#[non_exhaustive]
pub struct Ran {
    /// How many packets the run took.
    pub packets: u32,
    /// Why the packet after those was refused; `None` if all were taken. One of [`Error::NoSync`], [`Error::IndexFull`] and
    /// [`Error::LogFull`].
    pub ended: Option<Error>,
}

impl Ran {
    /// A run of so many packets, and why it ended before its last one.
    #[inline]
    pub fn new(packets: u32, ended: Option<Error>) -> Ran {
        Ran { packets, ended }
    }
}

/// What happened.
#[derive(Clone, Copy, Debug, PartialEq, Eq, Hash)]
#[non_exhaustive]
pub enum EventKind {
    /// The stream is announced, with its first packet that has the start flag, unless a continuity error came before it. In
    /// [`Mode::Standard`] the continuity error itself announces it, and no stream is lost.
    StartStream = 1,
    /// A unit begins with this packet's payload.
    BeginPacket = 2,
    /// This packet's payload belongs to the unit.
    ContinuePacket = 3,
    /// The unit ended with the packet before.
    EndPacket = 4,
    /// This packet's counter does not follow the one before: the unit is not complete, and has no end.
    ContinuityError = 5,
}

impl TryFrom<u8> for EventKind {
    type Error = Error;

    /// The kind of this number in the log. [`Error::OutOfRange`] for a number that is not 1 to 5.
    #[inline]
    fn try_from(number: u8) -> Result<EventKind, Error> {
        EventKind::of(number.into()).ok_or(Error::OutOfRange)
    }
}

impl From<EventKind> for u8 {
    #[inline]
    fn from(kind: EventKind) -> u8 {
        kind as u8
    }
}

impl EventKind {
    #[inline]
    fn of(number: u64) -> Option<EventKind> {
        Some(match number {
            1 => EventKind::StartStream,
            2 => EventKind::BeginPacket,
            3 => EventKind::ContinuePacket,
            4 => EventKind::EndPacket,
            5 => EventKind::ContinuityError,
            _ => return None,
        })
    }
}

/// The word that the event lister prints: `start`, `begin`, `continue`, `end` or `error`.
impl fmt::Display for EventKind {
    fn fmt(&self, f: &mut fmt::Formatter<'_>) -> fmt::Result {
        f.pad(match self {
            EventKind::StartStream => "start",
            EventKind::BeginPacket => "begin",
            EventKind::ContinuePacket => "continue",
            EventKind::EndPacket => "end",
            EventKind::ContinuityError => "error",
        })
    }
}

/// An event of a stream.
#[derive(Clone, Copy, Debug, PartialEq, Eq, Hash)]
#[non_exhaustive]
pub struct Event {
    /// What happened.
    pub kind: EventKind,
    /// The index of the packet, as its machine counts.
    pub index: u32,
    /// The offset of the payload in the packet, for a begin and a continue; else 0.
    pub place: u8,
    /// The length of the payload, for a begin and a continue; else 0.
    pub length: u8,
}

impl Event {
    /// The entry at an offset of a log.
    ///
    /// # Errors
    ///
    /// [`Error::OutOfRange`] if the log has none there, or the bytes are no entry.
    #[inline]
    pub fn at(log: &[u8], at: usize) -> Result<Event, Error> {
        ffi::log_entry_at(log, at).and_then(Event::of)
    }

    /// An event of the packet with this index, with the offset and length of the payload.
    #[must_use]
    #[inline]
    pub fn new(kind: EventKind, index: u32, place: u8, length: u8) -> Event {
        Event { kind, index, place, length }
    }

    #[inline]
    fn of([kind, index, place, length]: [u64; 4]) -> Result<Event, Error> {
        let kind = EventKind::of(kind).ok_or_else(|| unknown(kind))?;
        Ok(Event { kind, index: index as u32, place: place as u8, length: length as u8 })
    }

    /// The event's part of its packet: the payload, for a begin and a continue. Empty if the packet has no such part.
    #[must_use]
    #[inline]
    pub fn bytes<'buf>(&self, packet: &'buf [u8]) -> &'buf [u8] {
        let start = usize::from(self.place);
        packet.get(start..start + usize::from(self.length)).unwrap_or_default()
    }
}

/// The line that the event lister prints: index, kind, place and length.
///
/// ```
/// use clomaverift::{Event, EventKind};
///
/// assert_eq!(Event::new(EventKind::ContinuePacket, 1, 4, 184).to_string(), "1 continue 4 184");
/// ```
impl fmt::Display for Event {
    fn fmt(&self, f: &mut fmt::Formatter<'_>) -> fmt::Result {
        write!(f, "{} {} {} {}", self.index, self.kind, self.place, self.length)
    }
}

/// The events of a log, one after another; an entry that cannot be read is given as its refusal, and is the last.
#[derive(Clone, Debug)]
#[must_use = "an iterator does nothing before it is asked"]
pub struct Events<'log> {
    log: &'log [u8],
    at: usize,
}

impl<'log> Events<'log> {
    /// Over all of these bytes. For the events that a machine has written there is [`Machine::events`].
    #[inline]
    pub fn new(log: &'log [u8]) -> Events<'log> {
        Events { log, at: 0 }
    }
}

impl Iterator for Events<'_> {
    type Item = Result<Event, Error>;

    #[inline]
    fn next(&mut self) -> Option<Result<Event, Error>> {
        if self.at >= self.log.len() {
            return None;
        }
        let event = Event::at(self.log, self.at);
        self.at = if event.is_ok() { self.at + ENTRY } else { self.log.len() };
        Some(event)
    }

    #[inline]
    fn size_hint(&self) -> (usize, Option<usize>) {
        let left = self.log.len().saturating_sub(self.at);
        (usize::from(left > 0), Some((left + ENTRY - 1) / ENTRY))
    }
}

impl FusedIterator for Events<'_> {}

#[cfg(test)]
mod tests {
    use super::*;

    fn packet(start: bool, counter: u8) -> [u8; 188] {
        let mut bytes = [0xFF; 188];
        let first = if start { 0x41 } else { 0x01 };
        bytes[..13].copy_from_slice(&[0x47, first, 0, 0x10 | counter, 0, 0, 1, 0xE0, 0, 0, 0x80, 0, 0]);
        bytes
    }

    /// A machine in the crate's mode.
    fn kept(phase: Phase, last: Option<ContinuityCounter>, taken: u32, place: usize) -> Machine {
        Machine::from_parts(Mode::Crate, phase, last, Repeat::Barred, true, taken, place)
    }

    fn told(machine: &Machine, log: &[u8]) -> Vec<(u32, EventKind, u8, u8)> {
        let events = machine.events(log).map(Result::unwrap);
        events.map(|event| (event.index, event.kind, event.place, event.length)).collect()
    }

    #[test]
    fn the_worked_example_of_the_lister() {
        let bytes = [packet(true, 0), packet(false, 1), packet(true, 3)].concat();
        let mut machine = Machine::new();
        let mut log = [0; 128];
        assert_eq!(machine.run(&bytes, &mut log), Ok(Ran { packets: 3, ended: None }));
        let expected = [
            (0, EventKind::StartStream, 0, 0),
            (0, EventKind::BeginPacket, 4, 184),
            (1, EventKind::ContinuePacket, 4, 184),
            (2, EventKind::ContinuityError, 0, 0),
            (2, EventKind::BeginPacket, 4, 184),
        ];
        assert_eq!(told(&machine, &log), expected);
        assert_eq!((machine.phase(), machine.last()), (Phase::Started, ContinuityCounter::new(3).ok()));
        assert_eq!((machine.taken(), machine.place()), (3, 40));
    }

    #[test]
    fn a_new_machine_is_the_librarys() {
        for number in [0, 1, 255, u64::MAX] {
            assert_eq!(ffi::constants::machine_fresh([number; ffi::MACHINE]), Machine::new().row);
            assert_eq!(ffi::constants::machine_standard([number; ffi::MACHINE]), Machine::standard().row);
        }
    }

    #[test]
    fn a_refused_step_changes_nothing() {
        let mut machine = Machine::new();
        let before = machine;
        let mut log = [7; 8];
        assert_eq!(machine.step(&packet(true, 0), &mut log), Err(Error::LogFull));
        assert_eq!(machine.step(&[0x47; 187], &mut log), Err(Error::WrongLength));
        assert_eq!(machine.step(&[0; 188], &mut log), Err(Error::NoSync));
        assert_eq!((machine, log), (before, [7; 8]));
    }

    #[test]
    fn a_run_ends_before_the_packet_that_is_refused() {
        let bytes = [packet(true, 0), packet(false, 1), packet(true, 2)].concat();
        let mut machine = Machine::new();
        let mut log = [7; 31]; // for three entries; the third packet has two more
        assert_eq!(machine.run(&bytes, &mut log), Ok(Ran { packets: 2, ended: Some(Error::LogFull) }));
        assert_eq!((machine.taken(), machine.place(), &log[24..]), (2, 24, &[7; 7][..]));
        assert_eq!(machine.run(&bytes[376..], &mut log), Ok(Ran { packets: 0, ended: Some(Error::LogFull) }));
        machine.rewind();
        assert_eq!(machine.run(&bytes[376..], &mut log), Ok(Ran { packets: 1, ended: None }));
        assert_eq!(told(&machine, &log), [(0, EventKind::EndPacket, 0, 0), (0, EventKind::BeginPacket, 4, 184)]);

        let mut machine = kept(Phase::Started, ContinuityCounter::new(15).ok(), u32::MAX - 1, 0);
        assert_eq!(machine.run(&bytes, &mut log), Ok(Ran { packets: 1, ended: Some(Error::IndexFull) }));
        assert_eq!(machine.taken(), u32::MAX);
    }

    /// Packets that need all of a log: so many have the start flag, and the others follow; the counters run from this one on.
    fn longest(starts: usize, packets: usize, counter: usize) -> Vec<u8> {
        (0..packets).flat_map(|nth| packet(nth < starts, ((counter + nth) % 16) as u8)).collect()
    }

    /// A log of so many bytes is enough for these packets, and one of an entry less is not.
    fn needs(machine: Machine, packets: &[u8], bytes: usize) {
        let count = (packets.len() / 188) as u32;
        let (mut enough, mut log) = (machine, vec![0; bytes]);
        assert_eq!(enough.run(packets, &mut log), Ok(Ran { packets: count, ended: None }));
        assert_eq!((enough.place(), enough.events(&log).count()), (bytes, bytes / ENTRY));
        for fewer in [1, ENTRY] {
            let (mut short, mut log) = (machine, vec![0; bytes - fewer]);
            let ended = Some(Error::LogFull);
            assert_eq!(short.run(packets, &mut log), Ok(Ran { packets: count - 1, ended }), "{fewer} bytes fewer");
        }
    }

    #[test]
    fn packets_that_need_every_byte_of_the_log() {
        let mut waiting = Machine::standard();
        assert_eq!(waiting.step(&packet(false, 5), &mut []), Ok(()));
        for (starts, packets) in [(1, 1), (1, 7), (5, 5), (1_000, 3_000)] {
            let bytes = log_bytes(packets, starts);
            needs(Machine::new(), &longest(starts, packets, 0), bytes);
            needs(Machine::standard(), &longest(starts, packets, 0), bytes);
            needs(waiting, &longest(starts, packets, 7), bytes + ENTRY);
        }
    }

    #[test]
    fn the_bytes_of_a_log() {
        assert_eq!([log_bytes(0, 0), log_bytes(1, 0), log_bytes(3_000, 1_000)], [0, 8, 32_000]);
        assert_eq!(log_bytes(u32::MAX as usize, u32::MAX as usize), 68_719_476_720);
        assert_eq!([log_bytes(usize::MAX, 1), log_bytes(usize::MAX / 8, 1)], [usize::MAX; 2]);
    }

    #[test]
    fn a_run_over_no_packet() {
        let mut machine = kept(Phase::IgnoreRest, ContinuityCounter::new(9).ok(), u32::MAX, 8);
        let before = machine;
        assert_eq!(machine.run(&[], &mut [0; 8]), Ok(Ran { packets: 0, ended: None }));
        assert_eq!(machine, before);
    }

    #[test]
    fn a_refused_run_changes_nothing() {
        let bytes = [packet(true, 0), packet(false, 1)].concat();
        let places = [0, 8, 12, 64, usize::MAX - 7];
        for (machine, length) in places.iter().flat_map(|&place| {
            let machine = kept(Phase::Started, ContinuityCounter::new(15).ok(), 5, place);
            [0, 1, 187, 188, 189, 375, 376].map(|length| (machine, length))
        }) {
            let error = match (length % 188, machine.place()) {
                (0, 0 | 8) => continue,
                (0, _) => Error::OutOfRange,
                _ => Error::WrongLength,
            };
            let (mut now, mut log) = (machine, [7; 40]);
            assert_eq!(now.run(&bytes[..length], &mut log), Err(error), "{length} bytes, {machine:?}");
            assert_eq!((now, log), (machine, [7; 40]));
        }
    }

    #[test]
    fn states_kept_elsewhere() {
        let mut machine = kept(Phase::Started, ContinuityCounter::new(4).ok(), u32::MAX, 0);
        assert_eq!(machine.step(&packet(true, 5), &mut [0; 16]), Err(Error::IndexFull));
        machine.rewind();
        let mut log = [0; 16];
        assert_eq!(machine.step(&packet(true, 5), &mut log), Ok(()));
        assert_eq!(told(&machine, &log), [(0, EventKind::EndPacket, 0, 0), (0, EventKind::BeginPacket, 4, 184)]);
        let mut machine = kept(Phase::IgnoreRest, None, 0, 24);
        assert_eq!(machine.step(&packet(true, 5), &mut [0; 16]), Err(Error::OutOfRange));
    }

    /// A packet by its name: P with the payload flag or A without, the counter, and then `d` for the discontinuity flag, `s` for the
    /// start flag and a head.
    fn named(name: &str) -> [u8; 188] {
        let counter: u8 = name[1..].trim_end_matches(|letter| "ds".contains(letter)).parse().unwrap();
        let (payload, flag, start) = (name.starts_with('P'), name.contains('d'), name.contains('s'));
        let mut bytes = packet(start, counter);
        let field = if flag { 0x80 } else { 0 };
        match (payload, flag) {
            (true, false) => return bytes,
            (true, true) => bytes[3..].rotate_right(2),
            (false, _) => bytes[4..].fill(0xFF),
        }
        bytes[3..6].copy_from_slice(&[
            if payload { 0x30 } else { 0x20 } | counter,
            if payload { 1 } else { 183 },
            field,
        ]);
        bytes
    }

    /// A machine by the rules, of which a packet's fate is told: it goes on, it is dropped or it breaks.
    struct Rules {
        mode: Mode,
        phase: Phase,
        announced: bool,
    }

    impl Rules {
        fn of(machine: &Machine) -> Rules {
            Rules { mode: machine.mode(), phase: machine.phase(), announced: machine.announced() }
        }

        /// Whether a packet that is not dropped announces the stream.
        fn announces(&self, start: bool, breaks: bool) -> bool {
            match self.mode {
                Mode::Crate => start && !breaks && self.phase == Phase::Begin,
                Mode::Standard => (start || breaks) && !self.announced,
            }
        }

        /// The events of a packet, after which the rules are those of the next one.
        fn events_of(&mut self, name: &str, fate: &str) -> Vec<EventKind> {
            let (start, breaks, mut events) = (name.contains('s'), fate == "break", Vec::new());
            if fate == "drop" {
                return events;
            }
            if self.announces(start, breaks) {
                events.push(EventKind::StartStream);
                self.announced = true;
            }
            if breaks {
                events.push(EventKind::ContinuityError);
                self.phase = Phase::IgnoreRest;
            }
            match self.phase {
                Phase::Started if start => events.push(EventKind::EndPacket),
                Phase::Started if name.starts_with('P') => events.push(EventKind::ContinuePacket),
                _ => (),
            }
            if start {
                events.push(EventKind::BeginPacket);
                self.phase = Phase::Started;
            }
            events
        }
    }

    /// Holds what becomes of packets, one after another, to the fates given: by a step for each, and by one run over all.
    fn check_fates(first: Machine, names: &str, fates: &str) {
        let packets: Vec<[u8; 188]> = names.split(' ').map(named).collect();
        let (mut stepped, mut log) = (first, [0; 256]);
        let (mut rules, mut expected) = (Rules::of(&first), Vec::new());
        for (index, (name, fate)) in (0..).zip(names.split(' ').zip(fates.split(' '))) {
            expected.extend(rules.events_of(name, fate).into_iter().map(|kind| (index, kind)));
            assert_eq!(stepped.step(&packets[index as usize], &mut log), Ok(()));
            let kinds: Vec<_> = told(&stepped, &log).iter().map(|(index, kind, ..)| (*index, *kind)).collect();
            assert_eq!(kinds, expected, "{names}: {name} at {index} from {first:?}");
            assert_eq!((stepped.phase(), stepped.announced()), (rules.phase, rules.announced), "{names}: {name}");
            assert_eq!((stepped.taken(), stepped.mode()), (index + 1, first.mode()), "{names}");
            let repeat = match fate {
                "drop" => Repeat::Spent,
                _ if name.starts_with('P') => Repeat::Open,
                _ => Repeat::Barred,
            };
            assert_eq!(stepped.repeat(), repeat, "{names}: {name} at {index}");
            assert_eq!(stepped.last().map(ContinuityCounter::count), Some(packets[index as usize][3] & 0x0F));
        }
        assert_eq!(names.split(' ').count(), fates.split(' ').count());
        let (mut ran, mut log_of_run) = (first, [0; 256]);
        let all = Ran { packets: packets.len() as u32, ended: None };
        assert_eq!(ran.run(&packets.concat(), &mut log_of_run), Ok(all));
        assert_eq!((ran, log_of_run), (stepped, log), "{names}");
    }

    /// Before its first packet, in every phase, announced or not.
    fn firsts(mode: Mode) -> Vec<Machine> {
        let first = |phase, announced| Machine::from_parts(mode, phase, None, Repeat::Barred, announced, 0, 0);
        let phases = [Phase::Begin, Phase::Started, Phase::IgnoreRest].into_iter();
        phases.flat_map(|phase| [first(phase, false), first(phase, true)]).collect()
    }

    #[test]
    fn repeats_in_the_standard_mode() {
        let rows = [
            ("P5 P5 P5 P5 P5", "on drop break drop break"),
            ("P5 A5 P5", "on on break"),
            ("A5 P5", "on break"),
            ("P5 P5 P6 P6", "on drop on drop"),
            ("P5 P9d P9 P10", "on on drop on"),
            ("P5 P5d", "on on"),
            ("P5 P5 A5 P5", "on drop on break"),
            ("P5 P5s", "on drop"),
            ("P5s P5s P6 P6 P7s P7s", "on drop on drop on drop"),
            ("P15 P15 P0 P0", "on drop on drop"),
            ("A5 A5 A5 P6 P6", "on on on on drop"),
            ("P5 P5 P5d P5", "on drop on drop"),
            ("P5d P5d P5 P5", "on on drop break"),
            ("A5 A9d P9 P10", "on on break on"),
            ("P5 P7 P7 P8", "on break drop on"),
            ("P5 P7s P7s P8", "on break drop on"),
            ("P5 A9 A9 P9", "on break on break"),
            ("P5 P4", "on break"),
            ("P5 P7s P7s P9s", "on break drop break"),
            ("P5 P5s P5s P6s", "on drop break on"),
            ("P5 P9ds P9s P10s", "on on drop on"),
        ];
        for (names, fates) in rows {
            firsts(Mode::Standard).iter().for_each(|first| check_fates(*first, names, fates));
        }
    }

    #[test]
    fn repeats_in_the_crates_mode() {
        let rows = [
            ("P5 P5 P5 P6", "on break break on"),
            ("P5 A5 P5", "on on break"),
            ("P5 P9d P9", "on break break"),
            ("P5 P5d", "on break"),
            ("A5 A9d", "on break"),
            ("P5 P5s", "on break"),
            ("P5s P6s", "on on"),
            ("P5 P7s P8s", "on break on"),
        ];
        for (names, fates) in rows {
            firsts(Mode::Crate).iter().for_each(|first| check_fates(*first, names, fates));
        }
    }

    #[test]
    fn the_mode_may_be_changed_between_packets() {
        let mut machine = Machine::new();
        let mut log = [0; 64];
        let mut step = |mode, name| {
            machine.rewind();
            machine.set_mode(mode);
            machine.step(&named(name), &mut log).unwrap();
            (machine.place() > 0, machine.repeat())
        };
        assert_eq!(step(Mode::Crate, "P5"), (false, Repeat::Open));
        assert_eq!(step(Mode::Standard, "P5"), (false, Repeat::Spent));
        assert_eq!(step(Mode::Crate, "P5"), (true, Repeat::Open));
        assert_eq!(step(Mode::Standard, "P5"), (false, Repeat::Spent));
        assert_eq!(step(Mode::Standard, "P5"), (true, Repeat::Open));
    }

    /// The kinds of the events of each packet, in the mode that stands before its name: c the crate's, s the standard's.
    fn kinds_of(names: &str) -> Vec<Vec<EventKind>> {
        let (mut machine, mut log) = (Machine::new(), [0; 24]);
        let mut step = |word: &str| {
            let (mode, name) = word.split_once(':').unwrap();
            machine.rewind();
            machine.set_mode(if mode == "s" { Mode::Standard } else { Mode::Crate });
            machine.step(&named(name), &mut log).unwrap();
            told(&machine, &log).iter().map(|(_, kind, ..)| *kind).collect()
        };
        names.split(' ').map(&mut step).collect()
    }

    #[test]
    fn a_stream_is_announced_first_and_once() {
        use EventKind::{BeginPacket as Begin, ContinuityError as Break, EndPacket as End, StartStream as Start};
        let of = |names| kinds_of(names).concat();
        assert_eq!(of("s:P5 s:P6s s:P7s"), [Start, Begin, End, Begin]);
        assert_eq!(of("s:P5 s:P7s s:P8s"), [Start, Break, Begin, End, Begin]);
        assert_eq!(of("s:P5 s:P7 s:P9s"), [Start, Break, Break, Begin]);
        assert_eq!(of("s:P5 s:P7 s:P8s"), [Start, Break, Begin]);
        assert_eq!(of("s:P5 s:A7 s:P8s"), [Start, Break, Begin]);
        // A packet that is dropped announces nothing, whatever its flags: the next one does.
        assert_eq!(kinds_of("s:P5 s:P5s s:P6s"), [vec![], vec![], vec![Start, Begin]]);
        assert_eq!(kinds_of("s:P5 s:P5s s:P5s"), [vec![], vec![], vec![Start, Break, Begin]]);
        // The crate's mode loses the start.
        assert_eq!(of("c:P5 c:P6s c:P7s"), [Start, Begin, End, Begin]);
        assert_eq!(of("c:P5 c:P7s c:P8s"), [Break, Begin, End, Begin]);
        assert_eq!(of("c:P5 c:P7 c:P9s"), [Break, Break, Begin]);
    }

    #[test]
    fn a_change_of_mode_announces_a_stream_that_was_not() {
        use EventKind::{BeginPacket as Begin, ContinuityError as Break, EndPacket as End, StartStream as Start};
        assert_eq!(kinds_of("c:P5 c:P7s s:P8s"), [vec![], vec![Break, Begin], vec![Start, End, Begin]]);
        assert_eq!(kinds_of("c:P5 c:P7s s:P9s"), [vec![], vec![Break, Begin], vec![Start, Break, Begin]]);
        assert_eq!(kinds_of("c:P5 c:P7s s:P8s c:P9s").last().unwrap(), &[End, Begin]);
        // One that the crate's mode announced is not announced again.
        assert_eq!(kinds_of("c:P5s s:P6s s:P9"), [vec![Start, Begin], vec![End, Begin], vec![Break]]);
        assert_eq!(kinds_of("s:P5 s:P7 c:P8s"), [vec![], vec![Start, Break], vec![Begin]]);
    }

    #[test]
    fn three_events_need_room_for_three() {
        let seven = ContinuityCounter::new(7).ok();
        for (name, second) in [("P8s", EventKind::EndPacket), ("P9s", EventKind::ContinuityError)] {
            let first = Machine::from_parts(Mode::Standard, Phase::Started, seven, Repeat::Open, false, 3, 8);
            for room in 0..24 {
                let (mut machine, mut log) = (first, [7; 8 + 24]);
                assert_eq!(machine.step(&named(name), &mut log[..8 + room]), Err(Error::LogFull));
                assert_eq!((machine, log), (first, [7; 8 + 24]), "{name}, {room} bytes");
                let ran = machine.run(&named(name), &mut log[..8 + room]);
                assert_eq!(ran, Ok(Ran { packets: 0, ended: Some(Error::LogFull) }));
                assert_eq!((machine, log), (first, [7; 8 + 24]), "{name}, {room} bytes");
            }
            let (mut machine, mut log) = (first, [7; 8 + 24]);
            assert_eq!(machine.step(&named(name), &mut log), Ok(()));
            let events: Vec<_> = Events::new(&log[8..]).map(|event| event.unwrap()).collect();
            let expected = [
                Event::new(EventKind::StartStream, 3, 0, 0),
                Event::new(second, 3, 0, 0),
                Event::new(EventKind::BeginPacket, 3, 4, 184),
            ];
            assert_eq!((&log[..8], &events[..]), (&[7; 8][..], &expected[..]), "{name}");
            assert_eq!((machine.announced(), machine.taken(), machine.place()), (true, 4, 32));
        }
    }

    #[test]
    fn announced_is_0_or_1() {
        for mode in [Mode::Crate, Mode::Standard] {
            for number in [2, 255, 256, 1 << 32, u64::MAX] {
                let mut machine = Machine::fresh(mode);
                machine.row[ANNOUNCED] = number;
                let (before, mut log) = (machine, [7; 24]);
                assert_eq!(machine.step(&packet(true, 0), &mut log), Err(Error::OutOfRange));
                assert_eq!(machine.run(&[], &mut log), Err(Error::OutOfRange));
                assert_eq!((machine, log), (before, [7; 24]));
            }
        }
    }

    #[test]
    fn a_repeat_needs_no_room_in_the_log_and_is_counted() {
        let five = ContinuityCounter::new(5).ok();
        for (repeat, broken) in [(Repeat::Barred, true), (Repeat::Open, false), (Repeat::Spent, true)] {
            let first = Machine::from_parts(Mode::Standard, Phase::Started, five, repeat, false, u32::MAX - 1, 0);
            let mut machine = first;
            let stepped = machine.step(&named("P5s"), &mut []);
            if broken {
                assert_eq!((stepped, machine), (Err(Error::LogFull), first));
            } else {
                let spent = Repeat::Spent;
                let dropped = Machine::from_parts(Mode::Standard, Phase::Started, five, spent, false, u32::MAX, 0);
                assert_eq!((stepped, machine), (Ok(()), dropped));
            }
        }
        let mut full = Machine::from_parts(Mode::Standard, Phase::Started, five, Repeat::Open, true, u32::MAX, 0);
        assert_eq!(full.step(&named("P5"), &mut []), Err(Error::IndexFull));
    }

    #[test]
    fn parts_are_given_back() {
        let fifteen = ContinuityCounter::new(15).ok();
        for mode in [Mode::Crate, Mode::Standard] {
            for phase in [Phase::Begin, Phase::Started, Phase::IgnoreRest] {
                for (repeat, announced) in [(Repeat::Barred, true), (Repeat::Open, false), (Repeat::Spent, true)] {
                    let mut machine = Machine::from_parts(mode, phase, fifteen, repeat, announced, 7, 16);
                    assert_eq!((machine.mode(), machine.phase(), machine.last()), (mode, phase, fifteen));
                    assert_eq!((machine.repeat(), machine.announced()), (repeat, announced));
                    assert_eq!((machine.taken(), machine.place()), (7, 16));
                    machine.rewind();
                    assert_eq!(machine, Machine::from_parts(mode, phase, fifteen, repeat, announced, 0, 0));
                }
            }
        }
        for number in 0..=255 {
            let answer = |cases| if number < cases { Ok(number) } else { Err(Error::OutOfRange) };
            assert_eq!(Mode::try_from(number).map(u8::from), answer(2));
            assert_eq!(Phase::try_from(number).map(u8::from), answer(3));
            assert_eq!(Repeat::try_from(number).map(u8::from), answer(3));
        }
        let text =
            "Machine { mode: Standard, phase: Begin, last: None, repeat: Barred, announced: false, taken: 0, place: 0 }";
        assert_eq!(format!("{:?}", Machine::standard()), text);
    }

    #[test]
    fn bytes_that_are_no_log() {
        let mut events = Events::new(&[0; 20]);
        assert_eq!(events.size_hint(), (1, Some(3)));
        assert_eq!((events.next(), events.size_hint()), (Some(Err(Error::OutOfRange)), (0, Some(0))));
        assert_eq!((events.next(), events.next()), (None, None));
        assert_eq!(Event::at(&[0; 24], 4), Err(Error::OutOfRange));
        let event = Event { kind: EventKind::BeginPacket, index: 0, place: 4, length: 2 };
        assert_eq!(event.bytes(&[0, 1, 2, 3, 4, 5]), [4, 5]);
        assert_eq!(event.bytes(&[0, 1, 2]), []);
        assert_eq!(Event::of([6, 0, 0, 0]), Err(Error::Unknown(6)));
        for number in 0..=255 {
            let kind = EventKind::try_from(number);
            assert_eq!(kind.map(u8::from), if (1..=5).contains(&number) { Ok(number) } else { Err(Error::OutOfRange) });
        }
    }
}
