//! A driver: a recording of many PIDs in, what an analyser wants to know of it out.

use crate::error::{sure, Error};
use crate::ffi;
use crate::gather::Gathering;
use crate::machine::{Event, EventKind, Machine, Mode, Repeat, ENTRY};
use crate::packet::{ClockRef, Packet, Pid};
use crate::pes::{PesHeader, PesLength, PtsDts, StreamId, Timestamp};
use alloc::vec;
use alloc::vec::Vec;
use core::{fmt, mem};

/// The log of one packet, which has at most three events.
const LOG: usize = 3 * ENTRY;

/// The most bytes of a unit, if the caller says nothing else.
const UNIT: usize = 16 << 20;

/// The most bytes of all stores together, if the caller says nothing else.
const MEMORY: usize = 64 << 20;

/// A packet without content: with it a state is closed after the last packet of a recording.
const STUFFING: [u8; Packet::SIZE] = {
    let mut bytes = [0xFF; Packet::SIZE];
    bytes[0] = Packet::SYNC_BYTE;
    bytes[1] = 0x1F;
    bytes[3] = 0x10;
    bytes
};

/// Something found in a recording. An index is that of a packet among all that were pushed, the first being 0: the packet's offset in a
/// file of whole packets is 188 times the index. More may be found, and more said of each: a `match` needs an arm for the rest, and `..` in
/// its patterns.
#[derive(Clone, Copy, Debug)]
#[non_exhaustive]
pub enum Found<'a> {
    /// A PID is announced, with its first packet that begins something. A continuity error that comes before announces it in
    /// [`Mode::Standard`], so that no unit and no error of a PID is told before this; in [`Mode::Crate`] such a PID is never announced.
    #[non_exhaustive]
    StartStream {
        /// The PID.
        pid: Pid,
        /// The packet.
        index: u64,
        /// Whether that packet is a continuity error: in [`Mode::Standard`] alone. The error is told next.
        by_break: bool,
    },
    /// A unit begins. Its payload comes as [`Found::Unit`], once it has ended.
    #[non_exhaustive]
    Begin {
        /// The PID.
        pid: Pid,
        /// The packet.
        index: u64,
        /// The header, with the part of the payload that is in this packet.
        header: PesHeader<'a>,
    },
    /// A unit that has ended.
    Unit(FoundUnit<'a>),
    /// The counter of a packet does not follow the one before on its PID, by the rules of the [`Mode`] chosen. The unit that was open, if
    /// there was one, is lost.
    #[non_exhaustive]
    ContinuityError {
        /// The PID.
        pid: Pid,
        /// The packet whose counter does not follow.
        index: u64,
    },
    /// The open unit of a PID was given up: it is longer than [`Demux::at_most`] allows, or [`Demux::memory`] is used up.
    #[non_exhaustive]
    StoreFull {
        /// The PID.
        pid: Pid,
        /// The packet whose payload does not fit.
        index: u64,
    },
    /// A program clock reference. One that is flagged and truncated is not reported. One of a repeated packet is: it may differ from that
    /// of the packet before, as by the standard each of the two has its own time.
    #[non_exhaustive]
    Clock {
        /// The PID.
        pid: Pid,
        /// The packet.
        index: u64,
        /// The clock reference.
        pcr: ClockRef,
    },
    /// A packet that is marked as damaged or as scrambled was dropped. Only [`Marked::Report`] has this reported.
    #[non_exhaustive]
    Dropped {
        /// The PID.
        pid: Pid,
        /// The packet.
        index: u64,
        /// How it is marked.
        mark: Mark,
    },
    /// A packet was dropped because it repeats the one before on its PID: in [`Mode::Standard`] alone. Nothing but its clock reference is
    /// told of it.
    #[non_exhaustive]
    Repeated {
        /// The PID.
        pid: Pid,
        /// The packet.
        index: u64,
    },
    /// A packet was refused, and counts in the index alone: [`Error::NoSync`], or [`Error::WrongLength`] for bytes after the last
    /// whole packet. With archives that are newer than this crate also [`Error::Unknown`], for an event of a kind that it does not know.
    #[non_exhaustive]
    Refused {
        /// The packet.
        index: u64,
        /// Why.
        error: Error,
    },
}

/// A unit of a recording.
#[derive(Clone, Copy, Debug)]
#[non_exhaustive]
pub struct FoundUnit<'a> {
    /// The PID.
    pub pid: Pid,
    /// The packet that the unit begins with.
    pub index: u64,
    /// The stream id.
    pub stream_id: StreamId,
    /// The length that the header gives. The payload is not cut to it.
    pub length: PesLength,
    /// The timestamps, or why there are none: [`Error::FieldNotPresent`] for a bare payload too.
    pub times: Result<PtsDts, Error>,
    /// All payload bytes after the header.
    pub payload: &'a [u8],
    /// Whether a later packet with the start flag ended the unit. Otherwise the recording ended first.
    pub ended: bool,
}

impl FoundUnit<'_> {
    /// The presentation timestamp, if there is one and it is not refused.
    #[must_use]
    pub fn pts(&self) -> Option<Timestamp> {
        self.times.ok()?.pts()
    }

    /// The decoding timestamp, if there is one and it is not refused.
    #[must_use]
    pub fn dts(&self) -> Option<Timestamp> {
        self.times.ok()?.dts()
    }
}

/// What [`Demux`] does with marked packets: those that an earlier receiver marked as damaged ([`Packet::transport_error_indicator`]), and
/// those whose payload is scrambled ([`Packet::transport_scrambling_control`]).
#[derive(Clone, Copy, Debug, Default, PartialEq, Eq, Hash)]
#[non_exhaustive]
pub enum Marked {
    /// Drops them, as the demultiplexer of mpeg2ts-reader does: nothing is found in them, and their counter does not count. So the next
    /// packet of the PID that is not dropped is a continuity error, unless the 16 counters have come round or it is the same packet again,
    /// which a station may have sent twice.
    #[default]
    Drop,
    /// Drops them, and reports each as [`Found::Dropped`].
    Report,
    /// Takes them like any other packet, as mpeg2ts-reader's `PesPacketFilter` does.
    Take,
}

/// How a packet is marked.
#[derive(Clone, Copy, Debug, PartialEq, Eq, Hash)]
#[non_exhaustive]
pub enum Mark {
    /// An earlier receiver found it damaged. It may be marked as scrambled too.
    Damaged,
    /// Its payload is scrambled.
    Scrambled,
}

impl Mark {
    #[inline]
    fn of(packet: &Packet<'_>) -> Option<Mark> {
        if packet.transport_error_indicator() {
            Some(Mark::Damaged)
        } else if packet.transport_scrambling_control().is_scrambled() {
            Some(Mark::Scrambled)
        } else {
            None
        }
    }
}

/// Finds the units, clock references and continuity errors of a recording, with a machine and a store for each PID. Packets of the stuffing
/// PID, and packets that are marked as damaged or scrambled, are dropped.
///
/// ```
/// use clomaverift::{Demux, Found, Unit};
///
/// let picture = Unit::new(0x100, 0xE0).pts_dts(97_200, 90_000);
/// let sound = Unit::new(0x101, 0xC0).pts(93_600);
/// let recording = [picture.packets(&[1; 500])?, sound.packets(&[2; 100])?].concat();
///
/// let mut told = Vec::new();
/// let mut tell = |found: Found| {
///     if let Found::Unit(unit) = found {
///         told.push((u16::from(unit.pid), unit.pts().unwrap().value(), unit.payload.to_vec()));
///     }
/// };
/// let mut demux = Demux::new();
/// demux.push(&recording, &mut tell);
/// demux.finish(&mut tell);
/// assert_eq!(told, [(0x100, 97_200, vec![1; 500]), (0x101, 93_600, vec![2; 100])]);
/// # Ok::<(), clomaverift::Error>(())
/// ```
///
/// # Packets that are sent twice
///
/// Continuity counters are judged as mpeg2ts-reader judges them: if a station sends packets twice, each repeat is a continuity error, and
/// hardly a unit is whole. [`Demux::standard`] judges them by the standard, and drops the repeats. Each of them is told as
/// [`Found::Repeated`], and has an index; if one of the two is lost or marked as damaged, the other is taken.
///
/// ```
/// use clomaverift::{Demux, Found, Packet, Unit};
///
/// fn units(mut demux: Demux, recording: &[u8]) -> Vec<Vec<u8>> {
///     let mut units = Vec::new();
///     let mut tell = |found: Found| {
///         if let Found::Unit(unit) = found {
///             units.push(unit.payload.to_vec());
///         }
///     };
///     demux.push(recording, &mut tell);
///     demux.finish(&mut tell);
///     units
/// }
///
/// let single = Unit::new(0x100, 0xE0).packets(&[1; 500])?;
/// let mut twice: Vec<u8> = single.chunks(Packet::SIZE).flat_map(|packet| [packet, packet].concat()).collect();
/// assert_eq!(units(Demux::standard(), &twice), [[1; 500]]);
/// assert!(units(Demux::new(), &twice).is_empty());
///
/// twice[2 * Packet::SIZE + 1] |= 0x80; // the third packet is marked as damaged: the fourth is taken in its place
/// assert_eq!(units(Demux::standard(), &twice), [[1; 500]]);
/// # Ok::<(), clomaverift::Error>(())
/// ```
///
/// # Streams that begin with a break
///
/// A program that shows a stream from its [`Found::StartStream`] on misses those whose first continuity error comes before their first
/// unit: mpeg2ts-reader, and so [`Demux::new`], never announces them. [`Demux::standard`] announces every stream that has a unit or a
/// continuity error, and says whether the error announced it.
///
/// ```
/// use clomaverift::{Demux, Found, Packet, Unit};
///
/// fn announced(mut demux: Demux, recording: &[u8]) -> Vec<(u16, u64, bool)> {
///     let mut streams = Vec::new();
///     demux.push(recording, |found| {
///         if let Found::StartStream { pid, index, by_break, .. } = found {
///             streams.push((pid.into(), index, by_break));
///         }
///     });
///     streams
/// }
///
/// let whole = Unit::new(0x100, 0xE0).packets(&[1; 100])?;
/// let cut = Unit::new(0x101, 0xE0).packets(&[1; 500])?; // three packets, of which the first is missing, and so is ..
/// let next = Unit::new(0x101, 0xE0).counter(4).packets(&[2; 100])?; // .. the one before this
/// let recording = [&whole, &cut[Packet::SIZE..], &next].concat();
/// assert_eq!(announced(Demux::new(), &recording), [(0x100, 0, false)]);
/// assert_eq!(announced(Demux::standard(), &recording), [(0x100, 0, false), (0x101, 3, true)]);
/// # Ok::<(), clomaverift::Error>(())
/// ```
///
/// # Memory
///
/// The payload of an open unit is kept in the store of its PID. All stores together hold at most the bytes that [`Demux::memory`] allows,
/// 64 MiB if nothing else is said, and a unit has at most those of [`Demux::at_most`], 16 MiB. Beside that a `Demux` has about 200 bytes for
/// each PID that it has seen, and a table of the PIDs, which grows to 16.5 KiB at most.
///
/// A store grows by doubling. If it cannot grow within the bound, memory that no open unit needs is freed first: the stores of PIDs without
/// an open unit, and what is more than double the unit in others. This is done at most once in as many packets as there are PIDs. If there
/// is still no room, the unit that has to grow is given up: it is reported as [`Found::StoreFull`], its memory is freed, and its PID goes on
/// with the next unit. Units of other PIDs are not touched.
pub struct Demux {
    slots: Slots,
    streams: Vec<Stream>,
    mode: Mode,
    marked: Marked,
    /// The most bytes of a unit.
    unit: usize,
    /// The most bytes of all stores.
    memory: usize,
    /// The bytes of all stores.
    held: usize,
    /// The first packet at which memory may be freed again.
    free_again: u64,
    index: u64,
}

impl Default for Demux {
    fn default() -> Demux {
        Demux::new()
    }
}

impl fmt::Debug for Demux {
    fn fmt(&self, f: &mut fmt::Formatter<'_>) -> fmt::Result {
        let mut parts = f.debug_struct("Demux");
        parts.field("index", &self.index).field("streams", &self.streams);
        parts.field("mode", &self.mode).field("marked", &self.marked);
        parts.field("at_most", &self.unit).field("memory", &self.memory).field("held", &self.held).finish()
    }
}

impl Demux {
    /// For every PID except that of stuffing, in [`Mode::Crate`]. Marked packets are dropped; a unit has at most 16 MiB, and all stores
    /// together 64 MiB.
    #[must_use]
    pub fn new() -> Demux {
        let mut slots = Slots::all(NEW);
        slots.set(Pid::STUFFING, UNWANTED);
        let (streams, mode, marked) = (Vec::new(), Mode::default(), Marked::default());
        Demux { slots, streams, mode, marked, unit: UNIT, memory: MEMORY, held: 0, free_again: 0, index: 0 }
    }

    /// The same in [`Mode::Standard`]: for stations that send packets twice.
    #[must_use]
    pub fn standard() -> Demux {
        Demux::new().mode(Mode::Standard)
    }

    /// For these PIDs alone, with the stuffing PID if it is among them. What was open before is forgotten.
    ///
    /// ```
    /// use clomaverift::{Demux, Found, Pid, Unit};
    ///
    /// let recording = Unit::new(0x100, 0xE0).packets(&[1; 500])?;
    /// let mut demux = Demux::new().only(&[Pid::new(0x200)?]);
    /// demux.push(&recording, |found| panic!("{found:?}"));
    /// # Ok::<(), clomaverift::Error>(())
    /// ```
    #[must_use]
    pub fn only(mut self, pids: &[Pid]) -> Demux {
        self.slots = Slots::all(UNWANTED);
        pids.iter().for_each(|pid| self.slots.set(*pid, NEW));
        (self.streams, self.held) = (Vec::new(), 0);
        self
    }

    /// With continuity counters judged by these rules on every PID, from the next packet on.
    ///
    /// ```
    /// use clomaverift::{Demux, Found, Mode, Unit};
    ///
    /// let packet = Unit::new(0x100, 0xE0).packets(&[1; 100])?;
    /// let mut demux = Demux::new();
    /// demux.push(&packet, |_| ());
    /// demux.push(&packet, |found| assert!(matches!(found, Found::ContinuityError { index: 1, .. } | Found::Begin { .. })));
    /// let mut demux = demux.mode(Mode::Standard);
    /// demux.push(&packet, |found| assert!(matches!(found, Found::Repeated { index: 2, .. })));
    /// # Ok::<(), clomaverift::Error>(())
    /// ```
    #[must_use]
    pub fn mode(mut self, mode: Mode) -> Demux {
        self.streams.iter_mut().for_each(|stream| stream.machine.set_mode(mode));
        Demux { mode, ..self }
    }

    /// With marked packets treated like this.
    ///
    /// ```
    /// use clomaverift::{Demux, Found, Mark, Marked, Unit};
    ///
    /// let mut recording = Unit::new(0x100, 0xE0).packets(&[1; 100])?;
    /// recording[3] |= 0x80; // the first scrambling bit
    /// Demux::new().push(&recording, |found| panic!("{found:?}"));
    ///
    /// let mut demux = Demux::new().marked(Marked::Report);
    /// demux.push(&recording, |found| assert!(matches!(found, Found::Dropped { mark: Mark::Scrambled, .. })));
    /// # Ok::<(), clomaverift::Error>(())
    /// ```
    #[must_use]
    pub fn marked(self, marked: Marked) -> Demux {
        Demux { marked, ..self }
    }

    /// With at most so many bytes for a unit.
    #[must_use]
    pub fn at_most(self, bytes: usize) -> Demux {
        Demux { unit: bytes, ..self }
    }

    /// With at most so many bytes for the stores of all PIDs together.
    ///
    /// ```
    /// use clomaverift::{Demux, Found, Unit};
    ///
    /// let first = Unit::new(0x100, 0xE0).packets(&[1; 700])?;
    /// let second = Unit::new(0x101, 0xE0).packets(&[2; 700])?;
    /// let mut demux = Demux::new().memory(1_100);
    /// let mut full = Vec::new();
    /// demux.push(&[first, second].concat(), |found| {
    ///     if let Found::StoreFull { pid, .. } = found {
    ///         full.push(u16::from(pid));
    ///     }
    /// });
    /// assert_eq!(full, [0x101]);
    /// assert!(demux.held() <= 1_100);
    /// # Ok::<(), clomaverift::Error>(())
    /// ```
    #[must_use]
    pub fn memory(self, bytes: usize) -> Demux {
        Demux { memory: bytes, ..self }
    }

    /// The bytes that the stores have now.
    #[must_use]
    pub fn held(&self) -> usize {
        self.held
    }

    /// The packets pushed so far: the index of the next one.
    #[must_use]
    pub fn index(&self) -> u64 {
        self.index
    }

    /// Takes the packets of the bytes, and tells what it finds, in the order of the packets; in a packet a clock reference comes first.
    /// Bytes after the last whole packet are refused and forgotten.
    pub fn push(&mut self, bytes: &[u8], mut tell: impl FnMut(Found<'_>)) {
        let packets = bytes.chunks_exact(Packet::SIZE);
        let rest = packets.remainder();
        for packet in packets {
            self.take(packet, &mut tell);
            self.index += 1;
        }
        if !rest.is_empty() {
            self.refuse(rest, &mut tell);
            self.index += 1;
        }
    }

    /// Tells that bytes are no packet, and why.
    #[cold]
    fn refuse(&self, bytes: &[u8], tell: &mut impl FnMut(Found<'_>)) {
        if let Err(error) = Packet::try_new(bytes) {
            tell(Found::Refused { index: self.index, error });
        }
    }

    #[inline]
    fn take(&mut self, bytes: &[u8], tell: &mut impl FnMut(Found<'_>)) {
        let index = self.index;
        let (packet, pid) = match Packet::with_pid(bytes) {
            Ok(both) => both,
            Err(error) => return tell(Found::Refused { index, error }),
        };
        let slot = self.slots.get(pid);
        if slot == UNWANTED {
            return;
        }
        if self.marked != Marked::Take {
            if let Some(mark) = Mark::of(&packet) {
                if self.marked == Marked::Report {
                    tell(Found::Dropped { pid, index, mark });
                }
                return;
            }
        }
        if let Some(Ok(pcr)) = packet.adaptation_field().map(|field| field.pcr()) {
            tell(Found::Clock { pid, index, pcr });
        }
        let slot = if slot == NEW { self.add(pid) } else { usize::from(slot) };
        self.step(slot, bytes, tell);
    }

    /// A stream for a PID.
    #[cold]
    fn add(&mut self, pid: Pid) -> usize {
        let slot = self.streams.len();
        self.slots.set(pid, slot as u16);
        self.streams.push(Stream::new(pid, self.mode));
        slot
    }

    /// Has a stream take a packet.
    #[inline]
    fn step(&mut self, slot: usize, packet: &[u8], tell: &mut impl FnMut(Found<'_>)) {
        let mut log = [0; LOG];
        let stream = &mut self.streams[slot];
        stream.machine.rewind();
        sure(stream.machine.step(packet, &mut log));
        match stream.machine.place() {
            0 if stream.machine.repeat() == Repeat::Spent => self.repeated(slot, tell),
            0 => (),
            // Most packets only go on with a unit that has room for them.
            ENTRY if stream.goes_on(packet, sure(ffi::log_entry_at(&log, 0))) => (),
            end => self.events(slot, packet, &log[..end], tell),
        }
    }

    /// Has a stream take the events of a packet. It is not inlined, so that the short way before it has the registers.
    #[inline(never)]
    fn events(&mut self, slot: usize, packet: &[u8], log: &[u8], tell: &mut impl FnMut(Found<'_>)) {
        for at in (0..log.len()).step_by(ENTRY) {
            match Event::at(log, at) {
                Ok(Event { kind: EventKind::StartStream, .. }) => self.announced(slot, &log[at + ENTRY..], tell),
                Ok(event) => self.event(slot, packet, event, tell),
                Err(error) => tell(Found::Refused { index: self.index, error }),
            }
        }
    }

    /// Tells that a stream is announced. If a continuity error does it, that is the next event of the packet.
    fn announced(&self, slot: usize, rest: &[u8], tell: &mut impl FnMut(Found<'_>)) {
        let by_break = matches!(Event::at(rest, 0), Ok(Event { kind: EventKind::ContinuityError, .. }));
        tell(Found::StartStream { pid: self.streams[slot].pid, index: self.index, by_break });
    }

    /// Tells that a packet was dropped as a repeat. It is not inlined either.
    #[inline(never)]
    fn repeated(&self, slot: usize, tell: &mut impl FnMut(Found<'_>)) {
        tell(Found::Repeated { pid: self.streams[slot].pid, index: self.index });
    }

    /// Has a stream take an event of a packet.
    fn event(&mut self, slot: usize, packet: &[u8], event: Event, tell: &mut impl FnMut(Found<'_>)) {
        let need = self.streams[slot].need(event);
        if need > self.streams[slot].store.len() {
            self.make_room(slot, need);
        }
        let (index, stream) = (self.index, &mut self.streams[slot]);
        if !stream.gather(packet, event) {
            self.held -= stream.give_up();
            tell(Found::StoreFull { pid: stream.pid, index });
        }
        stream.tell(packet, event, index, tell);
    }

    /// Lets the store of a stream grow to so many bytes, or to as many as are allowed.
    #[cold]
    fn make_room(&mut self, slot: usize, need: usize) {
        if need > self.room(slot) && self.index >= self.free_again {
            self.held -= self.streams.iter_mut().map(Stream::trim).sum::<usize>();
            self.free_again = self.index + self.streams.len() as u64;
        }
        let size = need.next_power_of_two().min(self.unit).min(self.room(slot));
        self.held += self.streams[slot].grow(size);
    }

    /// How large the store of a stream can be beside the others.
    fn room(&self, slot: usize) -> usize {
        self.memory.saturating_sub(self.held - self.streams[slot].store.len())
    }

    /// Reports the units that are still open, by PID, because no packet has ended them.
    pub fn finish(mut self, mut tell: impl FnMut(Found<'_>)) {
        self.streams.sort_by_key(|stream| stream.pid);
        self.streams.iter_mut().for_each(|stream| stream.finish(&mut tell));
    }
}

/// The slot of a PID of which no packet was taken.
const NEW: u16 = u16::MAX;

/// The slot of a PID that is left out.
const UNWANTED: u16 = u16::MAX - 1;

/// The PIDs of a page of slots.
const PAGE: usize = 64;

/// For each PID the place of its stream, or [`NEW`] or [`UNWANTED`]. A recording has few PIDs: a page is made for those that are near one
/// that is set, and all others share the first page.
struct Slots {
    pages: [u8; Pid::PID_COUNT / PAGE],
    slots: Vec<[u16; PAGE]>,
}

impl Slots {
    /// The same for every PID.
    fn all(slot: u16) -> Slots {
        Slots { pages: [0; Pid::PID_COUNT / PAGE], slots: vec![[slot; PAGE]] }
    }

    /// The page of a PID, and its place there.
    #[inline]
    fn place(pid: Pid) -> (usize, usize) {
        let pid = usize::from(pid);
        (pid / PAGE % (Pid::PID_COUNT / PAGE), pid % PAGE)
    }

    #[inline]
    fn get(&self, pid: Pid) -> u16 {
        let (page, at) = Slots::place(pid);
        self.slots[usize::from(self.pages[page])][at]
    }

    fn set(&mut self, pid: Pid, slot: u16) {
        let (page, at) = Slots::place(pid);
        if self.pages[page] == 0 {
            self.pages[page] = self.slots.len() as u8;
            self.slots.push(self.slots[0]);
        }
        self.slots[usize::from(self.pages[page])][at] = slot;
    }
}

/// What a header says of a unit.
#[derive(Debug)]
struct Opened {
    index: u64,
    stream_id: StreamId,
    length: PesLength,
    times: Result<PtsDts, Error>,
}

impl Opened {
    fn new(index: u64, header: &PesHeader<'_>) -> Opened {
        let times = header.contents().parsed().and_then(|contents| contents.pts_dts());
        Opened { index, stream_id: header.stream_id(), length: header.pes_packet_length(), times }
    }
}

/// A PID's machine, and its unit.
struct Stream {
    pid: Pid,
    machine: Machine,
    gathering: Gathering,
    store: Vec<u8>,
    unit: Option<Opened>,
}

impl fmt::Debug for Stream {
    fn fmt(&self, f: &mut fmt::Formatter<'_>) -> fmt::Result {
        let mut parts = f.debug_struct("Stream");
        parts.field("pid", &self.pid).field("machine", &self.machine).field("gathering", &self.gathering);
        parts.field("store", &self.store.len()).field("unit", &self.unit).finish()
    }
}

impl Stream {
    fn new(pid: Pid, mode: Mode) -> Stream {
        Stream { pid, machine: Machine::fresh(mode), gathering: Gathering::new(), store: Vec::new(), unit: None }
    }

    /// Whether an entry of the log adds to the open unit, and there is room: then it is done.
    #[inline]
    fn goes_on(&mut self, packet: &[u8], [kind, _, place, length]: [u64; 4]) -> bool {
        let (kind, event) = (kind as u8, [kind as u8, place as u8, length as u8]);
        let short = kind == u8::from(EventKind::ContinuePacket)
            && self.gathering.is_open()
            && length as usize <= self.store.len() - self.gathering.count();
        if short {
            sure(self.gathering.gather_numbers(packet, event, &mut self.store));
        }
        short
    }

    /// How many bytes the store has to have for an event.
    fn need(&self, event: Event) -> usize {
        match event.kind {
            EventKind::BeginPacket => event.length.into(),
            EventKind::ContinuePacket if self.gathering.is_open() => self.gathering.count() + usize::from(event.length),
            _ => 0,
        }
    }

    /// Lets the store have at least so many bytes: how many more these are.
    fn grow(&mut self, size: usize) -> usize {
        let more = size.saturating_sub(self.store.len());
        self.store.reserve_exact(more);
        self.store.resize(self.store.len() + more, 0);
        more
    }

    /// Frees what the unit does not need: how many bytes.
    fn trim(&mut self) -> usize {
        if !self.gathering.is_open() {
            self.gathering = Gathering::new(); // a closed unit still names its bytes in the store
        }
        let before = self.store.len();
        self.store.truncate(match self.gathering.count() {
            0 => 0,
            count => count.next_power_of_two(),
        });
        self.store.shrink_to_fit();
        before - self.store.len()
    }

    /// Frees the memory of a unit that the store has no room for: how many bytes.
    #[cold]
    fn give_up(&mut self) -> usize {
        self.unit = None;
        mem::take(&mut self.store).len()
    }

    /// Takes an event into the store. Whether there was room for its bytes; nothing else can be refused.
    fn gather(&mut self, packet: &[u8], event: Event) -> bool {
        match self.gathering.gather(packet, event, &mut self.store) {
            Ok(()) => true,
            Err(Error::StoreFull) => false,
            Err(other) => sure(Err(other)),
        }
    }

    /// Tells what an event says.
    fn tell(&mut self, packet: &[u8], event: Event, index: u64, tell: &mut impl FnMut(Found<'_>)) {
        let pid = self.pid;
        match event.kind {
            EventKind::StartStream | EventKind::ContinuePacket => (),
            EventKind::BeginPacket => self.begin(event.bytes(packet), index, tell),
            EventKind::EndPacket => self.end(packet, true, tell),
            EventKind::ContinuityError => {
                self.unit = None;
                tell(Found::ContinuityError { pid, index });
            }
        }
    }

    fn begin(&mut self, bytes: &[u8], index: u64, tell: &mut impl FnMut(Found<'_>)) {
        let header = sure(PesHeader::from_bytes(bytes));
        self.unit = self.gathering.is_open().then(|| Opened::new(index, &header));
        tell(Found::Begin { pid: self.pid, index, header });
    }

    fn end(&mut self, packet: &[u8], ended: bool, tell: &mut impl FnMut(Found<'_>)) {
        if let Some(Opened { index, stream_id, length, times }) = self.unit.take() {
            let payload = sure(self.gathering.bytes(packet, &self.store));
            tell(Found::Unit(FoundUnit { pid: self.pid, index, stream_id, length, times, payload, ended }));
        }
    }

    fn finish(&mut self, tell: &mut impl FnMut(Found<'_>)) {
        let close = Event::new(EventKind::EndPacket, 0, 0, 0);
        sure(self.gathering.gather(&STUFFING, close, &mut self.store));
        self.end(&STUFFING, false, tell);
    }
}

#[cfg(test)]
mod tests {
    use super::*;
    use crate::writer::Unit;

    /// A line for each thing found.
    fn line(found: Found<'_>) -> String {
        match found {
            Found::StartStream { pid, index, by_break: false } => format!("{index} start {pid:?}"),
            Found::StartStream { pid, index, by_break: true } => format!("{index} start by a break {pid:?}"),
            Found::Begin { pid, index, header } => format!("{index} begin {pid:?} {:?}", header.stream_id()),
            Found::Unit(unit) => {
                let (pts, dts) = (unit.pts().map(Timestamp::value), unit.dts().map(Timestamp::value));
                format!("{} unit {:?} {pts:?} {dts:?} {} {}", unit.index, unit.pid, unit.payload.len(), unit.ended)
            }
            Found::ContinuityError { pid, index } => format!("{index} error {pid:?}"),
            Found::StoreFull { pid, index } => format!("{index} full {pid:?}"),
            Found::Clock { pid, index, pcr } => format!("{index} clock {pid:?} {}", u64::from(pcr)),
            Found::Dropped { pid, index, mark } => format!("{index} dropped {pid:?} {mark:?}"),
            Found::Repeated { pid, index } => format!("{index} repeated {pid:?}"),
            Found::Refused { index, error } => format!("{index} refused {}", error.number()),
        }
    }

    fn lines(mut demux: Demux, recording: &[u8]) -> Vec<String> {
        let mut lines = Vec::new();
        demux.push(recording, |found| lines.push(line(found)));
        demux.finish(|found| lines.push(line(found)));
        lines
    }

    fn clock_packet(pid: u8) -> Vec<u8> {
        let mut bytes = vec![0x47, 0, pid, 0x20, 183, 0x10, 0, 0, 0xAF, 0xC8, 0x7E, 0x0F];
        bytes.resize(Packet::SIZE, 0xFF);
        bytes
    }

    #[test]
    fn two_streams_and_a_clock() {
        let one = Unit::new(0x30, 0xE0).pts_dts(7_200, 3_600).packets(&[1; 400]).unwrap();
        let next = Unit::new(0x30, 0xE0).counter(3).packets(&[2; 10]).unwrap();
        let sound = Unit::new(0x31, 0xC1).pts(5).packets(&[3; 20]).unwrap();
        let recording = [&one[..188], &sound, &one[188..], &clock_packet(0x32), &next, &STUFFING].concat();
        let expected = [
            "0 start Pid(0030)",
            "0 begin Pid(0030) Video(0)",
            "1 start Pid(0031)",
            "1 begin Pid(0031) Audio(1)",
            "4 clock Pid(0032) 27000015",
            "0 unit Pid(0030) Some(7200) Some(3600) 400 true",
            "5 begin Pid(0030) Video(0)",
            "5 unit Pid(0030) None None 10 false",
            "1 unit Pid(0031) Some(5) None 20 false",
        ];
        assert_eq!(lines(Demux::new(), &recording), expected);
    }

    #[test]
    fn breaks_and_refusals() {
        let unit = Unit::new(0x30, 0xE0).packets(&[1; 700]).unwrap();
        let damaged = [&unit[..188], &[0; 188], &unit[376..], &[0x47]].concat();
        let expected =
            ["0 start Pid(0030)", "0 begin Pid(0030) Video(0)", "1 refused 2", "2 error Pid(0030)", "4 refused 1"];
        assert_eq!(lines(Demux::new(), &damaged), expected);
    }

    #[test]
    fn a_unit_of_too_many_bytes_is_given_up() {
        let unit = Unit::new(0x30, 0xE0).packets(&[1; 700]).unwrap();
        let expected = ["0 start Pid(0030)", "0 begin Pid(0030) Video(0)", "2 full Pid(0030)"];
        assert_eq!(lines(Demux::new().at_most(400), &unit), expected);
        let most = lines(Demux::new().at_most(700), &unit);
        assert_eq!(most.last().unwrap(), "0 unit Pid(0030) None None 700 false");
    }

    #[test]
    fn a_begin_that_the_store_refuses_opens_no_unit() {
        let unit = Unit::new(0x30, 0xE0).packets(&[1; 100]).unwrap();
        let expected = ["0 start Pid(0030)", "0 full Pid(0030)", "0 begin Pid(0030) Video(0)"];
        assert_eq!(lines(Demux::new().at_most(50), &unit), expected);
    }

    /// A unit of four packets, of which the second is marked as damaged and the third as scrambled and damaged.
    fn marked_packets() -> Vec<u8> {
        let mut unit = Unit::new(0x30, 0xE0).packets(&[1; 700]).unwrap();
        unit[188 + 1] |= 0x80;
        unit[2 * 188 + 1] |= 0x80;
        unit[2 * 188 + 3] |= 0x40;
        unit
    }

    #[test]
    fn marked_packets_are_dropped_and_their_counters_do_not_count() {
        let expected = ["0 start Pid(0030)", "0 begin Pid(0030) Video(0)", "3 error Pid(0030)"];
        assert_eq!(lines(Demux::new(), &marked_packets()), expected);
        assert_eq!(lines(Demux::new().marked(Marked::Drop), &marked_packets()), expected);
    }

    #[test]
    fn marked_packets_are_reported_on_demand() {
        let mut packets = marked_packets();
        packets[3 * 188 + 3] |= 0xC0;
        let expected = [
            "0 start Pid(0030)",
            "0 begin Pid(0030) Video(0)",
            "1 dropped Pid(0030) Damaged",
            "2 dropped Pid(0030) Damaged",
            "3 dropped Pid(0030) Scrambled",
            "0 unit Pid(0030) None None 175 false",
        ];
        assert_eq!(lines(Demux::new().marked(Marked::Report), &packets), expected);
        let others = Demux::new().marked(Marked::Report).only(&[Pid::PAT]);
        assert_eq!(lines(others, &packets), [""; 0]);
    }

    #[test]
    fn marked_packets_are_taken_on_demand() {
        let expected = ["0 start Pid(0030)", "0 begin Pid(0030) Video(0)", "0 unit Pid(0030) None None 700 false"];
        assert_eq!(lines(Demux::new().marked(Marked::Take), &marked_packets()), expected);
        let mut clock = clock_packet(0x32);
        clock[3] |= 0x80;
        assert_eq!(lines(Demux::new(), &clock), [""; 0]);
        assert_eq!(lines(Demux::new().marked(Marked::Take), &clock), ["0 clock Pid(0032) 27000015"]);
    }

    #[test]
    fn the_stuffing_pid_is_taken_on_demand() {
        assert_eq!(lines(Demux::new(), &STUFFING), [""; 0]);
        let mut start = STUFFING;
        start[1] |= 0x40;
        assert_eq!(lines(Demux::new().only(&[Pid::STUFFING]), &start), ["0 start Pid(1fff)"]);
    }

    /// The first packet of a unit on each of so many PIDs.
    fn begins(pids: u16) -> Vec<u8> {
        (0..pids)
            .flat_map(|at| Unit::new(0x100 + at, 0xE0).unbounded().packets(&[1; 1_000]).unwrap()[..188].to_vec())
            .collect()
    }

    #[test]
    fn memory_is_bounded_over_all_pids() {
        let recording = begins(100);
        let mut demux = Demux::new().memory(20 * 256);
        let mut full = Vec::new();
        for packet in recording.chunks(188) {
            demux.push(packet, |found| {
                if let Found::StoreFull { pid, .. } = found {
                    full.push(u16::from(pid) - 0x100);
                }
            });
            assert!(demux.held() <= 20 * 256);
            assert_eq!(demux.held(), demux.streams.iter().map(|stream| stream.store.len()).sum::<usize>());
        }
        assert_eq!(full, (20..100).collect::<Vec<u16>>());
        let mut open = 0;
        demux.finish(|_| open += 1);
        assert_eq!(open, 20);
    }

    #[test]
    fn a_unit_that_is_given_up_frees_its_memory() {
        let long = Unit::new(0x30, 0xE0).unbounded().packets(&[1; 2_000]).unwrap();
        let mut demux = Demux::new().memory(1_024);
        let mut found = Vec::new();
        demux.push(&long, |it| found.push(line(it)));
        assert_eq!(found, ["0 start Pid(0030)", "0 begin Pid(0030) Video(0)", "5 full Pid(0030)"]);
        assert_eq!(demux.held(), 0);
        let next = Unit::new(0x30, 0xE0).counter(11).packets(&[2; 900]).unwrap();
        let other = Unit::new(0x31, 0xE0).packets(&[2; 10]).unwrap();
        demux.push(&[&next[..], &other].concat(), |it| found.push(line(it)));
        let rest =
            ["11 begin Pid(0030) Video(0)", "16 start Pid(0031)", "16 full Pid(0031)", "16 begin Pid(0031) Video(0)"];
        assert_eq!(found[3..], rest);
        demux.finish(|it| found.push(line(it)));
        assert_eq!(found[7..], ["11 unit Pid(0030) None None 900 false"]);
    }

    #[test]
    fn memory_that_no_open_unit_needs_is_freed_for_others() {
        // The first PID has had a long unit, and has a short one now; the second one has none after a continuity error.
        let long = Unit::new(0x30, 0xE0).packets(&[1; 1_000]).unwrap();
        let short = Unit::new(0x30, 0xE0).counter(6).packets(&[2; 100]).unwrap();
        let lost = Unit::new(0x31, 0xE0).packets(&[3; 1_000]).unwrap();
        let mut demux = Demux::new().memory(2_500);
        let mut found = Vec::new();
        demux.push(&[&long[..], &short, &lost[..4 * 188], &lost[5 * 188..]].concat(), |it| found.push(line(it)));
        assert_eq!((found.last().unwrap().as_str(), demux.held()), ("11 error Pid(0031)", 2_048));
        let new = Unit::new(0x32, 0xE0).packets(&[4; 2_000]).unwrap();
        demux.push(&new, |it| found.push(line(it)));
        assert_eq!(demux.held(), 128 + 2_048);
        demux.finish(|it| found.push(line(it)));
        let units: Vec<_> = found.iter().filter(|line| line.contains("unit")).collect();
        let expected = [
            "0 unit Pid(0030) None None 1000 true",
            "6 unit Pid(0030) None None 100 false",
            "12 unit Pid(0032) None None 2000 false",
        ];
        assert_eq!(units, expected);
    }

    /// Each packet followed by its copy.
    fn twice(recording: &[u8]) -> Vec<u8> {
        recording.chunks(Packet::SIZE).flat_map(|packet| [packet, packet].concat()).collect()
    }

    /// A recording of two PIDs, whose packets are mixed, and a clock.
    fn mixed() -> Vec<u8> {
        let one = Unit::new(0x30, 0xE0).pts_dts(7_200, 3_600).packets(&[1; 400]).unwrap();
        let next = Unit::new(0x30, 0xE0).counter(3).packets(&[2; 10]).unwrap();
        let sound = Unit::new(0x31, 0xC1).pts(5).packets(&[3; 20]).unwrap();
        [&one[..188], &sound, &one[188..], &clock_packet(0x32), &next].concat()
    }

    #[test]
    fn packets_sent_twice_are_those_sent_once() {
        let expected = [
            "0 start Pid(0030)",
            "0 begin Pid(0030) Video(0)",
            "1 repeated Pid(0030)",
            "2 start Pid(0031)",
            "2 begin Pid(0031) Audio(1)",
            "3 repeated Pid(0031)",
            "5 repeated Pid(0030)",
            "7 repeated Pid(0030)",
            "8 clock Pid(0032) 27000015",
            "9 clock Pid(0032) 27000015",
            "0 unit Pid(0030) Some(7200) Some(3600) 400 true",
            "10 begin Pid(0030) Video(0)",
            "11 repeated Pid(0030)",
            "10 unit Pid(0030) None None 10 false",
            "2 unit Pid(0031) Some(5) None 20 false",
        ];
        assert_eq!(lines(Demux::standard(), &twice(&mixed())), expected);
        assert_eq!(lines(Demux::new().mode(Mode::Standard), &twice(&mixed())), expected);
        let of_one: Vec<_> = expected.iter().filter(|line| line.contains("0031")).copied().collect();
        assert_eq!(lines(Demux::standard().only(&[Pid::new(0x31).unwrap()]), &twice(&mixed())), of_one);
        assert_eq!(lines(Demux::standard(), &mixed()), lines(Demux::new(), &mixed()));
        let broken = lines(Demux::new(), &twice(&mixed()));
        assert_eq!(broken.iter().filter(|line| line.contains("error")).count(), 5);
    }

    #[test]
    fn a_packet_is_repeated_once() {
        let unit = Unit::new(0x30, 0xE0).packets(&[1; 700]).unwrap();
        let four = unit[188..376].repeat(4);
        let expected = [
            "0 start Pid(0030)",
            "0 begin Pid(0030) Video(0)",
            "2 repeated Pid(0030)",
            "3 error Pid(0030)",
            "4 repeated Pid(0030)",
        ];
        assert_eq!(lines(Demux::standard(), &[&unit[..188], &four, &unit[376..]].concat()), expected);
    }

    #[test]
    fn of_two_packets_one_is_enough() {
        let unit = Unit::new(0x30, 0xE0).packets(&[1; 700]).unwrap();
        let whole = "0 unit Pid(0030) None None 700 false";
        for at in 2..8 {
            let mut lost = twice(&unit);
            lost.drain(at * 188..(at + 1) * 188);
            let told = lines(Demux::standard(), &lost);
            assert_eq!((told.last().unwrap().as_str(), told.len()), (whole, 6));
            for mark in [(1, 0x80), (3, 0x40)] {
                let mut marked = twice(&unit);
                marked[at * 188 + mark.0] |= mark.1;
                let told = lines(Demux::standard(), &marked);
                assert_eq!((told.last().unwrap().as_str(), told.len()), (whole, 6));
            }
        }
    }

    #[test]
    fn a_repeated_packet_has_its_own_clock() {
        let mut first = Unit::new(0x30, 0xE0).packets(&[1; 100]).unwrap();
        assert_eq!(first[3..5], [0x30, 74]); // stuffed, so that there is room for a clock
        first[5..12].copy_from_slice(&[0x10, 0, 0, 0xAF, 0xC8, 0x7E, 0x0F]);
        let mut second = first.clone();
        second[11] = 0x10;
        let expected = [
            "0 clock Pid(0030) 27000015",
            "0 start Pid(0030)",
            "0 begin Pid(0030) Video(0)",
            "1 clock Pid(0030) 27000016",
            "1 repeated Pid(0030)",
            "0 unit Pid(0030) None None 100 false",
        ];
        assert_eq!(lines(Demux::standard(), &[first, second].concat()), expected);
    }

    #[test]
    fn the_mode_of_open_streams_can_be_changed() {
        let unit = Unit::new(0x30, 0xE0).packets(&[1; 300]).unwrap();
        let mut demux = Demux::standard();
        let mut found = Vec::new();
        demux.push(&unit[..188], |it| found.push(line(it)));
        let mut demux = demux.mode(Mode::Crate);
        demux.push(&unit[..188], |it| found.push(line(it)));
        let mut demux = demux.mode(Mode::Standard);
        demux.push(&unit[..188], |it| found.push(line(it)));
        let rest = ["1 error Pid(0030)", "1 begin Pid(0030) Video(0)", "2 repeated Pid(0030)"];
        assert_eq!(found[2..], rest);
    }

    /// A recording that begins within a unit, of which the last packet is missing: a packet of it, and the next unit.
    fn begun_late() -> Vec<u8> {
        let unit = Unit::new(0x30, 0xE0).packets(&[1; 500]).unwrap();
        let next = Unit::new(0x30, 0xE0).counter(3).packets(&[2; 300]).unwrap();
        [&unit[188..376], &next].concat()
    }

    #[test]
    fn an_early_break_announces_a_stream_in_the_standard_mode() {
        let expected = [
            "1 start by a break Pid(0030)",
            "1 error Pid(0030)",
            "1 begin Pid(0030) Video(0)",
            "1 unit Pid(0030) None None 300 false",
        ];
        assert_eq!(lines(Demux::standard(), &begun_late()), expected);
        assert_eq!(lines(Demux::new(), &begun_late()), expected[1..]);
        // A break without a start flag does it too. The next one announces nothing.
        let unit = Unit::new(0x30, 0xE0).packets(&[1; 900]).unwrap();
        let breaks = ["1 start by a break Pid(0030)", "1 error Pid(0030)", "2 error Pid(0030)"];
        let gaps = [&unit[188..376], &unit[3 * 188..4 * 188], &unit[..188]].concat();
        assert_eq!(lines(Demux::standard(), &gaps)[..3], breaks);
        assert_eq!(lines(Demux::new(), &gaps)[..2], breaks[1..]);
    }

    #[test]
    fn a_repeat_announces_nothing() {
        let mut unit = Unit::new(0x30, 0xE0).packets(&[1; 500]).unwrap();
        let same = [&unit[188..376], &unit[188..376]].concat();
        assert_eq!(lines(Demux::standard(), &same), ["1 repeated Pid(0030)"]);
        // Its other bytes are not compared, so it may have the start flag.
        let middle = unit[188..376].to_vec();
        unit[3] = middle[3];
        assert_eq!(lines(Demux::standard(), &[&middle, &unit[..188]].concat()), ["1 repeated Pid(0030)"]);
        let told = lines(Demux::standard(), &[&middle, &unit[..188], &unit[..188]].concat());
        assert_eq!(told[..3], ["1 repeated Pid(0030)", "2 start by a break Pid(0030)", "2 error Pid(0030)"]);
    }

    #[test]
    fn a_change_of_mode_announces_a_stream_that_was_not() {
        let third = Unit::new(0x30, 0xE0).counter(5).packets(&[3; 10]).unwrap();
        let mut demux = Demux::new();
        let mut found = Vec::new();
        demux.push(&begun_late(), |it| found.push(line(it)));
        let mut demux = demux.mode(Mode::Standard);
        demux.push(&third, |it| found.push(line(it)));
        let rest = ["3 start Pid(0030)", "1 unit Pid(0030) None None 300 true", "3 begin Pid(0030) Video(0)"];
        assert_eq!(found[2..], rest);
    }

    #[test]
    fn slots_of_every_pid() {
        let every = || (0..=Pid::MAX_VALUE).map(|pid| Pid::new(pid).unwrap());
        for first in [NEW, UNWANTED] {
            let mut slots = Slots::all(first);
            for (slot, pid) in (0..).zip(every()) {
                assert_eq!(slots.get(pid), first);
                slots.set(pid, slot);
            }
            assert!((0..).zip(every()).all(|(slot, pid)| slots.get(pid) == slot));
            assert_eq!(mem::size_of_val(&slots.pages) + mem::size_of_val(&slots.slots[..]), 128 + 129 * 128);
        }
    }

    #[test]
    fn a_stream_is_small() {
        assert!(mem::size_of::<Stream>() <= 200);
    }
}
