//! The oracle's machine: `PesPacketFilter::consume`, with a consumer that hands its calls on. `Demultiplex::push`, which would call it,
//! drops packets by their error and scrambling bits.

use crate::event::{self, Event, Events};
use crate::host_machine::{BEGIN, IGNORE_REST, NONE, STARTED};
use crate::kept::Keeps;
use mpeg2ts_reader::demultiplex::{DemuxContext, FilterChangeset, FilterRequest, NullPacketFilter, PacketFilter};
use mpeg2ts_reader::packet::Packet;
use mpeg2ts_reader::pes::{ElementaryStreamConsumer, PesHeader, PesPacketFilter};

pub const SIZE: usize = Packet::SIZE;

/// The machine, and who listens to it.
pub struct Oracle<L: Listener = Notes> {
    filter: PesPacketFilter<Context<L>, Calls>,
    context: Context<L>,
}

impl<L: Listener> Oracle<L> {
    /// In the state before any packet.
    pub fn heard_by(listener: L) -> Oracle<L> {
        let context = Context { changes: FilterChangeset::default(), listener };
        Oracle { filter: PesPacketFilter::new(Calls), context }
    }

    /// Takes a packet of 188 bytes with a sync byte.
    pub fn take(&mut self, packet: &[u8]) {
        self.filter.consume(&mut self.context, &Packet::new(packet));
    }

    pub fn listener(&self) -> &L {
        &self.context.listener
    }
}

impl Oracle {
    /// In the state before any packet.
    pub fn new() -> Oracle {
        Oracle::heard_by(Notes::default())
    }

    /// In this state, where packets can bring it there. The start of a stream sets Started, and a break sets IgnoreRest: both leave a
    /// counter behind.
    pub fn brought_to(phase: u64, last: u64) -> Option<Oracle> {
        let (mut oracle, counter) = (Oracle::new(), last as u8);
        match (phase, last) {
            (BEGIN, NONE) => return Some(oracle),
            (BEGIN, 0..=15) => oracle.consume(&plain(counter)),
            (STARTED, 0..=15) => oracle.consume(&start(counter)),
            (IGNORE_REST, 0..=15) => {
                oracle.consume(&plain(counter.wrapping_sub(2)));
                oracle.consume(&plain(counter))
            }
            _ => return None,
        };
        Some(oracle)
    }

    /// The events of a packet of 188 bytes with a sync byte.
    pub fn consume(&mut self, packet: &[u8]) -> Events {
        self.context.listener = Notes { address: packet.as_ptr() as usize, events: Events::default() };
        self.take(packet);
        self.context.listener.events
    }
}

/// The phase that the oracle was in, by the events of a packet with the start flag, a head and a counter that follows the last;
/// nothing where that counter did not follow.
pub fn phase_before(start: &Events) -> Option<u64> {
    match start[0].kind {
        event::START => Some(BEGIN),
        event::END => Some(STARTED),
        event::BEGIN => Some(IGNORE_REST),
        _ => None,
    }
}

// ---- Packets that tell the states apart.

/// A packet with the start flag and a head, with this counter.
pub fn start(counter: u8) -> [u8; SIZE] {
    let mut packet = plain(counter);
    packet[1] = 0x40;
    packet[4..8].copy_from_slice(&[0x00, 0x00, 0x01, 0xe0]);
    packet
}

/// A packet with a payload and nothing else, with this counter.
fn plain(counter: u8) -> [u8; SIZE] {
    let mut packet = [0xff; SIZE];
    packet[..4].copy_from_slice(&[Packet::SYNC_BYTE, 0x00, 0x00, 0x10 | counter & 0x0f]);
    packet
}

// ---- The consumer.

/// Who is told of the machine's calls.
pub trait Listener {
    /// A call with nothing beside it: the kind of its event.
    fn bare(&mut self, kind: u64);
    fn begin(&mut self, header: &PesHeader);
    fn more(&mut self, data: &[u8]);
}

struct Context<L> {
    changes: FilterChangeset<NullPacketFilter<Context<L>>>,
    listener: L,
}

impl<L> DemuxContext for Context<L> {
    type F = NullPacketFilter<Context<L>>;

    fn filter_changeset(&mut self) -> &mut FilterChangeset<Self::F> {
        &mut self.changes
    }

    fn construct(&mut self, _: FilterRequest<'_, '_>) -> Self::F {
        NullPacketFilter::default()
    }
}

struct Calls;

impl<L: Listener> ElementaryStreamConsumer<Context<L>> for Calls {
    fn start_stream(&mut self, context: &mut Context<L>) {
        context.listener.bare(event::START);
    }

    fn begin_packet(&mut self, context: &mut Context<L>, header: PesHeader<'_>) {
        context.listener.begin(&header);
    }

    fn continue_packet(&mut self, context: &mut Context<L>, data: &[u8]) {
        context.listener.more(data);
    }

    fn end_packet(&mut self, context: &mut Context<L>) {
        context.listener.bare(event::END);
    }

    fn continuity_error(&mut self, context: &mut Context<L>) {
        context.listener.bare(event::ERROR);
    }
}

/// Notes the events of one packet.
#[derive(Default)]
pub struct Notes {
    /// Where the packet lies, for the places of its parts.
    address: usize,
    events: Events,
}

impl Notes {
    fn part(&mut self, kind: u64, part: &[u8]) {
        let place = (part.as_ptr() as usize).wrapping_sub(self.address);
        self.events.push(Event { kind, place: place as u64, length: part.len() as u64 });
    }
}

impl Listener for Notes {
    fn bare(&mut self, kind: u64) {
        self.events.push(Event::bare(kind));
    }

    fn begin(&mut self, header: &PesHeader) {
        self.part(event::BEGIN, header.kept());
    }

    fn more(&mut self, data: &[u8]) {
        self.part(event::CONTINUE, data);
    }
}
