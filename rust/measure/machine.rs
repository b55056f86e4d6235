//! The oracle's machine over packets: its events, each with the index of its packet.

use crate::event::{self, Event};
use crate::kept::Keeps;
use mpeg2ts_reader::demultiplex::{DemuxContext, FilterChangeset, FilterRequest, NullPacketFilter, PacketFilter};
use mpeg2ts_reader::packet::Packet;
use mpeg2ts_reader::pes::{ElementaryStreamConsumer, PesHeader, PesPacketFilter};

/// What takes the events.
pub trait Takes {
    fn take(&mut self, index: u32, event: Event);
}

pub struct Machine<T: Takes> {
    filter: PesPacketFilter<Context<T>, Calls>,
    context: Context<T>,
}

impl<T: Takes> Machine<T> {
    /// In the state before any packet.
    pub fn new(taker: T) -> Machine<T> {
        let context = Context { changes: FilterChangeset::default(), taker, taken: 0, packet: 0 };
        Machine { filter: PesPacketFilter::new(Calls), context }
    }

    /// Takes the whole packets of the bytes, up to one without a sync byte: 0, or 2 where there is one.
    #[inline(always)]
    pub fn run(&mut self, bytes: &[u8]) -> u32 {
        for bytes in bytes.chunks_exact(Packet::SIZE) {
            let word = self.step(bytes);
            if word != 0 {
                return word;
            }
        }
        0
    }

    /// Takes a packet of 188 bytes: 0, or 2 where it has no sync byte.
    #[inline(always)]
    pub fn step(&mut self, bytes: &[u8]) -> u32 {
        let Some(packet) = Packet::try_new(bytes) else { return 2 };
        self.context.packet = bytes.as_ptr() as usize;
        self.filter.consume(&mut self.context, &packet);
        self.context.taken += 1;
        0
    }

    /// How many packets were taken.
    pub fn taken(&self) -> u32 {
        self.context.taken
    }

    pub fn taker(&self) -> &T {
        &self.context.taker
    }

    pub fn taker_mut(&mut self) -> &mut T {
        &mut self.context.taker
    }
}

struct Context<T> {
    changes: FilterChangeset<NullPacketFilter<Context<T>>>,
    taker: T,
    taken: u32,
    /// Where the packet lies, for the places of its parts.
    packet: usize,
}

impl<T: Takes> Context<T> {
    #[inline(always)]
    fn bare(&mut self, kind: u64) {
        self.taker.take(self.taken, Event::bare(kind));
    }

    #[inline(always)]
    fn part(&mut self, kind: u64, part: &[u8]) {
        let place = part.as_ptr() as usize - self.packet;
        self.taker.take(self.taken, Event { kind, place: place as u64, length: part.len() as u64 });
    }
}

impl<T> DemuxContext for Context<T> {
    type F = NullPacketFilter<Context<T>>;

    fn filter_changeset(&mut self) -> &mut FilterChangeset<Self::F> {
        &mut self.changes
    }

    fn construct(&mut self, _: FilterRequest<'_, '_>) -> Self::F {
        NullPacketFilter::default()
    }
}

struct Calls;

impl<T: Takes> ElementaryStreamConsumer<Context<T>> for Calls {
    fn start_stream(&mut self, context: &mut Context<T>) {
        context.bare(event::START);
    }

    fn begin_packet(&mut self, context: &mut Context<T>, header: PesHeader<'_>) {
        context.part(event::BEGIN, header.kept());
    }

    fn continue_packet(&mut self, context: &mut Context<T>, data: &[u8]) {
        context.part(event::CONTINUE, data);
    }

    fn end_packet(&mut self, context: &mut Context<T>) {
        context.bare(event::END);
    }

    fn continuity_error(&mut self, context: &mut Context<T>) {
        context.bare(event::ERROR);
    }
}
