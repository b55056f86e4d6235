//! The oracle's demultiplexer, which is not ported: it takes packets before the oracle's machine does, and drops some.

use crate::consumer::Oracle;
use crate::event::Events;
use mpeg2ts_reader::demultiplex::{Demultiplex, DemuxContext, FilterChangeset, FilterRequest, PacketFilter};
use mpeg2ts_reader::packet::Packet;

/// The events of each packet that `Demultiplex::push` hands on.
pub fn handed_on(packets: &[Vec<u8>]) -> Vec<Events> {
    let mut context = Context { changes: FilterChangeset::default(), events: vec![] };
    let mut demultiplex = Demultiplex::new(&mut context);
    demultiplex.push(&mut context, &packets.concat());
    context.events
}

struct Context {
    changes: FilterChangeset<Filter>,
    events: Vec<Events>,
}

impl DemuxContext for Context {
    type F = Filter;

    fn filter_changeset(&mut self) -> &mut FilterChangeset<Filter> {
        &mut self.changes
    }

    fn construct(&mut self, _: FilterRequest<'_, '_>) -> Filter {
        Filter(Oracle::new())
    }
}

/// What a packet is handed to: the machine.
struct Filter(Oracle);

impl PacketFilter for Filter {
    type Ctx = Context;

    fn consume(&mut self, context: &mut Context, packet: &Packet<'_>) {
        context.events.push(self.0.consume(packet.buffer()));
    }
}
