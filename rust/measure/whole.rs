//! A whole recording, every packet of every PID: through `Demux` of the crate rust/clomaverift, and through the oracle's `Demultiplex` with a
//! filter for each PID that reads the clock references and gathers the units in a vector.

use crate::recording::short;
use crate::row::{Row, Side, Work};
use crate::sum::Sum;
use clomaverift::{Demux, Found};
use mpeg2ts_reader::demultiplex::{
    Demultiplex, DemuxContext, FilterChangeset, FilterRequest, NullPacketFilter, PacketFilter,
};
use mpeg2ts_reader::packet::Packet;
use mpeg2ts_reader::pes::{ElementaryStreamConsumer, PesContents, PesHeader, PesPacketFilter, PtsDts};
use std::hint::black_box;
use std::{fs, mem};

/// How many packets are taken, about: the recording is gone through more than once.
const PACKETS: usize = 100_000;

/// How many bytes of a unit's payload are looked at.
const LOOKED_AT: usize = 16;

pub fn row(file: &str) -> Row {
    let path = file.to_string();
    Row::new("whole recording, a packet", short(file), move || Whole::read(path))
}

struct Whole {
    bytes: Vec<u8>,
    rounds: usize,
    /// Over what the last round gave.
    sum: u64,
}

impl Whole {
    fn read(file: String) -> Option<Whole> {
        let bytes = fs::read(file).ok()?;
        let rounds = PACKETS.div_ceil((bytes.len() / Packet::SIZE).max(1));
        Some(Whole { bytes, rounds, sum: 0 })
    }
}

impl Work for Whole {
    fn units(&self) -> usize {
        self.rounds * self.bytes.len() / Packet::SIZE
    }

    fn run(&mut self, side: Side) {
        let take: fn(&[u8]) -> u64 = black_box(side.choose(library, rust, |_| u64::MAX));
        for _ in 0..self.rounds {
            self.sum = take(&self.bytes);
        }
    }

    fn sum(&self) -> u64 {
        self.sum
    }
}

/// What is done with what is found, by both sides.
struct Taker(Sum);

impl Taker {
    /// A unit that has ended. One that is open at the end of the recording is not taken: the oracle does not give it.
    #[inline(never)]
    fn unit(&mut self, pid: u16, [pts, dts]: [Option<u64>; 2], payload: &[u8]) {
        let head = [pid.into(), pts.unwrap_or(u64::MAX), dts.unwrap_or(u64::MAX), payload.len() as u64];
        head.into_iter().for_each(|number| self.0.add(number));
        if let Some(last) = payload.len().checked_sub(1) {
            (0..LOOKED_AT).for_each(|nth| self.0.add(payload[last * nth / (LOOKED_AT - 1)].into()));
        }
    }

    #[inline(never)]
    fn clock(&mut self, pid: u16, pcr: u64) {
        self.0.add(pid.into());
        self.0.add(pcr);
    }

    #[inline(never)]
    fn start_or_error(&mut self, pid: u16, error: bool) {
        self.0.add(u64::from(pid) << 1 | u64::from(error));
    }
}

fn library(bytes: &[u8]) -> u64 {
    let mut taker = Taker(Sum::new());
    let mut tell = |found: Found<'_>| match found {
        Found::Unit(unit) if unit.ended => {
            taker.unit(unit.pid.into(), [unit.pts(), unit.dts()].map(|time| time.map(u64::from)), unit.payload);
        }
        Found::Clock { pid, pcr, .. } => taker.clock(pid.into(), pcr.into()),
        Found::StartStream { pid, .. } => taker.start_or_error(pid.into(), false),
        Found::ContinuityError { pid, .. } => taker.start_or_error(pid.into(), true),
        _ => (),
    };
    let mut demux = Demux::new();
    demux.push(bytes, &mut tell);
    demux.finish(&mut tell);
    taker.0.total()
}

fn rust(bytes: &[u8]) -> u64 {
    let mut context = Context { changes: FilterChangeset::default(), taker: Taker(Sum::new()) };
    Demultiplex::new(&mut context).push(&mut context, bytes);
    context.taker.0.total()
}

struct Context {
    changes: FilterChangeset<Filter>,
    taker: Taker,
}

impl DemuxContext for Context {
    type F = Filter;

    fn filter_changeset(&mut self) -> &mut FilterChangeset<Filter> {
        &mut self.changes
    }

    /// As `Demux` has it: the same for every PID, and none for the stuffing PID.
    fn construct(&mut self, request: FilterRequest<'_, '_>) -> Filter {
        match request {
            FilterRequest::ByPid(pid) if pid != mpeg2ts_reader::STUFFING_PID => {
                let gathers = Gathers { pid: pid.into(), open: false, times: [None; 2], unit: Vec::new() };
                Filter::Stream(pid.into(), PesPacketFilter::new(gathers))
            }
            _ => Filter::Nothing(NullPacketFilter::default()),
        }
    }
}

enum Filter {
    Stream(u16, PesPacketFilter<Context, Gathers>),
    Nothing(NullPacketFilter<Context>),
}

impl PacketFilter for Filter {
    type Ctx = Context;

    #[inline(always)]
    fn consume(&mut self, context: &mut Context, packet: &Packet<'_>) {
        match self {
            Filter::Stream(pid, filter) => {
                if let Some(Ok(pcr)) = packet.adaptation_field().map(|field| field.pcr()) {
                    context.taker.clock(*pid, pcr.into());
                }
                filter.consume(context, packet);
            }
            Filter::Nothing(filter) => filter.consume(context, packet),
        }
    }
}

/// Gathers the units of a PID in a vector.
struct Gathers {
    pid: u16,
    open: bool,
    times: [Option<u64>; 2],
    unit: Vec<u8>,
}

impl ElementaryStreamConsumer<Context> for Gathers {
    fn start_stream(&mut self, context: &mut Context) {
        context.taker.start_or_error(self.pid, false);
    }

    fn begin_packet(&mut self, _: &mut Context, header: PesHeader<'_>) {
        (self.open, self.times) = (true, [None; 2]);
        self.unit.clear();
        black_box((header.stream_id(), header.pes_packet_length())); // which `Demux` tells too
        match header.contents() {
            PesContents::Parsed(Some(contents)) => {
                self.times = match contents.pts_dts() {
                    Ok(PtsDts::PtsOnly(pts)) => [pts.ok(), None],
                    Ok(PtsDts::Both { pts, dts }) => [pts.ok(), dts.ok()],
                    _ => [None; 2],
                }
                .map(|time| time.map(|time| time.value()));
                self.unit.extend_from_slice(contents.payload());
            }
            PesContents::Parsed(None) => (),
            PesContents::Payload(payload) => self.unit.extend_from_slice(payload),
        }
    }

    fn continue_packet(&mut self, _: &mut Context, data: &[u8]) {
        if self.open {
            self.unit.extend_from_slice(data);
        }
    }

    fn end_packet(&mut self, context: &mut Context) {
        if mem::take(&mut self.open) {
            context.taker.unit(self.pid, self.times, &self.unit);
        }
    }

    fn continuity_error(&mut self, context: &mut Context) {
        self.open = false;
        context.taker.start_or_error(self.pid, true);
    }
}
