//! The events of each PID, by a machine for each.

use crate::input::Failure;
use crate::options::Options;
use crate::table::{standard_output, Cell, Column, Form, Table};
use clomaverift::{EventKind, Mode, Packet, Pid};
use std::io::Write;

const fn columns_with(event: Column) -> [Column; 5] {
    [Column::new("packet", 10), Column::new("pid", 6), event, Column::new("offset", 6), Column::new("length", 6)]
}

const COLUMNS: &[Column] = &columns_with(Column::new("event", 8));

/// The longest word, `start-break`, is there in the standard mode alone.
const STANDARD_COLUMNS: &[Column] = &columns_with(Column::new("event", 11));

fn columns(mode: Mode) -> &'static [Column] {
    match mode {
        Mode::Standard => STANDARD_COLUMNS,
        _ => COLUMNS,
    }
}

/// The log of one packet, which has at most three events.
const LOG: usize = 24;

/// The word of an event, by the packet's next one: a stream may be announced by a break.
fn word(kind: EventKind, next: Option<EventKind>) -> &'static str {
    match kind {
        EventKind::StartStream if next == Some(EventKind::ContinuityError) => "start-break",
        EventKind::StartStream => "start",
        EventKind::BeginPacket => "begin",
        EventKind::ContinuePacket => "continue",
        EventKind::EndPacket => "end",
        EventKind::ContinuityError => "error",
        _ => "unknown",
    }
}

/// Whether a packet is taken: as `Demux` does, so that all sub-commands speak of the same packets.
fn taken(packet: &Packet<'_>, chosen: Option<Pid>) -> bool {
    let pid = packet.pid();
    chosen.map_or(pid != Pid::STUFFING, |chosen| chosen == pid)
        && !packet.transport_error_indicator()
        && !packet.transport_scrambling_control().is_scrambled()
}

pub fn run(options: Options) -> Result<(), Failure> {
    let mut machines = vec![options.machine(); Pid::PID_COUNT];
    let mut table = Table::begin(standard_output(), options.form, columns(options.mode), false)?;
    let pid = options.pid;
    let tally = options.input.each(|index, bytes, packet| {
        let packet = match packet {
            Some(packet) if taken(&packet, pid) => packet,
            _ => return Ok(()),
        };
        let refused = |error| Failure::Said(format!("packet {index}: {error}")); // of an archive that is newer than the crate
        let machine = &mut machines[usize::from(packet.pid())];
        let mut log = [0; LOG];
        machine.rewind();
        machine.step(bytes, &mut log).map_err(refused)?;
        let mut events = machine.events(&log).peekable();
        while let Some(event) = events.next() {
            let event = event.map_err(refused)?;
            let next = events.peek().and_then(|next| next.ok());
            let word = word(event.kind, next.map(|next| next.kind));
            let (offset, length) = (Cell::Number(event.place.into()), Cell::Number(event.length.into()));
            table.row(&[Cell::Number(index), Cell::Pid(packet.pid()), Cell::Word(word), offset, length])?;
        }
        Ok(())
    })?;
    let mut out = table.end()?;
    if options.form == Form::Json {
        writeln!(out)?;
    }
    out.flush()?;
    tally.check()
}
