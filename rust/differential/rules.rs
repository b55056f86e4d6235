//! The machine's rules as the request has them, written anew: for the two states that no stream brings the oracle to, which are a
//! phase other than Begin with no last counter. They are held against the oracle in all other states. Those of events are the
//! standard mode's too (standard_rules.rs), but for StartStream, which each mode gives by a rule of its own.

use crate::event::{self, Event, Events};
use crate::host_machine::{State, BEGIN, IGNORE_REST, NONE, STARTED};

/// What a packet does: its events; the phase and the counter after it, and whether it may be repeated. Whether the stream is announced
/// after it, the events tell.
#[derive(Debug, PartialEq)]
pub struct Happened {
    pub events: Events,
    pub phase: u64,
    pub last: u64,
    pub again: u64,
}

/// In the crate's mode. StartStream comes by the phase, whether the stream was announced or not.
pub fn happened(State { phase, last, .. }: State, packet: &[u8]) -> Happened {
    let due = (last + u64::from(has_payload_flag(packet))) % 16;
    let continuous = last == NONE || counter(packet) == due;
    accepted(phase, continuous, continuous && phase == BEGIN && has_start_flag(packet), packet)
}

/// In both modes, where the packet is not dropped: its counter is continuous, or there is a break; and it announces the stream, or not.
pub fn accepted(phase: u64, continuous: bool, announces: bool, packet: &[u8]) -> Happened {
    let start = has_start_flag(packet);
    let phase = if continuous { phase } else { IGNORE_REST };
    let mut events = Events::default();
    if announces {
        events.push(Event::bare(event::START));
    }
    match (start, phase) {
        _ if !continuous => events.push(Event::bare(event::ERROR)),
        (true, STARTED) => events.push(Event::bare(event::END)),
        _ => (),
    }
    if let Some(payload) = payload(packet) {
        let part = |kind| Event { kind, place: (packet.len() - payload.len()) as u64, length: payload.len() as u64 };
        match (start, phase) {
            (true, _) if payload.len() >= 6 && payload.starts_with(&[0, 0, 1]) => events.push(part(event::BEGIN)),
            (false, STARTED) => events.push(part(event::CONTINUE)),
            _ => (),
        }
    }
    let phase = if start { STARTED } else { phase };
    Happened { events, phase, last: counter(packet), again: has_payload_flag(packet).into() }
}

/// The most events of packets, but for a StartStream beside others, which the standard mode may give: one for each, and one for each start.
pub fn most_events<'a>(packets: impl Iterator<Item = &'a [u8]>) -> usize {
    packets.map(|packet| 1 + usize::from(has_start_flag(packet))).sum()
}

pub fn has_start_flag(packet: &[u8]) -> bool {
    packet[1] & 0x40 != 0
}

pub fn counter(packet: &[u8]) -> u64 {
    u64::from(packet[3] & 0x0f)
}

pub fn has_payload_flag(packet: &[u8]) -> bool {
    packet[3] & 0x10 != 0
}

fn payload(packet: &[u8]) -> Option<&[u8]> {
    let at = if packet[3] & 0x20 != 0 { 5 + usize::from(packet[4]) } else { 4 };
    (has_payload_flag(packet) && at < packet.len()).then(|| &packet[at..])
}
