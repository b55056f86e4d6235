//! The gathering store as the request has it, written anew. Which bytes of a begin belong to its unit the oracle says.

use crate::answer::Answer;
use crate::consumer::SIZE;
use crate::event::{self, Event};
use crate::gatherer::own;
use crate::host_gather::{Gathering, STORE};
use crate::kept::place_and_length;
use mpeg2ts_reader::packet::Packet;
use mpeg2ts_reader::pes::PesHeader;
use std::ops::Range;

/// What an event does.
pub struct Gathered {
    pub number: u32,
    pub after: Gathering,
    /// The bytes of the packet that are added, and from which byte of the store on.
    pub added: Range<usize>,
    pub at: usize,
}

/// What an event does in a state, with a store of so many bytes.
pub fn gathered(state: Gathering, packet: &[u8], event: Event, room: usize) -> Gathered {
    let number = match judged(state, packet, room) {
        0 if !is_possible(event) => 14,
        number => number,
    };
    if number != 0 {
        return Gathered { number, after: state, added: 0..0, at: 0 };
    }
    let added = added(state, packet, event);
    let at = if event.kind == event::BEGIN { 0 } else { state.count };
    let count = at + added.len();
    if count > room {
        return Gathered { number: 20, after: Gathering::FIRST, added: 0..0, at: 0 };
    }
    let after = match event.kind {
        event::START => state,
        event::BEGIN => Gathering { opened: 1, count, lies: added.start as u64 },
        event::CONTINUE => Gathering { count, lies: STORE, ..state },
        event::END => Gathering { opened: 0, count, lies: STORE },
        _ => Gathering::FIRST,
    };
    Gathered { number: 0, after, added, at }
}

/// Where the bytes so far are, or the number of the refusal.
pub fn held(state: Gathering, packet: &[u8], room: usize) -> Answer {
    match (judged(state, packet, room), state.lies) {
        (0, STORE) => Answer::done(&[1, 0, state.count as u64]),
        (0, place) => Answer::done(&[0, place, state.count as u64]),
        (number, _) => Answer::refused(number, &[]),
    }
}

/// 1, 2 and 14, or 0.
fn judged(state: Gathering, packet: &[u8], room: usize) -> u32 {
    if packet.len() != SIZE {
        return 1;
    }
    if packet[0] != Packet::SYNC_BYTE {
        return 2;
    }
    if state.opened > 1 || state.count > room {
        return 14;
    }
    if state.lies != STORE && u128::from(state.lies) + state.count as u128 > SIZE as u128 {
        return 14;
    }
    0
}

fn is_possible(event: Event) -> bool {
    (event::START..=event::ERROR).contains(&event.kind) && event.place + event.length <= SIZE as u64
}

/// The bytes of the packet that an event adds. A begin that adds none has a place too.
fn added(state: Gathering, packet: &[u8], event: Event) -> Range<usize> {
    let (from, length) = (event.place as usize, event.length as usize);
    match event.kind {
        event::BEGIN => {
            let header = PesHeader::from_bytes(&packet[from..from + length]);
            let Some(own) = header.and_then(|header| own(&header)) else { return from..from };
            let [place, length] = place_and_length(packet, own).map(|number| number as usize);
            place..place + length
        }
        event::CONTINUE if state.opened == 1 => from..from + length,
        _ => 0..0,
    }
}
