//! The standard mode of the event machine, which the oracle does not have, as the request says it. What a packet is taken for, and which
//! one announces the stream, is said twice: by the state that the machine keeps, and by the packets alone. The two are held against each
//! other.

use crate::consumer::SIZE;
use crate::event::Events;
use crate::host_machine::{State, NONE};
use crate::rules::{self, counter, has_payload_flag, has_start_flag, Happened};

/// What a packet is taken for.
#[derive(Clone, Copy, Debug, PartialEq)]
pub enum Verdict {
    /// It goes on where the one before it ended.
    On,
    /// A repeat: it is counted, and gives no event.
    Dropped,
    Break,
}

/// The numbers that say that the packet just before may be repeated once, and no more, as it was a dropped repeat itself. 0 is that of
/// one without the payload flag, which may not be repeated at all.
const ONCE: u64 = 1;
pub const NO_MORE: u64 = 2;

/// What a packet does in a state.
pub fn happened(state: State, packet: &[u8]) -> Happened {
    does(verdict(state.last, state.again, packet), state, packet)
}

/// What a packet does that is taken for this. A dropped one leaves the phase and the counter as they are; all others follow the rules
/// of both modes.
pub fn does(verdict: Verdict, State { phase, last, announced, .. }: State, packet: &[u8]) -> Happened {
    let unannounced = announced == 0;
    match verdict {
        Verdict::On => rules::accepted(phase, true, unannounced && has_start_flag(packet), packet),
        Verdict::Dropped => Happened { events: Events::default(), phase, last, again: NO_MORE },
        Verdict::Break => rules::accepted(phase, false, unannounced, packet),
    }
}

// ---- By the state.

/// What a packet is taken for after a packet with the counter `last`, which may be repeated or not as `again` says.
pub fn verdict(last: u64, again: u64, packet: &[u8]) -> Verdict {
    // With the bit a packet is continuous and no repeat, whatever its counter is; so it is where there is no last counter.
    if has_discontinuity_bit(packet) || last == NONE {
        return Verdict::On;
    }
    match (has_payload_flag(packet), compared(counter(packet), last)) {
        (true, Compared::Next) => Verdict::On,
        (true, Compared::Same) if again == ONCE => Verdict::Dropped,
        (false, Compared::Same) => Verdict::On,
        // Also the counter of the one just before, where that one may not be repeated.
        _ => Verdict::Break,
    }
}

enum Compared {
    Next,
    Same,
    Jump,
}

fn compared(counter: u64, last: u64) -> Compared {
    if counter == last {
        return Compared::Same;
    }
    match counter == (last + 1) % 16 {
        true => Compared::Next,
        false => Compared::Jump,
    }
}

/// Whether there is an adaptation field and it has the discontinuity bit. By the length there is one, beside the payload flag, where a
/// payload follows it, and without the flag, where it goes to the end.
pub fn has_discontinuity_bit(packet: &[u8]) -> bool {
    let length = packet[4];
    let fits = match has_payload_flag(packet) {
        true => (1..=182).contains(&length),
        false => length == 183,
    };
    packet[3] & 0x20 != 0 && fits && packet[5] & 0x80 != 0
}

// ---- By the packets alone.

/// What each packet is taken for, where the stream begins with the first of them.
pub fn verdicts(packets: &[u8]) -> impl Iterator<Item = Verdict> + '_ {
    let packets = packets.chunks_exact(SIZE);
    let just_before = [None].into_iter().chain(packets.clone().map(Some));
    let mut in_a_row = 0; // packets up to now that each repeat the one just before
    packets.zip(just_before).map(move |(packet, before)| {
        let Some(before) = before else { return Verdict::On };
        in_a_row = if repeats(before, packet) { in_a_row + 1 } else { 0 };
        match in_a_row {
            0 if follows(before, packet) => Verdict::On,
            0 => Verdict::Break,
            // The first is dropped, and so is the third, the fifth.. The others come right after a dropped one.
            nth if nth % 2 == 1 => Verdict::Dropped,
            _ => Verdict::Break,
        }
    })
}

/// What it is in a packet that announces the stream.
#[derive(Clone, Copy, Debug, PartialEq)]
pub enum By {
    Start,
    Break,
    Both,
}

/// Which packet announces the stream, where the stream begins with the first of them: the first that is not dropped and has the start
/// flag or is a break.
pub fn announcing(packets: &[u8]) -> Option<(usize, By)> {
    let taken_for = verdicts(packets).zip(packets.chunks_exact(SIZE)).enumerate();
    taken_for.filter(|(_, (verdict, _))| *verdict != Verdict::Dropped).find_map(|(nth, (verdict, packet))| {
        match (has_start_flag(packet), verdict == Verdict::Break) {
            (true, false) => Some((nth, By::Start)),
            (false, true) => Some((nth, By::Break)),
            (true, true) => Some((nth, By::Both)),
            (false, false) => None,
        }
    })
}

/// Whether the two have the same counter and both have the payload flag. With the discontinuity bit a packet is no repeat.
fn repeats(before: &[u8], packet: &[u8]) -> bool {
    let both = has_payload_flag(before) && has_payload_flag(packet);
    both && counter(before) == counter(packet) && !has_discontinuity_bit(packet)
}

/// Whether a packet that is no repeat goes on where the one just before ended.
fn follows(before: &[u8], packet: &[u8]) -> bool {
    let step = u64::from(has_payload_flag(packet));
    has_discontinuity_bit(packet) || counter(packet) == (counter(before) + step) % 16
}
