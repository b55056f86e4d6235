//! Safe calls of the entries of the event machine and of its log. A state is a row of seven numbers that the caller keeps and lends.

use crate::declarations::{
    cmv_log_entry_at, cmv_machine_fresh, cmv_machine_run, cmv_machine_standard, cmv_machine_step,
};

/// The numbers of the modes.
pub const CRATE: u64 = 0;
pub const STANDARD: u64 = 1;

/// The numbers of the phases.
pub const BEGIN: u64 = 0;
pub const STARTED: u64 = 1;
pub const IGNORE_REST: u64 = 2;

/// The number of no last counter.
pub const NONE: u64 = 255;

/// The most packets that a state counts.
pub const MOST_TAKEN: u64 = u32::MAX as u64;

/// The numbers lie in memory as those of the row do: the library is for x86-64, where a place has 64 bits.
#[derive(Clone, Copy, Debug)]
#[repr(C)]
pub struct State {
    pub mode: u64,
    pub phase: u64,
    pub last: u64,
    /// Whether the last packet may be repeated: 0 no, 1 once, 2 no more.
    pub again: u64,
    /// Whether the stream was announced: 0 no, 1 yes.
    pub announced: u64,
    /// The packets taken so far: the index of the next one.
    pub taken: u64,
    /// The next free byte of the log.
    pub place: usize,
}

impl State {
    /// A state before any packet, in the crate's mode and in the standard mode.
    pub const FIRST: State =
        State { mode: CRATE, phase: BEGIN, last: NONE, again: 0, announced: 0, taken: 0, place: 0 };
    pub const FIRST_STANDARD: State = State { mode: STANDARD, ..State::FIRST };

    /// Whether the numbers stand for a state, beside a log of this length.
    pub fn stands(&self, log: usize) -> bool {
        let counter = self.last < 16 || self.last == NONE;
        let sound = self.mode <= STANDARD && self.phase <= IGNORE_REST && counter && self.again <= 2;
        let sound = sound && self.announced <= 1 && self.taken <= MOST_TAKEN;
        sound && self.place <= log && self.place % 8 == 0
    }

    pub fn numbers(&self) -> [u64; 7] {
        [self.mode, self.phase, self.last, self.again, self.announced, self.taken, self.place as u64]
    }

    fn row(&mut self) -> *mut [u64; 7] {
        (self as *mut State).cast()
    }
}

/// Has the library fill a row with the state before any packet.
pub fn fresh(row: &mut [u64; 7]) {
    // The row is live: all that the entry asks.
    unsafe { cmv_machine_fresh(row) }
}

/// The same in the standard mode.
pub fn standard(row: &mut [u64; 7]) {
    // As for `fresh`.
    unsafe { cmv_machine_standard(row) }
}

/// Steps over a packet, and writes its events to a log. The library only reads the packet. It is taken as `&mut` here, so that the
/// compiler expects a write and the caller's check that there was none is a true one.
pub fn step(state: &mut State, packet: &mut [u8], log: &mut [u8]) -> u32 {
    let (packet, packet_len) = (packet.as_mut_ptr(), packet.len());
    // The pointers and the lengths are those of a live row and live slices, no two of which share a byte: all that the entry asks.
    unsafe { cmv_machine_step(state.row(), packet, packet_len, log.as_mut_ptr(), log.len()) }
}

/// Runs over packets, which are `&mut` for the same reason. The out numbers: how many packets were taken, and the number that the next
/// one was refused with.
pub fn run(state: &mut State, packets: &mut [u8], log: &mut [u8], [taken, ended]: &mut [u64; 2]) -> u32 {
    let (packets, packets_len) = (packets.as_mut_ptr(), packets.len());
    // As for `step`, and the out numbers are live.
    unsafe { cmv_machine_run(state.row(), packets, packets_len, log.as_mut_ptr(), log.len(), taken, ended) }
}

/// The log is only read; it is `&mut` for the same reason.
pub fn log_entry_at(log: &mut [u8], at: usize, [kind, index, place, length]: &mut [u64; 4]) -> u32 {
    // The pointer and the length are those of a live slice, and the out numbers are live: all that the entry asks.
    unsafe { cmv_log_entry_at(log.as_mut_ptr(), log.len(), at, kind, index, place, length) }
}
