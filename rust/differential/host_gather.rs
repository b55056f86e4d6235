//! Safe calls of the gathering store's entries. A state is a row of three numbers that the caller keeps and lends.

use crate::declarations::{cmv_gather, cmv_gather_bytes, cmv_gather_fresh};
use crate::event::Event;

/// Where the bytes lie, if not at a place of the packet: in the store.
pub const STORE: u64 = 255;

/// The numbers lie in memory as those of the row do: the library is for x86-64, where a count has 64 bits.
#[derive(Clone, Copy, Debug)]
#[repr(C)]
pub struct Gathering {
    /// Whether a unit is open: 0 or 1.
    pub opened: u64,
    pub count: usize,
    /// A place of the packet, or the store.
    pub lies: u64,
}

impl Gathering {
    /// The state before any event.
    pub const FIRST: Gathering = Gathering { opened: 0, count: 0, lies: STORE };

    pub fn numbers(&self) -> [u64; 3] {
        [self.opened, self.count as u64, self.lies]
    }

    fn row(&mut self) -> *mut [u64; 3] {
        (self as *mut Gathering).cast()
    }

    /// Has the library take an event, whose numbers are below 256. It only reads the packet, which is taken as `&mut` here, so that
    /// the compiler expects a write and the caller's check that there was none is a true one.
    pub fn gather(&mut self, packet: &mut [u8], event: Event, store: &mut [u8]) -> u32 {
        let [kind, place, length] = [event.kind, event.place, event.length].map(|number| number as u8);
        let (packet, packet_len) = (packet.as_mut_ptr(), packet.len());
        // The pointers and the lengths are those of a live row and live slices, no two of which share a byte: all that the entry asks.
        unsafe { cmv_gather(self.row(), packet, packet_len, kind, place, length, store.as_mut_ptr(), store.len()) }
    }

    /// Asks the library where the bytes so far are: in the packet, 0, or in the store, 1; their place and length. The state and both
    /// slices are only read; they are `&mut` for the same reason.
    pub fn bytes(&mut self, packet: &mut [u8], store: &mut [u8], [slice, place, length]: &mut [u64; 3]) -> u32 {
        let (packet, packet_len) = (packet.as_mut_ptr(), packet.len());
        let (store, store_len) = (store.as_mut_ptr(), store.len());
        // The pointers and the lengths are those of a live row and live slices, and the out numbers are live: all that the entry asks.
        unsafe { cmv_gather_bytes(self.row(), packet, packet_len, store, store_len, slice, place, length) }
    }
}

/// Has the library fill a row with the state before any event.
pub fn fresh(row: &mut [u64; 3]) {
    // The row is live: all that the entry asks.
    unsafe { cmv_gather_fresh(row) }
}
