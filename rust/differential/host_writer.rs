//! A safe call of the writer's entry. A unit is a row of twenty numbers that the caller keeps and lends.

use crate::declarations::cmv_write;

/// How many numbers a row has.
pub const NUMBERS: usize = 20;

/// A unit as it is handed over: first the numbers of the row, which lie in memory as the row has them, then what comes beside it. A flag
/// is 0 for no and any other number for yes; a field that is not there has a value too, which is not looked at.
#[derive(Clone, Copy, Debug, Default, PartialEq)]
#[repr(C)]
pub struct Unit {
    pub id: u64,
    pub bounded: u64,
    pub priority: u64,
    pub alignment: u64,
    pub copyright: u64,
    pub original: u64,
    /// 0 for none, 1 for a PTS alone, 2 for both.
    pub times: u64,
    pub pts: u64,
    pub dts: u64,
    pub escr_there: u64,
    pub escr_base: u64,
    pub escr_extension: u64,
    pub rate_there: u64,
    pub rate: u64,
    pub trick_there: u64,
    pub trick: u64,
    pub copy_there: u64,
    pub copy: u64,
    pub crc_there: u64,
    pub crc: u64,
    pub pid: u16,
    pub counter: u8,
}

impl Unit {
    /// The row.
    pub fn numbers(&mut self) -> &mut [u64; NUMBERS] {
        // The struct begins with these numbers, and they are borrowed as it is.
        unsafe { &mut *(self as *mut Unit).cast() }
    }
}

/// The library only reads the unit and the payload. They are taken as `&mut` here, so that the compiler expects a write and the caller's
/// check that there was none is a true one.
pub fn write(unit: &mut Unit, payload: &mut [u8], out: &mut [u8], [count]: &mut [u64; 1]) -> u32 {
    let (pid, counter, row) = (unit.pid, unit.counter, unit.numbers() as *mut _);
    let (payload, payload_len) = (payload.as_mut_ptr(), payload.len());
    // The pointers and the lengths are those of a live row and live slices, no two of which share a byte, and the out number is live: all
    // that the entry asks.
    unsafe { cmv_write(pid, counter, row, payload, payload_len, out.as_mut_ptr(), out.len(), count) }
}
