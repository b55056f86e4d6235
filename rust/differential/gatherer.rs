//! A consumer of the oracle that gathers the bytes of a unit by itself.

use crate::consumer::Listener;
use crate::event;
use mpeg2ts_reader::pes::{PesContents, PesHeader};

/// The unit so far, of at most `room` bytes.
pub struct Gatherer {
    pub open: bool,
    pub bytes: Vec<u8>,
    room: usize,
    /// How many units were begun.
    pub begun: u64,
    /// The most bytes that a unit had.
    pub most: usize,
}

impl Gatherer {
    pub fn new(room: usize) -> Gatherer {
        Gatherer { open: false, bytes: vec![], room, begun: 0, most: 0 }
    }

    /// A unit that would have more bytes than there is room for is dropped.
    fn add(&mut self, bytes: &[u8]) {
        if self.bytes.len() + bytes.len() > self.room {
            return self.drop();
        }
        self.bytes.extend_from_slice(bytes);
        self.most = self.most.max(self.bytes.len());
    }

    fn drop(&mut self) {
        self.bytes.clear();
        self.open = false;
    }
}

impl Listener for Gatherer {
    fn bare(&mut self, kind: u64) {
        match kind {
            event::END => self.open = false,
            event::ERROR => self.drop(),
            _ => (),
        }
    }

    fn begin(&mut self, header: &PesHeader) {
        self.begun += 1;
        self.bytes.clear();
        self.open = true;
        self.add(own(header).unwrap_or_default());
    }

    fn more(&mut self, data: &[u8]) {
        if self.open {
            self.add(data);
        }
    }
}

/// What belongs to the unit: the parsed payload or the bare payload, and nothing where the contents are refused.
pub fn own<'buf>(header: &PesHeader<'buf>) -> Option<&'buf [u8]> {
    match header.contents() {
        PesContents::Payload(payload) => Some(payload),
        PesContents::Parsed(contents) => contents.map(|contents| contents.payload()),
    }
}
