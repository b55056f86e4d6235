//! Real streams: every packet of a file, and what it carries, through every reading.

use crate::kept::Keeps;
use crate::reading::Readings;
use crate::tally::{grouped, report, Tally};
use crate::{adaptation, contents, head, packet};
use mpeg2ts_reader::packet::{AdaptationField, Packet};
use std::fs;
use std::time::Instant;

/// The bytes of a PES packet's head.
const HEAD: usize = 6;

/// Compares on every packet of each file, and prints a line for each file, for each function and for all.
pub fn compare(files: &[String]) -> bool {
    let began = Instant::now();
    let mut walk = Walk::new();
    let read = files.iter().all(|file| walk.file(file));
    report("streams", began, &walk.into_tallies()) && read
}

/// The bytes of a file, or nothing and a word about it.
pub fn read(file: &str) -> Option<Vec<u8>> {
    fs::read(file).map_err(|error| eprintln!("differential: {file}: {error}")).ok()
}

pub struct Walk {
    packet: Readings,
    field: Readings,
    extension: Readings,
    head: Readings,
    contents: Readings,
}

impl Walk {
    pub fn new() -> Walk {
        Walk {
            packet: Readings::of_streams(&packet::READINGS, Packet::SIZE).and_row(&packet::ROW),
            field: Readings::of_streams(&adaptation::FIELD, Packet::SIZE),
            extension: Readings::of_streams(&adaptation::EXTENSION, Packet::SIZE),
            head: Readings::of_streams(&head::READINGS, Packet::SIZE).and_row(&head::ROW),
            contents: Readings::of_streams(&contents::READINGS, Packet::SIZE).and_row(&contents::ROW),
        }
    }

    /// Whether the file could be read. A tail that is no whole packet is a slice like any other.
    fn file(&mut self, file: &str) -> bool {
        let Some(bytes) = read(file) else { return false };
        bytes.chunks(Packet::SIZE).enumerate().for_each(|(nth, packet)| self.packet(packet, nth as u8));
        println!("{file}: {} packets", grouped(bytes.chunks(Packet::SIZE).len() as u64));
        true
    }

    pub fn packet(&mut self, bytes: &[u8], guard: u8) {
        self.packet.compare(bytes, guard);
        if bytes.len() != Packet::SIZE {
            return;
        }
        let Some(packet) = Packet::try_new(bytes) else { return };
        if let Some(field) = packet.adaptation_field() {
            self.field(&field, guard);
        }
        if let Some(payload) = packet.payload() {
            self.payload(payload, guard);
        }
    }

    fn field(&mut self, field: &AdaptationField, guard: u8) {
        self.field.compare(field.kept(), guard);
        if let Ok(extension) = field.adaptation_field_extension() {
            self.extension.compare(extension.kept(), guard);
        }
    }

    /// Every payload is tried as a PES packet, whether one begins there or not.
    fn payload(&mut self, payload: &[u8], guard: u8) {
        self.head.compare(payload, guard);
        if let Some(contents) = payload.get(HEAD..) {
            self.contents.compare(contents, guard);
        }
    }

    fn into_tallies(self) -> Vec<Tally> {
        let all = [self.packet, self.field, self.extension, self.head, self.contents];
        all.into_iter().flat_map(Readings::into_tallies).collect()
    }
}
