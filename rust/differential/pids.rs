//! Transport streams, taken apart.

use mpeg2ts_reader::packet::Packet;
use std::collections::BTreeMap;

/// The packets of each PID. What has no sync byte is left out: it has no PID.
pub fn by_pid(bytes: &[u8]) -> BTreeMap<u16, Vec<u8>> {
    let mut streams: BTreeMap<u16, Vec<u8>> = BTreeMap::new();
    for packet in bytes.chunks_exact(Packet::SIZE).filter_map(Packet::try_new) {
        streams.entry(packet.pid().into()).or_default().extend(packet.buffer());
    }
    streams
}
