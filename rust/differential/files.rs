//! Transport streams in files, a stream for each PID, and damaged copies of them.

use crate::consumer::SIZE;
use crate::pids::by_pid;
use crate::rng::Rng;
use crate::stream::read;
use crate::tally::grouped;

pub struct Files<'a>(Vec<(&'a str, Vec<u8>)>);

impl<'a> Files<'a> {
    /// Nothing where one cannot be read.
    pub fn read(names: &'a [String]) -> Option<Files<'a>> {
        names.iter().map(|name| Some((name.as_str(), read(name)?))).collect::<Option<_>>().map(Files)
    }

    /// No stream has more packets: a damaged copy has more than its file, but not twice as many.
    pub fn most(&self) -> usize {
        self.0.iter().map(|(_, bytes)| bytes.len()).max().unwrap_or(0) / SIZE * 2
    }

    /// Hands over each stream of each file and of a damaged copy of it, and prints a line for each.
    pub fn each(&self, mut take: impl FnMut(&[u8], &mut Rng)) {
        for (name, bytes) in &self.0 {
            let mut rng = Rng::new(bytes.len() as u64);
            let copy = damaged(bytes, &mut rng);
            for (of, bytes) in [("", bytes), (", a damaged copy", &copy)] {
                let streams = by_pid(bytes);
                streams.values().for_each(|stream| take(stream, &mut rng));
                println!("{name}{of}: {} packets of {} PIDs", grouped((bytes.len() / SIZE) as u64), streams.len());
            }
        }
    }
}

/// Of a hundred packets one is lost, one repeated, one exchanged with the one before it and three have bits changed, in their first
/// bytes but not in the sync byte.
fn damaged(bytes: &[u8], rng: &mut Rng) -> Vec<u8> {
    let mut copy = vec![];
    for packet in bytes.chunks_exact(SIZE) {
        let (mut packet, len) = (packet.to_vec(), copy.len());
        match rng.below(100) {
            0 => continue,
            1 => copy.extend_from_within(len.saturating_sub(SIZE)..),
            2 if len > 0 => packet = copy.splice(len - SIZE.., packet).collect(),
            3..=5 => (0..=rng.below(3)).for_each(|_| packet[1 + rng.below(23)] ^= 1 << rng.below(8)),
            _ => (),
        }
        copy.extend(packet);
    }
    copy
}
