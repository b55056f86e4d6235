//! Damaged recordings of two PIDs: whatever the bytes, the driver finds in both modes the units that a plain reading of the events finds,
//! and in the standard mode every stream is announced, first and once.

use clomaverift::{Demux, Event, EventKind, Found, Machine, Marked, Mode, Packet, PesHeader, Pid};
use std::collections::{BTreeMap, BTreeSet};

const SAMPLE: &[u8] = include_bytes!(concat!(env!("CARGO_MANIFEST_DIR"), "/../../samples/sample.ts"));
const RECORDINGS: u64 = 200;

/// A unit: PID, first packet, payload.
type Told = (u16, u64, Vec<u8>);

/// Numbers that look random, the same for the same seed.
struct Rng(u64);

impl Rng {
    fn below(&mut self, end: usize) -> usize {
        self.0 = self.0.wrapping_mul(6_364_136_223_846_793_005).wrapping_add(1_442_695_040_888_963_407);
        (self.0 >> 33) as usize % end
    }
}

/// The sample twice, packet by packet, the second time with another PID.
fn doubled() -> Vec<u8> {
    let mut recording = Vec::new();
    for packet in SAMPLE.chunks(Packet::SIZE) {
        recording.extend(packet);
        recording.extend(packet);
        let at = recording.len() - Packet::SIZE;
        recording[at + 2] = 1;
    }
    recording
}

/// With some bytes changed, most of them in headers, some packets left out and some repeated.
fn damaged(rng: &mut Rng) -> Vec<u8> {
    let mut recording = Vec::new();
    for packet in doubled().chunks_mut(Packet::SIZE) {
        if rng.below(20) == 0 {
            let at = [rng.below(24), rng.below(24), rng.below(Packet::SIZE)][rng.below(3)];
            packet[at] ^= 1 << rng.below(8);
        }
        let copies = match rng.below(60) {
            0 => 0,
            1 => 2,
            _ => 1,
        };
        (0..copies).for_each(|_| recording.extend(&*packet));
    }
    recording
}

/// How a recording is read.
type How = (Mode, Marked);

const WAYS: [How; 4] = [
    (Mode::Crate, Marked::Drop),
    (Mode::Crate, Marked::Take),
    (Mode::Standard, Marked::Drop),
    (Mode::Standard, Marked::Take),
];

fn found(recording: &[u8], (mode, marked): How) -> (Vec<Told>, Vec<Told>) {
    let (mut ended, mut open) = (Vec::new(), Vec::new());
    let told = |found: Found<'_>, units: &mut Vec<Told>| {
        if let Found::Unit(unit) = found {
            units.push((unit.pid.into(), unit.index, unit.payload.to_vec()));
        }
    };
    let mut demux = Demux::new().mode(mode).marked(marked);
    demux.push(recording, |found| told(found, &mut ended));
    demux.finish(|found| told(found, &mut open));
    (ended, open)
}

/// The events of a machine for each PID: those of a packet at a time, with its PID, index and bytes.
fn each_packet(recording: &[u8], (mode, marked): How, mut take: impl FnMut(Pid, u64, &[u8], &[Event])) {
    let fresh = || match mode {
        Mode::Standard => Machine::standard(),
        _ => Machine::new(),
    };
    let mut machines = BTreeMap::new();
    for (index, bytes) in (0..).zip(recording.chunks(Packet::SIZE)) {
        let packet = match Packet::try_new(bytes) {
            Ok(packet) => packet,
            Err(_) => continue,
        };
        let pid = packet.pid();
        let is_marked = packet.transport_error_indicator() || packet.transport_scrambling_control().is_scrambled();
        if pid == Pid::STUFFING || is_marked && marked == Marked::Drop {
            continue;
        }
        let machine = machines.entry(pid).or_insert_with(fresh);
        machine.rewind();
        let mut log = [0; 24];
        machine.step(bytes, &mut log).unwrap();
        let events: Vec<_> = machine.events(&log).map(Result::unwrap).collect();
        take(pid, index, bytes, &events);
    }
}

/// The same by the events of a machine for each PID, and by the headers.
fn plain(recording: &[u8], how: How) -> (Vec<Told>, Vec<Told>) {
    let mut open: BTreeMap<Pid, Told> = BTreeMap::new();
    let mut ended = Vec::new();
    each_packet(recording, how, |pid, index, bytes, events| {
        events.iter().for_each(|event| match event.kind {
            EventKind::StartStream => (),
            EventKind::BeginPacket => {
                let header = PesHeader::from_bytes(event.bytes(bytes)).unwrap();
                let payload = header.payload().unwrap_or_default();
                open.insert(pid, (pid.into(), index, payload.to_vec()));
            }
            EventKind::ContinuePacket => {
                open.entry(pid).and_modify(|(_, _, payload)| payload.extend(event.bytes(bytes)));
            }
            EventKind::EndPacket => ended.extend(open.remove(&pid)),
            EventKind::ContinuityError => {
                open.remove(&pid);
            }
            other => panic!("{other:?}"),
        });
    });
    (ended, open.into_values().collect())
}

/// The streams that are announced, in their order: PID, packet, whether by a break.
type Announced = Vec<(Pid, u64, bool)>;

fn announced(recording: &[u8], (mode, marked): How) -> Announced {
    let mut announced = Vec::new();
    Demux::new().mode(mode).marked(marked).push(recording, |found| {
        if let Found::StartStream { pid, index, by_break, .. } = found {
            announced.push((pid, index, by_break));
        }
    });
    announced
}

/// The same by the events: with the first packet of a PID that has one, before its other events, and with no other packet. In the crate's
/// mode not if that packet is a break.
fn announced_first(recording: &[u8], how: How) -> Announced {
    let (mut seen, mut announced) = (BTreeSet::new(), Vec::new());
    each_packet(recording, how, |pid, index, _, events| {
        let kinds: Vec<_> = events.iter().map(|event| event.kind).collect();
        let starts = kinds.iter().filter(|kind| **kind == EventKind::StartStream).count();
        let breaks = kinds.contains(&EventKind::ContinuityError);
        let is_first = !kinds.is_empty() && seen.insert(pid);
        let announces = is_first && (how.0 == Mode::Standard || !breaks);
        assert_eq!(starts, usize::from(announces), "{how:?}, packet {index}: {kinds:?}");
        assert!(!announces || kinds[0] == EventKind::StartStream, "{how:?}, packet {index}: {kinds:?}");
        if announces {
            announced.push((pid, index, breaks));
        }
    });
    announced
}

/// A damaged recording that begins anywhere.
fn damaged_and_cut(seed: u64) -> Vec<u8> {
    let mut rng = Rng(seed);
    let recording = damaged(&mut rng);
    let first = rng.below(recording.len() / Packet::SIZE);
    recording[first * Packet::SIZE..].to_vec()
}

#[test]
fn every_stream_is_announced_first_and_once() {
    let mut by_break = [0; 4];
    let mut by_start = [0; 4];
    for seed in 0..RECORDINGS {
        let recording = damaged_and_cut(seed);
        for (at, how) in WAYS.into_iter().enumerate() {
            let told = announced(&recording, how);
            assert_eq!(told, announced_first(&recording, how), "seed {seed}, {how:?}");
            let breaks = told.iter().filter(|(.., by_break)| *by_break).count();
            by_break[at] += breaks;
            by_start[at] += told.len() - breaks;
        }
    }
    let some = RECORDINGS as usize / 10;
    assert!(by_start.iter().all(|count| *count > some), "{by_start:?} by a start");
    assert!(by_break[..2] == [0, 0] && by_break[2..].iter().all(|count| *count > some), "{by_break:?} by a break");
}

#[test]
fn units_are_those_of_a_plain_reading() {
    let mut units = [0; 4];
    for seed in 0..RECORDINGS {
        let recording = damaged(&mut Rng(seed));
        for (how, units) in WAYS.into_iter().zip(&mut units) {
            let told = found(&recording, how);
            *units += told.0.len() + told.1.len();
            assert_eq!(told, plain(&recording, how), "seed {seed}, {how:?}");
        }
    }
    assert!(units.iter().all(|units| *units > RECORDINGS as usize), "only {units:?} units");
    // A repeated packet breaks no unit there.
    assert!(units[2] > units[0] && units[3] > units[1], "{units:?} units");
}

#[test]
fn bytes_that_are_no_recording() {
    let mut rng = Rng(1);
    for _ in 0..RECORDINGS {
        let mut bytes: Vec<u8> = (0..rng.below(2_000)).map(|_| rng.below(256) as u8).collect();
        bytes.chunks_mut(Packet::SIZE).for_each(|packet| packet[0] = 0x47);
        for how in WAYS {
            assert_eq!(found(&bytes, how), plain(&bytes, how));
            assert_eq!(announced(&bytes, how), announced_first(&bytes, how));
        }
    }
}
