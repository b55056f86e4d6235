//! The sample stream, of which tools/sample says what is in it: five units of video on one PID; after the second a packet with a clock
//! reference alone; in the fourth a packet left out.

use clomaverift::{ClockRef, Demux, EventKind, Found, Machine, Mode, Packet, Pid, Ran, Timestamp};

const SAMPLE: &[u8] = include_bytes!(concat!(env!("CARGO_MANIFEST_DIR"), "/../../samples/sample.ts"));
const PID: u16 = 0x100;
const PACKETS: usize = 60;

/// The packets with the start flag, the packet with a clock reference alone, and the one before which a packet was left out.
const STARTS: [u64; 5] = [0, 16, 25, 35, 50];
const CLOCK_ALONE: u64 = 24;
const BREAK: u64 = 40;

/// The bytes of a unit's picture, as tools/sample makes them.
fn picture(number: usize, size: usize) -> Vec<u8> {
    (0..size).map(|at| ((number * 31 + at * 7) % 251) as u8).collect()
}

/// When the picture of a unit is decoded.
fn decoding(number: usize) -> u64 {
    90_000 + 3_600 * number as u64
}

/// A unit as it was told: first packet, PTS, DTS, payload, whether it was ended.
type Told = (u64, Option<u64>, Option<u64>, Vec<u8>, bool);

#[derive(Default)]
struct Seen {
    starts: Vec<u64>,
    begins: Vec<u64>,
    breaks: Vec<u64>,
    clocks: Vec<(u64, ClockRef)>,
    repeats: Vec<u64>,
    units: Vec<Told>,
}

impl Seen {
    fn take(&mut self, found: Found<'_>) {
        let value = |time: Option<Timestamp>| time.map(Timestamp::value);
        match found {
            Found::StartStream { index, .. } => self.starts.push(index),
            Found::Begin { index, header, .. } => {
                assert_eq!(header.stream_id().video(), Some(0));
                self.begins.push(index);
            }
            Found::Unit(unit) => {
                assert_eq!((u16::from(unit.pid), unit.stream_id.number()), (PID, 0xE0));
                let told = (unit.index, value(unit.pts()), value(unit.dts()), unit.payload.to_vec(), unit.ended);
                self.units.push(told);
            }
            Found::ContinuityError { index, .. } => self.breaks.push(index),
            Found::Clock { index, pcr, .. } => self.clocks.push((index, pcr)),
            Found::Repeated { index, .. } => self.repeats.push(index),
            other => panic!("{other:?}"),
        }
    }
}

/// The sample, pushed in pieces of so many packets.
fn seen(packets: usize) -> Seen {
    let mut seen = Seen::default();
    let mut demux = Demux::new();
    SAMPLE.chunks(packets * Packet::SIZE).for_each(|piece| demux.push(piece, |found| seen.take(found)));
    assert_eq!(demux.index(), PACKETS as u64);
    demux.finish(|found| seen.take(found));
    seen
}

/// A unit as tools/sample made it: its number, the bytes of its picture, the pictures between its decoding and its showing.
fn made(number: usize, size: usize, later: u64, ended: bool) -> Told {
    let dts = decoding(number);
    (STARTS[number], Some(dts + 3_600 * later), (later > 0).then_some(dts), picture(number, size), ended)
}

#[test]
fn units_have_their_times_and_payload() {
    let units = [made(0, 2900, 2, true), made(1, 1300, 0, true), made(2, 1700, 1, true), made(4, 1700, 0, false)];
    assert_eq!(seen(PACKETS).units, units);
}

#[test]
fn the_rest_is_found_too() {
    let seen = seen(PACKETS);
    assert_eq!((seen.starts, seen.begins, seen.breaks), (vec![0], STARTS.to_vec(), vec![BREAK]));
    let mut clocks: Vec<(u64, u64)> = (0..5).map(|number| (STARTS[number], decoding(number) - 3_600)).collect();
    clocks.insert(2, (CLOCK_ALONE, decoding(1)));
    let clocks: Vec<_> = clocks.iter().map(|(index, base)| (*index, ClockRef::from_parts(*base, 0).unwrap())).collect();
    assert_eq!(seen.clocks, clocks);
}

#[test]
fn pieces_make_no_difference() {
    let whole = seen(PACKETS);
    for packets in [1, 7, 59] {
        let pieces = seen(packets);
        assert_eq!(pieces.units, whole.units);
        assert_eq!(
            (pieces.begins, pieces.breaks, pieces.clocks),
            (whole.begins.clone(), whole.breaks.clone(), whole.clocks.clone())
        );
    }
}

/// What a driver in this mode finds in a recording.
fn seen_in(mode: Mode, recording: &[u8]) -> Seen {
    let mut seen = Seen::default();
    let mut demux = Demux::new().mode(mode);
    demux.push(recording, |found| seen.take(found));
    demux.finish(|found| seen.take(found));
    seen
}

#[test]
fn each_packet_sent_twice() {
    let twice: Vec<u8> = SAMPLE.chunks(Packet::SIZE).flat_map(|packet| [packet, packet].concat()).collect();
    let (once, told) = (seen(PACKETS), seen_in(Mode::Standard, &twice));
    let doubled = |indices: &[u64]| indices.iter().map(|index| 2 * index).collect::<Vec<_>>();
    assert_eq!((told.starts, told.begins), (doubled(&once.starts), doubled(&once.begins)));
    assert_eq!(told.breaks, [2 * BREAK]);
    let units: Vec<_> =
        told.units.into_iter().map(|(index, pts, dts, payload, ended)| (index / 2, pts, dts, payload, ended)).collect();
    assert_eq!(units, once.units);
    let clocks: Vec<_> =
        once.clocks.iter().flat_map(|(index, pcr)| [(2 * index, *pcr), (2 * index + 1, *pcr)]).collect();
    assert_eq!(told.clocks, clocks);
    // The packet without payload goes on each time.
    let repeats = (0..PACKETS as u64).filter(|index| *index != CLOCK_ALONE).map(|index| 2 * index + 1);
    assert_eq!(told.repeats, repeats.collect::<Vec<_>>());

    let breaks = seen_in(Mode::Crate, &twice).breaks;
    assert_eq!(breaks.len(), PACKETS); // each repeat, and the sample's own
    assert_eq!(
        (seen_in(Mode::Standard, SAMPLE).units, seen_in(Mode::Standard, SAMPLE).breaks),
        (once.units, once.breaks)
    );
}

/// The events of a packet, as the rules say: what comes of the break and of the starts, and a continue for every other packet but that
/// with a clock alone and those after the break.
fn rule(index: u64) -> Vec<EventKind> {
    match index {
        0 => vec![EventKind::StartStream, EventKind::BeginPacket],
        BREAK => vec![EventKind::ContinuityError],
        50 => vec![EventKind::BeginPacket],
        _ if STARTS.contains(&index) => vec![EventKind::EndPacket, EventKind::BeginPacket],
        CLOCK_ALONE | 41..=49 => vec![],
        _ => vec![EventKind::ContinuePacket],
    }
}

#[test]
fn a_run_logs_the_events_of_each_packet() {
    let mut machine = Machine::new();
    let mut log = [0; 16 * PACKETS];
    assert_eq!(machine.run(SAMPLE, &mut log), Ok(Ran::new(PACKETS as u32, None)));
    assert_eq!(machine.taken() as usize, PACKETS);
    let events: Vec<_> = machine.events(&log).map(Result::unwrap).collect();
    let told: Vec<_> = events.iter().map(|event| (u64::from(event.index), event.kind)).collect();
    let rules = (0..PACKETS as u64).flat_map(|index| rule(index).into_iter().map(move |kind| (index, kind)));
    assert_eq!(told, rules.collect::<Vec<_>>());
    for event in events {
        let packet = Packet::try_new(&SAMPLE[event.index as usize * Packet::SIZE..][..Packet::SIZE]).unwrap();
        let payload = match event.kind {
            EventKind::BeginPacket | EventKind::ContinuePacket => packet.payload().unwrap(),
            _ => &[],
        };
        assert_eq!(event.bytes(packet.buffer()), payload);
    }
}

#[test]
fn every_packet_is_of_the_pid() {
    for bytes in SAMPLE.chunks(Packet::SIZE) {
        let packet = Packet::try_new(bytes).unwrap();
        assert_eq!(packet.pid(), Pid::new(PID).unwrap());
        assert!(!packet.transport_error_indicator() && !packet.transport_scrambling_control().is_scrambled());
    }
}
