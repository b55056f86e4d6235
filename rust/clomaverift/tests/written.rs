//! Units of random fields: what is written is read back, from as few packets as can be.

use clomaverift::{
    ClockRef, Demux, Found, FoundUnit, Packet, PesHeader, PesParsedContents, PtsDts, Times, Timestamp, Unit,
};

const UNITS: u64 = 2_000;

/// Numbers that look random, the same for the same seed.
struct Rng(u64);

impl Rng {
    fn below(&mut self, end: u64) -> u64 {
        self.0 = self.0.wrapping_mul(6_364_136_223_846_793_005).wrapping_add(1_442_695_040_888_963_407);
        (self.0 >> 20) % end
    }

    fn flag(&mut self) -> bool {
        self.below(2) == 1
    }

    fn maybe<T>(&mut self, make: impl FnOnce(&mut Rng) -> T) -> Option<T> {
        self.flag().then(|| make(self))
    }
}

fn times(rng: &mut Rng) -> Times {
    let [pts, dts] = [(); 2].map(|()| rng.below(1 << 33));
    match rng.below(3) {
        0 => Times::Untimed,
        1 => Times::Pts(pts),
        _ => Times::Both { pts, dts },
    }
}

fn unit(rng: &mut Rng) -> Unit {
    let ids = [0xBD, 0xC0, 0xDF, 0xE0, 0xEF, 0xFD];
    let id = ids[rng.below(6) as usize];
    let mut unit = Unit::new(16 + rng.below(8_175) as u16, id)
        .counter(rng.below(16) as u8)
        .bounded(!(0xE0..=0xEF).contains(&id) || rng.flag())
        .priority(rng.flag())
        .alignment(rng.flag())
        .copyright(rng.flag())
        .original(rng.flag())
        .times(times(rng));
    unit.escr = rng.maybe(|rng| (rng.below(1 << 33), rng.below(300) as u16));
    unit.es_rate = rng.maybe(|rng| 1 + rng.below((1 << 22) - 1) as u32);
    unit.trick_mode = rng.maybe(|rng| rng.below(256) as u8);
    unit.copy_info = rng.maybe(|rng| rng.below(128) as u8);
    unit.crc = rng.maybe(|rng| rng.below(1 << 16) as u16);
    unit
}

/// The bytes of a unit's optional fields.
fn data_bytes(unit: &Unit) -> usize {
    let times = match unit.times {
        Times::Untimed => 0,
        Times::Pts(_) => 5,
        Times::Both { .. } => 10,
    };
    let there = |field: bool, size: usize| if field { size } else { 0 };
    let rest = there(unit.trick_mode.is_some(), 1) + there(unit.copy_info.is_some(), 1) + there(unit.crc.is_some(), 2);
    times + there(unit.escr.is_some(), 6) + there(unit.es_rate.is_some(), 3) + rest
}

/// The fields of a header, as a unit that would be written so.
fn read_back(packets: &[u8]) -> Unit {
    let packet = Packet::try_new(&packets[..Packet::SIZE]).unwrap();
    let header = PesHeader::from_bytes(packet.payload().unwrap()).unwrap();
    let contents = header.contents().parsed().unwrap();
    let clock = |clock: ClockRef| (clock.base(), clock.extension());
    let bit = |number: u8| contents_bit(&packet, number);
    let mut unit = Unit::new(packet.pid().into(), header.stream_id().number())
        .counter(packet.continuity_counter().count())
        .bounded(header.pes_packet_length() != clomaverift::PesLength::Unbounded)
        .priority(bit(3))
        .alignment(bit(2))
        .copyright(bit(1))
        .original(bit(0))
        .times(times_of(&contents));
    unit.escr = contents.escr().ok().map(clock);
    unit.es_rate = contents.es_rate().ok().map(u32::from);
    unit.trick_mode = contents.raw_trick_mode().ok();
    unit.copy_info = contents.additional_copy_info().ok();
    unit.crc = contents.previous_pes_packet_crc().ok();
    unit
}

/// A bit of the first byte after the six of the header.
fn contents_bit(packet: &Packet<'_>, number: u8) -> bool {
    packet.payload().unwrap()[6] >> number & 1 == 1
}

fn times_of(contents: &PesParsedContents<'_>) -> Times {
    let value = |time: Result<Timestamp, _>| time.unwrap().value();
    match contents.pts_dts() {
        Err(_) => Times::Untimed,
        Ok(PtsDts::PtsOnly(pts)) => Times::Pts(value(pts)),
        Ok(PtsDts::Both { pts, dts }) => Times::Both { pts: value(pts), dts: value(dts) },
    }
}

fn check_found(found: &FoundUnit<'_>, unit: &Unit, payload: &[u8]) {
    assert_eq!((u16::from(found.pid), found.index, found.ended), (unit.pid, 0, false));
    assert_eq!(found.payload, payload);
    let times = match unit.times {
        Times::Untimed => (None, None),
        Times::Pts(pts) => (Some(pts), None),
        Times::Both { pts, dts } => (Some(pts), Some(dts)),
    };
    assert_eq!((found.pts().map(Timestamp::value), found.dts().map(Timestamp::value)), times);
}

#[test]
fn what_is_written_is_read_back() {
    let mut rng = Rng(7);
    for _ in 0..UNITS {
        let unit = unit(&mut rng);
        let longest = if rng.below(50) == 0 { 65_400 } else { 1_000 };
        let payload: Vec<u8> = (0..rng.below(longest)).map(|_| rng.below(256) as u8).collect();
        let packets = unit.packets(&payload).unwrap();
        let least = (9 + data_bytes(&unit) + payload.len() + 183) / 184;
        assert_eq!((packets.len(), read_back(&packets)), (least * Packet::SIZE, unit));
        let mut units = 0;
        let mut demux = Demux::new();
        demux.push(&packets, |found| assert!(matches!(found, Found::StartStream { .. } | Found::Begin { .. })));
        demux.finish(|found| {
            match found {
                Found::Unit(found) => check_found(&found, &unit, &payload),
                other => panic!("{other:?}"),
            }
            units += 1;
        });
        assert_eq!(units, 1);
    }
}

#[test]
fn units_one_after_another() {
    let mut rng = Rng(9);
    let mut recording = Vec::new();
    let mut payloads: Vec<Vec<u8>> = Vec::new();
    for number in 0..200u64 {
        let payload: Vec<u8> = (0..rng.below(2_000)).map(|_| rng.below(256) as u8).collect();
        let counter = (recording.len() / Packet::SIZE % 16) as u8;
        let unit = Unit::new(0x100, 0xE0).counter(counter).unbounded().pts(3_600 * number);
        recording.extend(unit.packets(&payload).unwrap());
        payloads.push(payload);
    }
    let mut told = Vec::new();
    let mut keep = |found: Found<'_>| match found {
        Found::Unit(unit) => {
            assert_eq!(unit.pts().unwrap().value(), 3_600 * told.len() as u64);
            told.push(unit.payload.to_vec());
        }
        Found::StartStream { .. } | Found::Begin { .. } => (),
        other => panic!("{other:?}"),
    };
    let mut demux = Demux::new();
    recording.chunks(10 * Packet::SIZE).for_each(|piece| demux.push(piece, &mut keep));
    demux.finish(&mut keep);
    assert_eq!(told, payloads);
}
