//! The writer. The oracle has none: what is written is read back by the oracle's readers and its machine, and by the library's
//! machine; and each byte is held against the standard's tables.

use crate::function::around;
use crate::host_writer::{self, Unit, NUMBERS};
use crate::image;
use crate::lent::Lent;
use crate::module::{Module, Plan};
use crate::rng::Rng;
use crate::tally::{grouped, Tally};
use crate::unit::{self, Fields, CARRIED, MOST, TIMES};
use crate::written::{ReadBack, Written};
use mpeg2ts_reader::packet::Packet;

/// A random answer is a unit here. Nothing is recorded: the program that replays knows no units.
pub const MODULE: Module = Module { name: "writer", count: 120_000, compare, record: |_| () };

const SIZE: usize = Packet::SIZE;

/// The longest payload that is tried, and the most bytes that are lent for its packets: more than the longest unit takes.
pub const LONGEST: usize = 70_000;
const ROOM: usize = (LONGEST / CARRIED + 4) * SIZE;

fn compare(plan: &Plan) -> Vec<Tally> {
    let mut cases = Cases::new(plan.rng(1));
    cases.every_row();
    cases.every_size();
    cases.longest();
    cases.refusals();
    (0..plan.count).for_each(|_| cases.random());
    cases.into_tallies()
}

pub struct Cases {
    write: Tally,
    read_back: ReadBack,
    pub rng: Rng,
    /// Payloads are parts of this, and what the output holds before is.
    filling: Vec<u8>,
    payload: Lent,
    out: Lent,
    image: Vec<u8>,
    /// The packets written.
    packets: u64,
}

/// A unit to write: the bytes of its payload, and how many bytes are lent beside those that the packets take.
#[derive(Clone, Copy, Debug)]
pub struct Case {
    pub unit: Unit,
    pub size: usize,
    pub beside: isize,
}

impl Case {
    fn room(&self) -> usize {
        (self.unit.count(self.size) * SIZE).saturating_add_signed(self.beside)
    }
}

impl Cases {
    pub fn new(mut rng: Rng) -> Cases {
        let mut filling = vec![0; LONGEST + ROOM];
        rng.fill(&mut filling);
        Cases {
            write: Tally::new("writer::write", &[0, 14, 17, 18, 19]),
            read_back: ReadBack::new(MOST),
            rng,
            filling,
            payload: Lent::new(LONGEST),
            out: Lent::new(ROOM),
            image: vec![],
            packets: 0,
        }
    }

    pub fn write(&mut self, case: &Case) {
        let Case { unit, size, .. } = case;
        let (room, from, guard) = (case.room(), self.rng.below(CARRIED), self.rng.next() as u8);
        let expected = unit.answer(*size, room);
        self.payload.set(&self.filling[from..][..*size], guard);
        self.out.set(&self.filling[LONGEST..][..room], !guard);
        if expected.number() == 0 {
            image::write(&mut self.image, unit, self.payload.slice());
            self.out.expect(0, &self.image);
        }
        let (mut lent, payload, out) = (*unit, &mut self.payload, &mut self.out);
        let entry = |outs: &mut [u64; 1]| {
            let word = host_writer::write(&mut lent, payload.slice(), out.slice(), outs);
            (word, lent == *unit && payload.unchanged() && out.unchanged())
        };
        self.write.call_lending(&expected, entry, || format!("{case:?}"));
        if expected.number() == 0 {
            let count = unit.count(*size);
            self.packets += count as u64;
            let written = Written { unit, payload: self.payload.slice(), packets: &mut self.out, count };
            self.read_back.read(written, &mut self.rng);
        }
    }

    /// Each number of a row around each of its bounds and far above, with its flag clear and set by several numbers; of units that are
    /// else written, and of ones that are else refused with 17, 18 and 19, as 14 comes before those.
    fn every_row(&mut self) {
        for fields in Fields::every().filter(Fields::none_or_all) {
            let case = Case { unit: unit::random_with(fields, &mut self.rng), size: 10, beside: 0 };
            for nth in 0..NUMBERS {
                for (number, flag) in of_row(nth).flat_map(|number| FLAGS.map(|flag| (number, flag))) {
                    for refused in REFUSED {
                        let mut case = case;
                        refused(&mut case);
                        set(&mut case.unit, nth, number, flag);
                        self.write(&case);
                    }
                }
            }
        }
    }

    /// Every choice of fields with every size of up to three packets: each remainder of the last packet comes three times.
    fn every_size(&mut self) {
        for fields in Fields::every() {
            for size in 0..3 * CARRIED {
                let unit = unit::random_with(fields, &mut self.rng);
                let beside = self.rng.below(2 * SIZE) as isize;
                self.write(&Case { unit, size, beside });
            }
        }
    }

    /// Every choice of fields with the sizes around the largest, and with room for all packets or for one less.
    fn longest(&mut self) {
        for fields in Fields::every() {
            let unit = unit::random_with(fields, &mut self.rng);
            let bound = if fields.bounded { 65_535 - 3 - unit.data() } else { MOST };
            for size in [bound - 1, bound, bound + 1, MOST + 1] {
                [0, -1].into_iter().for_each(|beside| self.write(&Case { unit, size, beside }));
            }
        }
    }

    /// Every id; and each change alone and with each other one, of units with no field and with every field, bounded and not.
    fn refusals(&mut self) {
        for fields in Fields::every().filter(Fields::none_or_all) {
            let unit = unit::random_with(fields, &mut self.rng);
            let case = Case { unit, size: 10, beside: 0 };
            (0..=255).for_each(|id| self.write(&Case { unit: Unit { id, ..unit }, ..case }));
            for first in CHANGES {
                for second in CHANGES {
                    let mut case = case;
                    first(&mut case);
                    second(&mut case);
                    self.write(&case);
                }
            }
        }
    }

    /// Mostly a few packets; of 32 units one of any size and one near the largest; about one of four has a change, one of 64 has two.
    fn random(&mut self) {
        let unit = unit::random(&mut self.rng);
        let size = match self.rng.below(32) {
            0 => self.rng.below(MOST + 1),
            1 => MOST - self.rng.below(40),
            _ => self.rng.below(4 * CARRIED),
        };
        let mut case = Case { unit, size, beside: self.rng.below(2 * SIZE) as isize };
        for _ in 0..2 {
            if self.rng.below(8) == 0 {
                CHANGES[self.rng.below(CHANGES.len())](&mut case);
            }
        }
        self.write(&case);
    }

    /// Says how many packets were written.
    fn into_tallies(self) -> Vec<Tally> {
        println!("writer: {} packets written and read back", grouped(self.packets));
        std::iter::once(self.write).chain(self.read_back.into_tallies()).collect()
    }
}

// ---- Rows.

/// Of each number of a row the place of its flag, or its own, and the bounds between what is written, what is refused with 17 and what is
/// refused with 14.
const ROW: [(usize, &[u64]); NUMBERS] = [
    (0, &[0xbb, 0xff]),
    (1, &[0]),
    (2, &[0]),
    (3, &[0]),
    (4, &[0]),
    (5, &[0]),
    (6, &[2]),
    (6, &[TIMES - 1]),
    (6, &[TIMES - 1]),
    (9, &[0]),
    (9, &[TIMES - 1]),
    (9, &[299, 0xffff]),
    (12, &[0]),
    (12, &[0, (1 << 22) - 1, 0xffff_ffff]),
    (14, &[0]),
    (14, &[0xff]),
    (16, &[0]),
    (16, &[0x7f, 0xff]),
    (18, &[0]),
    (18, &[0xffff]),
];

/// For a number of a row: those around its bounds; some with lower bits that a type would hold; and the largest.
fn of_row(nth: usize) -> impl Iterator<Item = u64> {
    let (_, bounds) = ROW[nth];
    let far = [1 << 8, 1 << 16, 1 << 32, 1 + (1 << 32), 0xe0 + (1 << 32), 1 << 63, u64::MAX];
    bounds.iter().flat_map(|bound| around(*bound)).chain(far)
}

/// Flags: no, and three times yes. For times 0 to 2, and a number that stands for none.
const FLAGS: [u64; 4] = [0, 1, 2, u64::MAX];

/// Changes of a unit to one that is refused with 17, 18 or 19, and none.
const REFUSED: [fn(&mut Case); 4] =
    [|_| (), |case| case.unit.pid = 0, |case| case.size = MOST + 1, |case| case.beside = -1];

/// Sets a number of a unit's row and its flag; the number alone, where it is one.
fn set(unit: &mut Unit, nth: usize, number: u64, flag: u64) {
    let (there, _) = ROW[nth];
    unit.numbers()[there] = flag;
    unit.numbers()[nth] = number;
}

/// Each bound of a field, a size and the room, from both sides; and fields that come or go.
const CHANGES: [fn(&mut Case); 72] = [
    |_| (),
    |case| case.unit.pid = 0,
    |case| case.unit.pid = 15,
    |case| case.unit.pid = 16,
    |case| case.unit.pid = 8190,
    |case| case.unit.pid = 8191,
    |case| case.unit.pid = 8192 + 256,
    |case| case.unit.pid = u16::MAX,
    |case| case.unit.counter = 15,
    |case| case.unit.counter = 16,
    |case| case.unit.counter = 255,
    |case| case.unit.id = 0xbb,
    |case| case.unit.id = 0xbc,
    |case| case.unit.id = 0xbd,
    |case| case.unit.id = 0xdf,
    |case| case.unit.id = 0xf0,
    |case| case.unit.id = 0xe0 + 256,
    |case| case.unit.bounded = 0,
    |case| case.unit.bounded = 128,
    |case| case.unit.bounded = 1 << 32,
    |case| case.unit.times = 0,
    |case| case.unit.times = 1,
    |case| case.unit.times = 2,
    |case| case.unit.times = 3,
    |case| case.unit.times = 1 + (1 << 32),
    |case| case.unit.pts = TIMES - 1,
    |case| case.unit.pts = TIMES,
    |case| case.unit.pts = u64::MAX,
    |case| case.unit.dts = TIMES - 1,
    |case| case.unit.dts = TIMES,
    |case| case.unit.dts = u64::MAX,
    |case| case.unit.escr_there = 0,
    |case| case.unit.escr_there = 2,
    |case| case.unit.escr_base = TIMES - 1,
    |case| case.unit.escr_base = TIMES,
    |case| case.unit.escr_base = u64::MAX,
    |case| case.unit.escr_extension = 299,
    |case| case.unit.escr_extension = 300,
    |case| case.unit.escr_extension = 511,
    |case| case.unit.escr_extension = 512,
    |case| case.unit.escr_extension = u16::MAX.into(),
    |case| case.unit.escr_extension = 1 << 16,
    |case| case.unit.rate_there = 0,
    |case| case.unit.rate_there = 4,
    |case| case.unit.rate = 0,
    |case| case.unit.rate = 1,
    |case| case.unit.rate = (1 << 22) - 1,
    |case| case.unit.rate = 1 << 22,
    |case| case.unit.rate = u32::MAX.into(),
    |case| case.unit.rate = 1 + (1 << 32),
    |case| case.unit.trick_there = 0,
    |case| case.unit.trick_there = 256,
    |case| case.unit.trick = 255,
    |case| case.unit.trick = 256,
    |case| case.unit.copy_there = 0,
    |case| case.unit.copy_there = 16,
    |case| case.unit.copy = 127,
    |case| case.unit.copy = 128,
    |case| case.unit.copy = 255,
    |case| case.unit.copy = 256,
    |case| case.unit.crc_there = 0,
    |case| case.unit.crc_there = 1 << 63,
    |case| case.unit.crc = u16::MAX.into(),
    |case| case.unit.crc = 1 << 16,
    |case| case.size = 65_535 - 3 - case.unit.data(),
    |case| case.size = 65_535 - 2 - case.unit.data(),
    |case| case.size = MOST,
    |case| case.size = MOST + 1,
    |case| case.size = LONGEST,
    |case| case.beside = -1,
    |case| case.beside = -(SIZE as isize),
    |case| case.beside = isize::MIN,
];
