//! How long a log has to be, as the request has it: p packets, s of them with the start flag, have at most p + s events in the crate's
//! mode, and p + s + 1 in the standard mode, where p + s suffice if the stream was announced and from a fresh state. Compared are logs of
//! just that length, inputs that fill them, and the greatest number of events among all short lists of packets.

use crate::answer::Answer;
use crate::consumer::SIZE;
use crate::event::{decoded, ENTRY};
use crate::host_machine::{self, State, BEGIN, CRATE, MOST_TAKEN, NONE, STANDARD, STARTED};
use crate::lent::Lent;
use crate::machine::{every_state, oracle_in, packet, Call, Ran, Runs, HEAD, NO_HEAD};
use crate::machine_stream::{longest_log, Told};
use crate::module::{Module, Plan};
use crate::rng::Rng;
use crate::rules::{has_start_flag, most_events};
use crate::tally::{hex, Tally};
use mpeg2ts_reader::packet::Packet;
use std::collections::BTreeMap;

/// Nothing is recorded, as of the machine.
pub const MODULE: Module = Module { name: "log_size", count: 1_000_000, compare, record: |_| () };

fn compare(plan: &Plan) -> Vec<Tally> {
    // A packet after which a start with counter 7 is a break and has three events. Were it refused, the state would be a fresh one.
    let mut after_5 = State::FIRST_STANDARD;
    host_machine::step(&mut after_5, &mut made(PLAIN, 5), &mut []);
    let mut tallies = compare_bounds(plan.count, &mut plan.rng(1));
    tallies.extend(compare_reached("p + s reached", State::FIRST, 0, &mut plan.rng(2)));
    tallies.extend(compare_reached("standard mode, p + s reached", State::FIRST_STANDARD, 0, &mut plan.rng(3)));
    tallies.extend(compare_reached("standard mode, p + s + 1 reached", after_5, 1, &mut plan.rng(4)));
    tallies.extend(compare_greatest(&mut plan.rng(5)));
    tallies
}

/// How many calls the oracle makes, where it can be brought to the state.
fn calls<'a>(first: State, packets: impl Iterator<Item = &'a [u8]>) -> Option<usize> {
    let mut oracle = oracle_in(first)?;
    Some(packets.map(|packet| oracle.consume(packet).len()).sum())
}

/// The state, and of the first packets the length and the bytes up to where a head ends.
fn text<'a>(first: State, packets: impl Iterator<Item = &'a [u8]>) -> String {
    let packets = packets.take(MOST).map(|packet| format!("{}:{}", packet.len(), hex(&packet[..10])));
    format!("{first:?}, {}", packets.collect::<Vec<_>>().join(" "))
}

// ---- Packets.

/// Kinds of packets: the start flag, the control bits, the length of an adaptation field and its flags, and what a payload begins with.
const KINDS: [([u8; 4], [u8; 6]); 9] = [
    // A start with a head, and without; a payload, and none.
    ([0x40, 0x10, 0xff, 0xff], HEAD),
    ([0x40, 0x10, 0xff, 0xff], NO_HEAD),
    ([0x00, 0x10, 0xff, 0xff], NO_HEAD),
    ([0x00, 0x20, 183, 0x00], NO_HEAD),
    // The start flag with no payload; the payload flag with none; the discontinuity bit, with a payload, a start, and neither.
    ([0x40, 0x20, 183, 0x00], NO_HEAD),
    ([0x00, 0x30, 183, 0x00], NO_HEAD),
    ([0x00, 0x30, 1, 0x80], NO_HEAD),
    ([0x40, 0x30, 1, 0x80], HEAD),
    ([0x00, 0x20, 183, 0x80], NO_HEAD),
];
const START: usize = 0;
const PLAIN: usize = 2;

fn made(kind: usize, counter: u8) -> [u8; SIZE] {
    let ([start, control, length, flags], head) = KINDS[kind];
    let mut packet = packet([start, 0x00, control | counter & 0x0f, length], head);
    if control & 0x20 != 0 {
        packet[5] = flags;
    }
    packet
}

// ---- The bound.

/// The most packets of a random list, and the most bytes of the log before its entries.
const MOST: usize = 40;
const MOST_BEFORE: usize = 64 * ENTRY;

/// Random lists from every state, each with a log of just the length that is said to suffice.
fn compare_bounds(count: u64, rng: &mut Rng) -> Vec<Tally> {
    let mut in_crate = Bound::new("a log for p + s", 0);
    let mut standard = Bound::new("standard mode, a log for p + s + 1", 1);
    let mut announced = Bound::new("standard mode, announced, a log for p + s", 0);
    let mut fresh = Bound::new("standard mode, fresh, a log for p + s", 0);
    let mut rust = Tally::of_oracle("a log for p + s, the calls of the Rust", &[0]);
    for _ in 0..=count / 30_000 {
        // That is about how many answers there are to one list from every state, or two.
        for first in every_state(CRATE).flat_map(|state| [state, State::FIRST]) {
            let (list, events) = in_crate.random_list(first, rng);
            compare_calls(&mut rust, first, &list, events);
        }
        for state in every_state(STANDARD) {
            standard.random_list(state, rng);
            fresh.random_list(State::FIRST_STANDARD, rng);
            if state.announced == 1 {
                announced.random_list(state, rng);
            }
        }
    }
    let bounds = [in_crate, standard, announced, fresh].into_iter();
    bounds.flat_map(|bound| [bound.step, bound.run, bound.left]).chain([rust]).collect()
}

/// The oracle, to which no refused packet is given, makes as many calls as the library gave events, and at most p + s.
fn compare_calls(tally: &mut Tally, first: State, list: &[Vec<u8>], events: usize) {
    let proper = || list.iter().map(Vec::as_slice).filter(|packet| refusal(packet) == 0);
    let Some(calls) = calls(first, proper()) else { return };
    let agrees = calls == events && calls <= most_events(proper());
    let given = || format!("{calls} calls, {events} events");
    tally.take_check(&Answer::done(&[]), agrees, || text(first, proper()), given);
}

/// The number that a packet is refused with by its bytes alone, or 0: no other is to come, as there are indices and room enough.
fn refusal(packet: &[u8]) -> u32 {
    match (packet.len(), packet[0]) {
        (SIZE, Packet::SYNC_BYTE) => 0,
        (SIZE, _) => 2,
        _ => 1,
    }
}

struct Bound {
    /// The entries that the log has room for beside p + s.
    more: usize,
    step: Tally,
    run: Tally,
    left: Tally,
    log: Lent,
}

/// What the steps and the runs of a list leave behind: the state, and the entries of the events.
type Left = ([u64; 7], Vec<u8>);

impl Bound {
    fn new(name: &str, more: usize) -> Bound {
        Bound {
            more,
            step: Tally::new(&format!("machine::step, {name}"), &[0, 1, 2]),
            run: Tally::new(&format!("machine::run, {name}"), &[0]),
            left: Tally::beside(&format!("machine::step and machine::run, {name}: their entries"), &[0]),
            log: Lent::new(MOST_BEFORE + longest_log(MOST)),
        }
    }

    /// A random list by steps, and again by runs, which are to leave the same behind: the list, and how many events it has. Half of the
    /// lists go to the last index.
    fn random_list(&mut self, first: State, rng: &mut Rng) -> (Vec<Vec<u8>>, usize) {
        let mut list = random_list(first.last, rng);
        let taken = [rng.next() >> 33, MOST_TAKEN - list.len() as u64][rng.below(2)];
        let first = State { taken, place: ENTRY * rng.below(MOST_BEFORE / ENTRY + 1), ..first };
        let most = most_events(list.iter().map(Vec::as_slice)) + self.more;
        let mut log = vec![0; first.place + ENTRY * most];
        rng.fill(&mut log);
        self.log.set(&log, rng.next() as u8);
        let stepped = self.steps(first, &mut list);
        self.log.set(&log, rng.next() as u8);
        let ran = self.runs(first, &list);
        let (agrees, input) = (stepped.is_some() && stepped == ran, || text(first, list.iter().map(Vec::as_slice)));
        self.left.take_check(&Answer::done(&[]), agrees, input, || format!("{stepped:?}, {ran:?}"));
        (list, stepped.map_or(0, |(_, entries)| entries.len() / ENTRY))
    }

    /// A refused packet changes nothing, and is passed over.
    fn steps(&mut self, first: State, list: &mut [Vec<u8>]) -> Option<Left> {
        let mut state = first;
        for packet in list {
            let before = state;
            let word = host_machine::step(&mut state, packet, self.log.slice());
            let (number, same) = (refusal(packet), state.numbers() == before.numbers());
            let due = if number == 0 { Answer::done(&[]) } else { Answer::refused(number, &[]) };
            let (agrees, input) = (word == number && same == (number != 0), || text(before, [&packet[..]].into_iter()));
            self.step.take_check(&due, agrees, input, || format!("{word}, {state:?}"));
        }
        self.left(first, state)
    }

    /// Over the whole packets: a run ends at one that is refused, and the next begins behind it.
    fn runs(&mut self, first: State, list: &[Vec<u8>]) -> Option<Left> {
        let whole = || list.iter().map(Vec::as_slice).filter(|packet| packet.len() == SIZE);
        let (mut state, mut packets) = (first, whole().collect::<Vec<_>>().concat());
        let mut rest = &mut packets[..];
        while !rest.is_empty() {
            let refused = rest.chunks_exact(SIZE).map(refusal).enumerate().find(|(_, number)| *number != 0);
            let (taken, ended) = refused.unwrap_or((rest.len() / SIZE, 0));
            let due = Answer::done(&[taken as u64, ended.into()]);
            let entry = |outs: &mut [u64; 2]| host_machine::run(&mut state, rest, self.log.slice(), outs);
            self.run.call(&due, entry, || text(first, whole()));
            let behind = rest.len().min((taken + 1) * SIZE);
            rest = &mut rest[behind..];
        }
        self.left(first, state)
    }

    /// Nothing where what was written is not entries, or a byte of the log was written before them, after them or around it.
    fn left(&mut self, first: State, after: State) -> Option<Left> {
        let entries = self.log.slice().get(first.place..after.place)?.to_vec();
        self.log.expect(first.place, &entries);
        let sound = entries.chunks(ENTRY).all(|entry| entry.try_into().is_ok_and(|entry| decoded(entry).is_some()));
        (sound && self.log.unchanged()).then(|| (after.numbers(), entries))
    }
}

/// The packets after one with this counter. Of four lists one has as many events as it can: starts and what goes on with them, with the
/// counters that are due. In the others every kind comes, a counter of four is the same and one jumps, and a packet of 16 is refused.
fn random_list(last: u64, rng: &mut Rng) -> Vec<Vec<u8>> {
    let (rich, mut counter) = (rng.below(4) == 0, last as u8);
    let count = 1 + rng.below(MOST);
    let packets = (0..count).map(|_| {
        let (kind, step) = match rich {
            true => ([START, PLAIN][rng.below(2)], 1),
            false => (rng.below(KINDS.len()), [1, 1, 0, 2 + rng.below(14)][rng.below(4)]),
        };
        counter = (counter & 0x0f) + step as u8;
        let mut packet = made(kind, counter).to_vec();
        match rng.below(32) {
            0 if !rich => packet[0] = 0x46,
            1 if !rich => packet.truncate(SIZE - 1),
            _ => (),
        }
        packet
    });
    packets.collect()
}

// ---- Inputs that reach it.

/// Every number of packets up to the first is tried with every number of starts, and so many random ones up to the second.
const ALL_TO: usize = 48;
const SOME_TO: usize = 5_000;
const SOME: usize = 16;

/// Runs with logs of just the length that lists from this state fill, and with shorter ones. The events are told by the oracle, in the
/// standard mode by the rules.
fn compare_reached(name: &str, first: State, more: usize, rng: &mut Rng) -> impl Iterator<Item = Tally> {
    let judge = if first.mode == CRATE { "the calls of the Rust" } else { "the rules" };
    let mut tally = Tally::of_oracle(&format!("{name}, {judge}"), &[0]);
    let mut runs = Runs::new(&format!("machine::run, {name}"), [&[0], &[0, 15]]);
    let some = [(); SOME].map(|()| ALL_TO + 1 + rng.below(SOME_TO - ALL_TO)).map(|p| (p, 1 + rng.below(p)));
    for (p, s) in (1..=ALL_TO).flat_map(|p| (1..=p).map(move |s| (p, s))).chain(some) {
        let counter = if first.last == NONE { rng.below(16) } else { first.last as usize + 2 };
        let packets = in_sequence([p, s], counter, rng);
        let told = Told::new(first, &packets);
        let (most, events) = (p + s + more, told.before(p).place / ENTRY);
        let input = || text(first, packets.chunks_exact(SIZE));
        tally.take_check(&Answer::value(most as u64), events == most, input, || events.to_string());
        if events == most {
            fill_logs(&mut runs, &packets, &told, rng);
        }
    }
    runs.into_tallies().into_iter().chain([tally])
}

/// Packets with counters in sequence from this one on: p of them, of which the first and s - 1 others start a unit.
fn in_sequence([p, mut s]: [usize; 2], counter: usize, rng: &mut Rng) -> Vec<u8> {
    let packets = (0..p).map(|nth| {
        let is_start = nth == 0 || rng.below(p - nth) < s;
        s -= usize::from(is_start);
        made(if is_start { START } else { PLAIN }, (counter + nth) as u8)
    });
    packets.collect::<Vec<_>>().concat()
}

/// A run takes all packets with a log that their entries fill. With one that is a byte or an entry shorter it takes all but the last.
fn fill_logs(runs: &mut Runs, packets: &[u8], told: &Told, rng: &mut Rng) {
    let (count, mut filling) = (told.count(), vec![0; told.before(told.count()).place]);
    let (mut lent, mut log) = (Lent::new(packets.len()), Lent::new(filling.len()));
    rng.fill(&mut filling);
    lent.set(packets, rng.next() as u8);
    for (less, packets, ended) in [(0, count, 0), (1, count - 1, 15), (ENTRY, count - 1, 15)] {
        let (room, part) = (filling.len() - less, 0..lent.len());
        log.set(&filling[..room], rng.next() as u8);
        log.expect(0, told.entries(0, packets));
        let call = Call { state: told.before(0), packets: &mut lent, part, log: &mut log, room };
        call.run(runs, Ok(Ran { packets, ended }), told.before(packets));
    }
}

// ---- The greatest number of events.

/// Every list is tried of the kinds up to this, with these steps of the counter, and of at most so many packets: from a fresh state, and
/// from others.
const ALPHABET: usize = 4;
const STEPS: [u8; 3] = [1, 0, 2];
const LONGEST: usize = 5;
const LONGEST_FROM_OTHERS: usize = 4;

/// The greatest number of events of p packets and s starts from a state, worked out by hand. A packet has one at most, and one more with
/// the start flag. In the standard mode StartStream comes beside them, with a start or a break, if it is due. The first packet has one
/// less where it can be no break and comes in no unit, which StartStream makes up for in the crate's mode.
fn greatest(State { mode, phase, last, announced, .. }: State, p: usize, s: usize) -> usize {
    let one_less = last == NONE && phase != STARTED;
    let one_more = match mode {
        STANDARD => announced == 0 && (s > 0 || p > 1 || last != NONE),
        _ => one_less && phase == BEGIN && s > 0,
    };
    p + s + usize::from(one_more) - usize::from(one_less)
}

/// The greatest number for p and s.
type Table = BTreeMap<(usize, usize), usize>;

fn compare_greatest(rng: &mut Rng) -> Vec<Tally> {
    let names = ["from a fresh state", "from each kind of state", "over all states"];
    let names = names.map(|name| format!("the greatest number of events, {name}"));
    let [mut fresh, mut each, mut over_all] = names.map(|name| Tally::beside(&name, &[0]));
    let (mut lists, counter) = (Lists::new(), rng.below(16) as u64);
    for mode in [CRATE, STANDARD] {
        let first = State { mode, ..State::FIRST };
        // Without a start the first packet has no event: it is no break, and there is no unit to go on with. In the standard mode the
        // first break makes up for it, with StartStream beside ContinuityError.
        let due = |p, s| if s > 0 || mode == STANDARD && p > 1 { p + s } else { p - 1 };
        compare_table(&mut fresh, first, &lists.from(first, LONGEST), due);
        let mut all = Table::new();
        for first in every_state(mode).filter(|state| [counter, NONE].contains(&state.last)) {
            let table = lists.from(first, LONGEST_FROM_OTHERS);
            compare_table(&mut each, first, &table, |p, s| greatest(first, p, s));
            table.into_iter().for_each(|(at, events)| raise(&mut all, at, events));
        }
        compare_table(&mut over_all, first, &all, |p, s| p + s + usize::from(mode == STANDARD));
    }
    vec![lists.step, lists.rust, fresh, each, over_all]
}

fn raise(table: &mut Table, at: (usize, usize), events: usize) {
    let most = table.entry(at).or_default();
    *most = events.max(*most);
}

fn compare_table(tally: &mut Tally, first: State, table: &Table, due: impl Fn(usize, usize) -> usize) {
    for (&(p, s), &found) in table {
        let (due, input) = (due(p, s), || format!("{first:?}, p {p}, s {s}"));
        tally.take_check(&Answer::value(due as u64), found == due, input, || found.to_string());
    }
}

/// Every list of packets from a state, by steps that lists that begin alike have in common.
struct Lists {
    step: Tally,
    rust: Tally,
    first: State,
    packets: Vec<[u8; SIZE]>,
    log: Vec<u8>,
    table: Table,
}

impl Lists {
    fn new() -> Lists {
        let step = Tally::new("machine::step, every list: at most the greatest number of events", &[0]);
        let rust = Tally::of_oracle("machine::step, every list: as many events as calls of the Rust", &[0]);
        let log = vec![0; longest_log(LONGEST)];
        Lists { step, rust, first: State::FIRST, packets: vec![], log, table: Table::new() }
    }

    fn from(&mut self, first: State, longest: usize) -> Table {
        self.first = first;
        self.go_on(first, first.last as u8, 0, longest);
        std::mem::take(&mut self.table)
    }

    /// After the packets so far, which leave this state, with each packet of the alphabet, and so many in all.
    fn go_on(&mut self, state: State, last: u8, starts: usize, longest: usize) {
        if self.packets.len() == longest {
            return;
        }
        for (kind, step) in (0..ALPHABET).flat_map(|kind| STEPS.map(|step| (kind, step))) {
            let (mut after, counter) = (state, (last & 0x0f) + step);
            let mut packet = made(kind, counter);
            let word = host_machine::step(&mut after, &mut packet, &mut self.log);
            let starts = starts + usize::from(has_start_flag(&packet));
            self.packets.push(packet);
            self.take(word, after.place / ENTRY, starts);
            self.go_on(after, counter, starts, longest);
            self.packets.pop();
        }
    }

    /// The oracle knows nothing of repeats and announcements: it is asked once for all states that differ in them alone.
    fn take(&mut self, word: u32, events: usize, starts: usize) {
        let (first, packets) = (self.first, || self.packets.iter().map(<[u8; SIZE]>::as_slice));
        let (count, input) = (self.packets.len(), || text(first, packets()));
        let agrees = word == 0 && events <= greatest(first, count, starts);
        self.step.take_check(&Answer::done(&[]), agrees, input, || format!("{word}, {events} events"));
        raise(&mut self.table, (count, starts), events);
        let asked = first.again == 0 && first.announced == 0;
        if let Some(calls) = asked.then(|| calls(first, packets())).flatten() {
            self.rust.take_check(&Answer::done(&[]), calls == events, input, || format!("{calls}, {events} events"));
        }
    }
}
